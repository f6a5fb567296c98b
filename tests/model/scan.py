"""The merged text as sections, parts and macros.

The scanner is in one of five contexts: limbo, text, head (after a definition code), macro, C. A
section start ends each of them and begins text. The letter of a code may be of either case.
"""
from bisect import bisect_left

from . import lexemes as lex
from .ctext import CText
from .merge import Fault
from .part import Part

REPLACEMENT_LIMIT = 31


class Scan(CText):
    def __init__(self, lines):
        self.text = b'\n'.join(text for text, _ in lines)
        self.places = [place for _, place in lines]
        self.line_ends = [n for n, byte in enumerate(self.text) if byte == 10]
        self.faults = []
        self.occurrences = []       # triples: name, is it a prefix, is it a file name
        self.parts = []
        self.macros = []
        self.replacements = {}      # by byte
        self.sections = 0
        self.starred = []
        self.part = None
        self.context = self.limbo

    def run(self):
        at = 0
        while at < len(self.text):
            at = self.section(at) if lex.section(self.text, at) else self.context(at)
        self.close()
        return self

    def place(self, at):
        return self.places[bisect_left(self.line_ends, at)]

    def fault(self, at, text):
        self.faults.append(Fault(text, self.place(at)))

    def take(self, item):
        for at, text in item.faults:
            self.fault(at, text)
        return item.end

    def code(self, at):
        return self.text[at + 1:at + 2].lower()

    def section(self, at):
        self.close()
        self.sections += 1
        if self.code(at) == b'*':
            self.starred.append(self.sections)
        self.context = self.body
        return at + 2

    # Limbo and text: every byte but `@` is skipped.

    def limbo(self, at):
        if self.text[at] != ord('@'):
            return at + 1
        code = self.code(at)
        if code == b'q':
            return self.take(lex.control_text(self.text, at))
        if code == b'l':
            return self.transliterate(at)
        if code not in (b'@', b'f', b's'):
            self.fault(at, b'Double @ in limbo')
        return at + 2

    def transliterate(self, at):
        """A code from 80 in hexadecimal, space, and letters, digits and `_` in place of the byte.

        What follows that run is skipped as limbo. A run that is too long sets nothing.
        """
        found = lex.LIMBO_L.match(self.text, at + 2)
        if not found:
            self.fault(at, b'Improper hex number after @l')
            return at + 2
        if len(found[2]) > REPLACEMENT_LIMIT:
            self.fault(at, b'Replacement after @l too long')
        else:
            self.replacements[int(found[1], 16)] = found[2]
        return found.end()

    def body(self, at):
        if self.text[at] != ord('@'):
            return at + 1
        code = self.code(at)
        if code == b'd':
            return self.head(at)
        if code in (b'c', b'p'):
            return self.open('unnamed', at + 2)
        if code in (b'<', b'('):
            return self.named(at)
        return at + 2

    def occurrence(self, at, value):
        """A name of more than three bytes with three dots at its end is a prefix without them."""
        name = lex.plain_name(value)
        is_prefix = len(name) > 3 and name.endswith(b'...')
        name = name[:-3] if is_prefix else name
        self.occurrences.append((name, is_prefix, self.code(at) == b'('))
        return len(self.occurrences) - 1

    def named(self, at):
        """A name with an opener sign opens a part; one that is cut short has no sign."""
        item = lex.name(self.text, at)
        owner = self.occurrence(at, item.value)
        end = self.take(item)
        sign = lex.SIGN.match(self.text, end)
        return self.open(owner, sign.end()) if sign and not item.faults else end

    def head(self, at):
        """White and comments before the identifier give nothing; no identifier, no macro."""
        here = at + 2
        while not lex.section(self.text, here):
            item = lex.white(self.text, here) or lex.comment(self.text, here)
            if not item:
                break
            here = self.take(item)
        self.context = self.body
        word = None if lex.literal(self.text, here) else lex.identifier(self.text, here)
        if word:
            return self.open_macro(word)
        self.fault(at, b'Definition dropped, no identifier')
        return here

    def open(self, owner, end):
        """A part begins with its section's number and the line on which its opener ends."""
        self.part = Part(owner)
        self.parts.append(self.part)
        self.part.push('Head', self.sections)
        self.part.push('Mark', self.place(end))
        self.context = self.c_text
        return end

    def open_macro(self, word):
        self.part = Part('macro')
        self.macros.append(self.part)
        self.part.push('Word', word.value)
        if not self.text.startswith(b'(', word.end):
            self.part.push('Blank')
        self.context = self.c_text
        return word.end

    def close(self):
        if self.part and self.part.is_macro:
            self.part.close_macro()
        elif self.part:
            self.part.push('Tail', self.sections)
        self.part = None
