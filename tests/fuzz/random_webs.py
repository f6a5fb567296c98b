"""Random webs: each is a function of the seed and its number."""
import random

from . import pieces as p
from .running import Web

NAMES = [b'a', b'ab', b'abc', b'Global variables', b'Global types', b'Main', b'X', b'a@b', b'...',
         b'a...b', b'', b'\xfc', b'e f  g', b'Glob']


class Maker:
    def __init__(self, seed, number):
        self.random = random.Random(f'{seed} {number}')
        self.chance = self.random.random
        self.pick = self.random.choice
        self.names = self.random.sample(NAMES, self.random.randint(1, 5))
        self.files = self.random.sample(p.OUT_NAMES[:4] * 8 + p.OUT_NAMES, 2)

    def count(self, low, high):
        return self.random.randint(low, high)

    # Names.

    def spelled(self, name, may_shorten=True):
        """A name with white of many kinds, doubled `@`, perhaps cut short to a prefix."""
        if may_shorten and self.chance() < 0.25 and name:
            name = name[:self.count(0, len(name))] + b'...'
        white = self.pick([b' ', b'  ', b'\n', b'\t', b' \r', b'\x0b', b'\x0c '])
        name = name.replace(b'@', b'@@').replace(b' ', white if self.chance() < 0.5 else b' ')
        if self.chance() < 0.2:
            name = self.pick([white + name, name + white, name + b'@x', name + b'@\x0b',
                              b'@^' + name])
        return name

    def name(self, name, is_file=False, may_shorten=True):
        opening = b'@(' if is_file else b'@<'
        closing = self.pick([b'@>'] * 30 + [b'', b'@', b'@<', b'@@>', b'>', b'@ '])
        return opening + self.spelled(name, may_shorten) + closing

    def use(self, level):
        """A use of a later name as a rule: webs with a cycle have no output."""
        later = self.names[level + 1:] if self.chance() < 0.95 else self.names
        if not later or self.chance() < 0.05:
            return self.name(self.pick(self.files), is_file=True)
        return self.name(self.pick(later))

    # C text.

    def c_line(self, level):
        if self.chance() < 0.15:
            return self.pick(p.DIRECTIVES) + self.tail()
        gap = self.pick([b'', b'', b' ', b' ', b'  ', b'\t'])
        parts = [self.pick(p.C_TEXT) for _ in range(self.count(0, 6))]
        if self.chance() < 0.3:
            parts.insert(self.count(0, len(parts)), self.use(level))
        if self.chance() < 0.03:
            parts.append(self.use(level) + self.pick(p.SIGNS))
        return gap.join(parts) + self.tail()

    def tail(self):
        odd = [b' \n', b'\\\n', b' \\\n', b' \\ \r\n', b'\x0c\n', b'\n\n', b'']
        return self.pick([b'\n'] * 12 + odd)

    def c_text(self, level, most=4):
        return b''.join(self.c_line(level) for _ in range(self.count(0, most)))

    def macro(self):
        head = self.pick([b'@d ', b'@d ', b'@d\t', b'@D ', b'@d\n', b'@d', b'@d /* c */ ',
                          b'@d // c\n'])
        odd = [b'f(x)', b'g (x)', b'"s"', b'L"s"', b'R"(x)"', b'']
        name = self.pick(p.WORDS + p.NUMBERS[:2] + odd)
        return head + name + self.pick([b' ', b'', b'\n', b'@&', b'/**/']) + self.c_text(99, 2)

    def middle(self):
        choice = self.chance()
        if choice < 0.6:
            return self.macro()
        if choice < 0.8:
            return self.pick([b'@f a b\n', b'@s a b\n', b'@F x', b'@f @<a@> b\n'])
        return self.pick(p.CODES + p.LIMBO) + b'\n'

    def tex(self):
        parts = [b'', b'text ', b'|x| ', b'/* ', b'"', self.pick(p.CODES), self.use(0)]
        return self.pick(parts) + self.pick([b'', b'\n', b' '])

    def opener(self, level):
        """Level 0 is the unnamed part; a higher one is the name that comes after it."""
        if self.chance() < 0.12:
            is_file = self.chance() < 0.8
            return self.name(self.pick(self.files), is_file) + self.pick([b'=', b'+=', b'=\n'])
        if level < 0 or self.chance() < 0.05:
            return self.pick(p.OPENERS)
        sign = self.pick([b'=', b'=\n', b'+=', b'+=\n'] * 5 + p.SIGNS)
        return self.name(self.names[level], self.chance() < 0.1, self.chance() < 0.3) + sign

    def section(self):
        level = self.count(-1, len(self.names) - 1)
        out = [self.pick(p.STARTS), self.tex() if self.chance() < 0.4 else b'']
        out += [self.middle() for _ in range(self.pick([0, 0, 0, 1, 2]))]
        if self.chance() < 0.9:
            out += [self.opener(level), self.c_text(level, self.pick([2, 5]))]
        return b''.join(out)

    def with_includes(self, text, may_loop=True):
        """A file may include itself once: twice would double its text at each depth."""
        lines = text.split(b'\n')
        for _ in range(self.pick([0, 0, 0, 1, 2])):
            line = self.pick(p.INCLUDES)
            loops = b'w.w' in line or b'i2.w' in line
            if may_loop or not loops:
                lines.insert(self.count(0, len(lines)), line)
            may_loop = may_loop and not loops
        return b'\n'.join(lines)

    def text(self):
        limbo = [self.pick(p.LIMBO) + self.pick([b'\n', b' ', b''])
                 for _ in range(self.pick([0, 0, 1, 3]))]
        sections = [self.section() for _ in range(self.count(1, 5))]
        return self.with_includes(b''.join(limbo + sections))

    # Change files.

    def change_file(self, files):
        """Entries whose old lines mostly stand in the web or in a file that it includes."""
        out = []
        for _ in range(self.pick([0, 1, 1, 2, 3])):
            text = self.pick(files) if self.chance() < 0.3 else files[0]
            lines = text.split(b'\n')
            at = self.count(0, len(lines))
            old = lines[at:at + self.pick([1, 1, 2, 4])]
            if self.chance() < 0.2:
                old.append(self.pick([b'', b'zz', b'@x', b'@z', b'@i i1.w']))
            new = self.with_includes(self.c_text(0, 2)).split(b'\n')
            if self.chance() < 0.15:
                new.insert(0, self.pick([b'@x', b'@y', b'@ @c', b'@i i1.w', b'@i b\x0bc']))
            codes = [self.pick([code] * 9 + [code.upper(), b''])
                     for code in (b'@x', b'@y rest', b'@z')]
            before = self.pick([[], [], [b'noise'], [b'@y'], [b'@z'], [b''], [b'@x']])
            out += before + codes[:1] + [b''] * self.pick([0, 0, 1]) + old
            out += codes[1:2] + new + codes[2:]
        return b'\n'.join(out) + self.pick([b'\n', b'\n', b''])

    # Whole webs.

    def web(self, texts):
        main = self.mutated(self.pick(texts)) if texts and self.chance() < 0.15 else self.text()
        if self.chance() < 0.15:
            main = self.mutated(main)
        files = {b'w.w': main, b'i1.w': self.c_text(0),
                 b'i2.w': self.with_includes(self.c_text(0), may_loop=False),
                 b'lib/lib.w': self.c_text(0), b'lib/i2.w': b'l\n', b'sub/s.w': b'@i i1.w\ns\n'}
        files.update((name, b'o%d\n' % n) for n, name in enumerate(p.ODD_FILES)
                     if self.chance() < 0.4)
        if self.chance() < 0.1:
            files[self.pick([b'd.w', b'sub/o.h', b'out.h'])] = None
        if self.chance() < 0.05:
            files[b'w.web'] = files.pop(b'w.w')
        self.odd_inputs(files)
        change = self.chance() < 0.4
        if change:
            files[b'c.ch'] = self.change_file([main, files[b'i1.w'], files[b'lib/lib.w']])
        return Web(files, self.words(change), self.inputs)

    def odd_inputs(self, files):
        self.inputs = self.pick(p.INPUTS)
        if self.inputs in (b'li b', b'l%$#:\\'):
            files[self.inputs + b'/lib.w'] = b'odd\n'
            files[self.inputs + b'/b\\'] = b'odd\n'

    def words(self, change):
        plain = [b'w', b'c'] if change else [b'w']
        if self.chance() < 0.1:
            plain = [b'w', b'c' if change else b'-', self.pick(p.ODD_WORDS)]
        if self.chance() < 0.05:
            plain = [self.pick(p.ODD_WORDS) for _ in range(self.count(0, 4))]
        words = plain[:]
        for _ in range(self.pick([0, 1, 1, 2])):
            words.insert(self.count(0, len(words)), self.pick(p.OPTIONS))
        merge = words if self.chance() < 0.03 else plain[:2]
        return {'ctangle': words, 'wdep': words, 'wmerge': merge}

    def mutated(self, text):
        """Bytes, pieces and lines taken away, doubled, moved or put in."""
        for _ in range(self.count(1, 4)):
            at = self.count(0, len(text))
            end = min(len(text), at + self.pick([0, 1, 1, 2, 8, 40]))
            sign = self.pick([b'@', b'\n', b'"', b'\\', b'*', b'/', b'>', b'<', b'#'])
            middle = self.pick([b'', self.pick(p.ALL), text[at:end] * 2, self.pick(p.ODD_BYTES),
                                sign])
            text = text[:at] + middle + text[end:]
        return text


def random_web(seed, number, texts):
    return Maker(seed, number).web(texts)
