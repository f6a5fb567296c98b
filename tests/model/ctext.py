"""The tokens of C text, in parts and in macros."""
from . import lexemes as lex
from .merge import Place
from .part import BACKSLASH


class CText:
    """The half of the scanner that is at work inside a part or macro."""

    def c_text(self, at):
        """The first rule that fits is taken."""
        text, part = self.text, self.part
        if text[at] == 10:
            self.line_end(at)
            return at + 1
        if text[at] == ord('@'):
            return self.macro_code(at) if part.is_macro else self.part_code(at)
        if item := lex.blanks(text, at):
            part.blank()
        elif item := lex.comment(text, at):
            self.comment(at, item.end)
        elif item := part.wants_file() and lex.include_name(text, at) or lex.literal(text, at):
            part.push('Literal', item.value)
        elif item := lex.identifier(text, at):
            part.push('Word', item.value)
        elif item := lex.number(text, at):
            part.push('Number', item.value)
        else:
            item = lex.punctuator(text, at)
            # A macro prints a backslash of its own at each line end.
            if not (part.is_macro and item.value == b'\\' and text[at + 1:at + 2] in (b'', b'\n')):
                part.push('Punct', item.value, at)
        return self.take(item)

    def comment(self, at, end):
        """In a directive a comment is a blank; elsewhere only its line ends count."""
        if self.part.directive():
            return self.part.blank()
        for here in range(at, end):
            if self.text[here] == 10:
                self.line_end(here)

    def line_end(self, at):
        """A Newline where the next line follows in its file, else a Mark that names the line.

        The end of a directive that holds line ends, in its bytes, is always a Mark: what it prints
        need not have as many. A line end after the last token `\\` of a directive is a Newline.
        """
        here, following = self.place(at), self.place(at + 1)
        directive = self.part.directive()
        if self.part.is_macro or directive and self.part.last() == BACKSLASH:
            self.part.push('Newline')
        elif directive and b'\n' in self.text[directive[0]:at]:
            self.part.push('Mark', following)
        elif following == Place(here.file, here.line + 1):
            self.part.push('Newline')
        else:
            self.part.push('Mark', following)

    def macro_code(self, at):
        """Codes of the middle part end the macro."""
        code = self.code(at)
        if code in (b'd', b'f', b's', b'c', b'p', b'<', b'('):
            self.close()
            self.context = self.body
            return at
        if code == b'h':
            self.fault(at, b'@h is ignored in a macro')
            return at + 2
        return self.shared_code(at)

    def part_code(self, at):
        code = self.code(at)
        if code in (b'd', b'f', b's', b'c', b'p'):
            self.fault(at, b'@d, @f, @s, @c and @p are ignored in C text')
        elif code in (b'<', b'('):
            return self.use(at)
        elif code == b'h':
            self.part.push('Defs')
            self.part.push('Mark', self.place(at))
        else:
            return self.shared_code(at)
        return at + 2

    def use(self, at):
        """A use, and the line on which it ends. An opener sign after it is a fault and C text."""
        item = lex.name(self.text, at)
        self.part.push('Name', self.occurrence(at, item.value))
        self.part.push('Mark', self.place(item.end))
        if not item.faults and lex.SIGN.match(self.text, item.end):
            self.fault(at, b'Missing @ before a named section')
        return self.take(item)

    def shared_code(self, at):
        """Codes that macros and parts treat alike."""
        code = self.code(at)
        if code == b'&':
            self.part.join()
        elif code == b'@':
            self.part.push('Punct', b'@')
        elif code == b'l':
            self.fault(at, b'Use @l in limbo only')
        elif code == b"'":
            return self.pushed('Number', lex.ascii_constant(self.text, at))
        elif code == b'=':
            return self.pushed('Verbatim', lex.control_text(self.text, at))
        elif code in (b'^', b'.', b':', b't', b'q'):
            return self.take(lex.control_text(self.text, at))
        return at + 2

    def pushed(self, kind, item):
        if not item.faults:
            self.part.push(kind, item.value)
        return self.take(item)
