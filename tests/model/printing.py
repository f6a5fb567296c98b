"""Tokens as bytes: separators, line marks, section comments, transliterated words."""

OPERATORS = b'+-*/%&|^!=<>.:#?'
LINE_STARTS = ('Newline', 'Mark', 'Defs')
VALUES = ('Word', 'Number', 'Literal')
COMMENTS = ('Head', 'Tail')
END = ('End', b'')


def separator(left, right):
    """One blank where the two would be read otherwise when they stand side by side."""
    (kind, value), (other, following) = left or ('', b''), right
    if kind in VALUES and other in VALUES:
        apart = not kind == other == 'Literal'
    elif kind == 'Number' and other == 'Punct':
        apart = following[0] in b'.+-'
    elif kind == 'Punct' and other == 'Number':
        apart = value[-1:] == b'.'
    elif kind == 'Punct' and value[-1] in OPERATORS:
        apart = other in COMMENTS or other == 'Punct' and following[0] in OPERATORS
    else:
        apart = kind in ('Join', 'Verbatim') and other in COMMENTS
    return b' ' if apart else b''


def without_layout_after_joins(tokens):
    """Layout after a Join is dropped, section comments between them or not."""
    joined = False
    for token in tokens:
        if joined and token[0] in ('Blank', 'Newline', 'Mark'):
            continue
        if token[0] not in COMMENTS:
            joined = token[0] == 'Join'
        yield token


class Printer:
    """`replacements` has spellings of bytes from 128; others become X and two digits."""

    def __init__(self, file_names, replacements, macros):
        self.file_names = file_names
        self.replacements = replacements
        self.macro_lines = b''      # macro lines stand in no macro
        lines = [b'#define ' + self.tokens(macro.tokens, b' \\\n') + b'\n' for macro in macros]
        self.macro_lines = b''.join(lines)

    def file(self, tokens):
        return self.tokens([*tokens, END], b'\n')

    def tokens(self, tokens, newline):
        """At a line start means: no token to the left, or a Newline, a Mark or the macro lines."""
        out = []
        left = None
        for token in without_layout_after_joins(tokens):
            at_start = left is None or left[0] in LINE_STARTS
            out.append(separator(left, token))
            if token[0] in ('Mark', 'Defs', 'End') and not at_start:
                out.append(b'\n')
            out.append(newline if token[0] == 'Newline' else self.token(*token))
            left = token
        return b''.join(out)

    def token(self, kind, value):
        if kind == 'Word':
            spelled = ((self.replacements.get(byte, b'X%02X' % byte), byte) for byte in value)
            return b''.join(bytes([byte]) if byte < 128 else new for new, byte in spelled)
        if kind == 'Mark':
            name = self.file_names[value.file].replace(b'\\', b'\\\\').replace(b'"', b'\\"')
            return b'#line %d "%s"\n' % (value.line, name)
        if kind in COMMENTS:
            return (b'/*%d:*/' if kind == 'Head' else b'/*:%d*/') % value
        return {'Blank': b' ', 'Join': b'', 'Defs': self.macro_lines}.get(kind, value)
