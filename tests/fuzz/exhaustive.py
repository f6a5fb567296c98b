"""All short strings over small alphabets, and all short change files.

Many strings share a web: each has a section of its own. Nothing reaches over the `;` line after a
string: a literal ends at that line at the latest, and a section start ends everything else. What
comes right after a string matters too, so short strings have webs of their own as well, where a
section start or the end of the text follows at once.
"""
from itertools import islice, product

from .running import Web

PIECES = 5
SHORT = 3
TOGETHER = 400

# Each alphabet has a name, what stands before a string, and its pieces.
ALPHABETS = (
    ('quotes and escapes', b'@ @c\n', (b'"', b"'", b'\\', b'@@', b'@', b'a', b'\n')),
    ('prefixes', b'@ @c\n', (b'L', b'u', b'8', b'U', b'R', b'"', b' ')),
    ('raw strings', b'@ @c\n', (b'R"', b'(', b')', b'd', b'"', b'@', b'\n')),
    ('numbers', b'@ @c\n', (b'1', b'.', b'e', b'P', b'+', b'x', b'-')),
    ('punctuators', b'@ @c\n', (b'<', b'>', b'=', b'-', b'*', b'.', b'?')),
    ('comments', b'@ @c\n', (b'/', b'*', b'@', b'a', b' ', b'\n')),
    ('codes', b'@ @c\n', (b'@=', b'@^', b'@>', b'@@', b'@&', b'a', b'\n')),
    ('names', b'@ @c\n', (b'@<', b'@>', b'@(', b'a', b'...', b'=', b'\n')),
    ('macros', b'@ ', (b'@d', b' ', b'a', b'(', b'\\', b'\n', b'@&')),
    ('directives', b'@ @c\n', (b'#', b'include', b' ', b'<a>', b'\\', b'\n', b'@&')),
)
# Strings over these have at most three pieces.
WIDE_ALPHABETS = (
    ('all punctuators', b'@ @c\n', tuple(b'+-*/%&|^!=<>.:#?~;,()[]{}\\`')),
    ('mixed C text', b'@ @c\n', (
        b'a', b'1', b'.5', b'"s"', b"'c'", b'R"(r)"', b'@=v@>', b'@&', b'@h', b'@<n@>', b'/*c*/',
        b'/*c\n*/', b'//c', b'#', b'\\', b'\n', b' ', b'-', b'.', b'@@', b'\xfc', b"@'a'")),
    ('mixed directives', b'@ @c\n#', (
        b'a', b'include', b'<a>', b'<a@>', b'"s"', b'"s\\\nt"', b'R"(\n)"', b'@&', b'@h',
        b'@<\nn@>', b'/*c*/', b'/*c\n*/', b'//c', b'#', b'\\', b'\n', b' ', b'##', b'@^i@>')),
    ('mixed macros', b'@ @d m', (
        b'a', b'1', b'"s"', b'"s\\\nt"', b'R"(\n)"', b'@&', b'@h', b'@l', b'@=v@>', b'/*c*/',
        b'/*c\n*/', b'//c', b'#', b'\\', b'\n', b' ', b'(', b'@f', b'@@', b'\xfc', b'@d n')),
    ('controls', b'@ @c a', tuple(bytes([n]) for n in (0, 1, 9, 11, 12, 13, 27, 32, 64, 127, 128,
                                                       255)) + (b'"', b'R"', b"@'", b"'")),
)
# Each of these strings has a web of its own: it may open parts, or it stands in limbo.
ALONE = (
    ('parts', b'@ @c @<a@>\n@ ', (b'@<', b'@>', b'@(', b'a', b'=', b'+')),
    ('limbo', b'', (b'@l ', b' ', b'fc', b'a', b'$', b'\n')),
)
AFTER_ALONE = b'\n@ @c \xfc\n'
CHANGE_LINES = (b'@x', b'@y', b'@z', b'A', b'B', b'', b'@i i')


def strings(pieces, most):
    pieces = [piece if isinstance(piece, bytes) else bytes([piece]) for piece in pieces]
    for count in range(most + 1):
        for chosen in product(pieces, repeat=count):
            yield b''.join(chosen)


def tangled(text, string=None):
    return Web({b'w.w': text}, {'ctangle': [b'w']}, strings=[] if string is None else [string])


def together():
    for name, before, pieces in ALPHABETS + WIDE_ALPHABETS:
        most = PIECES if (name, before, pieces) in ALPHABETS else SHORT
        rest = iter(strings(pieces, most))
        while group := [(before, string) for string in islice(rest, TOGETHER)]:
            yield shared(group)


def shared(group):
    web = tangled(b''.join(before + string + b'\n;\n' for before, string in group))
    web.strings = group
    return web


def alone():
    for _, before, pieces in ALPHABETS:
        for string in strings(pieces, SHORT):
            yield tangled(before + string + b'@ @c b\n' + before + string, string)
    for _, before, pieces in ALONE:
        for string in strings(pieces, PIECES):
            yield tangled(before + string + AFTER_ALONE, string)


def changes():
    files = {b'w.w': b'A\n@i i\nB\nA\n', b'i': b'B\nA\n'}
    for count in range(PIECES + 1):
        for lines in product(CHANGE_LINES, repeat=count):
            text = b''.join(line + b'\n' for line in lines)
            yield Web({**files, b'c.ch': text}, {'wmerge': [b'w', b'c']})


def webs():
    yield from together()
    yield from alone()
    yield from changes()
