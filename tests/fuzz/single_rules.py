"""Webs that show one rule each: a byte, an escape or a name, in each context where it can be."""
from itertools import product

from .exhaustive import TOGETHER, shared
from .running import Web

BYTES = [bytes([n]) for n in range(256)]
# What stands before the `@` of a code, by context.
BEFORE_CODE = (
    b'x',                           # limbo
    b'@ x',                         # TeX text
    b'@ @d ',                       # a head
    b'@ @d m x',                    # a macro
    b'@ @c x',                      # C text
    b'@ @c\n#d x',                  # a directive
    b'@ @c\n#include <x',           # the name of an include
    b'@ @c /* x', b'@ @c // x',     # comments
    b'@ @c "x', b'@ @c R"(x',       # strings
    b'@ @c @<x', b'@ @<x',          # names
    b'@ @c @^x', b'@ @c @=x', b'@q x', b"@ @c @'",      # control texts, and a constant
)
# What stands after the code. Each closes some of these contexts.
AFTER_CODE = (b' y\n@ @c z\n', b'y@>=z\n', b'\'"*/)">@>;\n')
# What stands round a byte in C text.
ROUND_BYTE = ((b'a', b'b'), (b'1', b'2'), (b'1e', b'2'), (b'"a', b'b"'), (b"'a", b"b'"),
              (b'', b'"a"'), (b'', b"'a'"), (b'u8', b"a'"), (b'R"', b'(x)"'), (b'\\', b'a'),
              (b'"\\', b'"'), (b'@<a', b'b@>'), (b'#', b' a'))
PREFIXES = (b'', b'L', b'u', b'U', b'u8', b'R', b'LR', b'uR', b'UR', b'u8R',
            b'l', b'U8', b'u8L', b'Ru8', b'8')


def codes():
    """Every byte after an `@`, in each context."""
    for before, byte, after in product(BEFORE_CODE, BYTES, AFTER_CODE):
        yield Web({b'w.w': before + b'@' + byte + after}, {'ctangle': [b'w']})


def constants():
    """Every byte and every escape between the quotes of `@'`, and octal numbers."""
    inner = BYTES + [b'\\' + byte for byte in BYTES]
    digits = BYTES[ord('0'):ord('9') + 1]
    inner += [b'\\' + b''.join(chosen) for n in (2, 3) for chosen in product(digits, repeat=n)]
    inner += [b'\\0' + b''.join(chosen) for chosen in product(digits, repeat=3)]
    return [b"x @'" + text + b"' y" for text in inner]


def bytes_of_c_text():
    """Every byte beside others in C text, and every prefix of a string."""
    yield from (before + byte + after for before, after in ROUND_BYTE for byte in BYTES)
    strings = (b'"a"', b"'a'", b'"(a)"', b"'(a)'")
    yield from (prefix + string for prefix in PREFIXES for string in strings)


def together(strings, before):
    strings = list(strings)
    for at in range(0, len(strings), TOGETHER):
        yield shared([(before, string) for string in strings[at:at + TOGETHER]])


def three_runs(files, words, inputs=None):
    return Web(files, {'wmerge': words[:2], 'wdep': words, 'ctangle': words}, inputs)


def names():
    """Every byte in words of the command line, in names of files and outputs, in CWEBINPUTS."""
    text = b'@ @c x;\n@ @<a@>=\n'
    change = b'@x\n@ @c x;\n@y\n@ @c\ny;\n@z\n'
    letters = [b'\xc3\xbc', b'\xc2\x80', b'\xe2\x82\xac', b'\xc3', b'\xed\xa0\x80']
    for byte in BYTES[1:] + letters:
        name = b'a' + byte + b'b'
        if byte != b'/':
            yield three_runs({name + b'.w': text}, [name])
            yield three_runs({b'w.w': text, name + b'.ch': change}, [b'w', name])
            includes = b'@i "%s"\n@i %s\n' % (name, name)
            yield three_runs({b'w.w': includes, name: b'@ @c\nx;\n'}, [b'w'])
        yield Web({b'w.w': text}, {'ctangle': [b'w', b'-', name], 'wdep': [b'w', b'-', name]})
        yield Web({b'w.w': text}, {'ctangle': [b'-b' + byte, b'w'], 'wdep': [b'-b' + byte, b'w']})
        yield Web({b'w.w': b'@ @(%s@>=\nx;\n' % name}, {'ctangle': [b'w'], 'wdep': [b'w']})
        yield three_runs({b'w.w': b'@i i\n@i "i"\n', name + b'/i': b'@ @c\nx;\n'}, [b'w'], name)


def folders():
    """Absolute names and doubled slashes, as they are and below CWEBINPUTS."""
    includes = (b'/not-there/i', b'//not-there/i', b'/not-there//i', b'not-there/i',
                b'lib//i', b'lib/./i', b'.//i', b'i')
    folder_names = (None, b'lib', b'lib/', b'lib//', b'./lib', b'lib/.', b'/not-there', b'.')
    files = {b'i': b'@ @c\ni;\n', b'lib/i': b'@ @c\nlib;\n',
             b'lib/not-there/i': b'@ @c\nlibrary;\n'}
    for name, inputs in product(includes, folder_names):
        yield three_runs({b'w.w': b'@i %s\n@i "%s"\n' % (name, name), **files}, [b'w'], inputs)


def cycles():
    """Outputs without an end, in each order, beside outputs that end."""
    endless = {b'a': b'@<A@>', b'b': b'@<x@>@<B@>', b'c': b'@(c@>', b'd': b'@<x@>'}
    parts = b'@ @<A@>=@<A1@>\n@ @<A1@>=@<A@>\n@ @<B@>=@<B@>\n@ @<x@>=1\n'
    for chosen in product(endless, repeat=3):
        sections = [b'@ @(%s@>=%s\n' % (name, endless[name]) for name in chosen]
        for main in (b'', b'@ @c y\n', b'@ @c @<B@>\n', b'@ @c @<x@>@<A1@>\n'):
            yield Web({b'w.w': b''.join(sections) + main + parts}, {'ctangle': [b'w'], 'wdep': [b'w']})


def webs():
    yield from codes()
    for before in (b'@ @c\n', b'@ @d m '):
        yield from together(constants(), before)
        yield from together(bytes_of_c_text(), before)
    yield from names()
    yield from folders()
    yield from cycles()
