"""Lexemes: what stands at one place of the text.

Each function takes the text and a place where its lexeme begins. It answers an Item, or None where
no such lexeme begins there. The end of the text counts as a line end.
"""
import re
from typing import NamedTuple


class Item(NamedTuple):
    end: int                # the place after the lexeme
    value: bytes = b''
    faults: tuple = ()      # pairs of a place and a text


WORD = rb'A-Za-z0-9_$\x80-\xff'
BLANK_RUN = re.compile(rb'[ \t\r\v\f]+')
WHITE_RUN = re.compile(rb'[ \t\r\v\f\n]+')
# A section begins at `@` before a space, a tab, a line end or a star.
SECTION = re.compile(rb'@(?:[ \t\n*]|\Z)')
NAME_BODY = re.compile(rb'(?:[^@]|@[^ \t\n*<(>])*')
SIGN = re.compile(rb'[ \t]*\+?=(?!=)')
CONTROL_BODY = re.compile(rb'(?:[^@\n]|@@)*')
PREFIXED_QUOTE = re.compile(rb'''(?:u8|[LuU])?(["'])''')
# A backslash takes its next byte along, a line end too, but never an `@`.
QUOTE_BODY = {q: re.compile(rb'(?:[^\\\n' + q + rb']|\\[^@]|\\(?=@|\Z))*') for q in (b'"', b"'")}
RAW_START = re.compile(rb'(?:u8|[LuU])?R"([^ \t\r\v\f\n()\\"@]{0,16})\(')
IDENTIFIER = re.compile(rb'(?![0-9])[' + WORD + rb']+')
# A sign belongs to a number right after an exponent letter, in decimal and in hexadecimal numbers.
NUMBER = re.compile(rb'\.?[0-9](?:[eEpP][+-]|[' + WORD + rb'.])*')
PUNCTUATORS = (b'... <<= >>= ->* -> ++ -- << >> <= >= == != && || *= /= %= += -= &= ^= |= ## :: .*'
               .split())
ASCII = re.compile(rb"""@'(?:([^'\\@\n\x80-\xff])|(@@)|\\([0-7]{1,3})|\\([abfnrtv\\'"?]))'""")
ESCAPED = dict(zip(b'abfnrtv\\\'"?', (7, 8, 12, 10, 13, 9, 11, 92, 39, 34, 63)))
BAD_ASCII_BODY = re.compile(rb"[^'\n]*'?")
LIMBO_L = re.compile(rb'[ \t]*([89A-Fa-f][0-9A-Fa-f])[ \t]+([A-Za-z0-9_]*)')


def section(text, at):
    return SECTION.match(text, at) is not None


def undouble(text, at):
    """`@@` stands for `@`. A single one is kept; its place in the whole text is a fault."""
    parts = text.split(b'@@')
    faults = []
    for part in parts:
        faults += [at + n for n, byte in enumerate(part) if byte == ord('@')]
        at += len(part) + 2
    return b'@'.join(parts), tuple((place, b'Double @ in strings') for place in faults)


def comment(text, at):
    """A section start ends it with a fault, as the end of the text does in `/*`.

    Any other `@` takes its next byte along. The `*` of the opening cannot close it.
    """
    if text[at:at + 2] not in (b'/*', b'//'):
        return None
    block = text[at + 1:at + 2] == b'*'
    here = at + 2
    while here < len(text) and not section(text, here):
        if block and text.startswith(b'*/', here):
            return Item(here + 2)
        if not block and text.startswith(b'\n', here):
            return Item(here)
        here += 2 if text.startswith(b'@', here) else 1
    faulty = block or here < len(text)
    return Item(here, faults=((at, b'Comment did not end'),) if faulty else ())


def name(text, at):
    """A section name without its signs. `@` takes its next byte along, so `@@>` ends no name."""
    end = NAME_BODY.match(text, at + 2).end()
    value = text[at + 2:end]
    if text.startswith(b'@>', end):
        return Item(end + 2, value)
    nested = text[end:end + 2] in (b'@<', b'@(')
    fault = b'Section names do not nest' if nested else b'Section name did not end'
    return Item(end, value, ((at, fault),))


def plain_name(value):
    """White runs, line ends included, are one blank and are dropped at the ends."""
    return WHITE_RUN.sub(b' ', value).strip(b' ').replace(b'@@', b'@')


def control_text(text, at):
    """Lasts to the first single `@` or the line end; only `@>` closes it well."""
    end = CONTROL_BODY.match(text, at + 2).end()
    if text.startswith(b'@>', end):
        return Item(end + 2, text[at + 2:end].replace(b'@@', b'@'))
    return Item(end, b'', ((at, b'Control text did not end'),))


def raw_literal(text, at):
    """Lasts to `)`, the delimiter and a quote. A section start or the end cuts it short."""
    start = RAW_START.match(text, at)
    if not start:
        return None
    close = b')' + start[1] + b'"'
    here = start.end()
    while here < len(text) and not section(text, here):
        if text.startswith(close, here):
            here += len(close)
            return Item(here, *undouble(text[at:here], at))
        here += 2 if text.startswith(b'@@', here) else 1
    value, faults = undouble(text[at:here], at)
    return Item(here, value, faults + ((at, b'String did not end'),))


def quoted(text, at):
    """A literal in double or single quotes. A line end cuts it short; no section starts in it."""
    start = PREFIXED_QUOTE.match(text, at)
    if not start:
        return None
    end = QUOTE_BODY[start[1]].match(text, start.end()).end()
    closed = text.startswith(start[1], end)
    end += closed
    value, faults = undouble(text[at:end], at)
    return Item(end, value, faults if closed else faults + ((at, b'String did not end'),))


def literal(text, at):
    return raw_literal(text, at) or quoted(text, at)


def include_name(text, at):
    """`<` up to the first `>` on its line, whatever stands between."""
    line_end = text.find(b'\n', at)
    close = text.find(b'>', at, line_end if line_end >= 0 else len(text))
    if not text.startswith(b'<', at) or close < 0:
        return None
    return Item(close + 1, *undouble(text[at:close + 1], at))


def ascii_constant(text, at):
    """The code of one character, in decimal. A faulty one lasts to a quote or the line end."""
    found = ASCII.match(text, at)
    plain, at_sign, octal, escape = found.groups() if found else (None,) * 4
    if not found or octal and int(octal, 8) > 255:
        end = BAD_ASCII_BODY.match(text, at + 2).end()
        return Item(end, b'', ((at, b'Faulty ASCII constant'),))
    if octal:
        code = int(octal, 8)
    elif escape:
        code = ESCAPED[escape[0]]
    else:
        code = (plain or b'@')[0]
    return Item(found.end(), b'%d' % code)


def matched(pattern):
    def lexeme(text, at):
        found = pattern.match(text, at)
        return Item(found.end(), found[0]) if found else None
    return lexeme


blanks = matched(BLANK_RUN)
white = matched(WHITE_RUN)
identifier = matched(IDENTIFIER)
number = matched(NUMBER)


def punctuator(text, at):
    """The longest one of the list, else one byte."""
    size = next((n for n in (3, 2) if text[at:at + n] in PUNCTUATORS), 1)
    return Item(at + size, text[at:at + size])
