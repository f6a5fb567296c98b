"""The words of a command line."""
from typing import NamedTuple, Optional

from .folder import Stop, is_plain, is_utf8

SYNOPSIS = {
    'ctangle': b'ctangle [options] webfile[.w] [{changefile[.ch]|-} [outfile[.c]]]',
    'wdep': b'wdep [options] webfile[.w] [{changefile[.ch]|-} [outfile[.c]]]',
    'wmerge': b'wmerge webfile[.w] [{changefile[.ch]|-}]',
}


class Words(NamedTuple):
    web: bytes
    second: Optional[bytes]     # tried where the web is not there
    change: Optional[bytes]
    main: bytes
    options: dict               # by letter: is it on


def read(program, words):
    """Options stand anywhere; the web, the change file and the main file come in this order."""
    options = {}
    plain = []
    for word in words:
        if not word or not is_plain(word):
            raise usage(program)
        if len(word) < 2 or word[:1] not in b'-+':
            plain.append(word)
        elif program == 'wmerge' or not word[1:].isalpha():
            raise usage(program)
        else:
            options.update((letter, word[:1] == b'+') for letter in word[1:].decode())
    # A lone `-` means no change file and stands nowhere else.
    if not 1 <= len(plain) <= (2 if program == 'wmerge' else 3) or b'-' in plain[:1] + plain[2:]:
        raise usage(program)
    web, change, main = (plain + [None, None])[:3]
    stem = web.rsplit(b'/', 1)[-1]
    return Words(
        web=with_extension(web, b'.w'),
        second=None if b'.' in stem else web + b'.web',
        change=None if change in (None, b'-') else with_extension(change, b'.ch'),
        main=stem.rsplit(b'.', 1)[0] + b'.c' if main is None else with_extension(main, b'.c'),
        options=options)


def usage(program):
    return Stop(b'Usage: %s' % SYNOPSIS[program])


def with_extension(word, extension):
    return word if b'.' in word.rsplit(b'/', 1)[-1] else word + extension


def inputs(value):
    """The folder of CWEBINPUTS: none where it is empty or isn't UTF-8."""
    return value if value and is_utf8(value) else None
