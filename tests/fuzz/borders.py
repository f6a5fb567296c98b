"""Webs at the borders of the limits: line length, depth of includes, width of a depfile line."""
from .running import Web

LINE = 1_048_575
BYTES = 1_073_741_824
ALL_TOOLS = ('wmerge', 'wdep', 'ctangle')


def web(files, words=(b'w',), inputs=None):
    words = list(words)
    by_tool = {tool: words[:2] if tool == 'wmerge' else words for tool in ALL_TOOLS}
    return Web(files, by_tool, inputs)


def long_lines():
    for length in (LINE, LINE + 1):
        x = b'x' * length
        blank = b' ' * length
        for text in (x, x + b'\n', b'a\n' + x + b'\nb\n', x[1:] + b' ', blank):
            yield web({b'w.w': text})
        yield web({b'w.w': b'a\n@i i\nb\n', b'i': x})
        yield web({b'w.w': b'a\n', b'c.ch': x}, (b'w', b'c'))
        yield web({b'w.w': b'a\n', b'c.ch': b'@x\nb\n@y\n' + x + b'\n@z\n'}, (b'w', b'c'))
        yield web({b'w.w': b'a\n', b'c.ch': b'@x\na\n@y\n' + x + b'\n@z\n'}, (b'w', b'c'))


def many_bytes():
    """As many bytes as a run may take, and one more; the last line with a newline and without one.

    A file of blanks is included again and again, so that the merged text is short.
    """
    line = b' ' * LINE + b'\n'
    include = b'@i b\n'
    count = BYTES // (len(line) + len(include)) - 1
    left = BYTES - count * (len(line) + len(include))
    for extra in (0, 1):
        last = b'\n'.join([b' ' * LINE, b' ' * (left + extra - LINE - 1)])
        for end in (last, last[:-1] + b'\n'):
            yield Web({b'w.w': include * count + end, b'b': line}, {'wmerge': [b'w']})


def deep_includes():
    """A chain of files; the last of them may be one too deep. A file may include itself."""
    for depth in (18, 19, 20, 21):
        files = {b'%d' % n: b'a%d\n@i %d\nb%d\n' % (n, n + 1, n) for n in range(depth)}
        files[b'w.w'] = files.pop(b'0')
        yield web(files)
    yield web({b'w.w': b'P\n@i w.w\nQ\n'})
    yield web({b'w.w': b'P\n@i i\nQ\n', b'i': b'I\n@i i\n@i\n@i gone\n'})
    change = b'@x\nI\n@y\n@i i\nN\n@z\n'
    yield web({b'w.w': b'P\n@i i\nQ\n', b'i': b'I\n@i i\n', b'c.ch': change}, (b'w', b'c'))


def wide_rules():
    """Names of many lengths, so that lines of a rule end at and near their width."""
    for size in range(1, 82):
        name = b'n' * size
        files = {name: b'', b'j': b'', b'k': b''}
        yield web({**files, b'w.w': b'@i %s\n@i j\n@i k\n@ @c\n@ @(o.h@>=\n' % name})
        main = [b'w', b'-', b'm' * size]
        yield web({b'w.w': b'@i j\n@ @(%s@>=\n@ @(q@>= x\n' % name, b'j': b''}, main)
        odd = b'#' * (size // 2) + b'n' * (size % 3)
        if odd:
            yield web({b'w.w': b'@i "%s"\n@i j\n@ @c\n' % odd, odd: b'', b'j': b''})


def odd_dependencies():
    """Backslashes and signs at each place of a target and of a source."""
    marks = (b'\\', b' ', b'#', b':', b'%', b'$', b'a')
    for first in marks:
        for second in marks:
            for third in marks:
                name = first + second + third
                last = b'@i "%s"\n' % name
                files = {b'w.w': last + b'@ @(%s@>= x\n' % name, name: b''}
                yield web(files)
                files = {b'w.w': last + b'@i j\n@ @c\n', b'j': b'', name: b''}
                yield web(files, (b'w', b'-', b'o' + name))


def webs():
    yield from long_lines()
    yield from many_bytes()
    yield from deep_includes()
    yield from wide_rules()
    yield from odd_dependencies()
