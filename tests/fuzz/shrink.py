"""A smallest web: lines and bytes are taken away as long as the difference stays."""

TRIES = 4000


def shrunk(web, differs):
    """`differs` tells whether a web still fails."""
    left = [TRIES]

    def fails(candidate):
        left[0] -= 1
        return left[0] > 0 and differs(candidate)

    before = None
    while before != web and left[0] > 0:
        before = web
        for step in (fewer_words, fewer_files, no_inputs, fewer_lines, fewer_bytes):
            web = step(web, fails)
    return web


def without(mapping, key):
    return {k: v for k, v in mapping.items() if k != key}


def fewer_files(web, fails):
    for name in list(web.files):
        smaller = web.with_files(without(web.files, name))
        if fails(smaller):
            web = smaller
    return web


def fewer_words(web, fails):
    """One program is enough, and options or the third word may not matter."""
    from dataclasses import replace
    for tool in list(web.words):
        smaller = replace(web, words=without(web.words, tool))
        if len(web.words) > 1 and fails(smaller):
            web = smaller
    for tool, words in list(web.words.items()):
        for at in reversed(range(len(words))):
            smaller = replace(web, words={**web.words, tool: words[:at] + words[at + 1:]})
            if fails(smaller):
                web, words = smaller, words[:at] + words[at + 1:]
    return web


def no_inputs(web, fails):
    from dataclasses import replace
    smaller = replace(web, inputs=None)
    return smaller if web.inputs is not None and fails(smaller) else web


def fewer_lines(web, fails):
    return pieces_away(web, fails, lambda text: text.splitlines(keepends=True))


def fewer_bytes(web, fails):
    return pieces_away(web, fails, lambda text: [text[n:n + 1] for n in range(len(text))])


def pieces_away(web, fails, cut):
    """Takes away runs of pieces, long ones first."""
    for name, text in list(web.files.items()):
        if text is None:
            continue
        pieces = cut(text)
        size = max(1, len(pieces) // 2)
        while size:
            at = 0
            while at < len(pieces):
                fewer = pieces[:at] + pieces[at + size:]
                smaller = web.with_files({**web.files, name: b''.join(fewer)})
                if fails(smaller):
                    web, pieces = smaller, fewer
                else:
                    at += size
            size //= 2
    return web
