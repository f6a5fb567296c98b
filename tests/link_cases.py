"""The runs of `folders` that find a link under an output's name, each as another user and as the superuser."""
from folder_cases import NO_ERRORS, Case, as_both, section
from output_cases import FIRST, LARGE, MAIN, OTHER, WEB, WELL
from output_cases import log_of, not_opened, not_written, web_with, whole

# the text of the other file
SECOND = section(2, 2, b"y") + b"\n"
STREAMS = {"input": 0, "output": 1, "error": 2}
# a link to standard output, and a link to that one
PROC, DEV = "/proc/self/fd/1", "/dev/stdout"


def both_written(name):
    return {"a.c": FIRST, name: SECOND}


def replaced_links():
    """A link to a file or a folder is replaced, and so is one that leads nowhere. What it leads to stays as it was."""
    files = OTHER | {"d/f": b"old\n"}
    for kind, to in {"a file": "other", "nothing": "gone", "a folder": "d", "itself": "a.c"}.items():
        yield Case(f"a link to {kind} as main file", WELL, 0, WEB | files, {"a.c": MAIN}, links={"a.c": to})
        links = {"f": "f" if kind == "itself" else to}
        log = log_of("a.c", "f") + NO_ERRORS
        yield Case(f"a link to {kind} as another file", log, 0, web_with("f") | files, both_written("f"), links=links)
    yield Case("a chain of links to a file", WELL, 0, WEB | OTHER, {"a.c": MAIN}, links={"a.c": "link", "link": "other"})
    yield Case("a link to a file of mode 600", WELL, 0, WEB | OTHER, {"a.c": MAIN}, links={"a.c": "other"}, modes={"other": 0o600})
    yield Case("a further name of a file", WELL, 0, WEB | OTHER, {"a.c": MAIN}, names={"a.c": "other"})
    log = log_of("a.c", "f") + NO_ERRORS
    yield Case("a link to the main file", log, 0, web_with("f"), both_written("f"), links={"f": "a.c"})


def device_links():
    """A device is written through its links, which stay as they are."""
    yield Case("a link to a null device as main file", WELL, 0, WEB, links={"a.c": "/dev/null"})
    yield Case("a link to a full device as main file", not_written("a.c"), 1, WEB, links={"a.c": "/dev/full"})
    log, main = log_of("a.c", "f") + NO_ERRORS, {"a.c": FIRST}
    yield Case("a link to a null device as another file", log, 0, web_with("f"), main, links={"f": "/dev/null"})
    yield Case("a link to a full device as another file", not_written("a.c", "f"), 1, web_with("f"), main, links={"f": "/dev/full"})
    yield Case("a link to a pipe as another file", log, 0, web_with("f"), main, links={"f": "pipe"}, drains={"pipe": SECOND})
    large = {"a.w": b"@ @c\n" + LARGE}
    chain = {"a.c": "link", "link": "d/link", "d/link": "../pipe"}
    for kind, links in {"a link": {"a.c": "pipe"}, "a chain of links": chain}.items():
        yield Case(f"{kind} to a pipe, a small text", WELL, 0, WEB | {"d": None}, links=links, drains={"pipe": MAIN})
        yield Case(f"{kind} to a pipe, a large text", WELL, 0, large | {"d": None}, links=links, drains={"pipe": whole(LARGE)})
    yield Case("a chain of links to a device", WELL, 0, WEB, links={"a.c": "link", "link": "/dev/null"})
    yield Case("a draft beside a link to a device stays", WELL, 0, WEB | {"a.c\x7f": b"draft"}, links={"a.c": "/dev/null"})
    yield Case("a link to a socket as main file", not_opened("a.c"), 1, WEB, links={"a.c": "socket"}, sockets=("socket",))
    log = not_opened("a.c", "f")
    yield Case("a link to a socket as another file", log, 1, web_with("f"), main, links={"f": "socket"}, sockets=("socket",))


def links_into_the_system():
    """A link below /proc or /dev that leads nowhere is refused: without /proc the links to standard streams lead nowhere."""
    for to in ("/proc/nothing", "/dev/nothing"):
        yield Case(f"a link to {to} as main file", not_opened("a.c"), 1, WEB, links={"a.c": to})
        yield Case(f"a link to {to} as another file", not_opened("a.c", "f"), 1, web_with("f"), {"a.c": FIRST}, links={"f": to})


def streams_that_are_pipes():
    """A pipe is written through the links to it."""
    of = {"output": MAIN, "needs": (PROC,)}
    yield Case("a link to standard output, a pipe", WELL, 0, WEB, links={"a.c": PROC}, **of)
    yield Case("a chain of links to standard output, a pipe", WELL, 0, WEB, links={"a.c": "link", "link": PROC}, **of)
    for name in (PROC, DEV):
        log = log_of("a.c", name) + NO_ERRORS
        yield Case(f"{name}, a pipe", log, 0, web_with(name), {"a.c": FIRST}, output=SECOND, needs=(name,))


def streams_that_are_files():
    """A file that is a standard stream isn't replaced through a link; without a link it is, as any file."""
    log, files, names = not_opened("a.c"), WEB | {"stream": b"old\n"}, {"further": "stream"}
    for stream, number in STREAMS.items():
        of = {"streams": {number: "stream"}, "names": names}
        if stream == "error":
            of["added"] = {"stream": log, "further": log}
        for kind, links in {
            "a link": {"a.c": "stream"},
            "a chain of links": {"a.c": "link", "link": "stream"},
            "a link to a further name": {"a.c": "further"},
            "a link below /proc": {"a.c": f"/proc/self/fd/{number}"},
        }.items():
            yield Case(f"{kind} of standard {stream}, a file", b"" if stream == "error" else log, 1, files, links=links, **of)
    of = {"streams": {1: "stream"}}
    files = {"stream": b"old\n"}
    for name in (PROC, DEV):
        yield Case(f"{name}, a file", not_opened("a.c", name), 1, web_with(name) | files, {"a.c": FIRST}, needs=(name,), **of)
    yield Case("a link to a file beside standard output", WELL, 0, WEB | OTHER | files, {"a.c": MAIN}, links={"a.c": "other"}, **of)
    log = log_of("a.c", "stream") + NO_ERRORS
    yield Case("the file of standard output itself", log, 0, web_with("stream") | files, both_written("stream"), **of)


def streams_that_are_closed():
    for name in (PROC, DEV):
        log = not_opened("a.c", name)
        yield Case(f"{name}, closed", log, 1, web_with(name), {"a.c": FIRST}, closed=(1,), needs=(name,))
    of = {"closed": (1,), "links": {"a.c": PROC}, "needs": (PROC,)}
    yield Case("a link to standard output, closed", not_opened("a.c"), 1, WEB, **of)


def cases():
    for some in (replaced_links, device_links, links_into_the_system, streams_that_are_pipes, streams_that_are_files,
                 streams_that_are_closed):
        yield from as_both(some())
