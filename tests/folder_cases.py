"""The runs that `folders` makes on hostile webs, on pipes, and where little may be read or written."""
import resource
from dataclasses import dataclass, field, replace
from typing import Callable

from shared import BANNER, line_mark, stopped

NO_ERRORS = b"(No errors were found.)\n"
# how many lines may be taken from files
LINES = 1 << 24
# how many names use one another
NAMES = 10_000
# how many names are open at once
OPEN_NAMES = 1_000
# the bytes of a small disk
DISK = 64 << 10
# the memory of a run that asks for more
MEMORY = 256 << 20


@dataclass
class Case:
    """A run in a folder of its own: what it is given, and the whole of what it leaves. All else that was there stays as it was."""

    name: str
    log: bytes
    status: int
    # texts by their paths, None being a folder
    files: dict
    # the files that the run writes: new ones, with the permissions of a file that was there
    written: dict = field(default_factory=dict)
    words: tuple = ("a",)
    output: bytes = b""
    inputs: str = ""
    umask: int = 0o022
    # modes by paths, which are set when all files are there
    modes: dict = field(default_factory=dict)
    # links by their paths, and further names of files
    links: dict = field(default_factory=dict)
    names: dict = field(default_factory=dict)
    # pipes by their paths: what is written to each, and whether again and again; None: nothing is
    pipes: dict = field(default_factory=dict)
    # pipes by their paths: what the run writes to each
    drains: dict = field(default_factory=dict)
    sockets: tuple = ()
    # the numbers of devices by their paths
    devices: dict = field(default_factory=dict)
    # what belongs to the superuser although another user runs the program
    foreign: tuple = ()
    # what is no longer there afterwards, and what has another path then
    gone: tuple = ()
    moved: dict = field(default_factory=dict)
    # what a folder is mounted with
    disks: dict = field(default_factory=dict)
    # two files on two disks with one inode number
    twins: tuple = ()
    memory: int = resource.RLIM_INFINITY
    # a file that grows beyond so many bytes kills the run
    most: int = resource.RLIM_INFINITY
    # the drafts that a killed run leaves: the text of each, and the mode that it may have at most
    drafts: dict = field(default_factory=dict)
    # files that another process locks for a while, by their paths, and the path to which it renames each before it ends, if any
    held: dict = field(default_factory=dict)
    # the standard streams that are closed, and those that are files, by their numbers
    closed: tuple = ()
    streams: dict = field(default_factory=dict)
    # what the streams write to files, by their paths
    added: dict = field(default_factory=dict)
    # the superuser runs the program
    as_root: bool = False
    # paths outside the folder that the case needs
    needs: tuple = ()
    # what is done while it runs: it is given the process, and answers what is wrong
    meanwhile: Callable = None


def as_both(cases):
    """Each case as it is, and once more for the superuser."""
    for case in cases:
        yield case
        yield replace(case, name=f"{case.name}, as root", as_root=True)


def section(number, line, text):
    """The C text of a section, as it is printed where a name is replaced by it."""
    return b"/*%d:*/\n%s%s/*:%d*/" % (number, line_mark(b"a.w", line), text, number)


def used_names():
    for number in range(1, NAMES + 1):
        yield b"n%05d" % number


def chain(last):
    """A web whose names each use the next, the last one having a text of its own."""
    names = list(used_names())
    web = b"@ @c @<%s@>\n" % names[0]
    for name, used in zip(names, names[1:]):
        web += b"@ @<%s@>= @<%s@>\n" % (name, used)
    return web + b"@ @<%s@>= %s\n" % (names[-1], last)


def chain_printed():
    heads, tails = b"", []
    for number in range(1, NAMES + 1):
        mark = line_mark(b"a.w", number)
        heads += b"/*%d:*/\n%s" % (number, mark)
        tails.append(b"\n%s\n/*:%d*/" % (mark, number))
    return heads + section(NAMES + 1, NAMES + 1, b"x;") + b"".join(reversed(tails)) + b"\n"


def large_webs():
    log = BANNER + b"Writing a.c\n" + NO_ERRORS
    yield Case("names that use one another", log, 0, {"a.w": chain(b"x;")}, {"a.c": chain_printed()})
    cycle = b"".join(b" <%s>" % name for name in [*used_names(), b"n00001"])
    log = BANNER + b"! Cycle:%s\n(Faults: 1.)\n" % cycle
    yield Case("names in a cycle", log, 1, {"a.w": chain(b"@<n00001@>"), "a.c": b"old\n"})

    faults = b"a.w:1: ! Section names do not nest\n" * (OPEN_NAMES - 1) + b"a.w:1: ! Section name did not end\n"
    log = BANNER + faults + b"! Not present: <>\nWriting a.c\n(Faults: %d.)\n" % (OPEN_NAMES + 1)
    printed = section(1, 1, line_mark(b"a.w", 1) * OPEN_NAMES) + b"\n"
    yield Case("names that are open at once", log, 1, {"a.w": b"@ @c " + b"@<" * OPEN_NAMES + b"\n"}, {"a.c": printed})


def endless_texts():
    old = {"a.c": b"old\n"}
    log = BANNER + stopped(b"Line too long in /dev/zero")
    yield Case("a line without an end", log, 1, {"a.w": b"@ @c x\n@i /dev/zero\n"} | old)
    log = BANNER + stopped(b"Too much text")
    yield Case("a web without an end", log, 1, old, pipes={"a.w": (b"\n", True)})
    changed = Case("a change file without an end", log, 1, {"a.w": b"x\n"} | old, words=("a", "m"), pipes={"m.ch": (b"y\n", True)})
    yield changed
    log = BANNER + stopped(b"Out of memory")
    yield Case("C text without an end", log, 1, old, pipes={"a.w": (b"@ @c x; y; z;\n", True)}, memory=MEMORY)
    log = BANNER + b"Writing a.c\n" + NO_ERRORS
    text = section(1, 1, line_mark(b"in.w", 1) + b"x;") + b"\n"
    yield Case("a pipe that ends", log, 0, {"a.w": b"@ @c\n@i in.w\n"} | old, {"a.c": text}, pipes={"in.w": (b"x;\n", False)})


def closed_files():
    """Files and folders that the one who runs the program may not read, or not write."""
    old = {"a.c": b"old\n"}
    web = {"a.w": b"@ @c x\n"}
    text = {"a.c": section(1, 1, b"x") + b"\n"}
    log = BANNER + stopped(b"Cannot open web file a.w")
    yield Case("a web that may not be read", log, 1, web | old, modes={"a.w": 0})
    log = BANNER + stopped(b"Cannot open change file d/m.ch")
    files = web | old | {"d/m.ch": b""}
    yield Case("a change file in a closed folder", log, 1, files, words=("a", "d/m"), modes={"d": 0})
    log = BANNER + b"a.w:2: ! Cannot open include file\nWriting a.c\n(Faults: 1.)\n"
    files = {"a.w": b"@ @c x\n@i in.w\n", "d/in.w": b"y\n"} | old
    yield Case("a closed folder of included files", log, 1, files, text, inputs="d", modes={"d": 0})

    log = BANNER + b"Writing a.c\n" + stopped(b"Cannot open output file a.c")
    yield Case("a folder that may not be written", log, 1, web | old, modes={".": 0o555})
    log = BANNER + b"Writing a.c\nWriting d/f\n" + stopped(b"Cannot open output file d/f")
    files = {"a.w": b"@ @c x\n@ @(d/f@>= y\n@ @(g@>= z\n", "d/f": b"old\n", "g": b"old\n"} | old
    two = {"a.c": section(1, 1, b"x\n") + b"\n"}
    yield Case("an output in a closed folder", log, 1, files, two, modes={"d": 0})
    yield Case("an output in a folder that may only be read", log, 1, files, two, modes={"d": 0o555})
    log = BANNER + b"Writing a.c\n" + NO_ERRORS
    yield Case("an output that may not be written is replaced", log, 0, web | old, text, modes={"a.c": 0o444})


def disks():
    large = b"x=1;\n" * (DISK // 4)
    web = b"@ @c x\n@ @(d/f@>=\n" + large + b"@ @(g@>= z\n"
    files = {"a.w": web, "a.c": b"old\n", "d/f": b"old\n", "g": b"old\n"}
    main = {"a.c": section(1, 1, b"x\n") + b"\n"}
    begun = BANNER + b"Writing a.c\nWriting d/f\n"
    failed, not_begun = begun + stopped(b"Write fault on d/f"), begun + stopped(b"Cannot open output file d/f")
    yield Case("a disk that becomes full", failed, 1, files, main, disks={"d": f"size={DISK}"})
    yield Case("a disk without room for a file", not_begun, 1, files, main, disks={"d": "nr_inodes=2"})
    yield Case("a disk that may only be read", not_begun, 1, files, main, disks={"d": "ro"})


def tangle_cases():
    for cases in (large_webs, endless_texts, closed_files, disks):
        yield from cases()


def merge_cases():
    doubled = "abcdefghijk"
    files = {f"{name}.w": b"@i %s.w\n" % used.encode() * 2 for name, used in zip(doubled, doubled[1:])}
    yield Case("eleven files, each included twice", b"", 0, files | {"k.w": b"x\n"}, output=b"x\n" * 1024)
    log = stopped(b"Line too long in /dev/zero")
    yield Case("a line without an end", log, 1, {"a.w": b"x\n@i /dev/zero\n"}, output=b"x\n")
    log = stopped(b"Too much text")
    yield Case("a web without an end", log, 1, {}, output=b"\n" * LINES, pipes={"a.w": (b"\n", True)})
    yield Case("a change file without an end", log, 1, {"a.w": b"x\n"}, words=("a", "m"), pipes={"m.ch": (b"y\n", True)})
    yield Case("a pipe that ends", b"", 0, {"a.w": b"x\n@i in.w\n"}, output=b"x\ny\n", pipes={"in.w": (b"y\n", False)})
    log = stopped(b"Cannot open web file a.w")
    yield Case("a web that may not be read", log, 1, {"a.w": b"x\n"}, modes={"a.w": 0})
    log = stopped(b"Cannot open change file d/m.ch")
    yield Case("a change file in a closed folder", log, 1, {"a.w": b"x\n", "d/m.ch": b""}, words=("a", "d/m"), modes={"d": 0})
    files = {"a.w": b"x\n@i in.w\n", "d/in.w": b"y\n"}
    log = b"a.w:2: ! Cannot open include file\n"
    yield Case("a closed folder of included files", log, 1, files, output=b"x\n", inputs="d", modes={"d": 0})
    yield Case("a folder that may not be written", b"", 0, {"a.w": b"x\n"}, output=b"x\n", modes={".": 0o555})
