"""The runs of `folders` that find something under an output's name: files that they have read or written, folders, devices, pipes."""
from folder_cases import DISK, NO_ERRORS, Case, section
from shared import BANNER, line_mark, stopped

WEB = {"a.w": b"@ @c x\n"}
MAIN = section(1, 1, b"x") + b"\n"
# the main file where another section follows
FIRST = section(1, 1, b"x\n") + b"\n"
OLD = {"a.c": b"old\n"}
OTHER = {"other": b"other\n"}
# the numbers of /dev/null and of /dev/full
NULL, FULL = (1, 3), (1, 7)
# how many files a web includes that includes many
MANY = 300
# an absolute path of the folder of a run
FOLDER = "/proc/self/cwd"
# more than a pipe takes at once
LARGE = b"x=1;\n" * 40_000


def web_with(name, front=b"x\n"):
    """A web with a file beside the main one."""
    return {"a.w": b"@ @c " + front + b"@ @(" + name.encode() + b"@>= y\n"}


def log_of(*names):
    return BANNER + b"".join(b"Writing " + name.encode() + b"\n" for name in names)


def not_opened(*names):
    """The log of a run whose last output is refused."""
    return log_of(*names) + stopped(b"Cannot open output file " + names[-1].encode())


def not_written(*names):
    return log_of(*names) + stopped(b"Write fault on " + names[-1].encode())


WELL = log_of("a.c") + NO_ERRORS


def whole(lines):
    """The main file of a web with these lines of C text."""
    return section(1, 1, b"\n" + lines[:-1]) + b"\n"


def modes():
    """A file keeps its permissions, and the draft of a run that is killed is never more open."""
    front = MAIN[:20]
    for umask in (0o022, 0o077):
        yield Case(f"a new file, umask {umask:03o}", WELL, 0, WEB, {"a.c": MAIN}, umask=umask)
        for mode in (0o600, 0o755, 0o444, 0o4755, 0o640, 0o2711, 0):
            of = {"modes": {"a.c": mode}, "umask": umask}
            yield Case(f"a file of mode {mode:04o}, umask {umask:03o}", WELL, 0, WEB | OLD, {"a.c": MAIN}, **of)
            of |= {"most": len(front), "drafts": {"a.c\x7f": (front, mode & 0o777 | 0o600)}}
            yield Case(f"a killed run, mode {mode:04o}, umask {umask:03o}", log_of("a.c"), -25, WEB | OLD, **of)
    yield Case("a file in the place of a killed run's", WELL, 0, WEB | OLD | {"a.c\x7f": front}, {"a.c": MAIN}, gone=("a.c\x7f",))


def paths_to(name):
    """The ways to name a file: what a case has beside the web for each."""
    yield name, {}
    yield f"./{name}", {}
    yield f".//./{name}", {}
    yield f"{FOLDER}/{name}", {"needs": (FOLDER,)}
    yield "further", {"names": {"further": name}}
    yield "link", {"links": {"link": name}}
    yield "second", {"links": {"link": name, "second": "./link"}}


def files_that_were_read():
    yield Case("a web as its own main file", not_opened("hello.c"), 1, {"hello.c": b"@ @c x\n"}, words=("hello.c",))
    links = {"hello.c": "a.w"}
    yield Case("a web as its own main file, through a link", not_opened("hello.c"), 1, WEB, words=("hello.c",), links=links)
    of = {"links": {"a.c": "a.w"}}
    yield Case("a main file that leads to the web", not_opened("a.c"), 1, WEB, **of)
    yield Case("a main file that is the web's further name", not_opened("a.c"), 1, WEB, names={"a.c": "a.w"})
    files = {"m.c": b""} | WEB
    yield Case("a change file as main file", not_opened("m.c"), 1, files, words=("a", "m.c", "m.c"))
    for name, of in paths_to("a.w"):
        yield Case(f"the web as output {name}", not_opened("a.c", name), 1, web_with(name) | OLD, {"a.c": FIRST}, **of)
    for name, of in paths_to("m.ch"):
        files = web_with(name) | {"m.ch": b""}
        yield Case(f"the change file as output {name}", not_opened("a.c", name), 1, files, {"a.c": FIRST}, words=("a", "m"), **of)
    yield from included_files()
    yield from many_included_files()
    yield from linked_webs()


def included_files():
    mark = b'#line 1 "in.w"\nz\n#line 3 "a.w"\n'
    main = {"a.c": section(1, 1, b"x\n" + mark) + b"\n"}
    for name, of in paths_to("in.w"):
        files = web_with(name, b"x\n@i in.w\n") | {"in.w": b"z\n"}
        yield Case(f"an included file as output {name}", not_opened("a.c", name), 1, files, main, **of)
    main = {"a.c": main["a.c"].replace(b'"in.w"', b'"d/in.w"')}
    for name, of in paths_to("d/in.w"):
        files = web_with(name, b"x\n@i in.w\n") | {"d/in.w": b"z\n"}
        yield Case(f"a found file as output {name}", not_opened("a.c", name), 1, files, main, inputs="d", **of)
    files = web_with("in.w", b"x\n@i in.w\n") | {"d/in.w": b"z\n", "in.w": b"z\n"}
    main = {"a.c": main["a.c"].replace(b'"d/in.w"', b'"in.w"')}
    yield Case("an included file that another folder has too", not_opened("a.c", "in.w"), 1, files, main, inputs="d")


def many_included_files():
    """Each of many files stays."""
    names = [b"i%d" % n for n in range(1, MANY + 1)]
    front = b"x\n" + b"".join(b"@i %s\n" % name for name in names)
    marks = b"".join(line_mark(name, 1) + b"z\n" for name in names) + line_mark(b"a.w", MANY + 2)
    main = {"a.c": section(1, 1, b"x\n" + marks) + b"\n"}
    for number in (1, MANY // 2, MANY):
        name = f"i{number}"
        files = web_with(name, front) | {included.decode(): b"z\n" for included in names}
        yield Case(f"{name} of {MANY} included files as output", not_opened("a.c", name), 1, files, main)


def linked_webs():
    """A web that is read through a link."""
    for name in ("a.w", "real.w"):
        files = {"real.w": web_with(name)["a.w"]} | OLD
        links = {"a.w": "real.w"}
        yield Case(f"a linked web as output {name}", not_opened("a.c", name), 1, files, {"a.c": FIRST}, links=links)
    links = {"a.w": "real.w", "link": "a.w"}
    files = {"real.w": web_with("link")["a.w"]} | OLD
    yield Case("a linked web as output, through another link", not_opened("a.c", "link"), 1, files, {"a.c": FIRST}, links=links)


def files_that_were_written():
    for name in ("./a.c", ".//a.c", "d/../a.c", f"{FOLDER}/a.c"):
        files = web_with(name) | OLD | {"d": None}
        needs = (FOLDER,) if name.startswith(FOLDER) else ()
        yield Case(f"the main file again, as {name}", not_opened("a.c", name), 1, files, {"a.c": FIRST}, needs=needs)
    web = {"a.w": b"@ @c x\n@ @(f@>= y\n@ @(./f@>= z\n"}
    written = {"a.c": FIRST, "f": section(2, 2, b"y\n") + b"\n"}
    yield Case("another file again", not_opened("a.c", "f", "./f"), 1, web | {"f": b"old\n"}, written)


def equal_numbers():
    """Two files with one inode number, on two disks, are two files. The first file of each disk has the disk's first number."""
    disks, log = {"d": f"size={DISK}", "e": f"size={DISK}"}, log_of("a.c", "e/f") + NO_ERRORS
    files = web_with("e/f", b"x\n@i d/in.w\n") | {"d/in.w": b"z\n", "e/f": b"old\n"}
    main = section(1, 1, b'x\n#line 1 "d/in.w"\nz\n#line 3 "a.w"\n') + b"\n"
    written = {"a.c": main, "e/f": section(2, 3, b"y") + b"\n"}
    of = {"disks": disks, "twins": ("d/in.w", "e/f")}
    yield Case("an output with the number of an included file", log, 0, files, written, **of)
    web = {"a.w": b"@ @c x\n@ @(d/g@>= y\n@ @(e/f@>= z\n", "e/f": b"old\n"}
    written = {"a.c": FIRST, "d/g": section(2, 2, b"y\n") + b"\n", "e/f": section(3, 3, b"z") + b"\n"}
    log = log_of("a.c", "d/g", "e/f") + NO_ERRORS
    yield Case("an output with the number of a written file", log, 0, web, written, disks=disks)


def folders():
    for kind, files in {"an empty folder": {"a.c": None}, "a folder": {"a.c/f": b"old\n"}}.items():
        yield Case(f"{kind} as main file", not_opened("a.c"), 1, WEB | files)
    for kind, files in {"an empty folder": {"f": None}, "a folder": {"f/g": b"old\n"}}.items():
        files |= web_with("f") | OLD
        yield Case(f"{kind} as another file", not_opened("a.c", "f"), 1, files, {"a.c": FIRST})
    yield Case("a file in the place of a folder", not_opened("a.c", "other/f"), 1, web_with("other/f") | OTHER, {"a.c": FIRST})


def devices():
    """Devices, pipes and sockets stay what they are."""
    large = {"a.w": b"@ @c\n" + LARGE}
    for kind, web in {"a small": WEB, "a large": large}.items():
        yield Case(f"{kind} main file on a null device", WELL, 0, web, devices={"a.c": NULL})
        yield Case(f"{kind} main file on a full device", not_written("a.c"), 1, web, devices={"a.c": FULL})
        text = MAIN if web is WEB else whole(LARGE)
        yield Case(f"{kind} main file into a pipe", WELL, 0, web, drains={"a.c": text})
    log = log_of("a.c", "f") + NO_ERRORS
    yield Case("another file on a null device", log, 0, web_with("f") | OLD, {"a.c": FIRST}, devices={"f": NULL})
    log = not_written("a.c", "f")
    yield Case("another file on a full device", log, 1, web_with("f") | OLD, {"a.c": FIRST}, devices={"f": FULL})
    web = {"a.w": b"@ @c x\n@ @(f@>= y\n@ @(g@>= z\n"}
    written = {"a.c": FIRST, "g": section(3, 3, b"z") + b"\n"}
    drains = {"f": section(2, 2, b"y\n") + b"\n"}
    yield Case("another file into a pipe", log_of("a.c", "f", "g") + NO_ERRORS, 0, web, written, drains=drains)
    yield Case("a draft beside a device stays", WELL, 0, WEB | {"a.c\x7f": b"draft"}, devices={"a.c": NULL})
    yield Case("a socket as main file", not_opened("a.c"), 1, WEB, sockets=("a.c",))
    yield Case("a socket as another file", not_opened("a.c", "f"), 1, web_with("f"), {"a.c": FIRST}, sockets=("f",))


def cases():
    for some in (modes, files_that_were_read, files_that_were_written, equal_numbers, folders, devices):
        yield from some()
