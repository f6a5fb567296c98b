"""The runs of ctangle that `faults` makes fail, and what happens to their calls."""
import errno

import fault_promises as promises
from fault_cases import DRAFT, Case, Failure
from shared import BANNER, line_mark, stopped


def two_files():
    web = b"@* One.\n@d M 1\n@c\n@i b.w\n@ @(a.h@>=\nint m;\n"
    files = {"a.w": web, "b.w": b"int b;\n", "m.ch": b"@x\nint m;\n@y\nint M;\n@z\n", "a.c": b"old\n", "a.h": b"old\n"}
    main = b"#define M 1\n/*1:*/\n" + line_mark(b"a.w", 3) + line_mark(b"b.w", 1) + b"int b;\n" + line_mark(b"a.w", 5) + b"/*:1*/\n"
    header = b"/*2:*/\n" + line_mark(b"a.w", 5) + line_mark(b"m.ch", 4) + b"int M;/*:2*/\n"
    written = b"Writing a.c\nWriting a.h\nSections: 2. Names: 1. Macros: 1.\n"
    log = BANNER + b"*1\n" + written + b"(No errors were found.)\n"
    without = main.replace(line_mark(b"b.w", 1) + b"int b;\n", b"")
    faults = BANNER + b"*1\na.w:4: ! Cannot open include file\n" + written + b"(Faults: 1.)\n"
    refused = {b"b.w": {"outputs": {"a.c": without, "a.h": header}, "log": faults, "status": 1}}
    return Case("two files", ["+s", "a", "m"], files, {"a.c": main, "a.h": header}, log, refused=refused)


def with_faults():
    web = b'@x\n@ @c @<Q@> "x@y"\n@i gone\n@ @(f@>= y\n'
    main = b"/*1:*/\n" + line_mark(b"a.w", 2) + line_mark(b"a.w", 2) + b'"x@y"\n' + line_mark(b"a.w", 4) + b"/*:1*/\n"
    other = b"/*2:*/\n" + line_mark(b"a.w", 4) + b"y/*:2*/\n"
    log = (
        BANNER
        + b"a.w:3: ! Cannot open include file\na.w:1: ! Double @ in limbo\na.w:2: ! Double @ in strings\n"
        + b"! Not present: <Q>\nWriting a.c\nWriting f\n(Faults: 4.)\n"
    )
    return Case("faults", ["a"], {"a.w": web, "f": b"old\n"}, {"a.c": main, "f": other}, log, 1)


def many_files():
    """More text than is written at once, and more files than may be open at one time."""
    lines = 14000
    names = [b"f%02d" % n for n in range(34)]
    web = b"@ @c\n" + b"x=1;\n" * lines
    log, outputs = BANNER + b"Writing a.c\n", {}
    outputs["a.c"] = b"/*1:*/\n" + line_mark(b"a.w", 1) + b"\n" + b"x=1;\n" * lines + b"/*:1*/\n"
    for n, name in enumerate(names):
        web += b"@ @(%s@>= y%d\n" % (name, n)
        text = b"/*%d:*/\n" % (n + 2) + line_mark(b"a.w", lines + 2 + n) + b"y%d\n/*:%d*/\n" % (n, n + 2)
        outputs[name.decode()] = text if n + 1 < len(names) else text.replace(b"\n/*:", b"/*:")
        log += b"Writing %s\n" % name
    files = {"a.w": web, "f00": b"old\n", "f33": b"old\n"}
    return Case("many files", ["a"], files, outputs, log + b"(No errors were found.)\n")


def writing(name):
    """The log of a run that writes one file, and in which nothing is wrong."""
    return BANNER + b"Writing " + name + b"\n(No errors were found.)\n"


def small_webs():
    """Webs of a few lines: a first program, macros, what takes memory in words, a fault."""
    web = b'@ Hello.\n@c\n#include <stdio.h>\nint main(void) { @<Greet@> return 0; }\n@ @<Greet@>=\nputs("hi");\n'
    text = b"/*1:*/\n" + line_mark(b"a.w", 2) + b"\n#include <stdio.h>\nint main(void){/*2:*/\n" + line_mark(b"a.w", 5)
    text += b'\nputs("hi");/*:2*/\n' + line_mark(b"a.w", 4) + b"return 0;}\n/*:1*/\n"
    yield Case("a first program", ["a"], {"a.w": web}, {"a.c": text}, writing(b"a.c"))
    web = b"@ Macros.\n@d f(x) x+1\n@d g (x)\n@d N\n@d two 1+\n  2\n@c\nf(3)\n"
    text = b"#define f(x)x+1\n#define g (x)\n#define N\n#define two 1 + \\\n2\n"
    text += b"/*1:*/\n" + line_mark(b"a.w", 7) + b"\nf(3)/*:1*/\n"
    yield Case("macros", ["a"], {"a.w": web}, {"a.c": text}, writing(b"a.c"))
    web = b"@l fc ue\n@ @c\nfoo@&\nbar @'a' @'\\t' @=a  b@> f\xfcr\n"
    text = b"/*1:*/\n" + line_mark(b"a.w", 2) + b"\nfoobar 97 9a  bfuer/*:1*/\n"
    yield Case("a replaced byte", ["a"], {"a.w": web}, {"a.c": text}, writing(b"a.c"))
    outputs = {"a.c": b"#define M 1\n", "a.h": b"/*1:*/\n" + line_mark(b"a.w", 2) + b'\nint m="x/*:1*/\n'}
    log = BANNER + b"a.w:3: ! String did not end\nWriting a.c\nWriting a.h\n(Faults: 1.)\n"
    yield Case("a string without an end", ["a"], {"a.w": b'@ @d M 1\n@(a.h@>=\nint m="x\n'}, outputs, log, 1)


def inputs_as_outputs():
    """An output that the run has read is refused. One whose file could not be opened was not read."""
    main = b"/*1:*/\n" + line_mark(b"a.w", 1) + b"x\n/*:1*/\n"
    log = BANNER + b"Writing a.c\nWriting %s\n" + stopped(b"Cannot open output file %s")
    web = {"a.w": b"@ @c x\n@ @(a.w@>= y\n"}
    yield Case("the web as output", ["a"], web, {"a.c": main}, log.replace(b"%s", b"a.w"), 1, stuck=("a.w",))
    files = {"a.w": b"@ @c x\n@i b.w\n@ @(b.w@>= y\n", "b.w": b"z\n"}
    included = main.replace(b"x\n", b"x\n" + line_mark(b"b.w", 1) + b"z\n" + line_mark(b"a.w", 3))
    without = main.replace(b"x\n", b"x\n" + line_mark(b"a.w", 3))
    outputs = {"a.c": without, "b.w": b"/*2:*/\n" + line_mark(b"a.w", 3) + b"y/*:2*/\n"}
    faults = BANNER + b"a.w:2: ! Cannot open include file\nWriting a.c\nWriting b.w\n(Faults: 1.)\n"
    refused = {b"b.w": {"outputs": outputs, "log": faults, "stuck": ()}}
    log = log.replace(b"%s", b"b.w")
    yield Case("an included file as output", ["a"], files, {"a.c": included}, log, 1, refused=refused, stuck=("b.w",))


def cases():
    yield from small_webs()
    yield two_files()
    yield with_faults()
    old = {"a.c": b"old\n"}
    web = {"a.w": b"@ @c @<A@>\n@ @<A@>= @<A@>\n"}
    yield Case("a cycle", ["a"], web | old, {}, BANNER + b"! Cycle: <A> <A>\n(Faults: 1.)\n", 1)
    log = BANNER + b"! No program text\nWriting a.c\n(Did you see the warning?)\n"
    yield Case("an empty web", ["a"], {"a.w": b""} | old, {"a.c": b""}, log)
    text = b"/*1:*/\n" + line_mark(b"a.w", 1) + b"x/*:1*/\n"
    yield Case("a silent run", ["-bph", "a"], {"a.w": b"@ @c x\n"} | old, {"a.c": text}, b"")
    yield Case("no web", ["a"], old, {}, BANNER + stopped(b"Cannot open web file a.w"), 1)
    yield Case("no change file", ["a", "m"], {"a.w": b"x\n"} | old, {}, BANNER + stopped(b"Cannot open change file m.ch"), 1)
    usage = b"Usage: ctangle [options] webfile[.w] [{changefile[.ch]|-} [outfile[.c]]]"
    yield Case("no words", [], old, {}, stopped(usage), 1)
    yield Case("a folder as web", ["a"], {"a.w": None} | old, {}, BANNER + stopped(b"Read fault on a.w"), 1)
    web = {"a.w": b"@ @(no/f@>= x\n"}
    log = BANNER + b"Writing a.c\nWriting no/f\n" + stopped(b"Cannot open output file no/f")
    yield Case("a folder that isn't there", ["a"], web, {"a.c": b""}, log, 1, stuck=("no/f",))
    web = {"a.w": b"@ @(f@>= x\n", "f": None}
    log = BANNER + b"Writing a.c\nWriting f\n" + stopped(b"Cannot open output file f")
    yield Case("a folder in the place of an output", ["a"], web, {"a.c": b""}, log, 1, stuck=("f",))
    web = {"a.w": b"@ @(f@>=\n" + b"x=1;\n" * 1000}
    log = BANNER + b"Writing a.c\nWriting f\n" + stopped(b"Write fault on f")
    yield Case("a file beyond the limit", ["a"], web | {"f": b"old\n"}, {"a.c": b""}, log, 1, stuck=("f",), most=4000)
    main = b"/*1:*/\n" + line_mark(b"a.w", 1) + b"x\n/*:1*/\n"
    outputs = {"a.c": main, "f": b"/*2:*/\n" + line_mark(b"a.w", 2) + b"y/*:2*/\n"}
    files = {"a.w": b"@ @c x\n@ @(f@>= y\n", "f": b"old\n"} | old
    log = BANNER + b"Writing a.c\nWriting f\n(No errors were found.)\n"
    for modes in ({"a.c": 0o444, "f": 0o666}, {"a.c": 0o600, "f": 0o755}):
        yield Case(f"files of the modes {modes}", ["a"], files, outputs, log, modes=modes)
    web = {"a.w": b"@ @c x\n@ @(/dev/null@>= y\n"}
    log = log.replace(b"Writing f", b"Writing /dev/null")
    yield Case("a device", ["a"], web | old, {"a.c": main}, log, stuck=("/dev/null",))
    yield from inputs_as_outputs()
    # left by a run that was killed
    yield Case("a draft that is there", ["-bph", "a"], {"a.w": b"@ @c x\n", "a.c" + DRAFT: b"draft"}, {"a.c": text}, b"")
    yield many_files()


def failures():
    for every in (0, 1):
        yield Failure(promises.tangle_memory, "alloc", errno.ENOMEM, every)
        yield Failure(promises.tangle_read, "read", errno.EIO, every)
        yield Failure(promises.tangle_replace, "rename", errno.EACCES, every)
    for error in (errno.ENOSPC, errno.EIO, errno.EAGAIN):
        yield Failure(promises.tangle_write, "write", error)
    yield Failure(promises.tangle_silence, "write", errno.ENOSPC, 1)
    yield Failure(promises.tangle_write, "write", most=0)
    for error in (errno.EACCES, errno.EMFILE, errno.EROFS):
        yield Failure(promises.tangle_open, "open", error)
    yield Failure(promises.tangle_open_memory, "open", errno.ENOMEM)
    for every in (0, 1):
        yield Failure(promises.tangle_delete, "unlink", errno.EACCES, every)
        yield Failure(promises.tangle_mode, "fchmod", errno.EPERM, every)
        for error in (errno.ENOLCK, errno.EOPNOTSUPP):
            yield Failure(promises.is_whole, "flock", error, every)
    for error in (errno.EACCES, errno.EIO):
        yield Failure(promises.tangle_stat, "statx", error)
        yield Failure(promises.tangle_stat_always, "statx", error, 1)
    for call in ("open", "read", "write", "flock"):
        for every in (0, 2):
            yield Failure(promises.is_whole, call, errno.EINTR, every)
    for call in ("read", "write"):
        yield Failure(promises.is_whole, call, most=1000)
