"""The runs of wmerge that `faults` makes fail, and what happens to their calls."""
import errno

import fault_promises as promises
from fault_cases import Case, Failure
from shared import stopped


def stop(out, text):
    """The fields of a run that is stopped after this output."""
    return {"out": out, "log": stopped(text), "status": 1}


def fault(out, log):
    return {"out": out, "log": log, "status": 1}


NO_WEB = stop(b"", b"Cannot open web file a.w")
NO_CHANGE = stop(b"", b"Cannot open change file m.ch")
# what a refused opening changes if it does no harm
NOTHING = {}


def small_cases():
    """Webs of a few lines: whole runs, runs with faults, runs that are stopped."""
    web = b"one\n@i b.w\nthree\n@i c.w\nfive\n"
    files = {"a.w": web, "b.w": b"two\n", "lib/c.w": b"four\n", "m.ch": b"@x\nthree\n@y\nTHREE\n@z\n"}
    whole = b"one\ntwo\nTHREE\nfour\nfive\n"
    without_b = fault(b"one\nTHREE\nfour\nfive\n", b"a.w:2: ! Cannot open include file\n")
    without_c = fault(b"one\ntwo\nTHREE\nfive\n", b"a.w:4: ! Cannot open include file\n")
    # c.w is tried first, and then found in the folder
    refused = [NO_WEB, NO_CHANGE, without_b, NOTHING, without_c]
    yield Case("included files and a change file", ["a", "m"], files, out=whole, refused=refused, inputs="lib")

    web = b"A\n@i\n@i gone\nB\nC\nD\n"
    change = b"@z\n@x\nB\nc\n@x\n@y\nnew\n@y\n@z\n@x\nnever\n@y\n@z\n"
    faults = (
        b"m.ch:1: ! Missing @x in change file\n"
        b"a.w:2: ! Include file name not given\n"
        b"a.w:3: ! Cannot open include file\n"
        b"m.ch:5: ! Where is @y?\n"
        b"m.ch:2: ! Lines that failed to match: 1\n"
        b"m.ch:8: ! Where is @z?\n"
        b"m.ch:10: ! Change entry did not match\n"
    )
    files = {"a.w": web, "m.ch": change}
    yield Case("faults", ["a", "m"], files, **fault(b"A\nnew\nD\n", faults), refused=[NO_WEB, NO_CHANGE, NOTHING])

    files = {"a.w": b"@i inc.w\nL2\nL3\n", "inc.w": b"I1\nI2\n", "m.ch": b"@x\nI2\nLX\n@y\nN\n@z\n"}
    whole = fault(b"I1\nN\nL3\n", b"m.ch:1: ! Lines that failed to match: 1\n")
    without = fault(b"L2\nL3\n", b"a.w:1: ! Cannot open include file\nm.ch:1: ! Change entry did not match\n")
    yield Case("a change in an included file", ["a", "m"], files, **whole, refused=[NO_WEB, NO_CHANGE, without])

    yield Case("a web under its second name", ["a"], {"a.web": b"x"}, out=b"x\n", refused=[NOTHING, NO_WEB])
    yield Case("an empty web", ["a"], {"a.w": b""}, refused=[NO_WEB])
    yield Case("no web", ["a"], {}, **NO_WEB, refused=[NO_WEB, NO_WEB])
    yield Case("no change file", ["a", "m"], {"a.w": b"x\n"}, **NO_CHANGE, refused=[NO_WEB, NO_CHANGE])
    yield Case("no words", [], {}, **stop(b"", b"Usage: wmerge webfile[.w] [{changefile[.ch]|-}]"))
    yield Case("a folder as web", ["a"], {"a.w": None}, **stop(b"", b"Read fault on a.w"), refused=[NO_WEB])

    whole = stop(b"x\n", b"Read fault on lib/b")
    without = fault(b"x\ny\n", b"a.w:2: ! Cannot open include file\n")
    files = {"a.w": b"x\n@i b\ny\n", "lib/b": None}
    yield Case("a folder in CWEBINPUTS", ["a"], files, **whole, refused=[NO_WEB, NOTHING, without], inputs="lib")


def large_cases():
    """Webs that take many reads, writes, allocations or openings."""
    lines = [b"line %d of a web\n" % n for n in range(12000)]
    entries = [b"@x\n%b@y\nchanged\n@z\n" % line for line in lines[::400]]
    merged = b"".join(line if n % 400 else b"changed\n" for n, line in enumerate(lines))
    files = {"a.w": b"".join(lines), "m.ch": b"".join(entries)}
    yield Case("many lines", ["a", "m"], files, out=merged, refused=[NO_WEB, NO_CHANGE], least=1000)

    faults = b"".join(b"a.w:%d: ! Include file name not given\n" % n for n in range(1, 3001))
    yield Case("many faults", ["a"], {"a.w": b"@i\n" * 3000 + b"x\n"}, **fault(b"x\n", faults), refused=[NO_WEB], least=1000)

    files = {"a.w": b"short\n" + b"x" * 1048576 + b"\n"}
    yield Case("a line too long", ["a"], files, **stop(b"short\n", b"Line too long in a.w"), refused=[NO_WEB], least=1000)

    files, whole = {"a.w": b"x\n@i /dev/zero\ny\n"}, stop(b"x\n", b"Line too long in /dev/zero")
    without = fault(b"x\ny\n", b"a.w:2: ! Cannot open include file\n")
    yield Case("a line without end", ["a"], files, **whole, refused=[NO_WEB, without], least=1000)

    depth = 8
    files = {f"{n}.w": b"P\n@i %d.w\nQ\n" % (n + 1) for n in range(depth)} | {f"{depth}.w": b"deepest\n"}
    refused = [stop(b"", b"Cannot open web file 0.w")]
    for n in range(1, depth + 1):
        refused.append(fault(n * b"P\n" + n * b"Q\n", b"%d.w:2: ! Cannot open include file\n" % (n - 1)))
    yield Case("nested files", ["0"], files, out=depth * b"P\n" + b"deepest\n" + depth * b"Q\n", refused=refused)

    # more files one after the other than may be open at once: each is closed at its end
    openings = 40
    refused = [NO_WEB]
    for n in range(openings):
        refused.append(fault((openings - 1) * b"b\n", b"a.w:%d: ! Cannot open include file\n" % (n + 1)))
    yield Case("files one after the other", ["a"], {"a.w": openings * b"@i b\n", "b": b"b\n"}, out=openings * b"b\n", refused=refused)


def cases():
    yield from small_cases()
    yield from large_cases()


def printer_failures(memory, read, open_memory):
    """What happens to the calls of a program that prints, and the promise that holds then."""
    for every in (0, 1):
        yield Failure(memory, "alloc", errno.ENOMEM, every)
        yield Failure(read, "read", errno.EIO, every)
        yield Failure(promises.merge_write, "write", errno.ENOSPC, every, stream=1)
        yield Failure(promises.unlogged, "write", errno.ENOSPC, every, stream=2)
    yield Failure(promises.merge_silence, "write", errno.EIO, 1)
    for error in (errno.EACCES, errno.EMFILE, errno.ELOOP):
        yield Failure(promises.merge_open, "open", error)
    yield Failure(open_memory, "open", errno.ENOMEM)
    for error in (errno.EPIPE, errno.EAGAIN):
        yield Failure(promises.merge_write, "write", error, stream=1)
    yield Failure(promises.merge_write, "write", stream=1, most=0)
    yield Failure(promises.unlogged, "write", stream=2, most=0)
    for call in ("open", "read", "write"):
        for every in (0, 2):
            yield Failure(promises.is_whole, call, errno.EINTR, every)
    for call in ("read", "write"):
        for every in (0, 1):
            yield Failure(promises.is_whole, call, every=every)


def failures():
    return printer_failures(promises.merge_memory, promises.merge_read, promises.merge_open_memory)
