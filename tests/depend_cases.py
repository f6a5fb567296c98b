"""The runs of wdep that `faults` makes fail, and what happens to their calls. `depfiles` also compares them with runs of ctangle."""
import os
import re

import fault_promises as promises
from fault_cases import Case
from merge_cases import printer_failures
from shared import HERE, stopped

# the longest line, if a name is not longer
WIDTH = 78
USAGE = b"Usage: wdep [options] webfile[.w] [{changefile[.ch]|-} [outfile[.c]]]"
NO_TEXT = b"! No program text\n"


def rules(outputs, inputs):
    """The text for outputs and inputs whose names need no escapes."""
    *targets, last = outputs
    led = ["/dev/null", *inputs] if "=" in inputs[0] else inputs
    first, *words = [*targets, f"{last}:", *led]
    lines = [first]
    for word in words:
        if len(lines[-1]) + 1 + len(word) <= WIDTH:
            lines[-1] += f" {word}"
        else:
            lines.append(f" {word}")
    empty = "".join(f"{led[0]} {name}:\n" if "=" in name else f"{name}:\n" for name in inputs[1:])
    return (" \\\n".join(lines) + "\n" + empty).encode()


def targets(outputs, words):
    """The outputs that are targets with these words."""
    letters = [word[0] for word in words if word[0] in "+-" and "m" in word]
    return outputs[:1] if letters[-1:] == ["+"] else outputs


def printed(outputs, inputs, log=b"", status=0):
    """The fields of a run that prints rules after this log."""
    return {"out": rules(outputs, inputs), "log": log, "first": log, "status": status}


def fault(outputs, inputs, log):
    return printed(outputs, inputs, log, 1)


def silent(log):
    """The fields of a run that prints no rules."""
    return {"out": b"", "log": log, "first": b"", "status": 1}


NO_WEB = silent(stopped(b"Cannot open web file a.w"))
NO_CHANGE = silent(stopped(b"Cannot open change file m.ch"))
# what a refused opening changes if it does no harm
NOTHING = {}


def whole_runs():
    web = b"@ @c\n@i b.w\n@ @(a.h@>=\nint m;\n@i c.w\n"
    files = {"a.w": web, "b.w": b"int b;\n", "lib/c.w": b"int c;\n", "m.ch": b"@x\nint m;\n@y\nint M;\n@z\n"}
    outputs, inputs = ["a.c", "a.h"], ["a.w", "m.ch", "b.w", "lib/c.w"]
    without_b = fault(outputs, ["a.w", "m.ch", "lib/c.w"], b"a.w:2: ! Cannot open include file\n")
    without_c = fault(outputs, ["a.w", "m.ch", "b.w"], b"a.w:5: ! Cannot open include file\n")
    # c.w is tried first, and then found in the folder
    refused = [NO_WEB, NO_CHANGE, without_b, NOTHING, without_c]
    yield Case("included files and a change file", ["a", "m"], files, **printed(outputs, inputs), refused=refused, inputs="lib")
    outputs[0] = "out.c"
    yield Case("options and an output", ["-bph", "a", "+s", "m", "out"], files, **printed(outputs, inputs), refused=[
        NO_WEB, NO_CHANGE, {**without_b, "out": rules(outputs, ["a.w", "m.ch", "lib/c.w"])}, NOTHING,
        {**without_c, "out": rules(outputs, ["a.w", "m.ch", "b.w"])}], inputs="lib")
    # the last m counts, and chooses the targets alone
    for words in (["+m"], ["-m", "+bm"], ["+sm", "-b"]):
        yield Case(f"the first target, {words}", [*words, "a", "m", "out"], files, **printed(outputs[:1], inputs), inputs="lib", refused=[
            NO_WEB, NO_CHANGE, {**without_b, "out": rules(outputs[:1], ["a.w", "m.ch", "lib/c.w"])}, NOTHING,
            {**without_c, "out": rules(outputs[:1], ["a.w", "m.ch", "b.w"])}])
    yield Case("all targets", ["+m", "a", "m", "out", "-m"], files, **printed(outputs, inputs), inputs="lib", refused=[
        NO_WEB, NO_CHANGE, {**without_b, "out": rules(outputs, ["a.w", "m.ch", "lib/c.w"])}, NOTHING,
        {**without_c, "out": rules(outputs, ["a.w", "m.ch", "b.w"])}])
    web = {"a.web": b"@ @c x\n"}
    yield Case("a web under its second name", ["a"], web, **printed(["a.c"], ["a.web"]), refused=[NOTHING, NO_WEB])
    yield Case("an empty web", ["a"], {"a.w": b""}, **printed(["a.c"], ["a.w"], NO_TEXT), refused=[NO_WEB])


def equals_runs():
    """Names with `=`: none is the first prerequisite, or begins a line."""
    files = {"a=b.w": b"@ @c x\n@i c\n@i d=e\n", "c": b"", "d=e": b""}
    text = b"x.c: /dev/null a=b.w c d=e\nc:\n/dev/null d=e:\n"
    refused = [NO_WEB | {"log": stopped(b"Cannot open web file a=b.w")}, {"out": text.replace(b" c ", b" ").replace(b"c:\n", b""),
               "log": b"a=b.w:2: ! Cannot open include file\n", "first": b"", "status": 1},
               {"out": b"x.c: /dev/null a=b.w c\nc:\n", "log": b"a=b.w:3: ! Cannot open include file\n", "first": b"", "status": 1}]
    yield Case("a web with =", ["a=b", "-", "x"], files, out=text, refused=refused)
    text = b"a.c: a.w d=e\na.w d=e:\n"
    refused = [NO_WEB, {"out": b"a.c: a.w\n", "log": b"a.w:2: ! Cannot open include file\n", "first": b"", "status": 1}]
    yield Case("an included file with =", ["a"], {"a.w": b"@ @c x\n@i d=e\n", "d=e": b""}, out=text, refused=refused)


def runs_about():
    """The words that ask for the version or for help, alone and with others."""
    version = b"wdep (Lozgirpa) %s\n" % own_version().encode()
    yield Case("the version", ["--version"], {}, out=version)
    for words in (["--version", "a"], ["a", "--help"], ["--versions"], ["-version", "--help"], ["--"]):
        yield Case(f"the words {words}", words, {"a.w": b"@ @c x\n"}, **silent(stopped(USAGE)))


def own_version():
    """The version of the pages."""
    with open(os.path.join(HERE, "../man/wdep.1")) as file:
        return re.search(r'"Lozgirpa ([\d.]+)"', file.read())[1]


def runs_with_faults():
    web = b'@x\n@ @c @<Q@> "x@y"\n@i gone\n@ @(f@>= y\n'
    log = b"a.w:3: ! Cannot open include file\na.w:1: ! Double @ in limbo\na.w:2: ! Double @ in strings\n! Not present: <Q>\n"
    yield Case("faults", ["a"], {"a.w": web}, **fault(["a.c", "f"], ["a.w"], log), refused=[NO_WEB, NOTHING])

    web, change = b"@ @c\nB\nC\n", b"@z\n@x\nB\nc\n@y\n@i b.w\n@z\n@x\nnever\n@y\n@z\n"
    log = b"m.ch:1: ! Missing @x in change file\nm.ch:2: ! Lines that failed to match: 1\nm.ch:8: ! Change entry did not match\n"
    without = log.replace(b"m.ch:8", b"m.ch:6: ! Cannot open include file\nm.ch:8")
    files = {"a.w": web, "m.ch": change, "b.w": b"new\n"}
    refused = [NO_WEB, NO_CHANGE, fault(["a.c"], ["a.w", "m.ch"], without)]
    yield Case("faults of a change file", ["a", "m"], files, **fault(["a.c"], ["a.w", "m.ch", "b.w"], log), refused=refused)

    # a fault of names, and then a refused plan
    refusals = {
        "a bad output name": (b"@ @(d/..@>= x\n", b"! Bad output name: <d/..>\n"),
        "two outputs with one name": (b"@ @(a.c@>= x\n", b"! Two outputs with one name: <a.c>\n"),
        "a cycle": (b"@ @c @<A@>\n@ @<A@>= @<A@>\n", b"! Cycle: <A> <A>\n"),
        "a cycle after a fault": (b"@ @c @<A@> @<B@>\n@ @<A@>= @<A@>\n", b"! Not present: <B>\n! Cycle: <A> <A>\n"),
    }
    for name, (web, log) in refusals.items():
        yield Case(name, ["a"], {"a.w": web}, **silent(log), refused=[NO_WEB])


def stopped_runs():
    yield Case("no web", ["a"], {}, **NO_WEB, refused=[NO_WEB, NO_WEB])
    yield Case("no change file", ["a", "m"], {"a.w": b"x\n"}, **NO_CHANGE, refused=[NO_WEB, NO_CHANGE])
    for words in ([], ["a", "b", "c", "d"], ["-?", "a"], ["a", ""], ["a\t"], ["-b"]):
        yield Case(f"the words {words}", words, {"a.w": b"@ @c x\n"}, **silent(stopped(USAGE)))
    yield Case("a folder as web", ["a"], {"a.w": None}, **silent(stopped(b"Read fault on a.w")), refused=[NO_WEB])
    files = {"a.w": b"@ @c\n@i gone\n@i b\nx\n", "lib/b": None}
    log = b"a.w:2: ! Cannot open include file\n"
    without = fault(["a.c"], ["a.w"], log + b"a.w:3: ! Cannot open include file\n")
    refused = [NO_WEB, NOTHING, NOTHING, NOTHING, without]
    yield Case("a folder in CWEBINPUTS", ["a"], files, **silent(stopped(b"Read fault on lib/b")), refused=refused, inputs="lib")


def large_runs():
    """Webs that take many reads, writes, allocations or openings."""
    files = {"a.w": b"@ @c\n" + b"x" * 1048576 + b"\n"}
    yield Case("a line too long", ["a"], files, **silent(stopped(b"Line too long in a.w")), refused=[NO_WEB], least=1000)

    names = [f"f{n}" for n in range(1000, 1200)]
    web = "".join(f"@ @({name}@>= x\n" for name in names).encode()
    yield Case("many outputs", ["a"], {"a.w": web}, **printed(["a.c", *names], ["a.w"]), refused=[NO_WEB], least=100)

    log = b"".join(b"a.w:%d: ! Include file name not given\n" % n for n in range(2, 1002))
    web = b"@ @c\n" + b"@i\n" * 1000 + b"x\n"
    yield Case("many faults", ["a"], {"a.w": web}, **fault(["a.c"], ["a.w"], log), refused=[NO_WEB], least=1000)

    # more files one after the other than may be open at once: each is closed at its end
    openings = 40
    log = b"a.w:%d: ! Cannot open include file\n"
    refused = [NO_WEB, *(fault(["a.c"], ["a.w", "b"], log % (n + 2)) for n in range(openings))]
    files = {"a.w": b"@ @c\n" + openings * b"@i b\n", "b": b"b\n"}
    yield Case("a file that is included often", ["a"], files, **printed(["a.c"], ["a.w", "b"]), refused=refused)


def cases():
    yield from whole_runs()
    yield from equals_runs()
    yield from runs_about()
    yield from runs_with_faults()
    yield from stopped_runs()
    yield from large_runs()


def failures():
    return printer_failures(promises.depend_memory, promises.depend_read, promises.depend_open_memory)
