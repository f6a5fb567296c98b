"""The runs of `folders` that find something under a draft's name, or whose draft is taken away while they write it."""
import fcntl
import os
import signal
import time

from folder_cases import NO_ERRORS, Case, as_both, section
from folder_runs import HELD, SECONDS, Missed, begun
from output_cases import FIRST, FULL, LARGE, MAIN, NULL, OLD, OTHER, WEB, WELL
from output_cases import log_of, not_opened, not_written, web_with, whole

DRAFT = "a.c\x7f"
# a draft this long is written in many steps, so that a run can be stopped between two of them
LONG = LARGE * 20
WHOLE = whole(LONG)


def left_drafts():
    """What a killed run left, or who else was there, is removed and never written to."""
    of = {"gone": (DRAFT,)}
    for mode in (0o644, 0o600, 0o444, 0):
        files = WEB | OLD | {DRAFT: b"draft"}
        yield Case(f"a draft of mode {mode:03o}", WELL, 0, files, {"a.c": MAIN}, modes={DRAFT: mode}, **of)
    for kind, to in {"a file": "other", "its output": "a.c", "nothing": "gone", "a folder": "d"}.items():
        files = WEB | OLD | OTHER | {"d/f": b"old\n"}
        yield Case(f"a draft that is a link to {kind}", WELL, 0, files, {"a.c": MAIN}, links={DRAFT: to}, **of)
    for kind, to in {"a full device": "/dev/full", "itself": DRAFT}.items():
        yield Case(f"a draft that is a link to {kind}", WELL, 0, WEB | OLD, {"a.c": MAIN}, links={DRAFT: to}, **of)
        large = {"a.w": b"@ @c\n" + LARGE} | OLD
        yield Case(f"a large draft's link to {kind}", WELL, 0, large, {"a.c": whole(LARGE)}, links={DRAFT: to}, **of)
    for kind, name in {"another file": "other", "its output": "a.c"}.items():
        yield Case(f"a draft that is {kind} too", WELL, 0, WEB | OLD | OTHER, {"a.c": MAIN}, names={DRAFT: name}, **of)
    yield Case("a draft that is a pipe", WELL, 0, WEB | OLD, {"a.c": MAIN}, pipes={DRAFT: (b"x", False)}, **of)
    yield Case("a draft that is a socket", WELL, 0, WEB | OLD, {"a.c": MAIN}, sockets=(DRAFT,), **of)
    for kind, numbers in {"a null": NULL, "a full": FULL}.items():
        yield Case(f"a draft that is {kind} device", WELL, 0, WEB | OLD, {"a.c": MAIN}, devices={DRAFT: numbers}, **of)
    log = log_of("a.c", "f") + NO_ERRORS
    files = web_with("f") | {DRAFT: b"draft", "f\x7f": b"draft"}
    written = {"a.c": FIRST, "f": section(2, 2, b"y") + b"\n"}
    yield Case("two drafts", log, 0, files, written, gone=(DRAFT, "f\x7f"))


def kept_drafts():
    """What can't be removed stays, and the output can't be opened."""
    for kind, files in {"an empty folder": {DRAFT: None}, "a folder": {f"{DRAFT}/f": b"old\n"}}.items():
        yield Case(f"a draft that is {kind}", not_opened("a.c"), 1, WEB | OLD | files)
    for mode in (0o644, 0o600):
        files = web_with("d/f") | {"d/f": b"old\n", "d/f\x7f": b"draft"}
        of = {"foreign": ("d", "d/f\x7f"), "modes": {"d": 0o1777, "d/f\x7f": mode}}
        name = f"another user's draft of mode {mode:03o} in a folder where each deletes its own"
        yield Case(name, not_opened("a.c", "d/f"), 1, files, {"a.c": FIRST}, **of)
        of = {"foreign": (DRAFT,), "modes": {DRAFT: mode}, "gone": (DRAFT,)}
        yield Case(f"another user's draft of mode {mode:03o}", WELL, 0, WEB | OLD | {DRAFT: b"draft"}, {"a.c": MAIN}, **of)
        of = {"foreign": ("a.c",), "modes": {"a.c": mode}}
        yield Case(f"another user's output of mode {mode:03o}", WELL, 0, WEB | OLD, {"a.c": MAIN}, **of)


def drafts_that_were_read():
    """What the run has read stays, whatever its name, and the output can't be opened."""
    web = {"a.w": b"@ @c x\n@i " + DRAFT.encode() + b"\n"} | OLD
    included, log, text = {"in.w": b"z\n"}, not_opened("a.c"), (b"z\n", False)
    yield Case("an included draft", log, 1, web | {DRAFT: b"z\n"})
    yield Case("an included draft that is a link", log, 1, web | included, links={DRAFT: "in.w"})
    yield Case("an included draft that is a chain of links", log, 1, web | included, links={DRAFT: "link", "link": "in.w"})
    yield Case("an included draft that is a pipe", log, 1, web, pipes={DRAFT: text})
    yield Case("an included draft that is a link to a pipe", log, 1, web, pipes={"in.w": text}, links={DRAFT: "in.w"})
    yield Case("an included draft that is a device", log, 1, web, devices={DRAFT: NULL})
    web = {"a.w": b"@ @c x\n@i in.w\n"} | OLD
    yield Case("a draft that is a link to an included file", log, 1, web | included, links={DRAFT: "in.w"})
    yield Case("a draft that is an included file too", log, 1, web | included, names={DRAFT: "in.w"})
    yield Case("a draft that is a link to the web", log, 1, WEB | OLD, links={DRAFT: "a.w"})
    yield Case("a draft that is the web too", log, 1, WEB | OLD, names={DRAFT: "a.w"})
    yield Case("a web that is a link to a draft", log, 1, {DRAFT: WEB["a.w"]} | OLD, links={"a.w": DRAFT})
    files = WEB | OLD | {DRAFT: b""}
    yield Case("a change file that is a link to a draft", log, 1, files, links={"m.ch": DRAFT}, words=("a", "m", "a"))
    files = web_with("f", b"x\n@i f\x7f\n") | OLD | {"f": b"old\n", "f\x7f": b"z\n"}
    main = section(1, 1, b'x\n#line 1 "f\x7f"\nz\n#line 3 "a.w"\n') + b"\n"
    yield Case("an included draft of another file", not_opened("a.c", "f"), 1, files, {"a.c": main})


def held_drafts():
    """Another run holds the draft, and is waited for."""
    files = WEB | OLD | {DRAFT: b"draft"}
    for kind, to in {"is killed": None, "commits": "a.c"}.items():
        yield Case(f"the run that holds the draft {kind}", WELL, 0, files, {"a.c": MAIN}, held={DRAFT: to}, gone=(DRAFT,))
    files = web_with("f") | {"f\x7f": b"draft"}
    log, written = log_of("a.c", "f") + NO_ERRORS, {"a.c": FIRST, "f": section(2, 2, b"y") + b"\n"}
    yield Case("the run that holds another draft commits", log, 0, files, written, held={"f\x7f": "f"}, gone=("f\x7f",))


def come_to(process, is_there):
    """Waits until a run has come so far."""
    end = time.monotonic() + SECONDS
    while not is_there():
        if process.poll() is not None or time.monotonic() > end:
            raise Missed


def is_in_part():
    """Whether the draft has a part of the output. Once it has all, the run may have checked for the last time that it is there."""
    try:
        return 0 < os.lstat(DRAFT).st_size < len(WHOLE)
    except FileNotFoundError:
        return False


def stopped_while(act):
    """Does something while a run is stopped that has written a part of its draft."""

    def meanwhile(process):
        come_to(process, is_in_part)
        process.send_signal(signal.SIGSTOP)
        os.waitid(os.P_PID, process.pid, os.WSTOPPED | os.WEXITED | os.WNOWAIT)
        try:
            # it may have gone on before it was stopped
            if not is_in_part():
                raise Missed
            return list(act(process) or ())
        finally:
            process.send_signal(signal.SIGCONT)

    return meanwhile


def try_lock(process):
    with open(DRAFT, "rb") as draft:
        try:
            fcntl.flock(draft, fcntl.LOCK_EX | fcntl.LOCK_NB)
            yield "the draft is not locked"
        except BlockingIOError:
            pass


def take_away(process):
    os.unlink(DRAFT)


def put_other(process):
    """Something else comes under the draft's name."""
    os.rename("other", DRAFT)


def lost_drafts():
    """What another process does to a draft."""
    large, failed = {"a.w": b"@ @c\n" + LONG} | OLD, not_written("a.c")
    yield Case("a draft that is locked", WELL, 0, large, {"a.c": WHOLE}, meanwhile=stopped_while(try_lock))
    yield Case("a draft that is deleted", failed, 1, large, meanwhile=stopped_while(take_away))
    of = {"meanwhile": stopped_while(put_other), "moved": {"other": DRAFT}}
    yield Case("a draft that is replaced by a file", failed, 1, large | OTHER, **of)
    for kind, to in {"the web": "a.w", "nothing": "gone"}.items():
        yield Case(f"a draft that is replaced by a link to {kind}", failed, 1, large, links={"other": to}, **of)


def beside_another(process):
    """A second run begins while the first one is stopped that has written a part of its draft. It waits, and ends well."""
    others = []

    def begin_another(first):
        others.append(begun(first.args[0], Case("", WELL, 0, {})))
        time.sleep(HELD)
        if others[0].poll() is not None:
            yield "another run did not wait for the draft"

    faults = stopped_while(begin_another)(process)
    ended = (*others[0].communicate(timeout=SECONDS), others[0].returncode)
    return faults if ended == (b"", WELL, 0) else [*faults, f"another run: {ended}"]


def two_runs():
    """A run waits for the draft of another one, whatever the mode of the output that it replaces."""
    files = {"a.w": b"@ @c\n" + LONG} | OLD
    for mode in (0o644, 0o444, 0o200, 0):
        # the old file keeps a name, so that no new one gets its number
        of = {"modes": {"a.c": mode, "further": mode}, "names": {"further": "a.c"}, "meanwhile": beside_another}
        yield Case(f"two runs, an output of mode {mode:03o}", WELL, 0, files, {"a.c": WHOLE}, **of)


def watched(closed):
    """Sees that a run which reads a pipe holds the root folder under the numbers of closed streams alone; fills the pipe then."""
    pipe = []

    def is_read():
        try:
            pipe.append(os.open("in.w", os.O_WRONLY | os.O_NONBLOCK))
        except OSError:
            return False
        return True

    def meanwhile(process):
        come_to(process, is_read)
        at = f"/proc/{process.pid}/fd"
        held = sorted(int(number) for number in os.listdir(at) if os.readlink(f"{at}/{number}") == "/")
        os.write(pipe[0], b"x;\n")
        os.close(pipe[0])
        return [] if held == sorted(closed) else [f"the root folder is open as {held}"]

    return meanwhile


def closed_streams():
    """A file that is opened never gets the number of a standard stream that is closed."""
    text = section(1, 1, b'#line 1 "in.w"\nx;') + b"\n"
    for closed in ((), (0,), (1,), (0, 1), (2,), (0, 1, 2)):
        files = {"a.w": b"@ @c\n@i in.w\n"} | OLD
        of = {"words": ("-bph", "a"), "pipes": {"in.w": None}, "closed": closed, "meanwhile": watched(closed)}
        yield Case(f"closed streams {closed}", b"", 0, files, {"a.c": text}, **of)


def cases():
    for some in (left_drafts, kept_drafts, held_drafts, lost_drafts, two_runs, closed_streams):
        yield from some()
    yield from as_both(drafts_that_were_read())
