"""What is promised of a run in which something happened to a call. Each promise is about a case and what a run of it left."""
from dataclasses import replace

from fault_cases import DRAFT
from shared import BANNER, stopped

# how `faults.c` reports the stat of an open file, and one after a write to the last file that was opened
OPEN_FILE, WRITTEN = b"open ", b"written "
WRITE_FAULT = stopped(b"Write fault on standard output")
# the permissions that a new file doesn't get, and those that the owner of a draft always has
UMASK, OWNERS = 0o022, 0o600
DEVICES = b"/dev/"


def committed(case, left):
    """The number of new outputs, if these are the first ones and all other files are unchanged; else None."""
    old = {name: text for name, text in case.files.items() if text is not None and not name.endswith(DRAFT)}
    files = {name: text for name, text in left.files.items() if not name.endswith(DRAFT)}
    outputs = list(case.outputs.items())
    return next((count for count in range(len(outputs) + 1) if files == {**old, **dict(outputs[:count])}), None)


def is_whole(case, left):
    # a draft that existed before is removed when its output begins
    has_drafts = left.drafts({} if case.outputs else case.files)
    ended = (left.out, left.log, left.status) == (case.out, case.log, case.status)
    return ended and committed(case, left) == len(case.outputs) and not has_drafts


def is_shorter(text, whole):
    """Whether a text is a proper prefix."""
    return len(text) < len(whole) and whole.startswith(text)


def has_lines_of(text, whole):
    """Whether a text is a prefix in whole lines."""
    return whole.startswith(text) and text[-1:] in (b"", b"\n")


def stops(case, left, text):
    """The log ends with the stop's line. Before it are whole lines, and the last file that they announce is not written."""
    before = left.log.removesuffix(stopped(text))
    if left.status != 1 or before == left.log or left.drafts(case.files):
        return False
    is_prefix = has_lines_of(before, case.log) and has_lines_of(left.out, case.out)
    return is_prefix and committed(case, left) == max(0, before.count(b"Writing ") - 1)


def unlogged(case, left):
    """The log is a proper prefix. The files are new that it announced in a whole line, before the next line failed. No output follows."""
    out = b"" if case.first else case.out
    if not is_shorter(left.log, case.log) or (left.status, left.out) != (1, out) or left.drafts(case.files):
        return False
    lines = left.log.splitlines(keepends=True)
    begun = sum(line.startswith(b"Writing ") and line.endswith(b"\n") for line in lines)
    return committed(case, left) == min(begun, len(case.outputs))


def dead_streams(case, left, dead):
    """Streams that are dead take nothing."""
    if case.out and 1 in dead:
        case = replace(case, out=b"", log=case.first + WRITE_FAULT, status=1)
    if case.log and 2 in dead:
        return left.log == b"" and unlogged(case, left)
    return is_whole(case, left)


# Promises of wmerge: it logs faults only after the whole output, so the line of a stop is its whole log. Those about opened files and
# about the output are also those of wdep.


def merge_stops(case, left, text):
    return left.log == stopped(text) and stops(case, left, text)


def merge_memory(case, left):
    """wmerge can do without some memory, such as that for lines that it keeps."""
    return is_whole(case, left) or merge_open_memory(case, left)


def merge_open_memory(case, left):
    return merge_stops(case, left, b"Out of memory")


def merge_read(case, left):
    return merge_stops(case, left, b"Read fault on " + left.reported)


def merge_open(case, left):
    """The file counts as missing."""
    return left.nth <= len(case.refused) and is_whole(replace(case, **case.refused[left.nth - 1]), left)


def merge_write(case, left):
    """The output ends where the write failed."""
    return left.log == case.first + WRITE_FAULT and prints_less(case, left)


def merge_silence(case, left):
    """No stream can be written after some write."""
    return unlogged(case, left) if left.reported == b"2" else left.log == case.first and prints_less(case, left)


def prints_less(case, left):
    return left.status == 1 and is_shorter(left.out, case.out) and committed(case, left) == 0


# Promises of wdep: a run that is stopped before the output prints nothing.


def depend_memory(case, left):
    """There may be faults in the log before the stop."""
    return is_whole(case, left) or left.out == b"" and stops(case, left, b"Out of memory")


def depend_open_memory(case, left):
    return left.out == b"" and merge_open_memory(case, left)


def depend_read(case, left):
    return left.out == b"" and merge_read(case, left)


# Promises of ctangle. The line of a stop at an output begins with one of these texts.
NOT_OPENED, NOT_WRITTEN = b"Cannot open output file ", b"Write fault on "


def stops_at_output(case, left, text, may_leave_draft=False):
    """An output could not be written: the log ends where it begins, with a line if there is a text, and the files before it are new."""
    count = committed(case, left)
    if count is None or count == len(case.expected()) or (left.status, left.out) != (1, case.out):
        return False
    line = stopped(text + case.expected()[count].encode()) if text else b""
    return left.log == case.log_before(count) + line and (may_leave_draft or not left.drafts(case.files))


def is_draft(path):
    return path.endswith(DRAFT.encode())


def is_input(path):
    """Whether a file is opened to be read."""
    return not is_draft(path) and not path.startswith(DEVICES)


def missing(case, path):
    """The case whose file at a path, which is read, counts as missing."""
    no_output = {"outputs": {}, "status": 1, "stuck": ()}
    begun = BANNER if case.log.startswith(BANNER) else b""
    changes = {
        b"a.w": {**no_output, "log": begun + stopped(b"Cannot open web file a.w")},
        b"a.web": no_output,
        b"m.ch": {**no_output, "log": begun + stopped(b"Cannot open change file m.ch")},
        b"gone": {"status": 1},
        **dict(case.refused),
    }
    return replace(case, **changes[path])


def tangle_memory(case, left):
    """ctangle can do without some memory. Renaming a file takes some, and so does deleting a draft."""
    return is_whole(case, left) or stops(case, left, b"Out of memory") or stops_at_output(case, left, NOT_WRITTEN, True)


def tangle_open_memory(case, left):
    return is_whole(case, left) if left.reported == b"/" else stops(case, left, b"Out of memory")


def tangle_open(case, left):
    if left.reported == b"/":
        return is_whole(case, left)
    if is_input(left.reported):
        return is_whole(missing(case, left.reported), left)
    # an old draft that cannot be opened is removed
    was_there = left.reported.decode() in case.files and is_whole(case, left)
    return was_there or stops_at_output(case, left, NOT_OPENED)


def tangle_read(case, left):
    return stops(case, left, b"Read fault on " + left.reported) and committed(case, left) == 0


def tangle_write(case, left):
    return unlogged(case, left) if left.reported == b"2" else stops_at_output(case, left, NOT_WRITTEN)


def tangle_silence(case, left):
    """No stream and no file can be written after some write."""
    return unlogged(case, left) if left.reported == b"2" else stops_at_output(case, left, b"")


def tangle_replace(case, left):
    """The draft cannot be renamed."""
    return stops_at_output(case, left, NOT_WRITTEN)


def tangle_mode(case, left):
    """The draft cannot have the mode of the old file. Its mode is set only where it was created with another one."""
    mode = case.modes.get(left.reported.decode().removesuffix(DRAFT), 0o666 & ~UMASK)
    return (mode | OWNERS) & ~UMASK != mode and stops_at_output(case, left, NOT_WRITTEN)


def tangle_delete(case, left):
    """An old draft stays, so its output does not begin. If a new draft stays, all else is as without the failure."""
    if left.reported.decode() in case.files:
        return left.reported.decode() in left.files and stops_at_output(case, left, NOT_OPENED)
    return left.drafts() == [left.reported.decode()] and committed(case, left) is not None and (left.log, left.status) == (case.log, 1)


def tangle_stat(case, left):
    """A file that is read counts as missing. An output fails when it begins, or when it is renamed."""
    if left.reported.startswith(OPEN_FILE) and is_input(left.reported.removeprefix(OPEN_FILE)):
        return is_whole(missing(case, left.reported.removeprefix(OPEN_FILE)), left)
    return output_fails(case, left)


def tangle_stat_always(case, left):
    """Each later stat fails too. After that of a file that is read, the first output fails."""
    if left.reported.startswith(OPEN_FILE) and is_input(left.reported.removeprefix(OPEN_FILE)):
        case = missing(case, left.reported.removeprefix(OPEN_FILE))
        if not case.expected():
            return is_whole(case, left)
    return output_fails(case, left)


def output_fails(case, left):
    """An output without bytes can have failed at either time."""
    if left.reported.startswith(WRITTEN):
        return stops_at_output(case, left, NOT_WRITTEN)
    count = committed(case, left) or 0
    is_empty = list(case.outputs.values())[count : count + 1] == [b""]
    return stops_at_output(case, left, NOT_OPENED) or is_empty and stops_at_output(case, left, NOT_WRITTEN)
