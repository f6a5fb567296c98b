"""What is in a folder, and what must be there after a run."""
import glob
import os
import stat
from dataclasses import dataclass, replace

from shared import shown

NOBODY = 65534
OWNERS = 0o600
SYSTEM = ["/dev/stdin", "/dev/stdout", "/dev/stderr", "/dev/fd", "/dev/null", "/dev/full"]


@dataclass(frozen=True)
class Node:
    """What is under a path. Its text is that of a file, the target of a link, or the number of a device."""

    kind: int
    mode: int
    owner: tuple
    text: object
    # the number of the file on its disk, None for a new file, and how many names the file has
    number: tuple = None
    names: int = 1


def owner(case):
    """Who runs the program: if this is the superuser, nobody does, except where a case is for the superuser."""
    if os.getuid() == 0 and not case.as_root:
        return (NOBODY, NOBODY)
    return (os.getuid(), os.getgid())


def all_names():
    yield "."
    for folder, folders, names in os.walk("."):
        for name in folders + names:
            yield os.path.normpath(os.path.join(folder, name))


def node(path):
    found = os.lstat(path)
    kind, text = stat.S_IFMT(found.st_mode), None
    if kind == stat.S_IFREG:
        with open(path, "rb") as file:
            text = file.read()
    elif kind == stat.S_IFLNK:
        text = os.readlink(path)
    elif kind == stat.S_IFCHR:
        text = found.st_rdev
    names = found.st_nlink if kind == stat.S_IFREG else 1
    return Node(kind, stat.S_IMODE(found.st_mode), (found.st_uid, found.st_gid), text, (found.st_dev, found.st_ino), names)


def nodes_here():
    return {name: node(name) for name in all_names()}


def system_nodes():
    """What the system has under the names to which cases lead, and the drafts beside it."""
    return {path: node(path) for path in [*SYSTEM, *glob.glob("/dev/*\x7f")] if os.path.lexists(path)}


def put_back(before):
    """What has changed of the system's nodes since. A link is made again."""
    now = system_nodes()
    for path in sorted(before.keys() | now.keys()):
        old, new = before.get(path), now.get(path)
        if new == old:
            continue
        yield f"{path}: {new}"
        if old and old.kind == stat.S_IFLNK:
            if new:
                os.unlink(path)
            os.symlink(old.text, path)


def expected_nodes(case, before):
    """What must be there: a file that is written has the permissions of the old one, or those of a new file."""
    nodes = {case.moved.get(name, name): node for name, node in before.items() if name not in case.gone}
    for name, text in case.written.items():
        old = before.get(name)
        mode = old.mode & 0o777 if old and old.kind == stat.S_IFREG else 0o666 & ~case.umask
        nodes[name] = Node(stat.S_IFREG, mode, owner(case), text)
    for name, text in case.added.items():
        nodes[name] = replace(nodes[name], text=nodes[name].text + text)
    numbers = [node.number for node in nodes.values()]
    return {name: replace(node, names=numbers.count(node.number) if node.number else 1) for name, node in nodes.items()}


def is_new(case, name, old, found):
    """Whether a file is another one than before. Where a third one came in between, it may have the first one's number."""
    return old is None or found.number != old.number or name in case.held.values()


def wrong_nodes(case, before, left):
    """The paths with something else than what must be there, and what that is. A draft's owner may read and write it."""
    expected = expected_nodes(case, before)
    for name, (text, mode) in case.drafts.items():
        found = left.pop(name, None)
        if found is None or found.text != text or found.mode & ~mode or found.mode & OWNERS != OWNERS:
            yield f"{name!r}: {found and replace(found, text=shown(found.text))}"
    for name in sorted(left.keys() | expected.keys()):
        found = left.get(name)
        if found and name in case.written and is_new(case, name, before.get(name), found):
            found = replace(found, number=None)
        if found != expected.get(name):
            was = found and replace(found, text=shown(found.text) if isinstance(found.text, bytes) else found.text)
            yield f"{name!r}: {was}"
