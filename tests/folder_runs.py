"""How `folders` makes a folder, runs a program there, and compares all that is there afterwards."""
import fcntl
import os
import resource
import socket
import stat
import subprocess
import threading
import time
from dataclasses import replace

from shared import shown
from folder_nodes import all_names, nodes_here, owner, wrong_nodes

# how many seconds a run may take: many, since a machine may run other tests beside this one
SECONDS = 300
# how many seconds a pipe may take to end after the run
DRAINED = 60
# how many seconds another process holds a lock. A run that comes to it later passes, too
HELD = 0.3


class CannotMake(Exception):
    """Something that a run needs can't be made here."""


class Missed(Exception):
    """A run had gone on before what was to be done while it ran."""


def mount(folder, options):
    """A disk in memory; one that is read-only gets its files first."""
    made = options.replace("ro", "size=64k")
    called = subprocess.run(["mount", "-t", "tmpfs", "-o", f"{made},mode=777", "none", folder], capture_output=True)
    if called.returncode != 0:
        raise CannotMake("no disk can be mounted here")


def make_device(name, numbers):
    try:
        os.mknod(name, stat.S_IFCHR | 0o666, os.makedev(*numbers))
        os.chmod(name, 0o666)
        os.close(os.open(name, os.O_WRONLY))
    except OSError:
        raise CannotMake("no device can be made here") from None


def make_socket(name):
    with socket.socket(socket.AF_UNIX) as made:
        made.bind(name)


def make_nodes(case):
    """Makes the files of a case in the current folder."""
    for name in case.disks:
        os.mkdir(name)
        mount(name, case.disks[name])
    for name, text in case.files.items():
        os.makedirs(name if text is None else os.path.dirname(name) or ".", exist_ok=True)
        if text is not None:
            with open(name, "wb") as file:
                file.write(text)
    for name, to in case.names.items():
        os.link(to, name)
    for name, to in case.links.items():
        os.symlink(to, name)
    for name in [*case.pipes, *case.drains]:
        os.mkfifo(name)
    for name in case.sockets:
        make_socket(name)
    for name, numbers in case.devices.items():
        make_device(name, numbers)


def lay_out(case):
    """Makes the files of a case for the user who runs the program, and returns what is there then."""
    if case.foreign and os.getuid() != 0:
        raise CannotMake("only the superuser can leave files of another user")
    if case.as_root and os.getuid() != 0:
        raise CannotMake("only the superuser can run a program as root")
    for path in case.needs:
        if not os.path.lexists(path):
            raise CannotMake(f"there is no {path}")
    make_nodes(case)
    if len({os.stat(name).st_ino for name in case.twins}) > 1:
        raise CannotMake("two disks don't number their files alike here")
    for name in all_names():
        os.chown(name, *owner(case), follow_symlinks=False)
    for name in case.foreign:
        os.chown(name, 0, 0, follow_symlinks=False)
    nodes = nodes_here()
    for name, mode in case.modes.items():
        os.chmod(name, mode)
        nodes[name] = replace(nodes[name], mode=mode)
    for name, options in case.disks.items():
        if options == "ro":
            subprocess.run(["mount", "-o", "remount,ro", name], check=True)
    return nodes


def nodes_left(case):
    """What is in the current folder. What may not be read gets other permissions first."""
    modes = {}
    for name in case.modes:
        if os.path.lexists(name) and not os.path.islink(name):
            modes[name] = stat.S_IMODE(os.lstat(name).st_mode)
            os.chmod(name, modes[name] | 0o700)
    nodes = nodes_here()
    return nodes | {name: replace(nodes[name], mode=mode) for name, mode in modes.items()}


def fill(pipe, text, for_ever):
    """Gives a text to the reader of a pipe, for ever or as long as somebody reads. What isn't a pipe is left alone."""
    piece = text * (65536 // len(text)) if for_ever else text
    try:
        with open(os.open(pipe, os.O_WRONLY), "wb", buffering=0) as file:
            while stat.S_ISFIFO(os.fstat(file.fileno()).st_mode):
                file.write(piece)
                if not for_ever:
                    break
    except (BrokenPipeError, FileNotFoundError):
        pass


def drain(pipe, drained):
    """Takes what comes out of a pipe."""
    with open(pipe, "rb") as file:
        drained[pipe] = file.read()


def begin_pipes(case):
    """Threads at the other ends of the pipes: those that take texts, and what they have taken."""
    for pipe, filled in case.pipes.items():
        if filled is not None:
            threading.Thread(target=fill, args=(os.path.abspath(pipe), *filled), daemon=True).start()
    drained = {}
    takers = [threading.Thread(target=drain, args=(pipe, drained), daemon=True) for pipe in case.drains]
    for taker in takers:
        taker.start()
    return takers, drained


def limited(case):
    resource.setrlimit(resource.RLIMIT_AS, (case.memory, case.memory))
    resource.setrlimit(resource.RLIMIT_FSIZE, (case.most, case.most))
    resource.setrlimit(resource.RLIMIT_CORE, (0, 0))
    for stream in case.closed:
        os.close(stream)


def own_pipe(case):
    """A pipe. The user who runs the program may open it by its name below /proc, too."""
    reader, writer = os.pipe()
    os.fchown(writer, *owner(case))
    return open(reader, "rb"), writer


def stream_file(number, path):
    return os.open(path, os.O_RDONLY if number == 0 else os.O_WRONLY | os.O_APPEND)


def begun(program, case):
    user, group = owner(case)
    as_user = {"user": user, "group": group, "extra_groups": []} if os.getuid() == 0 else {}
    (output, to_output), (log, to_log) = own_pipe(case), own_pipe(case)
    files = {number: stream_file(number, path) for number, path in case.streams.items()}
    streams = {0: subprocess.DEVNULL, 1: to_output, 2: to_log} | files
    process = subprocess.Popen(
        [program, *case.words],
        env={"CWEBINPUTS": case.inputs} if case.inputs else {},
        stdin=streams[0],
        stdout=streams[1],
        stderr=streams[2],
        umask=case.umask,
        preexec_fn=lambda: limited(case),
        **as_user,
    )
    for ours in (to_output, to_log, *files.values()):
        os.close(ours)
    process.stdout, process.stderr = output, log
    return process


def let_go(case, locked, process):
    """Holds files locked for a while. It is wrong if the run has ended by then."""
    time.sleep(HELD)
    if process.poll() is not None:
        yield "it did not wait for the lock"
    for file, (name, to) in zip(locked, case.held.items()):
        if to is not None and os.path.lexists(name):
            os.rename(name, to)
        file.close()


def locked_file(name):
    file = open(name, "rb")
    fcntl.flock(file, fcntl.LOCK_EX)
    return file


def started(program, case):
    """A run in the current folder: its status, output and log, and what was wrong while it ran."""
    takers, drained = begin_pipes(case)
    locked = [locked_file(name) for name in case.held]
    with begun(program, case) as process:
        try:
            faults = list(let_go(case, locked, process)) if locked else []
            faults += case.meanwhile(process) if case.meanwhile else []
            output, log = process.communicate(timeout=SECONDS)
        except subprocess.TimeoutExpired:
            process.kill()
            return (None, b"", b""), ["it did not end"]
        except Missed:
            process.kill()
            raise
    for taker in takers:
        taker.join(DRAINED)
    for name, text in case.drains.items():
        if drained.get(name) != text:
            faults.append(f"out of {name} came {shown(drained.get(name, b''))}")
    return (process.returncode, output, log), faults


def wrong(case, ended, before, left):
    """What isn't as it must be."""
    status, output, log = ended
    if status != case.status:
        yield f"status {status}"
    if log != case.log:
        yield f"log {shown(log)}"
    if output != case.output:
        yield f"output {shown(output)}"
    yield from wrong_nodes(case, before, left)
