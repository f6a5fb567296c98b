"""Runs a web with the programs and with the model, and tells where they differ."""
import os
import resource
import shutil
import signal
from dataclasses import dataclass, field, replace
from typing import Dict, List, Optional

from model import programs as model
from model.folder import Outside

SECONDS = 20
# A web that unfolds to very much, by doubling includes or names, is left out: Python is slow.
MODEL_SECONDS = 3
MODEL_BYTES = 3 << 30
SPACE = '/dev/shm' if os.access('/dev/shm', os.W_OK) else None


@dataclass
class Web:
    """What the programs are given. `words` has a list of words for each program to run."""
    files: Dict[bytes, Optional[bytes]]
    words: Dict[str, List[bytes]]
    inputs: Optional[bytes] = None
    strings: list = field(default_factory=list)

    def with_files(self, files):
        return replace(self, files=files)


class TimedOut(Exception):
    pass


def on_alarm(*_):
    raise TimedOut


class Runner:
    """Runs webs in one folder, which lies two levels below `base`: `..` stays in there."""

    def __init__(self, programs, base):
        self.programs = programs
        self.base = os.fsencode(base)
        self.folder = os.path.join(self.base, b'one', b'two')
        os.makedirs(self.folder, exist_ok=True)
        os.chdir(self.folder)
        self.streams = [os.path.join(self.base, name) for name in (b'out', b'err')]
        signal.signal(signal.SIGALRM, on_alarm)
        signal.signal(signal.SIGVTALRM, on_alarm)
        resource.setrlimit(resource.RLIMIT_AS, (MODEL_BYTES, MODEL_BYTES))

    def differences(self, web):
        """None where the model cannot tell; else triples: what, the model's, the program's.

        ctangle comes last: the files that stand there afterwards are those that it alone wrote.
        """
        runs = self.modelled(web)
        if runs is None:
            return None
        found = []
        self.lay_out(web.files)
        for tool, want in runs.items():
            status, out, log = self.run(tool, web.words[tool], web.inputs)
            pairs = [('status', want.status, status), ('log', want.log, log)]
            if not (want.stopped and (want.out.startswith(out) or out.startswith(want.out))):
                pairs.append(('output', want.out, out))
            found += [(f'{what} of {tool}', a, b) for what, a, b in pairs if a != b]
        wanted = runs['ctangle'].files if 'ctangle' in runs else \
            {name: text for name, text in web.files.items() if text is not None}
        stand = self.collect()
        for name in sorted(wanted.keys() | stand.keys()):
            if wanted.get(name) != stand.get(name):
                found.append((f'file {os.fsdecode(name)}', wanted.get(name), stand.get(name)))
        return found

    def modelled(self, web):
        """What the model makes of a web with each program."""
        signal.setitimer(signal.ITIMER_VIRTUAL, MODEL_SECONDS)
        try:
            return {tool: model.run(tool, web.words[tool], web.inputs, web.files)
                    for tool in ('wmerge', 'wdep', 'ctangle')
                    if tool in web.words and tool in self.programs}
        except (Outside, TimedOut, MemoryError):
            return None
        finally:
            signal.setitimer(signal.ITIMER_VIRTUAL, 0)

    def lay_out(self, files):
        for name, text in files.items():
            folder = name if text is None else os.path.dirname(name)
            if folder:
                os.makedirs(folder, exist_ok=True)
            if text is not None:
                with open(name, 'wb') as f:
                    f.write(text)

    def run(self, tool, words, inputs):
        env = {} if inputs is None else {b'CWEBINPUTS': inputs}
        write = os.O_WRONLY | os.O_CREAT | os.O_TRUNC
        actions = [(os.POSIX_SPAWN_OPEN, 0, '/dev/null', os.O_RDONLY, 0)]
        actions += [(os.POSIX_SPAWN_OPEN, n, path, write, 0o600)
                    for n, path in enumerate(self.streams, 1)]
        program = os.fsencode(self.programs[tool])
        pid = os.posix_spawn(program, [program] + words, env, file_actions=actions)
        signal.setitimer(signal.ITIMER_REAL, SECONDS)
        try:
            status = os.waitstatus_to_exitcode(os.waitpid(pid, 0)[1])
        except TimedOut:
            os.kill(pid, signal.SIGKILL)
            os.waitpid(pid, 0)
            status = 'no end'
        finally:
            signal.setitimer(signal.ITIMER_REAL, 0)
        out, log = (open(path, 'rb').read() for path in self.streams)
        return status, out, log

    def collect(self):
        """All files of the folder; it is empty afterwards."""
        found = {}
        for where, folders, names in os.walk(b'.', topdown=False):
            for name in names:
                path = os.path.join(where, name)
                with open(path, 'rb') as f:
                    found[path[2:]] = f.read()
                os.unlink(path)
            for name in folders:
                os.rmdir(os.path.join(where, name))
        return found


def remove(folder):
    shutil.rmtree(folder, ignore_errors=True)
