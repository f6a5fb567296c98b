"""The runs that `faults` makes fail, what may happen to a call, and what a run leaves."""
import errno
from dataclasses import dataclass, field
from typing import Callable, Optional

DRAFT = "\x7f"


@dataclass
class Case:
    """A run in a folder of its own, and what it leaves if no call fails."""

    name: str
    words: list
    # texts by their paths, None being a folder; outputs may be among them
    files: dict
    # the files that are written, in their order
    outputs: dict = field(default_factory=dict)
    log: bytes = b""
    status: int = 0
    # standard output
    out: bytes = b""
    # the log before the output: wmerge logs faults after it, and wdep before it
    first: bytes = b""
    # the fields that change if a file cannot be opened: for ctangle by the path, for the others by the number of the call
    refused: object = ()
    # the value of CWEBINPUTS
    inputs: Optional[str] = None
    # the bytes of a short transfer
    least: int = 1
    # an output that cannot be written, or a device
    stuck: tuple = ()
    modes: dict = field(default_factory=dict)
    # the size limit of a file; 0 is none
    most: int = 0

    def expected(self):
        """The outputs that the run begins."""
        return [*self.outputs, *self.stuck]

    def log_before(self, number):
        """The log up to the line that announces an output, by its number from 0."""
        lines = self.log.splitlines(keepends=True)
        begins = [n for n, line in enumerate(lines) if line.startswith(b"Writing ")]
        return b"".join(lines[: begins[number] + 1]) if begins else b""


@dataclass
class Left:
    """What a run leaves. The failed call has a number, and `faults.c` reported which one it was."""

    files: dict
    out: bytes
    log: bytes
    status: int
    nth: int
    reported: Optional[bytes]
    # a write followed a failed write to the same file
    again: bool = False

    def drafts(self, before={}):
        """The drafts that are left, without those that existed before."""
        return [name for name, text in self.files.items() if name.endswith(DRAFT) and before.get(name) != text]


@dataclass(frozen=True)
class Failure:
    """What happens to which calls, and what is promised of such a run."""

    promise: Callable
    call: str
    # 0: the call does not fail, and transfers few bytes
    error: int = 0
    # the later calls that fail too: 0 none, 1 each, 2 each second one
    every: int = 0
    # the stream whose calls are counted; -1 is any
    stream: int = -1
    # the bytes of a short transfer, if the case has no larger number; 0: it takes nothing
    most: int = 1

    def __str__(self):
        what = errno.errorcode.get(self.error, "is short" if self.most else "takes nothing")
        return f"{self.call} to {self.stream} {what}, every {self.every}: {self.promise.__name__} is promised"

    def request(self, case, nth):
        """The words of the variable FAULTS, without the last one."""
        most = max(self.most, case.least) if self.most else 0
        return f"{self.call} {self.stream} {nth} {self.every} {self.error} {most}"
