"""Programs that are stopped before one of their system calls, by ptrace. So another run can do anything while this one stands there."""
import ctypes
import os
import signal
import time

TRACE_ME, GO_ON, DETACH, SET_OPTIONS = 0, 24, 17, 0x4200
# a stop at a system call, and not by a signal, is shown by this bit
TELL_CALLS = 1
AT_CALL = signal.SIGTRAP | 0x80
FLOCK, RENAME = 73, 82
TICK = 0.0005

library = ctypes.CDLL(None, use_errno=True)
library.ptrace.argtypes = [ctypes.c_long, ctypes.c_long, ctypes.c_void_p, ctypes.c_void_p]


def trace(request, run, data=0):
    if library.ptrace(request, run, None, data) < 0:
        number = ctypes.get_errno()
        raise OSError(number, f"ptrace: {os.strerror(number)}")


def call_of(run):
    """The number of the system call that a process is in, or None."""
    try:
        with open(f"/proc/{run}/syscall", encoding="ascii") as file:
            return int(file.read().split()[0])
    except (OSError, IndexError, ValueError):
        return None


def waits_for_lock(run):
    return call_of(run) == FLOCK


class Stopped:
    """A run that stands before the first system call for which `stops` is true of its index, from 1, and its number. If there is none, it
    has ended. `wait` is called if the run waits for a lock on its way there."""

    def __init__(self, words, stops, wait=None):
        self.status, self.wait = None, wait
        self.log, log = os.pipe()
        self.run = os.fork()
        if self.run == 0:
            self.begin(words, log)
        os.close(log)
        os.waitpid(self.run, 0)
        trace(SET_OPTIONS, self.run, TELL_CALLS)
        index = 1
        # each call stops the run twice: before it and after it
        while self.step() and not stops(index, call_of(self.run)) and self.step():
            index += 1

    @staticmethod
    def begin(words, log):
        """The child becomes the program."""
        try:
            os.dup2(os.open(os.devnull, os.O_RDWR), 0)
            os.dup2(0, 1)
            os.dup2(log, 2)
            trace(TRACE_ME, 0)
            os.execv(words[0], words)
        finally:
            os._exit(127)

    def step(self):
        """Goes on to the next stop at a system call. Returns whether there is one."""
        caught = 0
        while True:
            trace(GO_ON, self.run, caught)
            status = self.next_status()
            if not os.WIFSTOPPED(status):
                self.status = status
                return False
            caught = os.WSTOPSIG(status)
            if caught == AT_CALL:
                return True

    def next_status(self):
        run, status = os.waitpid(self.run, os.WNOHANG if self.wait else 0)
        while run == 0:
            if self.wait and waits_for_lock(self.run):
                self.wait()
                self.wait = None
            time.sleep(TICK)
            run, status = os.waitpid(self.run, os.WNOHANG)
        return status

    def go_on(self):
        """Goes on without further stops."""
        if self.status is None:
            trace(DETACH, self.run)

    def poll(self):
        """The status, if it has ended."""
        if self.status is None:
            run, status = os.waitpid(self.run, os.WNOHANG)
            self.status = status if run else None
        return self.status

    def end(self):
        """Waits for its end. Returns its status and its log."""
        if self.status is None:
            self.status = os.waitpid(self.run, 0)[1]
        with os.fdopen(self.log, "rb") as log:
            return os.waitstatus_to_exitcode(self.status), log.read()


def goes_as_far(run, number, seconds):
    """Waits until a run, which is a process with this number, has ended or waits for a lock."""
    until = time.monotonic() + seconds
    while run.poll() is None and not waits_for_lock(number) and time.monotonic() < until:
        time.sleep(TICK)
