"""Programs that the launcher starts: they end with it, and it ends as they do."""

from __future__ import annotations

import contextlib
import ctypes
import fcntl
import os
import resource
import shutil
import signal
from pathlib import Path
from typing import Iterator, NoReturn

# What a user or the system sends to end a command.
ENDING = (signal.SIGINT, signal.SIGTERM, signal.SIGHUP, signal.SIGQUIT)
# `prctl` of Linux: the signal that a process gets when the one that started it ends.
PR_SET_PDEATHSIG = 1

_libc = ctypes.CDLL(None)


def killed_with_launcher() -> None:
    """For the child, before its program: it is killed where the launcher is."""
    _libc.prctl(PR_SET_PDEATHSIG, signal.SIGKILL)


def told_to_end_with_launcher() -> None:
    """As above, by a signal at which `rt` ends what it started."""
    _libc.prctl(PR_SET_PDEATHSIG, signal.SIGTERM)


class Trouble(Exception):
    """The program can't be run; the text says why."""


class Ended(BaseException):
    """A signal told the launcher to end."""

    def __init__(self, number: int) -> None:
        super().__init__(number)
        self.number = number


def require_rt() -> None:
    """Tells where `rt` lacks, which proves and builds."""
    if not shutil.which("rt"):
        raise Trouble("rt isn't on the path")


@contextlib.contextmanager
def signals_end() -> Iterator[None]:
    """Has the first of the signals of `ENDING` raise `Ended`, but for those that whoever started the launcher has it ignore."""

    def end(number: int, _: object) -> None:
        for it in before:
            signal.signal(it, signal.SIG_IGN)
        raise Ended(number)

    before = {it: signal.getsignal(it) for it in ENDING if signal.getsignal(it) != signal.SIG_IGN}
    for it in before:
        signal.signal(it, end)
    yield
    for it, handler in before.items():
        signal.signal(it, handler)


def die_by(number: int) -> NoReturn:
    """Ends the launcher by the signal, without a core of its own."""
    resource.setrlimit(resource.RLIMIT_CORE, (0, 0))
    if number != signal.SIGKILL:
        signal.signal(number, signal.SIG_DFL)
        signal.pthread_sigmask(signal.SIG_UNBLOCK, [number])
    os.kill(os.getpid(), number)
    os._exit(128 + number)


def end_as(status: int) -> NoReturn:
    """Ends the launcher as a child ended: with its status, or by the signal that a negative number tells."""
    if status < 0:
        die_by(-status)
    os._exit(status)


def occupy_standard_descriptors() -> None:
    """Has standard descriptors that are closed taken, so that no file of the launcher gets one. A child finds them closed."""
    while True:
        taken = os.open(os.devnull, os.O_RDWR)
        if taken > 2:
            os.close(taken)
            return


class Lock:
    """A lock on a folder as `rt` takes it, until it is let go. Where the file system has no locks each is held."""

    def __init__(self, folder: Path, waits: bool = False) -> None:
        self._descriptor = os.open(folder, os.O_RDONLY)
        self.is_held = True
        try:
            fcntl.flock(self._descriptor, fcntl.LOCK_EX | (0 if waits else fcntl.LOCK_NB))
        except BlockingIOError:
            self.let_go()
        except OSError:
            pass

    def let_go(self) -> None:
        os.close(self._descriptor)
        self.is_held = False
