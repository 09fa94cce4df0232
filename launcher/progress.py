"""How far a run is, from the `step` lines that it has written."""

from __future__ import annotations

import os
import re
import stat
import time
from typing import Optional, Tuple

from launcher.deck import Deck
from launcher.terminal import StatusLine

# Seconds before the first word, and between two looks.
FIRST, PAUSE = 5.0, 1.0
STEP = re.compile(rb"\nstep (\d{1,10}) ")
# Bytes kept of what was read, so that a `step` line in two pieces is seen.
KEPT = 32
PIECE = 1 << 20


class Output:
    """The output of a run as it grows. What stood there before the run isn't looked at, nor anything but a regular file."""

    def __init__(self, name: str) -> None:
        self._name = name
        self._before = self._state()
        self._read, self._rest = 0, b"\n"
        self.step: Optional[int] = None

    def _state(self) -> Optional[Tuple[int, ...]]:
        try:
            it = os.stat(self._name)
        except (OSError, ValueError):
            return None
        return (it.st_dev, it.st_ino, it.st_mtime_ns, it.st_size) if stat.S_ISREG(it.st_mode) else None

    def look(self) -> Optional[int]:
        """The greatest step whose line stands in the output."""
        now = self._state()
        if now and now != self._before:
            self._before = None
            with open(self._name, "rb") as file:
                # A shorter file was begun anew.
                if now[-1] < self._read:
                    self._read, self._rest = 0, b"\n"
                file.seek(self._read)
                for piece in iter(lambda: file.read(PIECE), b""):
                    self._take(piece)
        return self.step

    def _take(self, piece: bytes) -> None:
        self._read += len(piece)
        text = self._rest + piece
        for found in STEP.finditer(text):
            self.step = int(found[1])
        self._rest = text[-KEPT:]


class Progress:
    """A line on the terminal: the step at which the run is, of how many, and the minutes left."""

    def __init__(self, deck: Deck, opening: Optional[str] = None) -> None:
        """`opening` is shown before there is an output; without it that step 0 is at work."""
        out = deck.file(b"out")
        self._steps = deck.steps
        self._output = Output(out) if out else None
        self._opening = opening or f"step 0 of {self._steps}"
        self._line = StatusLine()
        self._next = time.monotonic() + FIRST
        self._began: Optional[Tuple[float, int]] = None

    def tick(self) -> None:
        """Looks again where it is time to."""
        now = time.monotonic()
        if now < self._next or not self._output or self._steps is None:
            return
        self._next = now + PAUSE
        try:
            step = self._output.look()
        except OSError:
            return
        if step is None:
            self._line.show(f"fdps: {self._opening}")
        elif step < self._steps:
            self._began = self._began or (now, step)
            left = _left(now - self._began[0], step - self._began[1], self._steps - step)
            self._line.show(f"fdps: step {step + 1} of {self._steps}{left}")

    def clear(self) -> None:
        self._line.clear()


def _left(seconds: float, done: int, steps: int) -> str:
    """The minutes that are left, once some steps tell how long one takes."""
    if not done:
        return ""
    minutes = seconds / done * steps / 60
    return f", {minutes:.0f} min left" if minutes >= 1 else ", less than a minute left"
