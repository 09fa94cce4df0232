"""Runs the program, with the caller's standard streams, and ends as it ends."""

from __future__ import annotations

import contextlib
import os
import signal
import stat
import subprocess
import time
from pathlib import Path
from typing import Callable, Iterator, List, NoReturn, Optional, Tuple

from launcher import refusal, terminal
from launcher.deck import FILES, Deck, place_among, read_plain
from launcher.process import ENDING, killed_with_launcher
from launcher.progress import Progress

REFUSED = 3
# What Python ignores, and a program that it starts finds as it is wont to.
BY_PYTHON = (signal.SIGPIPE, signal.SIGXFSZ)
# Seconds between two looks whether the program has ended, on a terminal.
PAUSE = 0.05
# Seconds that a refused run, made again to have its line, may take.
AGAIN = 60


def hand_over(program: Path, words: List[str]) -> NoReturn:
    """Lets the program take the launcher's place."""
    for it in BY_PYTHON:
        signal.signal(it, signal.SIG_DFL)
    os.execv(program, [str(program), *words])


def run(program: Path, words: List[str]) -> int:
    """Runs a command that reads a deck, and returns its status, or a signal as a negative number."""
    place = place_among(words)
    deck = read_plain(words[place]) if place is not None else None
    if not deck:
        hand_over(program, words)
    before = _state(deck)
    status = _watched([str(program), *words], Progress(deck) if terminal.is_there() else None)
    if status == REFUSED and before and before == _state(deck):
        _show_refusal([str(program), *words], deck)
    return status


def _watched(words: List[str], progress: Optional[Progress]) -> int:
    with _forwarding() as forward:
        child = subprocess.Popen(words, preexec_fn=killed_with_launcher)
        forward(child)
        if not progress:
            return child.wait()
        try:
            while child.poll() is None:
                progress.tick()
                time.sleep(PAUSE)
            return child.returncode
        finally:
            progress.clear()


@contextlib.contextmanager
def _forwarding() -> Iterator[Callable[[subprocess.Popen], None]]:
    """Hands the signals that end a command on to the child that the call it gives is told of, those before that call too."""
    children: List[subprocess.Popen] = []
    early: List[int] = []

    def forward(number: int, _: object) -> None:
        early.append(number)
        for child in children:
            child.send_signal(number)

    def tell(child: subprocess.Popen) -> None:
        children.append(child)
        for number in early[:]:
            child.send_signal(number)

    for it in ENDING:
        if signal.getsignal(it) != signal.SIG_IGN:
            signal.signal(it, forward)
    yield tell


def _state(deck: Deck) -> Optional[List[Tuple[int, ...]]]:
    """What tells that the inputs haven't changed; none where one of them can't be read twice."""
    found = []
    for name in [deck.name, *(deck.file(it) for it in FILES[:2])]:
        if name is not None:
            try:
                it = os.stat(name)
            except (OSError, ValueError):
                continue
            if not stat.S_ISREG(it.st_mode):
                return None
            found.append((it.st_dev, it.st_ino, it.st_mtime_ns, it.st_size))
    return found


def _show_refusal(words: List[str], deck: Deck) -> None:
    """A run that was refused writes nothing. So it is made again to have its line, since the first one's went to the caller."""
    try:
        again = subprocess.run(
            words,
            stdout=subprocess.PIPE,
            stderr=subprocess.DEVNULL,
            timeout=AGAIN,
            preexec_fn=killed_with_launcher,
        )
        shown = refusal.shown(again.stdout.decode(errors="replace"), deck) if again.returncode == REFUSED else None
    except (OSError, ValueError, subprocess.TimeoutExpired):
        return
    if shown:
        terminal.say(shown)
