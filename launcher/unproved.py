"""Runs the program's sources at once, unproved: `rt try` builds them with checks, in about a minute."""

from __future__ import annotations

import os
import re
import subprocess
import tempfile
import time
from pathlib import Path
from typing import BinaryIO, List, Optional, Tuple

from launcher import refusal, terminal
from launcher.deck import FILES, Deck, content, fields, place_among
from launcher.process import Trouble, require_rt, told_to_end_with_launcher
from launcher.program import REFUSED
from launcher.progress import Progress
from launcher.prove import PROGRAM

# The longest name of a file in a deck, in bytes, and the bytes that it may have.
LONGEST = 255
NAME = re.compile(rb"[!-~]+")
# The most seconds that `rt try` takes: some eleven days.
SECONDS = 999_999
PAUSE = 0.1
# The last line of `rt try`, where the program ended.
ENDED = re.compile(r"(?m)^run=ended status=(\d+) ")
# Its other lines.
OWN = re.compile(r"(interpreter|checked|races|rt): |run=|rt:")


def run(top: Path, words: List[str]) -> int:
    """Runs the words unproved, and returns the program's status."""
    require_rt()
    terminal.say("fdps: this run is UNPROVED: its sources are built as they stand, which takes a minute or more\n")
    with tempfile.TemporaryDirectory(prefix="fdps-") as room:
        deck, given = _handed(words, Path(room))
        progress = Progress(deck, "building, unproved") if deck and terminal.is_there() else None
        with open(f"{room}/stdout", "w+b") as said, open(f"{room}/stderr", "w+b") as told:
            status = _try(top, given, said, told, progress)
            said.seek(0)
            told.seek(0)
            return _ended(said.read(), told.read().decode(errors="replace"), status, deck)


def _handed(words: List[str], room: Path) -> Tuple[Optional[Deck], List[str]]:
    """The deck that the words of `run` name, and the words with a copy of it, in which no name of a file is relative."""
    place = place_among(words) if words[:1] == ["run"] else None
    if place is None:
        return None, words
    try:
        deck = Deck.parse(words[place], Path(words[place]).read_bytes())
    except (OSError, ValueError):
        # The program says that it isn't there.
        return None, [*words[:place], os.path.abspath(words[place]), *words[place + 1 :]]
    link = room / "here"
    link.symlink_to(os.getcwd())
    lines = deck.text.splitlines(keepends=True)
    (room / "deck").write_bytes(b"".join(_with_absolute_name(it, bytes(link)) for it in lines))
    return deck, [*words[:place], str(room / "deck"), *words[place + 1 :]]


def _with_absolute_name(line: bytes, link: bytes) -> bytes:
    """The line with an absolute name: by the caller's folder, or by a link to it where its name can't stand in a deck."""
    found = fields(line)
    if len(found) != 2 or found[0].text not in FILES or not _may_be_name(found[1].text):
        return line
    for folder in (os.getcwdb(), link):
        name = os.path.join(folder, found[1].text)
        if _may_be_name(name):
            return line[: found[1].start] + name + line[len(content(line)) :]
    raise Trouble(f"--unproved needs absolute names, and that of {os.fsdecode(found[1].text)} has more than {LONGEST} bytes")


def _may_be_name(name: bytes) -> bool:
    return len(name) <= LONGEST and bool(NAME.fullmatch(name))


def _try(top: Path, words: List[str], said: BinaryIO, told: BinaryIO, progress: Optional[Progress]) -> int:
    """Runs `rt try`, and returns its own status."""
    folder = top / "crates" / PROGRAM
    child = subprocess.Popen(
        ["rt", "try", "--seconds", str(SECONDS), "--", *words],
        cwd=folder,
        stdin=subprocess.DEVNULL,
        stdout=said,
        stderr=told,
        preexec_fn=told_to_end_with_launcher,
    )
    try:
        while child.poll() is None:
            if progress:
                progress.tick()
            time.sleep(PAUSE)
        return child.returncode
    finally:
        child.terminate()
        child.wait()
        if progress:
            progress.clear()


def _ended(said: bytes, told: str, status: int, deck: Optional[Deck]) -> int:
    """Says what the program said, and returns its status. Where it didn't end by itself, `rt` tells why."""
    ended = ENDED.search(told)
    if not ended:
        terminal.say(f"{told}fdps: the unproved run didn't end by itself (rt try: {status})\n")
        return 1
    terminal.say("".join(it for it in told.splitlines(keepends=True) if not OWN.match(it)))
    try:
        with open(1, "wb", closefd=False) as out:
            out.write(said)
    except OSError as error:
        terminal.say(f"fdps: standard output: {error.strerror}\n")
        return 1
    shown = refusal.shown(said.decode(errors="replace"), deck) if deck and int(ended[1]) == REFUSED else None
    terminal.say(shown or "")
    return int(ended[1])
