"""Decks, as far as the launcher reads them. What it doesn't understand it leaves to the program."""

from __future__ import annotations

import os
import re
import stat
from dataclasses import dataclass
from typing import Dict, List, Optional

# The names of files that a deck has.
FILES = (b"kernel", b"particles", b"out")
FIELD = re.compile(rb"[^ \t]+")


@dataclass(frozen=True)
class Field:
    """A field of a line: its bytes, and where it begins."""

    text: bytes
    start: int


def content(line: bytes) -> bytes:
    """A line of a deck or a particle file without its end."""
    line = line[:-1] if line.endswith(b"\n") else line
    return line[:-1] if line.endswith(b"\r") else line


def fields(line: bytes) -> List[Field]:
    return [Field(it.group(), it.start()) for it in FIELD.finditer(content(line))]


@dataclass(frozen=True)
class Deck:
    """A deck's own name and text, and the values of the keys that it gives."""

    name: str
    text: bytes
    values: Dict[bytes, bytes]

    @staticmethod
    def parse(name: str, text: bytes) -> Deck:
        values: Dict[bytes, bytes] = {}
        for line in text.splitlines(keepends=True):
            found = fields(line)
            if len(found) == 2 and not found[0].text.startswith(b"#"):
                values.setdefault(found[0].text, found[1].text)
        return Deck(name, text, values)

    def file(self, key: bytes) -> Optional[str]:
        """The name of a file that the deck gives."""
        return os.fsdecode(self.values[key]) if key in self.values else None

    @property
    def steps(self) -> Optional[int]:
        """The number of the run's last step."""
        given = self.values.get(b"steps", b"0")
        return int(given) if given.isdigit() and len(given) <= 10 else None


def read_plain(name: str) -> Optional[Deck]:
    """The deck in a regular file. One that comes through a pipe is left to the program, which reads it once."""
    try:
        if stat.S_ISREG(os.stat(name).st_mode):
            with open(name, "rb") as file:
                return Deck.parse(name, file.read())
    except (OSError, ValueError):
        pass
    return None


def place_among(words: List[str]) -> Optional[int]:
    """Where the words of `run` or `bench` have the first that is no option: for `run` the deck's name."""
    place = 1
    while place < len(words):
        word = words[place]
        if word == "--":
            return place + 1 if place + 1 < len(words) else None
        if word == "--workers":
            place += 2
        elif word.startswith("--workers="):
            place += 1
        else:
            return place
    return None
