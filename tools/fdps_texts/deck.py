"""Decks: the settings of a run."""

from __future__ import annotations

import re
from dataclasses import dataclass
from fractions import Fraction
from typing import Dict, List, Tuple

from .files import reading
from .trouble import Trouble

DEFAULTS = {
    "grid": "1x1x1",
    "theta": "1/2",
    "group": "64",
    "steps": "0",
    "dt": "1",
    "reuse": "1",
    "box": "open",
}
NAMES = ("kernel", "particles", "out")
FORMS = {
    "grid": re.compile(r"\d{1,10}x\d{1,10}x\d{1,10}"),
    "theta": re.compile(r"\d{1,10}/\d{1,10}"),
    "box": re.compile(r"open|periodic"),
}
NUMBER = re.compile(r"\d{1,10}")
NAME = re.compile(r"[!-~]{1,255}")


@dataclass(frozen=True)
class Deck:
    """The settings of a deck, those that it leaves out at their defaults."""

    kernel: str
    particles: str
    out: str
    grid: Tuple[int, int, int]
    theta: Tuple[int, int]
    group: int
    steps: int
    dt: int
    reuse: int
    box: str

    @property
    def periodic(self) -> bool:
        """Whether what leaves the box on one side enters it on the other."""
        return self.box == "periodic"

    @property
    def opening_angle(self) -> Fraction:
        """Theta as a number."""
        return Fraction(*self.theta)


def read_deck(name: str) -> Deck:
    """The deck in the named file; the names in it are meant from the folder in which the tool runs."""
    with reading(name) as stream:
        text = stream.read().decode("latin-1")
    values = dict(DEFAULTS)
    values.update(settings(name, text))
    for key in NAMES:
        if key not in values:
            raise Trouble(f"{name}: the deck has no {key}")
    a, b, c = (int(part) for part in values["grid"].split("x"))
    over, under = (int(part) for part in values["theta"].split("/"))
    return Deck(
        kernel=values["kernel"],
        particles=values["particles"],
        out=values["out"],
        grid=(a, b, c),
        theta=(over, under),
        group=int(values["group"]),
        steps=int(values["steps"]),
        dt=int(values["dt"]),
        reuse=int(values["reuse"]),
        box=values["box"],
    )


def settings(name: str, text: str) -> Dict[str, str]:
    """The keys of the deck's lines with their values."""
    found: Dict[str, str] = {}
    for number, line in enumerate(text.split("\n"), 1):
        fields = fields_of(line)
        if not fields or fields[0].startswith("#"):
            continue
        key = fields[0]
        if key not in NAMES and key not in DEFAULTS:
            raise Trouble(f"{name}: line {number}: no setting is called {key}")
        if key in found:
            raise Trouble(f"{name}: line {number}: {key} stands there twice")
        form = NAME if key in NAMES else FORMS.get(key, NUMBER)
        if len(fields) != 2 or not form.fullmatch(fields[1]):
            raise Trouble(f"{name}: line {number}: no value that {key} can have")
        found[key] = fields[1]
    return found


def fields_of(line: str) -> List[str]:
    """The fields of a line of a deck or of particles, between spaces and tabs."""
    if line.endswith("\r"):
        line = line[:-1]
    return [field for field in re.split("[ \t]+", line) if field]
