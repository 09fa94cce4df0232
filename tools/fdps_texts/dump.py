"""Dumps: the texts of the steps of a run, one after another, read one step at a time."""

from __future__ import annotations

import re
from dataclasses import dataclass
from itertools import islice
from typing import BinaryIO, Dict, Iterator, List, Optional

from .trouble import Trouble

HEAD = re.compile(rb"step (0|[1-9]\d{0,9}) particles (0|[1-9]\d{0,4}) ranks ([1-9]\d?)\n")
COUNTS = ("particles", "groups", "cells", "parts", "listcells", "listparts")
RANK = re.compile(rb"rank (\d+)" + b"".join(rb" %s (\d+)" % name.encode() for name in COUNTS) + rb"\n")
ROW = re.compile(rb"p( -?\d+){11,}\n")
MOVES = ["x", "y", "z", "vx", "vy", "vz"]
BEFORE_FORCES = 2 + len(MOVES)  # the numbers of a particle's line that stand before its forces


@dataclass(frozen=True)
class Step:
    """The whole text of a step, by lines, each with its line feed, and where it begins."""

    number: int
    offset: int
    first_line: int
    head: bytes
    ranks: List[bytes]
    rows: List[bytes]

    @property
    def text(self) -> bytes:
        """The whole text."""
        return b"".join([self.head, *self.ranks, *self.rows])

    @property
    def particle_count(self) -> int:
        """How many particles it has."""
        return len(self.rows)

    @property
    def width(self) -> Optional[int]:
        """How many numbers of forces a particle has; none can be told where there is no particle."""
        return self.rows[0].count(b" ") - BEFORE_FORCES if self.rows else None

    def numbers(self, index: int) -> List[int]:
        """The numbers of a particle's line: id, owner, position, velocity and forces."""
        return [int(field) for field in self.rows[index].split()[1:]]

    def counts(self, rank: int) -> Dict[str, int]:
        """The six counts of a rank's line, by name."""
        return dict(zip(COUNTS, (int(count) for count in self.ranks[rank].split()[3::2])))


class Dump:
    """The whole steps of a dump, in turn. What follows the last of them is kept in `rest`."""

    def __init__(self, stream: BinaryIO, name: str) -> None:
        self.stream = stream
        self.name = name
        self.offset = 0
        self.line = 1
        self.rest = b""
        self.rest_step: Optional[int] = None

    def __iter__(self) -> Iterator[Step]:
        while True:
            step = self.next_step()
            if step is None:
                return
            self.offset += len(step.head) + sum(map(len, step.ranks)) + sum(map(len, step.rows))
            self.line += 1 + len(step.ranks) + len(step.rows)
            yield step

    @property
    def cut(self) -> str:
        """What is said of a dump that ends within a step."""
        within = "a step" if self.rest_step is None else f"step {self.rest_step}"
        return f"{self.name} ends within {within}, after {len(self.rest)} bytes of it"

    def next_step(self) -> Optional[Step]:
        """The next whole step, or none at the end or where the dump is cut."""
        head = self.stream.readline(64)
        if not head.endswith(b"\n") and b"step ".startswith(head[:5]) and len(head) < 64:
            self.rest = head
            return None
        match = HEAD.fullmatch(head)
        if match is None:
            raise self.no_dump(0)
        number, particles, ranks = (int(group) for group in match.groups())
        lines = list(islice(self.stream, ranks + particles))
        whole = lines if not lines or lines[-1].endswith(b"\n") else lines[:-1]
        self.judge(whole, ranks)
        if len(whole) < ranks + particles:
            self.rest = b"".join([head, *lines])
            self.rest_step = number
            return None
        return Step(number, self.offset, self.line, head, lines[:ranks], lines[ranks:])

    def judge(self, lines: List[bytes], ranks: int) -> None:
        """Refuses lines that no step has: all are looked at, those of ranks and of the first particle closely."""
        for place, line in enumerate(lines[:ranks]):
            match = RANK.fullmatch(line)
            if match is None or int(match.group(1)) != place:
                raise self.no_dump(1 + place)
        rows = lines[ranks:]
        if rows and not ROW.fullmatch(rows[0]):
            raise self.no_dump(1 + ranks)
        spaces = rows[0].count(b" ") if rows else 0
        for place, line in enumerate(rows):
            if not line.startswith(b"p ") or line.count(b" ") != spaces:
                raise self.no_dump(1 + ranks + place)

    def no_dump(self, line: int) -> Trouble:
        """The trouble with a line, counted from the step's first."""
        return Trouble(f"{self.name}: line {self.line + line} is none of a dump")
