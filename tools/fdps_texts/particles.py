"""Particle files of version 1."""

from __future__ import annotations

import re
from dataclasses import dataclass
from typing import BinaryIO, Iterable, List, Tuple

from .deck import fields_of
from .files import reading
from .trouble import Trouble

SIDE = 1 << 30  # of the box, in grid steps
MOST_PARTICLES = 65536
LIMITS = (
    [("id", 0, (1 << 32) - 1)]
    + [(axis, 0, SIDE - 1) for axis in ("x", "y", "z")]
    + [(axis, -(1 << 47), 1 << 47) for axis in ("vx", "vy", "vz")]
    + [("mass", 1, (1 << 31) - 1)]
    + [(f"c{place}", -(1 << 40), 1 << 40) for place in range(4)]
)
COLUMNS = [name for name, _, _ in LIMITS]


@dataclass(frozen=True)
class Particle:
    """A particle; positions are in grid steps, velocities have 16 fraction bits."""

    id: int
    position: Tuple[int, int, int]
    velocity: Tuple[int, int, int]
    mass: int = 1
    attributes: Tuple[int, int, int, int] = (0, 0, 0, 0)

    @property
    def numbers(self) -> List[int]:
        """The twelve numbers of its line."""
        return [self.id, *self.position, *self.velocity, self.mass, *self.attributes]

    @property
    def line(self) -> str:
        """Its line, with the line feed."""
        return " ".join(str(number) for number in self.numbers) + "\n"


def particle_of(numbers: List[int], where: str) -> Particle:
    """The particle with these twelve numbers; trouble names the number that is past its limit."""
    for (column, least, most), number in zip(LIMITS, numbers):
        if not least <= number <= most:
            raise Trouble(f"{where}: {column} is {number}, and may go from {least} to {most}")
    x, y, z, vx, vy, vz = numbers[1:7]
    c0, c1, c2, c3 = numbers[8:12]
    return Particle(numbers[0], (x, y, z), (vx, vy, vz), numbers[7], (c0, c1, c2, c3))


def read_particles(name: str) -> List[Particle]:
    """The particles of the named file, as it has them."""
    with reading(name) as stream:
        text = stream.read()
    if text.startswith(b"FDPSPART"):
        raise Trouble(f"{name}: a particle file of version 2, which the tools don't read")
    lines = []
    for number, line in enumerate(text.decode("latin-1").split("\n"), 1):
        fields = fields_of(line)
        if fields and not fields[0].startswith("#"):
            lines.append((number, fields))
    if not lines or lines[0][1] != ["particles", "1"]:
        raise Trouble(f"{name}: no particle file: its first line isn't `particles 1`")
    count = re.fullmatch(r"count ([0-9]+)", " ".join(lines[1][1])) if len(lines) > 1 else None
    if count is None or int(count.group(1)) != len(lines) - 2:
        raise Trouble(f"{name}: no particle file: `count` isn't the number of its particles, {len(lines) - 2}")
    return distinct([particle_in(name, number, fields) for number, fields in lines[2:]], name)


def particle_in(name: str, number: int, fields: List[str]) -> Particle:
    """The particle in a line of a file."""
    where = f"{name}: line {number}"
    try:
        numbers = [int(field) for field in fields if field.lstrip("-").isdigit()]
    except ValueError:
        numbers = []
    if len(fields) != len(COLUMNS) or len(numbers) != len(COLUMNS):
        raise Trouble(f"{where}: a particle has the twelve whole numbers {' '.join(COLUMNS)}")
    return particle_of(numbers, where)


def distinct(particles: List[Particle], where: str) -> List[Particle]:
    """The particles as they are, where no two have one id and there aren't too many."""
    if len(particles) > MOST_PARTICLES:
        raise Trouble(f"{where}: {len(particles)} particles, and there may be {MOST_PARTICLES}")
    seen = set()
    for particle in particles:
        if particle.id in seen:
            raise Trouble(f"{where}: two particles have the id {particle.id}")
        seen.add(particle.id)
    return particles


def write_particles(stream: BinaryIO, particles: Iterable[Particle], remarks: Iterable[str] = ()) -> None:
    """Writes a particle file, each remark in a line that is skipped where it is read."""
    listed = list(particles)
    head = [f"# {remark}\n" for remark in remarks] + ["particles 1\n", f"count {len(listed)}\n"]
    stream.write("".join(head + [particle.line for particle in listed]).encode("ascii"))
