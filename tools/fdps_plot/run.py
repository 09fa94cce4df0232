"""What is known of a run beside its dump, and the numbers of its steps in a user's units."""

from __future__ import annotations

from dataclasses import dataclass
from typing import Callable, Dict, Generic, List, Optional, TypeVar

import numpy as np

from fdps_texts.dump import Step
from fdps_texts.kernel import Kernel
from fdps_texts.particles import COLUMNS, SIDE, Particle
from fdps_texts.trouble import Trouble
from fdps_texts.units import FRACTION, HALF, Gravity, Units, gravity_of

T = TypeVar("T")


@dataclass(frozen=True)
class Run:
    """A run's kernel and particles, where they are given."""

    units: Units
    kernel: Optional[Kernel] = None
    kernel_name: str = ""
    particles: Optional[List[Particle]] = None
    periodic: bool = False

    def inputs(self) -> np.ndarray:
        """The numbers of the particle file, a row for each particle by id."""
        if self.particles is None:
            raise Trouble("masses and attributes need --deck or --particles")
        rows = sorted(particle.numbers for particle in self.particles)
        return np.array(rows, dtype=np.int64).reshape(len(rows), len(COLUMNS))

    def input_column(self, name: str) -> np.ndarray:
        """A column of the particle file, by id."""
        return self.inputs()[:, COLUMNS.index(name)]

    def masses(self) -> np.ndarray:
        """The masses, by id, in the user's units."""
        return self.input_column("mass") / self.units.mass

    def gravity(self) -> Gravity:
        """The kernel's gravity, in the user's units."""
        if self.kernel is None:
            raise Trouble("energy needs --deck or --kernel")
        if self.periodic:
            raise Trouble("the energy of a periodic box isn't worked out here")
        gravity = gravity_of(self.kernel, self.kernel_name)
        return Gravity(gravity.constant / self.units.gravity, gravity.softening / self.units.length**2)


class Table:
    """The numbers of a step's particles, by id."""

    def __init__(self, step: Step, run: Run) -> None:
        text = b"".join(row[2:] for row in step.rows)
        width = 8 + (step.width or 0)
        self.numbers = np.fromstring(text, dtype=np.int64, sep=" ").reshape(len(step.rows), width)
        self.run = run
        self.step = step

    @property
    def ids(self) -> np.ndarray:
        """The ids, ascending."""
        return self.numbers[:, 0]

    @property
    def positions(self) -> np.ndarray:
        """From the middle of the box."""
        return (self.numbers[:, 2:5] - HALF) / self.run.units.length

    @property
    def velocities(self) -> np.ndarray:
        """In lengths a time."""
        return self.numbers[:, 5:8] / (FRACTION * self.run.units.velocity)

    def attribute(self, name: str) -> np.ndarray:
        """A number of each particle by its name; of a vec force the length, in the kernel's own numbers."""
        if name == "owner":
            return self.numbers[:, 1]
        if name == "speed":
            return np.linalg.norm(self.velocities, axis=1)
        if name == "mass":
            return self.of_inputs(self.run.masses())
        if name in COLUMNS[8:]:
            return self.of_inputs(self.run.input_column(name))
        return self.force(name)

    def of_inputs(self, column: np.ndarray) -> np.ndarray:
        """A column of the particle file, where this is its run's dump."""
        if not np.array_equal(self.ids, self.run.input_column("id")):
            raise Trouble("the particle file's ids aren't those of the dump")
        return column

    def force(self, name: str) -> np.ndarray:
        """The number of a FORCE variable, or its length."""
        if self.run.kernel is None:
            raise Trouble(f"{name}: the forces' names need --deck or --kernel")
        if self.step.width not in (None, self.run.kernel.width):
            raise Trouble(f"{self.run.kernel_name}: its forces have another width than those of the dump")
        places: Dict[str, slice] = {}
        begin = 8
        for force in self.run.kernel.forces:
            places[force.name] = slice(begin, begin + len(force.columns))
            begin += len(force.columns)
        if name not in places:
            raise Trouble(f"{name}: there is no such number: owner, speed, mass, c0 to c3, {', '.join(places)}")
        values = self.numbers[:, places[name]].astype(float)
        return values[:, 0] if values.shape[1] == 1 else np.linalg.norm(values, axis=1)


class EvenSample(Generic[T]):
    """At most `limit` things that were made of a stream's items, evenly spaced, however long the stream is."""

    def __init__(self, limit: int) -> None:
        self.limit = limit
        self.every = 1
        self.seen = 0
        self.kept: List[T] = []

    def offer(self, make: Callable[[], T]) -> None:
        """Makes one of the next item, where it is one of those that are kept."""
        if self.seen % self.every == 0 and len(self.kept) == self.limit:
            self.kept = self.kept[::2]
            self.every *= 2
        if self.seen % self.every == 0:
            self.kept.append(make())
        self.seen += 1


def box_width(units: Units) -> float:
    """The side of the box."""
    return SIDE / units.length
