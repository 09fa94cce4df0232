"""What can be shown of a dump: each view takes steps in turn, and then gives a picture or a table."""

from __future__ import annotations

from abc import ABC, abstractmethod
from typing import Dict, Iterator, List, Optional, Sequence, Tuple

import numpy as np
from matplotlib.axes import Axes
from matplotlib.figure import Figure

from fdps_texts.dump import COUNTS, Step
from fdps_texts.trouble import Trouble

from .run import EvenSample, Run, Table, box_width

MOST_POINTS = 1000  # of a line in a picture
MOST_ENERGIES = 200  # each takes the time of all pairs
BLOCK = 1 << 21  # pairs whose potential is worked out together

Row = Sequence[float]


class View(ABC):
    """Something to be shown."""

    @abstractmethod
    def take(self, step: Step) -> None:
        """Takes the next step."""

    @abstractmethod
    def draw(self) -> Figure:
        """The picture."""

    @abstractmethod
    def table(self) -> Iterator[Sequence[object]]:
        """The numbers, after a row with their names."""


class Series(View):
    """Numbers of steps: some of all, evenly spaced."""

    names: Tuple[str, ...] = ()
    most = MOST_POINTS

    def __init__(self, run: Run) -> None:
        self.run = run
        self.sample: EvenSample[Row] = EvenSample(self.most)

    def take(self, step: Step) -> None:
        self.sample.offer(lambda: [step.number, *self.row(step)])

    @abstractmethod
    def row(self, step: Step) -> Row:
        """The step's numbers."""

    def table(self) -> Iterator[Sequence[object]]:
        yield ["step", *self.names]
        yield from self.sample.kept

    def columns(self) -> Dict[str, np.ndarray]:
        """The numbers by name, `step` among them."""
        return dict(zip(["step", *self.names], np.array(self.sample.kept, dtype=float).T))


class Energy(Series):
    """Kinetic, potential and whole energy, and how far this drifts."""

    names = ("kinetic", "potential", "total", "drift")
    most = MOST_ENERGIES

    def __init__(self, run: Run) -> None:
        super().__init__(run)
        self.gravity = run.gravity()
        self.first: Optional[float] = None

    def row(self, step: Step) -> Row:
        table = Table(step, self.run)
        masses = table.of_inputs(self.run.masses())
        kinetic = float(0.5 * np.sum(masses * np.sum(table.velocities**2, axis=1)))
        potential = self.gravity.constant * pair_sum(masses, table.positions, self.gravity.softening)
        total = kinetic + potential
        self.first = total if self.first is None else self.first
        return [kinetic, potential, total, (total - self.first) / abs(self.first) if self.first else 0.0]

    def draw(self) -> Figure:
        figure, (above, below) = two_above_each_other()
        columns = self.columns()
        for name in ("kinetic", "potential", "total"):
            above.plot(columns["step"], columns[name], label=name)
        above.set_ylabel("energy")
        above.legend(loc="best")
        below.plot(columns["step"], columns["drift"], color="black")
        below.set_ylabel("(E - E₀) / |E₀|")
        worst = float(np.max(np.abs(columns["drift"])))
        above.set_title(f"the energy drifts by at most {worst:.2g} of what it is at first", fontsize=10)
        return figure


def pair_sum(masses: np.ndarray, positions: np.ndarray, softening: float) -> float:
    """The sum of -m·n/sqrt(r² + softening) over all pairs, a block of rows at a time."""
    count = len(masses)
    rows = max(BLOCK // max(count, 1), 1)
    total = 0.0
    for begin in range(0, count, rows):
        end = min(begin + rows, count)
        squared = np.full((end - begin, count - begin), softening)
        for axis in range(3):
            squared += (positions[begin:end, axis, None] - positions[None, begin:, axis]) ** 2
        own = np.arange(end - begin)
        squared[own, own] = np.inf
        within = squared[:, : end - begin]
        total -= float(masses[begin:end] @ (1 / np.sqrt(within)) @ masses[begin:end]) / 2
        total -= float(masses[begin:end] @ (1 / np.sqrt(squared[:, end - begin :])) @ masses[end:])
    return total


class Momentum(Series):
    """The whole momentum on each axis, and the sum of its parts' lengths, which it is small against."""

    names = ("px", "py", "pz", "parts")

    def row(self, step: Step) -> Row:
        table = Table(step, self.run)
        parts = table.of_inputs(self.run.masses())[:, None] * table.velocities
        return [*np.sum(parts, axis=0).tolist(), float(np.sum(np.linalg.norm(parts, axis=1)))]

    def draw(self) -> Figure:
        figure, axes = one()
        columns = self.columns()
        for name in ("px", "py", "pz"):
            axes.plot(columns["step"], columns[name], label=name)
        axes.set_ylabel("momentum")
        axes.set_xlabel("step")
        axes.legend(loc="best")
        whole = np.sqrt(columns["px"] ** 2 + columns["py"] ** 2 + columns["pz"] ** 2)
        parts = np.where(columns["parts"] > 0, columns["parts"], 1)
        worst = float(np.max(whole / parts))
        axes.set_title(f"the momentum is at most {worst:.2g} of the sum of its parts' lengths", fontsize=10)
        return figure


class Ranks(Series):
    """How many particles each rank has."""

    def row(self, step: Step) -> Row:
        counts = [step.counts(rank)["particles"] for rank in range(len(step.ranks))]
        if not self.names:
            self.names = tuple(f"rank {rank}" for rank in range(len(counts)))
        if len(counts) != len(self.names):
            raise Trouble(f"step {step.number} has {len(counts)} ranks, and those before it {len(self.names)}")
        return counts

    def draw(self) -> Figure:
        figure, axes = one()
        columns = self.columns()
        for name in self.names:
            axes.plot(columns["step"], columns[name], linewidth=1)
        axes.set_ylabel("particles of a rank")
        axes.set_xlabel("step")
        axes.set_ylim(bottom=0)
        counts = np.array([columns[name] for name in self.names])
        mean = np.mean(counts, axis=0)
        worst = float(np.max(np.max(counts, axis=0) / np.where(mean > 0, mean, 1)))
        axes.set_title(f"{len(self.names)} ranks; the fullest has at most {worst:.3g} times the mean", fontsize=10)
        return figure


class Lists(Series):
    """The counts of the rank lines, summed over the ranks."""

    names = COUNTS

    def row(self, step: Step) -> Row:
        counts = [step.counts(rank) for rank in range(len(step.ranks))]
        return [sum(count[name] for count in counts) for name in COUNTS]

    def draw(self) -> Figure:
        figure, (above, below) = two_above_each_other()
        columns = self.columns()
        for name in ("listcells", "listparts"):
            above.plot(columns["step"], columns[name], label=name)
        for name in ("cells", "parts", "groups"):
            below.plot(columns["step"], columns[name], label=name)
        above.set_ylabel("in interaction lists")
        below.set_ylabel("received, and groups")
        for axes in (above, below):
            axes.legend(loc="best")
            axes.set_ylim(bottom=0)
        return figure


class Path(View):
    """The ways of some particles."""

    def __init__(self, run: Run, ids: List[int], plane: str) -> None:
        self.run = run
        self.ids = ids
        self.plane = plane
        self.sample: EvenSample[Tuple[int, np.ndarray]] = EvenSample(MOST_POINTS)

    def take(self, step: Step) -> None:
        self.sample.offer(lambda: (step.number, self.positions(step)))

    def positions(self, step: Step) -> np.ndarray:
        """Where the particles are."""
        table = Table(step, self.run)
        places = np.searchsorted(table.ids, self.ids)
        missing = [id_ for id_, place in zip(self.ids, places) if id_ not in table.ids[place : place + 1]]
        if missing:
            raise Trouble(f"step {step.number} has no particle {missing[0]}")
        return table.positions[places]

    def draw(self) -> Figure:
        figure, axes = one(square=True)
        ways = np.array([positions for _, positions in self.sample.kept])
        for index, id_ in enumerate(self.ids):
            way = ways[:, index, list(axes_of(self.plane))]
            jumps = np.max(np.abs(np.diff(way, axis=0)), axis=1, initial=0) > box_width(self.run.units) / 2
            way = np.insert(way, np.flatnonzero(jumps) + 1, np.nan, axis=0) if self.run.periodic else way
            (line,) = axes.plot(way[:, 0], way[:, 1], linewidth=1, label=str(id_))
            axes.plot(*way[0], "o", markersize=4, color=line.get_color())
        name_axes(axes, self.plane)
        axes.set_aspect("equal", adjustable="datalim")
        if len(self.ids) <= 10:
            axes.legend(loc="upper right", title="id")
        return figure

    def table(self) -> Iterator[Sequence[object]]:
        yield ["step", "id", "x", "y", "z"]
        for number, positions in self.sample.kept:
            for id_, position in zip(self.ids, positions.tolist()):
                yield [number, id_, *position]


def one(square: bool = False) -> Tuple[Figure, Axes]:
    """A picture with one part."""
    figure = Figure(figsize=(6, 6) if square else (7, 4), constrained_layout=True)
    return figure, figure.add_subplot()


def two_above_each_other() -> Tuple[Figure, Tuple[Axes, Axes]]:
    """A picture with two parts over the same steps."""
    figure = Figure(figsize=(7, 5.5), constrained_layout=True)
    above, below = figure.subplots(2, 1, sharex=True)
    below.set_xlabel("step")
    return figure, (above, below)


def axes_of(plane: str) -> Tuple[int, int]:
    """The axes of a plane such as `xy`."""
    return "xyz".index(plane[0]), "xyz".index(plane[1])


def name_axes(axes: Axes, plane: str) -> None:
    """Names the two axes of a projection."""
    axes.set_xlabel(f"{plane[0]} from the middle of the box")
    axes.set_ylabel(f"{plane[1]} from the middle of the box")
