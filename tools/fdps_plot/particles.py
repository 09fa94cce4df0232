"""Pictures of where particles are: of chosen steps side by side, or an animation of all."""

from __future__ import annotations

import math
from dataclasses import dataclass
from typing import Iterator, List, Optional, Sequence, Tuple

import numpy as np
from matplotlib.animation import PillowWriter
from matplotlib.axes import Axes
from matplotlib.collections import PathCollection
from matplotlib.figure import Figure

from fdps_texts.dump import Step
from fdps_texts.trouble import Trouble

from .run import EvenSample, Run, Table
from .views import View, axes_of, name_axes

MOST_FRAMES = 120
MOST_PANELS = 16
COLOURS = "tab10"  # of owners, which are told apart modulo ten
SHADES = "viridis"  # of other numbers


@dataclass(frozen=True)
class Look:
    """How particles are shown."""

    plane: str = "xy"
    colour: Optional[str] = None
    width: Optional[float] = None


@dataclass(frozen=True)
class Frame:
    """A step, projected."""

    step: int
    points: np.ndarray
    colours: Optional[np.ndarray]


class Particles(View):
    """Particles at chosen steps, or at the last."""

    def __init__(self, run: Run, look: Look, steps: Optional[List[int]]) -> None:
        self.run = run
        self.look = look
        self.steps = steps
        self.frames: List[Frame] = []
        self.last: Optional[Step] = None
        self.rows: List[Sequence[object]] = []

    def take(self, step: Step) -> None:
        if self.steps is None:
            self.last = step
        elif step.number in self.steps:
            self.keep(step)

    def keep(self, step: Step) -> None:
        """Keeps what the picture and the table have of a step."""
        table = Table(step, self.run)
        self.frames.append(frame_of(table, self.look))
        numbers = np.hstack([table.positions, table.velocities]).tolist()
        self.rows += [[step.number, int(id_), *row] for id_, row in zip(table.ids, numbers)]

    def whole(self) -> List[Frame]:
        """The frames of all steps that were asked for."""
        if self.last is not None:
            self.keep(self.last)
            self.last = None
        missing = set(self.steps or []) - {frame.step for frame in self.frames}
        if missing or not self.frames:
            raise Trouble(f"the dump has no whole step{''.join(f' {step}' for step in sorted(missing)[:1])}")
        return self.frames

    def draw(self) -> Figure:
        frames = self.whole()
        columns = {4: 2, 7: 4, 8: 4}.get(len(frames), min(len(frames), 3 if len(frames) < 10 else 4))
        rows = math.ceil(len(frames) / columns)
        side = 6 if columns == 1 else 3.6 if columns == 2 else 3
        window, shades = window_of(frames, self.look), shades_of(frames, self.look)
        scale = 1 if shades is not None and self.look.colour != "owner" else 0  # room for the scale of colours
        figure = Figure(figsize=(side * columns + scale, side * rows), constrained_layout=True)
        panels = figure.subplots(rows, columns, squeeze=False).flatten()
        for axes, frame in zip(panels, frames):
            points = scatter(axes, frame, self.look, window, shades)
        for axes in panels[len(frames):]:
            axes.set_visible(False)
        if scale:
            figure.colorbar(points, ax=list(panels), label=self.look.colour, shrink=0.8)
        return figure

    def table(self) -> Iterator[Sequence[object]]:
        self.whole()
        yield ["step", "id", "x", "y", "z", "vx", "vy", "vz"]
        yield from self.rows


class Animation:
    """Particles at all steps, or evenly spaced ones where there are many."""

    def __init__(self, run: Run, look: Look) -> None:
        self.run = run
        self.look = look
        self.sample: EvenSample[Frame] = EvenSample(MOST_FRAMES)

    def take(self, step: Step) -> None:
        """Takes the next step."""
        self.sample.offer(lambda: frame_of(Table(step, self.run), self.look))

    def write(self, name: str) -> None:
        """Writes the frames, some 15 in a second."""
        frames = self.sample.kept
        if not frames:
            raise Trouble("the dump has no whole step")
        window, shades = window_of(frames, self.look), shades_of(frames, self.look)
        figure = Figure(figsize=(5, 5), constrained_layout=True)
        axes = figure.add_subplot()
        writer = PillowWriter(fps=15)
        with writer.saving(figure, name, dpi=80):
            for frame in frames:
                axes.clear()
                scatter(axes, frame, self.look, window, shades)
                writer.grab_frame()


def frame_of(table: Table, look: Look) -> Frame:
    """What is shown of a step."""
    points = table.positions[:, list(axes_of(look.plane))].astype(np.float32)
    colours = None if look.colour is None else table.attribute(look.colour).astype(np.float32)
    return Frame(table.step.number, points, colours)


def window_of(frames: List[Frame], look: Look) -> Tuple[Tuple[float, float], Tuple[float, float]]:
    """What all frames show: a square round all particles, or of the given width round the middle."""
    if look.width is not None:
        half = look.width / 2
        return (-half, half), (-half, half)
    corners = [(frame.points.min(axis=0), frame.points.max(axis=0)) for frame in frames if len(frame.points)]
    if not corners:
        return (-1, 1), (-1, 1)
    low = np.min([corner for corner, _ in corners], axis=0).astype(float)
    high = np.max([corner for _, corner in corners], axis=0).astype(float)
    half = max(0.55 * float(np.max(high - low)), 1e-9)
    middle = (low + high) / 2
    return (middle[0] - half, middle[0] + half), (middle[1] - half, middle[1] + half)


def shades_of(frames: List[Frame], look: Look) -> Optional[Tuple[float, float]]:
    """The least and greatest number that is shown by colour."""
    if look.colour is None:
        return None
    if look.colour == "owner":
        return (0, 9)
    values = np.concatenate([frame.colours for frame in frames])
    return (float(values.min()), float(values.max())) if len(values) else (0, 1)


def scatter(
    axes: Axes,
    frame: Frame,
    look: Look,
    window: Tuple[Tuple[float, float], Tuple[float, float]],
    shades: Optional[Tuple[float, float]],
) -> PathCollection:
    """Draws a frame."""
    size = min(max(20000 / max(len(frame.points), 1), 0.3), 12)
    points = axes.scatter(frame.points[:, 0], frame.points[:, 1], s=size, linewidths=0, c="black")
    if frame.colours is not None and shades is not None:
        owners = look.colour == "owner"
        points.set_array(frame.colours % 10 if owners else frame.colours)
        points.set_cmap(COLOURS if owners else SHADES)
        points.set_clim(*shades)
    axes.set_xlim(*window[0])
    axes.set_ylim(*window[1])
    axes.set_aspect("equal")
    axes.set_title(f"step {frame.step}", fontsize=10)
    name_axes(axes, look.plane)
    axes.label_outer()
    return points
