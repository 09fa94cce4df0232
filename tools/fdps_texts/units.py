"""Units of a user's own, and the whole numbers that stand for them.

A grid step is the least distance, 2^30 of them the side of the box. A tick is the time in which `dt` is counted: a
particle of velocity 1 goes one grid step in a tick. Velocities and accelerations have 16 fraction bits.
"""

from __future__ import annotations

import argparse
from dataclasses import dataclass

from .kernel import Kernel
from .trouble import Trouble

FRACTION = 1 << 16  # what velocities, accelerations and the constant of gravity are multiplied by
HALF = 1 << 29  # the middle of the box on each axis


@dataclass(frozen=True)
class Units:
    """How many grid steps, mass numbers and ticks a user's units of length, mass and time are."""

    length: float = 1.0
    mass: float = 1.0
    time: float = 1.0

    @property
    def velocity(self) -> float:
        """A user's unit of velocity in grid steps a tick."""
        return self.length / self.time

    @property
    def energy(self) -> float:
        """A user's unit of energy."""
        return self.mass * self.velocity**2

    @property
    def gravity(self) -> float:
        """A user's unit of the constant of gravity in cubed grid steps a mass number and squared tick."""
        return self.length**3 / (self.mass * self.time**2)


@dataclass(frozen=True)
class Gravity:
    """A softened gravity: the potential of a pair is `-constant·m·n/sqrt(r² + softening)`, in grid steps and ticks."""

    constant: float
    softening: float = 0.0


def gravity_of(kernel: Kernel, name: str) -> Gravity:
    """The gravity of a kernel with the constant `PARAM S16 g` and, where it is softened, `PARAM S0 e`."""
    constant, softening = kernel.params.get("g"), kernel.params.get("e")
    if constant is None:
        raise Trouble(f"{name}: no kernel of gravity: it has no PARAM g")
    return Gravity(
        constant.value / (1 << constant.scale),
        softening.value / (1 << softening.scale) if softening else 0.0,
    )


def add_unit_options(parser: argparse.ArgumentParser) -> None:
    """Adds the options of the three units."""
    group = parser.add_argument_group("units", "what one of your own units is; each is 1 if not given")
    group.add_argument("--length-unit", type=positive, default=1.0, metavar="STEPS", help="a length in grid steps")
    group.add_argument("--mass-unit", type=positive, default=1.0, metavar="MASSES", help="a mass in mass numbers")
    group.add_argument("--time-unit", type=positive, default=1.0, metavar="TICKS", help="a time in ticks, as dt has")


def units_of(words: argparse.Namespace) -> Units:
    """The units that these options give."""
    return Units(words.length_unit, words.mass_unit, words.time_unit)


def number(word: str) -> float:
    """A number, also as a power: 16777216, 1.5e7 or 2^24."""
    base, power, exponent = word.partition("^")
    try:
        value = float(base) ** float(exponent) if power else float(base)
    except (ValueError, OverflowError, ZeroDivisionError):
        raise argparse.ArgumentTypeError(f"{word} is no number") from None
    if isinstance(value, complex) or value != value or abs(value) == float("inf"):
        raise argparse.ArgumentTypeError(f"{word} is no number")
    return value


def positive(word: str) -> float:
    """A number above 0."""
    if number(word) <= 0:
        raise argparse.ArgumentTypeError(f"{word} is not above 0")
    return number(word)
