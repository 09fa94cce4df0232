"""Kernels, as far as tools read them: their declarations, not what their statements mean."""

from __future__ import annotations

import re
from dataclasses import dataclass, field
from typing import Dict, List

from .files import reading
from .trouble import Trouble

TOKEN = re.compile(r"#[^\n]*|[A-Za-z_][A-Za-z_0-9]*|[0-9]+|[^\s]")
WIDTHS = {"num": 1, "vec": 3}


@dataclass(frozen=True)
class Force:
    """A FORCE variable."""

    name: str
    kind: str
    scale: int
    combine: str

    @property
    def columns(self) -> List[str]:
        """What the columns of a dump that hold it are called."""
        return [self.name] if self.kind == "num" else [f"{self.name}.{axis}" for axis in "xyz"]


@dataclass(frozen=True)
class Param:
    """A PARAM: the number as written, which means it over 2 to the scale."""

    value: int
    scale: int


@dataclass
class Kernel:
    """The declarations of a kernel."""

    forces: List[Force] = field(default_factory=list)
    params: Dict[str, Param] = field(default_factory=dict)
    fields: List[str] = field(default_factory=list)

    @property
    def width(self) -> int:
        """How many numbers of forces a particle has in a dump."""
        return sum(WIDTHS[force.kind] for force in self.forces)

    @property
    def columns(self) -> List[str]:
        """What the columns of the forces in a dump are called."""
        return [column for force in self.forces for column in force.columns]

    @property
    def reads_velocity(self) -> bool:
        """Whether forces depend on velocities."""
        return "vel" in self.fields


def read_kernel(name: str) -> Kernel:
    """The declarations of the kernel in the named file."""
    with reading(name) as stream:
        text = stream.read().decode("latin-1")
    tokens = [token for token in TOKEN.findall(text) if not token.startswith("#")]
    kernel = Kernel()
    place = 0
    while place < len(tokens) and tokens[place] in ("EPI", "EPJ", "FORCE", "PARAM"):
        end = tokens.index(";", place) if ";" in tokens[place:] else len(tokens)
        try:
            declare(kernel, tokens[place:end])
        except (ValueError, KeyError):
            raise Trouble(f"{name}: no declaration: {' '.join(tokens[place:end])}") from None
        place = end + 1
    if not any(force.name == "acc" for force in kernel.forces):
        raise Trouble(f"{name}: the kernel declares no acc")
    return kernel


def declare(kernel: Kernel, tokens: List[str]) -> None:
    """Adds one declaration, without its semicolon; a ValueError or a KeyError where it is none."""
    word = tokens[0]
    if word == "FORCE":
        _, kind, scale, name, combine = tokens
        kernel.forces.append(Force(name, kind, scale_of(scale), combine))
        WIDTHS[kind]
    elif word == "PARAM":
        _, scale, name, equals, *number = tokens
        if equals != "=":
            raise ValueError(equals)
        kernel.params[name] = Param(int("".join(number)), scale_of(scale))
    else:
        _, kind, scale, _, colon, name = tokens
        if colon != ":":
            raise ValueError(colon)
        kernel.fields.append(name)


def scale_of(token: str) -> int:
    """The number of a scale, as 16 of `S16`."""
    if not re.fullmatch(r"S[0-9]{1,2}", token):
        raise ValueError(token)
    return int(token[1:])
