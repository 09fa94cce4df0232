"""The crates of the repository: what each stands on, how much text it has, and when that was changed."""

from __future__ import annotations

import functools
import os
from dataclasses import dataclass
from pathlib import Path
from typing import Dict, Iterator, List, Tuple

# The folders of a crate that have its text.
PARTS = ("src", "specs", "proofs")


@dataclass(frozen=True)
class Crate:
    """A line of crates.txt: a crate, and the names of the libraries that it stands on, those of the toolchain among them."""

    name: str
    folder: Path
    line: str
    uses: Tuple[str, ...]

    def texts(self) -> Iterator[Path]:
        """The crate's folders and files of text."""
        for part in PARTS:
            for folder, _, files in os.walk(self.folder / part):
                yield Path(folder)
                yield from (Path(folder, file) for file in files)

    @functools.lru_cache(maxsize=None)
    def lines(self, suffix: str) -> int:
        """The number of lines of its files with this suffix."""
        return sum(it.read_bytes().count(b"\n") for it in self.texts() if it.suffix == suffix and it.is_file())


class Repository:
    """The repository that lies at `top`, as its crates.txt lists it."""

    def __init__(self, top: Path) -> None:
        self.top = top
        self.list = top / "crates.txt"
        self.crates: Dict[str, Crate] = {}
        for row in self.list.read_text(encoding="utf-8").splitlines():
            line = row.partition("#")[0].strip()
            if line:
                crate = self._crate(line)
                self.crates[crate.name] = crate

    def _crate(self, line: str) -> Crate:
        head, _, uses = line.partition(":")
        name = head.split()[0]
        return Crate(name, self.top / "crates" / name, line, tuple(uses.replace(",", " ").split()))

    def below(self, name: str) -> List[Crate]:
        """The crates that the named one stands on, lowest first."""
        found: List[Crate] = []
        # (a ring of crates is left to whoever proves them)
        seen = {name}

        def visit(crate: Crate) -> None:
            for use in crate.uses:
                if use in self.crates and use not in seen:
                    seen.add(use)
                    visit(self.crates[use])
                    found.append(self.crates[use])

        visit(self.crates[name])
        return found

    def is_current(self, name: str, program: Path) -> bool:
        """Whether the program is there, and no text that it is made of was changed, added or taken away since it was built."""
        if not os.access(program, os.X_OK):
            return False
        built = program.stat().st_mtime_ns
        texts = (text for crate in [*self.below(name), self.crates[name]] for text in crate.texts())
        return all(it.lstat().st_mtime_ns <= built for it in [self.list, *texts])
