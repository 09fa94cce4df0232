"""What the tests share: folders of their own, tools and the program as they are run by hand, and small dumps."""

from __future__ import annotations

import os
import subprocess
import tempfile
import unittest
from pathlib import Path
from typing import List, Optional, Sequence

TOOLS = Path(__file__).resolve().parent.parent
TOP = TOOLS.parent
PROGRAM = TOP / "crates" / "fdps_cli" / "out" / "fdps_cli"

KERNEL = """\
# FORCE num S0 nothing sum; stands in a comment
EPI vec S0 xi : pos; EPJ vec S0 xj : pos; FORCE vec S16 acc sum; FORCE num
  S0 near max;
near += 1;
"""

RANK = "rank 0 particles 2 groups 1 cells 0 parts 0 listcells 0 listparts 2\n"


def step(number: int, *rows: str, ranks: Sequence[str] = (RANK,)) -> str:
    """The text of a step; a row is a particle's line without its `p`."""
    lines = "".join(f"p {row}\n" for row in rows)
    return f"step {number} particles {len(rows)} ranks {len(ranks)}\n{''.join(ranks)}{lines}"


def needs_program(test: unittest.TestCase) -> str:
    """The program; where there is none, the test is skipped."""
    if not os.access(PROGRAM, os.X_OK):
        test.skipTest("the program isn't built")
    return str(PROGRAM)


class ToolTest(unittest.TestCase):
    """A test with a folder of its own."""

    def setUp(self) -> None:
        scratch = tempfile.TemporaryDirectory()
        self.addCleanup(scratch.cleanup)
        self.folder = Path(scratch.name)

    def write(self, name: str, text: str) -> str:
        """Writes a file into the folder; its name."""
        path = self.folder / name
        path.write_text(text)
        return str(path)

    def path(self, name: str) -> str:
        """The name of a file in the folder."""
        return str(self.folder / name)

    def read(self, name: str) -> str:
        """The text of a file in the folder."""
        return (self.folder / name).read_text()

    def tool(self, name: str, *words: str, status: int = 0) -> str:
        """Runs a tool, which has to end with this status; what it says on standard output."""
        done = subprocess.run(
            [str(TOOLS / name), *words],
            stdout=subprocess.PIPE,
            stderr=subprocess.PIPE,
            text=True,
            env={**os.environ, "PYTHONDONTWRITEBYTECODE": "1"},
            check=False,
        )
        self.assertEqual(done.returncode, status, f"{name} {' '.join(words)}: {done.stdout}{done.stderr}")
        self.errors = done.stderr
        if status != 2:
            self.assertEqual(done.stderr, "")
        return done.stdout

    def trouble(self, name: str, *words: str) -> str:
        """Runs a tool that meets trouble: one line on standard error, and nothing on standard output."""
        self.assertEqual(self.tool(name, *words, status=2), "")
        self.assertEqual(self.errors.count("\n"), 1, self.errors)
        self.assertTrue(self.errors.startswith(f"{name}: "), self.errors)
        return self.errors[len(name) + 2 : -1]

    def run_deck(self, deck: str, *words: str, status: int = 0, said: str = "") -> None:
        """Runs the program on a deck."""
        done = subprocess.run(
            [needs_program(self), "run", deck, *words], stdout=subprocess.PIPE, text=True, cwd=TOP, check=False
        )
        self.assertEqual((done.returncode, done.stdout), (status, said))

    def deck_of(self, example: str, **settings: str) -> str:
        """A copy of an example's deck, with other settings and the output in the folder; its name."""
        settings = {**settings, "out": self.path("dump")}
        lines: List[str] = (TOP / "examples" / example / "deck").read_text().splitlines()
        kept = [line for line in lines if line.split()[0] not in settings]
        return self.write("deck", "\n".join(kept + [f"{key} {value}" for key, value in settings.items()]) + "\n")


def missing_module() -> Optional[str]:
    """Which of the modules that pictures need the system's Python lacks."""
    for module in ("numpy", "matplotlib", "PIL"):
        done = subprocess.run(["/usr/bin/python3", "-c", f"import {module}"], stderr=subprocess.DEVNULL, check=False)
        if done.returncode:
            return module
    return None
