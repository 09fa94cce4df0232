"""A repository for tests: the launcher, stubs of the program and of `rt`, and a folder to work in."""

from __future__ import annotations

import contextlib
import os
import shutil
import subprocess
import sys
import tempfile
import unittest
from pathlib import Path
from typing import Dict, List, Optional, Tuple

TOP = Path(__file__).resolve().parent.parent.parent
# The program that is built here, or the one that the caller gave.
REAL_PROGRAM: Optional[Path] = None
# The stub of the program does what the variable STUB says.
PROGRAM = f"#!{sys.executable} -S\nimport os, signal, sys, time\nexec(os.environ['STUB'])\n"
RT = Path(__file__).with_name("fake_rt.py")


def all_of(terminal: int) -> bytes:
    """What a terminal gets till its other side is closed, which Linux tells as an error."""
    shown = b""
    with contextlib.suppress(OSError):
        for piece in iter(lambda: os.read(terminal, 4096), b""):
            shown += piece
    os.close(terminal)
    return shown


class House(unittest.TestCase):
    """A test with a repository of its own, whose crates a test writes."""

    # The crates below the program, as crates.txt lists them.
    crates = ""
    # How the names of its folders begin.
    prefix = "fdps check "

    def setUp(self) -> None:
        room = tempfile.TemporaryDirectory(prefix=self.prefix)
        self.addCleanup(room.cleanup)
        self.top = Path(room.name, "top")
        self.folder = Path(room.name, "work")
        self.bin = Path(room.name, "bin")
        self.journal = Path(room.name, "journal")
        self.folder.mkdir()
        self.bin.mkdir()
        ignored = shutil.ignore_patterns("tests", "__pycache__")
        shutil.copytree(TOP / "launcher", self.top / "launcher", ignore=ignored)
        shutil.copy(TOP / "fdps", self.top / "fdps")
        (self.bin / "rt").write_text(f"#!{sys.executable} -S\n{RT.read_text()}")
        (self.bin / "rt").chmod(0o755)
        self.list_crates(self.crates + "fdps_cli: top\n" if self.crates else "fdps_cli:\n")
        self.program = self.top / "crates" / "fdps_cli" / "out" / "fdps_cli"

    def list_crates(self, text: str) -> None:
        (self.top / "crates.txt").write_text(text)
        for line in text.splitlines():
            source = self.top / "crates" / line.partition(":")[0] / "src"
            source.mkdir(parents=True, exist_ok=True)
            (source / "lib.rt").write_text("// a crate\n")

    def have_program(self, program: Optional[Path] = None) -> None:
        """Puts a program there that is newer than its sources: the stub, or a copy of the given one."""
        self.program.parent.mkdir(exist_ok=True)
        self.program.write_bytes(program.read_bytes() if program else PROGRAM.encode())
        self.program.chmod(0o755)

    def environment(self, stub: str = "", **more: str) -> Dict[str, str]:
        path = f"{self.bin}:{os.environ['PATH']}"
        return {**os.environ, "PATH": path, "STUB": stub, "JOURNAL": str(self.journal), **more}

    def fdps(self, *words: str, stub: str = "", env: Optional[Dict[str, str]] = None, **how: object) -> Tuple[int, str, str]:
        """The status, standard output and standard error of a command."""
        given = {"stdout": subprocess.PIPE, "stderr": subprocess.PIPE, "cwd": self.folder, "timeout": 60, **how}
        given["env"] = env or self.environment(stub)
        ran = subprocess.run([str(self.top / "fdps"), *words], **given)
        return ran.returncode, (ran.stdout or b"").decode(), (ran.stderr or b"").decode()

    def write(self, **texts: str) -> None:
        """Writes files of the folder to work in."""
        for name, text in texts.items():
            (self.folder / name).write_bytes(text.encode())

    def lines(self) -> List[str]:
        """What the stubs wrote down."""
        return self.journal.read_text().splitlines() if self.journal.exists() else []
