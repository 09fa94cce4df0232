"""What a run shows on a terminal, and nowhere else."""

from __future__ import annotations

import os
import pty
import shutil
import subprocess
import tempfile
import unittest
from pathlib import Path
from typing import Tuple

from launcher.deck import Deck
from launcher.progress import Output, _left
from launcher.tests import house
from launcher.tests.house import House

# Six seconds of a run: steps 0 to 3 at once, and then nothing till it ends with a fault.
RUNS = """
with open('o', 'w') as out:
    for step in range(4):
        out.write(f'step {step} particles 0 ranks 1\\nrank 0\\n')
    out.flush()
    time.sleep(6)
print('fdps: said')
sys.exit(4)
"""


class Progress(House):
    def setUp(self) -> None:
        super().setUp()
        self.have_program()
        self.write(d="kernel k\nparticles p\nout o\nsteps 40\n", k="", p="", o="step 9 of an earlier run\n")

    def on_terminal(self, stub: str, **streams: int) -> Tuple[int, bytes, bytes]:
        """The status of a run, its standard output, and what the terminal gets that is its standard error."""
        master, slave = pty.openpty()
        env = {**self.environment(stub), "TERM": "xterm"}
        how = {"cwd": self.folder, "env": env, "stderr": slave, "stdout": subprocess.PIPE}
        with subprocess.Popen([str(self.top / "fdps"), "run", "d"], **how) as started:
            os.close(slave)
            shown = house.all_of(master)
            said = started.stdout.read() if started.stdout else b""
        return started.returncode, said, shown

    def test_a_long_run_shows_its_step_on_a_terminal_alone(self) -> None:
        apart = self.folder / "apart"
        apart.mkdir()
        shutil.copy(self.folder / "d", apart)
        how = {"cwd": apart, "env": self.environment(RUNS), "stdout": subprocess.PIPE, "stderr": subprocess.PIPE}
        with subprocess.Popen([str(self.top / "fdps"), "run", "d"], **how) as silent:
            status, said, shown = self.on_terminal(RUNS)
            self.assertEqual(silent.communicate(), (b"fdps: said\n", b""))
        self.assertEqual((status, said), (4, b"fdps: said\n"))
        self.assertIn(b"fdps: step 4 of 40\x1b[K\x1b[A\r", shown)
        self.assertTrue(shown.endswith(b"\r\x1b[J"), shown)

    def test_a_short_run_shows_nothing(self) -> None:
        self.assertEqual(self.on_terminal("open('o', 'w')"), (0, b"", b""))


class Grows(unittest.TestCase):
    def setUp(self) -> None:
        room = tempfile.TemporaryDirectory()
        self.addCleanup(room.cleanup)
        self.file = Path(room.name, "o")

    def append(self, text: str) -> None:
        with open(self.file, "a") as file:
            file.write(text)

    def test_an_earlier_output_is_not_looked_at(self) -> None:
        self.file.write_text("step 7 particles 0 ranks 1\n")
        self.assertIsNone(Output(str(self.file)).look())

    def test_steps_are_seen_as_they_come(self) -> None:
        output = Output(str(self.file))
        self.assertIsNone(output.look())
        self.append("step 0 particles 1 ranks 1\np 1 2\nste")
        self.assertEqual(output.look(), 0)
        self.append("p 1")
        self.assertEqual(output.look(), 0)
        self.append("2 particles 1 ranks 1\n")
        self.assertEqual(output.look(), 12)

    def test_an_output_that_is_begun_anew_is_read_anew(self) -> None:
        output = Output(str(self.file))
        self.append("step 5 particles 1 ranks 1\nrank 0\n")
        self.assertEqual(output.look(), 5)
        self.file.write_text("step 2 particles\n")
        self.assertEqual(output.look(), 2)

    def test_a_pipe_is_not_read(self) -> None:
        os.mkfifo(self.file)
        self.assertIsNone(Output(str(self.file)).look())

    def test_minutes_that_are_left(self) -> None:
        # 10 steps in 60 seconds, and 100 more: 600 seconds.
        self.assertEqual(_left(60, 10, 100), ", 10 min left")
        self.assertEqual(_left(60, 10, 9), ", less than a minute left")
        self.assertEqual(_left(60, 0, 9), "")

    def test_steps_of_a_deck(self) -> None:
        self.assertEqual(Deck.parse("d", b"steps 40\n").steps, 40)
        self.assertEqual(Deck.parse("d", b"#steps 40\n").steps, 0)
        self.assertIsNone(Deck.parse("d", b"steps x\n").steps)
