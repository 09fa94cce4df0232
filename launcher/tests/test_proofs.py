"""Proving and building, with a stub of `rt` that keeps to its locks."""

from __future__ import annotations

import fcntl
import os
import pty
import signal
import subprocess
import time
from typing import Dict, List

from launcher import machine
from launcher.tests import house
from launcher.tests.house import PROGRAM, House

STUB = "print('ran', sys.argv[1:])"


class Proofs(House):
    # Both middle crates stand on `low`; `apart` isn't the program's.
    crates = "low:\nleft: low kit\nright: low\ntop: left right\napart: low\n"

    def environment(self, stub: str = STUB, **more: str) -> Dict[str, str]:
        return super().environment(stub, PROGRAM=PROGRAM, **more)

    def prove(self, **more: str) -> None:
        """A command that proves first, and then runs the program."""
        status, said, told = self.fdps("bench", "4", env=self.environment(**more))
        self.assertEqual((status, said), (0, "ran ['bench', '4']\n"), told)

    def begun(self) -> List[str]:
        return [line.partition(" ")[2] for line in self.lines() if line.startswith("begin ")]

    def assert_tidy(self) -> None:
        self.assertFalse((self.top / "out").exists())

    def test_each_crate_after_those_below_it(self) -> None:
        self.prove()
        begun = self.begun()
        self.assertEqual((begun[0], sorted(begun[1:3]), begun[3:]), ("low", ["left", "right"], ["top", "fdps_cli"]))
        self.assertIn("libraries low left right top", self.lines())
        self.assertFalse([line for line in self.lines() if line.startswith(("lacks", "waits"))])
        self.assert_tidy()

    def test_crates_beside_each_other_are_proved_side_by_side(self) -> None:
        if machine.processors() < 2:
            self.skipTest("one processor")
        self.prove(HOLD="0.5")
        lines = self.lines()
        both = [lines.index(f"begin {name}") for name in ("left", "right")]
        self.assertLess(max(both), min(lines.index(f"end {name}") for name in ("left", "right")))

    def test_a_line_for_each_crate(self) -> None:
        _, _, told = self.fdps(env=self.environment())
        lines = told.splitlines()
        self.assertEqual(lines[0], "fdps: proving and building the program; fdps --unproved runs it at once, unproved")
        self.assertEqual(lines[1], "fdps: low proved, crate 1 of 5, 0 min so far")
        self.assertEqual(lines[5:], ["fdps: fdps_cli proved, crate 5 of 5, 0 min so far"])

    def test_one_line_on_a_terminal(self) -> None:
        master, slave = pty.openpty()
        how = {"cwd": self.folder, "env": {**self.environment(HOLD="0.5"), "TERM": "xterm"}, "stdout": subprocess.DEVNULL}
        with subprocess.Popen([str(self.top / "fdps")], stderr=slave, **how) as started:
            os.close(slave)
            shown = house.all_of(master)
        self.assertEqual(started.returncode, 0)
        self.assertIn(b"fdps: 0 of 5 crates proved, 0 min so far, at work: low\x1b[K\x1b[A\r", shown)
        self.assertIn(b"fdps: 4 of 5 crates proved, 0 min so far, at work: fdps_cli\x1b[K\x1b[A\r", shown)
        self.assertNotIn(b" proved, crate ", shown)
        self.assertTrue(shown.endswith(b"\r\x1b[J"), shown)

    def test_a_program_that_is_current_is_run_at_once(self) -> None:
        self.prove()
        self.prove()
        self.assertEqual(self.begun().count("low"), 1)

    def test_a_changed_source_is_proved_again(self) -> None:
        self.prove()
        for change in (self.source.touch, self.source.unlink, (self.top / "crates.txt").touch):
            self.journal.unlink()
            time.sleep(0.02)
            change()
            self.prove()
            self.assertIn("low", self.begun())

    @property
    def source(self):  # type: ignore[no-untyped-def]
        return self.top / "crates" / "low" / "src" / "lib.rt"

    def test_a_failure_is_told(self) -> None:
        status, said, told = self.fdps("bench", env=self.environment(FAIL="right"))
        self.assertEqual((status, said, self.program.exists()), (1, "", False))
        tail = "".join(f"line {it}\n" for it in range(11, 31))
        self.assertIn(f"fdps: right isn't proved; the last lines of rt lib:\n{tail}", told)
        self.assertNotIn("line 10\n", told)
        self.assert_tidy()
        self.assertNotIn("top", self.begun())

    def test_a_failure_of_the_program_is_told(self) -> None:
        status, _, told = self.fdps(env=self.environment(FAIL="fdps_cli"))
        self.assertEqual((status, self.program.exists()), (1, False))
        self.assertIn("fdps: fdps_cli isn't proved; the last lines of rt run:\n", told)

    def test_it_goes_on_after_a_failure(self) -> None:
        self.fdps(env=self.environment(FAIL="top"))
        self.prove()
        # What was kept of each crate stays: each was begun twice over it.
        kept = self.top / "crates" / "top" / "out" / "incremental" / "begun"
        self.assertEqual(kept.read_text(), "once\nonce\n")

    def test_it_goes_on_after_a_signal(self) -> None:
        for number in (signal.SIGINT, signal.SIGTERM, signal.SIGKILL):
            started = subprocess.Popen(
                [str(self.top / "fdps")], cwd=self.folder, env=self.environment(HOLD="30"), stderr=subprocess.DEVNULL
            )
            while "begin low" not in self.lines():
                time.sleep(0.02)
            time.sleep(0.1)
            started.send_signal(number)
            self.assertEqual(started.wait(20), -number)
            self.journal.unlink()
            if number != signal.SIGKILL:
                self.assert_tidy()
        self.prove()
        self.assertEqual((self.top / "crates" / "low" / "out" / "incremental" / "begun").read_text(), 4 * "once\n")
        self.assert_tidy()

    def test_a_crate_in_which_rt_works_is_waited_for(self) -> None:
        held = os.open(self.top / "crates" / "left", os.O_RDONLY)
        fcntl.flock(held, fcntl.LOCK_EX)
        how = {"cwd": self.folder, "env": self.environment(), "stdout": subprocess.DEVNULL, "stderr": subprocess.PIPE}
        with subprocess.Popen([str(self.top / "fdps")], **how) as started:
            while "end right" not in self.lines():
                time.sleep(0.02)
            time.sleep(0.5)
            self.assertNotIn("left", self.begun())
            os.close(held)
            told = started.communicate(timeout=20)[1].decode()
        self.assertEqual(started.returncode, 0)
        self.assertEqual(told.count(f"fdps: waiting for another rt to finish in {self.top}/crates/left\n"), 1)

    def test_a_ring_is_told(self) -> None:
        self.list_crates("low: high\nhigh: low\nfdps_cli: high\n")
        status, _, told = self.fdps(env=self.environment())
        self.assertEqual((status, self.begun()), (1, []))
        self.assertIn("crates stand on one another in a ring", told)

    def test_no_rt_is_told(self) -> None:
        (self.bin / "rt").unlink()
        env = {**self.environment(), "PATH": "/usr/bin:/bin"}
        self.assertEqual(self.fdps(env=env), (1, "", "fdps: rt isn't on the path\n"))


class Unproved(House):
    prefix = "fdps-check-"

    def test_a_folder_whose_name_no_deck_can_have(self) -> None:
        folder = self.folder / "two words"
        folder.mkdir()
        (folder / "d").write_text("kernel k\nparticles p\nout o\n")
        (folder / "k").write_text("a kernel")
        stub = "name = open(sys.argv[2]).read().split()[1]; print(open(name).read())"
        self.assertEqual(self.fdps("--unproved", "run", "d", stub=stub, cwd=folder)[:2], (0, "a kernel\n"))

    def test_the_words_and_the_status_are_the_program_s(self) -> None:
        self.write(d="# deck\nkernel  ../k\nparticles /p\r\nout o\nsteps 3\nout\n")
        stub = "print(open(sys.argv[2], newline='').read(), end=''); print('x', file=sys.stderr); sys.exit(4)"
        status, said, told = self.fdps("--unproved", "run", "d", "--workers", "2", stub=stub)
        here = self.folder
        self.assertEqual(said, f"# deck\nkernel  {here}/../k\nparticles /p\r\nout {here}/o\nsteps 3\nout\n")
        self.assertEqual(status, 4)
        self.assertEqual(told.splitlines()[1:], ["x"])
        self.assertIn("UNPROVED", told)
        self.assertEqual(self.lines(), ["try try --seconds 999999 -- in fdps_cli"])

    def test_other_words_are_passed_on(self) -> None:
        status, said, _ = self.fdps("--unproved", "bench", "4", "1", stub="print(sys.argv[1:]); sys.exit(6)")
        self.assertEqual((status, said), (6, "['bench', '4', '1']\n"))

    def test_a_refused_text_is_shown(self) -> None:
        self.write(d="kernel k\nparticles p\nsteps x\nout o\n")
        status, said, told = self.fdps("--unproved", "run", "d", stub="print('fdps: deck: Value line 3'); sys.exit(3)")
        self.assertEqual((status, said), (3, "fdps: deck: Value line 3\n"))
        self.assertTrue(told.endswith("\nd:3:7: Value\nsteps x\n      ^\n"), told)

    def test_a_name_that_is_too_long_is_told(self) -> None:
        self.write(d=f"kernel {'k' * 250}\nparticles p\nout o\n")
        status, said, told = self.fdps("--unproved", "run", "d")
        self.assertEqual((status, said), (1, ""))
        self.assertIn("has more than 255 bytes", told)
        self.assertEqual(self.lines(), [])

    def test_a_run_that_does_not_end_is_told(self) -> None:
        status, said, told = self.fdps("--unproved", "bench", stub="print('why', file=sys.stderr, flush=True); os._exit(4)")
        self.assertEqual((status, said), (1, ""))
        self.assertTrue(told.endswith("why\nfdps: the unproved run didn't end by itself (rt try: 4)\n"), told)
