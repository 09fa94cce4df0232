"""The program keeps its words, streams, statuses and signals."""

from __future__ import annotations

import os
import signal
import subprocess
import time
import unittest
from pathlib import Path
from typing import Tuple

from launcher.tests import house
from launcher.tests.house import House

DECK = "kernel k\nparticles p\nout o\n"
# Writes down each run, and ends as refused.
REFUSES = "open('runs', 'a').write('run\\n'); print('fdps: deck: Value line 2', flush=True); sys.exit(3)"
SHOWN = "d:2:11: Value\nparticles p\n          ^\n"


class Program(House):
    def setUp(self) -> None:
        super().setUp()
        self.have_program()
        self.write(d=DECK, k="", p="")

    def runs(self) -> int:
        return len((self.folder / "runs").read_text().splitlines())

    def test_words_are_passed_on(self) -> None:
        words = ["bench", "4", "", "-x", "--", "two words", os.fsdecode(b"\xff")]
        status, said, told = self.fdps(*words, stub="print(ascii([os.fsencode(it) for it in sys.argv[1:]]))")
        self.assertEqual((status, said, told), (0, f"{[os.fsencode(it) for it in words]}\n", ""))

    def test_words_of_a_run_are_passed_on(self) -> None:
        status, said, _ = self.fdps("run", "d", "--workers", "2", stub="print(sys.argv[1:], os.getcwd())")
        self.assertEqual((status, said), (0, f"['run', 'd', '--workers', '2'] {self.folder}\n"))

    def test_it_works_through_a_link(self) -> None:
        (self.folder / "link").symlink_to(self.top / "fdps")
        (self.folder / "launcher.py").write_text("raise SystemExit(9)")
        ran = subprocess.run(["./link", "run", "d"], cwd=self.folder, env=self.environment("sys.exit(5)"))
        self.assertEqual(ran.returncode, 5)

    def test_statuses_are_the_program_s(self) -> None:
        for words, statuses in ((["run", "d"], (0, 1, 7)), (["bench", "4", "1"], (0, 6)), (["run", "missing"], (6,)), ([], (2,))):
            for status in statuses:
                self.assertEqual(self.fdps(*words, stub=f"sys.exit({status})"), (status, "", ""), words)

    def test_a_killed_program_kills_the_launcher_so(self) -> None:
        for words in (["run", "d"], ["bench", "4", "1"]):
            for number in (signal.SIGKILL, signal.SIGABRT):
                status, _, _ = self.fdps(*words, stub=f"os.kill(os.getpid(), {int(number)})")
                self.assertEqual(status, -number, words)

    def sent(self, number: int, stub: str, words: Tuple[str, ...]) -> int:
        """The status where the launcher gets a signal once the program says `ready`."""
        started = subprocess.Popen(
            [str(self.top / "fdps"), *words], cwd=self.folder, env=self.environment(stub), stdout=subprocess.PIPE
        )
        with started:
            self.assertEqual(started.stdout and started.stdout.readline(), b"ready\n")
            started.send_signal(number)
            return started.wait(20)

    def test_signals_reach_the_program(self) -> None:
        for words in (("run", "d"), ("bench", "4", "1")):
            for number in (signal.SIGINT, signal.SIGTERM):
                handles = f"signal.signal({int(number)}, lambda *_: sys.exit(9)); print('ready', flush=True); time.sleep(20)"
                self.assertEqual(self.sent(number, handles, words), 9, words)
                dies = f"signal.signal({int(number)}, signal.SIG_DFL); print('ready', flush=True); time.sleep(20)"
                self.assertEqual(self.sent(number, dies, words), -number, words)

    def test_a_killed_launcher_leaves_no_program(self) -> None:
        stub = "open('pid', 'w').write(str(os.getpid())); print('ready', flush=True); time.sleep(20)"
        self.assertEqual(self.sent(signal.SIGKILL, stub, ("run", "d")), -signal.SIGKILL)
        state = Path("/proc", (self.folder / "pid").read_text(), "stat")
        for _ in range(100):
            # One that nobody waits for stays as a zombie.
            if not state.exists() or state.read_text().rpartition(")")[2].split()[0] == "Z":
                return
            time.sleep(0.05)
        self.fail("the program goes on")

    def test_closed_streams_stay_closed(self) -> None:
        stub = "found = [os.path.exists(f'/proc/self/fd/{it}') for it in range(3)]; open('found', 'w').write(str(found))"
        for words in ("run d", "bench 4 1"):
            for closing, wanted in ((">&-", [True, False, True]), ("<&- >&- 2>&-", [False, False, False])):
                self.assertEqual(self.in_shell(f"{words} {closing}", stub), 0)
                self.assertEqual((self.folder / "found").read_text(), str(wanted), f"{words} {closing}")

    def in_shell(self, words: str, stub: str) -> int:
        line = f'"{self.top}/fdps" {words}'
        return subprocess.run(["sh", "-c", line], cwd=self.folder, env=self.environment(stub), capture_output=True).returncode

    def test_a_refused_run_is_shown_once(self) -> None:
        self.assertEqual(self.fdps("run", "d", stub=REFUSES), (3, "fdps: deck: Value line 2\n", SHOWN))
        self.assertEqual(self.runs(), 2)

    def test_only_a_refused_run_is_made_again(self) -> None:
        for words, status in ((["run", "d"], 4), (["bench", "4", "1"], 3), (["run", "missing"], 3)):
            (self.folder / "runs").write_text("")
            stub = f"open('runs', 'a').write('run\\n'); sys.exit({status})"
            self.assertEqual(self.fdps(*words, stub=stub), (status, "", ""))
            self.assertEqual(self.runs(), 1, words)

    def test_a_deck_through_a_pipe_is_read_once(self) -> None:
        stub = "open('runs', 'a').write('run\\n'); print(open(sys.argv[2]).read(), end='', flush=True); sys.exit(3)"
        status, said, told = self.fdps("run", "/dev/stdin", stub=stub, input=DECK.encode())
        self.assertEqual((status, said, told, self.runs()), (3, DECK, "", 1))

    def test_a_deck_on_standard_input_is_shown(self) -> None:
        stub = "print('fdps: deck: Value line 2' if 'particles' in open(sys.argv[2]).read() else '?', flush=True); sys.exit(3)"
        with open(self.folder / "d") as deck:
            status, _, told = self.fdps("run", "/dev/stdin", stub=stub, stdin=deck)
        self.assertEqual((status, told), (3, SHOWN.replace("d:", "/dev/stdin:")))

    def test_inputs_that_changed_are_not_read_again(self) -> None:
        status, _, told = self.fdps("run", "d", stub=f"open('k', 'w').write('changed'); {REFUSES}")
        self.assertEqual((status, told, self.runs()), (3, "", 1))

    def test_a_refused_run_keeps_its_status_where_nothing_can_be_told(self) -> None:
        for closing in ("2>&-", "2>/dev/full"):
            self.assertEqual(self.in_shell(f"run d {closing}", REFUSES), 3, closing)


class RealProgram(House):
    """The built program under the launcher, against the same program alone."""

    def setUp(self) -> None:
        if not house.REAL_PROGRAM:
            self.skipTest("no built program")
        super().setUp()
        self.have_program(house.REAL_PROGRAM)
        self.write(
            d="kernel k\nparticles p\nout o\n",
            k="FORCE vec S16 acc sum;\n",
            p="particles 1\ncount 1\n1 0 0 0 0 0 0 1 0 0 0 0\n",
        )

    def both(self, words: str) -> Tuple[int, int]:
        """The statuses of a line of the shell, for the launcher and for the program alone."""
        found = []
        for command in (self.top / "fdps", self.program):
            line = f'"{command}" {words}'
            found.append(subprocess.run(["sh", "-c", line], cwd=self.folder, capture_output=True).returncode)
        return found[0], found[1]

    def test_statuses_where_streams_are_full_or_closed(self) -> None:
        # 6 is the status of a fault of the store, which saying the summary is.
        self.assertEqual(self.both("bench 10 1 >/dev/full"), (6, 6))
        for words in ("bench 10 1 >&-", "bench 10 1 <&-", "run d >&-", "run d 2>&-", "run k", "run k >&-", "run k >/dev/full"):
            launched, alone = self.both(words)
            self.assertEqual(launched, alone, words)

    def test_a_run_writes_its_output(self) -> None:
        self.assertEqual(self.fdps("run", "d"), (0, "", ""))
        text = "step 0 particles 1 ranks 1\nrank 0 particles 1 groups 1 cells 0 parts 0 listcells 0 listparts 1\n"
        self.assertEqual((self.folder / "o").read_text(), f"{text}p 1 0 0 0 0 0 0 0 0 0 0\n")

    def test_refused_texts_are_shown(self) -> None:
        self.write(k="FORCE vec S16 acc sum;\nacc += 1 +;\n")
        self.assertEqual(
            self.fdps("run", "d"), (3, "fdps: kernel: Unexpected at 33\n", "k:2:11: Unexpected\nacc += 1 +;\n          ^\n")
        )
        self.write(k="FORCE vec S16 acc sum;\nacc += 1;\n")
        self.assertEqual(self.fdps("run", "d"), (3, "fdps: types: Kind at 23\n", "k:2:1: Kind\nacc += 1;\n^\n"))
        self.write(k="FORCE vec S16 acc sum;\n", p="particles 1\ncount 1\n1 0 0 0 x\n")
        said = "fdps: particles: Field line 3 column 5\n"
        self.assertEqual(self.fdps("run", "d"), (3, said, "p:3:9: Field\n1 0 0 0 x\n        ^\n"))
        self.write(d="kernel k\nparticles p\nout o\nstep 4\n")
        self.assertEqual(self.fdps("run", "d"), (3, "fdps: deck: UnknownKey line 4\n", "d:4:1: UnknownKey\nstep 4\n^\n"))


if __name__ == "__main__":
    unittest.main()
