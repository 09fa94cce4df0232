"""Proves and builds the program: `rt lib` for each library that it stands on, side by side, and then `rt run`.

`rt` locks the crate in which it works and all crates below it, so that of two crates over a common one the second waits.
So each proof has a room of its own: a folder with the texts of the crate and those below it, and the libraries that these
were built into, all by hard links. What `rt` keeps of the crate, its folder `out`, is moved there and back, so that a
proof that was cut off goes on where it was. In the end `rt run` judges by the texts themselves whether each library is
current: what is decided here makes it quicker, and nothing true or false.
"""

from __future__ import annotations

import contextlib
import os
import shutil
import subprocess
import tempfile
import time
from pathlib import Path
from typing import Dict, Iterator, List, Sequence, Set

from launcher import machine
from launcher.crates import PARTS, Crate, Repository
from launcher.process import Lock, Trouble, require_rt, told_to_end_with_launcher
from launcher.schedule import Schedule, Task
from launcher.terminal import StatusLine, is_there, say

PROGRAM = "fdps_cli"
# The part of the free memory that is planned on, since some proofs take more than their lines tell.
PLANNED = 0.85
# Seconds between two looks at the proofs at work.
PAUSE = 0.2
# The lines of a failed proof that are shown.
SHOWN = 20


def program_of(top: Path) -> Path:
    return top / "crates" / PROGRAM / "out" / PROGRAM


def ensure_program(top: Path) -> Path:
    """The program, proved and built anew where it isn't there or a text was changed."""
    repository, program = Repository(top), program_of(top)
    if PROGRAM not in repository.crates:
        raise Trouble(f"{repository.list} doesn't list {PROGRAM}")
    if not repository.is_current(PROGRAM, program):
        with _alone(top):
            # Another one may have built it meanwhile.
            if not repository.is_current(PROGRAM, program):
                Proofs(repository).build(program)
    return program


def memory_of(crate: Crate, below: List[Crate]) -> int:
    """The bytes that the proof of a crate takes at most, as it was seen."""
    lines_below = sum(it.lines(".rt") for it in below)
    return 10**9 + 10**6 * crate.lines(".rt") + 200_000 * crate.lines(".antt") + 80_000 * lines_below


@contextlib.contextmanager
def _alone(top: Path) -> Iterator[None]:
    """Waits until no other launcher proves here."""
    lock = Lock(top / "launcher")
    if not lock.is_held:
        say("fdps: another fdps is proving here; waiting for it\n")
        lock = Lock(top / "launcher", waits=True)
    try:
        yield
    finally:
        lock.let_go()


def _link_or_copy(source: str, target: str) -> None:
    try:
        os.link(source, target)
    except OSError:
        shutil.copy2(source, target)


class Room:
    """The folder in which one crate is proved."""

    def __init__(self, repository: Repository, crate: Crate) -> None:
        self._repository, self._crate = repository, crate
        self._top = repository.top / "out" / crate.name
        self._kept = crate.folder / "out"
        self.folder = self._top / "crates" / crate.name
        self.log = self._top / "log"

    def furnish(self) -> None:
        below = self._repository.below(self._crate.name)
        shutil.rmtree(self._top, ignore_errors=True)
        for crate in below:
            self._link(crate, [*PARTS, "out/rlib"])
        self._link(self._crate, PARTS)
        lines = [f"{it.line}\n" for it in [*below, self._crate]]
        (self._top / "crates.txt").write_text("".join(lines), encoding="utf-8")
        if self._kept.is_dir():
            self._kept.rename(self.folder / "out")

    def clear(self) -> None:
        made = self.folder / "out"
        if made.is_dir() and not self._kept.exists():
            made.rename(self._kept)
        shutil.rmtree(self._top, ignore_errors=True)

    def _link(self, crate: Crate, parts: List[str]) -> None:
        for part in parts:
            if (crate.folder / part).is_dir():
                to = self._top / "crates" / crate.name / part
                shutil.copytree(crate.folder / part, to, copy_function=_link_or_copy)


class Proof:
    """An `rt` at work on one crate, whose own folder is locked meanwhile."""

    def __init__(self, room: Room, lock: Lock, jobs: int) -> None:
        self._room, self._lock = room, lock
        room.furnish()
        self.process = _start(["rt", "lib", "--jobs", str(jobs)], room.folder, room.log)

    def tail(self) -> str:
        return _tail(self._room.log)

    def end(self) -> None:
        """Ends the proof where it goes on, and puts back what it made."""
        if self.process.poll() is None:
            self.process.terminate()
            self.process.wait()
        self._room.clear()
        self._lock.let_go()


def _start(words: Sequence[str], folder: Path, log: Path) -> subprocess.Popen:
    with open(log, "wb") as said:
        return subprocess.Popen(
            words,
            cwd=folder,
            stdin=subprocess.DEVNULL,
            stdout=said,
            stderr=subprocess.STDOUT,
            preexec_fn=told_to_end_with_launcher,
        )


def _tail(log: Path) -> str:
    lines = log.read_text(encoding="utf-8", errors="replace").splitlines()
    return "".join(f"{it}\n" for it in lines[-SHOWN:])


class Told:
    """What is said of the proofs: on a terminal one line that is kept current, else a line for each crate."""

    def __init__(self, total: int) -> None:
        self._total, self._began, self._done = total, time.monotonic(), 0
        self._line = StatusLine() if is_there() else None
        self._waited: List[Crate] = []

    def _minutes(self) -> str:
        return f"{int(time.monotonic() - self._began) // 60} min"

    def at_work(self, names: Sequence[str]) -> None:
        if self._line:
            done = f"{self._done} of {self._total} crates proved, {self._minutes()} so far"
            self._line.show(f"fdps: {done}, at work: {', '.join(names)}")

    def waits(self, crate: Crate) -> None:
        """Says once that a crate can't begin, since another `rt` works there."""
        if crate not in self._waited:
            self._waited.append(crate)
            self.clear()
            say(f"fdps: waiting for another rt to finish in {crate.folder}\n")

    def proved(self, name: str) -> None:
        self._done += 1
        if not self._line:
            say(f"fdps: {name} proved, crate {self._done} of {self._total}, {self._minutes()} so far\n")

    def clear(self) -> None:
        if self._line:
            self._line.clear()


class Proofs:
    """The proofs of all that the program stands on, and its own."""

    def __init__(self, repository: Repository) -> None:
        self._repository = repository
        self._libraries = repository.below(PROGRAM)
        self._told = Told(len(self._libraries) + 1)
        self._at_work: Dict[str, Proof] = {}

    def build(self, program: Path) -> None:
        require_rt()
        self._clear_rooms()
        program.parent.mkdir(exist_ok=True)
        with contextlib.suppress(FileNotFoundError):
            program.unlink()
        say("fdps: proving and building the program; fdps --unproved runs it at once, unproved\n")
        try:
            self._prove_libraries()
            self._build_program(program)
        finally:
            for proof in self._at_work.values():
                proof.end()
            self._told.clear()
            self._clear_rooms()

    def _clear_rooms(self) -> None:
        """Takes back what a launcher that was killed left in its rooms."""
        for crate in self._libraries:
            Room(self._repository, crate).clear()
        with contextlib.suppress(OSError):
            (self._repository.top / "out").rmdir()

    def _task(self, crate: Crate) -> Task:
        below = self._repository.below(crate.name)
        after = frozenset(it.name for it in below)
        return Task(crate.name, after, crate.lines(".rt") + crate.lines(".antt"), memory_of(crate, below))

    def _prove_libraries(self) -> None:
        memory = int(PLANNED * machine.free_memory())
        schedule = Schedule(map(self._task, self._libraries), machine.processors(), memory)
        while not schedule.is_done:
            if schedule.is_stuck:
                raise Trouble(f"{self._repository.list}: crates stand on one another in a ring")
            self._begin(schedule)
            self._told.at_work(schedule.running)
            time.sleep(PAUSE)
            for name, proof in list(self._at_work.items()):
                if proof.process.poll() is not None:
                    self._take(name, proof)
                    schedule.end(name)

    def _begin(self, schedule: Schedule) -> None:
        """Begins what can begin now. A crate in which another `rt` works is left for later."""
        taken: Set[str] = set()
        start = schedule.next()
        while start:
            crate = self._repository.crates[start.task.name]
            lock = Lock(crate.folder)
            if lock.is_held:
                schedule.begin(start)
                self._at_work[crate.name] = Proof(Room(self._repository, crate), lock, start.jobs)
            else:
                taken.add(crate.name)
                self._told.waits(crate)
            start = schedule.next(taken)

    def _take(self, name: str, proof: Proof) -> None:
        if proof.process.returncode:
            raise Trouble(f"{name} isn't proved; the last lines of rt lib:\n{proof.tail()}")
        proof.end()
        del self._at_work[name]
        self._told.proved(name)

    def _build_program(self, program: Path) -> None:
        """Has `rt run` leave the proved program in `out`. It then runs it without words, which only says the usage."""
        folder = program.parent.parent
        with tempfile.TemporaryDirectory(prefix="fdps-") as room:
            log = Path(room, "log")
            process = _start(["rt", "run"], folder, log)
            try:
                while process.poll() is None:
                    self._told.at_work([PROGRAM])
                    time.sleep(PAUSE)
            finally:
                process.terminate()
                process.wait()
            if not os.access(program, os.X_OK):
                raise Trouble(f"{PROGRAM} isn't proved; the last lines of rt run:\n{_tail(log)}")
        program.touch()
        self._told.proved(PROGRAM)
