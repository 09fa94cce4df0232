"""Which proof begins next: each after those below it, the longest chain first, as many as processors and memory allow."""

from __future__ import annotations

from dataclasses import dataclass
from typing import Collection, Dict, FrozenSet, Iterable, List, Optional

# More jobs than these shorten no proof.
MOST_JOBS = 4
# What each further job of a proof takes, as a part of what its first takes.
FURTHER_JOB = 0.6


@dataclass(frozen=True)
class Task:
    """A proof: the names that it comes after, its length in any one measure, and the bytes of memory that it takes at most."""

    name: str
    after: FrozenSet[str]
    length: int
    memory: int


@dataclass(frozen=True)
class Start:
    """A proof that begins, with its jobs and the memory that it takes with them."""

    task: Task
    jobs: int
    memory: float


class Schedule:
    """What is done, at work and left of some tasks."""

    def __init__(self, tasks: Iterable[Task], processors: int, memory: int) -> None:
        self._processors, self._memory = processors, memory
        self._running: Dict[str, Start] = {}
        self._done: List[str] = []
        tasks = list(tasks)
        chains = _chains(tasks)
        self._left = sorted(tasks, key=lambda it: -chains[it.name])

    @property
    def running(self) -> List[str]:
        return list(self._running)

    @property
    def is_stuck(self) -> bool:
        """Whether something is left that will never begin."""
        return bool(self._left) and not self._running and not self._ready(())

    @property
    def is_done(self) -> bool:
        return not self._left and not self._running

    def next(self, barred: Collection[str] = ()) -> Optional[Start]:
        """The next task that fits, other than those barred for now, if there is one."""
        idle = self._processors - sum(it.jobs for it in self._running.values())
        room = self._memory - sum(it.memory for it in self._running.values())
        ready = self._ready(barred)
        for place, task in enumerate(ready):
            if idle > 0 and (not self._running or task.memory <= room):
                jobs = self._jobs(task, idle // (len(ready) - place), room)
                return Start(task, jobs, task.memory * (1 + FURTHER_JOB * (jobs - 1)))
        return None

    def begin(self, start: Start) -> None:
        self._left.remove(start.task)
        self._running[start.task.name] = start

    def end(self, name: str) -> None:
        del self._running[name]
        self._done.append(name)

    def _ready(self, barred: Collection[str]) -> List[Task]:
        return [it for it in self._left if it.name not in barred and it.after.issubset(self._done)]

    @staticmethod
    def _jobs(task: Task, share: int, room: float) -> int:
        """A proof gets the processors that no other proof waits for, where their memory is free."""
        fit = 1 + int((room / task.memory - 1) / FURTHER_JOB) if task.memory else MOST_JOBS
        return max(1, min(MOST_JOBS, share, fit))


def _chains(tasks: Collection[Task]) -> Dict[str, int]:
    """For each task the length of the longest chain of tasks that begins with it."""
    above: Dict[str, List[Task]] = {it.name: [] for it in tasks}
    for task in tasks:
        for name in task.after & above.keys():
            above[name].append(task)
    found: Dict[str, int] = {}

    def chain(task: Task) -> int:
        if task.name not in found:
            # What comes after itself ends here, and is never ready.
            found[task.name] = task.length
            found[task.name] += max((chain(it) for it in above[task.name]), default=0)
        return found[task.name]

    return {it.name: chain(it) for it in tasks}
