"""The order of proofs."""

import unittest
from typing import List, Tuple

from launcher.schedule import Schedule, Task

GIGABYTE = 10**9


def task(name: str, after: str = "", length: int = 1, memory: int = GIGABYTE) -> Task:
    return Task(name, frozenset(after.split()), length, memory)


def begun(schedule: Schedule) -> List[Tuple[str, int]]:
    """The names and jobs of all that can begin now, which then begins."""
    found = []
    start = schedule.next()
    while start:
        schedule.begin(start)
        found.append((start.task.name, start.jobs))
        start = schedule.next()
    return found


class Order(unittest.TestCase):
    def test_a_task_waits_for_those_below_it(self) -> None:
        schedule = Schedule([task("low"), task("high", "low")], 4, 9 * GIGABYTE)
        self.assertEqual([name for name, _ in begun(schedule)], ["low"])
        schedule.end("low")
        self.assertEqual([name for name, _ in begun(schedule)], ["high"])
        schedule.end("high")
        self.assertTrue(schedule.is_done)

    def test_the_longest_chain_begins_first(self) -> None:
        # `long` is short itself, and 10 stand on it; `wide` has 5.
        tasks = [task("wide", length=5), task("long", length=1), task("on_long", "long", length=10)]
        self.assertEqual(begun(Schedule(tasks, 1, 9 * GIGABYTE)), [("long", 1)])

    def test_no_more_begin_than_there_are_processors(self) -> None:
        tasks = [task(name, length=9 - place) for place, name in enumerate("abc")]
        self.assertEqual(begun(Schedule(tasks, 2, 9 * GIGABYTE)), [("a", 1), ("b", 1)])

    def test_no_more_begin_than_memory_allows(self) -> None:
        tasks = [task(name, length=9 - place, memory=2 * GIGABYTE) for place, name in enumerate("abc")]
        self.assertEqual(begun(Schedule(tasks, 4, 5 * GIGABYTE)), [("a", 1), ("b", 1)])

    def test_one_begins_whatever_memory_there_is(self) -> None:
        tasks = [task("a", length=2, memory=6 * GIGABYTE), task("b", memory=6 * GIGABYTE)]
        self.assertEqual(begun(Schedule(tasks, 4, GIGABYTE)), [("a", 1)])

    def test_a_lone_task_gets_the_processors_that_are_free(self) -> None:
        # A second job takes 0.6 of a gigabyte, so 2.2 allow three jobs in all.
        self.assertEqual(begun(Schedule([task("a")], 4, 9 * GIGABYTE)), [("a", 4)])
        self.assertEqual(begun(Schedule([task("a")], 4, int(2.2 * GIGABYTE))), [("a", 3)])
        self.assertEqual(begun(Schedule([task("a"), task("b")], 4, 9 * GIGABYTE)), [("a", 2), ("b", 2)])

    def test_a_barred_task_is_left_for_later(self) -> None:
        schedule = Schedule([task("a", length=2), task("b")], 1, GIGABYTE)
        start = schedule.next({"a"})
        self.assertEqual(start and start.task.name, "b")

    def test_a_ring_is_stuck(self) -> None:
        self.assertTrue(Schedule([task("a", "b"), task("b", "a")], 1, GIGABYTE).is_stuck)
        self.assertFalse(Schedule([task("a")], 1, GIGABYTE).is_stuck)
