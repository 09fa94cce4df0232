"""The examples: the program accepts each, and those of the page on kernels do what it says."""

from __future__ import annotations

import re
import unittest
from typing import Iterator, List, Tuple

from .support import TOP, ToolTest

EXAMPLES = sorted(path.parent.name for path in TOP.glob("examples/*/deck"))
MOST_PICTURE = 200_000  # bytes


class Runs(ToolTest):
    """Each test runs an example, or some steps of it."""

    def steps(self) -> Iterator[List[List[int]]]:
        """The particles' numbers, step by step: id, owner, position, velocity and forces."""
        rows: List[List[int]] = []
        for line in self.read("dump").splitlines():
            if line.startswith("step") and rows:
                yield rows
                rows = []
            if line.startswith("p "):
                rows.append([int(field) for field in line.split()[1:]])
        yield rows

    def test_the_program_accepts_the_first_step_of_each(self) -> None:
        for example in EXAMPLES:
            coincide = example == "coincident-particles"
            said = "fdps: step 0 id 1: Coincident in statement 4\n" if coincide else ""
            self.run_deck(self.deck_of(example, steps="0"), "--workers", "2", status=4 if coincide else 0, said=said)

    def test_the_first_pull(self) -> None:
        self.run_deck(self.deck_of("first-pull"))
        (rows,) = self.steps()
        first, second = [1, 0, 0, 0, 0, 0, 0, 0, 0, 0, 0, 3, 4, 0], [2, 0, 3, 4, 0, 0, 0, 0, 0, 0, 0, -3, -4, 0]
        self.assertEqual(rows, [first, second])

    def test_a_spring_keeps_two_opposite_each_other(self) -> None:
        # Equal masses: the velocities are opposite, and the distance goes from 1.5 of the rest to less than the rest.
        self.run_deck(self.deck_of("spring"))
        distances = []
        for one, other in self.steps():
            self.assertEqual([a + b for a, b in zip(one[5:8], other[5:8])], [0, 0, 0])
            distances.append(sum((a - b) ** 2 for a, b in zip(one[2:5], other[2:5])) ** 0.5 / 4194304)
        self.assertEqual(len(distances), 1001)
        self.assertAlmostEqual(max(distances), 1.5, delta=0.001)
        self.assertLess(min(distances), 1)

    def test_the_first_force_of_the_spring(self) -> None:
        # 4·(6291456 - 4194304), towards the other along x.
        self.run_deck(self.deck_of("spring", steps="0"))
        (rows,) = self.steps()
        self.assertEqual([row[8:] for row in rows], [[-8388608, 0, 0], [8388608, 0, 0]])

    def test_balls_keep_their_momentum_and_energy(self) -> None:
        # Each push has its opposite, and a step of 4 halves no odd number: the sum of velocities stays exactly.
        self.run_deck(self.deck_of("billiards"))
        energies = []
        for rows in self.steps():
            self.assertEqual([sum(row[axis] for row in rows) for axis in (5, 6, 7)], [1 << 32, 0, 0])
            if not any(row[11] for row in rows):
                energies.append(sum(row[axis] ** 2 for row in rows for axis in (5, 6, 7)) / (1 << 64))
        self.assertEqual(energies[0], 1)
        self.assertAlmostEqual(energies[-1], 1, delta=0.01)

    def test_the_nearest_by_all_pairs(self) -> None:
        self.run_deck(self.deck_of("nearest-neighbour"))
        (rows,) = self.steps()
        for row in rows:
            others = (sum((a - b) ** 2 for a, b in zip(row[2:5], other[2:5])) for other in rows if other is not row)
            self.assertEqual(row[11], -min(others))


class Pages(unittest.TestCase):
    """What pages show is what is shipped."""

    def blocks(self) -> Iterator[Tuple[str, str]]:
        """The indented blocks of the page on kernels that follow the name of a shipped file."""
        page = (TOP / "docs" / "KERNELS.md").read_text()
        for match in re.finditer(r"`(examples/\S+)`[^\n]*:\n\n((?:    [^\n]*\n|\n)+)", page):
            text = re.sub(r"(?m)^    ", "", match.group(2)).strip("\n") + "\n"
            yield match.group(1), text

    def test_each_text_of_the_page_on_kernels_is_shipped(self) -> None:
        found = list(self.blocks())
        self.assertGreaterEqual(len(found), 6)
        for name, text in found:
            self.assertEqual((TOP / name).read_text(), text, name)

    def test_pictures_are_small_and_shown(self) -> None:
        pictures = sorted((TOP / "docs" / "pictures").glob("*.png"))
        pages = "".join(page.read_text() for part in ("", "docs/", "examples/*/") for page in TOP.glob(f"{part}*.md"))
        self.assertTrue(pictures)
        for picture in pictures:
            self.assertLess(picture.stat().st_size, MOST_PICTURE, picture.name)
            self.assertTrue(f"pictures/{picture.name}" in pages, f"{picture.name} is shown on no page")

    def test_each_example_has_a_page_with_its_command(self) -> None:
        for example in EXAMPLES:
            page = (TOP / "examples" / example / "README.md").read_text()
            self.assertTrue(f"./fdps run examples/{example}/deck" in page, example)
