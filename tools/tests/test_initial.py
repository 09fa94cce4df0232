"""initial: shapes by what is known of them, limits by name, units there and back."""

from __future__ import annotations

import math
from fractions import Fraction
from typing import List

from .support import ToolTest

GRAVITY = "examples/binary-orbit/gravity.kernel"
HALF = 1 << 29


class Initial(ToolTest):
    """Each test makes particles of one shape."""

    def made(self, *words: str) -> List[List[int]]:
        """The numbers of the particles that are made."""
        lines = [line for line in self.tool("initial", *words).splitlines() if not line.startswith("#")]
        self.assertEqual(lines[:2], ["particles 1", f"count {len(lines) - 2}"])
        return [[int(field) for field in line.split()] for line in lines[2:]]

    def test_a_circle(self) -> None:
        # On a circle each has half the speed sqrt(G·2/D), with G = g/2^16 and 16 fraction bits.
        speed = round(math.sqrt(1165197225572178176 / 65536 * 2 / (1 << 21)) / 2 * 65536)
        self.assertEqual(
            self.made("orbit", "--distance", "2^21", "--kernel", GRAVITY),
            [
                [1, HALF + (1 << 20), HALF, HALF, 0, speed, 0, 1, 0, 0, 0, 0],
                [2, HALF - (1 << 20), HALF, HALF, 0, -speed, 0, 1, 0, 0, 0, 0],
            ],
        )

    def test_an_ellipse_of_unlike_masses(self) -> None:
        # Farthest from each other the speed is that of the circle times sqrt(1 - e); masses 4 = 1 + 3.
        words = ["--distance", "2^20", "--eccentricity", "0.75", "--mass", "4", "--ratio", "3", "--gravity", "2^40"]
        first, second = self.made("orbit", *words)
        self.assertEqual(first[1:8], [HALF + 786432, HALF, HALF, 0, 3 * 65536 * 256, 0, 1])
        self.assertEqual(second[1:8], [HALF - 262144, HALF, HALF, 0, -65536 * 256, 0, 3])

    def test_a_lattice(self) -> None:
        made = self.made("lattice", "--count", "8", "--mass", "24")
        low, high = 1 << 28, 3 << 28
        self.assertEqual(
            [row[1:4] for row in made],
            [[x, y, z] for x in (low, high) for y in (low, high) for z in (low, high)],
        )
        self.assertEqual({tuple(row[4:8]) for row in made}, {(0, 0, 0, 3)})

    def test_noise_stays_near(self) -> None:
        exact = self.made("lattice", "--count", "64")
        noisy = self.made("lattice", "--count", "64", "--noise", "0.25", "--seed", "3")
        moves = [abs(a - b) for one, two in zip(exact, noisy) for a, b in zip(one[1:4], two[1:4])]
        self.assertLessEqual(max(moves), (1 << 28) / 4)
        self.assertGreater(max(moves), (1 << 28) / 8)

    def test_a_sphere_of_plummers(self) -> None:
        scale = 1 << 24
        made = self.made("plummer", "--count", "1000", "--radius", "2^24", "--gravity", "1e13", "--seed", "7")
        places = [[number - HALF for number in row[1:4]] for row in made]
        speeds = [[number / 65536 for number in row[4:7]] for row in made]
        for axis in range(3):
            self.assertLess(abs(sum(place[axis] for place in places)), 1000)
            self.assertLess(abs(sum(speed[axis] for speed in speeds)), 1)
        middle = sorted(math.hypot(*place) for place in places)[500]
        self.assertAlmostEqual(middle / scale, 1.305, delta=0.12)  # half of the mass is within 1.305 A
        kinetic = sum(speed[axis] ** 2 for speed in speeds for axis in range(3)) / 2
        whole = 3 * math.pi / 32 * 1e13 * 1000**2 / scale  # its potential energy is -3π/32·GM²/A, twice the kinetic one
        self.assertAlmostEqual(kinetic / (whole / 2), 1, delta=0.1)

    def test_a_ball(self) -> None:
        made = self.made("ball", "--count", "1000", "--radius", "2^20")
        radii = sorted(math.hypot(*(number - HALF for number in row[1:4])) for row in made)
        self.assertLess(radii[-1], (1 << 20) * 1.1)
        self.assertAlmostEqual(radii[500] / (1 << 20), 0.5 ** (1 / 3), delta=0.03)
        self.assertEqual({tuple(row[4:8]) for row in made}, {(0, 0, 0, 1)})

    def test_a_disk(self) -> None:
        made = self.made(
            "disk", "--count", "101", "--radius", "2^24", "--inner", "2^22", "--central-mass", "1000000000",
            "--gravity", "65536",
        )
        self.assertEqual(made[0][1:8], [HALF, HALF, HALF, 0, 0, 0, 1000000000])
        for row in made[1:]:
            x, y = row[1] - HALF, row[2] - HALF
            radius = math.hypot(x, y)
            self.assertTrue((1 << 22) - 1 <= radius <= (1 << 24) + 1 and row[3] == HALF)
            self.assertAlmostEqual(math.hypot(row[4], row[5]) / 65536 / math.sqrt(65536e9 / radius), 1, delta=1e-5)
            self.assertGreater(x * row[5] - y * row[4], 0)

    def test_a_seed_gives_the_same_again(self) -> None:
        words = ["ball", "--count", "50", "--radius", "2^20"]
        self.assertEqual(self.made(*words, "--seed", "4"), self.made(*words, "--seed", "4"))
        self.assertNotEqual(self.made(*words, "--seed", "4"), self.made(*words, "--seed", "5"))

    def test_where_it_stands_and_moves(self) -> None:
        here = self.made("ball", "--count", "5", "--radius", "2^20")
        there = self.made(
            "ball", "--count", "5", "--radius", "1", "--length-unit", "2^20", "--time-unit", "4",
            "--centre", "10", "0", "-10", "--velocity", "0", "1", "-2", "--first-id", "11",
        )
        for one, other in zip(here, there):
            self.assertEqual(other[0], one[0] + 10)
            self.assertEqual(other[1:4], [one[1] + (10 << 20), one[2], one[3] - (10 << 20)])
            self.assertEqual(other[4:7], [0, 1 << 34, -(1 << 35)])  # 2^20/4 grid steps a tick, with 16 fraction bits

    def test_gravity_in_a_users_units(self) -> None:
        # The earth round the sun: 4π² in astronomical units, suns and years.
        said = self.tool(
            "initial", "orbit", "--distance", "1", "--mass", "1", "--ratio", "3.0035e-6", "--gravity", "39.4784176",
            "--length-unit", "2^26", "--mass-unit", "332946", "--time-unit", "2^16",
        )
        constant = round(Fraction("39.4784176") * 2**78 / (332946 * 2**32) * 2**16)
        written = int(said.split("PARAM S16 g = ")[1].split(";")[0])
        self.assertAlmostEqual(written / constant, 1, delta=1e-12)
        earth = said.splitlines()[-1].split()
        self.assertEqual(earth[7], "1")
        self.assertAlmostEqual(int(earth[5]) / (-2 * math.pi * 2**26 / 2**16 * 65536), 1, delta=1e-5)

    def test_several_files_in_one(self) -> None:
        for name, first in (("a", "1"), ("b", "6"), ("c", "5")):
            self.tool("initial", "ball", "--count", "5", "--radius", "9", "--first-id", first, "-o", self.path(name))
        merged = self.made("merge", self.path("a"), self.path("b"))
        self.assertEqual([row[0] for row in merged], list(range(1, 11)))
        self.assertIn("two particles have the id 5", self.trouble("initial", "merge", self.path("a"), self.path("c")))

    def test_what_leaves_the_limits_is_named(self) -> None:
        out = self.path("out")

        def refused(*words: str) -> str:
            said = self.trouble("initial", *words, "-o", out)
            self.assertFalse((self.folder / "out").exists())
            return said

        ball = ["ball", "--count", "3"]
        self.assertIn("y is 2147483648", refused("lattice", "--count", "1", "--centre", "0", "1610612736", "0"))
        self.assertIn("vx is 9007199254740992", refused(*ball, "--radius", "9", "--velocity", "2^37", "0", "0"))
        self.assertIn("mass is 0, and may go from 1 to 2147483647", refused(*ball, "--radius", "9", "--mass", "1"))
        self.assertIn("id is 4294967296", refused(*ball, "--radius", "9", "--first-id", "4294967295"))
        self.assertIn("from 1 to 65536", refused("ball", "--count", "65537", "--radius", "9"))
        self.assertIn("is no cube", refused("lattice", "--count", "9"))
        self.assertIn("--gravity", refused("plummer", "--count", "9", "--radius", "9"))
        self.assertIn("has no PARAM g", refused(*ball, "--radius", "9", "--kernel", "examples/spring/spring.kernel"))

    def test_the_program_reads_every_shape(self) -> None:
        shapes = (
            ["plummer", "--count", "300", "--radius", "2^24", "--kernel", GRAVITY],
            ["ball", "--count", "300", "--radius", "2^28"],
            ["disk", "--count", "300", "--radius", "2^24", "--central-mass", "1000", "--kernel", GRAVITY],
            ["lattice", "--count", "343", "--noise", "0.5"],
            ["orbit", "--distance", "2^24", "--kernel", GRAVITY],
        )
        for words in shapes:
            self.tool("initial", *words, "-o", self.path("p"))
            self.run_deck(self.deck_of("first-pull", particles=self.path("p")))
            rows = [line.split()[1:] for line in self.read("dump").splitlines() if line.startswith("p ")]
            inputs = [line.split() for line in self.read("p").splitlines() if line[0].isdigit()]
            self.assertEqual([row[:1] + row[2:8] for row in rows], [fields[:7] for fields in inputs])
