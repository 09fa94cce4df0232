"""plot: pictures that open, tables with the right numbers, and the energy of two bodies on an orbit."""

from __future__ import annotations

import csv
import subprocess
from typing import Dict, List

from .support import KERNEL, RANK, ToolTest, missing_module, step

MISSING = missing_module()
OPENED = """
import sys
from PIL import Image
image = Image.open(sys.argv[1])
image.load()
print(image.format, getattr(image, "n_frames", 1))
"""
HALF = 1 << 29


class Plot(ToolTest):
    """Each test makes a picture or a table."""

    def setUp(self) -> None:
        super().setUp()
        if MISSING:
            self.skipTest(f"plot (no {MISSING})")

    def opened(self, name: str) -> str:
        """What an opened picture is, and how many frames it has."""
        words = ["/usr/bin/python3", "-c", OPENED, self.path(name)]
        done = subprocess.run(words, stdout=subprocess.PIPE, text=True, check=True)
        return done.stdout.strip()

    def table(self, dump: str, *words: str) -> List[Dict[str, str]]:
        """The rows of a table of a dump."""
        self.tool("plot", dump, "-o", self.path("table.csv"), *words)
        with open(self.path("table.csv"), newline="") as stream:
            return list(csv.DictReader(stream))

    def dump_of_two(self) -> str:
        """Two particles at three steps."""
        rows = [(f"1 0 {HALF + 10 * at} {HALF} {HALF} {at * 65536} 0 0 3 4 0 {at}",
                 f"7 0 {HALF} {HALF} {HALF} 0 0 -65536 0 0 0 5") for at in range(3)]
        return self.write("two", "".join(step(at, *both) for at, both in enumerate(rows)))

    def test_pictures_of_every_kind_open(self) -> None:
        self.run_deck(self.deck_of("cold-collapse", steps="4", grid="2x2x1"))
        for show in ("particles", "path", "energy", "momentum", "ranks", "lists"):
            self.tool("plot", self.path("dump"), "-o", self.path(f"{show}.png"), "--show", show,
                      "--deck", "examples/cold-collapse/deck", "--ids", "1,5-7")
            self.assertEqual(self.opened(f"{show}.png"), "PNG 1")
        self.tool("plot", self.path("dump"), "-o", self.path("side.png"), "--steps", "0,2-4", "--colour", "owner")
        self.assertEqual(self.opened("side.png"), "PNG 1")
        self.tool("plot", self.path("dump"), "-o", self.path("all.gif"), "--every", "2", "--colour", "speed")
        self.assertEqual(self.opened("all.gif"), "GIF 3")

    def test_positions_in_a_users_units(self) -> None:
        words = ["--length-unit", "10", "--time-unit", "5", "--steps", "1"]
        rows = self.table(self.dump_of_two(), *words)
        self.assertEqual([float(rows[0][name]) for name in ("step", "id", "x", "y", "vx")], [1, 1, 1.0, 0, 0.5])
        self.assertEqual([float(rows[1][name]) for name in ("id", "x", "vz")], [7, 0, -0.5])

    def test_a_path(self) -> None:
        rows = self.table(self.dump_of_two(), "--show", "path", "--ids", "7,1")
        self.assertEqual([(row["step"], row["id"], float(row["x"])) for row in rows[:4]],
                         [("0", "1", 0.0), ("0", "7", 0.0), ("1", "1", 10.0), ("1", "7", 0.0)])

    def test_energy_of_two_by_hand(self) -> None:
        # Masses 2 and 3, 10 apart, at 1 and -1: kinetic 1 + 1.5, potential -G·6/sqrt(100 + 44) = -0.5 G; G = 2^17/2^16.
        kernel = self.write("k", "FORCE vec S16 acc sum; FORCE num S0 n sum; PARAM S16 g = 131072; PARAM S0 e = 44;")
        particles = self.write("p", "particles 1\ncount 2\n7 0 0 0 0 0 0 3 0 0 0 0\n1 0 0 0 0 0 0 2 0 0 0 0\n")
        rows = self.table(self.dump_of_two(), "--show", "energy", "--kernel", kernel, "--particles", particles)
        names = ("step", "kinetic", "potential", "total")
        self.assertEqual([float(rows[1][name]) for name in names], [1, 2.5, -1.0, 1.5])

    def test_momentum_by_hand(self) -> None:
        particles = self.write("p", "particles 1\ncount 2\n7 0 0 0 0 0 0 3 0 0 0 0\n1 0 0 0 0 0 0 2 0 0 0 0\n")
        rows = self.table(self.dump_of_two(), "--show", "momentum", "--particles", particles)
        self.assertEqual([float(rows[2][name]) for name in ("px", "py", "pz", "parts")], [4, 0, -3, 7])

    def test_ranks_and_lists(self) -> None:
        ranks = [RANK, RANK.replace("rank 0 particles 2", "rank 1 particles 3").replace("cells 0", "cells 4")]
        dump = self.write("d", step(0, ranks=ranks))
        self.assertEqual(self.table(dump, "--show", "ranks"), [{"step": "0", "rank 0": "2", "rank 1": "3"}])
        (row,) = self.table(dump, "--show", "lists")
        self.assertEqual((row["particles"], row["cells"], row["listcells"], row["listparts"]), ("5", "4", "4", "4"))

    def test_the_energy_of_an_orbit_stays(self) -> None:
        self.run_deck(self.deck_of("binary-orbit"))
        rows = self.table(self.path("dump"), "--show", "energy", "--deck", "examples/binary-orbit/deck")
        self.assertLess(max(abs(float(row["drift"])) for row in rows), 3e-5)
        self.assertEqual(rows[0]["drift"], "0.0")
        moved = self.table(self.path("dump"), "--show", "momentum", "--deck", "examples/binary-orbit/deck")
        self.assertEqual({(row["px"], row["py"], row["pz"]) for row in moved}, {("0.0", "0.0", "0.0")})

    def test_trouble(self) -> None:
        dump, kernel = self.dump_of_two(), self.write("k", KERNEL)
        for word, words in (
            ("no particle 2", ["--show", "path", "--ids", "2"]),
            ("no whole step 9", ["--steps", "9"]),
            ("--kernel", ["--show", "energy"]),
            ("no such number", ["--kernel", kernel, "--colour", "far"]),
        ):
            self.assertIn(word, self.trouble("plot", dump, "-o", self.path("x.png"), *words))
        self.assertIn("no whole step", self.trouble("plot", self.write("none", ""), "-o", self.path("x.png")))
        self.assertFalse((self.folder / "x.png").exists())
        self.assertIn(".png", self.trouble("plot", dump, "-o", self.path("x.jpg")))
