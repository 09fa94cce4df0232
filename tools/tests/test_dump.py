"""dump: steps, last, join, particles and thin, over dumps written here."""

from __future__ import annotations

import argparse
import runpy

from fdps_texts.trouble import Trouble

from .support import TOOLS, ToolTest, step

ROWS = ("1 0 10 20 30 1 2 3 0 0 0", "4294967295 0 40 50 60 -4 5 6 0 0 0")
STEPS = [step(number, *ROWS) for number in range(6)]
WHOLE = "".join(STEPS)
DECK = "kernel k\nparticles p\nout o\nreuse 2\n"
PARTICLES = """\
# by no order of ids
particles 1
count 2
4294967295 1 1 1 0 0 0 5 -1 2 -3 4
1 0 0 0 0 0 0 9 0 0 0 1099511627776
"""


class Dumps(ToolTest):
    """Each test begins with a dump of six steps, cut within its last."""

    def setUp(self) -> None:
        super().setUp()
        self.whole = self.write("whole", WHOLE)
        self.cut = self.write("cut", WHOLE[:-20])
        self.deck = self.write("deck", DECK)

    def test_steps_and_where_they_begin(self) -> None:
        size = len(STEPS[0])
        lines = [f"step {number} offset {number * size} bytes {size}\n" for number in range(5)]
        self.assertEqual(
            self.tool("dump", "steps", self.cut), "".join(lines) + f"cut offset {5 * size} bytes {size - 20}\n"
        )

    def test_last_is_the_last_whole_build(self) -> None:
        self.assertEqual(self.tool("dump", "last", self.cut, self.deck), STEPS[4])
        self.write("cut", WHOLE[: 4 * len(STEPS[0]) + 5])
        self.assertEqual(self.tool("dump", "last", self.cut, self.deck), STEPS[2])

    def test_last_of_a_dump_without_a_build(self) -> None:
        odd = self.write("odd", STEPS[1] + STEPS[3])
        self.assertIn("no whole step", self.trouble("dump", "last", odd, self.deck, "-o", self.path("out")))
        self.assertFalse((self.folder / "out").exists())

    def test_last_of_a_step_that_no_restart_reads(self) -> None:
        # A restart reads 2^28 bytes; here a few, since a step that long takes minutes to make.
        tool = runpy.run_path(str(TOOLS / "dump"))
        tool["last"].__globals__["MOST_RESTART"] = len(STEPS[4]) - 1
        words = argparse.Namespace(dump=self.cut, deck=self.deck, output=self.path("out"))
        with self.assertRaises(Trouble) as raised:
            tool["last"](words)
        self.assertIn(f"step 4 has {len(STEPS[4])} bytes", str(raised.exception))
        self.assertFalse((self.folder / "out").exists())

    def test_join_gives_the_whole(self) -> None:
        rest = self.write("rest", "".join(STEPS[3:]))
        self.tool("dump", "join", self.cut, rest, "-o", self.path("out"))
        self.assertEqual(self.read("out"), WHOLE)
        self.assertEqual(self.tool("dump", "join", self.cut, self.write("rest", STEPS[5])), WHOLE)
        self.assertEqual(self.tool("dump", "join", self.cut, self.write("rest", "")), "".join(STEPS[:5]))

    def test_join_refuses_a_gap_and_another_text(self) -> None:
        short = self.write("short", STEPS[0])
        rest = self.write("rest", "".join(STEPS[2:]))
        self.assertIn("goes on with step 2", self.trouble("dump", "join", short, rest, "-o", self.path("out")))
        other = self.write("other", STEPS[4].replace("10", "11") + STEPS[5])
        self.assertIn("step 4", self.trouble("dump", "join", self.cut, other, "-o", self.path("out")))
        self.assertFalse((self.folder / "out").exists())

    def test_thin_keeps_multiples(self) -> None:
        self.assertEqual(self.tool("dump", "thin", "2", self.whole), STEPS[0] + STEPS[2] + STEPS[4])
        self.assertEqual(self.tool("dump", "thin", "3", self.cut), STEPS[0] + STEPS[3])

    def test_particles_of_a_step(self) -> None:
        inputs = self.write("particles", PARTICLES)
        lines = self.tool("dump", "particles", "3", self.whole, inputs).splitlines()
        self.assertEqual(
            [line for line in lines if not line.startswith("#")],
            [
                "particles 1",
                "count 2",
                "1 10 20 30 1 2 3 9 0 0 0 1099511627776",
                "4294967295 40 50 60 -4 5 6 5 -1 2 -3 4",
            ],
        )
        self.assertIn("no whole step 5", self.trouble("dump", "particles", "5", self.cut, inputs))
        other = self.write("other", PARTICLES.replace("\n1 0", "\n2 0"))
        self.assertIn("its ids aren't those", self.trouble("dump", "particles", "3", self.whole, other))

    def test_no_dump(self) -> None:
        other = self.write("other", "step 0 particles 0 ranks 1\nrank 1\n")
        self.assertIn("line 2 is none of a dump", self.trouble("dump", "steps", other))

    def test_a_run_from_a_builds_particles_goes_on_as_it_was(self) -> None:
        self.run_deck(self.deck_of("binary-orbit", steps="40"))
        inputs = "examples/binary-orbit/two.particles"
        self.tool("dump", "particles", "30", self.path("dump"), inputs, "-o", self.path("p"))
        self.tool("dump", "thin", "40", self.path("dump"), "-o", self.path("forty"))
        self.run_deck(self.deck_of("binary-orbit", steps="10", particles=self.path("p")))
        last = self.tool("dump", "last", self.path("dump"), self.path("deck"))
        self.assertEqual(last.splitlines()[1:], self.read("forty").splitlines()[-3:])
