"""compare: what it says of dumps that differ in one thing each."""

from __future__ import annotations

from .support import KERNEL, RANK, ToolTest, step

ONE = "1 0 10 20 30 1 2 3 100 200 300 7"
TWO = "2 0 40 50 60 4 5 6 -100 -200 -300 7"
WHOLE = step(0, ONE, TWO) + step(1, ONE, TWO)


class Compare(ToolTest):
    """Each test compares the whole dump with a changed one."""

    def setUp(self) -> None:
        super().setUp()
        self.a = self.write("a", WHOLE)
        self.kernel = self.write("kernel", KERNEL)

    def says(self, other: str, *words: str) -> str:
        """What is said of the whole dump against another that differs."""
        return self.tool("compare", self.a, self.write("b", other), *words, status=1)

    def is_equal(self, other: str, *words: str) -> None:
        """Sees that the other isn't told from the whole dump."""
        self.assertEqual(self.tool("compare", self.a, self.write("b", other), *words), "")

    def test_equal_dumps_are_told_nothing_of(self) -> None:
        self.is_equal(WHOLE)
        self.is_equal(WHOLE, "--kernel", self.kernel)
        self.assertEqual(self.tool("compare", self.write("c", ""), self.write("d", "")), "")

    def test_a_position_is_named(self) -> None:
        said = self.says(step(0, ONE, TWO) + step(1, ONE, TWO.replace("50", "57")))
        self.assertEqual(said, "step 1 id 2 y: 50 against 57\nstep 1 y: 1 of 2 particles differ, by at most 7\n")

    def test_a_velocity_is_named(self) -> None:
        said = self.says(step(0, ONE.replace("1 2 3", "1 2 -3"), TWO) + step(1, ONE, TWO))
        self.assertEqual(said, "step 0 id 1 vz: 3 against -3\nstep 0 vz: 1 of 2 particles differ, by at most 6\n")

    def test_forces_have_the_kernels_names(self) -> None:
        other = step(0, ONE.replace("200", "201"), TWO.replace("-200", "-209").replace(" 7", " 8")) + step(1, ONE, TWO)
        self.assertEqual(
            self.says(other, "--kernel", self.kernel),
            "step 0 id 1 acc.y: 200 against 201\n"
            "step 0 acc.y: 2 of 2 particles differ, by at most 9\n"
            "step 0 near: 1 of 2 particles differ, by at most 1\n",
        )
        self.assertIn("force number 2: 200 against 201", self.says(other))

    def test_the_greatest_difference_of_forces(self) -> None:
        self.write("a", step(0, "1 0 1 1 1 0 0 0 -9223372036854775808 0 0"))
        said = self.says(step(0, "1 0 1 1 1 0 0 0 9223372036854775807 0 0"))
        self.assertIn("by at most 18446744073709551615\n", said)

    def test_an_owner_is_named_and_isnt_physics(self) -> None:
        other = step(0, ONE.replace("1 0", "1 3", 1), TWO) + step(1, ONE, TWO)
        self.assertEqual(
            self.says(other), "step 0 id 1 owner: 0 against 3\nstep 0 owner: 1 of 2 particles differ\n"
        )
        self.is_equal(other, "--physics")

    def test_owners_beside_another_difference_arent_physics(self) -> None:
        other = step(0, ONE.replace("1 0 10", "1 3 11", 1), TWO)
        said = self.says(other, "--physics")
        self.assertEqual(said, "step 0 id 1 x: 10 against 11\nstep 0 x: 1 of 2 particles differ, by at most 1\n")

    def test_rank_lines_are_named_and_arent_physics(self) -> None:
        other = step(0, ONE, TWO) + step(1, ONE, TWO, ranks=[RANK.replace("listparts 2", "listparts 5")])
        self.assertEqual(self.says(other), "step 1 rank 0: listparts 2 against 5\n")
        self.is_equal(other, "--physics")

    def test_numbers_of_ranks_arent_physics(self) -> None:
        both = [RANK, RANK.replace("rank 0", "rank 1")]
        other = step(0, ONE, TWO, ranks=both) + step(1, ONE, TWO, ranks=both)
        self.assertEqual(self.says(other), "step 0 ranks: 1 against 2\n")
        self.is_equal(other, "--physics")

    def test_a_particle_of_one_alone(self) -> None:
        said = self.says(step(0, ONE, TWO.replace("2", "3", 1)) + step(1, ONE, TWO))
        self.assertEqual(said, "step 0 id 2 stands in A alone\nstep 0 id 3 stands in B alone\n")

    def test_later_steps_on_request(self) -> None:
        other = step(0, ONE, TWO.replace("50", "51")) + step(1, ONE.replace("20", "21"), TWO)
        self.assertNotIn("step 1", self.says(other))
        self.assertEqual(self.says(other, "--all").splitlines()[-1], "step 1: 1 of 2 particles differ")

    def test_a_dump_that_ends_earlier(self) -> None:
        self.assertEqual(self.says(step(0, ONE, TWO)), "step 1 stands in A alone\n")
        self.assertEqual(self.says(WHOLE + step(2, ONE, TWO)), "step 2 stands in B alone\n")

    def test_a_dump_that_ends_within_a_step(self) -> None:
        first = len(step(0, ONE, TWO))
        said = self.says(WHOLE[: first + 40])
        self.assertEqual(said, f"{self.path('b')} ends within step 1, after 40 bytes of it\n")
        self.write("a", WHOLE[: first + 40])
        self.is_equal(WHOLE[: first + 40])
        self.assertIn("after 40 bytes", self.says(WHOLE[: first + 45]))

    def test_steps_of_other_numbers(self) -> None:
        self.assertEqual(self.says(step(5, ONE, TWO)), "step 0 against step 5\n")

    def test_trouble(self) -> None:
        other = self.write("b", WHOLE.replace("p 1", "q 1"))
        self.assertIn("line 3 is none of a dump", self.trouble("compare", self.a, other))
        self.assertIn("line 1 is none of a dump", self.trouble("compare", self.write("b", "hello"), self.a))
        self.assertIn("No such file", self.trouble("compare", self.a, self.path("nothing")))
        narrow = self.write("narrow", "FORCE vec S16 acc sum;")
        self.assertIn("3 numbers, those in", self.trouble("compare", self.a, self.a, "--kernel", narrow))
