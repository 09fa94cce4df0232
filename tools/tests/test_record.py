"""record: what it states of a run, and what it finds changed."""

from __future__ import annotations

import hashlib
import json
import subprocess
from pathlib import Path

from .support import TOOLS, TOP, ToolTest, needs_program


class Records(ToolTest):
    """Each test records a run of the first example in a folder of its own."""

    def setUp(self) -> None:
        super().setUp()
        self.words = ["--program", needs_program(self)]
        self.kernel = self.write("kernel", (TOP / "examples/first-pull/pull.kernel").read_text())
        self.particles = self.write("particles", (TOP / "examples/first-pull/two.particles").read_text())
        self.deck = self.deck_of("first-pull", kernel=self.kernel, particles=self.particles)

    def record(self) -> str:
        """Makes the record; its name."""
        self.tool("record", self.deck, *self.words)
        return self.path("dump.record.json")

    def sum_of(self, name: str) -> str:
        """The sum of a file in the folder."""
        return hashlib.sha256((self.folder / name).read_bytes()).hexdigest()

    def test_sums_words_and_status(self) -> None:
        record = json.loads(Path(self.record()).read_text())
        self.assertEqual(record["words"], ["run", self.deck])
        self.assertEqual((record["record"], record["status"], record["said"]), (1, 0, ""))
        for key, name in (("deck", "deck"), ("kernel", "kernel"), ("particles", "particles"), ("output", "dump")):
            self.assertEqual(record[key], self.sum_of(name))

    def test_a_run_that_isnt_done(self) -> None:
        self.write("particles", self.read("particles").replace("2 3 4 0", "1 3 4 0"))
        said = self.tool("record", self.deck, *self.words, "-o", self.path("record"))
        self.assertEqual(said, "fdps: particles: DuplicateId line 4\n")
        record = json.loads(self.read("record"))
        self.assertEqual((record["status"], record["output"]), (3, None))

    def checked(self, status: int) -> str:
        """Checks the record; what is said. The costs of both runs stand on standard error."""
        words = [str(TOOLS / "record"), "--check", self.path("dump.record.json"), *self.words]
        done = subprocess.run(words, stdout=subprocess.PIPE, stderr=subprocess.PIPE, text=True, check=False)
        self.assertEqual(done.returncode, status, done.stdout + done.stderr)
        return done.stdout

    def test_what_has_changed(self) -> None:
        self.record()
        before = self.sum_of("dump")
        self.assertEqual(self.checked(0), "")
        self.write("particles", self.read("particles").replace("2 3 4 0", "2 3 4 1"))
        self.assertEqual([line.split(":")[0] for line in self.checked(1).splitlines()], ["particles", "output"])
        self.assertEqual(self.sum_of("dump"), before)

    def test_no_record(self) -> None:
        self.assertIn("no record", self.trouble("record", "--check", self.deck, *self.words))
