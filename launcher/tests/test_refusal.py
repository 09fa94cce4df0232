"""What is shown of refused texts. Places are counted by hand."""

from __future__ import annotations

import os
import tempfile
import unittest
from typing import Optional

from launcher.deck import Deck
from launcher.refusal import shown

DECK = b"kernel k\nparticles p\nout o\n"


class Refusal(unittest.TestCase):
    def setUp(self) -> None:
        room = tempfile.TemporaryDirectory()
        self.addCleanup(room.cleanup)
        self.addCleanup(os.chdir, os.getcwd())
        os.chdir(room.name)

    def said(self, line: str, deck: bytes = DECK, kernel: bytes = b"", particles: bytes = b"") -> Optional[str]:
        for name, text in (("d", deck), ("k", kernel), ("p", particles)):
            with open(name, "wb") as file:
                file.write(text)
        return shown(f"fdps: {line}\n", Deck.parse("d", deck))

    def test_a_place_of_a_kernel_is_a_byte(self) -> None:
        self.assertEqual(self.said("kernel: Unexpected at 4", kernel=b"a = = 1;\n"), "k:1:5: Unexpected\na = = 1;\n    ^\n")
        self.assertEqual(self.said("types: Scale at 7", kernel=b"a = 1;\nb = 2;\n"), "k:2:1: Scale\nb = 2;\n^\n")

    def test_a_place_may_be_the_end_of_the_kernel(self) -> None:
        self.assertEqual(self.said("kernel: Unexpected at 3", kernel=b"a ="), "k:1:4: Unexpected\na =\n   ^\n")
        self.assertEqual(self.said("kernel: Unexpected at 3", kernel=b"a =\n"), "k:1:4: Unexpected\na =\n   ^\n")
        self.assertEqual(self.said("types: NoAcc at 0", kernel=b""), "k:1:1: NoAcc\n\n^\n")

    def test_the_caret_stands_below_its_character(self) -> None:
        kernel = "\t# é\n\tb = é;".encode()
        # `é` is two bytes: the second line begins at 6, and its own `é` stands at 11.
        self.assertEqual(self.said("kernel: BadByte at 11", kernel=kernel), "k:2:6: BadByte\n\tb = é;\n\t    ^\n")

    def test_bytes_that_steer_a_terminal_are_not_shown(self) -> None:
        wanted = "k:1:3: BadByte\na \ufffd[2J\n  ^\n"
        self.assertEqual(self.said("kernel: BadByte at 2", kernel=b"a \x1b[2J\r\n"), wanted)

    def test_a_long_line_is_cut_about_the_place(self) -> None:
        found = self.said("kernel: BadByte at 500", kernel=b"a" * 500 + b"?" + b"b" * 500)
        wanted = "..." + "a" * 77 + "?" + "b" * 36 + "..."
        self.assertEqual(found, f"k:1:501: BadByte\n{wanted}\n{' ' * 80}^\n")

    def test_lines_of_a_deck(self) -> None:
        deck = b"# a deck\r\n kernel  k\r\nkernel p\r\nsteps 1 2\nsteps\ngroup x\n"
        rows = {
            "UnknownKey line 2": "d:2:2: UnknownKey\n kernel  k\n ^\n",
            "Twice line 3": "d:3:1: Twice\nkernel p\n^\n",
            "Value line 4": "d:4:9: Value\nsteps 1 2\n        ^\n",
            "Value line 5": "d:5:6: Value\nsteps\n     ^\n",
            "Value line 6": "d:6:7: Value\ngroup x\n      ^\n",
        }
        for line, wanted in rows.items():
            self.assertEqual(self.said(f"deck: {line}", deck=deck), wanted)

    def test_lines_and_columns_of_a_particle_file(self) -> None:
        particles = b"particles 1\ncount 3\n1 0 0\n\t2  -7 0 0 0 0 0 1 0 0 0 0 0\n"
        rows = {
            "Field line 3 column 4": "p:3:6: Field\n1 0 0\n     ^\n",
            "Range line 4 column 2": "p:4:5: Range\n\t2  -7 0 0 0 0 0 1 0 0 0 0 0\n\t   ^\n",
            "Field line 4 column 13": "p:4:28: Field\n\t2  -7 0 0 0 0 0 1 0 0 0 0 0\n\t" + 26 * " " + "^\n",
            "DuplicateId line 4": "p:4:2: DuplicateId\n\t2  -7 0 0 0 0 0 1 0 0 0 0 0\n\t^\n",
            "Short line 5": "p:5: Short, where the text ends\n",
        }
        for line, wanted in rows.items():
            self.assertEqual(self.said(f"particles: {line}", particles=particles), wanted)

    def test_the_name_alone_where_there_is_no_place(self) -> None:
        rows = {
            "deck: Missing out": "d: Missing out\n",
            "deck: Reuse": "d: Reuse\n",
            "kernel: TooLarge": "k: TooLarge\n",
            "particles: Header": "p: Header\n",
        }
        for line, wanted in rows.items():
            self.assertEqual(self.said(line), wanted)

    def test_records_of_version_2_are_shown_by_byte(self) -> None:
        # The second record begins at 16 + 108, and its field 9, the first attribute, 44 bytes later.
        self.assertEqual(self.said("particles: Record 2 field 9"), "p: Record 2 field 9, at byte 168\n")
        self.assertEqual(self.said("particles: SameId record 2"), "p: SameId record 2, at byte 124\n")

    def test_other_lines_show_nothing(self) -> None:
        for line in ("out of memory", "step 0: Lists 16785409", "usage: fdps run DECK", "deck: Value line 2\nmore"):
            self.assertIsNone(self.said(line))
