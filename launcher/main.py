"""What the words of `fdps` ask for."""

from __future__ import annotations

from pathlib import Path
from typing import List, NoReturn

from launcher import program, prove, unproved
from launcher.process import Ended, Trouble, die_by, end_as, occupy_standard_descriptors, signals_end
from launcher.terminal import say

UNPROVED = "--unproved"
# The status where the program can't be run at all.
NOT_RUN = 1


def main(top: Path, words: List[str]) -> NoReturn:
    """Does what the words say, and ends as the program ends."""
    occupy_standard_descriptors()
    try:
        if words[:1] == [UNPROVED]:
            with signals_end():
                status = unproved.run(top, words[1:])
            end_as(status)
        with signals_end():
            built = prove.ensure_program(top)
        if words[:1] == ["run"]:
            end_as(program.run(built, words))
        program.hand_over(built, words)
    except Ended as ended:
        die_by(ended.number)
    except (Trouble, OSError) as error:
        say(f"fdps: {error}\n")
        end_as(NOT_RUN)
