"""Shows a text that was refused: its name, line and column, and that line with a caret under the place."""

from __future__ import annotations

import re
from itertools import islice
from typing import List, Optional

from launcher.deck import Deck, Field, content, fields

# The most characters of a line that are shown, and how many of them stand before the place.
WIDTH, BEFORE = 120, 80
# A particle file of version 2: the bytes before its records, those of a record, and where in it each field begins.
HEAD, RECORD = 16, 108
STARTS = (0, 4, 8, 12, 16, 24, 32, 40, *range(44, RECORD, 8))

# A said line: the text, its fault, and the numbers of the place, or the key of a deck that is missing.
SAID = re.compile(
    r"fdps: (?P<text>deck|kernel|types|particles): (?P<fault>[A-Z]\w+)(?P<key> [a-z]+)?"
    r"( at (?P<at>\d+))?( line (?P<line>\d+))?( column (?P<column>\d+))?"
    r"( record (?P<twin>\d+))?( (?P<record>\d+) field (?P<field>\d+))?\n"
)


def shown(said: str, deck: Deck) -> Optional[str]:
    """What to show of the refusal that the said line names: the file's name alone where it has no place in the text."""
    found = SAID.fullmatch(said)
    if not found:
        return None
    text, fault = found["text"], found["fault"] + (found["key"] or "")
    name = deck.name if text == "deck" else deck.file(b"particles" if text == "particles" else b"kernel")
    if name is None:
        return None
    number = {key: int(value) for key, value in found.groupdict().items() if value and value.isdigit()}
    if "at" in number:
        return _at_byte(name, fault, number["at"])
    if "line" in number:
        return _at_line(name, fault, number["line"], number.get("column"))
    if "record" in number:
        byte = HEAD + RECORD * (number["record"] - 1) + STARTS[number["field"] - 1]
        return f"{name}: {fault} {number['record']} field {number['field']}, at byte {byte}\n"
    if "twin" in number:
        return f"{name}: {fault} record {number['twin']}, at byte {HEAD + RECORD * (number['twin'] - 1)}\n"
    return f"{name}: {fault}\n"


def _at_byte(name: str, fault: str, byte: int) -> str:
    """A place of a kernel, which is a byte from 0; the end of the text is one too."""
    with open(name, "rb") as file:
        before = file.read(byte)
        rest = file.readline()
    line_start = before.rfind(b"\n") + 1
    line = content(before[line_start:] + rest)
    return _with_caret(name, fault, before.count(b"\n") + 1, line, len(before) - line_start)


def _at_line(name: str, fault: str, number: int, column: Optional[int]) -> str:
    """A line of a deck or of a particle file, by its number from 1. A text may end before the line."""
    with open(name, "rb") as file:
        line = next(islice(file, number - 1, number), None)
    if line is None:
        return f"{name}:{number}: {fault}, where the text ends\n"
    return _with_caret(name, fault, number, content(line), _start(fault, fields(line), column, content(line)))


def _start(fault: str, found: List[Field], column: Optional[int], line: bytes) -> int:
    """Where in its line a fault is: at a field, or at the end where that is missing."""
    if fault == "Value":
        # The value that isn't of the form, or the first field that is one too many.
        column = min(max(len(found), 2), 3)
    column = column or 1
    return found[column - 1].start if column <= len(found) else len(line)


def _with_caret(name: str, fault: str, number: int, line: bytes, place: int) -> str:
    before, after = _readable(line[:place]), _readable(line[place:])
    head = f"{name}:{number}:{len(before) + 1}: {fault}\n"
    if len(before) > BEFORE:
        before = "..." + before[len(before) - BEFORE + 3 :]
    if len(before) + len(after) > WIDTH:
        after = after[: WIDTH - len(before) - 3] + "..."
    below = "".join("\t" if it == "\t" else " " for it in before)
    return f"{head}{before}{after}\n{below}^\n"


def _readable(text: bytes) -> str:
    """The text as a terminal may show it, one character for each of its own."""
    found = text.decode("utf-8", errors="replace")
    return "".join(it if it.isprintable() or it == "\t" else "\N{REPLACEMENT CHARACTER}" for it in found)
