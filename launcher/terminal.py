"""A line on the terminal that is kept current, and goes again."""

from __future__ import annotations

import os
import sys

ERASE_LINE = "\033[K"
ERASE_BELOW = "\033[J"
UP = "\033[A"


def is_there() -> bool:
    """Whether the standard error is a terminal that can take a line back."""
    return sys.stderr is not None and sys.stderr.isatty() and os.environ.get("TERM", "dumb") != "dumb"


def say(text: str) -> None:
    """Says a text on the standard error, where there is one; one that is closed or full is no fault of the command."""
    try:
        if sys.stderr is not None:
            sys.stderr.write(text)
            sys.stderr.flush()
    except OSError:
        pass


class StatusLine:
    """A line below the cursor. A line that something else writes meanwhile comes above it, so that each stays whole."""

    def __init__(self) -> None:
        self._shown = ""

    def show(self, text: str) -> None:
        text = text[: (os.get_terminal_size(2).columns or 80) - 1]
        if text != self._shown:
            say(f"\n\r{text}{ERASE_LINE}{UP}\r")
            self._shown = text

    def clear(self) -> None:
        if self._shown:
            say(f"\r{ERASE_BELOW}")
            self._shown = ""
