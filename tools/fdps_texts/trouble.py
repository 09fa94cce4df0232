"""How a tool ends: 0 as asked, 1 for a difference that it was asked for, 2 for trouble, told in one line."""

from __future__ import annotations

import signal
import sys
from pathlib import Path
from typing import Callable


class Trouble(Exception):
    """What keeps a tool from doing what it was asked; its text is the line that says so."""


def run_tool(main: Callable[[], int]) -> None:
    """Ends the process with the status that `main` answers, or with 2 where it meets trouble."""
    signal.signal(signal.SIGPIPE, signal.SIG_DFL)  # a closed pipe ends a tool quietly, as it does `cat`
    try:
        status = main()
        sys.stdout.flush()
    except Trouble as trouble:
        status = fail(str(trouble))
    except OSError as fault:
        status = fail(f"{fault.filename}: {fault.strerror}" if fault.filename else str(fault.strerror))
    except MemoryError:
        status = fail("out of memory")
    except KeyboardInterrupt:
        status = 130
    sys.exit(status)


def fail(line: str) -> int:
    """Says the line on standard error, under the tool's name."""
    print(f"{Path(sys.argv[0]).name}: {line}", file=sys.stderr)
    return 2
