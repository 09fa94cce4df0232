"""What the machine has for proofs: processors and memory, under the limits of its control group."""

from __future__ import annotations

import os
import re
from typing import Optional

GROUP = "/sys/fs/cgroup"


def _number(file: str, pattern: str) -> Optional[int]:
    """The number that the pattern finds in the file; none where there is no such file or number."""
    try:
        with open(file, encoding="utf-8") as text:
            found = re.search(pattern, text.read())
    except OSError:
        return None
    return int(found[1]) if found else None


def processors() -> int:
    """The processors that this process may use, or fewer by a quota of time."""
    found = len(os.sched_getaffinity(0))
    quota = _number(f"{GROUP}/cpu.max", r"^(\d+)")
    period = _number(f"{GROUP}/cpu.max", r" (\d+)")
    return max(1, min(found, quota // period)) if quota and period else found


def free_memory() -> int:
    """The bytes of memory that are free, or fewer by a limit."""
    free = 1024 * (_number("/proc/meminfo", r"MemAvailable:\s+(\d+)") or 0)
    limit = _number(f"{GROUP}/memory.max", r"^(\d+)")
    held = _number(f"{GROUP}/memory.stat", r"(?m)^anon (\d+)")
    return min(free, limit - held) if limit is not None and held is not None else free
