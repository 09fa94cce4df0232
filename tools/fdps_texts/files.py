"""Files that tools read and write: `-` is standard input or output."""

from __future__ import annotations

import os
import sys
import tempfile
from contextlib import contextmanager
from pathlib import Path
from typing import BinaryIO, Iterator, Optional


@contextmanager
def reading(name: str) -> Iterator[BinaryIO]:
    """The named file's bytes as they stream."""
    if name == "-":
        yield sys.stdin.buffer
    else:
        with open(name, "rb") as stream:
            yield stream


@contextmanager
def writing(name: Optional[str]) -> Iterator[BinaryIO]:
    """A stream into the named file, which is there only once all is written; a pipe or a device is written as it is."""
    if name is None or name == "-":
        yield sys.stdout.buffer
        return
    path = Path(name)
    if path.exists() and not path.is_file():
        with open(path, "wb") as stream:
            yield stream
        return
    path = path.resolve()  # a link stays, and what it leads to is replaced
    handle, scratch = tempfile.mkstemp(dir=path.parent, prefix=f".{path.name}.")
    try:
        with open(handle, "wb") as stream:
            yield stream
        os.chmod(scratch, 0o666 & ~current_umask())
        os.replace(scratch, path)
    except BaseException:
        os.unlink(scratch)
        raise


def current_umask() -> int:
    """The mask of new files' permissions, which can only be read by setting it."""
    mask = os.umask(0)
    os.umask(mask)
    return mask
