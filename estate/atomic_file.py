"""Files that are written whole or not at all."""

import os
import stat
import tempfile
from collections.abc import Iterator
from contextlib import contextmanager
from typing import BinaryIO

from errors import Failed, Stopped


@contextmanager
def atomic_file(name: str) -> Iterator[BinaryIO]:
    """A file that replaces the one of this name at the end of the `with`, and is gone if that fails."""
    if os.path.lexists(name) and not stat.S_ISREG(os.lstat(name).st_mode):
        raise Failed(f"{name}: it is no regular file, and isn't replaced")
    folder = os.path.dirname(os.path.abspath(name))
    made = ""
    try:
        with tempfile.NamedTemporaryFile("wb", dir=folder, prefix=".estate-", delete=False) as file:
            made = file.name
            yield file  # type: ignore[misc] # (it is a BinaryIO but for its type)
            file.flush()
            os.fsync(file.fileno())
        os.replace(made, name)
        made = ""
        sync_folder(folder)
    except OSError as error:
        raise Failed(f"{name}: {error.strerror}: nothing is written") from error
    finally:
        if made:
            os.unlink(made)


def check_replaced(name: str, head: str, what: str) -> None:
    """Stops before another file than one with this head is replaced: the last argument may be a source by mistake."""
    if not os.path.isfile(name):
        return
    try:
        with open(name, "rb") as file:
            start = file.read(len(head))
    except OSError as error:
        raise Failed(f"{name}: {error.strerror}") from error
    if start and start != head.encode():
        raise Stopped(f"{name}: it is no {what}, and isn't replaced")


def sync_folder(folder: str) -> None:
    """Makes a new name in the folder survive a loss of power."""
    opened = os.open(folder, os.O_RDONLY | os.O_DIRECTORY)
    try:
        os.fsync(opened)
    finally:
        os.close(opened)
