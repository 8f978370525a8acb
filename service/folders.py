"""The folder of a store: its files, and the lock by which one process alone serves or changes it."""

import contextlib
import fcntl
import os
import shutil
import tempfile
from collections.abc import Callable, Iterator
from contextlib import contextmanager
from pathlib import Path

from errors import Failed, Invalid

_LOCK = "lock"
#: What isn't ready yet is in a folder of such a name, beside the place that it gets.
_UNFINISHED = ".sdstored-unfinished-"


def sync_folder(folder: Path) -> None:
    """Makes a new name in the folder survive a loss of power."""
    opened = os.open(folder, os.O_RDONLY | os.O_DIRECTORY)
    try:
        os.fsync(opened)
    finally:
        os.close(opened)


@contextmanager
def locked(folder: Path) -> Iterator[None]:
    """Nobody else serves or changes the store meanwhile. Failed: somebody does."""
    try:
        lock = os.open(folder / _LOCK, os.O_RDWR | os.O_CREAT | os.O_CLOEXEC | os.O_NOFOLLOW, 0o600)
    except OSError as error:
        raise Failed(f"{folder / _LOCK}: {error.strerror}") from error
    try:
        fcntl.flock(lock, fcntl.LOCK_EX | fcntl.LOCK_NB)
        yield
    except BlockingIOError:
        raise Failed(f"{folder}: another process serves this store") from None
    finally:
        os.close(lock)


@contextmanager
def unfinished(parent: Path) -> Iterator[Path]:
    """A new folder for what isn't ready yet, which is gone afterwards. What processes that were killed have left there
    is gone too."""
    _remove_left(parent)
    made, opened = _made(parent)
    try:
        yield made
    finally:
        shutil.rmtree(made, ignore_errors=True)
        os.close(opened)


def _made(parent: Path) -> tuple[Path, int]:
    """A new folder, and the open file that keeps others from taking it for one that is left."""
    while True:
        made = Path(tempfile.mkdtemp(dir=parent, prefix=_UNFINISHED))
        with contextlib.suppress(FileNotFoundError):
            opened = os.open(made, os.O_RDONLY | os.O_DIRECTORY | os.O_CLOEXEC)
            with contextlib.suppress(OSError):
                fcntl.flock(opened, fcntl.LOCK_EX)
            if made.exists():
                return made, opened
            os.close(opened)


def _remove_left(parent: Path) -> None:
    """Removes the folders of processes that are gone."""
    for left in parent.glob(f"{_UNFINISHED}*"):
        with contextlib.suppress(OSError):
            opened = os.open(left, os.O_RDONLY | os.O_DIRECTORY | os.O_NOFOLLOW | os.O_CLOEXEC)
            try:
                fcntl.flock(opened, fcntl.LOCK_EX | fcntl.LOCK_NB)
                if os.fstat(opened).st_uid == os.geteuid():
                    shutil.rmtree(left, ignore_errors=True)
            finally:
                os.close(opened)


def make_folder(folder: Path, fill: Callable[[Path], None]) -> None:
    """Makes a new folder with what `fill` puts there: all of it, or no folder. Invalid: there is one with files."""
    if os.path.lexists(folder) and (not folder.is_dir() or any(folder.iterdir())):
        raise Invalid(f"{folder}: it isn't an empty folder")
    parent = Path(os.path.abspath(folder)).parent
    try:
        with unfinished(parent) as room:
            made = room / "store"
            made.mkdir(0o700)
            fill(made)
            sync_folder(made)
            os.rename(made, folder)
            sync_folder(parent)
    except OSError as error:
        raise Failed(f"{folder}: {error.strerror}: it isn't made") from error
