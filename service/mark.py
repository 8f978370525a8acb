"""The mark: how far a journal goes, in a file of its own, written in place after each commit.

It isn't synced at each commit: after a loss of power it may name an earlier line, never a later one."""

import os
from pathlib import Path

from entry import Place
from errors import Failed, Mismatch
from folders import sync_folder

_BYTES = 128


class Mark:
    """The mark in an open file."""

    def __init__(self, file: Path, only_reads: bool = False) -> None:
        """Mismatch: there is none."""
        self._name = file
        try:
            access = os.O_RDONLY if only_reads else os.O_RDWR
            self._file = os.open(file, access | os.O_CLOEXEC | os.O_NOFOLLOW)
        except FileNotFoundError:
            raise Mismatch(f"{file}: the mark of the journal is missing: was it copied without it?") from None
        except OSError as error:
            raise Failed(f"{file}: {error.strerror}") from error

    def close(self) -> None:
        os.close(self._file)

    def move(self, store: str, place: Place) -> None:
        os.pwrite(self._file, _text(store, place), 0)

    def read(self) -> tuple[str, Place]:
        """The store, and the place. Mismatch: it is no mark."""
        try:
            store, _, place = os.pread(self._file, _BYTES, 0).decode().partition(" ")
            return store, Place.of(place)
        except ValueError:
            raise Mismatch(f"{self._name}: it isn't a mark") from None


def create_mark(file: Path, store: str, place: Place) -> None:
    """Makes the file of a new store, on disk at the return."""
    made = os.open(file, os.O_WRONLY | os.O_CREAT | os.O_EXCL | os.O_CLOEXEC, 0o600)
    try:
        os.write(made, _text(store, place))
        os.fsync(made)
    finally:
        os.close(made)
    sync_folder(file.parent)


def _text(store: str, place: Place) -> bytes:
    return f"{store} {place}".encode().ljust(_BYTES - 1) + b"\n"
