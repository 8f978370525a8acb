"""The accounts that say which groups a user has, where the configuration names a file of them. A client then names the
user alone.

The groups are the library's answer, and so is who a name means. All tokens that are made of one `Accounts` are of one
file, as it was at one moment."""

import asyncio
import contextlib
import threading
from collections.abc import Callable, Sequence
from pathlib import Path
from typing import Protocol

import hudarin
from hudarin import Refused, Sid

import clock
from errors import Failed, Fault, Invalid
from logs import Log
from spelling import name_of


class Known(Protocol):
    """What the library knows of a file."""

    def sids(self, user: str) -> Sequence[Sid]:
        """The SID of the user, and after it those of its groups. Refused: it is no user, may be two, or is disabled."""


class Accounts:
    """The accounts of a file, when it was read, and who is no user by it though the library has a user of this SID."""

    def __init__(self, known: Known, since: float, unnamed: frozenset[Sid] = frozenset()) -> None:
        self._known, self._since, self._unnamed = known, since, unnamed

    @property
    def age(self) -> float:
        """How many seconds ago they were read."""
        return clock.now() - self._since

    def sids(self, word: str) -> Sequence[Sid]:
        """The user that a word of a line spells, and after it its groups. Fault: it is no user that may log on."""
        try:
            sids = self._known.sids(name_of(word))
        except Refused as refused:
            raise Fault.of(f"user {refused.fault} {refused.name}" if refused.name else "user") from None
        if sids[0] in self._unnamed:
            raise Fault.of("user 3 NoUser")
        return sids


def read_accounts(file: Path) -> Accounts:
    """The accounts of a file. Failed: it isn't readable. Invalid: a line has a fault, or says that some are missing."""
    since = clock.now()
    try:
        # (a text file's ends of lines would become others, as that of a name)
        data = file.read_bytes()
    except OSError as error:
        raise Failed(f"{file}: {error.strerror}") from error
    try:
        text = data.decode()
        return Accounts(hudarin.Accounts(text), since, _unnamed(text))
    except UnicodeDecodeError as error:
        line = data.count(b"\n", 0, error.start) + 1
        raise Invalid(f"{file}: line {line}: it isn't UTF-8") from error
    except Refused as refused:
        raise Invalid(f"{file}: line {refused.place}: {refused.fault} {refused.name}") from refused


def _unnamed(text: str) -> frozenset[Sid]:
    """The users that Windows has everywhere, as SYSTEM, which is an administrator: those without a line `user`."""
    # (the users of a domain are none of these)
    lines = (line for line in text.split("\n") if line.startswith("user ") and not line.startswith("user S-1-5-21-"))
    with hudarin.Accounts("") as everywhere:
        return frozenset(sid for sid, _ in everywhere.users()) - {Sid.from_text(line.split(" ")[1]) for line in lines}


class FileReader:
    """Reads a file again while questions are answered by the accounts before. All calls are made in the event loop's
    thread."""

    def __init__(self, take: Callable[[Accounts], None], log: Log) -> None:
        self._loop = asyncio.get_running_loop()
        self._take, self._log = take, log
        #: The file to read next, and whether a thread reads one.
        self._next: Path | None = None
        self._is_reading = False

    def read(self, file: Path) -> None:
        """Has `take` get the accounts of the file as it is now, or later. If there are none the log says why, and those
        before stay."""
        self._next = file
        self._go_on()

    def _go_on(self) -> None:
        if self._next is not None and not self._is_reading:
            threading.Thread(target=self._run, args=(self._next,), name="accounts", daemon=True).start()
            self._next, self._is_reading = None, True

    def _run(self, file: Path) -> None:
        """In a thread: large files take seconds."""
        found: Accounts | Exception
        try:
            found = read_accounts(file)
        except Exception as error:
            found = error
        with contextlib.suppress(RuntimeError):
            self._loop.call_soon_threadsafe(self._end, file, found)

    def _end(self, file: Path, found: Accounts | Exception) -> None:
        self._is_reading = False
        if isinstance(found, Accounts):
            self._take(found)
            self._log.event("accounts", file=str(file))
        else:
            why = "out of memory" if isinstance(found, MemoryError) else found
            self._log.event("warning", text=f"the accounts aren't taken: {why}")
        self._go_on()
