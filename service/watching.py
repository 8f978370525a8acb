"""Clients that wait for the next publish."""

import asyncio
from itertools import islice

from errors import Fault
from long_answers import STOPPING

#: A client that waits has an answer after so many seconds, also if nothing is published.
MOST_SECONDS = 5.0
#: So many are answered in a round of the loop: each takes some 60 microseconds.
_AT_ONCE = 32


class Watching:
    """Those that wait. All calls are made in the event loop's thread."""

    def __init__(self) -> None:
        self._loop = asyncio.get_running_loop()
        #: Each with the length that its client has seen.
        self._waiting: dict[asyncio.Future[None], int] = {}
        #: Those that have their answer next.
        self._due: dict[asyncio.Future[None], None] = {}
        self._is_stopping = False

    async def wait(self, seen: int, length: int) -> None:
        """Returns once more is published than was seen, or after some time; so much is published now."""
        if self._is_stopping:
            raise Fault(STOPPING)
        if length > seen:
            return
        shown = self._loop.create_future()
        self._waiting[shown] = seen
        try:
            await asyncio.wait([shown], timeout=MOST_SECONDS)
        finally:
            del self._waiting[shown]
        if self._is_stopping:
            raise Fault(STOPPING)

    def show(self, length: int) -> None:
        """So much is published."""
        is_waking = bool(self._due)
        self._due.update(dict.fromkeys(shown for shown, seen in self._waiting.items() if length > seen))
        if self._due and not is_waking:
            self._wake()

    def _wake(self) -> None:
        """Has some answered, and the others in later rounds of the loop."""
        for shown in list(islice(self._due, _AT_ONCE)):
            del self._due[shown]
            if not shown.done():
                shown.set_result(None)
        if self._due:
            self._loop.call_soon(self._wake)

    def stop(self) -> None:
        """Nobody waits any more."""
        self._is_stopping = True
        for shown in self._waiting:
            if not shown.done():
                shown.set_result(None)
