"""The time of the event loop that a client has, however many connections it has."""

import asyncio
import time
from typing import Protocol

#: A client has so much in a round of the loop, and the answer that it is in then.
_SECONDS = 0.004


class Worker(Protocol):
    """A connection."""

    def proceed(self) -> None:
        """Answers what can be answered, between `begin` and `end` of its client's turn."""


class Turn:
    """The turns of one client. Only the time counts in which its connections are at work: what is left of a turn is
    there for later rounds, and one that is used up is followed by the next one in another round."""

    def __init__(self) -> None:
        self._loop = asyncio.get_running_loop()
        #: When it is over, if a connection is at work, or 0; and what is left of it while none is.
        self._ends, self._left = 0.0, _SECONDS
        #: The connections that proceed in the next turn, in their order, and whether it will begin by itself.
        self._later: dict[Worker, None] = {}
        self._is_due = False

    def begin(self) -> None:
        """A connection is at work from here on, up to `end`."""
        self._ends = time.perf_counter() + self._left

    def end(self) -> None:
        """It waits for others."""
        self._left, self._ends = self._ends - time.perf_counter(), 0.0
        if self._left <= 0:
            self._have_next()

    def is_over(self) -> bool:
        """Whether others have the loop now; so it is too if no connection is at work."""
        return time.perf_counter() >= self._ends

    def again(self, worker: Worker) -> None:
        """The connection proceeds in the next round of the loop, or later, after those that have asked for it."""
        self._later.setdefault(worker)
        self._have_next()

    def _have_next(self) -> None:
        """The next turn begins in another round of the loop."""
        if not self._is_due:
            self._is_due = True
            self._loop.call_soon(self._let_others)

    def _let_others(self) -> None:
        """Those that ask in this round, which it reads after this call, come before connections that wait."""
        if self._later:
            self._loop.call_soon(self._next)
        else:
            self._next()

    def _next(self) -> None:
        """A turn begins. Those that don't get to it are the first of the one after it."""
        self._is_due, self._left = False, _SECONDS
        waiting, self._later = self._later, {}
        try:
            while waiting and self._left > 0:
                worker = next(iter(waiting))
                del waiting[worker]
                worker.proceed()
        finally:
            if waiting:
                self._later = waiting | self._later
                self._have_next()
