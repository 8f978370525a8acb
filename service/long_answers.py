"""Answers that take long, each made by a thread of its own beside the loop.

There are three kinds, so many of each at a time: what checkers ask, what administrators ask, and what replicas ask of
the journal; so none of these waits for another one. But all threads share the processors, and Python's lock: while
there are answers of the other two kinds those of checkers take a part of the time. Within a kind clients take turns; a
client has one at a time."""

import asyncio
import contextlib
import threading
from collections import Counter, deque
from collections.abc import Awaitable, Callable, Iterator
from typing import Any

from answers import Result
from deadline import LATE, Deadline
from errors import Fault

BUSY, STOPPING = Result("unavailable", "busy"), Result("unavailable", "stopping")
KINDS = ("check", "edit", "follow")
#: The others go first.
_LAST = "check"
#: The questions of one client that wait or are answered, of each kind.
OF_CLIENT = 4
#: Threads that are at work have so many seconds to notice that the service stops.
_STOP_SECONDS = 1.0
#: What a thread does to make an answer.
Work = Callable[[], bytes]


class Turns:
    """Whose question is answered next, of one kind."""

    def __init__(self, at_once: int) -> None:
        self._at_once = at_once
        self._asked: Counter[str] = Counter()
        self._busy: set[str] = set()
        #: Of each client its questions that wait; the client who has the next turn is the first one.
        self._waiting: dict[str, deque[asyncio.Future[None]]] = {}

    async def take(self, who: str) -> None:
        """Waits for a turn of the client, who gives it back. Fault: too many of its questions wait."""
        if self._asked[who] >= OF_CLIENT:
            raise Fault(BUSY)
        turn = asyncio.get_running_loop().create_future()
        self._asked[who] += 1
        self._waiting.setdefault(who, deque()).append(turn)
        self._next()
        try:
            await turn
        except asyncio.CancelledError:
            if not turn.cancelled():
                self.give(who)
            else:
                self._leave(who, turn)
            raise

    def give(self, who: str) -> None:
        """The turn of the client is over: its next one comes after those of the others."""
        self._busy.discard(who)
        self._forget(who)
        if who in self._waiting:
            self._waiting[who] = self._waiting.pop(who)
        self._next()

    def _leave(self, who: str, turn: "asyncio.Future[None]") -> None:
        """A question doesn't wait any more."""
        waiting = self._waiting.get(who, deque())
        if turn in waiting:
            waiting.remove(turn)
            if not waiting:
                del self._waiting[who]
        self._forget(who)

    def _forget(self, who: str) -> None:
        self._asked[who] -= 1
        if not self._asked[who]:
            del self._asked[who]

    def _next(self) -> None:
        """Gives the turns that are free, client by client."""
        for who in [who for who in self._waiting if who not in self._busy]:
            waiting = self._waiting[who]
            while waiting and len(self._busy) < self._at_once and who not in self._busy:
                turn = waiting.popleft()
                if not turn.cancelled():
                    turn.set_result(None)
                    self._busy.add(who)
            if not waiting:
                del self._waiting[who]


class LongAnswers:
    """All calls are made in the loop's thread."""

    def __init__(self, at_once: int, seconds: float) -> None:
        self._loop = asyncio.get_running_loop()
        self._seconds = seconds
        self._turns = {kind: Turns(at_once) for kind in KINDS}
        self._stopped: asyncio.Future[None] = self._loop.create_future()
        self._deadlines: set[Deadline] = set()
        self._threads = 0
        #: The questions that go before those of checkers, and whether there are none.
        self._first, self._none_first = 0, threading.Event()
        self._none_first.set()

    async def made(
        self, kind: str, who: str, prepare: Callable[[Deadline], Awaitable[Work]], hold: Callable[[int], None]
    ) -> bytes:
        """The answer to a question of this kind and client: `prepare` is called in its turn, and returns the work of a
        thread; `hold` is called with the bytes of the answer so far. Fault: there is none, or not in time."""
        if self._stopped.done():
            raise Fault(STOPPING)
        others = self._none_first if kind == _LAST else None
        deadline = Deadline(self._seconds, lambda count: self._later(hold, count), others)
        self._deadlines.add(deadline)
        task = self._loop.create_task(self._in_turn(self._turns[kind], who, prepare, deadline))
        # (if nobody waits for it any more nobody hears how it ends)
        task.add_done_callback(lambda done: done.cancelled() or done.exception())
        ends: set[asyncio.Future[Any]] = {task, self._stopped}
        try:
            with self._going_first(kind):
                await asyncio.wait(ends, timeout=self._seconds, return_when=asyncio.FIRST_COMPLETED)
            if task.done():
                return task.result()
            raise Fault(STOPPING if self._stopped.done() else LATE)
        finally:
            task.cancel()
            deadline.end(LATE)
            self._deadlines.discard(deadline)

    @contextlib.contextmanager
    def _going_first(self, kind: str) -> Iterator[None]:
        """Meanwhile a question of this kind goes before those of checkers, unless it is one of them."""
        if kind == _LAST:
            yield
            return
        self._first += 1
        self._none_first.clear()
        try:
            yield
        finally:
            self._first -= 1
            if not self._first:
                self._none_first.set()

    async def _in_turn(
        self, turns: Turns, who: str, prepare: Callable[[Deadline], Awaitable[Work]], deadline: Deadline
    ) -> bytes:
        await turns.take(who)
        try:
            work = await prepare(deadline)
        except BaseException:
            turns.give(who)
            raise
        return await self._in_thread(work, lambda: turns.give(who))

    def _in_thread(self, work: Work, ended: Callable[[], None]) -> "asyncio.Future[bytes]":
        """What the work returns or raises. `ended` is called at its end, also if nobody waits for that any more."""
        found: asyncio.Future[bytes] = self._loop.create_future()

        def end(answer: bytes, error: BaseException | None) -> None:
            self._threads -= 1
            ended()
            if not found.done():
                if error is None:
                    found.set_result(answer)
                else:
                    found.set_exception(error)

        def run() -> None:
            try:
                self._later(end, work(), None)
            except BaseException as error:
                self._later(end, b"", error)

        self._threads += 1
        threading.Thread(target=run, name="answer", daemon=True).start()
        return found

    def _later(self, call: Callable[..., None], *arguments: object) -> None:
        """Has the loop call it, unless that has ended."""
        with contextlib.suppress(RuntimeError):
            self._loop.call_soon_threadsafe(call, *arguments)

    async def stop(self) -> None:
        """Ends all answers, each with `unavailable stopping`. A thread that can't end soon isn't waited for."""
        self._stopped.set_result(None)
        for deadline in self._deadlines:
            deadline.end(STOPPING)
        self._none_first.set()
        end = self._loop.time() + _STOP_SECONDS
        while self._threads and self._loop.time() < end:
            await asyncio.sleep(0.01)
