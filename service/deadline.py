"""How long an answer that takes long is worked at: up to a time, while somebody waits for it, and in a part of the time
while others go first."""

import itertools
import time
from collections.abc import Callable, Iterable, Iterator
from typing import Protocol, TypeVar

from answers import Result
from errors import Fault

#: The answer to a question that has taken all of its time.
LATE = Result("unavailable", "late")
#: While others go first a thread that has worked for so long waits for so many times as long, up to so many seconds:
#: it may be that nobody waits for the answer any more.
_AT_ONCE, _TIMES, _MOST_SECONDS = 0.002, 15, 1.0
_T = TypeVar("_T")


class Others(Protocol):
    """Those that go first, as a `threading.Event` that is set while there are none."""

    def is_set(self) -> bool:
        """Whether there are none."""

    def wait(self, timeout: float) -> object:
        """Returns once there are none, or after so many seconds."""


class Deadline:
    """Of one question. Any thread may end it; the one that works at the answer asks whether it has ended."""

    def __init__(self, seconds: float, hold: Callable[[int], None], others: Others | None = None) -> None:
        """`hold` is called with the bytes that the answer has so far. `others` go first."""
        self._since = time.monotonic()
        self._end, self.hold = self._since + seconds, hold
        self._why: Result | None = None
        self._others = others

    @property
    def seconds(self) -> float:
        """What is left of the time."""
        return self._end - time.monotonic()

    def end(self, why: Result) -> None:
        """Nobody waits any more: the answer would be `why`."""
        self._why = why

    @property
    def gives_way(self) -> bool:
        """Whether others go first, if there are any."""
        return self._others is not None

    def require(self) -> None:
        """Lets others have most of the time who go first. Fault: it has ended."""
        now = time.monotonic()
        if self._others is not None:
            now = self._let(self._others, now)
        if self._why is not None:
            raise Fault(self._why)
        if now > self._end:
            raise Fault(LATE)

    def _let(self, others: Others, now: float) -> float:
        """Lets others go first, and returns when that was."""
        if others.is_set():
            self._since = now
        elif now - self._since >= _AT_ONCE:
            others.wait(min(_TIMES * (now - self._since), _MOST_SECONDS))
            self._since = now = time.monotonic()
        return now

    def paced(self, items: Iterable[_T], at_once: int) -> Iterator[_T]:
        """The items, one by one, until the end, which is asked for once before so many. Fault: it has ended."""
        return itertools.chain.from_iterable(self.parts(items, at_once))

    def parts(self, items: Iterable[_T], at_once: int) -> Iterator[list[_T]]:
        """The same, in lists of so many."""
        rest = iter(items)
        while part := list(itertools.islice(rest, at_once)):
            self.require()
            yield part
