"""What connections hold in memory: requests that aren't whole yet, answers in the making, answers that aren't taken.
All together have one limit; beyond it the slowest connection ends, of the client that holds most."""

from collections import Counter
from typing import Protocol


class Holder(Protocol):
    """A connection of a client, which can be ended."""

    @property
    def who(self) -> str:
        """Whose it is."""

    @property
    def slow_since(self) -> float:
        """Since when it takes no answers, or owes the rest of a request; infinite while it does neither."""

    def reject(self, reason: str) -> None:
        """Ends it at once: it holds nothing any more."""


class Held:
    """The bytes that are held. All calls are made in the event loop's thread."""

    def __init__(self, most: int) -> None:
        self._most = most
        self._bytes: dict[Holder, int] = {}
        self.total = 0

    def set(self, holder: Holder, count: int) -> None:
        """The connection holds so many bytes from here on. It may end here, and so may others."""
        self.forget(holder)
        if count:
            self._bytes[holder] = count
            self.total += count
        while self.total > self._most:
            worst = self._worst()
            self.forget(worst)
            worst.reject("memory")

    def forget(self, holder: Holder) -> None:
        """The connection holds nothing any more."""
        self.total -= self._bytes.pop(holder, 0)

    def _worst(self) -> Holder:
        """Of the client that holds most the connection that is slow for longest; of several the one that holds most."""
        by_client: Counter[str] = Counter()
        for holder, count in self._bytes.items():
            by_client[holder.who] += count
        who = max(by_client, key=by_client.__getitem__)
        return min((each for each in self._bytes if each.who == who),
                   key=lambda each: (each.slow_since, -self._bytes[each]))
