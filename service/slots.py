"""How many clients are connected: in all, at each place to listen, and of each client.

Connections that ask nothing keep nobody out: a newcomer gets the slot of one of these, of the client that has most. The
last slots, in all and at each place, are for who may follow or edit."""

import sys
from collections import Counter
from typing import Protocol

from config import Limits

#: Of so many slots one is for who may follow or edit.
_RESERVE = 8
_RESERVED_FOR = ("follow", "edit")
#: What connections count for, the most of these, and why a newcomer beyond them has no slot.
_Bound = tuple[str, int, str]


class Slotted(Protocol):
    """A connection whose client is known."""

    @property
    def who(self) -> str:
        """Whose it is."""

    @property
    def role(self) -> str:
        """What that may do."""

    @property
    def place(self) -> str:
        """The name of where it is connected."""

    @property
    def idle_since(self) -> float | None:
        """Since when it asks nothing; None while it does."""

    def reject(self, reason: str) -> None:
        """Ends it at once."""


class Slots:
    """The connections that have a slot. All calls are made in the event loop's thread."""

    def __init__(self, limits: Limits) -> None:
        self._limits = limits
        #: Each with what it counts for.
        self._connections: dict[Slotted, tuple[str, ...]] = {}
        self._counts: Counter[str] = Counter()

    def __len__(self) -> int:
        return len(self._connections)

    def take(self, newcomer: Slotted) -> str:
        """Gives the connection a slot, and returns an empty text; otherwise the reason why it has none."""
        # (to compare the names of groups, and to keep them, takes little where each is one text)
        bounds = [(sys.intern(group), most, reason) for group, most, reason in self._bounds(newcomer)]
        for group, most, reason in bounds:
            if self._counts[group] >= most:
                rivals = [one for one, groups in self._connections.items() if group in groups]
                if not _make_room(newcomer, rivals):
                    return reason
        self._connections[newcomer] = tuple(group for group, _, _ in bounds)
        self._counts.update(self._connections[newcomer])
        return ""

    def _bounds(self, newcomer: Slotted) -> list[_Bound]:
        """Those of its client, its listener and all. Those without a reserve come first: who has no reserve displaces
        nobody for nothing who has one."""
        limits = self._limits
        shared = [
            (f"listener {newcomer.place}", limits.connections_of_listener, "too many of the listener"),
            ("all", limits.connections, "too many connections"),
        ]
        unreserved = [(f"{group} without a reserve", most - most // _RESERVE, reason) for group, most, reason in shared]
        of_client = (f"client {newcomer.who}", limits.connections_of_client, "too many of the client")
        return [of_client, *(() if newcomer.role in _RESERVED_FOR else unreserved), *shared]

    def give(self, connection: Slotted) -> None:
        """Its slot is free."""
        for group in self._connections.pop(connection, ()):
            self._counts[group] -= 1
            if not self._counts[group]:
                del self._counts[group]


def _make_room(newcomer: Slotted, rivals: list[Slotted]) -> bool:
    """Ends a rival that asks nothing, of the newcomer's client or of one that has more than that will have: of the
    client that has most, the one that has asked nothing for longest. False: all of these are asking."""
    counts = Counter([newcomer.who, *(one.who for one in rivals)])
    own = counts[newcomer.who]
    idle = [
        (-counts[one.who], since, at) for at, one in enumerate(rivals)
        if (one.who == newcomer.who or counts[one.who] > own) and (since := one.idle_since) is not None
    ]
    if not idle:
        return False
    rivals[min(idle)[-1]].reject("displaced")
    return True
