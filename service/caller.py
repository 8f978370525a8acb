"""Who a client is, and what it may do."""

import math
from collections.abc import Sequence
from dataclasses import dataclass, field

from answers import NO_ROLE
from config import ROLES, Grant
from errors import Fault
from reach import is_within, paths_of

_RANKS = {role: rank for rank, role in enumerate(ROLES)}
#: The paths of what is asked of the whole store.
_WHOLE = ("/",)


@dataclass(frozen=True, slots=True)
class Caller:
    """Who a client is, by the system or its certificate, and what it may do."""

    who: str
    grants: tuple[Grant, ...]
    #: When its certificate ends, in seconds since 1970.
    until: float = math.inf
    #: The highest role that it has, wherever that counts; and the ranks of that, and of what counts in the whole store.
    role: str = field(init=False)
    _highest: int = field(init=False)
    _rank: int = field(init=False)

    def __post_init__(self) -> None:
        highest = max(_RANKS[each.role] for each in self.grants)
        object.__setattr__(self, "role", ROLES[highest])
        object.__setattr__(self, "_highest", highest)
        in_whole = [_RANKS[each.role] for each in self.grants if each.below == "/"]
        object.__setattr__(self, "_rank", max(in_whole, default=0))

    def may(self, role: str, paths: Sequence[str] = _WHOLE) -> bool:
        """Whether its role is this one, or includes it, at and below each of the paths."""
        rank = _RANKS[role]
        return self._rank >= rank or self._highest >= rank and all(self._reaches(rank, path) for path in paths)

    def _reaches(self, rank: int, path: str) -> bool:
        return any(_RANKS[each.role] >= rank and is_within(each.below, path) for each in self.grants)

    def may_somewhere(self, role: str) -> bool:
        """Whether its role is this one, or includes it, at some path."""
        return self._highest >= _RANKS[role]

    def may_all_of(self, other: "Caller") -> bool:
        """Whether it may do all that the other one may."""
        return all(self.may(each.role, (each.below,)) for each in other.grants)

    def may_do(self, role: str, words: Sequence[str]) -> bool:
        """Whether it may do what a line asks, which requires the role."""
        # (mostly it has it in the whole store, and then the paths don't matter)
        return self._rank >= _RANKS[role] or self._highest >= _RANKS[role] and self.may(role, paths_of(words))

    def require_for(self, role: str, words: Sequence[str]) -> None:
        """Fault: it may not."""
        if not self.may_do(role, words):
            raise Fault(NO_ROLE)

    def require(self, role: str) -> None:
        """Fault: the client may not do so in the whole store."""
        if self._rank < _RANKS[role]:
            raise Fault(NO_ROLE)


def watcher(who: str) -> Caller:
    """A client that may watch alone."""
    return Caller(who, (Grant("watch"),))
