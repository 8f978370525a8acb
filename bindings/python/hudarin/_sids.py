"""SIDs, and groups with their states."""

import functools
import struct
from typing import Any, Iterable, Optional, Tuple, Union

from ._answers import _filled, _written
from ._arguments import Data, _data, _number, _of_type, _text
from ._calls import _U32
from ._library import _library
from ._numbers import ENABLED
from ._values import _Bytes


@functools.total_ordering
class Sid(_Bytes):
    """A security identifier: ``Sid(data)`` is the one at the front of the bytes. Bytes after it are ignored. SIDs are
    ordered by their numbers: the authority, then the sub-authorities."""

    __slots__ = ()

    def __new__(cls, data: Data) -> "Sid":
        text = _written(_library.hudarin_sid_bytes_to_text, _data(data))
        return cls._of(_written(_library.hudarin_sid_text_to_bytes, text, "sid"))

    @classmethod
    def from_text(cls, text: str, domain: Optional["Sid"] = None) -> "Sid":
        """The SID that the text spells, in full ("S-1-5-18") or by an alias ("SY"). With a ``domain`` the aliases of a
        domain's accounts and groups, as "DA", are SIDs of that domain."""
        return cls._of(_spelled("hudarin_sid_text_to_bytes", text, domain, "sid"))

    def __str__(self) -> str:
        """The SID's alias if it has one, otherwise the SID in full."""
        return _written(_library.hudarin_sid_bytes_to_text, self._bytes).decode()

    @property
    def full(self) -> str:
        """The SID in full, though it may have an alias."""
        return _written(_library.hudarin_sid_bytes_to_full_text, self._bytes).decode()

    def __format__(self, form: str) -> str:
        return format(str(self), form)

    def __repr__(self) -> str:
        return f"Sid.from_text({str(self)!r})"

    @property
    def _numbers(self) -> Tuple[int, ...]:
        """The authority, and the sub-authorities."""
        return int.from_bytes(self._bytes[2:8], "big"), *struct.unpack(f"<{self._bytes[1]}I", self._bytes[8:])

    @property
    def rid(self) -> int:
        """The last sub-authority, as that of an account in its domain."""
        return self._numbers[-1]

    @property
    def domain(self) -> Optional["Sid"]:
        """The SID of the domain that a user or a group is of: of "S-1-5-21-1-2-3-1001" "S-1-5-21-1-2-3". None of a SID
        of another form."""
        is_of_domain = self._bytes[1] == 5 and self._numbers[:2] == (5, 21)
        return Sid._of(b"\x01\x04" + self._bytes[2:-4]) if is_of_domain else None

    def __eq__(self, other: object) -> bool:
        return isinstance(other, Sid) and self._bytes == other._bytes

    def __lt__(self, other: "Sid") -> bool:
        return self._numbers < other._numbers if isinstance(other, Sid) else NotImplemented

    __hash__ = _Bytes.__hash__


def _spelled(name: str, text: str, domain: Optional["Sid"], kind: str) -> bytes:
    """What the call of that name writes for the text; with a domain, its sibling for the aliases of domains."""
    given = _text(text)
    call = getattr(_library, name)
    if domain is None:
        return _written(call, given, kind)
    of_domain = getattr(_library, name + "_in")
    sid = bytes(_of_type(domain, Sid, "domain"))
    return _filled(lambda *buffer: of_domain(sid, len(sid), given, len(given), *buffer), kind)[0]


def _sid_at(data: bytes, at: int) -> Sid:
    """The SID at a place of bytes that the library has tested."""
    return Sid._of(data[at : at + 8 + 4 * data[at + 1]])


#: A group that is enabled, or a group with its state.
Group = Union[Sid, Tuple[Sid, int]]


def _pair(group: object) -> Tuple[bytes, int]:
    """A group's bytes and its state."""
    if not isinstance(group, tuple):
        return bytes(_of_type(group, Sid, "groups")), ENABLED
    if len(group) != 2:
        raise TypeError(f"groups: expected a Sid or a pair of a Sid and a state, not {group!r}")
    return bytes(_of_type(group[0], Sid, "groups")), _number(group[1], "states")


def _groups(groups: Iterable[Group]) -> Tuple[Any, ...]:
    """Groups as arguments of the library."""
    pairs = [_pair(group) for group in groups]
    sids = b"".join(sid for sid, _ in pairs)
    return sids, len(sids), (_U32 * len(pairs))(*(state for _, state in pairs)), len(pairs)
