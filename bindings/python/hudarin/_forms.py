"""Descriptors in self-relative form: the bytes of one, and the parts that are read from them."""

import struct
from typing import Iterable, Optional

from ._arguments import _number
from ._refused import NoList
from ._sids import Sid, _sid_at
from ._values import _Bytes

#: Bits of a descriptor's control word.
_PRESENT, _PROTECTED = 0x0004, 0x1000
#: The headers of a descriptor and of a list, and an entry up to its SID ([MS-DTYP] 2.4.4 to 2.4.6).
_HEADER, _ACL, _ENTRY = struct.Struct("<HHIIII"), struct.Struct("<HHHH"), struct.Struct("<BBHI")


def _self_relative(entries: Iterable[bytes], owner: bytes = b"", group: bytes = b"", control: int = 0) -> bytes:
    """The bytes of a descriptor with these parts, a list of these entries and these bits of its control word."""
    given = [*entries]
    body, ends = b"".join(given), (20, 20 + len(owner), 20 + len(owner) + len(group))
    offsets = ends[0] if owner else 0, ends[1] if group else 0, 0, ends[2]
    head = _HEADER.pack(1, 0x8000 | _PRESENT | control, *offsets)
    return head + owner + group + _ACL.pack(2, _number(8 + len(body), "a list's bytes", 16), len(given), 0) + body


class _SelfRelative(_Bytes):
    """A descriptor in self-relative form. Its parts are read from the bytes, which the library has tested: a call for
    each takes several times as long."""

    __slots__ = ()

    @property
    def owner(self) -> Optional[Sid]:
        """The owner, or None."""
        at = _HEADER.unpack_from(self._bytes)[2]
        return _sid_at(self._bytes, at) if at else None

    @property
    def group(self) -> Optional[Sid]:
        """The group, or None."""
        at = _HEADER.unpack_from(self._bytes)[3]
        return _sid_at(self._bytes, at) if at else None

    @property
    def dacl_kind(self) -> str:
        """"list", or where there is no list "absent" or "null": these grant the standard rights and the object's own to
        everyone. An empty list grants nothing by itself."""
        _, control, _, _, _, at = _HEADER.unpack_from(self._bytes)
        return ("list" if at else "null") if control & _PRESENT else "absent"

    def _require_list(self) -> None:
        if self.dacl_kind != "list":
            raise NoList(self.dacl_kind)
