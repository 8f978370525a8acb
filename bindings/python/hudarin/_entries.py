"""Entries of a descriptor's list."""

from typing import NamedTuple, Union

from ._answers import _written
from ._arguments import _number, _of_type
from ._forms import _ENTRY, _self_relative
from ._library import _library
from ._masks import Mask, _mask
from ._numbers import _ALL_FLAGS, FLAGS
from ._sids import Sid


class Entry(NamedTuple):
    """An entry of a descriptor's list; ``Entry.allow`` and ``Entry.deny`` make one. It prints as its text."""

    #: "allow" or "deny".
    kind: str
    #: The numbers of ``FLAGS``, joined by |.
    flags: int
    mask: int
    sid: Sid

    @classmethod
    def allow(cls, mask: Mask, sid: Sid, flags: Union[int, str] = 0) -> "Entry":
        """An entry that allows the mask to the SID. Flags are numbers of ``FLAGS``, joined by |, or names: "OICI"."""
        return cls("allow", _flags(flags), _mask(mask, "mask"), _of_type(sid, Sid, "sid"))

    @classmethod
    def deny(cls, mask: Mask, sid: Sid, flags: Union[int, str] = 0) -> "Entry":
        """An entry that denies the mask to the SID."""
        return cls.allow(mask, sid, flags)._replace(kind="deny")

    @property
    def text(self) -> str:
        """The entry in SDDL, as "(A;OICI;FR;;;BU)"."""
        return _written(_library.hudarin_bytes_to_sddl, _self_relative([bytes(self)])).decode()[2:]

    def __bytes__(self) -> bytes:
        """The entry as it is in a list."""
        if self.kind not in ("allow", "deny"):
            raise ValueError(f"kind: {self.kind!r} is neither 'allow' nor 'deny'")
        flags, sid = _flags(self.flags), bytes(_of_type(self.sid, Sid, "sid"))
        return _ENTRY.pack(self.kind == "deny", flags, 8 + len(sid), _number(self.mask, "mask")) + sid

    def __str__(self) -> str:
        return self.text


def _flags(flags: object) -> int:
    """The flags of an entry, by their numbers or their names."""
    if isinstance(flags, str):
        names = [flags[at : at + 2].upper() for at in range(0, len(flags), 2)]
        unknown = [name for name in names if name not in FLAGS]
        number = sum(FLAGS[name] for name in set(names) - set(unknown))
    else:
        number = _number(flags, "flags")
        unknown = [hex(number)] if number & ~_ALL_FLAGS else []
    if unknown:
        raise ValueError(f"flags: {unknown[0]} is none of an entry")
    return number
