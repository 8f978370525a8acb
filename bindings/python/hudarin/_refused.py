"""What the library refuses: the names of faults, and exceptions."""

import ctypes
import itertools
from typing import Any, Iterator, Optional, Tuple

from ._library import _library
from ._numbers import _TEXT, STATUSES

_WITH_FAULTS = (_TEXT, 5, 6, 13, 15, 19, 20, 21, 25, 26, 27, 29, 30)


def _fault_names(status: int) -> Iterator[str]:
    """The names of a status' faults, in the order of their numbers."""
    buffer = ctypes.create_string_buffer(64)
    for fault in itertools.count(1):
        length = _library.hudarin_fault_name(status, fault, buffer, len(buffer)).length
        if length == 0:
            return
        yield buffer.raw[:length].decode()


#: The names of faults, by status and in the order of their numbers, which count from 1: of a text (SDDL, a SID or a
#: mask), of a descriptor's bytes, of a SID's bytes, of a path, of an edit that the tree refuses, of the limits of a
#: store, of what has no text, of an entry that isn't plain, of a DACL that can't be decided, of a line of accounts, of
#: a text that means no user, of a node of a tree of object types, and of an object that gets no descriptor.
FAULTS = {STATUSES[status]: tuple(_fault_names(status)) for status in _WITH_FAULTS}


class Refused(ValueError):
    """The library rejected an argument."""

    #: Why, by a name of ``STATUSES``; of a text that is no mask "mask", of one that is no SID "sid".
    status: str
    #: The fault's number, or 0 if the status has none.
    fault: int
    #: The fault's name in ``FAULTS``, or None.
    name: Optional[str]
    #: Of a text the offset of the fault in bytes, of groups, restricting SIDs, owners, words, nodes and entries the
    #: index, of accounts the number of the line, from 1; otherwise 0.
    place: int
    #: The name of the argument in ``ARGUMENTS``, or "accounts", or None. Of what has no text or isn't plain its list,
    #: "DACL" or "SACL".
    argument: Optional[str]

    def __init__(
        self, status: str, fault: int = 0, name: Optional[str] = None, place: int = 0, argument: Optional[str] = None
    ) -> None:
        self.status, self.fault, self.name, self.place, self.argument = status, fault, name, place, argument
        words = (argument, status, fault or None, name)
        super().__init__(f"{' '.join(str(word) for word in words if word is not None)} at {place}")

    def __reduce__(self) -> Tuple[Any, ...]:
        return type(self), (self.status, self.fault, self.name, self.place, self.argument), self.__dict__


class Closed(Refused):
    """A ``Token``, a ``View`` or another object that holds memory of the library is closed: ``argument`` says which."""

    def __str__(self) -> str:
        return f"{self.argument}: it is closed"


class NoList(ValueError):
    """A DACL has no entries, as it is no list but absent or null: everyone is granted the standard rights and the
    object's own. ``kind`` is "absent" or "null"."""

    def __init__(self, kind: str) -> None:
        self.kind = kind
        super().__init__(kind)

    def __str__(self) -> str:
        return f"the DACL is {self.kind}, so everyone is granted access, and there are no entries"
