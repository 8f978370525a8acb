"""Answers of the library: their statuses, and what is written into a buffer."""

import ctypes
from typing import Any, Callable, NoReturn, Optional, Tuple

from ._numbers import _HANDLE, _MEMORY, _ROOM, _TEXT, ARGUMENTS, STATUSES
from ._refused import FAULTS, Closed, Refused

_LISTS = {1: "DACL", 2: "SACL"}


def _refuse(answer: Any, kind: str = "sddl", argument: Optional[str] = None) -> NoReturn:
    """Raises what the answer of the library says. ``kind`` names a text with a fault, and ``argument`` the argument if
    the answer doesn't."""
    if answer.status == _MEMORY:
        raise MemoryError
    status = kind if answer.status == _TEXT else STATUSES[answer.status]
    names = FAULTS["sddl"] if answer.status == _TEXT else FAULTS.get(status, ())
    name = names[answer.fault - 1] if answer.fault else None
    refusal = Closed if answer.status == _HANDLE else Refused
    raise refusal(status, answer.fault, name, answer.place, ARGUMENTS.get(getattr(answer, "argument", 0), argument))


def _checked(answer: Any, kind: str = "sddl", argument: Optional[str] = None) -> Any:
    """The answer, if its status is OK."""
    if answer.status != 0:
        _refuse(answer, kind, argument)
    return answer


#: What most calls write has room there. Making the type takes longer than making one.
_Buffer = ctypes.c_char * 256


def _filled(
    call: Callable[[Any, int], Any], kind: str = "sddl", argument: Optional[Callable[[Any], Optional[str]]] = None
) -> Tuple[bytes, Any]:
    """What the call writes into a buffer, and its answer. A buffer that is too small is replaced by one of the length
    that the answer says."""
    buffer = _Buffer()
    while True:
        answer = call(buffer, len(buffer))
        written = getattr(answer, "written", answer)
        if written.status == 0:
            return buffer.raw[: written.length], answer
        if written.status != _ROOM:
            named = ARGUMENTS.get(getattr(answer, "argument", 0)) or _LISTS.get(getattr(answer, "list", 0))
            _refuse(written, kind, argument(written) if argument else named)
        buffer = (ctypes.c_char * written.length)()


def _written(call: Callable[..., Any], given: bytes, kind: str = "sddl") -> bytes:
    """What the call writes for these bytes."""
    return _filled(lambda buffer, length: call(given, len(given), buffer, length), kind)[0]
