"""The lines of an answer of the library, and what they say."""

import ctypes
import itertools
from typing import Any, Callable, Dict, List, Tuple

from ._analysis import Access, Change, Finding
from ._answers import _checked
from ._calls import _Kept
from ._library import _library, _line_print, _line_value, _lines_count
from ._numbers import _NO_PART, _ROOM
from ._sids import Group, Sid

_OF_SID, _OF_TEXT = 3, 4
_OF_DENIES, _RESTRICTING = 1, 2


class _Lines:
    """The lines of an answer, until the end of a ``with``. They are of one call, so no other thread has them."""

    __slots__ = ("_buffer", "_kept", "_sids")

    def __init__(self) -> None:
        self._kept = _Kept()
        self._buffer = (ctypes.c_char * 256)()
        # By their bytes: making one takes longer than finding it.
        self._sids: Dict[bytes, Sid] = {}

    def close(self) -> None:
        """Frees the lines. Others can be kept then."""
        _library.hudarin_release(self._kept)

    def __enter__(self) -> "_Lines":
        return self

    def __exit__(self, *_: object) -> None:
        self.close()

    def __len__(self) -> int:
        return int(_checked(_lines_count(self._kept)).length)

    def printed(self, index: int) -> str:
        """The line as the program prints it, without its end."""
        length = _checked(self._written(_line_print, index, 0)).length
        return self._buffer.raw[: length - 1].decode()

    def value(self, index: int, name: bytes) -> Any:
        """The value that has this name in JSON: a number, a ``Sid`` or a text; or None."""
        return self._found(index, name, 0)[0]

    def sids(self, index: int, name: bytes) -> List[Tuple[Sid, int]]:
        """The SIDs of this name, each with what it is in a token."""
        found: List[Tuple[Sid, int]] = []
        for place in itertools.count():
            sid, mark = self._found(index, name, place)
            if sid is None:
                break
            found.append((sid, mark))
        return found

    def _found(self, index: int, name: bytes, place: int) -> Tuple[Any, int]:
        """The value at the place, and the number of the library's answer; or None and 0."""
        answer = self._written(_line_value, index, name, len(name), place)
        if answer.status == _NO_PART:
            return None, 0
        _checked(answer)
        data = self._buffer.raw[: answer.length]
        if answer.kind == _OF_SID:
            return self._sid(data), answer.number
        return data.decode() if answer.kind == _OF_TEXT else answer.number, 0

    def _written(self, call: Callable[..., Any], *arguments: Any) -> Any:
        """The answer of a call that writes into the buffer; one that is too small is replaced."""
        while True:
            answer = call(self._kept, *arguments, self._buffer, len(self._buffer))
            if answer.status != _ROOM:
                return answer
            self._buffer = (ctypes.c_char * answer.length)()

    def _sid(self, data: bytes) -> Sid:
        found = self._sids.get(data)
        if found is None:
            found = self._sids[data] = Sid._of(data)
        return found


def _access(lines: _Lines, index: int) -> Access:
    to = lines.value(index, b"to")
    sid = to if isinstance(to, Sid) else None
    holder = to if sid is None else lines.value(index, b"as") or "sid"
    return Access(lines.value(index, b"mask"), holder, sid, tuple(each for each, _ in lines.sids(index, b"unless")))


def _change(lines: _Lines, index: int, everyone: Callable[[], Sid], base: Tuple[Group, ...]) -> Change:
    """A change; ``everyone`` finds a user whom neither descriptor names."""
    user, others = lines.value(index, b"by"), lines.sids(index, b"with")
    # (of what is made in a container the kind is "gained below", or "lost below")
    return Change(
        lines.value(index, b"answer").partition(" ")[0],
        lines.value(index, b"mask"),
        user if isinstance(user, Sid) else everyone(),
        not isinstance(user, Sid),
        next((sid for sid, mark in others if mark == _OF_DENIES), None),
        tuple(sid for sid, mark in others if mark == _RESTRICTING),
        base,
        _descendant(lines, index),
    )


def _descendant(lines: _Lines, index: int) -> str:
    """What is made in a container of which a line is; "" of the container itself."""
    new, below = lines.value(index, b"new"), lines.value(index, b"below")
    return f"new {new}" if new else f"{below} below new containers" if below else ""


def _finding(lines: _Lines, index: int) -> Finding:
    kind, entry, ace = (lines.value(index, name) for name in (b"answer", b"entry", b"ace"))
    other = lines.value(index, b"behind") or lines.value(index, b"repeats")
    return Finding(kind, entry, ace, other, lines.printed(index))
