"""Verdicts, and the reasons for them."""

import functools
from typing import Any, Callable, NamedTuple, Optional, Tuple

from ._answers import _refuse
from ._numbers import CAUSES, VERDICTS

_BY_THE_LIST = 2
_NO_PASS, _NO_ENTRY = 0, 3


class Verdict(NamedTuple):
    """The result of a check. It is true if all that was asked for is granted, and false otherwise."""

    #: "granted", "denied", "reserved" or "empty".
    kind: str
    #: If granted: the request with its generic rights mapped. If denied or reserved: just the bits that are.
    mask: int

    @property
    def is_granted(self) -> bool:
        """Whether all that was asked for is granted."""
        return self.kind == "granted"

    def __bool__(self) -> bool:
        return self.kind == "granted"

    def __str__(self) -> str:
        return self.kind if self.kind == "empty" else f"{self.kind} {self.mask:#x}"


class Part(NamedTuple):
    """Bits of a request that are granted or denied for one reason. It is true if they are granted."""

    is_granted: bool
    mask: int
    #: The first entry of the list that decides them, counted from 1, or None.
    entry: Optional[int]
    #: The same in the second pass of a restricted token.
    restricting_entry: Optional[int]
    #: The reason in words.
    why: str

    def __bool__(self) -> bool:
        return self.is_granted

    def __str__(self) -> str:
        return f"{'granted' if self.is_granted else 'denied'} {self.mask:#x} {self.why}"


class Explanation(NamedTuple):
    """A verdict, and why. It is true if all that was asked for is granted, and false otherwise."""

    verdict: Verdict
    #: The verdict follows from these. They are in the order of their lowest bits.
    parts: Tuple[Part, ...]

    @property
    def is_granted(self) -> bool:
        """Whether all that was asked for is granted."""
        return self.verdict.is_granted

    def __bool__(self) -> bool:
        return self.verdict.is_granted

    def __str__(self) -> str:
        return "\n".join(str(line) for line in (self.verdict, *self.parts))


@functools.lru_cache(1024)
def _verdict_of(kind: int, mask: int) -> Verdict:
    return Verdict(VERDICTS[kind], mask)


def _verdict(answer: Any) -> Verdict:
    """The verdict of the answer, if its status is OK."""
    if answer.status != 0:
        _refuse(answer)
    return _verdict_of(answer.kind, answer.mask)


def _entry(finding: Any) -> Optional[int]:
    return None if finding.kind in (_NO_PASS, _NO_ENTRY) else finding.entry + 1


def _part(part: Any, found: Callable[[Any], str]) -> Part:
    """A part of an explanation; ``found`` says what a pass over the list found."""
    if part.cause != _BY_THE_LIST:
        why = CAUSES[part.cause]
    elif part.second.kind == _NO_PASS:
        why = found(part.first)
    else:
        why = f"{found(part.first)}, restricted {found(part.second)}"
    return Part(part.granted == 1, part.mask, _entry(part.first), _entry(part.second), why)
