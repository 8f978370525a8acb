"""What lines and requests are answered: values, each with the text of its line and with what HTTP makes JSON of."""

import functools
from collections.abc import Sequence
from dataclasses import dataclass, field
from typing import Any, NamedTuple, Protocol

from hudarin import Part, Verdict


class Answer(Protocol):
    def line(self) -> str:
        """The text of its line, or of its lines."""

    def json(self) -> object:
        """The members of an object, or an item of a list."""


@dataclass(frozen=True, slots=True)
class Result:
    """An answer of a kind and mostly of a reason or a number: that an edit is made, or why a line isn't carried out."""

    #: As `ok`, `published`, `refused`, `fault`, `unavailable` or `nonode`; empty where there is no answer.
    kind: str
    why: str = ""
    #: Of a publish the published length, of a refusal its number.
    number: int | None = None
    #: What is published, of an answer to a reader: the length.
    seen: int | None = None

    def __bool__(self) -> bool:
        return self.kind != ""

    def line(self) -> str:
        seen = "" if self.seen is None else f"seen {self.seen} "
        number = "" if self.number is None else f" {self.number}"
        return f"{seen}{self.kind}{number}{self.why and f' {self.why}'}"

    def json(self) -> dict[str, str]:
        """That of what isn't carried out: HTTP has no other."""
        return {"unavailable" if self.kind == "unavailable" else "fault": self.name}

    @property
    def name(self) -> str:
        """Its reason, or its kind if it has none."""
        return self.why or self.kind

    @property
    def is_made(self) -> bool:
        """Whether an edit or a publish is made."""
        return self.kind in ("ok", "published")


UNANSWERED = Result("")
#: Another line has the key.
OTHER_KEY = Result("fault", "key")
NO_ROLE = Result("fault", "role")
#: There is no reader of this number; so much isn't published.
NO_READER, NO_NOTICE = Result("noreader"), Result("nonotice")
#: There is no memory; it would have no record in the log.
NO_MEMORY, NO_RECORD = Result("unavailable", "memory"), Result("unavailable", "log")

#: The kinds of verdicts.
VERDICTS = ("granted", "denied", "reserved", "empty", "nonode")


@functools.lru_cache(4096)
def _text(verdict: Verdict | None) -> str:
    return "nonode" if verdict is None else str(verdict)


def kind_of(verdict: Verdict | None) -> str:
    return "nonode" if verdict is None else verdict.kind


def _members(verdict: Verdict | None) -> dict[str, Any]:
    kind = kind_of(verdict)
    return {"verdict": kind} if verdict is None or kind == "empty" else {"verdict": kind, "mask": f"{verdict.mask:#x}"}


@dataclass(frozen=True, slots=True)
class Checked:
    """The verdict at a path, None without a node, and the length of what is published."""

    seen: int
    verdict: Verdict | None
    #: The kind of the verdict, and the line: they are made once, as these answers are kept.
    kind: str = field(init=False)
    text: str = field(init=False)

    def __post_init__(self) -> None:
        object.__setattr__(self, "kind", kind_of(self.verdict))
        object.__setattr__(self, "text", f"seen {self.seen} {_text(self.verdict)}")

    def line(self) -> str:
        return self.text

    def json(self) -> dict[str, Any]:
        return _members(self.verdict)

    @property
    def verdicts(self) -> Sequence[Verdict | None]:
        return (self.verdict,)


@dataclass(frozen=True, slots=True)
class CheckedAll:
    """The verdicts at several paths."""

    seen: int
    verdicts: Sequence[Verdict | None]
    #: That of each verdict, made once: they are quicker to count, too.
    texts: list[str] = field(init=False)

    def __post_init__(self) -> None:
        object.__setattr__(self, "texts", list(map(_text, self.verdicts)))

    def line(self) -> str:
        return f"seen {self.seen} {', '.join(self.texts)}"

    def json(self) -> list[dict[str, Any]]:
        return list(map(_members, self.verdicts))


class Explained(NamedTuple):
    """The verdict at a path, and the reasons from which it follows."""

    checked: Checked
    reasons: Sequence[Part]

    def line(self) -> str:
        return "\n".join([self.checked.line(), *map(str, self.reasons)])

    def json(self) -> dict[str, Any]:
        return self.checked.json() | {"reasons": list(map(str, self.reasons))}


class Described(NamedTuple):
    """The descriptor of a node."""

    seen: int
    descriptor: str

    def line(self) -> str:
        return f"seen {self.seen} shown {self.descriptor}"

    def json(self) -> dict[str, str]:
        return {"descriptor": self.descriptor}


class Text(str):
    """A line that JSON has as it is: an access, or a change."""

    __slots__ = ()

    def line(self) -> str:
        return self

    def json(self) -> str:
        return self


class Reviewed(NamedTuple):
    """The end of a review: the published length, and what it is with all pending edits."""

    seen: int
    pending: int

    def line(self) -> str:
        return f"reviewed {self.seen} {self.pending}"

    def json(self) -> dict[str, int]:
        return self._asdict()
