"""A line of the journal, and the chain of digests by which each names all lines before it."""

import hashlib
import re
import secrets
from dataclasses import dataclass, field
from typing import NamedTuple


def new_store() -> str:
    """An id that no other store has."""
    return secrets.token_hex(16)


def length_of(outcome: str) -> int:
    """The length that an outcome has, 0 for an edit. ValueError: it is no outcome."""
    length = 0 if outcome == "ok" else int(outcome.removeprefix("published "))
    if outcome != "ok" and (length < 1 or outcome != f"published {length}"):
        raise ValueError(f"{outcome!a:.100} is no outcome of a line")
    return length


def is_store(text: str) -> bool:
    """Whether it is the id of a store."""
    return re.fullmatch("[0-9a-f]{32}", text) is not None


class Line(NamedTuple):
    """An accepted edit, or a publish of at least one. How it was answered isn't part of it."""

    epoch: int
    number: int
    #: When it was accepted, in milliseconds since 1970, and for whom.
    time: int
    who: str
    #: The key by which its client may send it again, or an empty text.
    key: str
    line: str
    #: Of a publish the published length, which is at least 1; of an edit 0.
    length: int

    @property
    def outcome(self) -> str:
        """What a chain and a row have of it. It never changes, whatever a client is answered."""
        return f"published {self.length}" if self.length else "ok"

    def chained(self, store: str, before: bytes) -> bytes:
        """The digest of the chain before the line, and of the line in the store of this id."""
        text = f"{store}\n{self.epoch}\n{self.number}\n{self.time}\n{self.who}\n{self.key}\n{self.line}\n{self.outcome}"
        return hashlib.sha256(before + text.encode()).digest()


class Place(NamedTuple):
    """A state of a store: the number of its last line, and the chain up to it. Wherever it is a text it is `NUMBER
    CHAIN`, with the chain in hexadecimal digits."""

    number: int
    chain: bytes

    @classmethod
    def of(cls, text: str) -> "Place":
        """ValueError: the text is none."""
        number, _, chain = text.partition(" ")
        return cls(int(number), bytes.fromhex(chain))

    def __str__(self) -> str:
        return f"{self.number} {self.chain.hex()}"


@dataclass(slots=True)
class Batch:
    """The lines of one commit, with their chains, and by their keys."""

    lines: list[tuple[Line, bytes]] = field(default_factory=list)
    by_key: dict[str, Line] = field(default_factory=dict)


@dataclass(frozen=True, slots=True)
class Snapshot:
    """An epoch: the published tree at a line, as the lines of `dump`, and the published length there."""

    epoch: int
    place: Place
    length: int
    lines: tuple[str, ...]

    def digest(self, store: str, mapping: str) -> bytes:
        head = (store, mapping, self.epoch, self.place.number, self.place.chain.hex(), self.length)
        return hashlib.sha256("\n".join([*map(str, head), *self.lines]).encode()).digest()
