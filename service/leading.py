"""What replicas ask: `snapshot`, the newest one, and `lines PLACE`, those after a line, each with its chain as JSON."""

import json
import math
from collections.abc import Iterator, Sequence
from dataclasses import dataclass
from itertools import islice
from pathlib import Path
from typing import Any

from entry import Line, Place, Snapshot, is_store, length_of
from errors import Fault, Mismatch
from journal import KEPT_LINES, MOST_LINES, Journal
from spelling import number_of
from tree import MAPPINGS

#: The types of what a row of a line has, and the head of a snapshot, and the end of their numbers, which SQLite takes.
_LINE = [int, int, int, str, str, str, str, str]
_HEAD = [str, str, int, int, str, int, str, int, str]
_NUMBERS = 1 << 63
#: The characters of the lines of one answer, but for the last of them: a replica has to get it in time.
_MOST_AT_ONCE = 1 << 23


@dataclass(frozen=True, slots=True)
class Lines:
    """The lines that follow a replica's last one, the number of the last one that there is, and whether the replica
    leads from now on."""

    lines: Sequence[tuple[Line, bytes]]
    last: int
    leads: bool = False
    #: For so many seconds the source, which may be a replica itself, has known of no other lines.
    age: float = 0.0


@dataclass(frozen=True, slots=True)
class Origin:
    """What a new replica starts from: a store's newest snapshot, and the place after which the lines are whose keys
    count."""

    store: str
    mapping: str
    snapshot: Snapshot
    first: Place


def answer(file: Path, words: Sequence[str], age: float) -> Iterator[str]:
    """The lines of the answer, as of the moment when the first one is asked for, by a journal that was complete so many
    seconds ago. Fault: the lines aren't kept any more, or the replica's aren't those of here."""
    if not (1 < len(words) < 4 if words[0] == "lines" else len(words) == 1):
        raise Fault.of("words")
    with Journal(file, only_reads=True) as journal:
        lines = snapshot_lines(journal) if words[0] == "snapshot" else list(_lines(journal, _place(words), age))
    yield from lines


def _place(words: Sequence[str]) -> Place:
    try:
        return Place(number_of(words[1]), bytes.fromhex("".join(words[2:])))
    except ValueError:
        raise Fault.of("chain") from None


def _lines(journal: Journal, after: Place, age: float) -> Iterator[str]:
    """The number of the last line and the age in milliseconds first."""
    last = journal.last_number()
    if not journal.start.number <= after.number <= last:
        raise Fault.of("gone")
    if journal.place_at(after.number) != after:
        raise Fault.of("chain")
    yield f"last {last} {math.ceil(1000 * age)}"
    length = 0
    for line, chain in islice(journal.lines(after.number), MOST_LINES):
        yield (row := row_of(line, chain))
        length += len(row)
        if length > _MOST_AT_ONCE:
            break


def made_between(file: Path, after: int, last: int) -> Iterator[str]:
    """The edits and publishes after a line of the journal, up to another one."""
    with Journal(file, only_reads=True) as journal:
        yield from (line.line for line, _ in islice(journal.lines(after), last - after))


def row_of(line: Line, chain: bytes) -> str:
    """A line and its chain."""
    return json.dumps([*line[:-1], line.outcome, chain.hex()])


def line_in(row: str) -> tuple[Line, bytes]:
    """The line and the chain of a row. ValueError: it is none."""
    *fields, outcome, chain = _values(row, _LINE)
    line = Line._make([*fields, length_of(outcome)])
    # (an earlier version had a time before 1970)
    _require_numbers(line.epoch, line.number, line.length)
    return line, bytes.fromhex(chain)


def _values(text: str, types: list[type]) -> list[Any]:
    """The values of a list of JSON. ValueError: they aren't of these types, or a number is none of SQLite."""
    given = json.loads(text)
    if not isinstance(given, list) or [type(each) for each in given] != types:
        raise ValueError(f"{text!a:.100} has other values")
    _require_numbers(*(abs(each) for each in given if type(each) is int))
    return given


def _require_numbers(*numbers: int) -> None:
    """ValueError: one is none of a journal."""
    if not all(0 <= each < _NUMBERS for each in numbers):
        raise ValueError(f"one of the numbers {numbers} is none of a journal")


def lines_in(lines: Sequence[str]) -> Lines:
    """What such an answer has. Mismatch: it is none."""
    try:
        word, last, age = lines[0].split(" ")
        if word != "last":
            raise ValueError(f"{lines[0]!a:.100} is no number of a line")
        _require_numbers(int(last), int(age))
        return Lines([line_in(row) for row in lines[1:]], int(last), age=int(age) / 1000)
    except (ValueError, IndexError, RecursionError) as error:
        raise Mismatch(f"the leader's lines: {error}") from error


def snapshot_lines(journal: Journal, least: int = 0) -> list[str]:
    """The newest snapshot, with whose it is, its digest, and the place, of this number at least, after which lines are
    kept for their keys."""
    snapshot = journal.snapshots()[-1]
    place, start = snapshot.place, journal.start
    first = journal.place_at(min(max(start.number, place.number - KEPT_LINES, least), place.number)) or place
    head = [journal.store, journal.mapping, snapshot.epoch, place.number, place.chain.hex(), snapshot.length,
            snapshot.digest(journal.store, journal.mapping).hex(), first.number, first.chain.hex()]
    return [json.dumps(head), *snapshot.lines]


def snapshot_in(lines: Sequence[str]) -> Origin:
    """What such lines have. Mismatch: it is none, or not the one that was written."""
    try:
        store, mapping, epoch, number, chain, length, digest, *first = _values(lines[0], _HEAD)
        if not is_store(store) or mapping not in MAPPINGS:
            raise ValueError(f"{lines[0]!a:.100} is of no store")
        _require_numbers(epoch, number, length, first[0], number - first[0])
        snapshot = Snapshot(epoch, Place(number, bytes.fromhex(chain)), length, tuple(lines[1:]))
        if snapshot.digest(store, mapping).hex() != digest:
            raise ValueError("it isn't the one that was written")
        return Origin(store, mapping, snapshot, Place(first[0], bytes.fromhex(first[1])))
    except (ValueError, RecursionError) as error:
        raise Mismatch(f"the leader's snapshot: {error}") from error


def is_head(text: str) -> bool:
    """Whether a snapshot that begins so is of this form, and not of an earlier version's."""
    try:
        return len(_values(text, _HEAD)) > 0
    except (ValueError, RecursionError):
        return False
