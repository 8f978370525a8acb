"""`estate write`, `estate resume` and `estate undo` on volumes: each node of a journal is written by itself."""

from collections.abc import Iterable
from dataclasses import dataclass

from errors import Failed, Stopped
from journal import Journal, Step
from paths import Path, spelled
from progress import Progress
from table import Table, plural
from volumes import Volume, text_of


@dataclass(frozen=True, slots=True)
class Move:
    """A node, what it has to have, and what it gets."""

    path: Path
    source: bytes
    target: bytes


def forward(steps: Iterable[Step]) -> list[Move]:
    return [Move(step.path, step.old, step.new) for step in steps]


def backward(steps: Iterable[Step]) -> list[Move]:
    return [Move(step.path, step.new, step.old) for step in reversed(list(steps))]


def apply(volume: Volume, moves: list[Move], table: Table, leaves_changed: bool) -> int:
    """Writes each node that hasn't its target yet, and returns how many these are. First all are read: if one has
    neither source nor target, somebody changed it, and nothing is written; or it is left, if that is asked for."""
    to_write = _to_write(volume, moves, table, leaves_changed)
    written = 0
    with Progress(len(to_write)) as progress:
        for move in to_write:
            progress.step()
            try:
                written += _write(volume, move)
            except (OSError, KeyboardInterrupt) as error:
                why = text_of(error) if isinstance(error, OSError) else "interrupted"
                raise Failed(
                    f"{spelled(move.path)}: {why}: {written:,} of {plural(len(to_write), 'node')} are written; "
                    "'estate resume' writes the others by the journal, 'estate undo' restores these"
                ) from error
    return written


def _to_write(volume: Volume, moves: list[Move], table: Table, leaves_changed: bool) -> list[Move]:
    to_write, changed = [], 0
    for move in moves:
        try:
            with volume.node(move.path) as node:
                blob = node.read()
        except OSError as error:
            changed += 1
            table.row("changed", {"path": spelled(move.path), "why": f"it can't be read: {text_of(error)}"})
            continue
        if blob == move.source:
            to_write.append(move)
        elif blob != move.target:
            changed += 1
            table.row("changed", {"path": spelled(move.path), "why": "it has neither the old nor the new descriptor"})
    if changed and not leaves_changed:
        raise Stopped(f"{plural(changed, 'node')} changed since: nothing is written; --leave-changed leaves these")
    return to_write


def _write(volume: Volume, move: Move) -> bool:
    """Whether the node was written: another name of the same file may have been written before."""
    with volume.node(move.path) as node:
        blob = node.read()
        if blob == move.target:
            return False
        if blob != move.source:
            raise OSError(0, "its descriptor changed at this moment")
        node.write(move.target)
        if node.read() != move.target:
            raise OSError(0, "the volume keeps another descriptor than was written")
    return True


def check_target(volume: Volume, journal: Journal) -> None:
    """Stopped if the journal can't be of this volume, or the volume can't be written."""
    if volume.attribute is not journal.attribute:
        raise Stopped(f"{volume.name}: the journal is of {journal.attribute.value}")
    if volume.is_read_only:
        raise Stopped(f"{volume.name}: it is mounted read-only: nothing is written")
