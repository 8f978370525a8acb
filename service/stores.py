"""The files of a store: made, opened, verified, copied while it is served, and made again from a copy."""

import os
from collections.abc import Iterable, Iterator, Sequence
from contextlib import contextmanager
from itertools import islice
from pathlib import Path

import clock
import formats
from entry import Line, Place, Snapshot, new_store
from errors import Fault, Invalid, Mismatch
from folders import locked, make_folder, sync_folder, unfinished
from journal import DATABASE, MARK, MOST_LINES, Journal, create
from loading import Loaded, load, verify
from mark import Mark, create_mark
from tree import MAPPINGS, built, dumped


@contextmanager
def opened(folder: Path) -> Iterator[Journal]:
    """The journal of a store that nobody else serves meanwhile."""
    with locked(folder):
        mark = Mark(folder / MARK)
        try:
            with Journal(folder / DATABASE, mark) as journal:
                yield journal
        finally:
            mark.close()


def init(folder: Path, mapping: str, lines: Sequence[str]) -> int:
    """Makes a store of a dump's lines, and returns the published length. Invalid: they make no tree."""
    if mapping not in MAPPINGS:
        raise Invalid(f"the mapping {mapping!a} is none of {', '.join(MAPPINGS)}")
    try:
        tree = built(lines, mapping)
        made = tuple(dumped(tree.view))
    except (Mismatch, Fault) as error:
        raise Invalid(str(error)) from error
    snapshot = Snapshot(1, Place(0, b""), tree.length, made)
    make(folder, new_store(), mapping, snapshot, snapshot.place)
    return tree.length


def verified(where: Path) -> Loaded:
    """The state of a store, in its folder, or of a backup, in a file. It may be served meanwhile. Mismatch: a line or a
    snapshot isn't what was written."""
    if where.is_dir():
        mark = Mark(where / MARK, only_reads=True)
        try:
            with Journal(where / DATABASE, mark, only_reads=True) as journal:
                return verify(journal)
        finally:
            mark.close()
    with Journal(where, only_reads=True) as journal:
        return verify(journal)


def backup(folder: Path, file: Path) -> Loaded:
    """Copies a store, which may be served meanwhile, into a new file, and verifies the copy."""
    if os.path.lexists(file):
        raise Invalid(f"{file}: there is a file already")
    with unfinished(file.parent) as room:
        part = room / DATABASE
        with Journal(folder / DATABASE, only_reads=True) as journal:
            journal.copy_to(part)
        state = verified(part)
        with open(part, "rb") as copy:
            os.fsync(copy.fileno())
        os.link(part, file)
        sync_folder(file.parent)
    return state


def restore(file: Path, folder: Path) -> Loaded:
    """Makes a store with an id of its own that goes on where the copy ends. Its pending edits stay pending."""
    with Journal(file, only_reads=True) as journal:
        state = verify(journal)
        pending = [line for line, _ in journal.lines(state.published.number)]
        mapping = journal.mapping
    snapshot = Snapshot(state.epoch + 1, state.published, state.tree.length, tuple(dumped(state.tree.view)))
    store = new_store()
    make(folder, store, mapping, snapshot, snapshot.place, _chained(store, snapshot, pending))
    return state


def downgrade(folder: Path) -> Loaded:
    """Makes a store that nobody serves one of the version before, for the programs of then."""
    with opened(folder) as journal:
        state = load(journal)
        journal.convert(formats.BEFORE)
        journal.close_log()
    return state


def make(
    folder: Path, store: str, mapping: str, snapshot: Snapshot, first: Place, lines: Iterable[tuple[Line, bytes]] = ()
) -> None:
    """A new store of a snapshot, and of lines with their chains: those after `first`, whose last is the snapshot's or a
    later one."""

    def fill(made: Path) -> None:
        create(made / DATABASE, store, mapping, snapshot, first)
        create_mark(made / MARK, store, snapshot.place)
        left = iter(lines)
        with opened(made) as journal:
            while batch := list(islice(left, MOST_LINES)):
                journal.append(batch)
            journal.close_log()

    make_folder(folder, fill)


def _chained(store: str, snapshot: Snapshot, pending: Sequence[Line]) -> Iterator[tuple[Line, bytes]]:
    """The lines, as those of the store after the snapshot."""
    chain = snapshot.place.chain
    for each in pending:
        line = each._replace(epoch=snapshot.epoch, time=clock.milliseconds())
        chain = line.chained(store, chain)
        yield line, chain
