"""What a start reads: the newest snapshot and the lines after it, each of which must be the one that was acknowledged.
Nothing is served after a Mismatch."""

import sys
from collections.abc import Callable, Iterator, Sequence
from dataclasses import dataclass, field
from typing import NamedTuple

from hudarin import View

from edits import PUBLISH
from entry import Line, Place, Snapshot
from errors import Mismatch
from journal import Journal
from tree import Tree, built, dumped, first_difference, refused


class Pending(NamedTuple):
    """An edit that isn't published yet: whose it is, and its line."""

    who: str
    line: str


@dataclass
class Loaded:
    """The state of a store after its last line."""

    tree: Tree
    epoch: int
    last: Place
    #: The place of the published tree.
    published: Place
    #: The number of the line at which the epoch's snapshot is.
    since: int
    #: When the last line was accepted, in milliseconds since 1970; 0 if no line is kept.
    time: int = 0
    #: The edits that aren't published yet, in their order. A publish makes it another list.
    pending: list[Pending] = field(default_factory=list)

    def replay(self, line: Line, chain: bytes, drop: Callable[[View], None] = View.close) -> None:
        """Carries out the next line; `drop` takes the view that a publish replaces. Mismatch: it is refused, or
        publishes another length. How it was answered isn't compared: a version may spell that otherwise."""
        place, refusal, length = Place(line.number, chain), None, 0
        if line.line == PUBLISH:
            drop(self.tree.publish())
            self.published, length, self.pending = place, self.tree.length, []
        else:
            refusal = refused(self.tree, line.line.split(" "))
            self.pending.append(Pending(sys.intern(line.who), line.line))
        if refusal is not None:
            raise Mismatch(f"line {line.number}: it was accepted, and is refused: {refusal}")
        if length != line.length:
            raise Mismatch(f"line {line.number}: it publishes {length} edits, and published {line.length}")
        self.last, self.time, self.epoch = place, line.time, max(self.epoch, line.epoch)


class Moment:
    """What a state is now, to be that again: `with Moment(state) as before: ..`, or until `close`."""

    def __init__(self, state: Loaded) -> None:
        tree = state.tree
        self._state, self._count = dict(vars(state)), len(state.pending)
        self._view, self._length, self._pending = tree.view, tree.length, tree.pending_view()

    def __enter__(self) -> "Moment":
        return self

    def __exit__(self, *_: object) -> None:
        self.close()

    def restore(self, state: Loaded) -> None:
        """Makes the state what it was. The view that was published then is open yet. MemoryError: it is as it is."""
        tree = state.tree
        tree.revert(self._pending)
        if tree.view is not self._view:
            tree.view.close()
        tree.view, tree.length = self._view, self._length
        vars(state).update(self._state)
        del state.pending[self._count :]

    def close(self) -> None:
        self._pending.close()


def load(journal: Journal) -> Loaded:
    """The state after the journal's last line. Mismatch: a line isn't the one that was written, or has another outcome
    today, or lines are missing."""
    journal.require_whole()
    snapshots = journal.snapshots()
    if not snapshots:
        raise Mismatch(f"{journal.file}: there is no snapshot")
    state = _at(snapshots[-1], journal.mapping)
    try:
        for line, chain in _chained(journal, snapshots):
            if line.number > snapshots[-1].place.number:
                state.replay(line, chain)
    except BaseException:
        state.tree.close()
        raise
    return state


def verify(journal: Journal) -> Loaded:
    """What `load` does; besides, the lines between two snapshots must make the newer one of the older one."""
    state = load(journal)
    snapshots = journal.snapshots()
    for older, newer in zip(snapshots, snapshots[1:]):
        made, wanted = _at(older, journal.mapping), _at(newer, journal.mapping)
        try:
            for line, chain in journal.lines(older.place.number):
                if line.number <= newer.place.number:
                    made.replay(line, chain)
            # Both are printed today: an earlier version may have spelled the snapshot's lines otherwise.
            difference = first_difference(dumped(wanted.tree.view), dumped(made.tree.view))
        finally:
            made.tree.close()
            wanted.tree.close()
        if difference is not None or wanted.tree.length != made.tree.length:
            what = difference or "its length"
            raise Mismatch(f"the snapshot of epoch {newer.epoch} isn't what its lines make: {what}")
    return state


def _at(snapshot: Snapshot, mapping: str) -> Loaded:
    tree = built(snapshot.lines, mapping, snapshot.length)
    return Loaded(tree, snapshot.epoch, snapshot.place, snapshot.place, snapshot.place.number)


def _chained(journal: Journal, snapshots: Sequence[Snapshot]) -> Iterator[tuple[Line, bytes]]:
    """All lines that are kept. Mismatch: one isn't chained to the one before, or a snapshot or the mark names another
    one, or one that isn't there."""
    wanted = {each.place.number: each.place.chain for each in snapshots}
    mark = journal.marked
    if mark is not None and wanted.setdefault(mark.number, mark.chain) != mark.chain:
        raise Mismatch(f"line {mark.number} isn't the one that was acknowledged")
    place, epoch = journal.start, 0
    _compare(place, wanted)
    for line, chain in journal.lines(place.number):
        number = place.number + 1
        if line.number != number or line.epoch < epoch:
            raise Mismatch(f"line {number} is missing: {line.number} of epoch {line.epoch} follows {place.number}")
        if chain != line.chained(journal.store, place.chain):
            raise Mismatch(f"line {number} isn't the one that was written")
        place, epoch = Place(number, chain), line.epoch
        _compare(place, wanted)
        yield line, chain
    if max(wanted) > place.number:
        raise Mismatch(f"line {place.number + 1} is missing: {max(wanted)} were acknowledged")


def _compare(place: Place, wanted: dict[int, bytes]) -> None:
    if wanted.get(place.number, place.chain) != place.chain:
        raise Mismatch(f"line {place.number} isn't the one that was acknowledged")
