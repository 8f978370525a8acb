"""A new epoch: a snapshot of the published tree, and the tree built of it, in which the store goes on.

It is made in a thread of its own, up to the last lines: all that came since the publish are made in that tree once
more, which takes as long as they took, so in the writer edits would wait for half a minute."""

import functools
import threading
from collections.abc import Callable
from dataclasses import dataclass
from itertools import islice
from pathlib import Path

from hudarin import View

import clock
from entry import Place, Snapshot
from errors import Mismatch
from journal import Journal
from loading import Loaded
from tree import built, dumped, first_difference

#: The lines that are left to the writer at most, for which edits wait: some 25 are made in a millisecond.
MOST_LEFT = 1_000
#: The lines that are read at once: SQLite can't shorten its log meanwhile.
_LINES_AT_ONCE = 10_000
#: After a failure none is made for so many seconds.
_PAUSE = 60.0


@dataclass(frozen=True, slots=True)
class Epoch:
    """The snapshot, and the state of the tree that is built of it, up to some line."""

    snapshot: Snapshot
    state: Loaded

    def go_on(self, journal: Journal) -> int:
        """Makes the next lines of the journal, and returns how many."""
        count = 0
        for line, chain in islice(journal.lines(self.state.last.number), _LINES_AT_ONCE):
            self.state.replay(line, chain)
            count += 1
        return count


class Maker:
    """Makes one epoch after the other, of a journal that the writer appends to meanwhile. It calls `wake` once one is
    made, up to a few lines, and `warn` with a text for the log if that fails."""

    def __init__(self, file: Path, mapping: str, warn: Callable[[str], None], wake: Callable[[], None]) -> None:
        self._file, self._mapping, self._warn, self._wake = file, mapping, warn, wake
        self._thread: threading.Thread | None = None
        self._made: Epoch | None = None
        #: One is made.
        self.has_made = False
        self._not_before = 0.0
        self._stop = threading.Event()

    @property
    def is_idle(self) -> bool:
        return self._thread is None and clock.now() >= self._not_before

    def start(self, view: View, epoch: int, place: Place, length: int) -> None:
        """Makes one of the tree of a view, which it closes."""
        self._run(functools.partial(self._make, view, epoch, place, length))

    def made(self, last: Place) -> Epoch | None:
        """The epoch, once few lines are left up to the last one."""
        made = self._made
        if made is None:
            return None
        self._made = self._thread = None
        self.has_made = False
        if last.number - made.state.last.number > MOST_LEFT:
            self._run(functools.partial(self._go_on, made))
            return None
        return made

    def stop(self) -> None:
        self._stop.set()
        if self._thread is not None:
            self._thread.join()

    def _run(self, work: Callable[[], None]) -> None:
        self._thread = threading.Thread(target=self._try, args=(work,), name="epoch")
        self._thread.start()

    def _try(self, work: Callable[[], None]) -> None:
        try:
            work()
        except Exception as error:
            self._warn(f"no new epoch: {error}")
            self._not_before, self._thread = clock.now() + _PAUSE, None

    def _make(self, view: View, epoch: int, place: Place, length: int) -> None:
        """The snapshot, and the tree that is built of it. Mismatch: that is another one."""
        with view:
            lines = tuple(dumped(view))
            tree = built(lines, self._mapping, length)
            difference = first_difference(lines, dumped(tree.view))
        if difference is not None:
            raise Mismatch(f"the snapshot isn't the tree: {difference}")
        self._go_on(Epoch(Snapshot(epoch, place, length, lines), Loaded(tree, epoch, place, place, place.number)))

    def _go_on(self, made: Epoch) -> None:
        """Makes the lines that came meanwhile, until few are left."""
        count = MOST_LEFT + 1
        while count > MOST_LEFT and not self._stop.is_set():
            with Journal(self._file, only_reads=True) as journal:
                count = made.go_on(journal)
        self._made, self.has_made = made, True
        self._wake()
