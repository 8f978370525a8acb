"""What a store goes back to where a commit fails."""

from collections.abc import Sequence

from entry import Line, Place
from loading import Loaded, Moment

#: So many lines at most are made again: to keep what was before each commit costs more than the commit.
_MOST_LINES = 256


class Checkpoint:
    """What a state was a few lines ago, without a publish since, and these lines, which are on disk."""

    def __init__(self) -> None:
        self._moment: Moment | None = None
        self._lines: list[tuple[Line, bytes]] = []
        self._published = self._last = Place(0, b"")

    def begin(self, state: Loaded) -> Place:
        """The last line, after which others are made. Until `end` they can be taken back."""
        if self._moment is None or self._published is not state.published or len(self._lines) >= _MOST_LINES:
            self.forget()
            self._moment, self._published = Moment(state), state.published
        self._last = state.last
        return state.last

    def end(self, lines: Sequence[tuple[Line, bytes]]) -> None:
        """These lines are on disk."""
        self._lines += lines

    def restore(self, state: Loaded, last: Place | None) -> bool:
        """Makes the state that of all lines up to the last one on disk, if that is known: it has all of what was made
        since `begin`, or nothing of it. MemoryError: it may be called again."""
        if self._moment is None or last not in (self._last, state.last):
            return False
        if last == self._last:
            self._moment.restore(state)
            for line, chain in self._lines:
                state.replay(line, chain)
        self.forget()
        return True

    def forget(self) -> None:
        """There is nothing to go back to."""
        if self._moment is not None:
            self._moment.close()
        self._moment, self._lines = None, []
