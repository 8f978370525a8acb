"""What each of two scripts says of the nodes of a source, or can't say."""

import dataclasses
from collections import Counter
from collections.abc import Iterator
from dataclasses import dataclass, field
from functools import lru_cache

from gaps import HIDDEN, Coverage, Gap
from paths import Path
from script import Script
from sddl import parts_of

#: The kinds of gaps whose nodes a coverage counts.
_COUNTED = (*HIDDEN, "files")

#: The kind of a gap, and its path.
Place = tuple[str, Path]


@dataclass(frozen=True, slots=True)
class State:
    """What a script has of a node, after its changes."""

    is_container: bool
    #: Owner, group, and the allows and denies of the DACL: those of the source, unless the script changes the node.
    text: str
    #: If the source has entries of other types: owner, group and DACL, as others.py spells them.
    whole: str = ""
    #: Whether the source may have others than these, or another order.
    is_unsure: bool = False

    @property
    def kind(self) -> str:
        return "folder" if self.is_container else "file"


@lru_cache(65_536)
def _state(is_container: bool, text: str, whole: str, is_unsure: bool) -> State:
    """Nodes with the same descriptor share one."""
    return State(is_container, text, whole, is_unsure)


#: The states of a node in two scripts: None where it isn't there.
Pair = tuple[State | None, State | None]


class Side:
    """One of the scripts."""

    def __init__(self, script: Script) -> None:
        #: Where the source has more or other nodes than the script.
        self.gaps: dict[Place, Gap] = {(gap.what, gap.path): gap for gap in script.gaps}
        self.states = {path: self._read(script, path) for path in script.nodes}
        for change in script.changes():
            read, is_unsure = self.states[change.path], ("differs", change.path) in self.gaps
            self.states[change.path] = _state(read.is_container, parts_of(change.after).text, read.whole, is_unsure)

    def _read(self, script: Script, path: Path) -> State:
        """As it was read: of the root a script has the entries in the order of a tree alone."""
        node = script.nodes[path]
        is_unsure = not path and ("differs", path) in self.gaps
        return _state(node.is_container, node.text, node.whole, is_unsure)

    def hiding(self, path: Path, is_container: bool) -> Place | None:
        """The gap by which the script doesn't say whether there is such a node, of which it has no line."""
        for length in range(len(path) + 1):
            kinds = HIDDEN if length == len(path) else (*HIDDEN, "unlisted")
            for what in kinds:
                if (what, path[:length]) in self.gaps:
                    return what, path[:length]
        files = "files", path[:-1]
        return files if path and not is_container and files in self.gaps else None


@dataclass(slots=True)
class Compared:
    """The nodes of two scripts, beside each other."""

    before: Side
    after: Side
    #: The nodes of which both say something, in the order of the paths.
    pairs: dict[Path, Pair] = field(default_factory=dict)
    #: Of each gap of one script how many nodes the other has for which it says nothing.
    _hidden: tuple[Counter[Place], Counter[Place]] = field(init=False)

    def __post_init__(self) -> None:
        self._hidden = Counter(), Counter()
        for path in sorted({*self.before.states, *self.after.states}):
            pair = self.before.states.get(path), self.after.states.get(path)
            if not self._is_hidden(path, pair):
                self.pairs[path] = pair

    def _is_hidden(self, path: Path, pair: Pair) -> bool:
        """Whether one of the scripts doesn't say whether the node is there."""
        for side, has, other, hidden in zip((self.before, self.after), pair, reversed(pair), self._hidden):
            place = side.hiding(path, other.is_container) if has is None and other is not None else None
            if place is not None:
                hidden[place] += 1
                return True
        return False

    def left_out(self) -> Iterator[tuple[Gap, str]]:
        """The gaps of which the comparison isn't, in the order of their paths, and of which scripts each one is."""
        before, after = (dict(self._gaps(side)) for side in (self.before, self.after))
        for place in sorted({*before, *after}, key=lambda place: (place[1], place[0])):
            if before.get(place) == after.get(place):
                yield before[place], "both"
            else:
                sides = ((before, "before"), (after, "after"))
                yield from ((gaps[place], name) for gaps, name in sides if place in gaps)

    def _gaps(self, side: Side) -> Iterator[tuple[Place, Gap]]:
        """Those of a script, without the nodes that differ and are sure all the same, or whose folder has a gap of the
        other script."""
        for place, gap in side.gaps.items():
            is_named = gap.path in self.pairs or gap.path not in side.states
            if gap.what != "differs" or (is_named and not self._is_sure(gap.path)):
                yield place, gap

    def _is_sure(self, path: Path) -> bool:
        """Whether what the scripts have of a node shows all that changed: all of its entries, or the same in both."""
        pair = self.pairs.get(path, ())
        has = [(state.text, state.whole) for state in pair if state is not None and not state.is_unsure]
        if len(has) < len(pair) - pair.count(None) or not has:
            return False
        return len(has) == 2 and has[0] == has[1] or not any(whole for _, whole in has)

    def coverage(self) -> Coverage:
        """How many nodes are compared, and how many can't be: of a gap of both scripts the larger number counts."""
        counted: dict[Place, Gap] = {}
        for side, hidden in zip((self.before, self.after), self._hidden):
            for place, gap in self._gaps(side):
                count = gap.count
                if gap.what in _COUNTED:
                    count = max(count, hidden[place] - (gap.what in HIDDEN))
                if place not in counted or counted[place].count < count:
                    counted[place] = dataclasses.replace(gap, count=count)
        return Coverage(len(self.pairs), list(counted.values()))
