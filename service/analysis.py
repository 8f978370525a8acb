"""Questions about many nodes, or about all tokens: each is answered beside the loop, by views of its own, and up to a
deadline.

The lines are those of a script (docs/SCRIPT.md) and of `sdstore compare` (docs/ANALYSIS.md)."""

import functools
import itertools
from collections.abc import Callable, Iterable, Iterator, Sequence
from dataclasses import dataclass
from typing import NamedTuple

from hudarin import Comparison, Descriptor, Group, Refused, Token, Verdict, View

import apart
from answers import Answer, Result, Reviewed, Text
from deadline import Deadline
from errors import Fault
from reach import is_within
from spelling import all_spelled, fault_of, path_of, spelled
from tree import Mapping, dumped

#: The most bytes of one answer, and how many more are counted at once.
ANSWER_BYTES, _STEP = 1 << 28, 1 << 20
#: The comparisons that a review keeps: nodes beside one another mostly have the same descriptors.
_KEPT = 64
#: The paths, and the lines of edits, between two looks at the deadline: each takes microseconds.
_AT_ONCE = 64
#: The same of nodes: to print a long descriptor takes milliseconds.
_NODES_AT_ONCE = 16
#: The words of tokens that are looked at, one by one for each node, between two looks at the deadline.
_WORDS_AT_ONCE = 4_096


def gathered(pieces: Iterable[bytes], deadline: Deadline, most: int = ANSWER_BYTES) -> bytes:
    """The answer of these pieces. Fault: it is too long, or too late."""
    kept, counted = bytearray(), 0
    for piece in pieces:
        deadline.require()
        kept += piece
        if len(kept) >= counted + _STEP:
            counted = len(kept)
            if counted > most:
                raise Fault(Result("unavailable", "large"))
            deadline.hold(counted)
    return kept


def descriptor_in(view: View, path: str) -> Descriptor | None:
    """The descriptor of the node with the entries that it inherits; None without a node. Fault: it is no path."""
    try:
        return view.descriptor(path)
    except Refused as refused:
        if refused.status == "no node":
            return None
        raise Fault(fault_of(refused)) from None


def _required(view: View, path: str, seen: int | None = None) -> Descriptor:
    """The same. Fault: there is no node either; of a reader's question the answer has the length that it has seen."""
    descriptor = descriptor_in(view, path)
    if descriptor is None:
        raise Fault(Result("nonode", seen=seen))
    return descriptor


class Node(NamedTuple):
    """A node, with the entries that it inherits."""

    kind: str
    path: str
    descriptor: str

    def line(self) -> str:
        return f"{self.kind} {spelled(self.path)} {self.descriptor}"

    def json(self) -> dict[str, str]:
        return {"kind": self.kind, "path": self.path, "descriptor": self.descriptor}


class Found(NamedTuple):
    """The paths of nodes that are found, each a line of its own and an item."""

    paths: Sequence[str]

    def line(self) -> str:
        return "\n".join(all_spelled(self.paths))

    def json(self) -> Sequence[str]:
        return self.paths


def dump(view: View, deadline: Deadline) -> Iterator[Answer]:
    with view:
        yield from map(Text, deadline.paced(dumped(view), _NODES_AT_ONCE))


def listed(view: View, top: str, deadline: Deadline) -> Iterator[Answer]:
    """The nodes at and below the path. Fault: there is no such node."""
    # (nodes beside one another mostly have the same descriptor)
    printed = functools.lru_cache(1)(str)
    with view:
        _required(view, top)
        for node in deadline.paced(view.nodes(), _NODES_AT_ONCE):
            if is_within(top, node.path):
                kind = "container" if node.is_container else "object"
                yield Node(kind, node.path, printed(view.descriptor(node.path)))


def found(
    view: View, seen: int, top: str, token: Token, words: int, asked: int, deadline: Deadline
) -> Iterator[Answer]:
    """The paths of the nodes at and below the path that grant what is asked to the token of so many words. Fault: there
    is no node of the path."""
    with view, token:
        _required(view, top, seen)
        yield Result("found", seen=seen)
        for paths in deadline.parts(view, min(_AT_ONCE, _checks_at_once(words))):
            if top != "/":
                paths = [path for path in paths if is_within(top, path)]
            verdicts = view.check_all(paths, token, asked)
            # (to ask a verdict whether it is true takes longer)
            granting = [
                path for path, verdict in zip(paths, verdicts) if verdict is not None and verdict.kind == "granted"
            ]
            if granting:
                yield Found(granting)


def checked(
    view: View, paths: Sequence[str], token: Token, words: int, asked: int, deadline: Deadline
) -> Iterator[Verdict | None]:
    """The verdict at each path for the token of so many words."""
    for part in deadline.parts(paths, _checks_at_once(words)):
        yield from view.check_all(part, token, asked)


def _checks_at_once(words: int) -> int:
    """How many nodes are checked between two looks at the deadline, for a token of so many words."""
    return max(1, _WORDS_AT_ONCE // (words + 1))


def granted(
    view: View, path: str, asked: int, base: Sequence[Group], mapping: Mapping, deadline: Deadline
) -> Iterator[Answer]:
    """Whom the node grants which of the rights, of all tokens that have the base. Fault: there is no node."""
    with view:
        descriptor = _required(view, path)
    yield from _texts(apart.granted(descriptor, asked, base, mapping, deadline), "empty")


def compared(view: View, path: str, new: Descriptor, base: Sequence[Group], mapping: Mapping) -> Iterator[Answer]:
    """What such tokens gain and lose if the descriptor takes the place of the node's. Fault: there is no node."""
    with view:
        descriptor = _required(view, path)
    yield from _texts(_changes_of(descriptor.compare(new, base, mapping)).of_container, "same")


def _texts(lines: Sequence[str], nothing: str) -> Iterator[Answer]:
    """The lines, or the one that says that there is none."""
    yield from map(Text, lines)
    if not lines:
        yield Result(nothing)


class _Changes(NamedTuple):
    """A line for each change: of an object, and of a container, where those of what is made in it are among them."""

    of_object: list[str]
    of_container: list[str]


def _changes_of(comparison: Comparison) -> _Changes:
    own = [str(change) for change in comparison.gained + comparison.lost]
    below = [str(change) for change in comparison.below]
    end = [comparison.inheritance] if comparison.inheritance else []
    return _Changes(own + end, own + below + end)


# What a publish would change


@dataclass(frozen=True, slots=True)
class Reviewing:
    """A store at one moment: its published tree, the one with all pending edits, and how many edits made each."""

    old: View
    new: View
    old_length: int
    new_length: int


def reviewed(
    pending: Reviewing, lines: Iterable[str], top: str, may_see: Callable[[str], bool], mapping: Mapping,
    deadline: Deadline,
) -> Iterator[Answer]:
    """What the pending edits, of these lines, change at and below the path: what comes from where the client may not
    see it is new. Fault: no node is there, and none was."""
    old, new = pending.old, pending.new

    @functools.lru_cache(_KEPT)
    def compared(was: Descriptor, now: Descriptor) -> _Changes:
        # (of long lists that takes long)
        deadline.require()
        return _changes_of(was.compare(now, (), mapping))

    with old, new:
        was, now = (list(deadline.paced(view, _AT_ONCE)) for view in (old, new))
        stood, stands = frozenset(was), frozenset(now)
        if descriptor_in(new, top) is None and top not in stood:
            raise Fault(Result("nonode"))
        origins = _Origins(deadline.paced(was, _AT_ONCE), deadline.paced(lines, _AT_ONCE))
        for path in deadline.paced(now, _NODES_AT_ONCE):
            if is_within(top, path):
                before = path if path in stood else origins.of(path)
                if before is not None and not may_see(before):
                    before = None
                for line in _changes(old, new, before, path, compared):
                    yield Text(line)
        yield from (Text(f"gone {spelled(path)}") for path in was if path not in stands and is_within(top, path))
    yield Reviewed(pending.old_length, pending.new_length)


def _changes(
    old: View, new: View, before: str | None, path: str, compared: Callable[[Descriptor, Descriptor], _Changes]
) -> Iterable[str]:
    """The lines of a node that is there now, and was at the path `before`, or nowhere."""
    if before is None:
        return [f"new {spelled(path)}"]
    moved = [] if before == path else [f"moved {spelled(before)} {spelled(path)}"]
    was, now = old.descriptor(before), new.descriptor(path)
    if was == now:
        return moved
    name, (of_object, of_container) = spelled(path), compared(was, now)
    is_container = of_container != of_object and new.own(path).is_container
    changes = of_container if is_container else of_object
    return itertools.chain(moved, (f"{name} {change}" for change in changes))


@dataclass(slots=True)
class _Node:
    """A node, where it was published, if it was, and those below it."""

    was: str | None
    below: dict[str, "_Node"]


class _Origins:
    """Where each node was before the pending edits."""

    def __init__(self, was: Iterable[str], lines: Iterable[str]) -> None:
        self._root = _Node("/", {})
        for path in was:
            if path != "/":
                self._put(path, _Node(path, {}))
        for line in lines:
            name, *words = line.split(" ")
            if name in ("addc", "addo"):
                self._put(path_of(words[0]), _Node(None, {}))
            elif name == "remove":
                self._take(path_of(words[0]))
            elif name == "move":
                self._put(path_of(words[1]), self._take(path_of(words[0])))

    def of(self, path: str) -> str | None:
        node = self._root
        for name in path.split("/")[1:]:
            node = node.below[name]
        return node.was

    def _put(self, path: str, node: _Node) -> None:
        parent, name = self._parent(path)
        parent.below[name] = node

    def _take(self, path: str) -> _Node:
        parent, name = self._parent(path)
        return parent.below.pop(name)

    def _parent(self, path: str) -> tuple[_Node, str]:
        node = self._root
        _, *names, last = path.split("/")
        for name in names:
            node = node.below[name]
        return node, last
