"""Views of a store: its tree at a publish."""

import itertools
from pathlib import PurePath
from typing import Any, Callable, Iterable, Iterator, List, NamedTuple, Optional, Tuple

from ._answers import _checked
from ._arguments import NodePath, _of_type, _path
from ._descriptors import Descriptor
from ._held import _Held, _Shared
from ._library import _library, _view_check
from ._masks import Mask, _mask
from ._numbers import _NO_NODE, _NO_PART, STATUSES
from ._refused import Refused
from ._tokens import Token
from ._verdicts import Verdict, _verdict

_CONTAINER = 1
#: The parts of what a node keeps.
_KEPT, _OFFER = 1, 2


class Stored(NamedTuple):
    """What a node keeps that was inherited elsewhere: each a descriptor with neither owner nor group, whose list isn't
    protected."""

    #: What it had inherited.
    kept: Descriptor
    #: What its container passed down there. While its container passes down the same, the node has what it keeps.
    offer: Descriptor


class Node(NamedTuple):
    """A node of a view."""

    path: str
    is_container: bool
    #: Its owner, its group and its own DACL, without what it inherits.
    own: Descriptor
    #: What it keeps that was inherited elsewhere, or None.
    stored: Optional[Stored] = None


class View(_Shared):
    """The tree of a ``Store`` at a publish. It never changes: ``with store.publish() as view: ..``, or until ``close``.
    It iterates the path of each node, the root's first, and each after its parent's. Threads take turns at it, or use a
    ``share`` each."""

    __slots__ = ()

    _argument = "view"

    def check(self, path: NodePath, token: Token, asked: Mask) -> Verdict:
        """Whether the node of the path grants ``asked``, with the mapping of the store. Without such a node:
        ``Refused``."""
        given = _path(path)
        _of_type(token, Token, "token")
        bits = _mask(asked, "asked")
        with self._turn, token._turn:
            checked = _view_check(self._kept, given, len(given), token._kept, bits)
        return _verdict(checked)

    def check_all(self, paths: Iterable[NodePath], token: Token, asked: Mask) -> List[Optional[Verdict]]:
        """The same for the node of each path, faster than one by one. None where there is no such node."""
        _of_type(token, Token, "token")
        if isinstance(paths, (str, PurePath)):
            raise TypeError(f"paths: expected paths, not {paths!r}")
        given, bits = [_path(path) for path in paths], _mask(asked, "asked")
        with self._turn, token._turn:
            view, kept = self._kept, token._kept
            answers = [_view_check(view, path, len(path), kept, bits) for path in given]
        return [None if answer.status == _NO_NODE else _verdict(answer) for answer in answers]

    def descriptor(self, path: NodePath) -> Descriptor:
        """The descriptor of the node of the path, with the entries that it inherits."""
        return Descriptor._of(self._of_path(_library.hudarin_view_descriptor, path)[0])

    def own(self, path: NodePath) -> Node:
        """The node of the path. An addition with its own descriptor and what it keeps makes the same node."""
        return self._node(path, self._place_of(path))

    def stored(self, path: NodePath) -> Optional[Stored]:
        """What the node of the path keeps that was inherited elsewhere, or None."""
        return self.own(path).stored

    def _node(self, path: NodePath, place: int) -> Node:
        form, answer = self._of_path(_library.hudarin_view_own, path)
        return Node(_path(path).decode(), answer.kind == _CONTAINER, Descriptor._of(form), self._stored_at(place))

    def _stored_at(self, place: int) -> Optional[Stored]:
        try:
            return Stored(self._list_at(place, _KEPT), self._list_at(place, _OFFER))
        except Refused as refused:
            if refused.status == STATUSES[_NO_PART]:
                return None
            raise

    def _list_at(self, place: int, part: int) -> Descriptor:
        return Descriptor._of(self._written(_library.hudarin_view_stored, place, part)[0])

    def _place_of(self, path: NodePath) -> int:
        """The place of the node of the path in the order of the paths: of names, each by its bytes. Of no node a place
        at which there is none or another one."""
        names = _path(path).split(b"/")
        low, high = 0, 1
        while self._is_before(high, names):
            low, high = high, 2 * high
        while low < high:
            middle = (low + high) // 2
            if self._is_before(middle, names):
                low = middle + 1
            else:
                high = middle
        return low

    def _is_before(self, place: int, names: List[bytes]) -> bool:
        """Whether there is a node at the place, before these names."""
        path = self._path_at(place)
        return path is not None and path.split(b"/") < names

    def _of_path(self, call: Callable[..., Any], path: object) -> Tuple[bytes, Any]:
        given = _path(path)
        return self._written(call, given, len(given), argument="path")

    def __iter__(self) -> Iterator[str]:
        for place in itertools.count():
            path = self._path_at(place)
            if path is None:
                return
            yield path.decode()

    def __contains__(self, path: object) -> bool:
        """Whether there is a node of the path. What is no path is ``Refused``."""
        try:
            self._of_path(_library.hudarin_view_own, path)
        except Refused as refused:
            if refused.status == STATUSES[_NO_NODE]:
                return False
            raise
        return True

    def nodes(self) -> Iterator[Node]:
        """Each node, in the order of the paths."""
        return map(self._node, self, itertools.count())

    def _path_at(self, place: int) -> Optional[bytes]:
        """The path at a place in their order, or None after the last one."""
        try:
            return self._written(_library.hudarin_view_node, place)[0]
        except Refused as refused:
            if refused.status == STATUSES[_NO_NODE]:
                return None
            raise

    @property
    def edits(self) -> int:
        """The number of edits of its tree."""
        return _journal_length(self)


def _journal_length(held: _Held) -> int:
    with held._turn:
        return int(_checked(_library.hudarin_journal_length(held._kept), argument=held._argument).length)
