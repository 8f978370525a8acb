"""Stores: a tree that is edited, judged, reviewed and published."""

import itertools
from typing import Any, Callable, Iterable, Iterator, NamedTuple, Optional, Tuple

from ._answers import _checked
from ._arguments import NodePath, _number, _of_type, _path
from ._descriptors import Descriptor
from ._edits import _Edits
from ._held import _Held
from ._library import _library
from ._lines import _Lines
from ._masks import Mask, _mapping
from ._numbers import _NO_NODE, FILES, STATUSES
from ._refused import Refused
from ._views import View, _journal_length

_REVIEWS = {2: "changed", 3: "new", 4: "moved", 5: "gone"}


class Reviewed(NamedTuple):
    """What a publish does to a node. It prints as the lines of ``review`` in ``sdstore script``."""

    #: "changed", "new", "moved" or "gone".
    kind: str
    path: str
    #: Of a moved node the path where it was, else None.
    before: Optional[str]
    #: The bits that some token gains of the node itself, and those that some token loses.
    gained: int
    lost: int
    #: The lines of ``sdstore compare``, as "gained 0x2 by S-1-5-32-545", of what is made in it only for a container.
    changes: Tuple[str, ...]

    def __str__(self) -> str:
        lines = [f"{self.path} {change}" for change in self.changes]
        if self.kind == "moved":
            lines.insert(0, f"moved {self.before} {self.path}")
        elif self.kind != "changed":
            lines.insert(0, f"{self.kind} {self.path}")
        return "\n".join(lines)


def _reviewed(written: bytes, answer: Any, lines: _Lines) -> Optional[Reviewed]:
    """What the library wrote and answered of a place, or None if nothing happens to the node there."""
    if answer.what not in _REVIEWS:
        return None
    path, before = written[: answer.path].decode(), written[answer.path :].decode()
    changes = tuple(map(lines.printed, range(len(lines))))
    return Reviewed(_REVIEWS[answer.what], path, before or None, answer.gained, answer.lost, changes)


class Store(_Held, _Edits):
    """A tree of containers and objects that inherit entries: ``with Store(root) as store: ..``, or until ``close``. No
    view has its edits before the next ``publish``. Threads take turns at it."""

    __slots__ = ()

    _argument = "store"

    def __init__(
        self, root: Descriptor, mapping: Iterable[Mask] = FILES, *, nodes: int = 65536, edits: int = 1048576
    ) -> None:
        """The tree of the root alone: a container with the descriptor's owner, group and own DACL. It takes at most so
        many nodes, the root counted, from 1 to 16777216, and so many edits, up to 4294967296."""
        given = bytes(_of_type(root, Descriptor, "root"))
        request = _mapping(mapping), _number(nodes, "nodes", 64), _number(edits, "edits", 64)
        self._keep(_library.hudarin_store_open_within, given, len(given), *request)

    def _edit(self, edit: int, path: NodePath, value: bytes = b"") -> None:
        self._call(_library.hudarin_store_edit, edit, path, value)

    def _add_stored(self, kind: int, path: NodePath, *forms: bytes) -> None:
        self._call(_library.hudarin_store_add_stored, kind, path, *forms)

    def _call(self, call: Callable[..., Any], edit: int, path: NodePath, *values: bytes) -> None:
        given = [part for value in (_path(path), *values) for part in (value, len(value))]
        with self._turn:
            _checked(call(self._kept, edit, *given))

    @property
    def judge(self) -> "Judge":
        """The edits of the store, of which none is made: ``store.judge.remove(path)`` is ``Refused`` if
        ``store.remove(path)`` would be."""
        return Judge(self)

    def revert(self, view: View) -> None:
        """Makes the tree that of the view, and its edits the view's. So several edits can be made all or none."""
        _of_type(view, View, "view")
        with self._turn, view._turn:
            closed = self._argument if self._kept.is_there == 0 else view._argument
            _checked(_library.hudarin_store_revert(self._kept, view._kept), argument=closed)

    def publish(self) -> View:
        """A view of the tree with all its edits."""
        view = View()
        with self._turn:
            _checked(_library.hudarin_store_publish(self._kept, view._kept), argument=self._argument)
        return view

    def review(self) -> Iterator[Reviewed]:
        """What the next ``publish`` changes, for all tokens, beside the last one, the last ``revert`` or the root
        alone: each node of the tree that is new, moved or changed, in the order of the paths, and then each that is
        gone. The next one after an edit is a RuntimeError."""
        edits = self.edits
        with _Lines() as lines:
            for place in itertools.count():
                try:
                    written, answer = self._review_at(place, lines)
                except Refused as refused:
                    if refused.status == STATUSES[_NO_NODE]:
                        return
                    raise
                if self.edits != edits:
                    raise RuntimeError("the store was edited during its review")
                reviewed = _reviewed(written, answer, lines)
                lines.close()
                if reviewed is not None:
                    yield reviewed

    def _review_at(self, place: int, lines: _Lines) -> Tuple[bytes, Any]:
        return self._written(lambda *given: _library.hudarin_store_review(*given, lines._kept), place)

    @property
    def edits(self) -> int:
        """The number of edits of its tree, pending ones too."""
        return _journal_length(self)


class Judge(_Edits):
    """The edits of a ``Store``, of which none is made. Each is ``Refused`` if the store would refuse it, and otherwise
    returns None."""

    __slots__ = ("_store",)

    def __init__(self, store: Store) -> None:
        self._store = _of_type(store, Store, "store")

    def _edit(self, edit: int, path: NodePath, value: bytes = b"") -> None:
        self._store._call(_library.hudarin_store_judge, edit, path, value)

    def _add_stored(self, kind: int, path: NodePath, *forms: bytes) -> None:
        self._store._call(_library.hudarin_store_judge_stored, kind, path, *forms)
