"""A store of the library: what edits change, what readers see, and the length of its journal over all epochs."""

from collections.abc import Iterable, Iterator, Sequence

import hudarin
from hudarin import Descriptor, Store, View

from answers import Result
from edits import PUBLISH, Edit, edit_of
from errors import Fault, Mismatch
from spelling import descriptor_of, fault_of, printed, spelled

Mapping = tuple[int, int, int, int]
MAPPINGS: dict[str, Mapping] = hudarin.MAPPINGS


class Tree:
    """A length counts all edits that were ever accepted, so it goes on where a compact journal takes over."""

    def __init__(self, root: Descriptor, mapping: str) -> None:
        self._store = Store(root, MAPPINGS[mapping])
        #: The published tree, and the number of published edits.
        self.view = self._store.publish()
        self.length = self.view.edits

    def make(self, edit: Edit) -> Result | None:
        """Makes the edit, or says why it is refused."""
        return edit.make(self._store)

    def publish(self) -> View:
        """Publishes all pending edits, and returns the view that was published until now, which the caller closes."""
        old, self.view = self.view, self._store.publish()
        self.length += self.view.edits - old.edits
        return old

    def pending_view(self) -> View:
        """The tree with all pending edits, of which none is published by that."""
        return self._store.publish()

    def revert(self, view: View) -> None:
        """Makes the tree that of the view, which has its pending edits at a moment since the last publish."""
        self._store.revert(view)

    @property
    def pending(self) -> int:
        """The number of pending edits."""
        return self._store.edits - self.view.edits

    def close(self) -> None:
        self.view.close()
        self.close_store()

    def close_store(self) -> None:
        """Ends the edits; the published view stays."""
        self._store.close()


def built(lines: Sequence[str], mapping: str, length: int | None = None) -> Tree:
    """The tree of the lines of a dump, published. Mismatch: one isn't carried out, by its number."""
    tree = _opened(lines, mapping)
    for number, line in enumerate(lines[1:], 2):
        if line == PUBLISH and number == len(lines):
            tree.publish().close()
            break
        words = line.split(" ")
        if words[0] not in ("addc", "addo"):
            raise Mismatch(f"line {number} of the snapshot: {line!a:.200} is no addition")
        refusal = refused(tree, words)
        if refusal is not None:
            raise Mismatch(f"line {number} of the snapshot: {line!a:.200}: {refusal}")
    else:
        raise Mismatch("the snapshot doesn't end with a line 'publish'")
    if length is not None:
        tree.length = length
    return tree


def _opened(lines: Sequence[str], mapping: str) -> Tree:
    words = lines[0].split(" ") if lines else []
    if len(words) != 3 or words[0] != "open":
        raise Mismatch(f"line 1 of the snapshot: 'open N SDDL' is expected, not {lines[:1]!a:.200}")
    try:
        return Tree(descriptor_of(words[2]), mapping)
    except Fault as fault:
        raise Mismatch(f"line 1 of the snapshot: {fault}") from None
    except hudarin.Refused as refused:
        raise Mismatch(f"line 1 of the snapshot: {fault_of(refused).line()}") from None


def refused(tree: Tree, words: Sequence[str]) -> str | None:
    """Makes the edit of these words, or says why it isn't made."""
    try:
        answer = tree.make(edit_of(words, tree.view))
        return None if answer is None else answer.line()
    except Fault as fault:
        return str(fault)
    except KeyError:
        return f"{words[0]!a:.100} is no edit"


def dumped(view: View) -> Iterator[str]:
    """The lines that make the tree of the view again, as `dump` prints them."""
    nodes = view.nodes()
    yield f"open 1 {printed(next(nodes).own)}"
    for node in nodes:
        yield f"{'addc' if node.is_container else 'addo'} {spelled(node.path)} {printed(node.own)}"
    yield PUBLISH


def first_difference(lines: Iterable[str], others: Iterable[str]) -> str | None:
    """The first line in which two dumps differ, or None."""
    one, two = iter(lines), iter(others)
    for line in one:
        other = next(two, "nothing")
        if line != other:
            return f"{line!a:.200} and {other!a:.200}"
    return next((f"nothing and {other!a:.200}" for other in two), None)
