"""What a child has of its folder, by the library: no rule of inheritance is written here."""

from dataclasses import dataclass
from functools import lru_cache

from hudarin import Descriptor, Node, Refused, Store

#: After so many edits another store is opened: a journal has 1,048,576 (docs/TREE.md).
_EDITS = 1_000_000
#: So many answers are kept.
_KEPT = 65_536


@dataclass(frozen=True, slots=True)
class Given:
    """What was given to a node, in SDDL: its own descriptor, and what it keeps that was inherited elsewhere with the
    offer there, or nothing."""

    own: str
    kept: str = ""
    offer: str = ""

    @property
    def words(self) -> str:
        """The end of its line in a script."""
        return " ".join(filter(None, (self.own, self.kept, self.offer)))


#: What was given to each folder from the root down: the root's is that of `open`.
Chain = tuple[Given, ...]

#: A child of which the copies that it inherits are what its folder offers: the creators' places stay theirs.
_OF_CREATORS = Given("O:COG:CGD:")


class TooMuch(Exception):
    """The tree refuses the node."""


class Inheritance:
    """The descriptors of nodes below folders, as a tree has them."""

    def __init__(self) -> None:
        self._store: Store | None = None
        self._chain: Chain = ()
        self._answers: dict[tuple[str, Given, bool], str] = {}

    def root(self, given: Given) -> str:
        """The descriptor of a root to which `given` was given, in canonical SDDL."""
        self._open(given)
        return self._asked("/")

    def offer(self, chain: Chain, above: str, is_container: bool) -> str:
        """The descriptor of a child of the creators: its list is what that folder offers its children."""
        return self.child(chain, above, _OF_CREATORS, is_container)

    def child(self, chain: Chain, above: str, given: Given, is_container: bool) -> str:
        """The descriptor, in canonical SDDL, of a child to which `given` was given, in the folder at the end of the
        chain, whose descriptor is `above`. Raises TooMuch if the tree refuses it."""
        key = (above[above.index("D:") :], given, is_container)
        answer = self._answers.get(key)
        if answer is None:
            answer = self._by_store(chain, given, is_container)
            if len(self._answers) >= _KEPT:
                self._answers.clear()
            self._answers[key] = answer
        return answer

    def _by_store(self, chain: Chain, given: Given, is_container: bool) -> str:
        store = self._store_of(chain)
        path = "/f" * (len(chain) - 1) + "/c"
        try:
            add(store, path, given, is_container)
        except Refused as refused:
            raise TooMuch(str(refused.name)) from refused
        answer = self._asked(path)
        store.remove(path)
        return answer

    def _store_of(self, chain: Chain) -> Store:
        """The store, with just the folders of the chain."""
        common = 0
        while common < min(len(chain), len(self._chain)) and chain[common] == self._chain[common]:
            common += 1
        if self._store is None or common == 0 or self._store.edits > _EDITS:
            store = self._open(chain[0])
            common = 1
        else:
            store = self._store
        for length in range(len(self._chain), common, -1):
            store.remove("/f" * (length - 1))
        for length in range(common, len(chain)):
            add(store, "/f" * length, chain[length], True)
        self._chain = chain
        return store

    def _open(self, given: Given) -> Store:
        if self._store is not None:
            self._store.close()
        self._store, self._chain = Store(Descriptor.from_sddl(given.own)), (given,)
        return self._store

    def _asked(self, path: str) -> str:
        assert self._store is not None
        with self._store.publish() as view:
            return str(view.descriptor(path))


def add(store: Store, path: str, given: Given, is_container: bool) -> None:
    """Adds a node to which `given` was given."""
    lists = [_descriptor(text) if text else None for text in (given.kept, given.offer)]
    adds = store.add_container if is_container else store.add_object
    adds(path, _descriptor(given.own), kept=lists[0], offer=lists[1])


@lru_cache(_KEPT)
def _descriptor(text: str) -> Descriptor:
    return Descriptor.from_sddl(text)


def given_to(node: Node) -> Given:
    """What was given to a node of a view."""
    return Given(str(node.own), *map(str, node.stored or ()))
