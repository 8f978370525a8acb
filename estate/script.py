"""A script that `estate read` wrote, with changes after it: its lines, and the trees before and after the changes."""

from bisect import bisect_left
from collections.abc import Callable, Iterator
from dataclasses import dataclass, field, replace
from functools import lru_cache
from sys import intern

from hudarin import Descriptor, Refused, Sid, Store, View, WholeEntry

from errors import Failed, Invalid
from gaps import HIDDEN, UNKNOWN, Coverage, Gap, count_in, gap_of
from inheritance import Chain, Given, add, given_to
from limits import MAX_EDITS, MAX_NODES
from others import FOR_CHILDREN, INHERITED, others_of, whole_of
from paths import Path, parsed, spelled
from sddl import parts_of

#: So many texts are kept with what they say: most nodes have one that another node of their folder has.
_KEPT = 4096
#: Commands that change no descriptor.
_QUESTIONS = {"tell", "learn", "check", "why", "show", "list", "dump", "who", "find", "delete", "review"}
#: Commands that read a node, and whether it is a container.
_STORED = {"addc": True, "addo": False}
#: Commands that make, remove or move files.
_OF_FILES = {"open", "import", "addc", "addo", "remove", "move"}


@dataclass(frozen=True, slots=True)
class Node:
    """A node that the script opens, imports or adds: what its line says of it. Nodes of which it says the same share
    one."""

    is_container: bool
    #: The descriptor of the source, in canonical SDDL; of the root what opens the tree.
    text: str
    #: How many files that inherit all have no line, by --folders.
    left_out: int = 0
    #: If the source has entries of other types: owner, group and DACL, as others.py spells them.
    whole: str = ""


@dataclass(slots=True)
class Change:
    """A node whose descriptor in the tree changes."""

    path: Path
    is_container: bool
    #: What the script read, and the same with entries of other types if there are any.
    read: str
    whole: str
    #: The tree's descriptors, in canonical SDDL.
    before: str
    after: str

    @property
    def is_of_dacl(self) -> bool:
        return parts_of(self.before).dacl != parts_of(self.after).dacl

    @property
    def is_passed_down(self) -> bool:
        """Whether what is in the folder may change too."""
        return parts_of(self.before).for_children != parts_of(self.after).for_children

    @property
    def dropped(self) -> list[WholeEntry]:
        """The entries of other types that the node had inherited and loses: all of one that no longer inherits."""
        is_closed = parts_of(self.before).inherits and not parts_of(self.after).inherits
        return [each for each in others_of(self.whole) if is_closed and each.flags & INHERITED]


@dataclass(slots=True)
class Script:
    """The nodes of a script, and the trees before and after its changes: `with read_script(name) as script: ..`."""

    name: str
    nodes: dict[Path, Node] = field(default_factory=dict)
    #: Where the source has more or other nodes, by the comments of `estate read`.
    gaps: list[Gap] = field(default_factory=list)
    _gap_count: int | None = None
    #: The paths of containers by their texts, while the lines of nodes are read.
    _folders: dict[str, Path] = field(default_factory=dict)
    #: Once they are asked for, after the last line.
    _changes: list[Change] | None = None
    #: The paths in their order, and the descriptor of each after the changes, once it was asked for.
    _paths: list[Path] = field(default_factory=list)
    _texts: list[str] = field(default_factory=list)
    _store: Store | None = None
    _before: View | None = None
    _after: View | None = None

    def __enter__(self) -> "Script":
        return self

    def __exit__(self, *_: object) -> None:
        for held in (self._before, self._after, self._store):
            if held is not None:
                held.close()

    @property
    def before(self) -> View:
        assert self._before is not None
        return self._before

    @property
    def after(self) -> View:
        assert self._after is not None
        return self._after

    def descriptor(self, path: Path) -> str:
        """The node's descriptor in the tree after the changes, in canonical SDDL: equal ones are one text."""
        return intern(str(self.after.descriptor(plain(path))))

    def number_of(self, path: Path) -> int:
        """How many nodes are before the path in the order of the paths."""
        if not self._paths:
            self._paths = sorted(self.nodes)
            self._texts = [""] * len(self._paths)
        return bisect_left(self._paths, path)

    def described(self, top: Path) -> Iterator[tuple[Path, str]]:
        """The nodes at and below a path in the order of the paths, each with its descriptor."""
        for number in range(self.number_of(top), len(self._paths)):
            path = self._paths[number]
            if path[: len(top)] != top:
                return
            text = self._texts[number] = self._texts[number] or self.descriptor(path)
            yield path, text

    def changes(self) -> list[Change]:
        """The nodes that change, in the order of the paths."""
        if self._changes is None:
            self._changes = list(self._compared()) if self.before.edits != self.after.edits else []
        return self._changes

    def _compared(self) -> Iterator[Change]:
        for path in sorted(self.nodes):
            at = plain(path)
            before, after = self.before.descriptor(at), self.after.descriptor(at)
            if before != after:
                node = self.nodes[path]
                texts = intern(str(before)), intern(str(after))
                yield Change(path, node.is_container, node.text, node.whole, *texts)

    # What the source has otherwise

    def covered(self, top: Path) -> Coverage:
        """What an answer about the nodes at and below a path is about."""
        return Coverage(sum(path[: len(top)] == top for path in self.nodes), self.gaps_below(top))

    def gaps_at(self, path: Path) -> list[Gap]:
        """What the source has otherwise of a node itself."""
        return [gap for gap in self.gaps if gap == UNKNOWN or (gap.what == "differs" and gap.path == path)]

    def gaps_below(self, top: Path) -> list[Gap]:
        """What the source has otherwise at and below a path."""
        return [gap for gap in self.gaps if gap == UNKNOWN or gap.path[: len(top)] == top]

    @property
    def excluded(self) -> set[Path]:
        """The nodes that --exclude left out, but not those below them."""
        return {gap.path for gap in self.gaps if gap.what == "excluded"}

    def gaps_of_changes(self, top: Path) -> list[Gap]:
        """What the source has otherwise of nodes at and below a path that change, or whose folder passes down other
        entries."""
        changed, passing = set(), set()
        for change in self.changes():
            changed.add(change.path)
            if change.is_container and change.is_passed_down:
                passing.add(change.path)

        def is_reached(gap: Gap) -> bool:
            if gap.what == "differs":
                return gap.path in changed
            return gap == UNKNOWN or (gap.path[:-1] if gap.what in HIDDEN else gap.path) in passing

        return list(filter(is_reached, self.gaps_below(top)))

    # Lines

    def read_line(self, line: str) -> None:
        """Carries out a line, or raises a ValueError."""
        if not line or line.startswith("#"):
            if self._before is None:
                self._remember(line)
            return
        command, *words = line.split(" ")
        if self._store is None:
            self._open(command, words)
        elif self._before is None and command in _STORED:
            self._add_stored(_STORED[command], words)
        elif self._before is None and command != "publish":
            self._import(command, words)
        elif command == "publish":
            self._publish()
        elif command in _OF_FILES:
            raise ValueError(f"{command}: files are neither made nor removed nor moved, so such a change isn't written")
        elif command not in _QUESTIONS:
            self._change(command, words)

    def _remember(self, comment: str) -> None:
        gap, count = gap_of(comment), count_in(comment)
        if count is not None:
            self._gap_count = count
        if gap is not None:
            self.gaps.append(gap)
            node = self.nodes.get(gap.path)
            if node is not None and gap.what == "files":
                self.nodes[gap.path] = replace(node, left_out=gap.count)
            if node is not None and gap.whole:
                whole_of(gap.whole)
                self.nodes[gap.path] = replace(node, whole=gap.whole)

    def _open(self, command: str, words: list[str]) -> None:
        if command != "open" or len(words) != 2:
            raise ValueError("'open 1 SDDL' is expected, as estate read writes it")
        descriptor = Descriptor.from_sddl(words[1])
        self._store = Store(descriptor, nodes=MAX_NODES, edits=MAX_EDITS)
        self.nodes[()] = Node(True, str(descriptor))

    def _import(self, command: str, words: list[str]) -> None:
        if command != "import" or len(words) != 3 or words[0] not in ("container", "object"):
            raise ValueError("'import KIND PATH SDDL' is expected, as estate read writes it, or 'publish'")
        self._add(words[0] == "container", words[1], *_imported(words[2]))

    def _add_stored(self, is_container: bool, words: list[str]) -> None:
        if len(words) != 4:
            raise ValueError("'addc PATH SDDL KEPT OFFER' is expected, as estate read writes it, or 'addo'")
        given = Given(*words[1:])
        # (what it had: its own entries, and then those that it had inherited)
        given_own, text = _imported(given.own + given.kept.removeprefix("D:"))
        if given_own.own != parts_of(given.own).own:
            raise ValueError(f"{given.kept}: not just inherited entries, as estate read writes them")
        self._add(is_container, words[0], given, text)

    def _add(self, is_container: bool, path_text: str, given: Given, text: str) -> None:
        assert self._store is not None
        path = self._path_of(path_text)
        add(self._store, plain(path), given, is_container)
        self.nodes[path] = _node(is_container, text)
        if is_container:
            self._folders[path_text] = path

    def _path_of(self, text: str) -> Path:
        """The path that a text spells: names of its folder are those that the folder has, in memory once."""
        above, _, name = text.rpartition("/")
        folder = self._folders.get(above) if name else None
        return parsed(text) if folder is None else (*folder, *parsed(f"/{name}"))

    def _publish(self) -> None:
        assert self._store is not None
        view = self._store.publish()
        if self._before is None:
            self._before, self._after = view, view.share()
            self._folders.clear()
        else:
            self.after.close()
            self._after = view

    def _change(self, command: str, words: list[str]) -> None:
        assert self._store is not None
        store = self._store
        edits: dict[str, tuple[int, Callable[..., None]]] = {
            "owner": (2, lambda path, sid: store.set_owner(path, Sid.from_text(sid))),
            "group": (2, lambda path, sid: store.set_group(path, Sid.from_text(sid))),
            "dacl": (2, lambda path, text: store.set_dacl(path, Descriptor.from_sddl(text))),
            "protect": (1, store.protect_keeping),
        }
        count, edit = edits.get(command, (0, None))
        if edit is None or len(words) != count:
            raise ValueError(f"{command!a}: not a command of a script, or a wrong number of arguments")
        edit(plain(parsed(words[0])), *words[1:])

    def end(self) -> None:
        """Raises a ValueError if the script isn't complete."""
        if self._store is None or self._before is None:
            raise ValueError("it ends before 'publish': it isn't complete")
        if self._store.edits != self.after.edits:
            raise ValueError("changes after the last 'publish' aren't published")
        if any(node.whole for node in self.nodes.values()):
            for change in self.changes():
                self._require_others(change)
        if self._gap_count != len(self.gaps):
            self.gaps.append(UNKNOWN)

    def _require_others(self, change: Change) -> None:
        """Raises a ValueError if the node can't have the entries of other types beside the tree that it would have."""
        before, after = parts_of(change.before), parts_of(change.after)
        above = self.nodes[change.path[:-1]].whole if change.path else ""
        if change.whole and after.entries is None:
            raise ValueError(f"{spelled(change.path)}: it has entries of other types, and a null DACL has none")
        if after.inherits and not before.inherits and any(each.flags & FOR_CHILDREN for each in others_of(above)):
            raise ValueError(f"{spelled(change.path)}: it would inherit entries of other types, and no write adds some")


@lru_cache(_KEPT)
def _node(is_container: bool, text: str) -> Node:
    return Node(is_container, text)


@lru_cache(_KEPT)
def _imported(text: str) -> tuple[Given, str]:
    """What an import of a descriptor gives a node, and the descriptor in canonical SDDL: equal ones are one text."""
    canonical = intern(str(Descriptor.from_sddl(text)))
    return Given(parts_of(canonical).own), canonical


def plain(path: Path) -> str:
    """The path's text for the library, which encodes nothing."""
    return "/" + "/".join(name.decode() for name in path)


def chain_of(view: View, path: Path) -> Chain:
    """What was given to the folder of the path and to those above it."""
    return tuple(given_to(view.own(plain(path[:length]))) for length in range(len(path) + 1))


def read_script(name: str) -> Script:
    """The script in a file. Invalid if a line can't be carried out, or is refused."""
    script = Script(name)
    number = 0
    try:
        with open(name, encoding="utf-8", newline="\n") as lines:
            for number, line in enumerate(lines, 1):
                script.read_line(line.removesuffix("\n").removesuffix("\r"))
        script.end()
    except Refused as refused:
        script.__exit__()
        raise Invalid(f"{name}: line {number}: refused: {refused}") from refused
    except ValueError as error:
        script.__exit__()
        raise Invalid(f"{name}: line {number}: {error}") from error
    except OSError as error:
        raise Failed(f"{name}: {error.strerror}") from error
    return script
