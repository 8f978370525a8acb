"""A tree with every kind of descriptor that estate handles, by the second implementation of the rules."""

import random
from collections.abc import Iterator
from dataclasses import dataclass, field

from rig import (
    AI,
    AUDIT,
    MANAGER,
    NO_SID_ENTRY,
    OBJECT_ENTRY,
    PRESENT,
    PROTECTED,
    Names,
    acl_bytes,
    entry_bytes,
    form,
    node_form,
    sid_bytes,
)
from second import ALIASES, CI, ID, IO, NP, OI, Entry, Node, Tree, offered

USERS = [(5, (21, 1, 2, 3, 1000 + number)) for number in range(20)]
BA, BU, BG, SY, WD, CO, CG = (ALIASES[name] for name in ("BA", "BU", "BG", "SY", "WD", "CO", "CG"))
FULL, READ, WRITE = 0x1F01FF, 0x120089, 0x120116
ODD_NAMES = [
    "a b",
    "50%",
    "%2F",
    "-x",
    "--",
    "#",
    "\u00e9\u4e2d\U0001f600",
    "a'b",
    '"',
    "tab\t",
    "line\nfeed",
    "\x1b[31m",
    "e=mc^2",
]


def allow(sid: tuple[int, tuple[int, ...]], mask: int, flags: int = OI | CI) -> Entry:
    return Entry("A", flags, mask, sid)


def deny(sid: tuple[int, tuple[int, ...]], mask: int, flags: int = OI | CI) -> Entry:
    return Entry("D", flags, mask, sid)


#: What is given to nodes, by kind: whether protected, and own entries, or None for a null DACL.
KINDS = {
    "inherits": (False, []),
    "own allow": (False, [allow(BG, READ)]),
    "own deny": (False, [deny(BG, WRITE), allow(BU, READ)]),
    "protected": (True, [allow(BA, FULL), allow(BU, READ)]),
    "protected, empty": (True, []),
    "null": None,
    "creator": (False, [allow(CO, 0x10000000, OI | CI | IO), allow(CG, 0x80000000)]),
    "objects alone": (False, [allow(BG, READ, OI), allow(BU, WRITE, OI | NP)]),
    "containers alone": (False, [deny(SY, 0x1, CI | NP), allow(BG, READ, CI)]),
    "generic": (False, [allow(BU, 0x80000000), allow(WD, 0x20000000, OI | CI | IO)]),
    "long": (False, [allow(user, 1 << (at % 9)) for at, user in enumerate(USERS * 10)]),
    "audited": (False, []),
    "managed": (False, [allow(BU, READ)]),
}


@dataclass
class Planted:
    """A tree as the rules have it, and nodes whose bytes on the volume are otherwise."""

    tree: Tree
    kinds: dict[Names, str]
    #: Nodes that no tree has as they are: what `read` has to say of each, "skipped" or "differs".
    said: dict[Names, str] = field(default_factory=dict)
    forms: dict[Names, bytes] = field(default_factory=dict)

    def form(self, path: Names) -> bytes:
        if path in self.forms:
            return self.forms[path]
        kind = self.kinds.get(path)
        return node_form(self.tree, path, AUDIT if kind == "audited" else b"", MANAGER if kind == "managed" else 0)

    @property
    def sacl_count(self) -> int:
        return sum(kind == "audited" for kind in self.kinds.values())


def planted(count: int, seed: int = 1) -> Planted:
    """A tree of so many nodes."""
    dice = random.Random(seed)
    root = Node(True, BA, SY, (False, [allow(BA, FULL), allow(SY, FULL), allow(BU, READ)]))
    made = Planted(Tree({(): root}), {(): "root"})
    folders: list[Names] = [()]
    names = _names(dice)
    while len(made.tree.nodes) < count:
        above = dice.choice(folders)
        kind = dice.choice([*KINDS, *["inherits"] * 12])
        is_container = dice.random() < 0.2
        path = (*above, next(names))
        owner = dice.choice(USERS[:4])
        made.tree.nodes[path] = Node(is_container, owner, BU, KINDS[kind])
        made.kinds[path] = kind
        if is_container and len(path) < 12 and kind not in ("long", "null"):
            folders.append(path)
    _plant_odd(made, dice)
    return made


def _names(dice: random.Random) -> Iterator[str]:
    number = 0
    while True:
        number += 1
        yield f"{dice.choice(ODD_NAMES)}{number}" if number % 7 == 0 else f"n{number}"


def _plant_odd(made: Planted, dice: random.Random) -> None:
    """Some files get bytes that were inherited elsewhere, that the tree has otherwise, or that no tree has."""
    files = [path for path in sorted(made.tree.nodes) if path and not made.tree.nodes[path].is_container]
    order = (allow(BU, READ, 0), deny(BG, 0x1, 0))
    odd = (
        ("absent", "differs", None, _form(None, 0)),
        ("moved", "", (False, [], [allow(USERS[9], 0x1, ID)]), _form([entry_bytes(allow(USERS[9], 0x1, ID))], AI)),
        (
            "disordered",
            "differs",
            (True, [order[1], order[0]]),
            _form([entry_bytes(each) for each in order], PROTECTED),
        ),
        ("object entry", "differs", (False, [], []), _form([OBJECT_ENTRY], 0)),
        ("no SID", "skipped", None, _form([NO_SID_ENTRY], 0)),
    )
    for path, (kind, said, dacl, blob) in zip(dice.sample(files, 40), odd * 8):
        made.kinds[path], made.forms[path] = kind, blob
        if said:
            made.said[path] = said
        # (what a node had inherited elsewhere it keeps while its folder offers what it offers now)
        offer = offered(made.tree.dacl(path[:-1]) or [], Node(False, USERS[0], BU, None))
        made.tree.nodes[path] = Node(False, USERS[0], BU, (*dacl, offer) if dacl and len(dacl) > 2 else dacl)


def _form(entries: list[bytes] | None, control: int) -> bytes:
    dacl = None if entries is None else acl_bytes(entries, 4 if OBJECT_ENTRY in entries else 2)
    return form(sid_bytes(USERS[0]), sid_bytes(BU), dacl, control | (0 if entries is None else PRESENT))
