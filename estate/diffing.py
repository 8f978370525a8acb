"""`estate diff`: what changed between two scripts of `estate read`, node by node, and who gains and loses by it."""

import argparse
from collections import Counter
from collections.abc import Iterator
from dataclasses import dataclass, field
from functools import lru_cache
from os.path import commonprefix
from typing import NamedTuple

from hudarin import Change, Descriptor, Sid

from answers import LEFT_OUT, counts_of, of_users, people_in
from paths import Path, spelled
from people import People, Rights, differing, say_differences
from rights import in_few_words
from script import read_script
from sddl import Entry, Parts, parts_of
from sides import Compared, Pair, Side, State
from table import Cell, Table

#: What a node that isn't there is compared as: without an owner and without an entry it grants nobody anything.
_NOTHING = "D:"
_NONE = "none"


class Difference(NamedTuple):
    """A part of a node that is another one: which, and its texts."""

    part: str
    was: str
    now: str


def differences_of(before: State, after: State) -> Iterator[Difference]:
    """What differs between two states of a node."""
    old, new = parts_of(before.text), parts_of(after.text)
    texts = [("kind", before.kind, after.kind), ("owner", _full(old.owner), _full(new.owner))]
    texts += [("group", _full(old.group), _full(new.group)), ("list", _list_of(old), _list_of(new))]
    yield from (Difference(*each) for each in texts if each[1] != each[2])
    yield from _entries_of(old, new)
    if before.whole != after.whole:
        yield Difference("whole", before.whole or _NONE, after.whole or _NONE)


@lru_cache(65_536)
def _full(sid: str) -> str:
    return Sid.from_text(sid).full


def _list_of(parts: Parts) -> str:
    if parts.entries is None:
        return "null"
    return "protected" if parts.is_protected else "inheriting"


def _entries_of(old: Parts, new: Parts) -> Iterator[Difference]:
    """The entries that only one of two lists has: those that differ in their rights alone are one difference."""
    had, has = list(old.entries or ()), list(new.entries or ())
    added = list((Counter(has) - Counter(had)).elements())
    removed = list((Counter(had) - Counter(has)).elements())
    if not added and not removed and had != has:
        yield Difference("order", "".join(map(str, had)), "".join(map(str, has)))
    for entry in removed:
        other = next((each for each in added if _but_rights(each) == _but_rights(entry)), None)
        if other is not None:
            added.remove(other)
        yield Difference("entry", str(entry), str(other or _NONE))
    yield from (Difference("entry", _NONE, str(entry)) for entry in added)


def _but_rights(entry: Entry) -> tuple[str, tuple[str, ...], str]:
    return entry.kind, entry.flags, entry.rest.partition(";")[2]


# Who gains and loses


@lru_cache(65_536)
def _gains_and_losses(old: str, new: str, is_folder: bool) -> list[Change]:
    """What the library says of a change, first what is gained: of a folder also on what is made in it later, unless the
    same user gains or loses that on the folder itself."""
    found = Descriptor.from_sddl(old).compare(Descriptor.from_sddl(new))
    own = [*found.gained, *found.lost]
    below = [each for each in found.below if is_folder and not any(_is_in(each, one) for one in own)]
    return sorted([*own, *below], key=lambda change: change.kind != "gained")


def _is_in(change: Change, other: Change) -> bool:
    return (change.kind, _by(change)) == (other.kind, _by(other)) and not change.mask & ~other.mask


def _by(change: Change) -> str:
    """The user, and what it has, as arguments of `sdstore verdict`."""
    return str(change).partition(" by ")[2]


@dataclass(frozen=True, slots=True)
class Nodes:
    """Some nodes: how many, and at or below which path all of them are."""

    count: int
    top: Path

    def with_others(self, other: "Nodes") -> "Nodes":
        return Nodes(self.count + other.count, tuple(commonprefix([self.top, other.top])))


@dataclass(slots=True)
class Totals:
    """On which nodes each user gains or loses which rights."""

    rows: dict[tuple[tuple[str, Cell], ...], Nodes] = field(default_factory=dict)

    def add(self, nodes: Nodes, rights: int, change: str, who: dict[str, Cell]) -> None:
        if rights:
            head: dict[str, Cell] = {"change": change, "rights": f"{rights:#x}", "words": in_few_words(rights)}
            key = tuple({**head, **who}.items())
            self.rows[key] = nodes.with_others(self.rows[key]) if key in self.rows else nodes

    def say(self, table: Table) -> None:
        """A row for each, those of users of the accounts last: gains first, and then those of most nodes."""
        rows = ((key[3][0] == "name", key[0], -nodes.count, key, nodes.top) for key, nodes in self.rows.items())
        for is_person, _, count, key, top in sorted(rows):
            cells = dict((*key[:3], ("nodes", -count), ("path", spelled(top)), *key[3:]))
            table.row("person-total" if is_person else "total", cells)


@dataclass(slots=True)
class Diff:
    """The rows of a comparison, and how many nodes and users they are of."""

    compared: Compared
    people: People | None
    table: Table
    counts: Counter[str] = field(default_factory=Counter)
    _totals: Totals = field(default_factory=Totals)
    _users: set[int] = field(default_factory=set)

    @property
    def users(self) -> int | None:
        return None if self.people is None else len(self._users)

    def run(self, totals_alone: bool) -> None:
        """First the totals, and then what they are of, node by node."""
        alike: dict[Pair, list[Path]] = {}
        for path, pair in self.compared.pairs.items():
            if pair[0] != pair[1]:
                alike.setdefault(pair, []).append(path)
        alike = {pair: paths for pair, paths in alike.items() if _is_other(pair)}
        for pair, paths in alike.items():
            self._count(pair, Nodes(len(paths), tuple(commonprefix(paths))))
        self._totals.say(self.table)
        for path, pair in self.compared.pairs.items():
            if not totals_alone and pair in alike:
                self._say(path, pair)

    def _count(self, pair: Pair, nodes: Nodes) -> None:
        before, after = pair
        what = "added" if before is None else "gone" if after is None else "changed"
        self.counts[what] += nodes.count
        changes = _changes(pair)
        for kind in {change.kind for change in changes}:
            self.counts[kind] += nodes.count
        for change in changes:
            self._totals.add(nodes, change.mask, change.kind, _who(change))
        if self.people is not None:
            for number, (had, has) in self._people_at(pair).items():
                user = self.people.users[number]
                self._users.add(number)
                self._totals.add(nodes, has & ~had, "gained", {"name": user.name, "sid": user.sid})
                self._totals.add(nodes, had & ~has, "lost", {"name": user.name, "sid": user.sid})

    def _say(self, path: Path, pair: Pair) -> None:
        before, after = pair
        at: dict[str, Cell] = {"path": spelled(path)}
        if before is not None and after is not None:
            for each in differences_of(before, after):
                self.table.row("changed", {**at, **each._asdict()})
        for what, state in (("gone", before), ("added", after)):
            if state is not None and None in pair:
                self.table.row(what, {**at, "kind": state.kind, "descriptor": state.whole or state.text})
        for change in _changes(pair):
            self.table.row(change.kind, {**at, "rights": f"{change.mask:#x}", **_who(change)})
        if self.people is not None:
            say_differences(self.table, path, self.people, self._people_at(pair))

    def _people_at(self, pair: Pair) -> dict[int, tuple[int, int]]:
        """The users whose rights differ, with those before and after."""
        if self.people is None:
            return {}
        had, has = (_rights(self.people, state) for state in pair)
        return differing(had, has)


def _is_other(pair: Pair) -> bool:
    """Whether a node is in one script alone, or has other parts in the other one."""
    before, after = pair
    return before is None or after is None or any(True for _ in differences_of(before, after))


def _rights(people: People, state: State | None) -> Rights:
    return {0: people.all} if state is None else people.rights(state.text)


def _changes(pair: Pair) -> list[Change]:
    old, new = (_NOTHING if state is None else state.text for state in pair)
    return _gains_and_losses(old, new, all(state is not None and state.is_container for state in pair))


def _who(change: Change) -> dict[str, Cell]:
    """Who shows a change, and of what is made in a folder, what that is."""
    return {"by": _by(change), **({"of": change.of} if change.of else {})}


def _side(name: str) -> Side:
    with read_script(name) as script:
        return Side(script)


def diff(arguments: argparse.Namespace, table: Table) -> int:
    """What changed between two scripts. The status is 1 if somebody gained rights."""
    compared = Compared(_side(arguments.before), _side(arguments.after))
    with people_in(arguments.accounts) as people:
        made = Diff(compared, people, table)
        made.run(arguments.totals)
    gaps = list(compared.left_out())
    for gap, scripts in gaps:
        table.row(gap.what, {**gap.cells, "script": scripts})
    counts = {name: made.counts[name] for name in ("added", "gone", "changed", "gained", "lost")}
    about = compared.coverage()
    text = "{added:,} added, {gone:,} gone, {changed:,} changed; rights gained on {gained:,}, lost on {lost:,}"
    text = f"{text.format(**counts)}{of_users(made.users)}; {about.text}"
    table.end("compared", text, {**counts_of(made.users, **counts), **about.cells})
    return LEFT_OUT if gaps else 1 if counts["gained"] else 0
