"""Where the rights of users differ from those in the folder above, node by node: as a table of the report's page,
as CSV and as a workbook. What is alike is worked out once: users, and nodes."""

from collections.abc import Iterable, Iterator
from itertools import chain, groupby, takewhile
from typing import Any, NamedTuple

from atomic_file import atomic_file
from gaps import Gap
from numbering import Numbers
from paths import Path, spelled
from people import People, Rights, differing, numbers_in
from rights import in_few_words
from script import Script
from sheet import path_cell, write_rows
from table import safe
from workbook import Workbook, is_workbook

_HEADER = ("path", "user", "SID", "rights", "mask")
#: When the lists of a page have so many numbers, no other one is added.
_MOST_RUNS = 1 << 22
_NO_ROOM = "from here on the page has no room for nodes where rights of users differ: --matrix FILE writes all"


class Row(NamedTuple):
    """A node where somebody has other rights than in the folder above, which the root hasn't."""

    path: Path
    rights: Rights
    above: Rights | None


class Matrix:
    """The rows of a script's tree after its changes, in the order of the paths. The root has the first one."""

    def __init__(self, script: Script, people: People) -> None:
        self._people, self._script = people, script
        self.rows: list[Row] = []
        #: The first node of those for which the page has no room, and how many rows these would be.
        self.cut: list[Gap] = []
        folders: dict[Path, Rights] = {}
        for path, text in script.described(()):
            rights, above = people.rights(text), folders[path[:-1]] if path else None
            if script.nodes[path].is_container:
                folders[path] = rights
            if rights != above:
                self.rows.append(Row(path, rights, above))

    # As CSV or a workbook

    def write(self, name: str, gaps: list[Gap]) -> int:
        """Writes a line for each user and node where its rights differ from those in the folder above, and one for each
        node that is left out. Returns how many rows of nodes there are."""
        left_out = ((_cell_of(gap.path), "", "", f"left out: {gap.text}", "") for gap in gaps)
        rows = chain(chain.from_iterable(map(self._lines, self.rows)), left_out)
        with atomic_file(name) as file:
            if is_workbook(name):
                book = Workbook(_HEADER)
                book.write(rows)
                book.save(file)
            else:
                write_rows(file, chain([_HEADER], rows))
        return len(self.rows)

    def _lines(self, row: Row) -> Iterator[tuple[str, ...]]:
        """Of the root a line for each user, also of one without rights."""
        path, above = _cell_of(row.path), {-1: self._people.all} if row.above is None else row.above
        for number, (_, has) in differing(above, row.rights).items():
            user = self._people.users[number]
            yield path, user.name, user.sid, in_few_words(has), f"{has:#x}"

    # As a table of the page

    def page(self) -> dict[str, Any]:
        """The data of the page's table, with nodes by their numbers: a column for each group of users who have the same
        rights everywhere. Of rights that many nodes have alike there is one list, of a word's number and the count of
        columns that it is for, again and again."""
        groups, without = self._groups()
        lists, words = _Lists([group[0] for group in groups]), Numbers()
        found = takewhile(lambda number: number is not None, (lists.number_of(row.rights, words) for row in self.rows))
        rows = [[self._script.number_of(row.path), number] for row, number in zip(self.rows, found)]
        # (a row says what the folder above has, which stands before it)
        self.cut = [Gap("cut", row.path, _NO_ROOM, len(self.rows) - len(rows)) for row in self.rows[len(rows) :][:1]]
        return {
            "users": [[safe(user.name), user.sid] for user in self._people.users],
            "without": without,
            "groups": groups,
            "words": list(map(in_few_words, words.numbers)),
            "lists": lists.made,
            "rows": rows,
            "leftOut": [[spelled(gap.path), gap.count] for gap in self.cut],
        }

    def _groups(self) -> tuple[list[list[int]], int]:
        """The users in groups that have the same rights at each node, in the order of their first ones; the last one
        are those who have none at any node, if there are any; and how many these are."""
        count = len(self._people.users)
        parts = _Parts(count)
        some = 0
        for rights in _distinct(row.rights for row in self.rows):
            parts.split(rights)
            some |= self._people.all & ~rights.get(0, 0)
        groups: dict[int, list[int]] = {}
        for user in sorted(range(count), key=lambda user: not some >> user & 1):
            groups.setdefault(parts.of[user], []).append(user)
        return list(groups.values()), count - some.bit_count()


def _cell_of(path: Path) -> str:
    return path_cell(spelled(path))


def _key(rights: Rights) -> frozenset[tuple[int, int]]:
    return frozenset(rights.items())


def _distinct(all_rights: Iterable[Rights]) -> Iterable[Rights]:
    return {_key(rights): rights for rights in all_rights}.values()


class _Parts:
    """Users by what they were found to have alike: `of` has a number for each."""

    def __init__(self, count: int) -> None:
        self.of = [0] * count
        self._next = 1

    def split(self, rights: Rights) -> None:
        """Divides those who have other rights: all but the largest set are named anew, which divides it from them."""
        for users in sorted(rights.values(), key=int.bit_count)[:-1]:
            self._rename(users)

    def _rename(self, users: int) -> None:
        names: dict[int, int] = {}
        for user in numbers_in(users):
            before = self.of[user]
            if before not in names:
                names[before] = self._next
                self._next += 1
            self.of[user] = names[before]


class _Lists:
    """The lists of rights, each once, for the first user of each group."""

    def __init__(self, users: list[int]) -> None:
        self._places = {user: place for place, user in enumerate(users)}
        self._firsts = sum(1 << user for user in users)
        self._numbers: dict[frozenset[tuple[int, int]], int | None] = {}
        self._runs = 0
        self.made: list[list[int]] = []

    def number_of(self, rights: Rights, words: Numbers) -> int | None:
        """The number of the list, or None if there is no room for another one."""
        key = _key(rights)
        if key not in self._numbers:
            self._numbers[key] = self._made_of(rights, words)
        return self._numbers[key]

    def _made_of(self, rights: Rights, words: Numbers) -> int | None:
        if self._runs >= _MOST_RUNS:
            return None
        runs = [part for word, count in self._runs_of(rights, words) for part in (word, count)]
        self._runs += len(runs)
        self.made.append(runs)
        return len(self.made) - 1

    def _runs_of(self, rights: Rights, words: Numbers) -> Iterator[tuple[int, int]]:
        for word, same in groupby(self._words_of(rights, words)):
            yield word, len(list(same))

    def _words_of(self, rights: Rights, words: Numbers) -> list[int]:
        """The number of the rights of each group's first user."""
        *others, (most, _) = sorted(rights.items(), key=lambda each: each[1].bit_count())
        found = [words.of(most)] * len(self._places)
        for user, bits in ((user, bits) for bits, users in others for user in numbers_in(users & self._firsts)):
            found[self._places[user]] = words.of(bits)
        return found
