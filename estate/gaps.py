"""Where the tree of a script isn't what its source has. `read` writes a comment for each such node, and an answer about
the tree names those that its question is about."""

from dataclasses import dataclass

from paths import Path, names_in, spelled
from table import Cell, plural, safe

#: The columns of each row after its path, as docs/ESTATES.md has them.
_COLUMNS = {
    "differs": ("why",),
    "skipped": ("why", "below"),
    "excluded": ("why", "below"),
    "unlisted": ("why",),
    "files": ("count",),
}
#: Those of a row of which no comment is.
_OTHERS = {"unknown": ("why",), "cut": ("why", "count")}
#: The rows of a node that has no line, and below which none has one.
HIDDEN = ("skipped", "excluded")
#: What a node of the source is that an answer isn't about.
_KINDS = {
    "differs": "another list",
    "skipped": "not read",
    "excluded": "excluded",
    "unlisted": "not listed",
    "unknown": "not known",
}
#: The comment after all others has their count: a script that lost one doesn't pass for one without.
_END = "# rows\t"


@dataclass(frozen=True, slots=True)
class Gap:
    """A node that the source has otherwise than the tree ("differs"), or has and the tree hasn't: one without a line
    ("skipped", or by the user's wish "excluded"), what is in a folder ("unlisted"), files of a folder ("files"). No
    comment is of "unknown", and of nodes for which an answer has no room ("cut")."""

    what: str
    path: Path
    why: str = ""
    #: How many nodes are below, or how many files these are.
    count: int = 0
    #: Of a node with entries of other types its owner, group and DACL, as others.py spells them.
    whole: str = ""

    @property
    def cells(self) -> dict[str, Cell]:
        """The columns of its row."""
        columns: dict[str, Cell] = {"path": spelled(self.path)}
        for name in (_COLUMNS | _OTHERS)[self.what]:
            columns[name] = self.why if name == "why" else self.count
        return columns

    @property
    def comment(self) -> str:
        """Its line in a script, in ASCII: the row, and what a write compares."""
        cells = (safe(str(cell)) for cell in (*self.cells.values(), *filter(None, (self.whole,))))
        return "\t".join([f"# {self.what}", *cells]).encode("ascii", "backslashreplace").decode()

    @property
    def text(self) -> str:
        """What there is to say of it, but its path."""
        if self.what == "files":
            return f"{plural(self.count, 'file')} without a line"
        below = f", and {plural(self.count, 'node')} below" if self.count else ""
        return f"{_KINDS[self.what]}{below}: {self.why}"

    @property
    def nodes(self) -> int:
        return 1 + self.count if self.what in HIDDEN else self.count or 1


#: What is said where a script doesn't say it.
UNKNOWN = Gap("unknown", (), "the script doesn't say where its source has more or other nodes: read the source again")


def end_of(count: int) -> str:
    """The comment after those of so many gaps."""
    return f"{_END}{count}"


def gap_of(comment: str) -> Gap | None:
    """The gap of a comment, or None if it is another one. A ValueError says what is wrong with it."""
    what, *cells = comment.removeprefix("# ").split("\t")
    columns = _COLUMNS.get(what)
    if columns is None or not cells:
        return None
    whole = cells.pop() if what == "differs" and len(cells) == 3 else ""
    values = dict(zip(columns, cells[1:]))
    count = values.get("below", values.get("count", "0"))
    if len(cells) != len(columns) + 1 or not (count.isascii() and count.isdecimal()):
        raise ValueError(f"{what}: not a comment that estate read writes")
    return Gap(what, names_in(cells[0]), values.get("why", ""), int(count), whole)


def count_in(comment: str) -> int | None:
    """The count of the comment after all others, or None if it is another one."""
    count = comment.removeprefix(_END)
    return int(count) if count != comment and count.isascii() and count.isdecimal() else None


@dataclass(frozen=True, slots=True)
class Coverage:
    """What an answer is about: how many of the script's nodes, and where the source has more or other ones."""

    nodes: int
    gaps: list[Gap]

    @property
    def of(self) -> int:
        """How many nodes the source has there, as far as that is known."""
        return self.nodes + sum(map(self._count, (*HIDDEN, "files")))

    @property
    def answered(self) -> int:
        """How many of them are as the source has them, for sure."""
        return 0 if UNKNOWN in self.gaps else self.nodes - self._count("differs") - self._count("cut")

    @property
    def text(self) -> str:
        """The end of what is said about an answer."""
        whys = self._whys()
        text = f"of {plural(self.of, 'node')} {self.answered:,} answered"
        if not whys:
            return f"{text}, none left out"
        left = self.of - self.answered
        return f"{text}; {f'{left:,} ' if left else ''}can't be: {', '.join(whys)}"

    @property
    def cells(self) -> dict[str, Cell]:
        return {"of": self.of, "answered": self.answered, "left_out": len(self.gaps)}

    def _count(self, what: str) -> int:
        return sum(gap.nodes for gap in self.gaps if gap.what == what)

    def _whys(self) -> list[str]:
        """Why nodes are left out, each with their number."""
        texts = {
            "differs": "{count:,} that the source has otherwise",
            "skipped": "{count:,} that couldn't be read",
            "excluded": "{count:,} excluded with what is in them",
            "files": "{files} without a line",
            "cut": "{count:,} of the table of users",
            "unlisted": "what is in {folders}",
            "unknown": "it isn't known which the source has otherwise",
        }
        counts = {what: self._count(what) for what in texts if any(gap.what == what for gap in self.gaps)}
        return [
            texts[what].format(count=count, files=plural(count, "file"), folders=plural(count, "folder"))
            for what, count in counts.items()
        ]
