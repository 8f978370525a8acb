"""What a command prints: a row for each thing, in columns with tabs between them, or as JSON, one object a line."""

import json
import sys
from collections.abc import Callable, Mapping
from typing import TextIO

#: What a cell holds: texts may come from outside, and are printed so that none makes a cell or a line of its own.
Cell = str | int


class Table:
    """Rows to a stream."""

    def __init__(self, as_json: bool, shown: Callable[[str], str], out: TextIO | None = None) -> None:
        """`shown` puts names in the place of SIDs, of each cell but paths and names: a folder may be named as a SID."""
        self._as_json, self._shown, self._out = as_json, shown, out or sys.stdout
        #: What takes the message at the end of an answer.
        self.says: Callable[[str], None] = say

    def row(self, what: str, cells: Mapping[str, Cell]) -> None:
        """One row, which says what it is first."""
        shown = {name: self._display(name, cell) for name, cell in cells.items()}
        if self._as_json:
            line = json.dumps({"what": what, **shown})
        else:
            line = "\t".join([what, *(safe(str(cell)) for cell in shown.values())])
        self._out.write(line + "\n")

    def end(self, what: str, text: str, cells: Mapping[str, Cell]) -> None:
        """What was done, as a message; as JSON also in a row."""
        if self._as_json:
            self.row(what, cells)
        self.says(text)

    def _display(self, name: str, cell: Cell) -> Cell:
        return self._shown(cell) if isinstance(cell, str) and name not in ("path", "name") else cell


def safe(text: str) -> str:
    """The text, where a character that isn't printed is escaped, so that it does nothing to a terminal."""
    return "".join(each if each.isprintable() else ascii(each)[1:-1] for each in text)


def say(text: str) -> None:
    """A message for the user, to standard error, after the rows that were printed before."""
    sys.stdout.flush()
    print(f"estate: {safe(text)}", file=sys.stderr)


def plural(count: int, what: str) -> str:
    return f"{count:,} {what}{'' if count == 1 else 's'}"
