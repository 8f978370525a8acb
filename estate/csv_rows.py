"""CSV that PowerShell exports: rows by the names of their columns."""

import csv
from collections.abc import Iterator

from errors import Invalid
from lines import Line

_DELIMITERS = ",;\t"
#: A descriptor has fewer than 1 << 20 characters: at most 3,276 entries, each of fewer than 300. The members of a group
#: in one cell are more: so many are a million of short names.
_LONGEST_CELL = 1 << 26

#: A row: the number of its last line, and its cells by the columns' names in small letters.
Row = tuple[int, dict[str, str]]


def columns_of(header: str) -> list[str]:
    """The names of the columns, in small letters: none, where the line isn't CSV."""
    csv.field_size_limit(_LONGEST_CELL)
    try:
        return [cell.strip().lower() for cell in next(csv.reader([header], delimiter=_delimiter(header)), [])]
    except csv.Error:
        return []


def _delimiter(header: str) -> str:
    return max(_DELIMITERS, key=header.count)


class CsvRows:
    """The rows of the file of this name, after a header, before which the type may be that Windows PowerShell
    prints."""

    def __init__(self, name: str, lines: Iterator[Line]) -> None:
        self.name, self._lines = name, lines
        self.number, self._header = next(lines, (1, ""))
        if self._header.startswith("#TYPE"):
            self.number, self._header = next(lines, (2, ""))
        self.columns = columns_of(self._header)

    def invalid(self, text: str) -> Invalid:
        """A fault in the row that is read, or in the header before the first."""
        return Invalid(f"{self.name}: line {self.number}: {text}")

    def _texts(self) -> Iterator[str]:
        for self.number, line in self._lines:
            yield line + "\n"

    def rows(self) -> Iterator[Row]:
        try:
            for row in csv.reader(self._texts(), delimiter=_delimiter(self._header), strict=True):
                if row and len(row) != len(self.columns):
                    raise self.invalid(f"it has {len(row)} cells, and the header {len(self.columns)}")
                if row:
                    yield self.number, dict(zip(self.columns, row))
        except csv.Error as error:
            raise self.invalid(str(error)) from error
