"""CSV that spreadsheets open, by RFC 4180: no text from outside is a formula in it."""

import csv
import functools
import re
from collections.abc import Iterable
from typing import BinaryIO

from table import safe

#: Where a formula may begin: at the start of a cell, or behind what another spreadsheet takes for the end of one.
_FORMULA = re.compile(r"(^|[,;|])([\s\"]*)(?=[=+\-@\uff1d\uff0b\uff0d\uff20])")

#: The same in a path, whose characters may be percent-encoded.
_IN_PATH = re.compile(r"([,;|]\"*)([=+\-@])")


class _Utf8:
    """A file as what a writer of CSV writes to."""

    def __init__(self, file: BinaryIO) -> None:
        self._file = file

    def write(self, text: str) -> int:
        return self._file.write(text.encode())


def write_rows(file: BinaryIO, rows: Iterable[Iterable[str]]) -> None:
    """Writes the rows in UTF-8."""
    writer = csv.writer(_Utf8(file), lineterminator="\r\n")
    writer.writerows(map(guarded, row) for row in rows)


def path_cell(text: str) -> str:
    """The text of a path, spelled so that no formula begins in it."""
    return _IN_PATH.sub(lambda found: f"{found[1]}%{ord(found[2]):02X}", text)


@functools.lru_cache(65_536)
def guarded(cell: str) -> str:
    """The text, with an apostrophe where a formula would begin, by which a spreadsheet takes the rest as text. Control
    characters are escaped."""
    return _FORMULA.sub(r"\1\2'", safe(cell))
