"""A workbook that spreadsheets open (Office Open XML), by the package openpyxl: each cell is a text, and none a
formula."""

import importlib
from collections.abc import Iterable
from typing import Any, BinaryIO

from errors import Failed, Invalid
from table import plural, safe

#: What Excel opens: rows of a sheet, and characters of a cell.
_MOST_ROWS, _LONGEST_CELL = 1 << 20, 32_767
_MISSING = "a workbook needs the Python package openpyxl: install python3-openpyxl, or name a file of CSV"


def is_workbook(name: str) -> bool:
    return name.lower().endswith(".xlsx")


def require_workbooks() -> Any:
    """The package that writes them; without it, Invalid."""
    try:
        return importlib.import_module("openpyxl")
    except ImportError as error:
        raise Invalid(_MISSING) from error


class Workbook:
    """Rows under a header, which each sheet has: what one has no room for goes on in the next."""

    def __init__(self, header: tuple[str, ...]) -> None:
        self._openpyxl, self._header = require_workbooks(), header
        self._book = self._openpyxl.Workbook(write_only=True)
        self._begin()

    def _begin(self) -> None:
        self._sheet, self._rows = self._book.create_sheet(), 0
        self._sheet.freeze_panes = "A2"
        self._append(self._header)

    def write(self, rows: Iterable[Iterable[str]]) -> None:
        for row in rows:
            if self._rows == _MOST_ROWS:
                self._begin()
            self._append(row)

    def _append(self, row: Iterable[str]) -> None:
        self._sheet.append([self._cell(text) for text in row])
        self._rows += 1

    def _cell(self, text: str) -> Any:
        """The text, whose control characters are escaped, also where it begins as a formula does."""
        shown = safe(text)
        if len(shown) > _LONGEST_CELL:
            raise Failed(f"{shown[:60]}..: {plural(len(shown), 'character')}, and a cell takes 32,767: write CSV")
        cell = self._openpyxl.cell.WriteOnlyCell(self._sheet, shown)
        cell.data_type = "s"
        return cell

    def save(self, file: BinaryIO) -> None:
        self._book.save(file)
