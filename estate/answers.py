"""How each answer ends: which nodes of the source it leaves out, how many it is about, and the status."""

from contextlib import AbstractContextManager, nullcontext

from gaps import Coverage
from people import People
from table import Cell, Table, plural

#: The status of a command that leaves nodes out, whatever else it found: its rows name them.
LEFT_OUT = 4


def answered(table: Table, what: str, text: str, cells: dict[str, Cell], about: Coverage, status: int = 0) -> int:
    """The end of an answer: a row for each node of the source that it isn't about, how many nodes it is about, and the
    status."""
    for gap in about.gaps:
        table.row(gap.what, gap.cells)
    table.end(what, f"{text}; {about.text}", cells | about.cells)
    return LEFT_OUT if about.gaps else status


def people_in(file_name: str | None) -> AbstractContextManager[People | None]:
    """The users of the file of accounts, if there is one."""
    if file_name is None:
        return nullcontext()
    return People(file_name)


def of_users(count: int | None) -> str:
    """How many users an answer is about, in words, if there is a file of accounts."""
    return "" if count is None else f", {plural(count, 'user')} of the accounts"


def counts_of(users: int | None, **counts: Cell) -> dict[str, Cell]:
    """The counts of an answer, and of its users if there is a file of accounts."""
    return counts if users is None else {**counts, "users": users}
