"""The journal in SQLite: lines with their chain, and the snapshots of the last two epochs.

A commit is on disk when it returns (WAL, synchronous=FULL). After it the mark, a small file beside the database, says
how far the journal goes: SQLite drops the end of a cut write-ahead log without a word, and the mark shows it.
"""

import itertools
import os
import sqlite3
from collections.abc import Iterator, Sequence
from contextlib import closing, contextmanager
from pathlib import Path

import formats
from entry import Line, Place, Snapshot
from errors import Failed, Mismatch
from mark import Mark

#: A line that isn't needed to make the tree is kept while it is one of the last so many: so long a client's key counts.
KEPT_LINES = 65_536
#: The most lines of one commit: SQLite takes 32,766 values.
MOST_LINES = 1_000
#: The lines of a snapshot that one row has.
_LINES_IN_ROW = 256
DATABASE, MARK = "journal.sqlite", "mark"

_LINE = "epoch, number, time, who, key, line, length"
_INSERT, _ROW = f"INSERT INTO lines ({_LINE}, chain) VALUES", "(?, ?, ?, ?, ?, ?, ?, ?)"


class Journal:
    """An open journal: `with Journal(folder / DATABASE) as journal: ..`. One process appends to it."""

    def __init__(self, file: Path, mark: Mark | None = None, only_reads: bool = False) -> None:
        """Failed: there is no such file. With `only_reads` all reads are of one moment."""
        if not file.is_file():
            raise Failed(f"{file}: there is no journal")
        self.file = file
        self._mark = mark
        # What is marked now is there at the first read.
        marked = mark.read() if mark is not None else None
        self._database = _opened(file, only_reads)
        with _named(file):
            row = self._database.execute("SELECT version, id, mapping FROM store").fetchone()
            is_known = formats.opened(self._database, None if row is None else row[0])
            self._database.execute(f"PRAGMA query_only={'ON' if only_reads else 'OFF'}")
        if not is_known:
            raise Mismatch(f"{file}: it is no journal of version {' or '.join(map(str, formats.VERSIONS))}")
        self.store: str = row[1]
        self.mapping: str = row[2]
        if marked is not None and marked[0] != self.store:
            raise Mismatch(f"{file}: its mark is that of another store")
        #: The place of the mark, if the journal has one.
        self.marked = None if marked is None else marked[1]

    def __enter__(self) -> "Journal":
        return self

    def __exit__(self, *_: object) -> None:
        self._database.close()

    # Reads

    @property
    def start(self) -> Place:
        """The place before the first line that is kept, as it is on disk."""
        with _named(self.file):
            return Place(*self._database.execute("SELECT number, chain FROM store").fetchone())

    def require_whole(self) -> None:
        """Mismatch: SQLite finds a fault in the file."""
        with _named(self.file):
            found = self._database.execute("PRAGMA integrity_check(1)").fetchone()
        if found != ("ok",):
            raise Mismatch(f"{self.file}: {found[0] if found else 'it is no database'}")

    def snapshots(self) -> list[Snapshot]:
        """Those that are kept, the oldest first. Mismatch: one isn't what was written."""
        with _named(self.file):
            rows = self._database.execute("SELECT epoch, number, chain, length, digest FROM epochs ORDER BY epoch")
            return [self._snapshot(*row) for row in rows.fetchall()]

    def _snapshot(self, epoch: int, number: int, chain: bytes, length: int, digest: bytes) -> Snapshot:
        rows = self._database.execute("SELECT lines FROM snapshot WHERE epoch = ? ORDER BY place", (epoch,))
        lines = tuple(line for (text,) in rows for line in text.split("\n"))
        made = Snapshot(epoch, Place(number, chain), length, lines)
        if made.digest(self.store, self.mapping) != digest:
            raise Mismatch(f"{self.file}: the snapshot of epoch {epoch} isn't the one that was written")
        return made

    def lines(self, after: int) -> Iterator[tuple[Line, bytes]]:
        """The lines after this number, in order, each with its chain."""
        with _named(self.file):
            query = f"SELECT {_LINE}, chain FROM lines WHERE number > ? ORDER BY number"
            rows = self._database.execute(query, (after,))
            for *fields, chain in rows:
                yield Line(*fields), chain

    def last_number(self) -> int:
        """The number of the last line, or the place before the first."""
        with _named(self.file):
            (number,) = self._database.execute("SELECT max(number) FROM lines").fetchone()
        return self.start.number if number is None else int(number)

    def place_at(self, number: int) -> Place | None:
        """The place of the line with this number, or the one before the first line. None: neither is kept."""
        start = self.start
        if number == start.number:
            return start
        with _named(self.file):
            row = self._database.execute("SELECT number, chain FROM lines WHERE number = ?", (number,)).fetchone()
        return None if row is None else Place(*row)

    def last_place(self) -> Place | None:
        """The place of the last line, or the one before the first."""
        return self.place_at(self.last_number())

    def by_key(self, key: str) -> Line | None:
        """The last line that was accepted with this key."""
        # The index is of lines with a key alone, and without the second term SQLite looks at all lines.
        query = f"SELECT {_LINE} FROM lines WHERE key = ? AND key <> '' ORDER BY number DESC LIMIT 1"
        row = self._database.execute(query, (key,)).fetchone()
        return None if row is None else Line(*row)

    def bytes_on_disk(self) -> int:
        files = (self.file, Path(f"{self.file}-wal"))
        return sum(each.stat().st_size for each in files if each.exists())

    # Writes

    def append(self, lines: Sequence[tuple[Line, bytes]]) -> None:
        """Appends lines with their chains by one statement, and so one commit, which is on disk at the return."""
        values = list(itertools.chain.from_iterable([(*line, chain) for line, chain in lines]))
        self._database.execute(f"{_INSERT} {', '.join([_ROW] * len(lines))}", values)
        line, chain = lines[-1]
        self._move_mark(Place(line.number, chain))

    def require_room(self) -> None:
        """Commits a row as it is: sqlite3.Error where nothing can be written."""
        with self._transaction():
            self._database.execute("UPDATE store SET number = number")

    def start_epoch(self, snapshot: Snapshot, last: int) -> None:
        """Adds a snapshot by one commit, and drops what neither it nor the one before needs; `last` is the number of
        the last line."""
        with self._transaction():
            self._write_snapshot(snapshot)
            # A replica's epochs aren't all its own, so the one before may be any earlier one.
            before = "SELECT max(epoch) FROM epochs WHERE epoch < ?"
            self._database.execute(f"DELETE FROM epochs WHERE epoch < ({before})", (snapshot.epoch,))
            self._database.execute("DELETE FROM snapshot WHERE epoch NOT IN (SELECT epoch FROM epochs)")
            (oldest,) = self._database.execute("SELECT min(number) FROM epochs").fetchone()
            self._drop_lines(min(oldest, last - KEPT_LINES))

    def _write_snapshot(self, snapshot: Snapshot) -> None:
        place, digest = snapshot.place, snapshot.digest(self.store, self.mapping)
        row = (snapshot.epoch, place.number, place.chain, snapshot.length, digest)
        self._database.execute("INSERT INTO epochs VALUES (?, ?, ?, ?, ?)", row)
        for at in range(0, len(snapshot.lines), _LINES_IN_ROW):
            text = "\n".join(snapshot.lines[at : at + _LINES_IN_ROW])
            self._database.execute("INSERT INTO snapshot VALUES (?, ?, ?)", (snapshot.epoch, at, text))

    def _drop_lines(self, last: int) -> None:
        """Drops the lines up to this number, whose chain stays."""
        row = self._database.execute("SELECT number, chain FROM lines WHERE number = ?", (last,)).fetchone()
        if row is not None:
            self._database.execute("DELETE FROM lines WHERE number <= ?", (last,))
            self._database.execute("UPDATE store SET number = ?, chain = ?", row)

    def convert(self, version: int) -> None:
        """Makes the file one of this version of the format, by one commit."""
        with self._transaction():
            formats.converted(self._database, version)

    @contextmanager
    def _transaction(self) -> Iterator[None]:
        self._database.execute("BEGIN IMMEDIATE")
        try:
            yield
            self._database.execute("COMMIT")
        except BaseException:
            if self._database.in_transaction:
                self._database.execute("ROLLBACK")
            raise

    def _move_mark(self, place: Place) -> None:
        if self._mark is not None:
            self._mark.move(self.store, place)
            self.marked = place

    def close_log(self) -> None:
        """Moves what is in the write-ahead log into the database."""
        self._database.execute("PRAGMA wal_checkpoint(TRUNCATE)")

    def copy_to(self, file: Path) -> None:
        """Copies the journal as it is at one moment, while others may append to it."""
        with closing(sqlite3.connect(file)) as other:
            self._database.backup(other)
            other.execute("PRAGMA journal_mode=DELETE")


def create(file: Path, store: str, mapping: str, snapshot: Snapshot, first: Place) -> None:
    """Makes the database of a new store, whose lines begin after `first`. It is on disk at the return."""
    with closing(sqlite3.connect(file, isolation_level=None)) as database:
        database.execute("PRAGMA synchronous=FULL")
        for statement in formats.TABLES:
            database.execute(statement)
        row = (1, formats.VERSION, store, mapping, *first)
        database.execute("INSERT INTO store VALUES (?, ?, ?, ?, ?, ?)", row)
    with Journal(file) as journal, journal._transaction():
        journal._write_snapshot(snapshot)


@contextmanager
def _named(file: Path) -> Iterator[None]:
    """Mismatch: SQLite can't read the file."""
    try:
        yield
    except sqlite3.Error as error:
        raise Mismatch(f"{file}: {error}") from error


def _opened(file: Path, only_reads: bool) -> sqlite3.Connection:
    with _named(file):
        database = sqlite3.connect(f"file:{_quoted(file)}?mode={_mode(file, only_reads)}", uri=True,
                                   isolation_level=None, timeout=10, check_same_thread=False)
        database.execute("PRAGMA trusted_schema=OFF")
        if only_reads:
            database.execute("BEGIN")
        else:
            database.execute("PRAGMA journal_mode=WAL")
            database.execute("PRAGMA synchronous=FULL")
        return database


def _mode(file: Path, only_reads: bool) -> str:
    """How SQLite opens the file: for writes too, since whoever closes it last takes the log away. On a read-only mount
    that isn't possible; without a log nobody appends elsewhere either, and the file alone is read."""
    if not only_reads or not os.statvfs(file).f_flag & os.ST_RDONLY:
        return "rw"
    return "ro" if os.path.exists(f"{file}-wal") else "ro&immutable=1"


def _quoted(file: Path) -> str:
    """The absolute path as a URI has it: no character of it is a parameter of SQLite."""
    return os.path.abspath(file).replace("%", "%25").replace("?", "%3f").replace("#", "%23")
