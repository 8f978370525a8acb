"""The formats of a journal's database, by their versions, and how one becomes another.

Version 2 keeps what decides: that an edit was accepted, by its line, and how long a publish made the published journal.
Version 1 kept how a line was answered, `ok` or `published L`. The chains are the same, so all places stay."""

import sqlite3

VERSION = 2
BEFORE = 1
VERSIONS = (BEFORE, VERSION)

_LINES = """CREATE TABLE lines (number INTEGER PRIMARY KEY, epoch INTEGER NOT NULL, time INTEGER NOT NULL,
    who TEXT NOT NULL, key TEXT NOT NULL, line TEXT NOT NULL, {outcome} NOT NULL, chain BLOB NOT NULL) STRICT"""
_OUTCOMES = {BEFORE: "answer TEXT", VERSION: "length INTEGER"}
#: A replica may keep a line longer than its leader, whose client may use the key again: so a key may be there twice.
_INDEX = "CREATE INDEX lines_by_key ON lines (key) WHERE key <> ''"
_OTHERS = (
    """CREATE TABLE store (one INTEGER PRIMARY KEY CHECK (one = 1), version INTEGER NOT NULL, id TEXT NOT NULL,
    mapping TEXT NOT NULL, number INTEGER NOT NULL, chain BLOB NOT NULL) STRICT""",
    """CREATE TABLE epochs (epoch INTEGER PRIMARY KEY, number INTEGER NOT NULL, chain BLOB NOT NULL,
    length INTEGER NOT NULL, digest BLOB NOT NULL) STRICT""",
    """CREATE TABLE snapshot (epoch INTEGER NOT NULL, place INTEGER NOT NULL, lines TEXT NOT NULL,
    PRIMARY KEY (epoch, place)) STRICT, WITHOUT ROWID""",
)
#: The statements that make the tables.
TABLES = (*_OTHERS, _LINES.format(outcome=_OUTCOMES[VERSION]), _INDEX)

_COLUMNS = "number, epoch, time, who, key, line"
#: What each version has of an outcome, by the columns of the other one. An answer that version 1 never gave is a
#: length that no line has, so that its chain is another one.
_LENGTH = """CASE answer WHEN 'ok' THEN 0
    WHEN 'published ' || CAST(substr(answer, 11) AS INTEGER) THEN CAST(substr(answer, 11) AS INTEGER) ELSE -1 END"""
_FROM_OTHER = {BEFORE: "CASE length WHEN 0 THEN 'ok' ELSE 'published ' || length END", VERSION: _LENGTH}
_VIEW = f"CREATE TEMP VIEW lines AS SELECT {_COLUMNS}, {_LENGTH} AS length, chain FROM main.lines"


def opened(database: sqlite3.Connection, version: int | None) -> bool:
    """Has a database be read as one of today, whichever version it is of. False: it is of none."""
    if version == BEFORE:
        database.execute(_VIEW)
    return version in VERSIONS


def converted(database: sqlite3.Connection, version: int) -> None:
    """Makes a database, in a transaction, one of this version, if it isn't."""
    (found,) = database.execute("SELECT version FROM store").fetchone()
    if found == version:
        return
    for statement in (
        "DROP VIEW IF EXISTS temp.lines",
        "ALTER TABLE main.lines RENAME TO others",
        "DROP INDEX IF EXISTS lines_by_key",
        _LINES.format(outcome=_OUTCOMES[version]),
        f"INSERT INTO lines SELECT {_COLUMNS}, {_FROM_OTHER[version]}, chain FROM others ORDER BY number",
        "DROP TABLE others",
        _INDEX,
    ):
        database.execute(statement)
    database.execute("UPDATE store SET version = ?", (version,))
