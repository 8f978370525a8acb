"""Journals of the version before: they start, are migrated, and go back. And what no spelling of an answer decides."""

import hashlib
import os
import queue
import sqlite3
import unittest
from contextlib import closing
from dataclasses import replace
from unittest import mock

import rig

import loading
import stores
from edits import edit_of
from entry import Line
from errors import Mismatch
from writer import Task, Writer

#: What version 1 made.
TABLES = """
CREATE TABLE store (one INTEGER PRIMARY KEY CHECK (one = 1), version INTEGER NOT NULL, id TEXT NOT NULL,
    mapping TEXT NOT NULL, number INTEGER NOT NULL, chain BLOB NOT NULL) STRICT;
CREATE TABLE epochs (epoch INTEGER PRIMARY KEY, number INTEGER NOT NULL, chain BLOB NOT NULL,
    length INTEGER NOT NULL, digest BLOB NOT NULL) STRICT;
CREATE TABLE snapshot (epoch INTEGER NOT NULL, place INTEGER NOT NULL, lines TEXT NOT NULL,
    PRIMARY KEY (epoch, place)) STRICT, WITHOUT ROWID;
CREATE TABLE lines (number INTEGER PRIMARY KEY, epoch INTEGER NOT NULL, time INTEGER NOT NULL, who TEXT NOT NULL,
    key TEXT NOT NULL, line TEXT NOT NULL, answer TEXT NOT NULL, chain BLOB NOT NULL) STRICT;
CREATE UNIQUE INDEX lines_by_key ON lines (key) WHERE key <> '';
"""
STORE = "0123456789abcdef" * 2
WHO = f"uid:{os.getuid()}"
LINES = [
    ("k1", "addo /a O:BAG:SYD:", "ok"), ("", "addo /b O:BAG:SYD:", "ok"), ("k2", "publish", "published 2"),
    ("", "remove /a", "ok"), ("k3", "addo /c O:BAG:SYD:", "ok"),
]
ROWS = "SELECT number, epoch, time, who, key, line, answer, chain FROM lines ORDER BY number"


def rows_of(lines: list[tuple[str, str, str]]) -> list[tuple[object, ...]]:
    """The rows of version 1, with their chains."""
    rows: list[tuple[object, ...]] = []
    chain = b""
    for number, (key, line, answer) in enumerate(lines, 1):
        said = "\n".join(map(str, (STORE, 1, number, 1000 + number, WHO, key, line, answer)))
        chain = hashlib.sha256(chain + said.encode()).digest()
        rows.append((number, 1, 1000 + number, WHO, key, line, answer, chain))
    return rows


class Formats(rig.Case):
    def make_of_version_1(self, lines: list[tuple[str, str, str]]) -> None:
        self.store.mkdir()
        dump = ["open 1 O:BAG:SYD:", "publish"]
        digest = hashlib.sha256("\n".join([STORE, "file", "1", "0", "", "0", *dump]).encode()).digest()
        rows = rows_of(lines)
        with self.database() as database:
            database.executescript(TABLES)
            database.execute("INSERT INTO store VALUES (1, 1, ?, 'file', 0, x'')", (STORE,))
            database.execute("INSERT INTO epochs VALUES (1, 0, x'', 0, ?)", (digest,))
            database.execute("INSERT INTO snapshot VALUES (1, 0, ?)", ("\n".join(dump),))
            database.executemany("INSERT INTO lines VALUES (?, ?, ?, ?, ?, ?, ?, ?)", rows)
        (self.store / "mark").write_bytes(f"{STORE} {rows[-1][0]} {rows[-1][-1].hex()}".encode().ljust(127) + b"\n")

    def database(self) -> closing[sqlite3.Connection]:
        return closing(sqlite3.connect(self.store / "journal.sqlite", isolation_level=None))

    def version(self) -> int:
        with self.database() as database:
            return int(database.execute("SELECT version FROM store").fetchone()[0])

    def test_a_store_of_version_1_is_migrated(self) -> None:
        """Its first start does it; its places stay as they are, and its keys count."""
        self.make_of_version_1(LINES)
        self.assertEqual(rig.run("verify", self.store).stdout, "epoch 1, line 5, published 2\n")
        rig.run("backup", self.store, self.room / "copy")
        self.assertEqual(self.version(), 1)
        self.start()
        place = f"3 {rows_of(LINES)[2][-1].hex()}"
        self.assertEqual(self.said("status", "once k1 addo /a O:BAG:SYD:", "once k2 publish", "once k3 remove /c",
                                   "publish", "show 0 /a", "show 0 /c"),
                         [f"status {STORE} 1 {place} 2", "ok", "published 2", "fault key", "published 4",
                          "seen 4 nonode", "seen 4 shown O:BAG:SYD:AI"])
        self.kill()
        self.assertEqual(self.version(), 2)
        self.assertEqual(rig.run("verify", self.store).stdout, "epoch 1, line 6, published 4\n")
        self.start()
        self.stop()
        # A copy of then makes a store too.
        self.store = self.room / "restored"
        rig.run("restore", self.room / "copy", self.store)
        self.start()
        self.assertEqual(self.said("publish", "show 0 /b"), ["published 4", "seen 4 shown O:BAG:SYD:AI"])

    def test_the_way_back(self) -> None:
        """What is made meanwhile has the answers that version 1 gave, so that its programs start it."""
        self.make_of_version_1(LINES)
        self.start()
        self.assertEqual(self.said("once k4 addo /d O:BAG:SYD:", "publish"), ["ok", "published 5"])
        self.assertIn("another process serves", rig.run("downgrade", self.store, status=3).stderr)
        self.stop()
        self.assertEqual(rig.run("downgrade", self.store).stdout, "epoch 1, line 7, published 5\n")
        self.assertEqual(self.version(), 1)
        with self.database() as database, closing(sqlite3.connect(":memory:")) as model:
            model.executescript(TABLES)
            for table in ("store", "epochs", "snapshot", "lines"):
                found, wanted = (each.execute(f"PRAGMA table_info({table})").fetchall() for each in (database, model))
                self.assertEqual(found, wanted)
            rows = database.execute(ROWS).fetchall()
            self.assertEqual(database.execute("PRAGMA integrity_check").fetchone(), ("ok",))
        self.assertEqual(rows[:5], rows_of(LINES))
        later = [("k4", "addo /d O:BAG:SYD:", "ok"), ("", "publish", "published 5")]
        self.assertEqual([row[4:7] for row in rows[5:]], later)
        chain = rows[4][-1]
        for row in rows[5:]:
            chain = hashlib.sha256(chain + "\n".join(map(str, (STORE, row[1], row[0], *row[2:7]))).encode()).digest()
            self.assertEqual(chain, row[-1])
        # And forth again.
        self.start()
        self.assertEqual(self.said("once k4 addo /d O:BAG:SYD:", "publish"), ["ok", "published 5"])

    def test_what_version_1_did_not_write(self) -> None:
        """It isn't migrated, and the line is named."""
        for at, answer in ((0, "ok "), (0, "OK"), (0, "refused 3 Exists"), (2, "published 02"), (2, "published 3"),
                           (2, "ok"), (0, "published 1"), (2, "published 2 3"), (2, "published -1")):
            for is_chained in (False, True):
                with self.subTest(answer=answer, is_chained=is_chained):
                    lines = LINES[:at] + [(*LINES[at][:2], answer)] + LINES[at + 1 :]
                    self.make_of_version_1(lines if is_chained else LINES)
                    with self.database() as database:
                        database.execute("UPDATE lines SET answer = ? WHERE number = ?", (answer, at + 1))
                    with self.assertRaises(Mismatch) as refused, stores.opened(self.store) as journal:
                        loading.load(journal)
                    self.assertIn(f"line {at + 1}", str(refused.exception))
                    self.configure()
                    rig.run("run", self.config, status=1)
                    self.assertEqual(self.version(), 1)
                self.doCleanups()
                self.setUp()

    def test_answers_that_are_spelled_otherwise(self) -> None:
        """Nothing that is printed decides whether a store starts."""
        self.make()
        done: "queue.SimpleQueue[list[Task]]" = queue.SimpleQueue()
        answers = []
        with mock.patch("answers.Result.line", lambda answer: f"so {answer.kind} is {answer.number}"), \
                stores.opened(self.store) as journal:
            writer = Writer(journal, loading.load(journal), lambda tasks, now: done.put(tasks), print)
            writer.start()
            for key, line in (("k", "addo /a O:BAG:SYD:"), ("", "publish")):
                edit = None if line == "publish" else edit_of(line.split(" "), writer.shown.view)
                writer.put(Task(edit, line, key, WHO, lambda task: None))
                answers += [task.answer.line() for task in done.get(timeout=rig.PATIENCE)]
            writer.stop()
        self.assertEqual(answers, ["so ok is None", "so published is 1"])
        rig.run("verify", self.store)
        self.start()
        self.assertEqual(self.said("once k addo /a O:BAG:SYD:", "publish"), ["ok", "published 1"])

    def test_lines_that_are_spelled_otherwise(self) -> None:
        """A snapshot and a line with a key, as an earlier version may have printed them."""
        self.make()
        self.start("lines_in_epoch = 2")
        self.assertEqual(self.said("addo /a O:BAG:SYD:(A;;FR;;;BU)", "publish"), ["ok", "published 1"])
        self.wait_for(lambda: self.said("status")[0].split(" ")[2] == "2")
        self.stop()
        with stores.opened(self.store) as journal:
            newer = journal.snapshots()[-1]
            other = replace(newer, lines=tuple(line.replace("FR", "0x120089") for line in newer.lines))
            self.assertNotEqual(newer, other)
            with journal._transaction():
                for table in ("epochs", "snapshot"):
                    journal._database.execute(f"DELETE FROM {table} WHERE epoch = ?", (newer.epoch,))
                journal._write_snapshot(other)
            line = Line(2, 3, 0, WHO, "k", "addo /b O:BAG:SYD:(A;;0x120089;;;BU)", 0)
            journal.append([(line, line.chained(journal.store, newer.place.chain))])
        self.assertEqual(rig.run("verify", self.store).stdout, "epoch 2, line 3, published 1\n")
        self.start()
        self.assertEqual(self.said("once k addo /b O:BAG:SYD:(A;;FR;;;BU)", "once k addo /b O:BAG:SYD:(A;;FW;;;BU)"),
                         ["ok", "fault key"])


if __name__ == "__main__":
    unittest.main()
