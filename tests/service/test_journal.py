"""Journals that aren't what was written: a start names what differs, and serves nothing."""

import os
import queue
import random
import re
import shutil
import sqlite3
import subprocess
import unittest
from contextlib import closing
from dataclasses import replace
from pathlib import Path
from unittest import mock

import rig

import leading
import loading
import stores
from edits import edit_of
from entry import Line
from errors import Mismatch, ServiceError
from journal import Journal
from tree import dumped
from writer import Task, Writer

#: The bytes that are flipped in a journal, each by itself.
FLIPS = 150


def found(part: bytes, whole: bytes) -> list[int]:
    """Where the part is."""
    return [each.start() for each in re.finditer(re.escape(part), whole)]


class Journals(rig.Case):
    def fill(self, limits: str = "lines_in_epoch = 30", count: int = 70) -> None:
        """A store of two epochs and some lines after them, whose service is killed: its log is as it was."""
        self.make()
        self.start(limits)
        for at in range(count):
            self.assertEqual(self.said(f"once k{at} addo /n{at} O:BAG:SYD:(A;;FR;;;BU)"), ["ok"])
            if at % 10 == 9:
                self.said("publish")
        self.wait_for(lambda: int(self.said("status")[0].split(" ")[2]) > 2)
        self.dumped = self.dump()
        self.assertEqual(self.said("addo /last O:BAG:SYD:", "move /last /moved%20last"), ["ok", "ok"])
        self.kill()

    def assert_refused(self, text: str) -> None:
        """What a start does ends by the journal, with this text, and so does verify."""
        for work in (loading.load, loading.verify):
            with self.assertRaises(Mismatch) as refused, stores.opened(self.store) as journal:
                work(journal)
            self.assertIn(text, str(refused.exception))

    def assert_not_served(self, text: str) -> None:
        """The commands end with status 1 and say so, and nothing is served."""
        for words in (("run", self.config), ("verify", self.store)):
            said = rig.run(*words, status=1).stderr
            self.assertIn(text, said)
            self.assertNotIn('"ready"', said)
        with self.assertRaises(OSError):
            self.said("tell")

    def database(self) -> closing[sqlite3.Connection]:
        return closing(sqlite3.connect(self.store / "journal.sqlite", isolation_level=None))

    def test_starts_and_epochs(self) -> None:
        self.fill()
        said = rig.run("verify", self.store).stdout
        self.assertRegex(said, r"epoch [2-9], line 79, published 70\n")
        self.start()
        self.assertEqual(self.dump(), self.dumped)
        self.assertEqual(self.said("publish", "show 0 /moved%20last")[1], "seen 72 shown O:BAG:SYD:AI(A;ID;FR;;;BU)")

    def test_a_key_is_made_once(self) -> None:
        self.fill()
        self.start()
        again = ["once k3 addo /n3 O:BAG:SYD:(A;;FR;;;BU)", "once k3 addo /other O:BAG:SYD:", "once k3 remove /n3"]
        self.assertEqual(self.said(*again, "show 0 /other"), ["ok", "fault key", "fault key", "seen 70 nonode"])
        self.assertEqual(self.said("addo /n3 O:BAG:SYD:"), ["refused 3 Exists"])

    def test_lines_that_are_not_what_was_written(self) -> None:
        self.fill()
        whole = self.room / "whole"
        self.stash(whole)
        for change, text in (
            ("UPDATE lines SET length = 1 WHERE number = (SELECT max(number) FROM lines)",
             "isn't the one that was written"),
            ("UPDATE lines SET length = length + 1 WHERE number = 77", "line 77 isn't the one that was written"),
            ("UPDATE lines SET line = 'remove /n1' WHERE number = 5", "line 5 isn't the one that was written"),
            ("UPDATE lines SET who = 'uid:7' WHERE number = 6", "line 6 isn't the one that was written"),
            ("UPDATE lines SET time = time + 1 WHERE number = 7", "line 7 isn't the one that was written"),
            ("UPDATE lines SET key = 'other' WHERE number = 8", "line 8 isn't the one that was written"),
            ("DELETE FROM lines WHERE number = 9", "line 9 is missing"),
            ("DELETE FROM lines WHERE number = (SELECT max(number) FROM lines)", "is missing"),
            ("DELETE FROM lines WHERE number > 40", "line 41 is missing"),
            ("UPDATE lines SET number = 1000 WHERE number = (SELECT max(number) FROM lines)", "is missing"),
            ("UPDATE snapshot SET lines = replace(lines, 'FR', 'FA')", "the snapshot of epoch"),
            ("DELETE FROM snapshot", "the snapshot of epoch"),
            ("UPDATE epochs SET length = length + 1", "the snapshot of epoch"),
            ("DELETE FROM epochs", "there is no snapshot"),
            ("UPDATE store SET id = 'ab'", "its mark is that of another store"),
            ("UPDATE store SET mapping = 'key'", "the snapshot of epoch"),
            ("UPDATE store SET version = 9", "it is no journal of version 1 or 2"),
            ("DELETE FROM store", "it is no journal of version 1 or 2"),
            ("DROP TABLE lines", "no such table"),
        ):
            with self.subTest(change):
                self.unstash(whole)
                with self.database() as database:
                    database.execute(change)
                self.assert_refused(text)
        self.assert_not_served(text)

    def test_a_snapshot_that_its_lines_do_not_make(self) -> None:
        """A start takes it, as it was written; verify compares it with the lines since the snapshot before."""
        self.fill()
        with stores.opened(self.store) as journal:
            newer = journal.snapshots()[-1]
            forged = replace(newer, lines=tuple(line.replace("FR", "FA") for line in newer.lines))
            with journal._transaction():
                for table in ("epochs", "snapshot"):
                    journal._database.execute(f"DELETE FROM {table} WHERE epoch = ?", (newer.epoch,))
                journal._write_snapshot(forged)
            loading.load(journal).tree.close()
        said = rig.run("verify", self.store, status=1).stderr
        self.assertIn(f"the snapshot of epoch {newer.epoch} isn't what its lines make", said)

    def stash(self, where: Path) -> None:
        shutil.copytree(self.store, where)

    def unstash(self, where: Path) -> None:
        shutil.rmtree(self.store)
        shutil.copytree(where, self.store)

    def test_lines_that_are_chained_and_have_another_outcome(self) -> None:
        """A chain that somebody made again doesn't help: the library refuses the edit, or publishes another length."""
        self.fill()
        whole = self.room / "whole"
        self.stash(whole)
        for text, length, said in (
            ("addo /n1 O:BAG:SYD:", 0, "it was accepted, and is refused: refused 3 Exists"),
            ("addo /n O:BAG:SYD:", 7, "it publishes 0 edits, and published 7"),
            ("addo /n X", 0, "it was accepted, and is refused: fault sddl"),
            ("frob /n", 0, "it was accepted, and is refused: 'frob' is no edit"),
            ("publish", 71, "it publishes 72 edits, and published 71"),
            ("publish", 0, "it publishes 72 edits, and published 0"),
        ):
            with self.subTest(text, length=length):
                self.unstash(whole)
                with stores.opened(self.store) as journal:
                    *_, (last, chain) = journal.lines(0)
                    line = Line(last.epoch, last.number + 1, 0, "uid:0", "", text, length)
                    journal.append([(line, line.chained(journal.store, chain))])
                self.assert_refused(f"line {line.number}: {said}")

    def test_cut_logs(self) -> None:
        """SQLite drops the end of a cut write-ahead log without a word; the mark shows it."""
        self.fill()
        whole = self.room / "whole"
        self.stash(whole)
        size = (whole / "journal.sqlite-wal").stat().st_size
        self.assertGreater(size, 8192)
        for length in (0, 1, 32, size // 3, size // 2, size - 5000, size - 1):
            with self.subTest(length):
                self.unstash(whole)
                os.truncate(self.store / "journal.sqlite-wal", length)
                self.assert_refused("line")
        self.unstash(whole)
        os.unlink(self.store / "journal.sqlite-wal")
        self.assert_refused("line")

    def test_cut_databases(self) -> None:
        self.fill()
        self.start()
        self.stop()
        whole = self.room / "whole"
        self.stash(whole)
        size = (whole / "journal.sqlite").stat().st_size
        for length in (0, 1, 100, 4096, size // 2, size - 4096, size - 1):
            with self.subTest(length):
                self.unstash(whole)
                os.truncate(self.store / "journal.sqlite", length)
                self.assertTrue(self._is_named() or length == size - 1)

    def test_flipped_bits(self) -> None:
        """A flipped bit is named, or changes nothing: it is in no line, snapshot or index."""
        self.fill()
        whole = self.room / "whole"
        self.stash(whole)
        chance = random.Random(7)
        named = 0
        for name in ("journal.sqlite", "journal.sqlite-wal", "mark"):
            for _ in range(FLIPS // 3):
                self.unstash(whole)
                data = bytearray((self.store / name).read_bytes())
                data[chance.randrange(len(data))] ^= 1 << chance.randrange(8)
                (self.store / name).write_bytes(data)
                named += self._is_named()
        self.assertGreater(named, FLIPS // 4)

    def test_flipped_bits_of_what_counts(self) -> None:
        """In a database without a log, which has no sums of its own: each part of a line, the index and a snapshot."""
        self.fill()
        self.start()
        self.stop()
        whole = (self.store / "journal.sqlite").read_bytes()
        with self.database() as database:
            who, key, line, chain = database.execute(
                "SELECT who, key, line, chain FROM lines WHERE key = 'k65'").fetchone()
            (lines,) = database.execute("SELECT lines FROM snapshot ORDER BY epoch LIMIT 1").fetchone()
        row = f"{who}{key}{line}".encode() + chain
        parts = [0, len(who), len(who + key), len(row) - len(chain), len(row) - 1]
        places = [at + part for at in found(row, whole) for part in parts]
        places += [at for at in found(key.encode(), whole) if at + len(key) not in found(line.encode(), whole)]
        places += found(lines.encode()[:200], whole)
        self.assertGreater(len(places), len(parts) + 1)
        for at in places:
            with self.subTest(at=at, near=whole[at - 20 : at + 20]):
                data = bytearray(whole)
                data[at] ^= 1
                (self.store / "journal.sqlite").write_bytes(data)
                self.assertTrue(self._is_named())

    def _is_named(self) -> bool:
        """Whether a start ends by the journal. Else it serves exactly what was acknowledged."""
        try:
            with stores.opened(self.store) as journal:
                state = loading.load(journal)
        except (ServiceError, sqlite3.Error):
            return True
        self.assertEqual(list(dumped(state.tree.view)), self.dumped)
        edit = edit_of(["addo", "/moved%20last", "O:BAG:SYD:"], state.tree.view)
        self.assertEqual(state.tree.make(edit).line(), "refused 3 Exists")
        state.tree.close()
        return False

    def test_marks(self) -> None:
        self.fill()
        mark = (self.store / "mark").read_bytes()
        for text, said in ((b"", "it isn't a mark"), (b"x" * 128, "it isn't a mark"), (mark[::-1], "it isn't a mark")):
            (self.store / "mark").write_bytes(text)
            self.assert_refused(said)
        # That of another history of the store, which is as long.
        digit = mark.rstrip()[-1:]
        (self.store / "mark").write_bytes(mark.rstrip()[:-1] + (b"0" if digit != b"0" else b"1"))
        self.assert_refused("line 79 isn't the one that was acknowledged")
        os.unlink(self.store / "mark")
        self.assert_not_served("the mark of the journal is missing")

    def test_a_commit_is_flushed(self) -> None:
        """What is committed survives a loss of power as SQLite has it: in a log, which each commit flushes."""
        self.make()
        with stores.opened(self.store) as journal:
            said = [journal._database.execute(f"PRAGMA {name}").fetchone() for name in ("journal_mode", "synchronous")]
        self.assertEqual(said, [("wal",), (2,)])

    def test_a_clock_before_1970(self) -> None:
        """A line has the time 0 then, which replicas take; they take that of an earlier version too."""
        self.make()
        done: "queue.SimpleQueue[list[Task]]" = queue.SimpleQueue()
        with mock.patch("time.time_ns", return_value=-(10**15)), stores.opened(self.store) as journal:
            writer = Writer(journal, loading.load(journal), lambda tasks, now: done.put(tasks), print)
            writer.start()
            edit = edit_of(["addo", "/a", "O:BAG:SYD:"], writer.shown.view)
            writer.put(Task(edit, edit.line(), "", "uid:0", lambda task: None))
            self.assertEqual(done.get(timeout=rig.PATIENCE)[0].answer.line(), "ok")
            writer.stop()
            ((line, chain),) = journal.lines(0)
        self.assertEqual(line.time, 0)
        for each in (line, line._replace(time=-5)):
            self.assertEqual(leading.line_in(leading.row_of(each, chain)), (each, chain))

    def test_keys_have_an_index(self) -> None:
        """However many lines there are, a key is found among them in a few steps."""
        self.make()
        steps: list[int] = []
        with stores.opened(self.store) as journal:
            lines = [Line(1, number, 0, "uid:0", f"k{number}", "addo /n O:BAG:SYD:", 0) for number in range(1, 1_001)]
            journal.append([(line, b"") for line in lines])
            journal._database.set_progress_handler(lambda: steps.append(1), 10)
            found = [journal.by_key("k7"), journal.by_key("k1001")]
            journal._database.set_progress_handler(None, 0)
        self.assertEqual(found, [lines[6], None])
        self.assertLess(len(steps), 20)

    def test_one_process_alone(self) -> None:
        self.make()
        self.start()
        said = rig.run("run", self.config, status=3).stderr
        self.assertIn("another process serves this store", said)
        self.assertEqual(self.said("tell"), ["told 0"])

    def test_init(self) -> None:
        for dump in ("", "publish\n", "open 1 O:BAG:SYD:\n", "open 1 D:\npublish\n",
                     "open 1 O:BAG:SYD:\nowner / BU\npublish\n",
                     "open 1 O:BAG:SYD:\naddo /a/b O:BAG:SYD:\npublish\n",
                     "open 1 O:BAG:SYD:(A;ID;FR;;;BU)\npublish\n"):
            with self.subTest(dump):
                rig.run("init", self.store, given=dump, status=2)
                self.assertFalse(self.store.exists())
        self.make("open 1 O:BAG:SYD:(A;OICI;GR;;;BU)\naddc /d O:BAG:SYD:\naddo /d/a%20b O:BAG:SYD:\npublish\n",
                  "--mapping", "key")
        self.start()
        self.assertEqual(self.said(f"check 0 /d/a%20b {rig.USER} 0x10 BU"), ["seen 2 granted 0x10"])
        self.assertIn("isn't an empty folder", rig.run("init", self.store, given=rig.DUMP, status=2).stderr)

    def test_full_disks(self) -> None:
        self.fill_disk()

    def test_full_disks_at_new_epochs(self) -> None:
        self.fill_disk("lines_in_epoch = 7")

    def fill_disk(self, limits: str = "") -> None:
        """Where the disk is full an edit is answered `unavailable journal`, and reads go on; later edits are taken."""
        small = self.mount_small()
        self.store = small / "store"
        self.make()
        self.start(limits)
        with self.connect() as asked:
            accepted, published = self.fill_journal(asked)
            self.assertGreater(published, 20)
            long = f"addo /p O:BAG:SYD:{'(A;;FR;;;BU)' * 2000}"
            # (it is tried again every five seconds, and something short may fit)
            self.wait_for(lambda: asked.ask(long) == "unavailable journal" and self.get("/readyz")[0] == 503
                          and self.metrics()["sdstored_takes_edits"] == 0)
            rig.run("backup", self.store, small / "copy", status=3)
            rig.run("restore", self.store / "journal.sqlite", small / "other", status=3)
            self.assertEqual(os.listdir(small), ["store"])
            for _ in range(3):
                # A publish that isn't on disk is shown to nobody.
                asked.send(f"p {long}\np publish\np tell\n".encode())
                said = [asked.read().decode() for _ in range(3)]
                self.assertEqual(said[0], "p unavailable journal\n")
                # (a line as short as that of a publish may still fit)
                self.assertIn(said[1], ("p unavailable journal\n", f"p published {accepted}\n"))
                published = accepted if said[1].startswith("p published ") else published
                self.assertEqual(said[2], f"p told {published}\n")
            self.assertEqual(asked.ask(f"show 0 /n{published}"), f"seen {published} nonode")
            self.assertEqual(asked.ask(f"check 0 /n3 {rig.USER} FR"), f"seen {published} granted 0x120089")
            subprocess.run(["mount", "-o", "remount,size=64m", str(small)], check=True)
            if limits:
                # Without an edit too.
                self.wait_for(lambda: self.get("/readyz")[0] == 200)
            self.assertEqual(asked.ask("addo /after O:BAG:SYD:"), "ok")
            self.assertEqual(asked.ask("publish"), f"published {accepted + 1}")
            self.assertEqual((self.get("/readyz")[0], self.metrics()["sdstored_takes_edits"]), (200, 1))
        self.kill()
        self.start()
        self.assertEqual(self.said("tell"), [f"told {accepted + 1}"])
        self.stop()

    def fill_journal(self, asked: rig.Lines) -> tuple[int, int]:
        """Edits, and publishes now and then, until one isn't taken. Returns how many edits were, and were published."""
        accepted, published, answer = 0, 0, "ok"
        while answer == "ok":
            answer = asked.ask(f"addo /n{accepted} O:BAG:SYD:(A;;FR;;;{rig.USER}){'(A;;FR;;;BU)' * 100}")
            accepted += answer == "ok"
            if answer == "ok" and accepted % 20 == 0:
                answer = asked.ask("publish")
                if answer == f"published {accepted}":
                    answer, published = "ok", accepted
        self.assertEqual(answer, "unavailable journal")
        return accepted, published


if __name__ == "__main__":
    unittest.main()
