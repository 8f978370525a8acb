"""New epochs: their snapshots, the trees that are built of them, and what fails meanwhile."""

import queue
import sqlite3
import threading
import unittest
from unittest import mock

import rig

import epochs
import loading
import stores
from edits import edit_of
from journal import Journal
from writer import Shown, Task, Writer


class Epochs(rig.Case):
    def written(self, journal: Journal, shown: "queue.SimpleQueue[Shown]", *limits: int) -> tuple[Writer, list[str]]:
        """A writer, and what it warns of."""
        warned: list[str] = []
        return Writer(journal, loading.load(journal), lambda tasks, now: shown.put(now), warned.append, *limits), warned

    def put(self, writer: Writer, *lines: str) -> None:
        for line in lines:
            edit = None if line == "publish" else edit_of(line.split(" "), writer.shown.view)
            writer.put(Task(edit, line, "", "uid:0", lambda task: None))

    def test_the_library_s_journal_gets_full(self) -> None:
        """A new epoch starts however many lines it may have, without a restart; no edit is lost or refused."""
        self.make()
        shown: "queue.SimpleQueue[Shown]" = queue.SimpleQueue()
        with mock.patch("writer.MOST_EDITS", 20), stores.opened(self.store) as journal:
            writer, warned = self.written(journal, shown)
            count = self.edit_until(writer, shown, 4)
        self.assertGreaterEqual(count, 20)
        self.assertEqual(warned, [])
        self.start()
        self.assertEqual(self.said("tell", f"show 0 /n{count - 1}"),
                         [f"told {count}", f"seen {count} shown O:BAG:SYD:AI(A;ID;FR;;;BU)"])

    def test_an_epoch_whose_commit_fails(self) -> None:
        """It may be on disk all the same: the journal is read again, and goes on."""
        self.make()
        shown: "queue.SimpleQueue[Shown]" = queue.SimpleQueue()
        begin = Journal.start_epoch

        def fail(*arguments: object) -> None:
            begin(*arguments)
            if not warned:
                raise sqlite3.OperationalError("disk I/O error")

        with mock.patch.object(Journal, "start_epoch", fail), stores.opened(self.store) as journal:
            writer, warned = self.written(journal, shown, 5)
            count = self.edit_until(writer, shown, 4)
        self.assertEqual(warned, ["no new epoch: disk I/O error"])
        said = f"epoch {writer.state.epoch}, line {2 * count}, published {count}\n"
        self.assertEqual(rig.run("verify", self.store).stdout, said)

    def edit_until(self, writer: Writer, shown: "queue.SimpleQueue[Shown]", epoch: int) -> int:
        """Starts it, and has edits made, each published, until the epoch is this one. Returns how many."""
        count, now = 0, 1
        writer.start()
        try:
            while now < epoch:
                self.put(writer, f"addo /n{count} O:BAG:SYD:", "publish")
                count += 1
                now = shown.get(timeout=rig.PATIENCE).epoch
                self.assertLess(count, 10_000)
        finally:
            writer.stop()
        return count

    def test_many_lines_since_the_publish(self) -> None:
        """They are made beside the writer, in which edits would wait for all of them: only the last ones are left."""
        self.make()
        shown: "queue.SimpleQueue[Shown]" = queue.SimpleQueue()
        made: list[str] = []
        replay = loading.Loaded.replay

        def count(*arguments: object) -> None:
            made.append(threading.current_thread().name)
            replay(*arguments)

        with mock.patch.object(loading.Loaded, "replay", count), stores.opened(self.store) as journal:
            writer, warned = self.written(journal, shown, 4_000)
            writer.start()
            self.put(writer, "addo /n O:BAG:SYD:", "publish", *(f"addo /n{at} O:BAG:SYD:" for at in range(6_000)))
            while shown.get(timeout=rig.PATIENCE).epoch == 1:
                pass
            writer.stop()
        self.assertEqual(warned, [])
        self.assertGreaterEqual(len(made), 4_000)
        self.assertLessEqual(made.count("writer"), epochs.MOST_LEFT)
        self.assertEqual(rig.run("verify", self.store).stdout, "epoch 2, line 6002, published 1\n")

    def test_lines_that_come_meanwhile(self) -> None:
        """However many these are, no more than that is left to the writer, and none is lost."""
        self.make()
        shown: "queue.SimpleQueue[Shown]" = queue.SimpleQueue()
        went_on: list[tuple[str, int]] = []
        go_on = epochs.Epoch.go_on

        def slowly(epoch: epochs.Epoch, journal: Journal) -> int:
            name = threading.current_thread().name
            count = go_on(epoch, journal)
            went_on.append((name, count))
            if len(went_on) < 4:
                self.put(writer, *(f"addo /m{len(went_on)}-{at} O:BAG:SYD:" for at in range(20)))
                threading.Event().wait(0.3)
            return count

        with mock.patch("epochs.MOST_LEFT", 5), mock.patch.object(epochs.Epoch, "go_on", slowly), \
                stores.opened(self.store) as journal:
            writer, warned = self.written(journal, shown, 5)
            writer.start()
            self.put(writer, *(f"addo /n{at} O:BAG:SYD:" for at in range(5)), "publish")
            while shown.get(timeout=rig.PATIENCE).epoch == 1:
                pass
            writer.stop()
        self.assertEqual(warned, [])
        self.assertLessEqual(max(count for name, count in went_on if name == "writer"), 5)
        self.assertEqual(rig.run("verify", self.store).stdout, "epoch 2, line 66, published 5\n")

    def test_an_epoch_that_is_not_committed(self) -> None:
        """Lines that it would have dropped are there yet: the journal is read from where it starts on disk."""
        self.make()
        self.start("lines_in_epoch = 1000")
        self.said(*(line for at in range(9) for line in (f"addo /n{at} O:BAG:SYD:", "publish")))
        self.stop()
        with mock.patch("journal.KEPT_LINES", 2), stores.opened(self.store) as journal:
            for epoch in (2, 3):
                state = loading.load(journal)
                snapshot = epochs.Snapshot(epoch, state.last, state.tree.length, tuple(epochs.dumped(state.tree.view)))
                if epoch == 3:
                    journal._database.set_authorizer(lambda what, word, *_: int(word == "COMMIT"))
                    with self.assertRaises(sqlite3.Error):
                        journal.start_epoch(snapshot, state.last.number)
                    journal._database.set_authorizer(None)
                    self.assertEqual(journal.start.number, 0)
                    loading.load(journal).tree.close()
                journal.start_epoch(snapshot, state.last.number)
            self.assertEqual(journal.start.number, 16)
            self.assertEqual(loading.load(journal).epoch, 3)


if __name__ == "__main__":
    unittest.main()
