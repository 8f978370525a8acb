"""Edits that are made all or none: beside those of others, where a commit fails, and under kills."""

import contextlib
import json
import queue
import random
import sqlite3
import time
import unittest
from unittest import mock

import rig

import loading
import stores
from edits import edit_of
from entry import Line
from journal import Journal
from task import Task
from tree import dumped
from writer import Shown, Writer

ADD = "addo /{} O:BAG:SYD:"
PUBLISHES = ("publish", "publish all")


class Batches(rig.Case):
    """A writer of its own, to which tasks are put as the service puts them."""

    def setUp(self) -> None:
        super().setUp()
        self.make()
        opened = stores.opened(self.store)
        self.journal = opened.__enter__()
        self.addCleanup(opened.__exit__, None, None, None)
        self.answered: "queue.SimpleQueue[tuple[list[Task], Shown]]" = queue.SimpleQueue()
        self.warned: list[str] = []
        self.writer = Writer(self.journal, loading.load(self.journal),
                             lambda tasks, shown: self.answered.put((tasks, shown)), self.warned.append)

    def task(self, *lines: str, key: str = "", only_if: int | None = None, who: str = "uid:0") -> Task:
        """Several edits, all or none, or the one."""
        parts = [Task(None if line in PUBLISHES else edit_of(line.split(" "), self.writer.shown.view),
                      "publish" if line in PUBLISHES else line, f"{key}/{at}" if key else "", who, lambda task: None,
                      of_all=line == "publish all") for at, line in enumerate(lines)]
        if len(parts) == 1 and only_if is None:
            return parts[0]
        return Task(None, "", "", "uid:0", lambda task: None, parts=parts, only_if=only_if)

    def run_all(self, *tasks: Task) -> list[list[str]]:
        """The answers of all, which are there as the writer starts: they share commits."""
        for each in tasks:
            self.writer.put(each)
        self.writer.start()
        left = len(tasks)
        while left:
            done, self.shown = self.answered.get(timeout=rig.PATIENCE)
            left -= len(done)
        self.writer.stop()
        for each in tasks:
            each.settle()
        return [[part.answer.line() for part in each.each] for each in tasks]

    def nodes(self) -> list[str]:
        """Those of the tree that a start makes, pending edits too."""
        state = loading.load(self.journal)
        with state.tree.pending_view() as view:
            return [line.split(" ")[1] for line in dumped(view) if line.startswith("addo ")]

    def test_beside_those_of_others(self) -> None:
        """In one commit: what isn't made leaves what was before it, and what comes after."""
        answers = self.run_all(
            self.task(ADD.format("before")),
            self.task(ADD.format("x"), ADD.format("y"), "remove /none", "publish"),
            self.task(ADD.format("after")),
            self.task(ADD.format("x"), "publish", key="k", only_if=0),
            self.task(ADD.format("z"), "publish", only_if=0),
            self.task("remove /x", "remove /x", "publish"),
            self.task(ADD.format("x"), "publish", key="k", only_if=0),
            self.task(ADD.format("w"), "publish", key="k"),
        )
        self.assertEqual(answers, [
            ["ok"], ["unmade", "unmade", "refused 4 NoNode", "unmade"], ["ok"], ["ok", "published 3"],
            ["fault published"] * 2, ["unmade", "refused 4 NoNode", "unmade"], ["ok", "published 3"],
            ["fault key"] * 2])
        self.assertEqual((self.shown.length, self.shown.last.number, self.warned), (3, 4, []))
        self.assertEqual(sorted(self.nodes()), ["/after", "/before", "/x"])

    def test_edits_of_others(self) -> None:
        """While any are pending nothing is published without a word that says so; a key's answer is given again."""
        def of_other(*lines: str, key: str = "") -> Task:
            return self.task(*lines, key=key, who="uid:1")

        tasks = [
            self.task(ADD.format("a")), of_other(ADD.format("b")), of_other("publish"), self.task("publish", key="k"),
            of_other(ADD.format("c"), "publish"), self.task(ADD.format("c"), "publish", only_if=0),
            of_other(ADD.format("c")), of_other("publish all", key="o"), of_other("publish"), self.task("publish"),
            self.task(ADD.format("d"), key="k"), of_other("publish all", key="o"), of_other("publish", key="o"),
            of_other("publish"), self.task("remove /d", "publish"), of_other(ADD.format("e"), "publish"),
            self.task(ADD.format("f")),
        ]
        with mock.patch("writer.MOST_AT_ONCE", 1):
            answers = self.run_all(*tasks)
        self.assertEqual(answers, [
            ["ok"], ["ok"], ["fault pending 1"], ["fault pending 1"], ["unmade", "fault pending 1"],
            ["unmade", "fault pending 1"], ["ok"], ["published 3"], ["published 3"], ["published 3"], ["ok"],
            ["published 3"], ["published 3"], ["fault pending 1"], ["ok", "published 5"], ["ok", "published 6"],
            ["ok"]])
        state = loading.load(self.journal)
        self.assertEqual(state.pending, [("uid:0", ADD.format("f"))])
        self.assertEqual((sorted(self.nodes()), self.shown.length), (["/a", "/b", "/c", "/e", "/f"], 6))

    def test_whose_edits_after_a_commit_that_fails(self) -> None:
        """What isn't on disk is nobody's pending edit."""
        append, left = Journal.append, [0]

        def fail(journal: Journal, lines: list[object]) -> None:
            left[0] += 1
            if left[0] in (2, 4):
                raise sqlite3.OperationalError("disk I/O error")
            append(journal, lines)

        with mock.patch.object(Journal, "append", fail), mock.patch("writer.MOST_AT_ONCE", 1):
            answers = self.run_all(*(self.task(line, who=f"uid:{who}") for who, line in (
                (1, ADD.format("a")), (2, ADD.format("b")), (1, "publish"), (2, ADD.format("b")), (2, "publish all"),
                (1, "publish"))))
        self.assertEqual(answers, [["ok"], ["unavailable journal"], ["published 1"], ["unavailable journal"],
                                   ["published 1"], ["published 1"]])
        self.assertEqual((self.writer.state.pending, self.nodes()), ([], ["/a"]))

    def test_a_commit_that_fails(self) -> None:
        """None of them was made, and the next ones are."""
        append = Journal.append

        def fail(journal: Journal, lines: list[object]) -> None:
            if len(lines) == 3:
                raise sqlite3.OperationalError("disk I/O error")
            append(journal, lines)

        with mock.patch.object(Journal, "append", fail), mock.patch("writer.MOST_AT_ONCE", 1):
            answers = self.run_all(self.task(ADD.format("a"), ADD.format("b"), "publish"),
                                   self.task(ADD.format("a"), "publish"))
        self.assertEqual(answers, [["unavailable journal"] * 3, ["ok", "published 1"]])
        self.assertEqual(self.nodes(), ["/a"])

    def test_the_store_after_a_commit_that_fails(self) -> None:
        """It is that of the journal, which isn't replayed for it: whether the commit is there or not, and of whatever
        edits it was."""
        append, chained, left = Journal.append, Line.chained, [0]

        def fail(journal: Journal, lines: list[object], is_there: bool) -> None:
            left[0] -= 1
            if left[0] != 0 or is_there:
                append(journal, lines)
            if left[0] == 0:
                raise sqlite3.OperationalError("disk I/O error")

        def lack(*arguments: object) -> bytes:
            left[0] -= 1
            if left[0] == 0:
                raise MemoryError
            return chained(*arguments)

        lines = [ADD.format("a"), "publish", ADD.format("b"), "remove /a", "publish", ADD.format("c"), "publish"]
        for name, patch in (("before", mock.patch.object(Journal, "append", lambda *given: fail(*given, False))),
                            ("after", mock.patch.object(Journal, "append", lambda *given: fail(*given, True))),
                            ("memory", mock.patch.object(Line, "chained", lack))):
            for at in range(1, len(lines)):
                with self.subTest(name, at=at), patch, mock.patch("writer.load", wraps=loading.load) as load, \
                        mock.patch("writer.MOST_AT_ONCE", at if name == "memory" else 2):
                    left[0] = at if name == "memory" else (at + 1) // 2
                    answers = self.run_all(*(self.task(line) for line in (*lines, ADD.format("z"), "publish")))
                    self.assertIn(["unavailable journal"], answers)
                    self.assertEqual(answers[-2:], [["ok"], [f"published {self.shown.length}"]])
                    self.assertEqual(load.call_count, 0)
                    with self.writer.state.tree.pending_view() as view:
                        nodes = [line.split(" ")[1] for line in dumped(view) if line.startswith("addo ")]
                    self.assertEqual(nodes, self.nodes())
                    shown = [line.split(" ")[1] for line in dumped(self.shown.view) if line.startswith("addo ")]
                    self.assertEqual(shown, nodes)
                self.doCleanups()
                self.setUp()

    def test_a_commit_that_fails_after_the_journal_was_read_again(self) -> None:
        """What the store goes back to isn't closed by the publish that failed."""
        append, failed = Journal.append, list[object]()

        def fail(journal: Journal, lines: list[object]) -> None:
            if not failed:
                failed.append(lines)
                raise sqlite3.OperationalError("disk I/O error")
            append(journal, lines)

        self.writer.is_lost = True
        with mock.patch.object(Journal, "append", fail), mock.patch("writer.MOST_AT_ONCE", 2):
            answers = self.run_all(*(self.task(line) for line in (ADD.format("a"), "publish", ADD.format("b"), "publish")))
        self.assertEqual(answers, [["unavailable journal"], ["unavailable journal"], ["ok"], ["published 1"]])
        self.assertEqual(self.nodes(), ["/b"])

    def test_memory(self) -> None:
        """Out of memory at any of them: none is made."""
        with mock.patch("tree.Tree.publish", side_effect=MemoryError):
            answers = self.run_all(self.task(ADD.format("a"), "publish"), self.task(ADD.format("b")))
        self.assertEqual(answers, [["unmade", "unavailable memory"], ["ok"]])
        self.assertEqual(self.nodes(), ["/b"])

    def test_many_share_no_commit(self) -> None:
        """A commit has no more values than SQLite takes."""
        sizes: list[int] = []
        append = Journal.append
        with mock.patch.object(Journal, "append", lambda journal, lines: (sizes.append(len(lines)),
                                                                          append(journal, lines))):
            self.run_all(*(self.task(*(ADD.format(f"{at}.{one}") for one in range(1000))) for at in range(6)))
        self.assertEqual(sum(sizes), 6000)
        self.assertLess(max(sizes) * 8, 32_766)


class Kills(rig.Case):
    def test_kills(self) -> None:
        """After a kill each request's edits are there, and published, or none of them is."""
        self.make()
        chance, made = random.Random(3), 0
        for _ in range(6):
            self.start()
            made += 1
            self.send(made, waits=True)
            end = time.monotonic() + chance.random() * 0.2
            while time.monotonic() < end:
                made += 1
                self.send(made)
            time.sleep(chance.random() * 0.01)
            self.kill()
        self.start()
        found = {line.split(" ")[1] for line in self.dump() if line.startswith("addo")}
        one, other = ({path[2:] for path in found if path[1] == name} for name in "ab")
        self.assertEqual(one, other)
        self.assertGreater(len(one), 0)

    def send(self, number: int, waits: bool = False) -> None:
        """A request, for whose answer nobody waits, but for some."""
        edits = [{"edit": "addo", "path": f"/{name}{number}", "descriptor": "O:BAG:SYD:"} for name in "ab"]
        body = json.dumps({"edits": edits, "publish": True})
        with contextlib.suppress(OSError), rig.connected(self.http) as asked:
            asked.sendall(f"POST /v1/edit HTTP/1.1\r\nHost: x\r\nContent-Type: application/json\r\n"
                          f"Content-Length: {len(body)}\r\n\r\n{body}".encode())
            if waits:
                asked.recv(1)


if __name__ == "__main__":
    unittest.main()
