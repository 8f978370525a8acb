"""Replicas: they have the leader's lines, answer by them alone, and nothing once they know too little of it."""

import hashlib
import json
import os
import random
import shutil
import signal
import subprocess
import time
import unittest
from pathlib import Path
from unittest import mock

import rig

import leading
import loading
import stores
from entry import Line
from errors import Fault, Mismatch
from leading import Lines, lines_in, snapshot_in
from service import Service
from writer import Writer


class Replicas(rig.Case):
    def setUp(self) -> None:
        super().setUp()
        self.other = rig.Case()
        self.other.setUp()
        self.addCleanup(self.other.doCleanups)
        self.make()
        self.start("lines_in_epoch = 30")

    def follow(self, seconds: int = 20, limits: str = "lines_in_epoch = 20", leader: Path | None = None) -> None:
        at = f'[leader]\nunix = "{leader or self.lines}"\nmax_age_seconds = {seconds}'
        self.other.start(limits, more=at)

    def between(self) -> rig.Scripted:
        """What stands between a replica and the leader: it passes on what is asked, and counts that."""

        def answer(asked: str) -> list[str]:
            with self.connect() as leader:
                lines = [leader.ask(asked)]
                while lines[-1] and not asked.startswith("status"):
                    lines.append(leader.read().decode().removeprefix("x ").rstrip("\n"))
            return lines

        return rig.Scripted(self.room / "between", answer)

    def wait_for_line(self) -> None:
        """Until the replica shows what the leader does."""
        state = self.said("status")[0].split(" ")[3:]
        self.other.wait_for(lambda: self.other.said("status")[0].split(" ")[3:] == state)

    def edit(self, count: int, name: str = "n") -> None:
        with self.connect() as asked:
            for at in range(count):
                self.assertEqual(asked.ask(f"addo /{name}{at} O:BAG:SYD:(A;;FR;;;BU)"), "ok")
            asked.ask("publish")

    def test_follows(self) -> None:
        self.edit(50)
        self.follow()
        self.edit(70, "m")
        self.wait_for_line()
        self.assertEqual(self.other.dump(), self.dump())
        self.assertEqual(self.other.said("tell", "addo /x O:BAG:SYD:", "publish", f"check 0 /m7 {rig.USER} FR BU"),
                         ["told 120", "unavailable replica", "unavailable replica", "seen 120 granted 0x120089"])
        self.assertEqual(self.said("addo /x O:BAG:SYD:"), ["ok"])
        store = self.said("status")[0].split(" ")[1]
        self.other.kill()
        self.edit(5, "k")
        self.follow()
        self.wait_for_line()
        self.other.stop()
        self.assertIn("published 126", rig.run("verify", self.other.store).stdout)
        # Without a leader it is one itself.
        self.kill()
        self.other.start()
        self.assertEqual(self.other.said("addo /y O:BAG:SYD:", "publish"), ["ok", "published 127"])
        self.assertEqual(self.other.said("status")[0].split(" ")[1], store)
        self.other.stop()
        rig.run("verify", self.other.store)

    def test_a_silent_leader(self) -> None:
        self.edit(3)
        self.follow(1)
        self.wait_for_line()
        self.kill()
        self.other.wait_for(lambda: self.other.said("tell") == ["unavailable behind"])
        self.assertEqual(self.other.get("/readyz"), (503, "not ready\n"))
        self.assertGreater(self.other.metrics()["sdstored_replica_age_seconds"], 1)
        with self.other.connect() as asked:
            asked.send(b"l list\n")
            self.assertEqual((asked.read(), asked.read()), (b"l unavailable behind\n", b"l \n"))
        self.start()
        self.edit(1, "again")
        self.other.wait_for(lambda: self.other.said("tell") == ["told 4"])
        self.other.wait_for(lambda: self.other.get("/readyz") == (200, "ready\n"))
        values = self.other.metrics()
        self.assertEqual([values[f"sdstored_{name}"] for name in ("replica_lag_lines", "takes_edits")], [0, 0])

    def test_a_leader_that_was_never_there(self) -> None:
        """A replica that starts answers nothing before it has what the leader had then."""
        self.edit(3)
        self.follow()
        self.other.stop()
        self.kill()
        self.other.launch()
        self.other.wait_until_ready()
        self.assertEqual(self.other.said("tell", f"check 0 / {rig.USER} FR"), ["unavailable behind"] * 2)

    def test_what_ends_a_replica(self) -> None:
        """Another store, and lines that the leader doesn't keep any more."""
        self.edit(3)
        self.follow()
        self.wait_for_line()
        rig.run("backup", self.store, self.room / "copy")
        self.kill()
        self.store = self.room / "restored"
        rig.run("restore", self.room / "copy", self.store)
        self.start()
        self.assertEqual(self.other.process.wait(rig.PATIENCE), 1)
        self.assertIn(": the store is", self.other.log.read_text())

    def test_a_leader_with_no_snapshot(self) -> None:
        """What is no snapshot makes no store."""
        store = "0" * 32
        lines = ["open 1 O:BAG:SYD:", "publish"]
        def head(*, digest: str | None = None, **others: object) -> str:
            made = {"store": store, "mapping": "file", "epoch": 1, "number": 0, "chain": "", "length": 0}
            text = "\n".join(map(str, (*{**made, **others}.values(), *lines)))
            made |= {"digest": hashlib.sha256(text.encode()).hexdigest(), "first": 0, "before": ""}
            return json.dumps(list({**made, **others, **({} if digest is None else {"digest": digest})}.values()))

        self.assertEqual(snapshot_in([head(), *lines]).snapshot.lines, tuple(lines))
        for said in (
            [""], ["[]"], ["{"], ["[" * 100_000], ["7", *lines], [head(digest="00" * 32), *lines],
            [head(store="x"), *lines], [head(mapping="disk"), *lines], [head(epoch="1"), *lines],
            [head(number=-1), *lines], [head(number=1 << 63), *lines], [head(chain="x"), *lines],
            [head(first=-1), *lines], [head(first=1), *lines], [head(before="x"), *lines], [head(before="00"), *lines],
            [head()], [head(), "open 1 X", "publish"], [head(), lines[0]], [head(), *lines, "publish"],
            [head(), "open 1 O:BAG:SYD:(A;;FA;;;WD)", "publish"], [json.dumps([store, "file", 1, 0, "", 0]), *lines],
        ):
            with self.subTest(said=str(said)[:80]):
                self.assert_ended(said, store)
                self.assertFalse(self.other.store.exists())

    def assert_ended(self, said: list[str], store: str) -> None:
        """A replica whose leader has this store and these lines ends with status 1."""
        with self.scripted(said, store):
            rig.run("run", self.other.config, status=1)

    def scripted(self, said: list[str], store: str, seconds: int = 20) -> rig.Scripted:
        """A leader of this store, which answers each question by these lines, and is the replica's."""
        answers = {"status": [f"status {store} 1 0 00 0"]}
        self.other.configure(more=f'[leader]\nunix = "{self.room / "false"}"\nmax_age_seconds = {seconds}')
        return rig.Scripted(self.room / "false", lambda asked: answers.get(asked, [*said, ""]))

    def test_a_new_epoch_at_a_first_start(self) -> None:
        """Lines that the leader drops meanwhile are no reason to end for good, as systemd takes status 1."""
        self.edit(40)
        self.wait_for(lambda: self.said("status")[0].split(" ")[2] == "2")
        with self.connect() as asked:
            asked.send(b"x snapshot\n")
            head, *dump = iter(lambda: asked.read().decode()[2:-1], "")
        given = json.loads(head)
        self.assertEqual((given[3], given[-2:]), (41, [0, ""]))
        answers = {"status": [f"status {given[0]} 2 0 00 0"], "lines 0": ["fault gone"]}
        for status in (1, 3):
            with self.subTest(status=status):
                found = iter(([head, *dump], [head, *dump] if status == 1 else [self.later(head, dump), *dump]))

                def answer(asked: str) -> list[str]:
                    return [*(next(found) if asked == "snapshot" else answers[asked]), *[""] * (asked != "status")]

                self.other.configure(more=f'[leader]\nunix = "{self.room / "false"}"\nmax_age_seconds = 20')
                with rig.Scripted(self.room / "false", answer):
                    rig.run("run", self.other.config, status=status)
                self.assertFalse(self.other.store.exists())

    def later(self, head: str, dump: list[str]) -> str:
        """The head of the same tree at a later line."""
        store, mapping, epoch, number, chain, length, _, *first = json.loads(head)
        fields = [store, mapping, epoch, number + 1, chain, length]
        digest = hashlib.sha256("\n".join(map(str, (*fields, *dump))).encode()).hexdigest()
        return json.dumps([*fields, digest, *first])

    def test_a_leader_with_other_lines(self) -> None:
        """What aren't the next lines ends a replica, and its journal stays as it is."""
        self.edit(3)
        self.follow()
        self.wait_for_line()
        self.other.stop()
        _, store, _, number, chain, _ = self.said("status")[0].split(" ")
        line = [1, int(number) + 1, 0, "uid:0", "", "addo /x O:BAG:SYD:", "ok", chain]
        for said in (
            [], [""], ["last"], ["first 9 0"], ["last x 0"], ["last 9"], ["last 9 -1"], ["last 9 x"], ["last 9 0 0"],
            ["last 9 0", "{"], ["last 9 0", "[]"], [f"last 9 {1 << 63}"],
            ["last 9 0", json.dumps([*line[:7], "x"])], ["last 9 0", json.dumps([True, *line[1:]])],
            ["last 9 0", json.dumps([*line[:1], str(line[1]), *line[2:]])],
            ["last 9 0", json.dumps([1, -1, *line[2:]])],
            *(["last 9 0", json.dumps([*line[:6], said, chain])] for said in ("OK", "", "published 0", "published x")),
        ):
            with self.subTest(said=said), self.assertRaises(Mismatch):
                lines_in(said)
        for said in (["last 9 0", "{"], ["last 9 0", json.dumps(line)], ["last 9 0", json.dumps([1, 9, *line[2:]])],
                     ["fault gone"], ["fault chain"]):
            with self.subTest(said=said):
                self.assert_ended(said, store)
        self.assertEqual(rig.run("verify", self.other.store).stdout.split(", ")[1], f"line {number}")

    def test_roles(self) -> None:
        self.stop()
        self.start(allow=f'{{"uid:{os.getuid()}" = "check"}}')
        self.assertEqual(self.said("status")[0].split(" ")[0], "status")
        with self.connect() as asked:
            for line in ("snapshot", "lines 0"):
                asked.send(f"x {line}\n".encode())
                self.assertEqual((asked.read(), asked.read()), (b"x fault role\n", b"x \n"))
        self.stop()
        self.start(allow=f'{{"uid:{os.getuid()}" = "follow"}}')
        self.assertEqual(self.said("addo /x O:BAG:SYD:"), ["fault role"])
        with self.connect() as asked:
            for line, said in (
                ("lines 0", "last 0 0"), ("lines 9", "fault gone"), ("lines 0 00", "fault chain"),
                ("lines 0 x", "fault chain"), ("lines x", "fault number"), (f"lines {1 << 63}", "fault gone"),
                ("lines", "fault words"), ("lines 0 00 00", "fault words"), ("snapshot x", "fault words"),
            ):
                asked.send(f"x {line}\n".encode())
                self.assertEqual((asked.read(), asked.read()), (f"x {said}\n".encode(), b"x \n"))

    def test_long_lines(self) -> None:
        """One answer has no more of them than a replica gets in time."""
        self.edit(9)
        file = self.store / "journal.sqlite"
        with mock.patch("leading._MOST_AT_ONCE", 1):
            first, *rows = leading.answer(file, ["lines", "0"], 0.0015)
        self.assertEqual((first, len(rows)), ("last 10 2", 1))

    def test_a_replica_of_a_replica(self) -> None:
        """It is as old as what its source knows: once that is too old neither answers, nor gives lines."""
        third = rig.Case()
        third.setUp()
        self.addCleanup(third.doCleanups)
        self.edit(3)
        self.follow(2)
        third.start(more=f'[leader]\nunix = "{self.other.lines}"\nmax_age_seconds = 2')
        self.wait_for_line()
        third.wait_for(lambda: third.said(f"check 0 /n1 {rig.USER} FR BU") == ["seen 3 granted 0x120089"])
        self.kill()
        third.wait_for(lambda: third.said(f"check 0 /n1 {rig.USER} FR BU") == ["unavailable behind"])
        self.assertEqual(third.get("/readyz")[0], 503)
        self.assertGreater(third.metrics()["sdstored_replica_age_seconds"], 1.5)
        # (which is so a moment later than where it is followed)
        self.other.wait_for(lambda: self.other.said("tell") == ["unavailable behind"])
        with self.other.connect() as asked:
            asked.send(b"l lines 0\n")
            self.assertEqual((asked.read(), asked.read()), (b"l unavailable behind\n", b"l \n"))
        self.start("lines_in_epoch = 30")
        for node in (self.other, third):
            node.wait_for(lambda: node.said("tell") == ["told 3"])

    def test_the_age_of_a_source(self) -> None:
        """The replica's own is added to it."""
        self.edit(3)
        self.follow()
        self.wait_for_line()
        self.other.stop()
        _, store, _, number, _, _ = self.said("status")[0].split(" ")
        for answer, age, said in (
            (f"last {number} 0", 0, "told 3"), (f"last {number} 25000", 25, "told 3"),
            (f"last {number} 90000", 0, "unavailable behind"),
            # What a source of another version says doesn't end the replica.
            ("fault words", 0, "unavailable behind"), ("unavailable busy", 0, "unavailable behind"),
        ):
            with self.subTest(answer), self.scripted([answer], store, 90) as source:
                self.other.launch()
                self.other.wait_until_ready()
                # (by the third question what the first one was answered counts)
                self.other.wait_for(lambda: source.count > 6)
                found = self.other.said("tell"), self.other.metrics()["sdstored_replica_age_seconds"]
                self.other.kill()
                self.assertEqual(found[0], [said])
                self.assertGreaterEqual(found[1], age)

    def test_a_suspended_machine(self) -> None:
        """The time in which it was suspended counts, as CLOCK_MONOTONIC doesn't."""
        service = Service.__new__(Service)
        service.questions = mock.Mock()
        service.questions.shown.fresh_until = time.clock_gettime(time.CLOCK_BOOTTIME) + 10
        service.require_fresh()
        clock = time.clock_gettime
        with mock.patch("time.clock_gettime", lambda which: clock(which) + 60 * (which == time.CLOCK_BOOTTIME)):
            self.assertRaises(Fault, service.require_fresh)

    def test_keys_of_a_replica_that_is_promoted(self) -> None:
        """What was made once isn't made again, also where the replica started from a later snapshot."""
        granted, kept = "once k1 addo /x O:BAG:SYD:(A;;FW;;;BU)", "once k2 publish"
        self.assertEqual(self.said(granted, kept, "remove /x"), ["ok", "published 1", "ok"])
        self.edit(80)
        self.wait_for(lambda: int(self.said("status")[0].split(" ")[2]) > 1)
        self.follow()
        self.wait_for_line()
        self.kill()
        self.other.stop()
        self.other.start()
        self.assertEqual(self.other.said(granted, kept, "once k1 addo /y O:BAG:SYD:", "publish", "show 0 /x"),
                         ["ok", "published 1", "fault key", "published 82", "seen 82 nonode"])
        self.other.stop()
        rig.run("verify", self.other.store)

    def test_a_key_that_is_used_again(self) -> None:
        """Its client may once the leader has dropped its line; a replica that has it still takes the next one too."""
        self.kill()
        with stores.opened(self.store) as journal:
            writer = Writer(journal, loading.load(journal), lambda *_: None, print, leads=False)
            writer.start()
            chain = b""
            for number, text in enumerate(("addo /a O:BAG:SYD:", "remove /a"), 1):
                line = Line(1, number, 0, f"uid:{os.getuid()}", "k", text, 0)
                chain = line.chained(journal.store, chain)
                writer.receive(Lines([(line, chain)], 2), 0)
            writer.stop()
        self.start()
        self.assertEqual(self.said("once k remove /a", "once k addo /a O:BAG:SYD:", "publish", "show 0 /a"),
                         ["ok", "fault key", "published 2", "seen 2 nonode"])

    def test_a_leader_that_is_rolled_back(self) -> None:
        """It has as many lines, but others: the replica ends, and says so."""
        self.edit(3)
        self.kill()
        shutil.copytree(self.store, self.room / "before")
        self.start()
        self.edit(3, "lost")
        self.follow()
        self.wait_for_line()
        self.other.stop()
        self.kill()
        shutil.rmtree(self.store)
        shutil.copytree(self.room / "before", self.store)
        self.start()
        self.edit(3, "else")
        self.other.launch()
        self.assertEqual(self.other.process.wait(rig.PATIENCE), 1)
        self.assertIn("fault chain", self.other.log.read_text())
        self.assertEqual(rig.run("verify", self.other.store).stdout, "epoch 1, line 8, published 6\n")

    def test_a_role_that_is_taken_back(self) -> None:
        """The replica answers nothing meanwhile, and goes on once it has the role again."""
        self.edit(3)
        self.follow(1)
        self.wait_for_line()
        for role, said in (("check", "unavailable behind"), ("follow", "told 3"), ("watch", "unavailable behind"),
                           ("edit", "told 3")):
            self.configure("lines_in_epoch = 30", allow=f'{{"uid:{os.getuid()}" = "{role}"}}')
            self.process.send_signal(signal.SIGHUP)
            self.other.wait_for(lambda: self.other.said("tell") == [said])
        self.assertIn("fault role", self.other.log.read_text())

    def test_a_full_disk(self) -> None:
        """The replica answers nothing, and asks now and then, until it can write again."""
        small = self.mount_small()
        self.other.store = small / "store"
        self.edit(1)
        with self.between() as between:
            self.follow(1, leader=self.room / "between")
            self.wait_for_line()
            self.said(*(f"addo /m{at} O:BAG:SYD:{'(A;;FR;;;BU)' * 500}" for at in range(200)), "publish")
            self.other.wait_for(lambda: self.other.said("tell") == ["unavailable behind"])
            before, count, began = self.processor(), between.count, time.monotonic()
            time.sleep(3)
            seconds = time.monotonic() - began
            self.assertLess((between.count - count) / seconds, 1.5)
            self.assertLess((self.processor() - before) / seconds, 0.3)
            self.assertLess(len([each for each in self.other.events() if each["event"] == "warning"]), 20)
            subprocess.run(["mount", "-o", "remount,size=64m", str(small)], check=True)
            self.other.wait_for(lambda: self.other.said("tell") == ["told 201"])

    def processor(self) -> float:
        """The processor seconds of the replica."""
        assert self.other.process is not None
        with open(f"/proc/{self.other.process.pid}/stat", encoding="ascii") as file:
            fields = file.read().rpartition(")")[2].split()
        return (int(fields[11]) + int(fields[12])) / os.sysconf("SC_CLK_TCK")

    def test_kills(self) -> None:
        """Replica and leader are killed in turn: the replica's lines are the leader's, and answers never go back."""
        chance = random.Random(3)
        seen = 0
        for turn in range(8):
            self.follow()
            self.edit(chance.randrange(1, 40), f"t{turn}-")
            time.sleep(chance.random() * 0.3)
            said = self.other.said("tell")[0].split(" ")
            if said[0] == "told":
                self.assertGreaterEqual(int(said[1]), seen)
                seen = int(said[1])
            self.other.kill()
            if turn % 3 == 2:
                self.kill()
                self.start("lines_in_epoch = 30")
        self.follow()
        self.wait_for_line()
        self.assertEqual(self.other.dump(), self.dump())
        self.other.stop()
        rig.run("verify", self.other.store)


if __name__ == "__main__":
    unittest.main()
