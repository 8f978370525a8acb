"""Answers that take long: clients take turns, each is bounded in time, and ends when nobody waits for it."""

import asyncio
import contextlib
import threading
import time
import unittest
from collections.abc import Callable
from unittest import mock

import rig

from analysis import gathered
from client import Client
from deadline import LATE, Deadline
from errors import Fault
from journal import DATABASE, Journal
from long_answers import BUSY, OF_CLIENT, STOPPING, LongAnswers, Work
from questions import Questions
from script import takes_long
from tree import MAPPINGS

#: The nodes of a tree, each with a list of its own of so many entries: if all change a review takes some seconds.
NODES, ENTRIES = 500, 1_750


class Others:
    """What goes first, by a clock that a test sets."""

    def __init__(self) -> None:
        self.now, self.waits, self.are_done = 0.0, list[float](), False

    def is_set(self) -> bool:
        return self.are_done

    def wait(self, seconds: float) -> None:
        self.waits.append(seconds)
        self.now += seconds


class GivingWay(unittest.TestCase):
    def waits(self, step: float, count: int, are_done: bool = False) -> list[float]:
        """How long an answer of so many steps waits for others."""
        others = Others()
        others.are_done = are_done
        with mock.patch("time.monotonic", lambda: others.now):
            deadline = Deadline(1e9, print, others)
            for _ in range(count):
                others.now += step
                deadline.require()
        return others.waits

    def test_a_part_of_the_time(self) -> None:
        self.assertEqual(self.waits(0.001, 1_000, are_done=True), [])
        for step, count in ((0.000_01, 100_000), (0.001, 1_000), (0.05, 20)):
            with self.subTest(step):
                self.assertAlmostEqual(sum(self.waits(step, count)), 15, delta=2)

    def test_after_a_long_step(self) -> None:
        """It learns soon that nobody waits for the answer any more."""
        self.assertEqual(self.waits(30, 2), [1, 1])

    def test_items(self) -> None:
        """Whether the answer has ended is asked before the first of so many, and so before each as many more."""
        deadline = Deadline(rig.PATIENCE, print)
        for at_once, looks in ((1, 10), (4, 3), (64, 1)):
            with self.subTest(at_once), mock.patch.object(Deadline, "require") as require:
                self.assertEqual(list(deadline.paced(range(10), at_once)), list(range(10)))
                self.assertEqual(require.call_count, looks)
        items = deadline.paced(range(10), 4)
        self.assertEqual(next(items), 0)
        deadline.end(LATE)
        self.assertEqual([next(items) for _ in range(3)], [1, 2, 3])
        self.assertRaises(Fault, next, items)


class Words(unittest.TestCase):
    def test_lines_of_many_words(self) -> None:
        """Lines of more than 256 words take long, not counting the paths of `checks`; not so a `check` by a token that
        was parsed before, whoever asked then."""
        questions = Questions(mock.Mock(), "", MAPPINGS["file"])

        def takes(*front: str) -> list[bool]:
            """Of lines of 256 words, and of 257."""
            least = len(front) - 1_000 * (front[0] == "checks")
            return [takes_long([*front, *["BU"] * (most - least)], questions) for most in (256, 257)]

        check, checks = ("check", "0", "/", rig.USER, "FR"), ("checks", "0", "1000", *["/"] * 1_000, rig.USER, "FR")
        why = ("why", *check[1:])
        self.assertEqual([takes(*front) for front in (check, why, checks)], [[False, True]] * 3)
        questions.tokens.parsed("FR", (rig.USER, *["BU"] * 252))
        self.assertEqual([takes(*front) for front in (check, why, checks)],
                         [[False, False], [False, True], [False, True]])


    def test_lines_of_many_paths_and_restricting_words(self) -> None:
        """So do `checks` where the paths times the restricting SIDs are more than 4,096."""
        questions = Questions(mock.Mock(), "", MAPPINGS["file"])
        line = ["checks", "0", "1000", *["/BU=restrict"] * 1_000, rig.USER, "FR"]
        self.assertEqual([takes_long([*line, *["BU"] * 99, *["BU=restrict"] * many], questions) for many in (4, 5)],
                         [False, True])


class Making(unittest.IsolatedAsyncioTestCase):
    """Answers of works that a test ends."""

    async def asyncSetUp(self) -> None:
        self.go_on, self.began = threading.Event(), list[str]()
        self.addCleanup(self.go_on.set)

    def ask(self, answers: LongAnswers, who: str, kind: str = "check", ends: bool = True) -> "asyncio.Task[bytes]":
        """Asks for an answer, which is there once the test goes on; or else once nobody waits for it."""

        def work(deadline: Deadline) -> bytes:
            self.began.append(who)
            while not (ends and self.go_on.is_set()):
                deadline.require()
                time.sleep(0.001)
            return who.encode()

        async def prepare(deadline: Deadline) -> Work:
            return lambda: work(deadline)

        return asyncio.create_task(answers.made(kind, who, prepare, lambda count: None))

    async def answer(self, answers: LongAnswers, who: str) -> bytes:
        """An answer, once there is one in time: a busy machine takes its time."""
        end = time.monotonic() + rig.PATIENCE
        while True:
            try:
                return await self.ask(answers, who)
            except Fault as late:
                if late.answer != LATE or time.monotonic() > end:
                    raise

    async def until(self, is_so: Callable[[], bool]) -> None:
        end = time.monotonic() + rig.PATIENCE
        while not is_so():
            self.assertLess(time.monotonic(), end)
            await asyncio.sleep(0.001)

    async def test_clients_take_turns(self) -> None:
        """A client that asks much has one answer made at a time, and another one's is next."""
        self.go_on.set()
        answers = LongAnswers(1, rig.PATIENCE)
        await asyncio.gather(*(self.ask(answers, who) for who in "aaaabcb"))
        self.assertEqual("".join(self.began), "abcabaa")
        self.go_on.clear()
        answers = LongAnswers(2, rig.PATIENCE)
        asked = [self.ask(answers, who) for who in "aab"]
        await self.until(lambda: len(self.began) == 9)
        self.go_on.set()
        await asyncio.gather(*asked)
        self.assertEqual(set(self.began[7:9]), {"a", "b"})

    async def test_too_many_of_a_client(self) -> None:
        answers = LongAnswers(1, rig.PATIENCE)
        asked = [self.ask(answers, "a") for _ in range(OF_CLIENT)]
        await self.until(lambda: len(self.began) == 1)
        with self.assertRaises(Fault) as busy:
            await self.ask(answers, "a")
        self.assertEqual(busy.exception.answer, BUSY)
        other = self.ask(answers, "b")
        self.go_on.set()
        self.assertEqual(await other, b"b")
        await asyncio.gather(*asked)
        self.assertEqual(await self.ask(answers, "a"), b"a")

    async def test_each_kind_has_its_own(self) -> None:
        """What checkers ask delays neither replicas nor administrators."""
        answers = LongAnswers(1, rig.PATIENCE)
        asked = [self.ask(answers, who) for who in "abcdef"]
        others = [self.ask(answers, who, kind) for who, kind in (("x", "follow"), ("y", "edit"))]
        await self.until(lambda: len(self.began) == 3)
        self.assertEqual(set(self.began), {"a", "x", "y"})
        self.go_on.set()
        await asyncio.gather(*asked, *others)

    async def test_checkers_give_way(self) -> None:
        """While an answer is made for an administrator or a replica, those of checkers take a small part of the time:
        they don't stop, and go on by themselves after it."""
        answers, times = LongAnswers(2, 2 * rig.PATIENCE), list[tuple[float, float]]()

        def work(deadline: Deadline) -> bytes:
            while not self.go_on.is_set():
                began = time.monotonic()
                time.sleep(0.001)
                worked = time.monotonic()
                deadline.require()
                times.append((worked - began, time.monotonic() - worked))
            return b""

        async def prepare(deadline: Deadline) -> Work:
            return lambda: work(deadline)

        checkers = [asyncio.create_task(answers.made("check", who, prepare, lambda count: None)) for who in "ab"]
        for kind in ("edit", "follow"):
            with self.subTest(kind):
                await self.until(lambda: len(times) > 20)
                other = self.ask(answers, "x", kind, ends=False)
                await self.until(lambda: "x" in self.began)
                self.began.clear()
                times.clear()
                await self.until(lambda: len(times) > 20)
                worked, waited = map(sum, zip(*times))
                other.cancel()
                self.assertGreater(waited, 3 * worked)
                times.clear()
        self.go_on.set()
        await asyncio.gather(*checkers)

    async def test_late(self) -> None:
        """An answer that takes longer than it may, or waits for longer, is named; the next one has its turn."""
        answers = LongAnswers(1, 0.3)
        began = time.monotonic()
        asked = [self.ask(answers, who, ends=False) for who in "ab"]
        for each in asked:
            with self.assertRaises(Fault) as late:
                await each
            self.assertEqual(late.exception.answer, LATE)
        self.assertLess(time.monotonic() - began, 20)
        self.go_on.set()
        self.assertEqual(await self.answer(answers, "c"), b"c")

    async def test_a_work_that_can_not_be_ended(self) -> None:
        """Its client has an answer in time; its turn goes on until it ends."""
        answers = LongAnswers(1, 0.3)

        async def prepare(deadline: Deadline) -> Work:
            return lambda: bytes(self.go_on.wait(rig.PATIENCE))

        with self.assertRaises(Fault) as late:
            await answers.made("check", "a", prepare, lambda count: None)
        self.assertEqual(late.exception.answer, LATE)
        with self.assertRaises(Fault):
            await self.ask(answers, "b")
        self.assertEqual(self.began, [])
        self.go_on.set()
        self.assertEqual(await self.answer(answers, "c"), b"c")

    async def test_clients_that_leave(self) -> None:
        """Whether its answer is being made or waits: the next client has its turn."""
        answers = LongAnswers(1, rig.PATIENCE)
        asked = [self.ask(answers, who, ends=False) for who in "abb"]
        await self.until(lambda: len(self.began) == 1)
        for each in asked:
            each.cancel()
        self.go_on.set()
        self.assertEqual(await self.ask(answers, "c"), b"c")
        self.assertEqual(self.began, ["a", "c"])

    async def test_a_failure(self) -> None:
        """Whatever is raised: whoever asked learns of it, and the next question has its turn."""
        answers = LongAnswers(1, rig.PATIENCE)

        async def fail(deadline: Deadline) -> Work:
            raise KeyError("unexpected")

        async def fail_later(deadline: Deadline) -> Work:
            return lambda: [][1]

        for prepare, kind in ((fail, KeyError), (fail_later, IndexError)):
            with self.assertRaises(kind):
                await answers.made("check", "a", prepare, lambda count: None)
        self.go_on.set()
        self.assertEqual(await self.ask(answers, "b"), b"b")

    async def test_a_stop(self) -> None:
        answers = LongAnswers(1, rig.PATIENCE)
        asked = [self.ask(answers, who, ends=False) for who in "ab"]
        await self.until(lambda: len(self.began) == 1)
        began = time.monotonic()
        await answers.stop()
        for each in (*asked, self.ask(answers, "c")):
            with self.assertRaises(Fault) as stopping:
                await each
            self.assertEqual(stopping.exception.answer, STOPPING)
        self.assertLess(time.monotonic() - began, 20)

    def test_an_answer_that_is_too_long(self) -> None:
        held: list[int] = []
        with self.assertRaises(Fault) as large:
            gathered((b"x" * (1 << 20) for _ in range(300)), Deadline(rig.PATIENCE, held.append))
        self.assertEqual(large.exception.answer.line(), "unavailable large")
        self.assertEqual(held[:2], [1 << 20, 2 << 20])


class Services(rig.Case):
    def make_slow(self, **options: str) -> None:
        """A service with a review that takes long: each node changes."""
        lists = ("".join(f"(A;;FR;;;S-1-5-21-1-2-{node}-{at})" for at in range(ENTRIES)) for node in range(NODES))
        lines = "".join(f"addo /n{node} O:BAG:SYD:{entries}\n" for node, entries in enumerate(lists))
        self.make(f"open 1 O:BAG:SYD:(A;OICI;FR;;;BU)\n{lines}publish\n")
        self.start(**options)
        self.assertEqual(self.said("dacl / D:(A;OICI;FA;;;BU)"), ["ok"])

    def review(self, stack: contextlib.ExitStack, count: int) -> list[rig.Lines]:
        """Connections that have asked for a review, as the service knows by then."""
        asked = [stack.enter_context(self.connect()) for _ in range(count)]
        for each in asked:
            each.send(b"x review\n")
        self.said("tell")
        return asked

    def test_replicas_beside_reviews(self) -> None:
        """A replica has its lines while the first of them is made, however many reviews are asked for."""
        self.make_slow()
        other = rig.Case()
        other.setUp()
        self.addCleanup(other.doCleanups)
        other.start(more=f'[leader]\nunix = "{self.lines}"\nmax_age_seconds = 60')
        with contextlib.ExitStack() as stack:
            asked = self.review(stack, OF_CLIENT)
            for at in range(5):
                self.assertEqual(self.said(f"addo /new{at} O:BAG:SYD:"), ["ok"])
                # (the first line is that of the root's list)
                other.wait_for(lambda: self.lines_of(other) == at + 2)
            for each in asked:
                each.socket.setblocking(False)
                self.assertRaises(BlockingIOError, each.socket.recv, 1)
            self.kill()

    def lines_of(self, other: rig.Case) -> int:
        with Journal(other.store / DATABASE, only_reads=True) as journal:
            return journal.last_number()

    def test_a_stop_during_reviews(self) -> None:
        self.make_slow()
        with contextlib.ExitStack() as stack:
            asked = self.review(stack, OF_CLIENT)
            began = time.monotonic()
            self.stop()
            self.assertLess(time.monotonic() - began, 40)
            self.assertEqual([each.rest() for each in asked[1:]], [b"x unavailable stopping\nx \n"] * (OF_CLIENT - 1))

    def test_late(self) -> None:
        self.make_slow(limits="long_seconds = 1\nlong_answers = 1")
        with self.connect() as asked:
            began = time.monotonic()
            asked.send(b"x review\nx tell\n")
            said = [asked.read() for _ in range(3)]
            self.assertEqual(said, [b"x unavailable late\n", b"x \n", b"x told %d\n" % NODES])
            self.assertLess(time.monotonic() - began, 30)

    def test_who_leaves_has_no_turn(self) -> None:
        """The next question doesn't wait for the reviews of clients that have left, of either protocol."""
        self.make_slow(limits="long_answers = 1")
        head = "POST /v1/review HTTP/1.1\r\nHost: x\r\nContent-Type: application/json\r\nContent-Length: 2\r\n\r\n"
        request = f"{head}{{}}".encode()
        began = time.monotonic()
        with self.connect() as asked:
            asked.send(b"x review\n")
            while asked.read() != b"x \n":
                pass
        whole, began = time.monotonic() - began, time.monotonic()
        for where, asks in ((self.lines, b"x review\n"), (self.http, request), (self.lines, b"x review\n")):
            with rig.Lines(where) as asked:
                asked.send(asks)
                time.sleep(0.2)
        with self.connect() as asked:
            asked.send(b"x list /n7\n")
            self.assertTrue(asked.read().startswith(b"x object /n7 "))
        self.assertLess(time.monotonic() - began, 2 * whole)

    def test_many_words(self) -> None:
        """Checks of a long list by a token of many words: they are answered as ever, and delay nobody."""
        entries = "".join(f"(A;;FR;;;S-1-5-21-1-2-3-{at})" for at in range(1_750))
        self.make(f"open 1 O:BAG:SYD:(A;OICI;FR;;;BU)\naddo /big O:BAG:SYD:{entries}\npublish\n")
        self.start()
        words = [f"S-1-5-21-9-9-9-{at}" for at in range(2_040)]
        line = f"checks 0 1000{' /big' * 1_000} {rig.USER} FR BU {' '.join(words)}"
        with self.connect() as long, self.connect() as other:
            answered, said = threading.Event(), list[bytes]()
            reader = threading.Thread(target=lambda: (said.append(long.read()), answered.set()))
            reader.start()
            long.send(f"x {line}\n".encode())
            times, start = list[float](), time.monotonic()
            while not answered.is_set():
                began = time.monotonic()
                self.assertEqual(other.ask(f"check 0 /big {rig.USER} FR BU"), "seen 1 granted 0x120089")
                times.append(time.monotonic() - began)
            reader.join()
            took = time.monotonic() - start
            self.assertEqual(said, [f"x seen 1 {', '.join(['granted 0x120089'] * 1000)}\n".encode()])
            # (in the loop it would delay one of them by as long as it takes)
            self.assertGreater(len(times), 20)
            self.assertLess(max(times), took / 2)
            # Once it is parsed a token is checked at one path as any other.
            self.assertEqual(other.ask(f"check 0 /big {rig.USER} FR BU {' '.join(words)}"), "seen 1 granted 0x120089")
            self.assertEqual(other.ask(line.replace("/big", "big", 1)), "fault path")
            self.assertEqual(other.ask(f"delete 0 /big {rig.USER} BU {' '.join(words)}"), "seen 1 denied")
        with Client(str(self.lines), timeout=rig.PATIENCE) as client:
            verdict, reasons = client.why("/big", rig.USER, "0x1", ["BU", *words])
            self.assertEqual((verdict.kind, len(reasons)), ("granted", 1))
        self.assertEqual(self.metrics()['sdstored_checks_total{verdict="granted"}'], 1_001 + len(times))


if __name__ == "__main__":
    unittest.main()
