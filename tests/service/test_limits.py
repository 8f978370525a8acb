"""Who may make whom wait: slots, memory, and the time of the loop, each of which one client can't have alone."""

import asyncio
import contextlib
import itertools
import os
import re
import socket
import subprocess
import sys
import tracemalloc
import unittest
from dataclasses import dataclass, field
from types import SimpleNamespace
from typing import Any
from unittest import mock

import rig

from caller import Caller
from config import Grant, Limits
from connection import Connection
from edits_in_progress import EditsInProgress
from errors import Fault
from held import Held
from http_connection import HttpConnection
from line_connection import LineConnection
from slots import Slots
from task import Task
from turn import Turn

NOBODY = 65_534
#: As another user connects so often to a socket and sends a text over each; says so, and holds them until its input
#: ends.
CROWD = """
import os, socket, sys
user, where, count, text = int(sys.argv[1]), sys.argv[2], int(sys.argv[3]), sys.argv[4].encode()
# (the folders above that one may be closed to others)
os.chdir(os.path.dirname(where))
os.setgroups([])
os.setresgid(user, user, user)
os.setresuid(user, user, user)
held = []
for _ in range(count):
    made = socket.socket(socket.AF_UNIX)
    made.connect(os.path.basename(where))
    try:
        made.sendall(text)
    except OSError:
        pass
    held.append(made)
print("there", flush=True)
sys.stdin.read()
"""


@dataclass(eq=False)
class Fake:
    """A connection."""

    who: str
    role: str = "check"
    place: str = "lines"
    idle_since: float | None = 0.0
    slow_since: float = 0.0
    reasons: list[str] = field(default_factory=list)
    slots: Slots | None = None

    def reject(self, reason: str) -> None:
        self.reasons.append(reason)
        if self.slots is not None:
            self.slots.give(self)


class SlotTests(unittest.TestCase):
    """Of 16 slots two are for who may follow or edit, and of a listener's twelve one; a client has eight."""

    def setUp(self) -> None:
        self.slots = Slots(Limits(connections=16, connections_of_listener=12, connections_of_client=8))

    def take(self, *clients: str, **others: Any) -> tuple[list[Fake], list[str]]:
        """Connections of these clients that take slots, and the reasons of those that get none."""
        made = [Fake(who, slots=self.slots, **others) for who in clients]
        return made, [reason for each in made if (reason := self.slots.take(each))]

    def test_of_a_client(self) -> None:
        made, reasons = self.take(*"aaaaaaaa", idle_since=None)
        self.assertEqual((reasons, self.take("a")[1]), ([], ["too many of the client"]))
        made[3].idle_since = 7.0
        self.assertEqual((self.take("a", idle_since=None)[1], made[3].reasons), ([], ["displaced"]))

    def test_of_a_listener(self) -> None:
        self.take(*"abcdefghijk", idle_since=None)
        self.assertEqual(self.take("m")[1], ["too many of the listener"])
        self.assertEqual(self.take("m", place="http")[1], [])

    def test_a_reserve(self) -> None:
        """Who may follow or edit has a slot where all others are taken: in all, and at each listener."""
        self.take(*"abcdefghijk", idle_since=None)
        self.assertEqual(self.take("l", "m", "n", "o", place="http", idle_since=None)[1], ["too many connections"])
        self.assertEqual(self.take("m")[1], ["too many of the listener"])
        self.assertEqual(self.take("x", role="edit", idle_since=None)[1], [])
        self.assertEqual(self.take("y", role="edit", idle_since=None)[1], ["too many of the listener"])
        self.assertEqual(self.take("y", role="edit", place="http", idle_since=None)[1], [])
        self.assertEqual(self.take("z", role="follow", place="http")[1], ["too many connections"])

    def test_who_has_no_reserve_takes_none(self) -> None:
        """A client that finds all slots but these taken displaces nobody who has one of them."""
        self.take(*"abcdefghijk", idle_since=None)
        editors, reasons = self.take("x", role="edit")
        self.assertEqual((self.take("m")[1], reasons), (["too many of the listener"], []))
        self.take(*"lmn", place="http", idle_since=None)
        editors += self.take("x", role="edit", place="http")[0]
        self.assertEqual(self.take("o", place="http")[1], ["too many connections"])
        self.assertEqual([each.reasons for each in editors], [[], []])

    def test_an_idle_one_where_who_has_most_asks(self) -> None:
        """It keeps nobody out either, whose client will have fewer."""
        self.take(*"aaaaaaaabbb", idle_since=None)
        self.take(*"ccc", place="http", idle_since=None)
        [one], _ = self.take("x", role="edit", idle_since=2.0)
        [other], _ = self.take("x", role="edit", place="http", idle_since=1.0)
        self.assertEqual(self.take("y", role="edit", place="http")[1], [])
        self.assertEqual((one.reasons, other.reasons), ([], ["displaced"]))
        self.assertEqual(self.take("z", role="edit", place="http", idle_since=None)[1], ["too many connections"])

    def test_the_longest_idle_of_who_has_most(self) -> None:
        most, _ = self.take(*"aaaaaaaa", idle_since=5.0)
        few, _ = self.take(*"bbb", idle_since=1.0)
        most[4].idle_since = 2.0
        self.assertEqual(self.take("c")[1], [])
        self.assertEqual([each.reasons for each in most if each.reasons], [["displaced"]])
        self.assertEqual(most[4].reasons, ["displaced"])
        self.assertEqual([each.reasons for each in few], [[]] * 3)


class HeldTests(unittest.TestCase):
    def test_the_slowest_of_who_holds_most(self) -> None:
        held = Held(100)
        one, other, slow, quick = Fake("a"), Fake("b"), Fake("b", slow_since=-1.0), Fake("b", slow_since=9.0)
        for each, count in ((one, 40), (other, 20), (slow, 20), (quick, 20)):
            held.set(each, count)
        self.assertEqual((held.total, slow.reasons), (100, []))
        held.set(one, 41)
        self.assertEqual((held.total, slow.reasons, one.reasons, other.reasons), (81, ["memory"], [], []))
        held.set(one, 100)
        self.assertEqual((held.total, one.reasons, other.reasons), (40, ["memory"], []))
        held.forget(other)
        held.forget(other)
        self.assertEqual(held.total, 20)


class Asking:
    """A connection whose client sends so many requests in a round of the loop, each of which takes so long by a clock
    that nothing else moves."""

    now = 0.0

    def __init__(self, turn: Turn, seconds: float, most: int) -> None:
        self.turn, self.seconds, self.most = turn, seconds, most
        self.count = 0

    def proceed(self) -> None:
        self.turn.begin()
        for _ in range(self.most):
            if self.turn.is_over():
                self.turn.again(self)
                break
            self.count += 1
            Asking.now += self.seconds
        self.turn.end()


@mock.patch("time.perf_counter", lambda: Asking.now)
class TurnTests(unittest.TestCase):
    def test_connections_share_a_turn(self) -> None:
        """Of a client's connections with much to do each goes on, one after the other. Who asks in the midst of a turn
        is answered before the next one, as what a round of the loop reads comes after what it was asked to call."""

        async def work() -> tuple[list[int], list[float]]:
            turn = Turn()
            many = [Asking(turn, 0.000_1, 1_000) for _ in range(100)]
            for each in many:
                each.proceed()
            rounds = list[float]()
            for _ in range(600):
                began = Asking.now
                await asyncio.sleep(0)
                rounds.append(Asking.now - began)
            return [each.count for each in many], rounds

        counts, rounds = asyncio.run(work())
        self.assertGreater(min(counts), 0)
        self.assertLess(max(map(sum, itertools.pairwise(rounds))), 0.005)

    def test_one_turn_in_a_round_of_the_loop(self) -> None:
        """A client has no more, and the answer that it is in, over any number of connections, though a turn passes with
        each answer of its own or of another client between two of them."""
        for seconds, most, bound in ((0.020, 1_000, 0.024), (0.003, 1, 0.007)):
            with self.subTest(seconds=seconds):
                rounds, counts = asyncio.run(self.read_at_once(seconds, most))
                self.assertLess(max(rounds), bound)
                self.assertGreater(min(counts), 0)

    async def read_at_once(self, seconds: float, most: int) -> tuple[list[float], list[int]]:
        """How long a client was at work in each round, and how many answers each of its connections has. In each round
        all of these are read, and between two of them one of another client, which asks what takes 20 ms."""
        one, other = Turn(), Turn()
        of_one = [Asking(one, seconds, most) for _ in range(50)]
        reads = [read for each in of_one for read in (each, Asking(other, 0.020, 1))]
        readable, writable = socket.socketpair()
        with readable, writable:
            writable.send(b"x")
            asyncio.get_running_loop().add_reader(readable, lambda: [each.proceed() for each in reads])
            rounds = list[float]()
            for _ in range(200):
                before = sum(each.count for each in of_one)
                await asyncio.sleep(0)
                rounds.append(seconds * (sum(each.count for each in of_one) - before))
            asyncio.get_running_loop().remove_reader(readable)
        return rounds, [each.count for each in of_one]


def nothing(*_: object) -> None:
    """What a stand-in does when it is called."""


class MemoryTests(unittest.TestCase):
    """What is counted of what connections hold is about the memory that it takes."""

    def test_lines_that_wait(self) -> None:
        """However short they are."""
        self.assert_counted(LineConnection, b"ab\n" * 43_000, has_turn=False)

    def test_a_request_whose_body_is_not_there(self) -> None:
        """However many fields its head has."""
        fields = "".join(f"{at:x}:\r\n" for at in range(2_300))
        self.assert_counted(HttpConnection, f"POST / HTTP/1.1\r\nHost: x\r\nContent-Length: 9\r\n{fields}\r\n".encode())

    def test_a_question_that_takes_long(self) -> None:
        """However many words it has."""
        self.assert_counted(LineConnection, b"x find 0 / %s FR%b\n" % (rig.USER.encode(), b" BU" * 300_000))

    def assert_counted(self, kind: type[Connection], data: bytes, has_turn: bool = True) -> None:
        """The memory that the data of some connections takes is less than twice what is held and some KiB for each, and
        what is held less than twice that."""
        tracemalloc.start()
        self.addCleanup(tracemalloc.stop)
        memory, held = asyncio.run(self.filled(kind, data, has_turn))
        self.assertLess(memory, 10 * (20_000 + 2 * held))
        self.assertLess(10 * held, 2 * memory)

    async def filled(self, kind: type[Connection], data: bytes, has_turn: bool) -> tuple[int, float]:
        """The memory that ten connections take more once they have received the data, and what is held of each."""
        turn = SimpleNamespace(begin=nothing, end=nothing, again=nothing, is_over=lambda: not has_turn)
        service: Any = SimpleNamespace(
            turn_of=lambda who: turn, slots=Slots(Limits()), held=Held(1 << 30), limits=Limits(),
            long_answer=lambda *_: asyncio.get_running_loop().create_future(),
        )
        transport: Any = SimpleNamespace(
            is_closing=lambda: False, is_reading=lambda: True, get_write_buffer_size=lambda: 0,
            **dict.fromkeys(("set_write_buffer_limits", "pause_reading", "resume_reading", "write"), nothing),
        )
        caller = Caller("a", (Grant("check"),))
        place: Any = SimpleNamespace(connections=set(), name="x", caller=lambda transport: caller)
        many = [kind(service, place) for _ in range(10)]
        for each in many:
            each.connection_made(transport)
        before = tracemalloc.get_traced_memory()[0]
        for at in range(0, len(data), 1 << 16):
            piece = data[at : at + (1 << 16)]
            for each in many:
                each.get_buffer(-1)[: len(piece)] = piece
                each.buffer_updated(len(piece))
        await asyncio.sleep(0)
        return tracemalloc.get_traced_memory()[0] - before, service.held.total / len(many)


class UnitTests(unittest.TestCase):
    def test_memory(self) -> None:
        """What all connections may hold, and take beside that, leaves most of the unit's memory to the tree."""
        [gib] = re.findall(r"^MemoryMax=(\d+)G$", (rig.SERVICE / "sdstored.service").read_text(), re.MULTILINE)
        page, limits = (rig.TOP / "docs/SERVICE.md").read_text(), Limits()
        [said] = re.findall(r"over TLS 50 KiB, or (\d+) KiB[^.]*`connections` up to (\d+) MiB", page)
        of_each, of_all = map(int, said)
        self.assertEqual(limits.connections * of_each, of_all << 10)
        self.assertLess(limits.held_bytes + (of_all << 20), int(gib) << 28)
        self.assertIn(f"a `MemoryMax` of {gib} GiB", page)


class EditTests(unittest.TestCase):
    def test_edits_in_progress(self) -> None:
        """Their number has a limit, and so have their characters."""
        edits: Any = SimpleNamespace(
            _writer=SimpleNamespace(leads=True), _is_stopping=False, _log=SimpleNamespace(takes_records=True),
            _limits=Limits(), count=4_000, _length=(1 << 26) - 100)
        def task(count: int, length: int) -> Task:
            parts = [Task(None, "x" * (length if at == 0 else 0), "", "a", print) for at in range(count)]
            return Task(None, "", "", "a", print, parts=parts)

        for count, length in ((97, 100), (96, 101)):
            with self.assertRaises(Fault) as busy:
                EditsInProgress._begin(edits, task(count, length))
            self.assertEqual(busy.exception.answer.line(), "unavailable busy")
        EditsInProgress._begin(edits, task(96, 100))
        self.assertEqual((edits.count, edits._length), (4_096, 1 << 26))


class Limited(rig.Case):
    def crowd(self, count: int, text: str) -> None:
        """So many connections of another user, who has sent this over each."""
        if os.geteuid() != 0:
            self.skipTest("root is required for a process of another user")
        self.room.chmod(0o711)
        words = map(str, (NOBODY, self.lines, count, text))
        child = subprocess.Popen([sys.executable, "-c", CROWD, *words], stdin=subprocess.PIPE, stdout=subprocess.PIPE)
        self.addCleanup(child.wait)
        self.addCleanup(child.kill)
        for each in (child.stdin, child.stdout):
            self.addCleanup(each.close)
        self.assertEqual(child.stdout.readline(), b"there\n")

    def test_a_crowd_keeps_no_editor_out(self) -> None:
        """Neither idle connections nor half lines of one user take the slots of another one."""
        self.make()
        allow = f'{{"uid:{NOBODY}" = "check", "uid:0" = "edit"}}'
        for limit in ("connections", "connections_of_listener"):
            self.start(f"{limit} = 16\nrequest_seconds = 600", allow=allow)
            for count, text in enumerate(("", "1 te"), 1):
                self.crowd(40, text)
                # (at most 16 of all have a slot)
                self.wait_for(lambda: self.rejected() >= 40 * count - 16)
                for at in range(5):
                    self.assertEqual(self.said(f"addo /n{at} O:BAG:SYD:", f"remove /n{at}"), ["ok"] * 2)
                self.assertEqual(self.get("/readyz")[0], 200)
            self.kill()

    def rejected(self) -> float:
        """The connections that were closed or not admitted."""
        return sum(value for name, value in self.metrics().items() if name.startswith("sdstored_rejected_total"))

    def test_more_words_than_any_question_has(self) -> None:
        """They have the fault that they have without what comes after them, and an empty word is one wherever it is."""
        self.make()
        self.start()
        words = f"/ {rig.USER} FR{' BU' * 5_000}"
        lines = (f"check 0 {words}", f"check 0 {words} ", f"check 0 {words}  BU", f"check 0 x{words}")
        self.assertEqual(self.said(*lines), ["fault token", "fault words", "fault words", "fault path"])

    def test_answers_that_are_not_taken(self) -> None:
        """All together have one limit: the slowest end, and who takes its answers gets them."""
        nodes = "".join(f"addo /n{at} O:BAG:SYD:{'(A;;FR;;;BU)' * 20}\n" for at in range(4_000))
        self.make(f"open 1 O:BAG:SYD:(A;OICI;FR;;;BU)\n{nodes}publish\n")
        self.start("held_bytes = 6_000_000\nrequest_seconds = 600\nlong_answers = 4")
        with contextlib.ExitStack() as stack:
            slow = [stack.enter_context(self.connect()) for _ in range(12)]
            for each in slow:
                each.send(b"x dump\n")
                self.assertEqual(each.read(), b"x open 1 O:BAG:SYD:(A;OICI;FR;;;BU)\n")
            self.wait_for(lambda: self.metrics().get('sdstored_rejected_total{reason="memory"}', 0) >= 4)
            self.assertLessEqual(self.metrics()["sdstored_held_bytes"], 6_000_000)
            self.assertEqual(len(self.dump()), 4_002)
            self.assertEqual(self.said("tell"), ["told 4000"])

    def test_half_requests(self) -> None:
        """They count as well."""
        self.make()
        self.start("held_bytes = 6_000_000\nrequest_seconds = 600")
        with contextlib.ExitStack() as stack:
            for _ in range(20):
                one = stack.enter_context(self.connect())
                with contextlib.suppress(ConnectionError):
                    one.send(b"x tell " + b"y" * 1_000_000)
            self.wait_for(lambda: self.metrics().get('sdstored_rejected_total{reason="memory"}', 0) >= 10)
            self.assertEqual(self.said("tell"), ["told 0"])


if __name__ == "__main__":
    unittest.main()
