"""The lines of the socket: answered as `sdstore --percent serve --ids` answers them, and what doesn't get in."""

import contextlib
import os
import random
import signal
import socket
import subprocess
import threading
import time
import unittest

import rig

NAMES = ["a", "b", "c%20d", "%C3%A9", "50%", "x%2Fy", "%FF", "n%00l", "", "é", "z" * 255, "z" * 256]
SIDS = ["BA", "BU", "WD", rig.USER, "S-1-5-18", "QQ", "S-1", "CO", "OW"]
RIGHTS = ["FR", "FA", "0x1", "GR", "", "QQ", "0x02000000", "0x00200001", "0", "017", "WDWO"]
FLAGS = ["", "OICI", "CI", "OINP", "ID", "IO", "XX"]
WORDS = [
    "BU", "BU=deny", "WD=off", "AU=restrict", "+security", "+take", "user=deny", "WD=", "=deny", "x", "BU=deny=off",
]


class Chance(random.Random):
    """Random lines of a script, many with faults."""

    def path(self) -> str:
        depth = self.choice((0, 1, 1, 1, 2, 2, 3))
        return "/" + "/".join(self.choice(NAMES[:3] if self.random() < 0.9 else NAMES) for _ in range(depth))

    def sddl(self) -> str:
        entries = "".join(
            f"({self.choice('DA')};{self.choice(FLAGS[:4] if self.random() < 0.9 else FLAGS)};"
            f"{self.choice(RIGHTS[:4])};;;{self.choice(SIDS[:4])})"
            for _ in range(self.choice((0, 1, 1, 2)))
        )
        parts = [f"O:{self.choice(SIDS[:5])}", "G:SY", f"D:{self.choice(('', '', 'P', 'AI'))}{entries}"]
        if self.random() < 0.05:
            parts.pop(self.randrange(3))
        return self.choice(("D:NO_ACCESS_CONTROL", "O:BAG:SYD:X", "S:", "")) if self.random() < 0.03 else "".join(parts)

    def line(self) -> str:
        command = self.choice(
            ("addc", "addo", "addo", "owner", "group", "dacl", "remove", "protect", "move", "publish", "publish",
             "tell", "learn", "check", "check", "check", "why", "why", "find", "find", "delete", "delete", "show",
             "list", "dump", "who", "review", "review", "open", "frob", "")
        )
        reader = self.choice(("0",) * 12 + ("1", "x", "00", "18446744073709551616"))
        user, mask = self.choice(SIDS), self.choice(RIGHTS)
        groups = self.sample(WORDS[:7] if self.random() < 0.9 else WORDS, self.choice((0, 0, 1, 2)))
        words = {
            "addc": [self.path(), self.sddl()], "addo": [self.path(), self.sddl()],
            "owner": [self.path(), user], "group": [self.path(), user],
            "dacl": [self.path(), "D:" + self.sddl().partition("D:")[2]],
            "remove": [self.path()], "protect": [self.path()], "move": [self.path(), self.path()],
            "learn": [reader, str(self.randrange(60))],
            "check": [reader, self.path(), user, mask, *groups], "why": [reader, self.path(), user, mask, *groups],
            "find": [reader, self.path(), user, mask, *groups], "who": [self.path(), mask, *groups],
            "review": [] if self.random() < 0.5 else [self.path()],
            "delete": [reader, self.path(), user, *groups],
            "show": [reader, self.path()], "list": [] if self.random() < 0.5 else [self.path()],
            "open": ["1", "O:BAG:SYD:"],
        }.get(command, [])
        if self.random() < 0.02:
            words = words[:-1]
        if self.random() < 0.01:
            words = [*words, "more"]
        return " ".join([command, *words])


class SameAnswers(rig.Case):
    def test_random_lines(self) -> None:
        """The answers of the proved program to the same lines, byte for byte, but that each move is answered `ok`."""
        if not os.access(rig.SDSTORE, os.X_OK):
            self.skipTest(f"{rig.SDSTORE} isn't built")
        self.make()
        self.start()
        chance = Chance(54)
        lines = [f"i{at} {chance.line()}\n".encode() for at in range(4000)]
        lines[100:100] = [b"#x\n", b"\n", b"7\n", b"8 \n", b"9 tell\xff\n", b"\xef\xbb\xbf1 tell\n", b" why\n",
                          b"why list /\n", b"5 find\n", b"6 who /\n", b"1\ttell\n", b"2 tell\r\n", b"open tell\n",
                          b"3  tell\n", b"4 # tell\n", b"\xc3\xa9 tell\n"]
        given = b"".join(lines)
        opening = b"o open 1 O:BAG:SYD:(A;OICI;FR;;;BU)\n"
        command = [rig.SDSTORE, "--percent", "serve", "--ids"]
        wanted = subprocess.run(command, input=opening + given, capture_output=True, check=False).stdout
        wanted = wanted.removeprefix(b"o opened 1\n").replace(b" ok reinherited\n", b" ok\n")
        with self.connect() as asked:
            asked.socket.settimeout(300)
            sender = threading.Thread(target=lambda: (asked.send(given), asked.socket.shutdown(socket.SHUT_WR)))
            sender.start()
            said = asked.rest()
            sender.join()
        for mine, other in zip(said.split(b"\n"), wanted.split(b"\n")):
            self.assertEqual(mine, other)
        self.assertEqual(len(said), len(wanted))
        self.assertGreater(wanted.count(b" ok\n"), 200)


class Lines(rig.Case):
    def test_several_at_once(self) -> None:
        self.make()
        self.start()
        self.assertEqual(self.said("addo /a O:BAG:SYD:(A;;FW;;;BU)", "publish"), ["ok", "published 1"])
        self.assertEqual(
            self.said(f"checks 0 3 / /a /b {rig.USER} FW BU", f"checks 0 0 {rig.USER} FW",
                      f"checks 0 9 / {rig.USER} FW",
                      f"checks x 1 / {rig.USER} FW", f"checks 1 1 / {rig.USER} FW", f"checks 0 1 a {rig.USER} FW",
                      f"checks 0 1 / {rig.USER} QQ BU", "checks 0 1"),
            ["seen 1 denied 0x116, granted 0x120116, nonode", "seen 1 ", "fault words", "fault number", "noreader",
             "fault path", "fault mask", "fault words"],
        )
        self.assertEqual(
            self.said(f"checks 0 1001 {'/ ' * 1001}{rig.USER} FW", f"check 0 / {rig.USER} FR{' BU' * 2048}",
                      f"check 0 / {rig.USER} FR{' BU' * 2049}"),
            ["fault paths", "seen 1 granted 0x120089", "fault token"],
        )
        self.assertRegex(self.said("status")[0], "status [0-9a-f]{32} 1 2 [0-9a-f]{64} 1")
        self.assertEqual(self.said("status x", "once", "once k", "once k tell", "once k once k publish",
                                   "import object /x O:BAG:SYD:"),
                         ["fault words"] * 6)
        self.assertEqual(self.said(f"once {'k' * 101} publish", "once é publish"), ["fault key", "fault key"])

    def test_a_question_after_edits(self) -> None:
        """It is answered once they are, though they were sent together."""
        self.make()
        self.start()
        with self.connect() as asked:
            for at in range(1, 20):
                asked.send(b"x addo /n%d O:BAG:SYD:\nx publish\nx tell\n" % at)
                self.assertEqual([asked.read() for _ in range(3)],
                                 [b"x ok\n", b"x published %d\n" % at, b"x told %d\n" % at])

    def test_roles(self) -> None:
        """Who isn't allowed to edit can't; who isn't allowed to ask can't; nobody else gets an answer."""
        self.make()
        uid, gid = os.getuid(), os.getgid()
        for allow, answers in (
            (f'{{"uid:{uid}" = "check"}}', ["fault role", "fault role", "told 0", "seen 0 granted 0x1"]),
            (f'{{"uid:{uid}" = "watch"}}', ["fault role"] * 4),
            (f'{{"gid:{gid}" = "edit", "uid:{uid}" = "watch"}}', ["ok", "published 1", "told 1", "seen 1 granted 0x1"]),
        ):
            with self.subTest(allow):
                self.start(allow=allow)
                self.assertEqual(self.said("addo /a O:BAG:SYD:", "publish", "tell", f"check 0 / {rig.USER} 0x1 BU"),
                                 answers)
                self.stop()
        self.start(allow=f'{{"uid:{uid + 1}" = "edit"}}')
        with self.connect() as asked:
            asked.send(b"1 tell\n")
            self.assertEqual(asked.read(), b"")
        self.wait_for(lambda: "not allowed" in [each.get("reason") for each in self.events()])

    def test_what_a_checker_learns(self) -> None:
        """All of the tree, and what is pending; nothing of who edited."""
        self.make()
        self.start()
        self.assertEqual(self.said("once key addo /a O:BAG:SYD:"), ["ok"])
        self.kill()
        self.start(allow=f'{{"uid:{os.getuid()}" = "check"}}')
        self.assertEqual(self.dump(), ["open 1 O:BAG:SYD:(A;OICI;FR;;;BU)", "publish"])
        for asked, first in (("list", "container / O:BAG:SYD:AI(A;OICI;FR;;;BU)"), ("review", "new /a"),
                             (f"find 0 / {rig.USER} FR BU", "seen 0 found"), ("who / FR", "0x120089 to S-1-5-32-545"),
                             ("snapshot", "fault role"), ("lines 0", "fault role")):
            self.assertEqual(self.said(asked), [first])
        self.assertRegex(self.said("status")[0], "^status [0-9a-f]{32} 1 0  0$")
        self.assertEqual(self.get("/metrics")[0], 200)

    def test_hang_up_takes_another_list(self) -> None:
        self.make()
        self.start()
        with self.connect() as asked:
            self.assertEqual(asked.ask("tell"), "told 0")
            self.configure(allow=f'{{"uid:{os.getuid() + 1}" = "edit"}}')
            self.process.send_signal(signal.SIGHUP)
            self.assertEqual(asked.read(), b"")
        self.wait_for(lambda: any(each["event"] == "reloaded" for each in self.events()))
        with self.connect() as asked:
            self.assertEqual(asked.read(), b"")
        self.config.write_text("folder = 7")
        self.process.send_signal(signal.SIGHUP)
        self.wait_for(lambda: any("isn't taken" in str(each.get("text")) for each in self.events()))
        self.configure()
        self.process.send_signal(signal.SIGHUP)
        self.wait_for(lambda: [each["event"] for each in self.events()].count("reloaded") == 2)
        self.assertEqual(self.said("tell"), ["told 0"])

    def test_garbage(self) -> None:
        """Random bytes, half a line, too long a line: others are answered meanwhile, and no edit is made."""
        self.make()
        self.start("request_bytes = 2000\nrequest_seconds = 1")
        chance = random.Random(9)
        with self.connect() as other:
            for _ in range(30):
                with self.connect() as asked:
                    asked.send(chance.randbytes(chance.randrange(3000)) + b"\n")
                    self.assertEqual(other.ask("tell"), "told 0")
            with self.connect() as asked:
                asked.send(b"1 addo /x " + b"y" * 3000)
                self.assertEqual(asked.read(), b"")
            with self.connect() as asked:
                asked.send(b"1 addo /x " + b"y" * 3000 + b"\n2 tell\n")
                self.assertEqual(asked.read(), b"")
            with self.connect() as asked:
                asked.send(b"1 addo /half O:BAG:SYD:")
                asked.socket.shutdown(socket.SHUT_WR)
                self.assertEqual(asked.rest(), b"")
            self.assertEqual(other.ask("publish"), "published 0")

    def test_slow_bytes(self) -> None:
        """A client that sends a byte now and then is disconnected, and one that takes no answers; nobody is late."""
        self.make()
        self.start("request_seconds = 3")
        with self.connect() as slow, self.connect() as deaf, self.connect() as other:
            deaf.socket.setblocking(False)
            sent = 0
            with contextlib.suppress(BlockingIOError):
                while sent < 1 << 26:
                    sent += deaf.socket.send(b"1 status\n" * 1000)
            answers, reasons, end = 0, set(), time.monotonic() + rig.PATIENCE
            while not reasons >= {"half a request", "answers not taken"} and time.monotonic() < end:
                with contextlib.suppress(OSError):
                    slow.send(b"x")
                self.assertEqual(other.ask("tell"), "told 0")
                answers += 1
                reasons = {each.get("reason") for each in self.events()}
                time.sleep(0.1)
            self.assertLess(time.monotonic(), end)
            self.assertGreater(answers, 3)

    def test_idle_and_many(self) -> None:
        self.make()
        self.start("idle_seconds = 1")
        began = time.monotonic()
        with self.connect() as idle:
            self.assertEqual(idle.read(), b"")
            self.assertGreater(time.monotonic() - began, 0.9)
        self.stop()
        self.start("connections = 5\nrequest_seconds = 600")
        many = [self.connect() for _ in range(5)]
        self.assertEqual([each.ask("tell") for each in many], ["told 0"] * 5)
        for each in many:
            # Half a line: none of them is idle.
            each.send(b"x te")
        self.assertEqual(self.said_to_a_newcomer(), b"")
        many[2].send(b"ll\n")
        self.assertEqual(many[2].read(), b"x told 0\n")
        self.assertEqual(self.said_to_a_newcomer(), b"x told 0\n")
        self.assertEqual(many[2].read(), b"")
        for each in many:
            each.close()

    def said_to_a_newcomer(self) -> bytes:
        with self.connect() as asked, contextlib.suppress(ConnectionError):
            asked.send(b"x tell\n")
            return asked.read()
        return b""

    def test_ids(self) -> None:
        """Each line of an answer has the id, so that is short; a longer one is refused, without it."""
        self.make()
        self.start()
        with self.connect() as asked:
            longest = b"i" * 100
            asked.send(longest + b" tell\n" + longest + b"i tell\n" + longest + b"i dump\n" + longest + b"i publish\n"
                       + b"x tell\n")
            said = [asked.read() for _ in range(5)]
        self.assertEqual(said, [longest + b" told 0\n", b"fault id\n", b"fault id\n", b"fault id\n", b"x told 0\n"])

    def test_reads_beside_long_answers(self) -> None:
        """Answers that take long delay no check."""
        count = 20_000
        nodes = "".join(f"addo /n{at} O:BAG:SYD:\n" for at in range(count))
        self.make(f"open 1 O:BAG:SYD:(A;OICI;FR;;;BU)\n{nodes}publish\n")
        self.start("long_seconds = 600")
        with self.connect() as long, self.connect() as other:
            long.send(f"d dump\nl list\nf find 0 / {rig.USER} FR BU\nr review\n".encode())
            latest = 0.0
            for _ in range(50):
                began = time.monotonic()
                self.assertEqual(other.ask(f"check 0 /n7 {rig.USER} FR BU"), f"seen {count} granted 0x120089")
                latest = max(latest, time.monotonic() - began)
            long.socket.shutdown(socket.SHUT_WR)
            said = long.rest()
            self.assertEqual([said.count(b"\n%b " % each) for each in (b"d", b"l", b"f", b"r")],
                             [count + 2, count + 2, count + 3, 2])
        self.assertLess(latest, 30)

    def test_stop_answers_what_is_in_progress(self) -> None:
        self.make()
        self.start()
        with self.connect() as asked:
            asked.send(b"".join(b"e%d addo /n%d O:BAG:SYD:\n" % (at, at) for at in range(200)))
            first = asked.read()
            self.stop()
            said = (first + asked.rest()).decode().splitlines()
        made = [line for line in said if line.endswith(" ok")]
        self.assertEqual([line for line in said if not line.endswith((" ok", " unavailable stopping"))], [])
        self.assertGreater(len(made), 0)
        self.start()
        self.assertEqual(self.said("publish"), [f"published {len(made)}"])


if __name__ == "__main__":
    unittest.main()
