"""Clients that wait for the next publish: they have their answer at once, or after some time, and keep nobody out."""

import contextlib
import json
import os
import socket
import threading
import time
import unittest

import rig

from client import Client
from watching import MOST_SECONDS

ADD = "addo /{} O:BAG:SYD:"


class Watch(rig.Case):
    def publish(self, name: str) -> int:
        return int(self.said(ADD.format(name), "publish")[1].split(" ")[1])

    def status(self, target: str) -> tuple[int, object]:
        code, body = self.get(target)
        return code, json.loads(body)

    def test_lines(self) -> None:
        self.make()
        self.start()
        with self.connect() as one, self.connect() as other:
            for line, said in (("watch", "fault words"), ("watch 0 0", "fault words"), ("watch x", "fault number"),
                               ("watch -1", "fault number"), ("watch 18446744073709551616", "fault number")):
                self.assertEqual(one.ask(line), said)
            one.send(b"a watch 0\nb tell\n")
            other.send(b"c watch 1\n")
            began = time.monotonic()
            self.assertEqual(self.publish("a"), 1)
            self.assertEqual([one.read(), one.read()], [b"a told 1\n", b"b told 1\n"])
            self.assertLess(time.monotonic() - began, MOST_SECONDS)
            self.assertEqual(one.ask("watch 0"), "told 1")
            self.assertEqual(self.publish("b"), 2)
            self.assertEqual(other.read(), b"c told 2\n")
            # It waits for edits before it, and nothing comes before its answer; without a publish it ends.
            began = time.monotonic()
            one.send(b"a addo /c O:BAG:SYD:\nb watch 2\nc tell\n")
            self.assertEqual([one.read() for _ in range(3)], [b"a ok\n", b"b told 2\n", b"c told 2\n"])
            self.assertGreater(time.monotonic() - began, MOST_SECONDS - 0.5)
            # What was asked is answered yet, where the client asks no more.
            other.send(b"c watch 2\n")
            other.socket.shutdown(socket.SHUT_WR)
            self.assertEqual(self.publish("d"), 4)
            self.assertEqual(other.rest(), b"c told 4\n")

    def test_http(self) -> None:
        self.make()
        self.start()
        store = self.status("/v1/status")[1]["store"]
        state = {"store": store, "epoch": 1, "seen": 1}
        for query, answer in (
            ("", (400, {"fault": "''"})), ("?seen=", (400, {"fault": "number"})),
            ("?seen=x", (400, {"fault": "number"})),
            ("?seen=0&seen=0", (400, {"fault": "query"})), ("?seen=0&more=1", (400, {"fault": "'more'"})),
            ("?store=x", (400, {"fault": "seen"})), ("?seen=0&store=x", (409, {"fault": "nonotice"})),
            ("?seen=%30", (400, {"fault": "number"})), ("?seen=-1", (400, {"fault": "number"})),
        ):
            with self.subTest(query):
                self.assertEqual(self.status(f"/v1/watch{query}"), answer)
        found: list[object] = []
        waiting = threading.Thread(target=lambda: found.append(self.status(f"/v1/watch?seen=0&store={store}")))
        waiting.start()
        time.sleep(0.2)
        self.publish("a")
        waiting.join()
        self.assertEqual(found, [(200, state)])
        self.assertEqual(self.status("/v1/watch?seen=0"), (200, state))
        self.assertEqual(self.status("/v1/watch?seen=1"), (200, state))

    def test_a_client(self) -> None:
        """It learns of what others publish."""
        self.make()
        self.start()
        with Client(str(self.lines), timeout=rig.PATIENCE) as client:
            found: list[int] = []
            waiting = threading.Thread(target=lambda: found.append(client.watch()))
            waiting.start()
            self.publish("a")
            waiting.join()
            self.assertEqual((found, client.seen), ([1], 1))

    def test_a_stop_and_a_role(self) -> None:
        self.make()
        self.start(more=f'[[listen]]\nunix = "{self.room}/below"\nprotocol = "lines"\n'
                        f'allow = {{"uid:{os.getuid()}" = {{ role = "check", below = "/none" }}}}\n'
                        f'[[listen]]\nunix = "{self.room}/watcher"\nprotocol = "lines"\n'
                        f'allow = {{"uid:{os.getuid()}" = "watch"}}\n')
        with rig.Lines(self.room / "watcher") as watcher:
            self.assertEqual(watcher.ask("watch 0"), "fault role")
        with self.connect() as one, rig.Lines(self.room / "below") as below:
            below.send(b"x watch 0\n")
            one.send(b"x watch 1\n")
            self.publish("a")
            self.assertEqual(below.read(), b"x told 1\n")
            self.stop()
            self.assertEqual(one.read(), b"x unavailable stopping\n")

    def test_many(self) -> None:
        """All have their answer, beside the publishes that follow."""
        self.make()
        self.start("connections_of_client = 200")
        with contextlib.ExitStack() as stack:
            waiting = [stack.enter_context(self.connect()) for _ in range(150)]
            for each in waiting:
                each.send(b"x watch 0\n")
            self.wait_for(lambda: self.metrics()["sdstored_connections"] >= 150)
            self.assertEqual([self.publish(f"n{at}") for at in range(3)], [1, 2, 3])
            self.assertLessEqual({each.read() for each in waiting}, {b"x told %d\n" % at for at in (1, 2, 3)})

    def test_they_keep_nobody_out(self) -> None:
        """A newcomer gets the slot of one that waits, as that of one that asks nothing."""
        self.make()
        self.start("connections_of_client = 8\nidle_seconds = 1")
        with contextlib.ExitStack() as stack:
            waiting = [stack.enter_context(self.connect()) for _ in range(8)]
            for each in waiting:
                each.send(b"x watch 0\n")
            time.sleep(2.5)
            self.assertEqual(self.said("tell"), ["told 0"])
            self.assertEqual(self.publish("a"), 1)
            said = [each.read() for each in waiting]
            # (those that were displaced are gone, and nobody was for being idle)
            self.assertEqual(set(said), {b"", b"x told 1\n"})
            self.assertGreater(said.count(b"x told 1\n"), 4)
            self.assertEqual(self.metrics()['sdstored_rejected_total{reason="displaced"}'], said.count(b""))


if __name__ == "__main__":
    unittest.main()
