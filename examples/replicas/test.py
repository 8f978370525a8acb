#!/usr/bin/env python3
"""Tests services that share a Redis, which it starts itself: services and Redis are killed, stopped and started again.

    test.py [NAME ..]

The last line is 'N passed, M failed'."""

import contextlib
import json
import random
import shutil
import signal
import subprocess
import sys
import threading
import time
import unittest
from pathlib import Path

TOP = Path(__file__).resolve().parents[2]
sys.path[:0] = [str(TOP / "tests/service"), str(TOP / "tests")]

import rig  # noqa: E402 (these are in those folders)
from test_tls import Certificates  # noqa: E402
from units import report  # noqa: E402

from client import Client, Unavailable  # noqa: E402 (rig says where)
from redis_client import Redis  # noqa: E402

NAMES = ("a", "b", "c")
#: A lease and an age that a busy machine doesn't exceed by chance.
LEASE, AGE = 5, 20
#: The kills of the random test.
KILLS = 15


class Server:
    """A Redis that has each line on the disk before it says so."""

    def __init__(self, room: Path, *options: str) -> None:
        self.room, self.socket, self._options = room, room / "redis", options
        self._process: subprocess.Popen[bytes] | None = None

    def start(self) -> None:
        command = ["redis-server", "--port", "0", "--unixsocket", str(self.socket), "--dir", str(self.room),
                   "--save", "", "--appendonly", "yes", "--appendfsync", "always", "--logfile", "redis.log",
                   *self._options]
        self._process = subprocess.Popen(command)
        end = time.monotonic() + rig.PATIENCE
        while not self._is_ready():
            if self._process.poll() is not None or time.monotonic() > end:
                raise RuntimeError("redis-server isn't ready")
            time.sleep(0.01)

    def _is_ready(self) -> bool:
        with contextlib.suppress(OSError):
            return self.ask("PING") == b"PONG"
        return False

    def kill(self, number: int = signal.SIGKILL) -> None:
        self._process.send_signal(number)
        if number == signal.SIGKILL:
            self._process.wait()

    def ask(self, *words: str | int) -> object:
        redis = Redis(lambda: rig.connected(self.socket))
        try:
            return redis.ask(*words)
        finally:
            redis.close()


class Replicas(rig.Case):
    """Three services over one Redis, of which the first has its store."""

    def setUp(self) -> None:
        super().setUp()
        self.redis = Server(self.room)
        self.redis.start()
        self.addCleanup(self.redis.kill)
        self.nodes = {name: rig.Case() for name in NAMES}
        for node in self.nodes.values():
            node.setUp()
            self.addCleanup(node.doCleanups)
        self.first = self.nodes["a"]
        self.first.make()
        self.configure_node(self.first)
        rig.run("seed", self.first.config)
        for node in self.nodes.values():
            self.start_node(node)

    def configure_node(self, node: rig.Case, age: int = AGE) -> None:
        # (a name of its own, which a test takes away)
        (node.room / "redis").unlink(missing_ok=True)
        (node.room / "redis").symlink_to(self.redis.socket)
        node.configure("lines_in_epoch = 40", more=f'[redis]\nunix = "{node.room / "redis"}"\n'
                       f"lease_seconds = {LEASE}\nmax_age_seconds = {age}")

    def start_node(self, node: rig.Case, age: int = AGE) -> None:
        self.configure_node(node, age)
        node.launch()
        node.wait_until_ready()

    def client(self, timeout: float = 2 * rig.PATIENCE) -> Client:
        return Client([str(node.lines) for node in self.nodes.values()], timeout=timeout)

    def leader(self) -> rig.Case:
        """The service that takes edits, once there is one."""
        end = time.monotonic() + rig.PATIENCE
        while time.monotonic() < end:
            for node in self.nodes.values():
                if node.process is not None and node.said("publish")[0].startswith("published"):
                    return node
            time.sleep(0.02)
        raise AssertionError("nobody leads")

    def others(self, node: rig.Case) -> list[rig.Case]:
        return [each for each in self.nodes.values() if each is not node]

    def assert_all_alike(self) -> None:
        """All that run show one state; and their journals are whole."""
        state = self.leader().said("status")[0].split(" ")[3:]
        for node in self.nodes.values():
            node.wait_for(lambda: node.said("status")[0].split(" ")[3:] == state)
        self.assertEqual(len({tuple(node.dump()) for node in self.nodes.values()}), 1)
        for node in self.nodes.values():
            rig.run("verify", node.store)

    def test_one_leads(self) -> None:
        leader = self.leader()
        with self.client() as client:
            client.edit("addo", "/a b", "O:BAG:SYD:(A;;FW;;;BU)")
            self.assertEqual(client.publish(), 1)
        for node in self.others(leader):
            node.wait_for(lambda: node.said(f"check 0 /a%20b {rig.USER} FW BU") == ["seen 1 granted 0x120116"])
            self.assertEqual(node.said("publish", "addo /c O:BAG:SYD:"), ["unavailable replica"] * 2)
        self.assert_all_alike()

    def test_a_leader_that_is_killed_or_stopped(self) -> None:
        """Another one leads: after the lease, or at once; the old one follows when it is back."""
        with self.client() as client:
            for turn, end in enumerate(("kill", "stop", "kill")):
                leader = self.leader()
                client.edit("addo", f"/n{turn}", "O:BAG:SYD:")
                getattr(leader, end)()
                self.assertEqual(client.publish(), turn + 1)
                self.assertIsNotNone(client.show(f"/n{turn}"))
                self.start_node(leader)
                self.assertIsNot(self.leader(), leader)
        self.assert_all_alike()

    def test_a_leader_that_sleeps(self) -> None:
        """Its lease ends meanwhile: what it then gets isn't made, and it answers by nothing old."""
        leader = self.leader()
        others = [str(node.lines) for node in self.others(leader)]
        with leader.connect() as asked, Client(others, timeout=rig.PATIENCE) as client:
            leader.process.send_signal(signal.SIGSTOP)
            asked.send(b"x addo /late O:BAG:SYD:\nx publish\n")
            client.edit("addo", "/early", "O:BAG:SYD:")
            self.assertEqual(client.publish(), 1)
            leader.process.send_signal(signal.SIGCONT)
            for _ in range(2):
                self.assertTrue(asked.read().startswith(b"x unavailable "))
        self.assert_all_alike()
        self.assertEqual(leader.said("show 0 /late", "show 0 /early")[0], "seen 1 nonode")

    def test_redis_comes_back(self) -> None:
        """Without it there are no edits; what it kept goes on."""
        leader = self.leader()
        self.assertEqual(leader.said("addo /a O:BAG:SYD:", "publish"), ["ok", "published 1"])
        self.redis.kill()
        self.assertEqual(leader.said("addo /b O:BAG:SYD:"), ["unavailable journal"])
        self.assertEqual(leader.said("show 0 /b"), ["seen 1 nonode"])
        self.redis.start()
        with self.client() as client:
            client.edit("addo", "/b", "O:BAG:SYD:")
            self.assertEqual(client.publish(), 2)
        self.assert_all_alike()

    def test_a_silent_redis(self) -> None:
        """Services that know nothing of it for too long answer nothing."""
        self.leader()
        self.redis.kill(signal.SIGSTOP)
        for node in self.nodes.values():
            node.wait_for(lambda: node.said("tell") == ["unavailable behind"])
        self.redis.kill(signal.SIGCONT)
        for node in self.nodes.values():
            node.wait_for(lambda: node.said("tell") == ["told 0"])

    def test_redis_that_lost_lines(self) -> None:
        """Each service ends with status 1, and says so; the one that has all lines makes the stream again."""
        leader = self.leader()
        self.assertEqual(leader.said("addo /a O:BAG:SYD:", "publish"), ["ok", "published 1"])
        self.assert_all_alike()
        self.redis.ask("FLUSHALL")
        for node in self.nodes.values():
            self.assertEqual(node.process.wait(rig.PATIENCE), 1)
            self.assertIn("there is no stream", node.log.read_text())
            node.process = None
        rig.run("seed", self.first.config)
        self.assertIn("there is a stream", rig.run("seed", self.first.config, status=2).stderr)
        for node in self.nodes.values():
            self.start_node(node)
        with self.client() as client:
            self.assertEqual(client.publish(), 1)
        self.assert_all_alike()

    def test_other_stores_and_dropped_lines(self) -> None:
        """A service with another store ends, and one whose next lines the stream has dropped."""
        stranger, late = self.nodes["b"], self.nodes["c"]
        for node in (stranger, late):
            node.kill()
        stranger.store = stranger.room / "other"
        stranger.make()
        with self.client() as client:
            client.edit("addo", "/a", "O:BAG:SYD:")
            client.publish()
        self.redis.ask("XTRIM", "sdstored", "MAXLEN", 1)
        for node in (stranger, late):
            self.configure_node(node)
            node.launch()
            self.assertEqual(node.process.wait(rig.PATIENCE), 1, node.log.read_text())
            node.process = None
        self.assertIn("isn't the one that follows here", late.log.read_text())

    def fill(self) -> None:
        """More lines than an epoch has, and a snapshot of them in Redis."""
        with self.client() as client:
            for number in range(100):
                client.edit("addo", f"/n{number}", "O:BAG:SYD:")
                if number % 10 == 9:
                    client.publish()
        self.first.wait_for(lambda: b"/n30" in self.redis.ask("GET", "sdstored:snapshot"))

    def start_again(self, node: rig.Case) -> None:
        """Kills it, and starts it without its store."""
        if node.process is not None:
            node.kill()
        node.store = node.room / "again"
        shutil.rmtree(node.store, ignore_errors=True)
        self.start_node(node)

    def test_a_new_replica_starts_from_a_snapshot(self) -> None:
        """Also where the leader has older lines than the stream, from which another leader has dropped some."""
        self.assertEqual(self.leader().said(*(f"addo /m{at} O:BAG:SYD:" for at in range(5))), ["ok"] * 5)
        self.assert_all_alike()
        self.redis.ask("XTRIM", "sdstored", "MINID", "3-0")
        self.fill()
        late = self.nodes["b"]
        self.start_again(late)
        self.assert_all_alike()
        self.assertGreater(next(each for each in late.events() if each["event"] == "loaded")["line"], 30)

    def test_keys_of_a_new_replica(self) -> None:
        """What was made once isn't made again by it, where it leads: the keys of earlier lines come with it."""
        granted = "once k1 addo /x O:BAG:SYD:(A;;FW;;;BU)"
        self.assertEqual(self.leader().said(granted, "once k2 publish", "remove /x"), ["ok", "published 1", "ok"])
        self.fill()
        late = self.others(self.leader())[0]
        self.start_again(late)
        self.assert_all_alike()
        for node in self.others(late):
            node.kill()
        late.wait_for(lambda: late.said("publish")[0].startswith("published"))
        self.assertEqual(late.said(granted, "once k2 publish", "publish", "show 0 /x"),
                         ["ok", "published 1", "published 102", "seen 102 nonode"])

    def test_a_changed_snapshot(self) -> None:
        """No replica starts from it."""
        text = self.redis.ask("GET", "sdstored:snapshot").decode()
        self.redis.ask("SET", "sdstored:snapshot", text.replace("FR", "FA"))
        late = self.nodes["b"]
        late.kill()
        late.store = late.room / "again"
        self.configure_node(late)
        late.launch()
        self.assertEqual(late.process.wait(rig.PATIENCE), 1)
        late.process = None
        self.assertIn("the leader's snapshot: it isn't the one that was written", late.log.read_text())
        self.assertFalse(late.store.exists())

    def test_a_snapshot_of_an_earlier_version(self) -> None:
        """The next leader puts its own there, in the form of today."""
        head, *lines = self.redis.ask("GET", "sdstored:snapshot").decode().split("\n")
        self.redis.ask("SET", "sdstored:snapshot", "\n".join([json.dumps(json.loads(head)[:6]), *lines]))
        leader = self.leader()
        leader.kill()
        self.start_node(leader)
        wanted = "\n".join([head, *lines]).encode()
        self.leader().wait_for(lambda: self.redis.ask("GET", "sdstored:snapshot") == wanted)
        self.start_again(self.nodes["b"])
        self.assert_all_alike()

    def test_a_replica_of_a_leader_that_is_deposed(self) -> None:
        """It answers by nothing older than its own limit, whatever that of the service is that it follows."""
        age = 2 * rig.PATIENCE
        for node in self.nodes.values():
            node.kill()
            self.start_node(node, age)
        deposed = self.leader()
        replica = rig.Case()
        replica.setUp()
        self.addCleanup(replica.doCleanups)
        self.assertEqual(deposed.said("addo /a O:BAG:SYD:(A;;FW;;;BU)", "publish"), ["ok", "published 1"])
        replica.start(more=f'[leader]\nunix = "{deposed.lines}"\nmax_age_seconds = 2')
        check = f"check 0 /a {rig.USER} FW BU"
        replica.wait_for(lambda: replica.said(check) == ["seen 1 granted 0x120116"])
        (deposed.room / "redis").unlink()
        self.redis.ask("CLIENT", "KILL", "TYPE", "normal")
        with Client([str(node.lines) for node in self.others(deposed)], timeout=rig.PATIENCE) as client:
            client.edit("dacl", "/a", "D:")
            self.assertEqual(client.publish(), 2)
        replica.wait_for(lambda: replica.said(check) == ["unavailable behind"])
        self.assertEqual(deposed.said(check), ["seen 1 granted 0x120116"])

    def test_the_log_without_redis(self) -> None:
        """A warning that comes again and again is there once a minute."""
        leader = self.leader()
        self.redis.kill()
        time.sleep(3)
        for _ in range(20):
            self.assertTrue(leader.said("addo /b O:BAG:SYD:")[0].startswith("unavailable "))
        for node in self.nodes.values():
            node.wait_for(lambda: any(each["event"] == "warning" for each in node.events()))
            warned = [each for each in node.events() if each["event"] == "warning"]
            self.assertLess(len(warned), 10, warned)
        self.redis.start()
        leader = self.leader()
        for node in self.nodes.values():
            node.wait_for(lambda: any("answers again" in str(each.get("text")) for each in node.events()))

    def test_certificates(self) -> None:
        """Over TCP Redis and service show certificates; one of another authority is good for nothing."""
        if shutil.which("openssl") is None:
            self.skipTest("the command openssl is required")
        ours, others = Certificates(self.room, "authority"), Certificates(self.room, "others")
        ours.sign("server", "/CN=redis")
        ours.sign("ours", "/CN=service")
        others.sign("theirs", "/CN=service")
        room, port = self.room / "tls", rig.free_port()
        room.mkdir()
        files = [f"--tls-{name}-file={self.room / file}" for name, file in
                 (("cert", "server.pem"), ("key", "server.key"), ("ca-cert", "authority.pem"))]
        options = [word for each in files for word in each.split("=")]
        server = Server(room, "--tls-port", str(port), *options)
        server.start()
        self.addCleanup(server.kill)
        self.make()
        for name, status in (("theirs", 3), ("ours", 0)):
            self.configure(more=f'[redis]\ntcp = "127.0.0.1:{port}"\nauthority = "{self.room}/authority.pem"\n'
                           f'certificate = "{self.room}/{name}.pem"\nkey = "{self.room}/{name}.key"')
            rig.run("seed", self.config, status=status)
        self.launch()
        self.wait_until_ready()
        with Client(str(self.lines), timeout=rig.PATIENCE) as client:
            self.assertEqual(client.publish(), 0)
        self.stop()

    def test_kills(self) -> None:
        """Leaders, replicas and Redis are killed in turn: each acknowledged edit is there, once."""
        chance, made, stop = random.Random(1), [0] * 3, threading.Event()
        faults: list[BaseException] = []

        def edit(number: int) -> None:
            try:
                with self.client(20 * rig.PATIENCE) as client:
                    client.edit("addc", f"/{number}", "O:BAG:SYD:")
                    while not stop.is_set():
                        client.edit("addo", f"/{number}/{made[number]}", "O:BAG:SYD:")
                        made[number] += 1
                        if made[number] % 4 == 0:
                            client.publish()
                            assert client.show(f"/{number}/{made[number] - 1}") is not None
            except BaseException as error:
                faults.append(error)

        threads = [threading.Thread(target=edit, args=(number,)) for number in range(len(made))]
        for thread in threads:
            thread.start()
        for turn in range(KILLS):
            time.sleep(chance.random() * 2)
            self.kill_one(chance, turn)
        stop.set()
        for thread in threads:
            thread.join()
        self.assertEqual(faults, [])
        with self.client() as client:
            self.assertEqual(client.publish(), len(made) + sum(made))
        self.assert_all_alike()
        self.assertGreater(sum(made), KILLS)

    def kill_one(self, chance: random.Random, turn: int) -> None:
        """Kills Redis or a service, the leader more often than not, and starts it again."""
        if turn % 5 == 4:
            self.redis.kill()
            self.redis.start()
            return
        node = self.leader() if chance.random() < 0.6 else chance.choice(list(self.nodes.values()))
        node.kill()
        if chance.random() < 0.5:
            time.sleep(chance.random() * 2)
        self.start_node(node)


if __name__ == "__main__":
    loader, module = unittest.TestLoader(), sys.modules[__name__]
    names = sys.argv[1:]
    sys.exit(report(loader.loadTestsFromNames(names, module) if names else loader.loadTestsFromModule(module)))
