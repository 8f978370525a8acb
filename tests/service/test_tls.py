"""TCP with certificates of both sides, and the Python clients over it."""

import asyncio
import contextlib
import gc
import random
import shutil
import signal
import socket
import ssl
import subprocess
import tempfile
import time
import tracemalloc
import unittest
import weakref
from collections import Counter
from collections.abc import Callable
from pathlib import Path
from unittest import mock

import rig

from client import AsyncClient, Client, Rejected, Unavailable
from config import Grant, Limits, Listen
from connection import Connection
from errors import Failed
from held import Held
from listening import Listener
from slots import Slots
from turn import Turn


#: A new key, without a password.
_KEY = ("-newkey", "ec", "-pkeyopt", "ec_paramgen_curve:P-256", "-nodes")


class Certificates:
    """An authority, and what it signs."""

    def __init__(self, room: Path, name: str) -> None:
        self.room, self.name = room, name
        self._run("req", "-x509", *_KEY, "-days", "2", "-subj", f"/CN={name}", "-keyout", f"{name}.key",
                  "-out", f"{name}.pem")

    def _run(self, *words: str) -> None:
        subprocess.run(["openssl", *words], cwd=self.room, check=True, capture_output=True)

    def sign(self, name: str, subject: str, seconds: int = 86_400) -> None:
        """A certificate and its key, NAME.pem and NAME.key, for so many seconds."""
        (self.room / "extensions").write_text("subjectAltName=IP:127.0.0.1\nbasicConstraints=CA:FALSE\n")
        (self.room / "index").write_text("")
        (self.room / "ca").write_text(
            f"[ca]\ndefault_ca = own\n[own]\ndatabase = {self.room}/index\nnew_certs_dir = {self.room}\n"
            "default_md = sha256\npolicy = any\nrand_serial = yes\n[any]\ncommonName = optional\n"
            "organizationalUnitName = optional\n")
        end = time.strftime("%y%m%d%H%M%SZ", time.gmtime(time.time() + seconds))
        self._run("req", "-new", *_KEY, "-subj", subject, "-keyout", f"{name}.key", "-out", f"{name}.csr")
        self._run("ca", "-config", "ca", "-batch", "-notext", "-in", f"{name}.csr", "-cert", f"{self.name}.pem",
                  "-keyfile", f"{self.name}.key", "-enddate", end, "-extfile", "extensions", "-out", f"{name}.pem")

    def context(self, name: str | None) -> ssl.SSLContext:
        """That of a client, with a certificate or without one."""
        context = ssl.create_default_context(cafile=str(self.room / "authority.pem"))
        if name:
            context.load_cert_chain(self.room / f"{name}.pem", self.room / f"{name}.key")
        return context


class Tls(rig.Case):
    def setUp(self) -> None:
        super().setUp()
        if shutil.which("openssl") is None:
            self.skipTest("the command openssl is required")
        self.ours, self.others = Certificates(self.room, "authority"), Certificates(self.room, "others")
        self.ours.sign("server", "/CN=service")
        self.ours.sign("web", "/CN=web")
        self.ours.sign("mail", "/CN=mail")
        self.ours.sign("two", "/CN=web/CN=mail")
        self.ours.sign("watch", "/CN=watch")
        self.others.sign("foreign", "/CN=web")
        self.port, self.http_port = rig.free_port(), rig.free_port()
        self.make()
        self.tls_web = self.listen('{"cn:web" = "edit", "cn:watch" = "watch"}')
        self.start("handshake_seconds = 60", more=self.tls_web)

    def listen(self, allow: str) -> str:
        """Places for lines and for HTTP, with certificates."""
        files = "".join(f'{name} = "{self.room / file}"\n' for name, file in
                        (("certificate", "server.pem"), ("key", "server.key"), ("clients", "authority.pem")))
        return "\n".join(f'[[listen]]\ntcp = "127.0.0.1:{port}"\nprotocol = "{protocol}"\n{files}allow = {allow}'
                         for port, protocol in ((self.port, "lines"), (self.http_port, "http")))

    def client(self, name: str | None, timeout: float = rig.PATIENCE) -> Client:
        return Client(("127.0.0.1", self.port), self.ours.context(name), timeout)

    def connected(self, name: str | None) -> ssl.SSLSocket:
        plain = socket.create_connection(("127.0.0.1", self.port), rig.PATIENCE)
        return self.ours.context(name).wrap_socket(plain, server_hostname="127.0.0.1")

    def said_to(self, name: str | None) -> bytes:
        """What a client with this certificate is answered before it is disconnected."""
        with contextlib.suppress(OSError), self.connected(name) as asked:
            return self.told(asked)
        return b""

    def test_certificates(self) -> None:
        with self.client("web") as client:
            client.edit("addo", "/a b", "O:BAG:SYD:(A;;FW;;;BU)")
            self.assertEqual(client.publish(), 1)
            self.assertTrue(client.check("/a b", rig.USER, "FW", ["BU"]))
        for name in (None, "mail", "two", "foreign"):
            with self.subTest(name):
                reason = "no certificate" if name in (None, "foreign") else "not allowed"
                before = self.reasons().count(reason)
                self.assertEqual(self.said_to(name), b"")
                self.wait_for(lambda: self.reasons().count(reason) > before)
                with self.client(name, 0.5) as client, self.assertRaises(Unavailable):
                    client.check("/a b", rig.USER, "FW", ["BU"])
        with self.client("watch") as client, self.assertRaises(Rejected):
            client.check("/a b", rig.USER, "FW", ["BU"])
        with socket.create_connection(("127.0.0.1", self.port), rig.PATIENCE) as plain:
            plain.sendall(b"1 tell\n")
            self.assertNotIn(b"told", plain.recv(1000))
        self.assertEqual(self.said("tell"), ["told 1"])

    def reasons(self) -> list[object]:
        return [each.get("reason") for each in self.events()]

    def test_tasks(self) -> None:
        """The client for asyncio shows its certificate too, and gets no answer without one."""

        async def length(name: str | None, timeout: float) -> int:
            where = ("127.0.0.1", self.port)
            async with AsyncClient(where, self.ours.context(name), timeout) as client:
                return await client.publish()

        self.assertEqual(asyncio.run(length("web", rig.PATIENCE)), 0)
        for name in (None, "mail", "foreign"):
            with self.subTest(name), self.assertRaises(Unavailable):
                asyncio.run(length(name, 0.5))

    def test_curl(self) -> None:
        """HTTP with certificates: who has a role gets what that has, and nobody else gets an answer."""
        if shutil.which("curl") is None:
            self.skipTest("the command curl is required")
        for name, target, said in (
            ("web", "/healthz", "ok\n200"), ("web", "/v1/status", "200"), ("watch", "/readyz", "ready\n200"),
            ("watch", "/metrics", "200"), ("watch", "/v1/status", '{"fault": "role"}403'),
            ("mail", "/healthz", None), ("foreign", "/healthz", None), (None, "/healthz", None),
        ):
            with self.subTest(name=name, target=target):
                got = self.curl(target, name)
                self.assertTrue(got == said or (said is not None and len(said) == 3 and got.endswith(said)), got)

    def curl(self, target: str, name: str | None) -> str | None:
        """The body and the status, or None without an answer."""
        files = {"--cert": f"{name}.pem", "--key": f"{name}.key"} if name else {}
        own = [word for option, file in files.items() for word in (option, str(self.room / file))]
        command = ["curl", "-s", "--max-time", str(rig.PATIENCE), "-w", "%{http_code}", *own,
                   "--cacert", str(self.room / "authority.pem"), f"https://127.0.0.1:{self.http_port}{target}"]
        done = subprocess.run(command, capture_output=True, text=True, check=False)
        if done.returncode == 0:
            return done.stdout
        self.assertEqual(done.stdout, "000")
        return None

    def test_garbage(self) -> None:
        """Random bytes, before a handshake and after it: others are answered meanwhile."""
        chance = random.Random(13)
        for _ in range(10):
            with contextlib.suppress(OSError), socket.create_connection(("127.0.0.1", self.port)) as plain:
                plain.sendall(chance.randbytes(500))
            with self.connected("web") as asked:
                asked.sendall(chance.randbytes(500) + b"\n")
                self.assertEqual(self.said_to("web"), b"1 told 0\n")
        self.assertEqual(self.said("publish"), ["published 0"])

    def test_hang_up_takes_other_certificates(self) -> None:
        self.assertEqual(self.said_to("web"), b"1 told 0\n")
        with self.connected("web") as web:
            web.sendall(b"1 tell\n")
            self.assertEqual(web.recv(1000), b"1 told 0\n")
            self.configure(more=self.listen('{"cn:mail" = "edit"}'))
            self.ours.sign("server", "/CN=service")
            self.process.send_signal(signal.SIGHUP)
            with contextlib.suppress(OSError):
                self.assertEqual(web.recv(1000), b"")
        self.wait_for(lambda: any(each["event"] == "reloaded" for each in self.events()))
        self.assertEqual(self.said_to("web"), b"")
        with self.client("mail") as client:
            self.assertEqual(client.publish(), 0)

    def test_handshakes_that_never_end(self) -> None:
        """They delay nobody for long, and take no slot of those who show a certificate."""
        self.kill()
        limits = "connections = 10\nhandshakes = 4\nhandshake_seconds = 600\nrequest_seconds = 600"
        self.start(limits, more=self.tls_web)
        with contextlib.ExitStack() as stack:
            for _ in range(20):
                stack.enter_context(socket.create_connection(("127.0.0.1", self.port)))
            began = time.monotonic()
            with self.client("web", timeout=60) as client:
                self.assertEqual(client.publish(), 0)
            self.assertLess(time.monotonic() - began, 60)
            self.assertLess(self.metrics()["sdstored_connections"], 4)
            self.assertGreater(self.metrics().get('sdstored_rejected_total{reason="handshake too slow"}', 0), 3)
        self.kill()
        self.start("handshake_seconds = 1\nrequest_seconds = 600", more=self.tls_web)
        with socket.create_connection(("127.0.0.1", self.port), rig.PATIENCE) as silent:
            began = time.monotonic()
            with contextlib.suppress(ConnectionError):
                self.assertEqual(silent.recv(100), b"")
            self.assertLess(time.monotonic() - began, 30)

    def test_an_authority_that_is_replaced(self) -> None:
        """Who showed a certificate that it didn't sign is disconnected, and one that is added disconnects nobody; nor
        is anybody admitted whose handshake began before."""
        authority = self.room / "authority.pem"
        ours = authority.read_bytes()
        with self.connected("web") as web, socket.create_connection(("127.0.0.1", self.port)) as half:
            self.assertEqual(self.told(web), b"1 told 0\n")
            authority.write_bytes(ours + (self.room / "others.pem").read_bytes())
            self.hang_up()
            self.assertEqual(self.told(web), b"1 told 0\n")
            authority.write_bytes((self.room / "others.pem").read_bytes())
            self.hang_up()
            self.assertEqual(self.told(web), b"")
            authority.write_bytes(ours)
            with contextlib.suppress(OSError):
                context = self.ours.context("web")
                context.wrap_socket(half, server_hostname="127.0.0.1").sendall(b"1 tell\n")
                self.fail("a handshake with the authority of before")
            self.assertEqual(self.said_to("web"), b"")
            self.hang_up()
        self.assertEqual(self.said_to("web"), b"1 told 0\n")

    def hang_up(self) -> None:
        """Has the configuration read again."""
        before = [each["event"] for each in self.events()].count("reloaded")
        self.process.send_signal(signal.SIGHUP)
        self.wait_for(lambda: [each["event"] for each in self.events()].count("reloaded") > before)

    def told(self, asked: ssl.SSLSocket) -> bytes:
        try:
            asked.sendall(b"1 tell\n")
            return asked.recv(1000)
        except OSError:
            return b""

    def test_a_certificate_that_ends(self) -> None:
        """Its client is disconnected then."""
        seconds = 4
        with contextlib.ExitStack() as stack:
            while True:
                self.ours.sign("brief", "/CN=web", seconds)
                with contextlib.suppress(OSError):
                    brief = stack.enter_context(self.connected("brief"))
                    if self.told(brief) == b"1 told 0\n":
                        break
                # (a busy machine takes longer than that to sign it and to connect)
                seconds *= 3
                self.assertLess(seconds, rig.PATIENCE)
            with contextlib.suppress(ConnectionError):
                self.assertEqual(brief.recv(100), b"")
        self.wait_for(lambda: "certificate ended" in self.reasons())


class Memory(unittest.IsolatedAsyncioTestCase):
    """What connections hold, at a place to listen of a service that answers nothing."""

    def setUp(self) -> None:
        if shutil.which("openssl") is None:
            self.skipTest("the command openssl is required")
        room = Path(self.enterContext(tempfile.TemporaryDirectory(prefix="sdstored-", dir=rig.ROOMS)))
        self.ours = Certificates(room, "authority")
        for name in ("server", "web"):
            self.ours.sign(name, f"/CN={name}")
        self.listen = Listen("lines", tcp=("127.0.0.1", rig.free_port()), certificate=f"{room}/server.pem",
                             key=f"{room}/server.key", clients=f"{room}/authority.pem",
                             allow={"cn:web": (Grant("check"),)})

    async def asyncSetUp(self) -> None:
        limits = Limits(handshake_seconds=rig.PATIENCE)
        service = mock.Mock(limits=limits, slots=Slots(limits), held=Held(1 << 30), turn_of=lambda who: Turn())
        service.metrics.rejected = Counter[str]()
        self.listener = Listener(self.listen, service)
        self.addAsyncCleanup(self.listener.close)

    async def connect(self) -> tuple[Connection, ssl.SSLSocket]:
        """A new connection, and its client."""
        before = set(self.listener.connections)
        client = await asyncio.get_running_loop().run_in_executor(None, self.connected)
        self.addCleanup(client.close)
        await self.until(lambda: self.listener.connections > before and not self.listener._handshakes)
        return (self.listener.connections - before).pop(), client

    def connected(self) -> ssl.SSLSocket:
        plain = socket.create_connection(self.listen.tcp, rig.PATIENCE)
        return self.ours.context("web").wrap_socket(plain, server_hostname="127.0.0.1")

    async def until(self, is_so: Callable[[], bool]) -> None:
        end = time.monotonic() + rig.PATIENCE
        while not is_so():
            self.assertLess(time.monotonic(), end)
            await asyncio.sleep(0.001)

    async def test_an_idle_connection(self) -> None:
        """It takes far less of Python's memory than asyncio's own buffer, of 256 KiB."""
        made = [await self.connect()]
        tracemalloc.start()
        self.addCleanup(tracemalloc.stop)
        made += [await self.connect() for _ in range(20)]
        self.assertLess(tracemalloc.get_traced_memory()[0] / 20, 1 << 16)

    async def test_requests_that_are_not_read(self) -> None:
        """They stay with the system, but for few."""
        made, client = await self.connect()
        made.transport.pause_reading()
        client.settimeout(0)
        with contextlib.suppress(ssl.SSLWantWriteError):
            for _ in range(1_000):
                client.send(bytes(1 << 14))
        size, seen = made.transport.get_read_buffer_size, 0
        await self.until(lambda: size() > 0)
        while seen < size():
            seen = size()
            await asyncio.sleep(0.2)
        self.assertLess(seen, 1 << 16)

    async def test_an_end(self) -> None:
        """Nothing of a connection waits for a garbage collection, whoever ends it."""
        gc.disable()
        self.addCleanup(gc.enable)
        for number, (ours, closes) in enumerate(((0, True), (1, True), (2, True), (0, False))):
            with self.subTest(number):
                made, client = await self.connect()
                left = weakref.ref(made)
                for _ in range(ours):
                    made.transport.close()
                if closes:
                    client.close()
                else:
                    made.transport.abort()
                del made
                await self.until(lambda: left() is None)

    async def test_another_python(self) -> None:
        """Where asyncio has other names for these buffers nobody is admitted: they might be of any size."""
        with mock.patch("asyncio.sslproto.SSLProtocol", object), self.assertRaises(Failed):
            self.listener.configured(self.listen)


if __name__ == "__main__":
    unittest.main()
