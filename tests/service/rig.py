"""Stores in a folder of their own, and services over them as processes."""

import contextlib
import json
import os
import random
import shutil
import signal
import socket
import subprocess
import sys
import tempfile
import threading
import time
import unittest
from collections.abc import Callable
from pathlib import Path
from typing import Any, BinaryIO

TOP = Path(__file__).resolve().parents[2]
SERVICE = TOP / "service"
sys.path[:0] = [str(SERVICE), str(TOP / "bindings/python"), str(TOP / "examples/serve")]

#: The program, as a command: that of the checkout, unless SDSTORED names another.
PROGRAM = [os.environ["SDSTORED"]] if "SDSTORED" in os.environ else [sys.executable, str(SERVICE)]
SDSTORE = TOP / "crates/sdstore/out/sdstore"
USER = "S-1-5-21-1-2-3-1001"
DUMP = "open 1 O:BAG:SYD:(A;OICI;FR;;;BU)\npublish\n"
#: A process ends, or a socket is there, within so many seconds, however busy the machine is.
PATIENCE = 180
#: Where tests have their folders: a socket's path has 107 bytes at most.
ROOMS = tempfile.gettempdir() if len(os.fsencode(tempfile.gettempdir())) < 60 else "/tmp"

# What is started here can be interrupted, though a shell had this program ignore it, as it does with what is in its
# background.
signal.signal(signal.SIGINT, signal.default_int_handler)
# Services here are asked by nobody else.
for each in [each for each in os.environ if each.lower().endswith("_proxy")]:
    del os.environ[each]


def run(*words: object, given: str = "", status: int = 0) -> subprocess.CompletedProcess[str]:
    """A command of sdstored, which ends with this status."""
    command = [*PROGRAM, *map(str, words)]
    done = subprocess.run(command, input=given, capture_output=True, text=True, timeout=PATIENCE, check=False)
    if done.returncode != status:
        raise AssertionError(f"{words}: status {done.returncode}, not {status}: {done.stderr}")
    return done


def free_port() -> int:
    """A port of the loopback interface at which nobody listened a moment ago, and from which nobody connects."""
    while True:
        with socket.socket() as found, contextlib.suppress(OSError):
            found.bind(("127.0.0.1", random.randrange(10_000, 32_768)))
            return int(found.getsockname()[1])


def connected(where: Path) -> socket.socket:
    made = socket.socket(socket.AF_UNIX)
    made.settimeout(PATIENCE)
    made.connect(str(where))
    return made


class Lines:
    """A connection for lines, without a client: what is sent is exactly what a test says."""

    def __init__(self, where: Path) -> None:
        self.socket = connected(where)
        self._file = self.socket.makefile("rb")

    def __enter__(self) -> "Lines":
        return self

    def __exit__(self, *_: object) -> None:
        self.close()

    def close(self) -> None:
        self._file.close()
        self.socket.close()

    def send(self, data: bytes) -> None:
        self.socket.sendall(data)

    def read(self) -> bytes:
        """The next line; b"" at the end of the connection."""
        try:
            return self._file.readline()
        except ConnectionError:
            return b""

    def ask(self, line: str) -> str:
        """The answer to a line with an id, without the id."""
        self.send(f"x {line}\n".encode())
        said = self.read()
        if not said.startswith(b"x ") or not said.endswith(b"\n"):
            raise EOFError(f"{line!r} is answered {said!r}")
        return said[2:-1].decode()

    def rest(self) -> bytes:
        """All up to the end of the connection."""
        try:
            return self._file.read()
        except ConnectionError:
            return b""


class Scripted:
    """A service whose answers a test makes: `answer` returns the lines for what is asked, or None to end the
    connection."""

    def __init__(self, where: Path, answer: Callable[[str], list[str] | None]) -> None:
        self._answer, self._listening = answer, socket.socket(socket.AF_UNIX)
        self._client: socket.socket | None = None
        #: The questions so far.
        self.count = 0
        where.unlink(missing_ok=True)
        self._listening.bind(str(where))
        self._listening.listen()
        self._thread = threading.Thread(target=self._run)

    def __enter__(self) -> "Scripted":
        self._thread.start()
        return self

    def __exit__(self, *_: object) -> None:
        for each in (self._listening, self._client):
            with contextlib.suppress(OSError, AttributeError):
                each.shutdown(socket.SHUT_RDWR)
        self._thread.join()
        self._listening.close()

    def _run(self) -> None:
        with contextlib.suppress(OSError):
            while True:
                self._client, _ = self._listening.accept()
                with self._client as client, client.makefile("rb") as lines, contextlib.suppress(ConnectionError):
                    self._serve(client, lines)

    def _serve(self, client: socket.socket, lines: BinaryIO) -> None:
        while line := lines.readline().decode().rstrip("\n"):
            tag, _, asked = line.partition(" ")
            self.count += 1
            said = self._answer(asked)
            if said is None:
                return
            client.sendall("".join(f"{tag} {each}\n" for each in said).encode())


class Case(unittest.TestCase):
    """A test with a folder, which is gone at its end, and so are its processes."""

    def setUp(self) -> None:
        self.room = Path(tempfile.mkdtemp(prefix="sdstored-", dir=ROOMS))
        self.addCleanup(shutil.rmtree, self.room, ignore_errors=True)
        self.store, self.lines, self.http = self.room / "store", self.room / "lines", self.room / "http"
        self.log = self.room / "log"
        self.config = self.room / "config.toml"
        self.process: subprocess.Popen[bytes] | None = None
        self.addCleanup(self.kill)

    def make(self, dump: str = DUMP, *options: str) -> None:
        run("init", *options, self.store, given=dump)

    def configure(self, limits: str = "", more: str = "", allow: str | None = None) -> None:
        allow = allow or f'{{"uid:{os.getuid()}" = "edit"}}'
        self.config.write_text(
            f'folder = "{self.store}"\n'
            f'[[listen]]\nunix = "{self.lines}"\nprotocol = "lines"\nallow = {allow}\n'
            f'[[listen]]\nunix = "{self.http}"\nprotocol = "http"\nallow = {allow}\n'
            f"{more}\n[limits]\n{limits}\n"
        )

    def start(self, limits: str = "", **options: str) -> None:
        """Starts the service, and returns once it is ready."""
        self.configure(limits, **options)
        self.launch()
        self.wait_until_ready()

    def launch(self, into: int | None = None) -> None:
        """Starts the service, whose log is in an open file, or in the file `log`."""
        with open(self.log, "ab") as log:
            self.log_start = log.tell()
            self.process = subprocess.Popen([*PROGRAM, "run", str(self.config)], stderr=log if into is None else into)

    def wait_until_ready(self) -> None:
        self.wait_for(lambda: any(each["event"] == "ready" for each in self.events()))

    def wait_for(self, is_so: Callable[[], bool]) -> None:
        end = time.monotonic() + PATIENCE
        while not is_so():
            ended = self.process is None or self.process.poll() is not None
            if ended or time.monotonic() > end:
                log = self.log.read_text()[self.log_start :][-3000:]
                raise AssertionError(f"{'the service ended' if ended else f'not so in {PATIENCE} s'}: {log}")
            time.sleep(0.005)

    def events(self) -> list[dict[str, object]]:
        """The log of the last start."""
        with open(self.log, "rb") as log:
            log.seek(self.log_start)
            lines = log.read().splitlines()
        return [json.loads(line) for line in lines if line.startswith(b"{") and line.endswith(b"}")]

    def kill(self) -> None:
        if self.process is not None:
            self.process.send_signal(signal.SIGKILL)
            self.process.wait(PATIENCE)
            self.process = None

    def stop(self) -> None:
        """Ends the service by SIGTERM, with status 0."""
        assert self.process is not None
        self.process.send_signal(signal.SIGTERM)
        self.assertEqual(self.process.wait(PATIENCE), 0, self.log.read_text()[-3000:])
        self.process = None

    def mount_small(self) -> Path:
        """A file system of 1 MiB, until the end of the test."""
        if os.geteuid() != 0:
            self.skipTest("root is required for a small file system")
        small = self.room / "small"
        small.mkdir()
        if subprocess.run(["mount", "-t", "tmpfs", "-o", "size=1m", "tmpfs", str(small)], check=False).returncode != 0:
            self.skipTest("no file system can be mounted here")
        self.addCleanup(subprocess.run, ["umount", "-l", str(small)], check=False)
        return small

    def connect(self) -> Lines:
        return Lines(self.lines)

    def said(self, *lines: str) -> list[str]:
        """The answers to these lines, one after the other, over a connection of their own."""
        with self.connect() as asked:
            return [asked.ask(line) for line in lines]

    def get(self, target: str) -> tuple[int, str]:
        """The status and the body of a GET over HTTP."""
        with Lines(self.http) as asked:
            asked.send(f"GET {target} HTTP/1.1\r\nHost: x\r\nConnection: close\r\n\r\n".encode())
            head, _, body = asked.rest().decode().partition("\r\n\r\n")
        return int(head.split(" ")[1]), body

    def post(self, name: str, body: object, head: str = "", where: Path | None = None) -> tuple[int, Any]:
        """The status and the answer of a request below /v1/, with these lines of a head."""
        text = json.dumps(body)
        with Lines(where or self.http) as asked:
            asked.send(f"POST /v1/{name} HTTP/1.1\r\nHost: x\r\nConnection: close\r\n{head}"
                       f"Content-Type: application/json\r\nContent-Length: {len(text)}\r\n\r\n{text}".encode())
            first, _, said = asked.rest().decode().partition("\r\n\r\n")
        return int(first.split(" ")[1]), json.loads(said)

    def metrics(self) -> dict[str, float]:
        """What /metrics shows, in which promtool finds no fault, if it is there."""
        text = self.get("/metrics")[1]
        if shutil.which("promtool"):
            command = ["promtool", "check", "metrics"]
            said = subprocess.run(command, input=text, capture_output=True, text=True, check=False)
            self.assertEqual((said.returncode, said.stdout, said.stderr), (0, "", ""))
        rows = (line.rsplit(" ", 1) for line in text.splitlines() if not line.startswith("#"))
        return {name: float(value) for name, value in rows}

    def dump(self) -> list[str]:
        with self.connect() as asked:
            asked.send(b"d dump\n")
            lines = []
            while (line := asked.read()) not in (b"d \n", b""):
                lines.append(line[2:-1].decode())
            return lines
