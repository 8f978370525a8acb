#!/usr/bin/env python3
"""By hand: what the service costs, as the table of docs/PERFORMANCE.md.

    costs.py [FOLDER]

makes its stores in FOLDER, on the disk to measure, and measures how often that flushes a page. It takes some minutes,
on a machine that does nothing else, and requires openssl."""

import contextlib
import itertools
import os
import resource
import selectors
import socket
import ssl
import statistics
import sys
import tempfile
import threading
import time
from collections.abc import Callable
from pathlib import Path

import rig
from test_tls import Certificates

#: A full tree, with its root.
NODES = 65_536
FOLDERS = 256
#: Those that a review is about, each with a descriptor of its own, and the clients that ask for one beside it.
CHANGED, CHECKERS = 20_000, "abcd"
SECONDS = 5.0


def full_dump() -> str:
    """The lines of a full tree: folders with an entry of their own, and objects in them."""
    lines = ["open 1 O:BAG:SYD:(A;OICI;FR;;;BU)"]
    for folder in range(FOLDERS - 1):
        lines.append(f"addc /{folder} O:BAG:SYD:(A;OICI;FW;;;AU)")
        lines += [f"addo /{folder}/{number} O:BAG:SYD:" for number in range(NODES // FOLDERS)]
    lines += [f"addo /{number} O:BAG:SYD:" for number in range(FOLDERS, FOLDERS + NODES - len(lines))]
    return "\n".join([*lines, "publish", ""])


def rate(ask: Callable[[], int], seconds: float = SECONDS) -> tuple[float, int]:
    """How many a second it does, and how many it did."""
    count, began = 0, time.perf_counter()
    while (took := time.perf_counter() - began) < seconds:
        count += ask()
    return count / took, count


def say(what: str, measured: str, processor: str = "") -> None:
    """A row of the table."""
    print(f"| {what} | {measured} | {processor} |", flush=True)


class Editors:
    """Clients that each edit an object of their own, in one thread: an edit is sent once the one before is answered."""

    def __init__(self, where: Path, count: int) -> None:
        self._selector = selectors.DefaultSelector()
        self._clients = [rig.connected(where) for _ in range(count)]
        self._sent = [0] * count
        for number, client in enumerate(self._clients):
            self._selector.register(client, selectors.EVENT_READ, number)
            self._send(number)

    def _send(self, number: int) -> None:
        words = f"remove /c{number}" if self._sent[number] % 2 else f"addo /c{number} O:BAG:SYD:"
        self._clients[number].sendall(f"x {words}\n".encode())
        self._sent[number] += 1

    def work(self) -> int:
        """Takes the answers that are there, and sends as many edits."""
        ready = self._selector.select()
        for key, _ in ready:
            said = self._clients[key.data].recv(100)
            assert said == b"x ok\n", said
            self._send(key.data)
        return len(ready)

    def close(self) -> None:
        for number, client in enumerate(self._clients):
            assert client.recv(100) == b"x ok\n"
            if self._sent[number] % 2:
                client.sendall(f"x remove /c{number}\n".encode())
                assert client.recv(100) == b"x ok\n"
            client.close()


class Costs(rig.Case):
    def run_all(self, folder: str | None) -> None:
        self.room = Path(tempfile.mkdtemp(prefix="costs-", dir=folder))
        self.store, self.lines, self.http = self.room / "store", self.room / "lines", self.room / "http"
        self.log, self.config = self.room / "log", self.room / "config.toml"
        print(f"{os.cpu_count()} processors, load {os.getloadavg()[0]:.1f}\n")
        print("| What | Measured | Processor |\n|---|---:|---:|")
        self.make()
        self.certify()
        self.idle()
        self.edits()
        self.make(full_dump())
        self.full()
        self.reviews()

    def certify(self) -> None:
        """A place to listen over TLS, for clients that may check."""
        ours, self.port = Certificates(self.room, "authority"), rig.free_port()
        for name in ("server", *CHECKERS):
            ours.sign(name, f"/CN={name}")
        files = "".join(f'{name} = "{self.room}/{file}"\n' for name, file in
                        (("certificate", "server.pem"), ("key", "server.key"), ("clients", "authority.pem")))
        allow = ", ".join(f'"cn:{name}" = "check"' for name in CHECKERS)
        self.tls = f'[[listen]]\ntcp = "127.0.0.1:{self.port}"\nprotocol = "lines"\n{files}allow = {{ {allow} }}'
        self.contexts = {name: ours.context(name) for name in CHECKERS}

    def over_tls(self, name: str = CHECKERS[0]) -> ssl.SSLSocket:
        plain = socket.create_connection(("127.0.0.1", self.port), rig.PATIENCE)
        return self.contexts[name].wrap_socket(plain, server_hostname="127.0.0.1")

    def flushes(self) -> float:
        """A second: writes of a page, each with its flush, of which a commit needs one."""
        with open(self.room / "flushed", "wb") as file:
            def one() -> int:
                os.pwrite(file.fileno(), b"x" * 4096, 0)
                os.fdatasync(file.fileno())
                return 1

            return rate(one, SECONDS / 2)[0]

    def processor(self) -> float:
        """The processor seconds of the service."""
        fields = Path(f"/proc/{self.process.pid}/stat").read_text().rpartition(")")[2].split()
        return (int(fields[11]) + int(fields[12])) / os.sysconf("SC_CLK_TCK")

    def say_rate(self, what: str, ask: Callable[[], int]) -> None:
        """The best and the median of many short runs: others may be at work on the machine."""
        before, count = self.processor(), 0
        found = []
        for _ in range(int(4 * SECONDS)):
            one, more = rate(ask, 0.25)
            found.append(one)
            count += more
        used = (self.processor() - before) / count
        say(what, f"{statistics.median(found):,.0f}/s, at best {max(found):,.0f}/s", f"{used * 1e6:.1f} us each")

    def edits(self) -> None:
        """Edits in a small tree, each acknowledged before the next of its client. The many fill SQLite's log, which is
        not extended any more after its first thousand pages."""
        self.start()
        for clients in (64, 1):
            before, used, editors = self.flushes(), self.processor(), Editors(self.lines, clients)
            found, count = rate(editors.work)
            used = (self.processor() - used) / count
            editors.close()
            flushes = (before + self.flushes()) / 2
            say(f"acknowledged edits, {clients} clients", f"{found:,.0f}/s, {found / flushes:.1f} times the flushes",
                f"{used * 1e6:.0f} us each")
            say("flushes of a page on the same disk, before and after", f"{flushes:,.0f}/s")
        self.stop()
        os.rename(self.store, self.room / "small")

    def full(self) -> None:
        """A start, checks, and checks beside edits of the root."""
        self.start()
        event = next(each for each in self.events() if each["event"] == "loaded")
        say(f"start with a full tree from a snapshot; {self.memory() / 1024:.0f} MiB then", f"{event['seconds']} s",
            f"{self.processor():.2f} s")
        paths = [f"/{folder}/{number}" for folder in range(250) for number in range(0, 256, 8)]
        with self.connect() as asked:
            single = self.checks(asked, paths, "")
            for line in (f"find 0 / {rig.USER} FR BU", "list", "review"):
                self.whole(asked, line, "of a full tree")
            self.beside_edits(single)
        self.stop()
        self.start(more='[log]\ndecisions = "all"')
        with self.connect() as asked:
            self.checks(asked, paths, ", all decisions logged")
        self.stop()

    def checks(self, asked: rig.Lines, paths: list[str], where: str) -> Callable[[], int]:
        """Says how many are answered; one is made by what it returns."""
        singles = itertools.cycle(paths)

        def single() -> int:
            asked.send(b"x check 0 %s %s FR BU\n" % (next(singles).encode(), rig.USER.encode()))
            assert asked.read().startswith(b"x seen")
            return 1

        self.say_rate(f"checks over the Unix socket, one client, each after the answer before{where}", single)
        batch = f"x checks 0 100 {' '.join(paths[:100])} {rig.USER} FR BU\n".encode()

        def hundred() -> int:
            asked.send(batch)
            assert asked.read().count(b"granted") == 100
            return 100

        self.say_rate(f"the same in batches of 100{where}", hundred)
        return single

    def whole(self, asked: rig.Lines, line: str, what: str) -> None:
        """A question that looks at each node."""
        before, began, count = self.processor(), time.perf_counter(), 0
        asked.send(f"x {line}\n".encode())
        while asked.read() != b"x \n":
            count += 1
        took, used = time.perf_counter() - began, self.processor() - before
        say(f"`{line.partition(' ')[0]}` {what}, {count:,} lines", f"{took:.1f} s", f"{used:.1f} s")

    def beside_edits(self, single: Callable[[], int]) -> None:
        stop, made = threading.Event(), [0]

        def edit() -> None:
            with self.connect() as editor:
                while not stop.is_set():
                    assert editor.ask(f"dacl / D:(A;OICI;{'FR' if made[0] % 2 else 'FA'};;;BU)") == "ok"
                    assert editor.ask("publish").startswith("published")
                    made[0] += 1

        thread = threading.Thread(target=edit)
        thread.start()
        times = []
        end = time.monotonic() + 2 * SECONDS
        while time.monotonic() < end:
            began = time.perf_counter()
            single()
            times.append(time.perf_counter() - began)
        stop.set()
        thread.join()
        parts = statistics.quantiles(times, n=1000)
        edits = made[0] / (2 * SECONDS)
        say(f"a check beside {edits:.0f} edits a second at the root of a full tree: median, 99 of 100, most",
            f"{parts[499] * 1e3:.2f}, {parts[989] * 1e3:.1f}, {max(times) * 1e3:.1f} ms")

    def idle(self) -> None:
        resource.setrlimit(resource.RLIMIT_NOFILE, (4096, resource.getrlimit(resource.RLIMIT_NOFILE)[1]))
        for where, connect in (("", lambda: rig.connected(self.lines)), (" over TLS", self.over_tls)):
            self.start("connections_of_client = 1_000", more=self.tls)
            before = self.memory()
            with contextlib.ExitStack() as stack:
                for _ in range(1000):
                    client = stack.enter_context(connect())
                    client.sendall(b"x tell\n")
                    assert client.recv(100).startswith(b"x told ")
                say(f"memory of 1,000 idle connections{where}", f"{(self.memory() - before) / 1024:.1f} MiB")
            self.stop()

    def reviews(self) -> None:
        """An administrator's review beside those of checkers, which are asked for over and over."""
        os.rename(self.store, self.room / "full")
        own = "(A;;FR;;;S-1-5-21-1-2-3-%d)"
        lines = "".join(f"addo /{node} O:BAG:SYD:{own % node}\n" for node in range(CHANGED))
        self.make(f"open 1 O:BAG:SYD:(A;OICI;FR;;;BU)\n{lines}publish\n")
        self.start(more=self.tls)
        with self.connect() as asked:
            assert asked.ask("dacl / D:(A;OICI;FA;;;BU)") == "ok"
            self.whole(asked, "review", f"that changes {CHANGED:,} nodes")
            stop = threading.Event()
            others = [threading.Thread(target=self.review_until, args=(stop, name)) for name in CHECKERS]
            for each in others:
                each.start()
            self.whole(asked, "review", f"beside those of {len(CHECKERS)} check clients")
            stop.set()
            for each in others:
                each.join()
        self.stop()

    def review_until(self, stop: threading.Event, name: str) -> None:
        """Asks for reviews, whether they are late or not."""
        with self.over_tls(name) as client:
            while not stop.is_set():
                client.sendall(b"x review\n")
                said = b""
                while not said.endswith(b"\nx \n"):
                    said = said[-4:] + client.recv(1 << 16)

    def memory(self) -> int:
        assert self.process is not None
        lines = Path(f"/proc/{self.process.pid}/status").read_text().splitlines()
        return next(int(line.split()[1]) for line in lines if line.startswith("VmRSS"))


if __name__ == "__main__":
    costs = Costs()
    costs.setUp()
    try:
        costs.run_all(sys.argv[1] if sys.argv[1:] else None)
    finally:
        costs.doCleanups()
