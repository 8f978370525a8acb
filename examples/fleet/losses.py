#!/usr/bin/env python3
"""Tests audits whose workers die and join, audits by each number of workers, and cases with invalid texts.

    losses.py [COUNT]

Prints a line for each test that fails, and as the last line how many passed and failed.
"""

import json
import os
import re
import shutil
import subprocess
import sys
import tempfile
import time
from contextlib import ExitStack
from pathlib import Path

from distributed import Client

TOP = Path(__file__).resolve().parent.parent.parent
HERE = TOP / "examples/fleet"
#: The seconds that a cluster may take: far more than it does, as the machine may be busy.
PATIENCE = 1200
os.environ.setdefault("HUDARIN_LIBRARY", str(TOP / "bindings/out/libhudarin.so"))

passed = failed = 0


def holds(what: str, is_so: object, got: object) -> None:
    global passed, failed
    if is_so:
        passed += 1
    else:
        failed += 1
        print(f"{what}: {got}")


def eventually(value, goes_on=lambda: True):
    """The first value that is true; the last one after PATIENCE, or where it doesn't go on."""
    until = time.monotonic() + PATIENCE
    while not (found := value()) and time.monotonic() < until and goes_on():
        time.sleep(0.02)
    return found


class Cluster:
    """A scheduler, and workers that nobody starts again when they die. No module of the audit is in their folder."""

    def __init__(self, folder: str) -> None:
        self._folder = folder
        self._file = Path(folder, "scheduler.json")
        self._workers: list[subprocess.Popen] = []
        self._scheduler = self._started("scheduler", "--port", "0", "--dashboard-address", "127.0.0.1:0")
        eventually(self._file.exists)
        self.address = eventually(self._read_address)

    def __enter__(self) -> "Cluster":
        return self

    def __exit__(self, *_: object) -> None:
        for process in (*self._workers, self._scheduler):
            process.kill()
            process.wait()

    def _read_address(self) -> str:
        try:
            return json.loads(self._file.read_text())["address"]
        except ValueError:
            return ""

    def _started(self, kind: str, *words: str) -> subprocess.Popen:
        command = [sys.executable, "-m", f"distributed.cli.dask_{kind}", "--host", "127.0.0.1"]
        command += ["--scheduler-file", str(self._file), *words]
        with Path(self._folder, f"{kind}.log").open("a") as log:
            return subprocess.Popen(command, cwd=self._folder, stdin=subprocess.DEVNULL, stdout=log, stderr=log)

    def start_worker(self) -> None:
        words = "--no-nanny", "--no-dashboard", "--nthreads", "1", "--local-directory", self._folder
        self._workers.append(self._started("worker", *words))

    def kill_worker(self) -> None:
        """Kills the one that was started first."""
        worker = self._workers.pop(0)
        worker.kill()
        worker.wait()


def audited(where: Path, *words: str) -> "tuple[int, str]":
    """The status of an audit, and what it prints."""
    command = [sys.executable, str(where / "audit.py"), *words]
    run = subprocess.run(command, capture_output=True, text=True, timeout=PATIENCE, check=False)
    return run.returncode, run.stdout + run.stderr[-600:]


def shares_done(dask_scheduler) -> "tuple[int, int]":
    """How many shares are done, and how many there are; it runs in the scheduler."""
    states = [task.state for task in dask_scheduler.tasks.values()]
    return sum(state == "memory" for state in states), len(states)


def some_done(client: Client) -> "tuple[int, int] | None":
    done, shares = client.run_on_scheduler(shares_done)
    return (done, shares) if done >= 2 else None


def copied(folder: str, module: str, more: str) -> Path:
    """A copy of the audit, in which one of its modules has more text."""
    there = Path(folder, "examples/fleet")
    shutil.copytree(HERE, there, ignore=shutil.ignore_patterns("__pycache__"))
    Path(folder, "bindings").symlink_to(TOP / "bindings")
    with (there / f"{module}.py").open("a") as text:
        text.write(more)
    return there


def with_losses(count: int) -> None:
    """One of two workers is killed and another joins while shares are worked out: the audit's answers are the same.
    Shares behind the first wait until that has happened."""
    with ExitStack() as stack:
        folder = stack.enter_context(tempfile.TemporaryDirectory(prefix="fleet."))
        lost = Path(folder, "lost")
        there = copied(
            folder,
            "auditing",
            "\nimport pathlib, time\n"
            "_share = share\n"
            "def share(first, end):\n"
            f"    while first >= {count // 2} and not pathlib.Path({str(lost)!r}).exists():\n"
            "        time.sleep(0.01)\n"
            "    return _share(first, end)\n",
        )
        cluster = stack.enter_context(Cluster(folder))
        cluster.start_worker()
        cluster.start_worker()
        client = stack.enter_context(Client(cluster.address))
        client.wait_for_workers(2)
        with Path(folder, "audit.out").open("w") as out:
            command = [sys.executable, str(there / "audit.py"), str(count), "--scheduler", cluster.address]
            audit = subprocess.Popen(command, stdin=subprocess.DEVNULL, stdout=out, stderr=out)

        try:
            done, shares = eventually(lambda: some_done(client), lambda: audit.poll() is None) or (0, 0)
            before = set(client.scheduler_info()["workers"])
            cluster.kill_worker()
            cluster.start_worker()
            holds("shares are left at the loss", 2 <= done < shares, (done, shares))
            joined = eventually(lambda: len(after := set(client.scheduler_info()["workers"])) == 2 and after != before)
            holds("another worker joins", joined, client.scheduler_info())
            lost.touch()
            status = audit.wait(PATIENCE)
        finally:
            audit.kill()
        told = Path(folder, "audit.out").read_text()
        digests = re.findall("digest ([0-9a-f]{16})", told)
        holds("an audit with losses", status == 0 and len(digests) == 2 and digests[0] == digests[1], told[-1500:])


def by_each_number() -> None:
    for workers in (1, 3):
        status, told = audited(HERE, "20000", "--workers", str(workers))
        holds(f"--workers {workers}", status == 0 and told.startswith(f"{workers} workers\n"), told)


def invalid_texts() -> None:
    """An invalid user, group or descriptor is refused and named, and all other cases are answered."""
    with tempfile.TemporaryDirectory(prefix="fleet.") as folder:
        there = copied(
            folder,
            "cases",
            "\n_case, _groups_of = case, groups_of\n"
            "BAD = {7: ('user', 'S-1-x'), 11: ('user', 'S-1-5-21-7'), 12345: ('descriptor', 'O:nobody')}\n"
            "def case(number):\n"
            "    found = _case(number)\n"
            "    return Case(**{**found.__dict__, **dict([BAD[number]])}) if number in BAD else found\n"
            "def groups_of(user):\n"
            "    return (('S-1-y', 4),) if user == 'S-1-5-21-7' else _groups_of(user)\n",
        )
        status, told = audited(there, "20000")
        holds("an audit with invalid texts", status == 0 and ", 3 refused;" in told, told)
        for line in ("case 7: refused .* user S-1-x", "case 11: refused .* S-1-5-21-7", "case 12345: refused .*nobody"):
            holds(f"the line {line}", re.search(f"(?m)^{line}", told), told)


def main(count: int) -> int:
    invalid_texts()
    by_each_number()
    with_losses(count)
    print(f"{passed} passed, {failed} failed")
    return 1 if failed else 0


if __name__ == "__main__":
    sys.exit(main(int(sys.argv[1]) if sys.argv[1:] else 100_000))
