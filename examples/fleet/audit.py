#!/usr/bin/env python3
"""Audits many descriptors on a cluster of Dask, and compares its answers with those of this one process.

    audit.py [COUNT] [--scheduler ADDRESS] [--workers N]

Without an address the cluster is one of N processes on this machine, which ends with the audit. Each worker calls
libhudarin. Prints how often each answer came, the first cases whose texts were refused, and a digest of all answers in
order; status 1 if those of one process differ.
"""

import argparse
import hashlib
import os
import pathlib
import sys
import tempfile
import time
from collections import Counter
from collections.abc import Iterator, Sequence
from contextlib import contextmanager

from distributed import Client, LocalCluster, WorkerPlugin

TOP = pathlib.Path(__file__).resolve().parent.parent.parent
sys.path.append(str(TOP / "bindings/python"))

import auditing  # noqa: E402 (these require the wrapper of the library)
import cases  # noqa: E402
import hudarin  # noqa: E402
from auditing import Share  # noqa: E402

#: How many cases are a share. The digest is of the shares' digests, so it is the same for any number of workers.
AT_ONCE = 10_000
#: How many refused cases are printed.
PRINTED = 5


class Modules(WorkerPlugin):
    """The modules, written into a folder of the worker before it gets its first share, also where it joins later.

    Each is imported once: a module that is loaded again has other classes than those of the objects that exist.
    """

    name = "fleet-modules"

    def __init__(self, texts: dict[str, str]) -> None:
        """The texts by the paths of their files. A plugin is sent by value, so it refers to none of the modules."""
        self._texts = texts

    def setup(self, worker) -> None:
        folder = pathlib.Path(worker.local_directory, self.name)
        for path, text in self._texts.items():
            (folder / path).parent.mkdir(parents=True, exist_ok=True)
            (folder / path).write_text(text)
        sys.path.insert(0, str(folder))


@contextmanager
def local_client(workers: int) -> Iterator[Client]:
    """A cluster of processes on this machine, whose library is the one of bindings/build unless another is named."""
    os.environ.setdefault("HUDARIN_LIBRARY", str(TOP / "bindings/out/libhudarin.so"))
    with tempfile.TemporaryDirectory(prefix="fleet.") as folder:
        place = {"dashboard_address": None, "local_directory": folder}
        with LocalCluster(n_workers=workers, threads_per_worker=1, processes=True, **place) as cluster:
            with Client(cluster) as client:
                yield client


def by_cluster(client: Client, ranges: Sequence[range]) -> list[Share]:
    """The shares of the ranges, each by whichever worker is free."""
    client.wait_for_workers(1)
    texts = {module.__name__ + ".py": pathlib.Path(module.__file__).read_text() for module in (cases, auditing)}
    texts |= {f"hudarin/{file.name}": file.read_text() for file in pathlib.Path(hudarin.__file__).parent.glob("*.py")}
    client.register_worker_plugin(Modules(texts))
    return client.gather([client.submit(auditing.share, each.start, each.stop) for each in ranges])


def by_this_process(ranges: Sequence[range]) -> list[Share]:
    return [auditing.share(each.start, each.stop) for each in ranges]


def told(shares: Sequence[Share]) -> str:
    counts = sum((share.counts for share in shares), Counter())
    digest = hashlib.sha256(b"".join(share.digest for share in shares))
    return f"{', '.join(f'{count} {kind}' for kind, count in sorted(counts.items()))}; digest {digest.hexdigest()[:16]}"


def refused(shares: Sequence[Share]) -> list[str]:
    """The first cases whose texts were refused, each in a line."""
    found = [each for share in shares for each in share.refused]
    return [f"case {number}: {text}" for number, text in found[:PRINTED]]


def timed(who: str, work, *arguments) -> list[Share]:
    """What the work returns; prints its sum, and its time."""
    began = time.monotonic()
    shares = work(*arguments)
    print(f"{who}: {told(shares)}; {time.monotonic() - began:.1f} s", flush=True)
    return shares


def main() -> int:
    parser = argparse.ArgumentParser(description=__doc__.splitlines()[0])
    parser.add_argument("count", nargs="?", type=int, default=1_000_000, metavar="COUNT")
    parser.add_argument("--scheduler", metavar="ADDRESS", help="as tcp://HOST:8786")
    parser.add_argument("--workers", type=int, default=2, metavar="N")
    arguments = parser.parse_args()
    ranges = [range(first, min(first + AT_ONCE, arguments.count)) for first in range(0, arguments.count, AT_ONCE)]
    with Client(arguments.scheduler) if arguments.scheduler else local_client(arguments.workers) as client:
        client.wait_for_workers(1 if arguments.scheduler else arguments.workers)
        print(f"{len(client.scheduler_info()['workers'])} workers", flush=True)
        fleet = timed("the cluster", by_cluster, client, ranges)
    one = timed("one process", by_this_process, ranges)
    for line in refused(one):
        print(line)
    for each, mine, theirs in zip(ranges, one, fleet, strict=True):
        if mine != theirs:
            print(f"cases {each.start} to {each.stop - 1}: their answers differ")
            return 1
    return 0


if __name__ == "__main__":
    sys.exit(main())
