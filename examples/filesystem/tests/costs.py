#!/usr/bin/env python3
"""
What the checks cost: an open and its close, a stat, and a listing of 100 names, of this file system and of the same one
built without checks, in turn. Nanoseconds, the least of the rounds, as other work on the machine only adds.

    costs.py [ROUNDS]
"""

import os
import sys
import time

from rig import ALICE, PLAIN, UNCHECKED, Mount, become, fail

ROOTS = "O:S-1-22-1-0G:S-1-22-2-0D:P(A;OICI;FA;;;S-1-22-1-0)(A;OICI;FR;;;WD)"
CALLS = 1000


def opened(path: str) -> None:
    os.close(os.open(path, os.O_RDONLY))


def each(call, path: str, count: int) -> float:
    began = time.perf_counter_ns()
    for _ in range(count):
        call(path)
    return (time.perf_counter_ns() - began) / count


def measure(mount: Mount, deep: str) -> list:
    """The times, taken by a process of another user."""
    ours, theirs = os.pipe()
    if os.fork() == 0:
        become(ALICE)
        rows = [each(opened, mount.path("/file"), CALLS), each(opened, mount.path(deep), CALLS),
                each(os.stat, mount.path("/file"), CALLS), each(os.listdir, mount.path("/many"), CALLS // 20)]
        os.write(theirs, repr(rows).encode())
        os._exit(0)
    os.wait()
    return [float(word) for word in os.read(ours, 1000).decode().strip("[]").split(",")]


def main(rounds: int) -> None:
    mount, deep = Mount(), "/a/b/c/d/file"
    os.makedirs(mount.folder + "/a/b/c/d")
    os.mkdir(mount.folder + "/many")
    for path in ["/file", deep] + ["/many/%d" % number for number in range(100)]:
        with open(mount.folder + path, "w", encoding="utf-8"):
            pass
    found = {PLAIN: [], UNCHECKED: []}
    try:
        for _ in range(rounds):
            for program, rows in found.items():
                mount.program = program
                if not mount.start(ROOTS, options=("-u",)):
                    fail(mount.said())
                rows.append(measure(mount, deep))
                mount.stop()
    finally:
        mount.close()
    print("%-28s %12s %12s" % ("", "checked", "unchecked"))
    for place, name in enumerate(("open and close /file", "open and close " + deep, "stat /file", "list 100 names")):
        print("%-28s %12.0f %12.0f" % (name, *(min(row[place] for row in rows) for rows in found.values())))


if __name__ == "__main__":
    main(int(sys.argv[1]) if len(sys.argv) > 1 else 15)
