#!/usr/bin/env python3
"""
Eight processes of four users open and read, while a ninth changes descriptors and renames folders. No outcome may be
one that none of the states explains that held between the call's begin and its end. Where FOLDER has changed and the
view hasn't the server waits 2 ms, so that readers come between if they can.

    changes.py SDSTORE [SECONDS]
"""

import collections
import ctypes
import errno
import mmap
import os
import sys
import time

from calls import CALLS
from model import READ, Model
from rig import ALICE, BOB, CAROL, LONGEST, ROOT, USERS, Caller, Mount, Tally, become

SEEN = "(A;OICI;FA;;;S-1-22-1-0)(A;OICI;0xa0;;;WD)"
ROOTS = "O:S-1-22-1-0G:S-1-22-2-0D:P%s(A;OICI;0x1;;;AU)" % SEEN
FILES = 4
# A round: behind the last edit all is as before the first.
ROUND = [
    ("set", "/a", "D:P%s(A;OICI;0x1;;;%s)" % (SEEN, ALICE.sid)),
    ("rename", "/a", "/b/a"),
    ("set", "/b", "D:P%s(A;OICI;0x1;;;%s)" % (SEEN, BOB.sid)),
    ("set", "/b/a", "D:(A;OICI;0x1;;;S-1-22-2-63002)"),
    ("rename", "/b/a", "/c/a"),
    ("set", "/c", "D:P(D;OICI;0x1;;;%s)%s(A;OICI;0x1;;;AU)" % (CAROL.sid, SEEN)),
    ("set", "/b", "D:"),
    ("rename", "/c/a", "/a"),
    ("set", "/c", "D:"),
    ("rename", "/c", "/d"),
    ("rename", "/d", "/c"),
    ("set", "/a", "D:"),
]
PATHS = ["%s/f%d" % (folder, number) for folder in ("/a", "/b/a", "/c/a", "/b", "/c", "/d") for number in range(FILES)]


# What the readers have to meet, each so many times: the test goes on for as long as they haven't.
WANTED, LEAST = ("ok", "EACCES", "ENOENT", "listings"), 51


def lines(edit: tuple) -> str:
    return "%s %s %s" % ("move" if edit[0] == "rename" else "dacl", edit[1], edit[2])


def named(path: str) -> str:
    """The file's name: by the folder that it stood in at first."""
    folder, name = path.split("/")[-2:]
    return ("c" if folder == "d" else folder) + name


def states(program: str, tally: Tally) -> list:
    """For each state {path: the file's name}, {(user, file): granted}, and the root's names."""
    model, found = Model(program, ROOTS), []
    for folder in ("/a", "/b", "/c"):
        tally.same("the script", model.edit("addc %s O:S-1-22-1-0G:S-1-22-2-0D:" % folder), "ok")
        for number in range(FILES):
            tally.same("the script", model.edit("addo %s/f%d O:S-1-22-1-0G:S-1-22-2-0D:" % (folder, number)), "ok")
    for edit in ROUND + [None]:
        at = {path: named(path) for path in model.kinds if model.kinds[path] == "file"}
        grants = {(user.name, name): model.grants(user, path, READ) for user in USERS for path, name in at.items()}
        found.append((at, grants, model.children("/")))
        if edit is not None:
            tally.same("the script", model.edit(lines(edit)), "ok")
    model.close()
    tally.same("a round ends as it began", found[-1], found[0])
    return found[:-1]


def window_of(all_states: list, first: int, last: int) -> list:
    """The states from the one to the other."""
    return [all_states[number % len(all_states)] for number in range(first, min(last, first + len(all_states)) + 1)]


def explained(window: list, user: str, path: str, said: str) -> bool:
    """Whether a look-up in one of the states, and an open in one of them, give this."""
    for at, _, _ in window:
        name = at.get(path)
        if name is None:
            if said == "ENOENT":
                return True
            continue
        for _, grants, _ in window:
            if said == (name if grants[user, name] else "EACCES"):
                return True
    return False


def read_whole(path: str) -> str:
    """The file's name, which is what it holds, or the error."""
    try:
        file = os.open(path, os.O_RDONLY)
    except OSError as error:
        return errno.errorcode[error.errno]
    found = os.read(file, 64).decode()
    os.close(file)
    return found


def reader(user, mount: Mount, all_states: list, clock, number: int, report: int) -> None:
    """Reads until the clock says to stop; tells what was met."""
    become(user)
    met, wrong, turn = collections.Counter(), [], number
    while clock[2] == 0:
        path = PATHS[turn % len(PATHS)]
        turn += 7
        first = clock[1]
        said = read_whole(mount.path(path))
        last = clock[0]
        met[said if said.startswith("E") else "ok"] += 1
        for place, name in enumerate(WANTED):
            clock[3 + number * len(WANTED) + place] = met[name]
        if not explained(window_of(all_states, first, last), user.name, path, said):
            wrong.append((user.name, path, first, last, said))
        if turn % 4 != 0:
            continue
        first = clock[1]
        names = sorted(os.listdir(mount.at))
        last = clock[0]
        met["listings"] += 1
        if all(names != there for _, _, there in window_of(all_states, first, last)):
            wrong.append((user.name, "/", first, last, names))
    os.write(report, repr((dict(met), wrong[:5])).encode())
    os._exit(0)


def change(tally: Tally, mount: Mount, clock, seconds: float) -> int:
    """The ninth: an edit counts as begun before its call, and as done behind its answer."""
    writer, made, began = Caller(ROOT, CALLS), 0, time.monotonic()

    def is_enough() -> bool:
        return made > 20 and all(sum(clock[3 + place::len(WANTED)]) >= LEAST for place in range(len(WANTED)))
    while time.monotonic() < began + seconds or (not is_enough() and time.monotonic() < began + seconds + LONGEST):
        edit = ROUND[made % len(ROUND)]
        words = (edit[0], mount.path(edit[1]), mount.path(edit[2]) if edit[0] == "rename" else edit[2])
        clock[0] = made + 1
        tally.same("edit %s" % (edit,), writer.call(*words)[0], "ok")
        clock[1] = made + 1
        made += 1
    writer.close()
    return made


def main(program: str, seconds: float) -> int:
    tally, mount = Tally(), Mount()
    all_states = states(program, tally)
    clock = (ctypes.c_uint64 * (3 + 8 * len(WANTED))).from_buffer(mmap.mmap(-1, mmap.PAGESIZE))
    for folder in ("/a", "/b", "/c"):
        os.mkdir(mount.folder + folder)
        for number in range(FILES):
            with open("%s%s/f%d" % (mount.folder, folder, number), "w", encoding="utf-8") as file:
                file.write("%sf%d" % (folder[1:], number))
    try:
        if tally.holds(mount.start(ROOTS, options=("-u",), wait=2000), "the start", mount.said()):
            pipes = []
            for number in range(8):
                ours, theirs = os.pipe()
                if os.fork() == 0:
                    reader(USERS[number % 4], mount, all_states, clock, number, theirs)
                os.close(theirs)
                pipes.append(ours)
            made = change(tally, mount, clock, seconds)
            clock[2] = 1
            met = collections.Counter()
            for ours in pipes:
                counts, wrong = eval(os.read(ours, 65536).decode())  # (our own reader's)
                met.update(counts)
                tally.holds(not wrong, "outcomes that no state explains", wrong)
                os.wait()
            print("%d edits beside %s" % (made, dict(met)))
            for wanted in WANTED:
                tally.holds(met[wanted] >= LEAST, "hardly any " + wanted, dict(met))
            tally.holds(made > 20, "hardly any edits", made)
            mount.end(tally)
    finally:
        mount.close()
    return tally.close()


if __name__ == "__main__":
    sys.exit(main(sys.argv[1], float(sys.argv[2]) if len(sys.argv) > 2 else 20))
