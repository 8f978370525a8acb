#!/usr/bin/env python3
"""
The server is killed by SIGKILL in the midst of edits, so many times and then once at each step of each kind of edit,
and started anew each time. Behind each start the tree is that of all edits that were answered, or of these and the one
more that was asked: names and descriptors.

    kills.py SDSTORE [KILLS]
"""

import os
import random
import sys
import threading

from calls import CALLS
from model import Model, above
from rig import ALICE, ROOT, WAYS_TO_KEEP, Caller, Mount, Tally

ROOTS = "O:S-1-22-1-0G:S-1-22-2-0D:P(A;OICI;FA;;;S-1-22-1-0)(A;OICI;FR;;;WD)"
OWN = "O:S-1-22-1-0G:S-1-22-2-0D:"
LISTS = ["D:", "D:(A;OICI;FX;;;AU)", "D:P(A;OICI;FA;;;S-1-22-1-0)", "D:(D;OICI;WP;;;S-1-22-1-5)(A;OICI;FW;;;CO)",
         "D:P(A;OICI;FA;;;S-1-22-1-0)(A;OICI;FR;;;S-1-22-2-7)"]
WAYS = ["create", "mkdir", "unlink", "rmdir", "rename", "rename", "onto", "set", "set", "give"]
# What a call meets whose server is gone.
GONE = ("ENOTCONN", "ECONNABORTED", "EIO")


class Edits:
    """Edits by chance that root is granted: the call, and the script's lines for it."""

    def __init__(self, chance: random.Random, model: Model) -> None:
        self.chance, self.model, self.number = chance, model, 0

    def some(self, kind: str) -> str:
        paths = [path for path, found in self.model.kinds.items() if found == kind and (path != "/" or kind == "any")]
        return self.chance.choice(paths) if paths else ""

    def place(self) -> str:
        self.number += 1
        folders = [path for path, found in self.model.kinds.items() if found == "folder" and path.count("/") < 6]
        return "%s/n%d" % (self.chance.choice(folders).rstrip("/"), self.number)

    def next(self) -> tuple:
        while True:
            way = self.chance.choice(WAYS)
            file, folder, place = self.some("file"), self.some("folder"), self.place()
            few = len(self.model.kinds) < 12
            if way in ("create", "mkdir") and len(self.model.kinds) < 40:
                return (way, place), ["%s %s %s" % ("addo" if way == "create" else "addc", place, OWN)]
            if way == "unlink" and file and not few:
                return (way, file), ["remove " + file]
            if way == "rmdir" and folder and not self.model.children(folder):
                return (way, folder), ["remove " + folder]
            source = self.chance.choice([file, folder])
            if way == "rename" and source and not (above(place) + "/").startswith(source + "/"):
                return (way, source, place), ["move %s %s" % (source, place)]
            other = self.some("file")
            if way == "onto" and file and other != file and not few:
                return ("rename", file, other), ["remove " + other, "move %s %s" % (file, other)]
            node, text = self.chance.choice(list(self.model.kinds)), self.chance.choice(LISTS)
            if way == "set" and node != "/":
                return (way, node, text), ["dacl %s %s" % (node, text)]
            if way == "give" and source:
                gid = self.chance.randrange(9)
                return (way, source, -1, gid), ["group %s S-1-22-2-%d" % (source, gid)]


def seen(mount: Mount) -> dict:
    """{path: its descriptor's text}"""
    found = {"/": os.getxattr(mount.at, "user.hudarin.sddl").decode()}
    for folder, folders, files in os.walk(mount.at):
        for name in folders + files:
            path = os.path.join(folder, name)
            found[path[len(mount.at):]] = os.getxattr(path, "user.hudarin.sddl").decode()
    return found


def wanted(model: Model) -> dict:
    return {path: model.show(path) for path in model.kinds}


def edit_until_killed(tally: Tally, mount: Mount, caller: Caller, edits: Edits, counts: dict):
    """Edits, each behind the answer to the last, until the server is gone: the edit that it left without an answer."""
    killer, answered = threading.Timer(edits.chance.uniform(0, 0.02), mount._server.kill), edits.chance.randrange(1, 6)
    while True:
        if answered == 0:
            killer.start()
        answered -= 1
        call, lines = edits.next()
        said = ask(mount, caller, call)
        if said in GONE:
            killer.join()
            return call, lines
        counts["answered"] += 1
        tally.same("edit %s" % (call,), said, "ok")
        tally.same("line %s" % lines, edits.model.edit(*lines), "ok")


def kill_once(tally: Tally, mount: Mount, caller: Caller, edits: Edits, counts: dict) -> bool:
    call, lines = edit_until_killed(tally, mount, caller, edits, counts)
    mount.kill()
    if not tally.holds(mount.start(ROOTS), "a start behind a kill", mount.said()):
        return False
    found, before = seen(mount), wanted(edits.model)
    if found == before:
        counts["left undone"] += 1
        tally.holds(True, "")
    else:
        counts["done unanswered"] += 1
        tally.same("line %s" % lines, edits.model.edit(*lines), "ok")
        after = wanted(edits.model)
        differing = {path: (before.get(path), found.get(path), after.get(path)) for path in set(found) | set(after)
                     if found.get(path) != after.get(path)}
        return tally.holds(not differing, "behind a kill in %s" % (call,), differing)
    return True


MODIFY = "D:(A;OICI;FA;;;S-1-22-1-0)(A;OICI;0x1301bf;;;%s)" % ALICE.sid
# Behind SETTING each of these is granted, and goes through all the steps of its kind.
SETTING = [("mkdir", "/a"), ("mkdir", "/b"), ("mkdir", "/a/c"), ("create", "/a/c/f"), ("create", "/a/g"),
           ("create", "/b/h"), ("mkdir", "/e"), ("set", "/a", "D:(A;OICI;FX;;;AU)"),
           ("set", "/a/c/f", "D:(A;;FR;;;WD)"), ("set", "/b/h", "D:(A;;0x1;;;WD)"),
           ("set", "/b", "D:P(A;OICI;FA;;;S-1-22-1-0)"), ("mkdir", "/k"), ("mkdir", "/m"),
           ("set", "/k", MODIFY), ("set", "/m", "D:P" + MODIFY[2:]), ("mkdir", "/k/d"), ("create", "/k/d/f"),
           ("set", "/k/d", "D:(A;OICI;FR;;;AU)")]
STEPPED = [("create", "/b/n"), ("mkdir", "/b/n"), ("unlink", "/a/g"), ("rmdir", "/e"), ("rename", "/a", "/b/a"),
           ("rename", "/a/c/f", "/b/h"), ("rename", "/a/g", "/a/i"), ("rename", "/a/c", "/e"),
           ("set", "/a", "D:P(A;OICI;FA;;;S-1-22-1-0)"), ("give", "/a/g", -1, 7), ("keep", "/k/d", "/m/d")]
# An edit begins and ends by a step, and has some between: of a file beside FOLDER it is written, synced and renamed.
LEAST_STEPS = {False: 2, True: 6}


def script_lines(call: tuple, model: Model) -> list:
    """The script's lines for a call."""
    way, path, *rest = call
    if way in ("create", "mkdir"):
        return ["%s %s %s" % ("addo" if way == "create" else "addc", path, OWN)]
    if way == "keep":
        return ["protect " + path, "move %s %s" % (path, rest[0])]
    if way == "rename":
        return (["remove " + rest[0]] if rest[0] in model.kinds else []) + ["move %s %s" % (path, rest[0])]
    if way == "set":
        return ["dacl %s %s" % (path, rest[0])]
    return ["group %s S-1-22-2-%s" % (path, rest[1])] if way == "give" else ["remove " + path]


def ask(mount: Mount, caller: Caller, call: tuple) -> str:
    words = [mount.path(word) if isinstance(word, str) and word.startswith("/") else word for word in call]
    return caller.call(*words)[0]


def ask_once(mount: Mount, caller: Caller, call: tuple) -> str:
    """`keep` is a rename by a user who may not write the DACL of what is moved."""
    if call[0] != "keep":
        return ask(mount, caller, call)
    alice = Caller(ALICE, CALLS)
    said = ask(mount, alice, ("rename", *call[1:]))
    alice.close()
    return said


def kill_at(tally: Tally, program: str, caller: Caller, call: tuple, number: int, in_file: bool) -> str:
    """What the call met whose server was killed at that step: `ok` where it has no such step. Then it starts again."""
    mount, model = Mount(in_file=in_file), Model(program, ROOTS)
    try:
        tally.holds(mount.start(ROOTS), "the start", mount.said())
        for setting in SETTING:
            tally.same("the setting %s" % (setting,), ask(mount, caller, setting), "ok")
            tally.same("its line", model.edit(*script_lines(setting, model)), "ok")
        mount.end(tally)
        before = wanted(model)
        tally.holds(mount.start(ROOTS, step=number), "the start", mount.said())
        said = ask_once(mount, caller, call)
        mount.kill()
        tally.holds(mount.start(ROOTS), "a start behind step %d of %s" % (number, call), mount.said())
        found = seen(mount)
        lines, between = script_lines(call, model), before
        if call[0] == "keep" and not in_file:
            # (an attribute is one change, and the rename another)
            tally.same("the line", model.edit(lines.pop(0)), "ok")
            between = wanted(model)
        tally.same("the line", model.edit(*lines), "ok")
        after = wanted(model)
        is_held = found == after or (said != "ok" and found in (before, between))
        tally.holds(is_held, "behind step %d of %s" % (number, call), (said, found, before, after))
        mount.end(tally)
        return said
    finally:
        model.close()
        mount.close()


def kill_at_each_step(tally: Tally, program: str, caller: Caller, in_file: bool) -> None:
    count = 0
    for call in STEPPED:
        number = 1
        while kill_at(tally, program, caller, call, number, in_file) != "ok" and number < 40:
            number += 1
        tally.holds(LEAST_STEPS[in_file] < number < 40, "the steps of %s" % (call,), number)
        count += number - 1
    print("%d steps of %d edits" % (count, len(STEPPED)))


def kill(tally: Tally, program: str, kills: int, in_file: bool) -> None:
    chance, mount, model = random.Random(), Mount(in_file=in_file), Model(program, ROOTS)
    caller, counts = Caller(ROOT, CALLS), {"answered": 0, "left undone": 0, "done unanswered": 0}
    edits = Edits(chance, model)
    try:
        if tally.holds(mount.start(ROOTS, options=("-j", "24")), "the start", mount.said()):
            for _ in range(kills):
                if not kill_once(tally, mount, caller, edits, counts):
                    break
            print("%d kills, by %s: %s" % (kills, "a file" if in_file else "attributes", counts))
            tally.holds(counts["answered"] >= kills, "hardly any edits", counts)
            tally.same("what FOLDER has", sorted(os.listdir(mount.folder)), model.children("/"))
            tally.same("whether a file is beside it", os.path.exists(mount.kept), in_file)
            mount.end(tally)
            kill_at_each_step(tally, program, caller, in_file)
    finally:
        caller.close()
        model.close()
        mount.close()


def main(program: str, kills: int) -> int:
    tally = Tally()
    for in_file in WAYS_TO_KEEP:
        kill(tally, program, kills, in_file)
    return tally.close()


if __name__ == "__main__":
    sys.exit(main(sys.argv[1], int(sys.argv[2]) if len(sys.argv) > 2 else 50))
