#!/usr/bin/env python3
"""
Processes of four users try every operation on a tree of 200 nodes with twelve kinds of descriptors, and each outcome is
compared with the model's: where descriptors are attributes of the folder's own files, and where a file beside it has them.

    operations.py SDSTORE [CHANGES]
"""

import os
import random
import subprocess
import sys

from calls import CALLS
from model import APPEND, EXECUTE, READ, READ_CONTROL, WRITE, WRITE_ATTRIBUTES, Model
from rig import ALICE, BOB, CAROL, ROOT, USERS, WAYS_TO_KEEP, Caller, Mount, Tally

ROOTS = "O:S-1-22-1-0G:S-1-22-2-0D:P(A;OICI;FA;;;S-1-22-1-0)(A;OICI;0xa0;;;WD)(A;;0x7;;;AU)"
KINDS = [
    "D:",
    "D:(A;;FR;;;%s)" % ALICE.sid,
    "D:(A;;FW;;;%s)(A;;0x80;;;WD)" % BOB.sid,
    "D:P(A;;FA;;;WD)",
    "D:(D;;FW;;;S-1-22-2-63010)(A;;FA;;;AU)",
    "D:(A;OICIIO;FA;;;CO)(A;;0x1200af;;;WD)",
    "D:P(A;OICI;0x1200a9;;;S-1-22-2-63001)(A;OICI;FA;;;%s)" % CAROL.sid,
    "D:NO_ACCESS_CONTROL",
    "D:P",
    "D:(A;;0x10002;;;%s)(A;;0x44;;;%s)(A;OI;0x1;;;WD)" % (BOB.sid, ALICE.sid),
    "D:(A;CINP;0x6;;;WD)(A;;0x4;;;%s)" % CAROL.sid,
    "D:(A;;RC;;;S-1-3-4)(A;OICI;FX;;;WD)(A;OICI;GR;;;S-1-22-2-63020)",
]
WAYS = ["create", "create", "mkdir", "unlink", "rmdir", "rename", "rename", "onto", "set", "set", "give"]
OWNERS = [ROOT.sid, ALICE.sid, BOB.sid, CAROL.sid, "S-1-22-2-63010"]


def grow(chance: random.Random, count: int) -> list:
    """(kind, path, descriptor) of so many nodes, each behind its parent."""
    folders, nodes = ["/"], []
    for number in range(count):
        kind = "folder" if number % 3 == 0 else "file"
        parent = chance.choice(folders)
        path = "%s/%s%d" % (parent.rstrip("/"), kind[1], number)
        if kind == "folder" and path.count("/") < 6:
            folders.append(path)
        nodes.append((kind, path, "O:%sG:S-1-22-2-63001%s" % (OWNERS[number % 5], KINDS[number // 3 % 12])))
    return nodes


def plant(mount: Mount, nodes: list, program: str) -> None:
    """FOLDER, with the attributes or the file beside it that a server would have left."""
    lines, known = ["hudarinfs 1", "folder / " + ROOTS], {}
    for kind, path, text in nodes:
        if kind == "folder":
            os.mkdir(mount.folder + path, 0o700)
        else:
            with open(mount.folder + path, "w", encoding="utf-8") as file:
                file.write(path)
        lines.append("%s %s %s" % (kind, path, text))
    if mount.in_file:
        with open(mount.kept, "w", encoding="utf-8") as file:
            file.write("\n".join(lines + ["end", ""]))
        return
    for _, path, text in [("folder", "", ROOTS)] + nodes:
        if text not in known:
            known[text] = bytes.fromhex(subprocess.check_output([program, "tobin", text], text=True))
        os.setxattr(mount.folder + path, "user.hudarin.own", known[text])


def look(tally: Tally, mount: Mount, model: Model, caller: Caller) -> None:
    """Each operation that leaves the tree as it is, on each node."""
    user = caller.user
    masks = {"text": READ_CONTROL, "bytes": READ_CONTROL, "times": WRITE_ATTRIBUTES}
    of_files = {"read": READ, "write": WRITE, "append": APPEND, "both": READ | WRITE, "run": EXECUTE, "shorten": WRITE,
                "empty": WRITE, "empty_to_read": READ | WRITE}
    of_folders = {"list": READ, "enter": EXECUTE}
    for path, kind in list(model.kinds.items()):
        for name, mask in {**masks, **(of_files if kind == "file" else of_folders)}.items():
            said, found = caller.call(name, mount.path(path))
            tally.same("%s: %s %s" % (user.name, name, path), said, model.asked(user, path, mask))
            if said == "ok" and name == "text":
                tally.same("%s: the text of %s" % (user.name, path), found, model.show(path))
            if said == "ok" and name == "list":
                tally.same("%s: the names of %s" % (user.name, path), found, model.children(path))
        for how, mask in ((os.R_OK, READ), (os.W_OK, WRITE), (os.X_OK, EXECUTE), (os.R_OK | os.W_OK, READ | WRITE)):
            wanted = "ok" if model.asked(user, path, mask) == "ok" else "EACCES"
            said = caller.call("may", mount.path(path), how)[0]
            tally.same("%s: access %d %s" % (user.name, how, path), said, wanted)
        tally.same("%s: stat %s" % (user.name, path), caller.call("stat", mount.path(path))[0], model.stat(user, path))
        wanted = model.stat(user, path)
        said = caller.call("mode", mount.path(path))[0]
        tally.same("%s: chmod %s" % (user.name, path), said, "EPERM" if wanted == "ok" else wanted)


class Changes:
    """Operations by chance, of those that change the tree."""

    def __init__(self, chance: random.Random, mount: Mount, model: Model) -> None:
        self.chance, self.mount, self.model, self.number = chance, mount, model, 0

    def any(self, kind: str = "") -> str:
        paths = [path for path, found in self.model.kinds.items() if found.startswith(kind) and path != "/"]
        return self.chance.choice(paths or ["/none"])

    def fresh(self) -> str:
        self.number += 1
        parent = self.chance.choice(["", self.any("folder"), self.any("folder"), self.any("file")])
        return "%s/n%d" % (parent, self.number)

    def one(self, caller: Caller) -> tuple:
        """(what was tried, its outcome, the model's)"""
        way = self.chance.choice(WAYS)
        user, at = caller.user, self.mount.path
        if way in ("create", "mkdir"):
            path = self.fresh() if self.chance.random() < 0.9 else self.any()
            wanted = self.model.create(user, path, "file" if way == "create" else "folder")
            return (way, path), caller.call(way, at(path))[0], wanted
        if way in ("unlink", "rmdir"):
            path = self.any()
            wanted = self.model.remove(user, path, "file" if way == "unlink" else "folder")
            return (way, path), caller.call(way, at(path))[0], wanted
        if way in ("rename", "onto"):
            source, target = self.any(), self.fresh() if way == "rename" else self.any()
            wanted = self.model.rename(user, source, target)
            return (way, source, target), caller.call("rename", at(source), at(target))[0], wanted
        path = self.any()
        if way == "set":
            text = self.chance.choice(KINDS)
            wanted = self.model.give_list(user, path, text)
            return (way, path, text), caller.call("set", at(path), text)[0], wanted
        owner = self.chance.choice(USERS)
        wanted = self.model.give_owner(user, path, owner.sid)
        return (way, path, owner.name), caller.call("give", at(path), owner.uid, -1)[0], wanted


def same_trees(tally: Tally, mount: Mount, model: Model, callers: list) -> None:
    """Each node whose descriptor anybody may read has the model's; and FOLDER has the model's nodes and no more."""
    found = set()
    for above, folders, files in os.walk(mount.folder):
        for name in folders + files:
            found.add(os.path.join(above, name)[len(mount.folder):])
    tally.same("the nodes of FOLDER", sorted(found), sorted(path for path in model.kinds if path != "/"))
    for path in model.kinds:
        for caller in callers:
            if model.asked(caller.user, path, READ_CONTROL) == "ok":
                tally.same("the descriptor of " + path, caller.call("text", mount.path(path)), ("ok", model.show(path)))
                break


def try_all(tally: Tally, program: str, changes: int, in_file: bool) -> None:
    chance, mount = random.Random(31 + in_file), Mount(in_file=in_file)
    nodes = grow(chance, 200)
    plant(mount, nodes, program)
    model = Model(program, ROOTS)
    for kind, path, text in nodes:
        tally.same("the script", model.edit("%s %s %s" % ("addc" if kind == "folder" else "addo", path, text)), "ok")
    callers = [Caller(user, CALLS) for user in USERS]
    try:
        if tally.holds(mount.start(), "the start", mount.said() if os.path.exists(mount.log) else ""):
            tally.holds("nothing was kept" not in mount.said(), "what was kept", mount.said())
            for caller in callers:
                look(tally, mount, model, caller)
            tries = Changes(chance, mount, model)
            counts = {}
            for _ in range(changes):
                tried, said, wanted = tries.one(chance.choice(callers))
                counts[wanted] = counts.get(wanted, 0) + 1
                tally.same("change %s" % (tried,), said, wanted)
            print("changes: " + ", ".join("%s %d" % pair for pair in sorted(counts.items())))
            same_trees(tally, mount, model, callers)
            mount.end(tally)
            tally.holds(mount.start(), "the second start", mount.said())
            same_trees(tally, mount, model, callers)
            look(tally, mount, model, callers[2])
            mount.end(tally, "the status behind that")
    finally:
        for caller in callers:
            caller.close()
        model.close()
        mount.close()


def main(program: str, changes: int) -> int:
    tally = Tally()
    for in_file in WAYS_TO_KEEP:
        try_all(tally, program, changes, in_file)
    return tally.close()


if __name__ == "__main__":
    sys.exit(main(sys.argv[1], int(sys.argv[2]) if len(sys.argv) > 2 else 1000))
