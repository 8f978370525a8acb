#!/usr/bin/env python3
"""
What a user may not do to others: take over files by renames, take all open files or nodes, veto an administrator's
entries, forge or flood the log. What the server may not do: serve names whose descriptors a restore has lost, end by a
SIGHUP, need an unmount after a SIGKILL, fail by an unmount. The groups of tests with these names, or all.

    attacks.py [NAME ..]
"""

import ctypes
import os
import re
import resource
import shutil
import signal
import subprocess
import sys
import time

from calls import CALLS
from rig import ALICE, BOB, CAROL, ROOT, WAYS_TO_KEEP, Caller, Mount, Tally, until

ROOTS = "O:S-1-22-1-0G:S-1-22-2-0D:P(A;OICI;FA;;;S-1-22-1-0)(A;;0x1200a9;;;WD)"
# May do all but write the DACL and the owner, as Windows' Modify.
MODIFY = "0x1301bf"
OPENED = []


def hold(path: str, count: int) -> list:
    """Opens so many times, and keeps each open: how many it got, and the error of the next."""
    got = 0
    try:
        while got < count:
            OPENED.append(os.open(path, os.O_RDONLY))
            got += 1
    except OSError as error:
        return [got, error.errno]
    return [got, 0]


def let_go() -> None:
    while OPENED:
        os.close(OPENED.pop())


def denied_often(path: str, count: int) -> int:
    denied = 0
    for _ in range(count):
        denied += not os.access(path, os.W_OK)
    return denied


MORE = {**CALLS, "hold": hold, "let_go": let_go, "denied_often": denied_often}


class Room:
    """A mount, with a process of each user."""

    def __init__(self, in_file: bool = WAYS_TO_KEEP[0]) -> None:
        self.mount = Mount(in_file=in_file)
        self.root, self.alice, self.bob, self.carol = (Caller(user, MORE) for user in (ROOT, ALICE, BOB, CAROL))

    def close(self) -> None:
        for caller in (self.root, self.alice, self.bob, self.carol):
            caller.close()
        self.mount.close()

    def make(self, tally: Tally, way: str, path: str, text: str = "", by=None) -> None:
        """A node of root's, or of another's, with a list."""
        by = by or self.root
        tally.same("%s %s" % (way, path), by.call(way, self.mount.path(path))[0], "ok")
        if text:
            tally.same("the list of " + path, by.call("set", self.mount.path(path), text)[0], "ok")

    def said(self, by, *words) -> str:
        return by.call(*(self.mount.path(word) if isinstance(word, str) and word.startswith("/") else word
                         for word in words))[0]


def renames_by(tally: Tally, room: Room) -> None:
    """What a rename to another folder changes, of what the mover may not change by another call."""
    mount, said = room.mount, room.said
    share = "D:P(A;OICI;FA;;;S-1-22-1-0)(A;OICI;%s;;;%s)" % (MODIFY, ALICE.group_sid)
    room.make(tally, "mkdir", "/share", share)
    room.make(tally, "mkdir", "/v", "D:P(A;OICI;FA;;;S-1-22-1-0)(A;OICI;FA;;;%s)" % BOB.sid)
    room.make(tally, "create", "/share/report", by=room.alice)
    room.make(tally, "mkdir", "/share/folder", by=room.alice)
    room.make(tally, "create", "/share/folder/inner", by=room.alice)
    before = room.alice.call("text", mount.path("/share/report"))[1]
    tally.same("the mover moves it", said(room.bob, "rename", "/share/report", "/v/report"), "ok")
    theirs = "D:P(A;;FA;;;%s)" % BOB.sid
    tally.same("and may not write its list there", said(room.bob, "set", "/v/report", theirs), "EACCES")
    tally.same("and moves it back", said(room.bob, "rename", "/v/report", "/share/report"), "ok")
    tally.same("its owner reads it", said(room.alice, "read", "/share/report"), "ok")
    after = room.alice.call("text", mount.path("/share/report"))[1]
    tally.same("its entries", re.findall(r"\((.;).*?(;[^;]*;;;[^)]*)\)", after or ""),
               re.findall(r"\((.;).*?(;[^;]*;;;[^)]*)\)", before))
    tally.same("a folder", said(room.bob, "rename", "/share/folder", "/v/folder"), "ok")
    tally.same("the list below it", said(room.bob, "set", "/v/folder/inner", "D:P"), "EACCES")
    tally.same("its owner reads below it", said(room.alice, "read", "/v/folder/inner"), "ok")
    room.make(tally, "mkdir", "/p", "D:P(A;OICI;FA;;;S-1-22-1-0)(A;;0xe1;;;%s)(A;;0x27;;;%s)" % (BOB.sid, ALICE.sid))
    room.make(tally, "create", "/p/secret", "D:P(A;;FA;;;%s)" % ALICE.sid, by=room.alice)
    room.make(tally, "create", "/p/plain", by=room.alice)
    for name in ("secret", "plain"):
        tally.same("%s can't be opened" % name, said(room.bob, "read", "/p/" + name), "EACCES")
        tally.same("%s is moved" % name, said(room.bob, "rename", "/p/" + name, "/v/" + name), "ok")
        tally.same("%s can't be opened there" % name, said(room.bob, "read", "/v/" + name), "EACCES")
    deep = "/v"
    for _ in range(62):
        deep += "/d"
        tally.same("a folder", said(room.root, "mkdir", deep), "ok")
    room.make(tally, "mkdir", "/share/two", by=room.alice)
    room.make(tally, "create", "/share/two/inner", by=room.alice)
    before = room.alice.call("text", mount.path("/share/two"))
    tally.same("a move too deep", said(room.bob, "rename", "/share/two", deep + "/two"), "ENAMETOOLONG")
    tally.same("which keeps nothing", room.alice.call("text", mount.path("/share/two")), before)
    room.make(tally, "mkdir", "/v/mine", by=room.bob)
    room.make(tally, "mkdir", "/q", "D:P(A;OICI;FA;;;S-1-22-1-0)(A;OICI;FA;;;%s)" % BOB.sid)
    tally.same("its own folder is moved", said(room.bob, "rename", "/v/mine", "/q/mine"), "ok")
    tally.holds("PAI" not in room.bob.call("text", mount.path("/q/mine"))[1], "it inherits at its new place")
    tally.same("a name is changed", said(room.alice, "rename", "/share/report", "/share/other"), "ok")
    texts = [room.root.call("text", mount.path(path)) for path in ("/v/folder", "/v/folder/inner", "/share/other")]
    mount.end(tally)
    tally.holds(mount.start(ROOTS), "the second start", mount.said())
    tally.same("the same after a start", [room.root.call("text", mount.path(path)) for path in
                                          ("/v/folder", "/v/folder/inner", "/share/other")], texts)


def keeps_too_much(tally: Tally, room: Room) -> None:
    """A rename is refused whole if the entries that it keeps are longer than an attribute of this file system may be."""
    said = room.said
    room.make(tally, "create", "/share/long", by=room.alice)
    count = 150
    while count < 260 and said(room.alice, "set", "/share/long", "D:" + "(A;;FR;;;WD)" * count) == "ok":
        count += 1
    if count == 260:
        print("left out: a rename whose entries an attribute can't keep, as attributes are long here", flush=True)
        return
    before = room.alice.call("text", room.mount.path("/share/long"))
    tally.holds(said(room.bob, "rename", "/share/long", "/v/long") in ("ENOSPC", "E2BIG"), "a rename of a long list")
    tally.same("which changes nothing", room.alice.call("text", room.mount.path("/share/long")), before)


def renames(tally: Tally) -> None:
    for in_file in WAYS_TO_KEEP:
        room = Room(in_file)
        try:
            if tally.holds(room.mount.start(ROOTS), "the start", room.mount.said()):
                renames_by(tally, room)
                if not in_file:
                    keeps_too_much(tally, room)
                room.mount.end(tally)
        finally:
            room.close()


def few_descriptors() -> None:
    resource.setrlimit(resource.RLIMIT_NOFILE, (1024, 1024))


def few_descriptors_for_good() -> None:
    """Without CAP_SYS_RESOURCE the server can't raise its limit."""
    few_descriptors()
    ctypes.CDLL(None).prctl(24, 24, 0, 0, 0)


def raises_limits() -> bool:
    """Whether a process of root's may raise its limit here, which a container may forbid."""
    tried = subprocess.run([sys.executable, "-c", "import resource as r; r.setrlimit(r.RLIMIT_NOFILE, (2048, 2048))"],
                           preexec_fn=few_descriptors, stderr=subprocess.DEVNULL, check=False)
    return tried.returncode == 0


def opens(tally: Tally) -> None:
    """A user who opens all that it gets keeps nobody else from an open."""
    room = Room()
    try:
        if not tally.holds(room.mount.start(ROOTS, before=few_descriptors), "the start", room.mount.said()):
            return
        room.make(tally, "create", "/file", "D:P(A;;FA;;;S-1-22-1-0)(A;;FR;;;WD)")
        at = room.mount.path("/file")
        # (1,024 descriptors that stay so few: 128 for operations, 128 for root, and a half of the rest for one user)
        most = 1024 if raises_limits() else 384
        tally.same("the opens of a user", room.carol.call("hold", at, 3000), ("ok", [most, 24]))
        for caller in (room.root, room.alice):
            tally.same("%s reads" % caller.user.name, caller.call("read", at)[0], "ok")
        tally.same("root's list", room.said(room.root, "set", "/file", "D:P(A;;FA;;;S-1-22-1-0)(A;;0x89;;;WD)"), "ok")
        tally.same("the user stats", room.carol.call("stat", at)[0], "ok")
        tally.holds("no open is left" in room.mount.said(), "the log", room.mount.said())
        tally.same("the opens are closed", room.carol.call("let_go")[0], "ok")
        tally.holds(until(lambda: room.carol.call("read", at)[0] == "ok"), "the user reads")
        room.mount.end(tally)
        if not tally.holds(room.mount.start(before=few_descriptors_for_good), "the start", room.mount.said()):
            return
        tally.same("the opens of one", room.carol.call("hold", at, 3000), ("ok", [384, 24]))
        tally.same("of another", room.alice.call("hold", at, 3000), ("ok", [384, 24]))
        tally.same("of a third", room.bob.call("hold", at, 3000), ("ok", [0, 24]))
        tally.same("of root", room.root.call("hold", at, 100), ("ok", [100, 0]))
        tally.same("a folder is made", room.said(room.root, "mkdir", "/folder"), "ok")
        for caller in (room.carol, room.alice, room.root):
            caller.call("let_go")
        room.mount.end(tally)
        tally.holds(room.mount.start(options=("-o", "5")), "the start", room.mount.said())
        tally.same("five opens", room.carol.call("hold", at, 3000), ("ok", [5, 24]))
        room.carol.call("let_go")
        room.mount.end(tally)
    finally:
        room.close()


def nodes(tally: Tally) -> None:
    """An owner has so many nodes and no more, whoever it gives them to, also after a start."""
    room = Room()
    group = "S-1-22-2-%d" % ALICE.groups[0]
    try:
        if not tally.holds(room.mount.start(ROOTS, options=("-n", "20")), "the start", room.mount.said()):
            return
        room.make(tally, "mkdir", "/all", "D:P(A;OICI;FA;;;WD)")
        for number in range(20):
            tally.same("node %d" % number, room.said(room.alice, "create", "/all/a%d" % number), "ok")
        tally.same("one more", room.said(room.alice, "create", "/all/more"), "EDQUOT")
        tally.same("a folder more", room.said(room.alice, "mkdir", "/all/more"), "EDQUOT")
        tally.holds(not os.path.exists(room.mount.folder + "/all/more"), "nothing is half done")
        tally.same("of another", room.said(room.bob, "create", "/all/b"), "ok")
        tally.same("one is removed", room.said(room.alice, "unlink", "/all/a0"), "ok")
        tally.same("and one made", room.said(room.alice, "create", "/all/a0"), "ok")
        tally.same("one is replaced", room.said(room.alice, "rename", "/all/a0", "/all/a1"), "ok")
        tally.same("and one made", room.said(room.alice, "create", "/all/a0"), "ok")
        room.mount.end(tally)
        tally.holds(room.mount.start(options=("-n", "20")), "the second start", room.mount.said())
        tally.same("one more after it", room.said(room.alice, "create", "/all/more"), "EDQUOT")
        for number in range(20):
            said = room.said(room.alice, "set", "/all/a%d" % number, "O:" + group)
            tally.same("node %d is its group's" % number, said, "ok")
        tally.same("one more", room.said(room.alice, "create", "/all/more"), "ok")
        tally.same("the group has its quota", room.said(room.alice, "set", "/all/more", "O:" + group), "EDQUOT")
        tally.same("root has none", room.said(room.root, "set", "/all/more", "O:S-1-22-1-0"), "ok")
        room.mount.end(tally)
    finally:
        room.close()


def lists(tally: Tally) -> None:
    """What a user stores leaves room for an administrator's entry above; and what doesn't is named by the log."""
    room = Room(in_file=True)
    one, inherited = "(A;;FR;;;WD)", "(A;OICI;FR;;;WD)"
    admin = "D:P(A;OICI;FA;;;S-1-22-1-0)(A;;0x1200a9;;;WD)"
    try:
        if not tally.holds(room.mount.start(ROOTS), "the start", room.mount.said()):
            return
        room.make(tally, "mkdir", "/d", "D:(A;OICI;FA;;;%s)" % ALICE.sid)
        room.make(tally, "create", "/d/file", by=room.alice)
        room.make(tally, "mkdir", "/d/e", by=room.alice)
        tally.same("too long a list", room.said(room.alice, "set", "/d/file", "D:" + one * 2500), "E2BIG")
        tally.holds("the descriptor of /d/file would have" in room.mount.said(), "the log", room.mount.said())
        tally.same("a long list", room.said(room.alice, "set", "/d/file", "D:" + one * 2300), "ok")
        tally.same("a half at a folder", room.said(room.alice, "set", "/d/e", "D:" + inherited * 1300), "ok")
        room.make(tally, "mkdir", "/d/e/f", by=room.alice)
        tally.same("and one below", room.said(room.alice, "set", "/d/e/f", "D:" + inherited * 1300), "E2BIG")
        makers = "D:" + "(A;OICIIO;FR;;;CO)" * 1200
        tally.same("entries for creators", room.said(room.alice, "set", "/d/e/f", makers), "E2BIG")
        room.make(tally, "mkdir", "/d/g", makers, by=room.alice)
        tally.same("which a new node has twice", room.said(room.alice, "mkdir", "/d/g/new"), "E2BIG")
        entry = "(A;OICI;FR;;;S-1-5-32-544)"
        tally.same("the administrator's entry", room.said(room.root, "set", "/", admin + entry), "ok")
        tally.same("root fills a list", room.said(room.root, "set", "/d/file", "D:" + one * 3200), "ok")
        behind = len(room.mount.said())
        said = room.said(room.root, "set", "/", admin + entry * 100)
        tally.same("an entry that has no room", said, "E2BIG")
        tally.holds("below is that of /d/file" in room.mount.said()[behind:], "the log", room.mount.said()[behind:])
        room.mount.end(tally)
    finally:
        room.close()


def copied(mount: Mount, other: Mount) -> None:
    """A restore that knows no attributes."""
    shutil.rmtree(other.folder)
    shutil.copytree(mount.folder, other.folder, copy_function=shutil.copyfile)
    for folder, _, _ in os.walk(other.folder):
        for name in os.listdir(folder):
            if has(os.path.join(folder, name)):
                os.removexattr(os.path.join(folder, name), "user.hudarin.own")
    if has(other.folder):
        os.removexattr(other.folder, "user.hudarin.own")
    os.chmod(other.folder, 0o700)


def has(path: str) -> bool:
    try:
        return "user.hudarin.own" in os.listxattr(path)
    except OSError:
        return False


def archived(tally: Tally, room: Room, texts: list) -> None:
    """What tar keeps."""
    other, words = Room(), ["tar", "--xattrs", "--xattrs-include=user.hudarin.*"]
    try:
        made = subprocess.run([*words, "-cf", "-", "."], cwd=room.mount.folder, stdout=subprocess.PIPE, check=True)
        subprocess.run([*words, "-xf", "-"], cwd=other.mount.folder, input=made.stdout, check=True)
        tally.holds(other.mount.start(), "a start of what tar restores", other.mount.said())
        tally.same("its descriptors", [other.root.call("text", other.mount.path(path)) for path in
                                       ("/", "/d", "/d/secret", "/file")], texts)
        other.mount.end(tally)
    finally:
        other.close()


def restores_by(tally: Tally, room: Room, other: Room) -> None:
    mount, restored = room.mount, other.mount
    room.make(tally, "mkdir", "/d", "D:P(A;OICI;FA;;;S-1-22-1-0)")
    room.make(tally, "create", "/d/secret", "D:P(A;;FA;;;S-1-22-1-0)")
    room.make(tally, "create", "/file")
    texts = [room.root.call("text", mount.path(path)) for path in ("/", "/d", "/d/secret", "/file")]
    mount.end(tally)
    copied(mount, restored)
    tally.holds(not restored.start(ROOTS), "a start without what was kept", restored.said())
    tally.same("its status", restored.ended(), 1)
    tally.holds("nothing is kept of 3 names" in restored.said(), "the log", restored.said())
    tally.holds("nothing is kept of the name secret" in restored.said(), "the log", restored.said())
    if mount.in_file:
        shutil.copyfile(mount.kept, restored.kept)
    else:
        archived(tally, room, texts)
        dump = subprocess.run(["getfattr", "-R", "-d", "-e", "base64", "-m", r"^user\.hudarin\.own$", "."],
                              cwd=mount.folder, stdout=subprocess.PIPE, check=True).stdout
        path = os.path.join(mount.room, "descriptors")
        with open(path, "wb") as file:
            file.write(dump)
        subprocess.run(["setfattr", "--restore=" + path], cwd=restored.folder, check=True)
    tally.holds(restored.start(), "a start with it", restored.said())
    tally.same("the descriptors", [other.root.call("text", restored.path(path)) for path in
                                   ("/", "/d", "/d/secret", "/file")], texts)
    restored.end(tally)
    if not mount.in_file:
        os.removexattr(restored.folder, "user.hudarin.own")
        tally.holds(not restored.start(ROOTS), "a start without the root's", restored.said())
        tally.same("its status", restored.ended(), 1)
        os.setxattr(restored.folder, "user.hudarin.own", os.getxattr(mount.folder, "user.hudarin.own"))
        os.removexattr(restored.folder + "/d/secret", "user.hudarin.own")
    else:
        os.unlink(restored.folder + "/d/secret")
        os.mkdir(restored.folder + "/d/secret")
    tally.holds(not restored.start(ROOTS), "a start without one", restored.said())
    tally.same("its status", restored.ended(), 1)
    tally.holds(restored.start(ROOTS, options=("-u",)), "a start that takes it", restored.said())
    text = other.root.call("text", restored.path("/d/secret"))
    tally.same("it is root's, and inherits", text, ("ok", "O:S-1-22-1-0G:S-1-22-2-0D:AI(A;OICIID;FA;;;S-1-22-1-0)"
                                                    if mount.in_file else
                                                    "O:S-1-22-1-0G:S-1-22-2-0D:AI(A;ID;FA;;;S-1-22-1-0)"))
    restored.end(tally)
    tally.holds(restored.start(), "the next start", restored.said())
    tally.same("the same then", other.root.call("text", restored.path("/d/secret")), text)
    restored.end(tally)


def restores(tally: Tally) -> None:
    for in_file in WAYS_TO_KEEP:
        if not in_file and shutil.which("setfattr") is None:
            print("left out: a restore of attributes, which requires the package attr", flush=True)
            continue
        room, other = Room(in_file), Room(in_file)
        try:
            if tally.holds(room.mount.start(ROOTS), "the start", room.mount.said()):
                restores_by(tally, room, other)
        finally:
            room.close()
            other.close()


LINE = re.compile(r"\d{4}-\d\d-\d\dT\d\d:\d\d:\d\dZ hudarinfs: [ -~]*")


def log(tally: Tally) -> None:
    """Each line has its time and who called; no name forges one, and no user floods it."""
    room = Room()
    try:
        if not tally.holds(room.mount.start(ROOTS), "the start", room.mount.said()):
            return
        tally.holds("Ignoring" not in room.mount.said(), "the start's lines", room.mount.said())
        room.make(tally, "create", "/file")
        tally.same("a denied write", room.said(room.alice, "write", "/file"), "EACCES")
        lines = [line for line in room.mount.said().splitlines() if "denied 0x2 of /file" in line]
        tally.holds(len(lines) == 1 and "uid %d pid " % ALICE.uid in lines[0], "its line", lines)
        name = "/x\nhudarinfs: forged\x1b[2J\u00e9\\"
        room.make(tally, "create", name)
        tally.same("a denied write", room.said(room.alice, "write", name), "EACCES")
        tally.holds(all(LINE.fullmatch(line) for line in room.mount.said().split("\n") if line), "each line",
                    room.mount.said())
        tally.holds(r"/x\x0ahudarinfs: forged\x1b[2J\xc3\xa9\\" in room.mount.said(), "the name", room.mount.said())
        behind, began = len(room.mount.said().splitlines()), time.monotonic()
        tally.same("denied often", room.carol.call("denied_often", room.mount.path("/file"), 2000), ("ok", 2000))
        most = 21 * (int(time.monotonic() - began) + 2)
        found = len(room.mount.said().splitlines()) - behind
        tally.holds(found <= most, "so many lines", (found, most))
        tally.same("another user's", room.said(room.bob, "write", "/file"), "EACCES")
        tally.holds("uid %d pid" % BOB.uid in room.mount.said(), "its line", room.mount.said()[-300:])

        def is_said() -> bool:
            room.said(room.carol, "write", "/file")
            return "lines before this one are left out" in room.mount.said()
        tally.holds(until(is_said), "what is left out is said", room.mount.said()[-300:])
        room.mount.end(tally)
    finally:
        room.close()


def ends(tally: Tally) -> None:
    """SIGHUP ends nothing; after a SIGKILL the next start needs no unmount; SIGTERM unmounts."""
    room = Room()
    try:
        if not tally.holds(room.mount.start(ROOTS), "the start", room.mount.said()):
            return
        room.make(tally, "create", "/file")
        tally.holds(room.mount.ignores(signal.SIGHUP), "SIGHUP is ignored")
        room.mount.signal(signal.SIGHUP)
        tally.same("a read after a SIGHUP", room.said(room.root, "read", "/file"), "ok")
        room.mount.kill()
        tally.same("a read after a SIGKILL", room.said(room.root, "read", "/file"), "ENOTCONN")
        tally.holds(room.mount.start(), "a start after a SIGKILL", room.mount.said())
        tally.same("a read there", room.said(room.root, "read", "/file"), "ok")
        room.mount.signal(signal.SIGTERM)
        tally.same("the status after a SIGTERM", room.mount.ended(), 1)
        tally.holds("Sanitizer" not in room.mount.said(), "the sanitizers", room.mount.said())
        tally.holds(not os.path.ismount(room.mount.at), "it is unmounted")
    finally:
        room.close()


def unmounts(tally: Tally) -> None:
    """An unmount while a user's closes are still to be answered is an end like any other."""
    room = Room()
    try:
        for turn in range(20):
            if not tally.holds(room.mount.start(ROOTS, wait=500), "the start", room.mount.said()):
                return
            if turn == 0:
                room.make(tally, "create", "/file", "D:P(A;;FA;;;S-1-22-1-0)(A;;FR;;;WD)")
            tally.same("opens", room.carol.call("hold", room.mount.path("/file"), 1000), ("ok", [1000, 0]))
            tally.same("the opens are closed", room.carol.call("let_go")[0], "ok")
            room.mount.end(tally, waits=False)
    finally:
        room.close()


def namespaces(tally: Tally) -> None:
    """A process in a PID namespace below the server's is served; one without a number in the server's is refused."""
    room = Room()
    try:
        if not tally.holds(room.mount.start(ROOTS), "the start", room.mount.said()):
            return
        room.make(tally, "create", "/file", "D:P(A;;FA;;;S-1-22-1-0)(A;;FR;;;%s)" % ALICE.group_sid)
        reads = ["setpriv", "--reuid", str(ALICE.uid), "--regid", str(ALICE.gid), "--clear-groups", "cat",
                 room.mount.path("/file")]
        below = subprocess.run(["unshare", "--pid", "--fork", *reads], stderr=subprocess.PIPE, check=False)
        tally.same("a process of a container", below.returncode, 0)
        room.mount.end(tally)
        tally.holds(not room.mount.start(prefix=("unshare", "--pid", "--fork")), "a start by another's /proc")
        tally.holds("another PID namespace" in room.mount.said(), "the log", room.mount.said())
        room.mount.ended()
        prefix = ("unshare", "--pid", "--fork", "--kill-child", "--mount-proc")
        tally.holds(room.mount.start(prefix=prefix, is_seen=False), "a start in a container", room.mount.said())
        server = room.mount.children()
        enter = ["nsenter", "--mount=/proc/%d/ns/mnt" % server[0]]
        above = subprocess.run([*enter, "cat", room.mount.path("/file")], stderr=subprocess.PIPE, check=False)
        is_refused = above.returncode != 0 and b"Permission denied" in above.stderr
        tally.holds(is_refused, "a process of the host", above)
        tally.holds("the groups of the process aren't known" in room.mount.said(), "the log", room.mount.said())
        os.kill(server[0], signal.SIGTERM)
        tally.same("the status after a SIGTERM", room.mount.ended(), 1)
        tally.holds("Sanitizer" not in room.mount.said(), "the sanitizers", room.mount.said())
    finally:
        room.close()


GROUPS = [renames, opens, nodes, lists, restores, log, ends, unmounts, namespaces]


def main(names: list) -> int:
    tally = Tally()
    resource.setrlimit(resource.RLIMIT_NOFILE, (8192, 8192))
    for group in GROUPS:
        if not names or group.__name__ in names:
            group(tally)
    return tally.close()


if __name__ == "__main__":
    sys.exit(main(sys.argv[1:]))
