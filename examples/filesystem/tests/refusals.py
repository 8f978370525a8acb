#!/usr/bin/env python3
"""
What isn't taken: descriptors that aren't read, names and paths that the tree can't hold, a full tree, a folder that is
open to others, a kept file that isn't whole. Each has its error, the log tells the fault, and nothing is half done.

    refusals.py
"""

import ctypes
import os
import sys

from calls import CALLS
from rig import ALICE, BOB, PLAIN, ROOT, Caller, Mount, Tally, User, outcome

ROOTS = "O:S-1-22-1-0G:S-1-22-2-0D:P(A;OICI;FA;;;S-1-22-1-0)(A;OICI;0x1200a9;;;WD)"
FULL = 65536
# What is given, the error, and what the log tells: faults by docs/FORMATS.md, refusals by docs/TREE.md.
TEXTS = [
    ("D:(A;;FQ;;;WD)", "EINVAL", "text fault 1 at byte 6"),
    ("D:(A;;FR;;;ZZ)", "EINVAL", "text fault 5 at byte 11"),
    ("D:(A;;FR;;;DU)", "EINVAL", "text fault 6 at byte 11"),
    ("D:(A;;FR;;;WD)S:(AU;SA;FA;;;WD)", "EINVAL", "text fault 2"),
    ("D:(XA;;FR;;;WD)", "EINVAL", "text fault 3"),
    ("", "EINVAL", "without an owner, a group and a DACL"),
    ("D:(A;ID;FR;;;WD)", "EINVAL", "refusal 7"),
    ("D:(A;;FR;;;WD)(D;;FW;;;WD)", "EINVAL", "refusal 8"),
    ("O:BAD:(A;;FR;;;WD)", "EPERM", ""),
]
BYTES = [
    ("", "EINVAL", "wire fault 1"),
    ("0200048000000000000000000000000000000000", "EINVAL", "wire fault 2"),
    ("0100040000000000000000000000000000000000", "EINVAL", "wire fault 3"),
    ("010004800000000000000000000000001400000002001000", "EINVAL", "wire fault"),
]


def refuses_descriptors(tally: Tally, mount: Mount, caller: Caller) -> None:
    tally.same("a file", caller.call("create", mount.path("/file"))[0], "ok")
    before = caller.call("text", mount.path("/file"))
    for way, rows in (("set", TEXTS), ("set_bytes", BYTES)):
        for given, error, fault in rows:
            behind = len(mount.said())
            tally.same("%s %s" % (way, given), caller.call(way, mount.path("/file"), given)[0], error)
            tally.holds(fault in mount.said()[behind:], "the log of %s" % given, mount.said()[behind:])
            tally.same("the descriptor behind %s" % given, caller.call("text", mount.path("/file")), before)
    large = "D:" + "(A;OICI;0x1;;;WD)" * 3300
    tally.same("a list that is too large", caller.call("set", mount.path("/file"), large)[0], "EINVAL")
    whole = before[1]
    bytes_of = caller.call("bytes", mount.path("/file"))[1]
    tally.holds(whole.startswith("O:S-1-22-1-0") and len(bytes_of) > 40, "the two forms", (whole, bytes_of))
    tally.same("a list in bytes", caller.call("set", mount.path("/file"), "D:(A;;FX;;;AU)")[0], "ok")
    tally.same("other attributes", outcome(os.setxattr, mount.path("/file"), "user.other", b"x"), "ENOTSUP")
    tally.same("an attribute is taken away", outcome(os.removexattr, mount.path("/file"), "user.hudarin.sddl"), "EPERM")


def refuses_large_below(tally: Tally, mount: Mount, caller: Caller) -> None:
    """A list that fits where it is given, and is too much for a file below with entries of its own."""
    at = mount.path
    tally.same("a folder", caller.call("mkdir", at("/large"))[0], "ok")
    tally.same("a file", caller.call("create", at("/large/file"))[0], "ok")
    tally.same("its list", caller.call("set", at("/large/file"), "D:(A;;FR;;;WD)")[0], "ok")
    before = [caller.call("text", at(path)) for path in ("/large", "/large/file")]
    text = "D:P" + "(A;OICI;FA;;;WD)" * 3276
    tally.same("too large below", caller.call("set", at("/large"), text)[0], "E2BIG")
    tally.same("the same behind it", [caller.call("text", at(path)) for path in ("/large", "/large/file")], before)


def refuses_names(tally: Tally, mount: Mount, caller: Caller) -> None:
    at = mount.path
    tally.same("a name of 256 bytes", caller.call("create", at("/" + "n" * 256))[0], "ENAMETOOLONG")
    tally.same("a name of 255 bytes", caller.call("create", at("/" + "n" * 255))[0], "ok")
    tally.same("no UTF-8", outcome(os.mkdir, os.fsencode(mount.at) + b"/\xff"), "EILSEQ")
    deep = ""
    for number in range(64):
        deep += "/d"
        tally.same("folder %d" % number, caller.call("mkdir", at(deep))[0], "ok")
    tally.same("a 65th name", caller.call("mkdir", at(deep + "/d"))[0], "ENAMETOOLONG")
    tally.same("a 65th name of a file", caller.call("create", at(deep + "/f"))[0], "ENAMETOOLONG")
    tally.same("a folder", caller.call("mkdir", at("/other"))[0], "ok")
    tally.same("a move too deep", caller.call("rename", at("/d"), at("/other/d"))[0], "ENAMETOOLONG")
    tally.holds(os.path.isdir(at(deep)) and not os.path.exists(at("/other/d")), "both stand where they stood")
    tally.same("FOLDER too", sorted(os.listdir(mount.folder + "/other")), [])


def exchange(path: str, other: str) -> None:
    libc = ctypes.CDLL(None, use_errno=True)
    if libc.renameat2(-100, os.fsencode(path), -100, os.fsencode(other), 2) != 0:
        raise OSError(ctypes.get_errno(), path)


def refuses_kinds(tally: Tally, mount: Mount, caller: Caller, root: Caller) -> None:
    at = mount.path
    tally.same("a symlink", caller.call("symlink", "/etc/passwd", at("/link"))[0], "EPERM")
    tally.same("a second link", caller.call("link", at("/file"), at("/second"))[0], "EPERM")
    tally.same("a FIFO", caller.call("fifo", at("/fifo"))[0], "EPERM")
    gone = os.open(at("/gone"), os.O_CREAT | os.O_RDWR)
    os.unlink(at("/gone"))
    tally.same("fstat of what was removed", outcome(os.fstat, gone), "ESTALE")
    os.close(gone)
    tally.same("an exchange", outcome(exchange, at("/file"), at("/other")), "EINVAL")
    os.symlink("/etc/passwd", mount.folder + "/planted")
    tally.same("a planted symlink", caller.call("read", at("/planted"))[0], "ENOENT")
    tally.same("to make a file there", root.call("create", at("/planted"))[0], "EEXIST")
    tally.holds("planted" not in os.listdir(mount.at), "it isn't listed")
    os.unlink(mount.folder + "/planted")
    many = Caller(User("many", 62009, 63001, list(range(70000, 71100))), CALLS)
    tally.same("a process in 1,100 groups", many.call("read", at("/file"))[0], "EACCES")
    many.close()


def appends_alone(tally: Tally, mount: Mount, caller: Caller) -> None:
    """Who may append alone changes nothing that is there, by no way round."""
    import fcntl
    import mmap
    from rig import become
    at = mount.path("/log")
    tally.same("a log", caller.call("create", at)[0], "ok")
    tally.same("its bytes", caller.call("write", at)[0], "ok")
    tally.same("its list", caller.call("set", at, "D:P(A;;FA;;;S-1-22-1-0)(A;;0x5;;;WD)")[0], "ok")
    ours, theirs = os.pipe()
    if os.fork() == 0:
        become(BOB)
        file = os.open(at, os.O_RDWR | os.O_APPEND)
        fcntl.fcntl(file, fcntl.F_SETFL, 0)
        said = [outcome(os.pwrite, file, b"y", 0), outcome(os.ftruncate, file, 0), outcome(mmap.mmap, file, 1),
                outcome(os.open, at, os.O_RDWR)]
        os.write(theirs, repr(said).encode())
        os._exit(0)
    os.wait()
    said = os.read(ours, 1000).decode()
    tally.same("to write, to empty, to map, to open", said, repr(["ok", "EACCES", "ENODEV", "EACCES"]))
    with open(mount.folder + "/log", "rb") as file:
        tally.same("the bytes stand behind", file.read(), b"xy")


def makes_unseen(tally: Tally, mount: Mount, caller: Caller, root: Caller) -> None:
    """Who may add alone is answered that it has made what it made, and sees it no more."""
    at = mount.path
    tally.same("a folder", root.call("mkdir", at("/drop"))[0], "ok")
    tally.same("its list", root.call("set", at("/drop"), "D:P(A;;FA;;;S-1-22-1-0)(A;;0x26;;;WD)")[0], "ok")
    for way, path in (("create", "/drop/file"), ("mkdir", "/drop/folder")):
        tally.same(way, caller.call(way, at(path))[0], "ok")
        tally.same("%s, made twice" % way, caller.call(way, at(path))[0], "EACCES")
        tally.same("%s, seen" % way, caller.call("stat", at(path))[0], "EACCES")


def maps(tally: Tally, mount: Mount, alice: Caller, root: Caller) -> None:
    """A user that stands in a file of maps has the SID that it tells; a file that isn't read ends the start."""
    path, sid = os.path.join(mount.room, "maps"), "S-1-5-21-1-2-3-1001"
    with open(path, "w", encoding="utf-8") as file:
        file.write("# who\nuid %d %s\ngid %d S-1-5-21-1-2-3-513\n" % (ALICE.uid, sid, ALICE.gid))
    tally.holds(mount.start(ROOTS, options=("-m", path)), "a start with maps", mount.said())
    tally.same("a list", root.call("set", mount.path("/file"), "D:P(A;;FR;;;%s)" % sid)[0], "ok")
    tally.same("who is mapped", alice.call("read", mount.path("/file"))[0], "ok")
    tally.same("who isn't", root.call("read", mount.path("/file"))[0], "EACCES")
    mount.end(tally, "the status")
    for text in ("uid x S-1-5-7\n", "who 1 S-1-5-7\n", "uid 1 S-1\n", "uid 1\n", "uid 1 WD more\n"):
        with open(path, "w", encoding="utf-8") as file:
            file.write(text)
        tally.holds(not mount.start(ROOTS, options=("-m", path)), "a start with %r" % text)
        mount.ended()


def full_tree(tally: Tally) -> None:
    mount, caller, alice = Mount(PLAIN), Caller(ROOT, CALLS), Caller(ALICE, CALLS)
    try:
        for number in range(FULL - 2):
            if number % 1000 == 0:
                folder = mount.folder + "/%d" % number
                os.mkdir(folder)
            else:
                os.close(os.open("%s/%d" % (folder, number), os.O_CREAT | os.O_WRONLY, 0o600))
        started = mount.start(ROOTS + "(A;;0x6;;;WD)", options=("-u",))
        tally.holds(started, "a start with 65,535 nodes", mount.said())
        tally.same("the last nodes are root's", alice.call("create", mount.path("/last"))[0], "ENOSPC")
        tally.same("the last node", caller.call("create", mount.path("/last"))[0], "ok")
        tally.same("one more", caller.call("create", mount.path("/more"))[0], "ENOSPC")
        tally.same("one more folder", caller.call("mkdir", mount.path("/more"))[0], "ENOSPC")
        tally.holds(not os.path.exists(mount.folder + "/more"), "nothing is half done")
        tally.same("one goes", caller.call("unlink", mount.path("/last"))[0], "ok")
        tally.same("one comes", caller.call("create", mount.path("/more"))[0], "ok")
        mount.end(tally, "the status")
    finally:
        caller.close()
        alice.close()
        mount.close()


def refuses_long_attributes(tally: Tally, mount: Mount, caller: Caller) -> None:
    """A list that is longer than an attribute of this file system may be stays as it was; where it isn't, it is taken."""
    at, short, long = mount.path("/long"), "D:P(A;;FA;;;S-1-22-1-0)", "D:P(A;;FA;;;S-1-22-1-0)" + "(A;;FR;;;WD)" * 3000
    tally.same("a file", caller.call("create", at)[0], "ok")
    tally.same("a short list", caller.call("set", at, short)[0], "ok")
    before = caller.call("text", at)
    said = caller.call("set", at, long)[0]
    behind = caller.call("text", at)
    taken = said == "ok" and len(behind[1]) > len(long)
    refused = said in ("ENOSPC", "E2BIG") and behind == before and "isn't kept" in mount.said()
    print("a list of 60,000 bytes in an attribute: %s" % said)
    tally.holds(taken or refused, "a long list", (said, behind[1][:100]))
    tally.same("another short list", caller.call("set", at, "D:P(A;;FA;;;S-1-22-1-0)(A;;FX;;;WD)")[0], "ok")


def refuses_attributes(tally: Tally, mount: Mount) -> None:
    """An attribute that isn't read ends the start, and so does what is kept twice; what a create left behind goes."""
    path, name = mount.folder + "/file", "user.hudarin.own"
    whole = os.getxattr(path, name)
    for found in (b"", whole[:-1], b"x" * len(whole), bytes.fromhex("0100008000000000000000000000000000000000")):
        os.setxattr(path, name, found)
        tally.holds(not mount.start(ROOTS), "a start by an attribute of %r" % found)
        tally.same("its status", mount.ended(), 1)
    os.setxattr(path, name, whole)
    with open(mount.kept, "w", encoding="utf-8") as file:
        file.write("hudarinfs 1\nfolder / %s\nend\n" % ROOTS)
    tally.holds(not mount.start(ROOTS), "a start with a file beside the attributes")
    tally.same("its status", mount.ended(), 1)
    os.unlink(mount.kept)
    tally.holds(not mount.start(ROOTS, options=("-f",)), "a start that is to keep a file beside the attributes")
    tally.same("its status", mount.ended(), 1)
    staged = os.fsencode(mount.folder) + b"/.hudarin\xff"
    os.mkdir(staged)
    os.close(os.open(mount.folder + "/other/planted", os.O_CREAT | os.O_WRONLY, 0o600))
    tally.holds(not mount.start(ROOTS), "a start with a planted name")
    tally.same("its status", mount.ended(), 1)
    tally.holds(mount.start(ROOTS, options=("-u",)), "the start of what is whole", mount.said())
    tally.holds(not os.path.exists(staged), "what a create left behind")
    tally.holds("nothing was kept of 1 names of FOLDER" in mount.said(), "a planted name is told", mount.said())
    tally.holds(os.getxattr(mount.folder + "/other/planted", name) != b"", "it has an attribute now")
    os.mkdir(staged)
    tally.same("a folder beside it", outcome(os.mkdir, mount.path("/beside")), "ok")
    tally.same("FOLDER", sorted(os.listdir(mount.folder + "/beside")), [])
    mount.end(tally, "the status")


def refuses_starts(tally: Tally, mount: Mount) -> None:
    """The server isn't there: what stands beside FOLDER, or FOLDER itself, is no good."""
    with open(mount.kept, encoding="utf-8") as file:
        whole = file.read()
    for text in (whole[:-4], whole[:len(whole) // 2], "", whole + "more\n", whole.replace("folder", "fold", 1),
                 whole.replace("D:", "Q:", 1), whole.replace("O:S-1", "O:Q-1", 1),
                 whole.replace("folder /d ", "folder /e/d ", 1)):
        with open(mount.kept, "w", encoding="utf-8") as file:
            file.write(text)
        tally.holds(not mount.start(ROOTS), "a start by %.60r" % text[-60:])
        tally.same("its status", mount.ended(), 1)
    with open(mount.kept, "w", encoding="utf-8") as file:
        file.write(whole)
    os.chmod(mount.folder, 0o755)
    tally.holds(not mount.start(ROOTS), "a start of a folder that is open")
    os.chmod(mount.folder, 0o700)
    tally.holds(mount.start(ROOTS), "the start of the whole one", mount.said())
    second = Mount()
    second.folder = mount.folder
    tally.holds(not second.start(ROOTS), "a second server of one folder")
    second.close()
    mount.end(tally, "the status behind that")


def keeps_file(tally: Tally, caller: Caller) -> None:
    mount = Mount(in_file=True)
    try:
        if tally.holds(mount.start(ROOTS), "the start", mount.said()):
            tally.same("a folder", caller.call("mkdir", mount.path("/d"))[0], "ok")
            tally.same("a file", caller.call("create", mount.path("/d/f"))[0], "ok")
            long = "D:P(A;;FA;;;S-1-22-1-0)" + "(A;;FR;;;WD)" * 3000
            tally.same("a long list", caller.call("set", mount.path("/d/f"), long)[0], "ok")
            mount.end(tally)
            refuses_starts(tally, mount)
    finally:
        mount.close()


def main() -> int:
    tally, mount, caller, alice = Tally(), Mount(), Caller(ROOT, CALLS), Caller(ALICE, CALLS)
    try:
        if tally.holds(mount.start(ROOTS), "the start", mount.said()):
            refuses_descriptors(tally, mount, caller)
            refuses_large_below(tally, mount, caller)
            refuses_names(tally, mount, caller)
            refuses_kinds(tally, mount, alice, caller)
            appends_alone(tally, mount, caller)
            makes_unseen(tally, mount, alice, caller)
            if not mount.in_file:
                refuses_long_attributes(tally, mount, caller)
            mount.end(tally)
            if not mount.in_file:
                refuses_attributes(tally, mount)
            maps(tally, mount, alice, caller)
        keeps_file(tally, caller)
        full_tree(tally)
    finally:
        caller.close()
        alice.close()
        mount.close()
    return tally.close()


if __name__ == "__main__":
    sys.exit(main())
