"""What the tests share: NTFS volumes in files, trees of a second implementation of the rules (tests/second), their
bytes, and estate as a process."""

import os
import struct
import subprocess
import sys
import tempfile
import time
import unittest
from collections.abc import Callable
from pathlib import Path

HERE = Path(__file__).resolve().parent
TOP = HERE.parents[1]
TOOL = TOP / "estate"
# (before the folder tests, which has a module forms too)
sys.path[1:1] = [str(TOP / "tests/second"), str(TOOL), str(TOP / "bindings/python")]

import attributes  # noqa: E402 (it is in one of these folders)
import second  # noqa: E402
from second import Entry, Tree  # noqa: E402

NTFS = "system.ntfs_acl"
SDSTORE = Path(os.environ.get("SDSTORE", TOP / "crates/sdstore/out/sdstore"))
needs_program = unittest.skipUnless(SDSTORE.exists(), "the program sdstore isn't built")
AI, PROTECTED, SACL, PRESENT, MANAGER = 0x400, 0x1000, 0x10, 0x4, 0x4000

#: A path of the second implementation.
Names = tuple[str, ...]


#: Far more seconds than any run takes: a busy machine only takes longer.
PATIENCE = 3000


def python_with(module: str) -> str | None:
    """A Python that has a module of Debian's, which may be one of the system's Python alone."""
    for python in (sys.executable, "/usr/bin/python3"):
        if subprocess.run([python, "-c", f"import {module}"], capture_output=True).returncode == 0:
            return python
    return None


def estate(
    *words: str | Path, room: Path, by: Path = TOOL, python: str = sys.executable
) -> "subprocess.CompletedProcess[str]":
    """Runs the tool in a folder."""
    command = [python, *map(str, (by, *words))]
    return subprocess.run(command, cwd=room, capture_output=True, text=True, timeout=PATIENCE)


def by_sdstore(script: str) -> list[str]:
    """The lines that the program answers to a script."""
    asked = subprocess.run([SDSTORE, "--percent", "script"], input=script, capture_output=True, text=True, check=True)
    return asked.stdout.split("\n")


# Bytes, without the library


def sid_bytes(sid: tuple[int, tuple[int, ...]]) -> bytes:
    authority, subs = sid
    return struct.pack(f"<BB6s{len(subs)}I", 1, len(subs), authority.to_bytes(6, "big"), *subs)


def entry_bytes(entry: Entry) -> bytes:
    sid = sid_bytes(entry.sid)
    return struct.pack("<BBHI", "AD".index(entry.kind), entry.flags, 8 + len(sid), entry.mask) + sid


def acl_bytes(entries: list[bytes], revision: int = 2) -> bytes:
    body = b"".join(entries)
    return struct.pack("<BBHHH", revision, 0, 8 + len(body), len(entries), 0) + body


#: An audit entry for Everyone, an object entry, which no tree has, and an allow of a SID that is none.
AUDIT = acl_bytes([struct.pack("<BBHI", 2, 0xC0, 20, 0x1F01FF) + sid_bytes((1, (0,)))])
OBJECT_ENTRY = struct.pack("<BBHII", 5, 0, 24, 1, 0) + sid_bytes((1, (0,)))
NO_SID_ENTRY = struct.pack("<BBHI", 0, 0, 16, 1) + sid_bytes((1, ()))


def form(owner: bytes, group: bytes, dacl: bytes | None, control: int, sacl: bytes = b"") -> bytes:
    """The self-relative form: SACL, DACL, owner and group, as Windows often orders them."""
    body, offsets = b"", {}
    for name, part in (("sacl", sacl), ("dacl", dacl or b""), ("owner", owner), ("group", group)):
        offsets[name] = 20 + len(body) if part else 0
        body += part
    control |= 0x8000 | (SACL if sacl else 0)
    header = (1, 0, control, offsets["owner"], offsets["group"], offsets["sacl"], offsets["dacl"])
    return struct.pack("<BBHIIII", *header) + body


def node_form(tree: Tree, path: Names, sacl: bytes = b"", extra: int = 0) -> bytes:
    """The bytes of a node of the second implementation."""
    node, dacl = tree.nodes[path], tree.dacl(path)
    owner, group = sid_bytes(node.owner), sid_bytes(node.group)
    if dacl is None:
        return form(owner, group, None, PRESENT | extra, sacl)
    control = PRESENT | AI | (PROTECTED if node.dacl[0] else 0) | extra
    return form(owner, group, acl_bytes([entry_bytes(each) for each in dacl]), control, sacl)


def read_form(blob: bytes) -> tuple[str, bytes]:
    """The canonical text of a form without entries of other types, and its SACL, by this module alone."""
    _, _, control, owner, group, sacl, dacl = struct.unpack_from("<BBHIIII", blob)
    size = struct.unpack_from("<H", blob, sacl + 2)[0] if sacl else 0
    if not control & PRESENT:
        text = ""
    elif not dacl:
        text = "D:NO_ACCESS_CONTROL"
    else:
        text = f"D:{'P' if control & PROTECTED else ''}" + "".join(map(second.entry_text, entries_in(blob)))
    return f"O:{sid_text(blob, owner)}G:{sid_text(blob, group)}{text}", blob[sacl : sacl + size]


def entries_in(blob: bytes) -> list[Entry]:
    """The allows and denies of a form's DACL."""
    plain = [entry for entry in raw_entries(blob) if entry[0] < 2]
    heads = [struct.unpack_from("<BBHI", entry) for entry in plain]
    return [Entry("AD"[kind], flags, mask, sid_in(entry, 8)) for entry, (kind, flags, _, mask) in zip(plain, heads)]


def others_in(blob: bytes) -> list[bytes]:
    """The entries of other types of a form's DACL."""
    return [entry for entry in raw_entries(blob) if entry[0] > 1]


def raw_entries(blob: bytes) -> list[bytes]:
    """The entries of a form's DACL, each as it is; none if it is null or absent."""
    entries, (at,) = [], struct.unpack_from("<I", blob, 16)
    (count,) = struct.unpack_from("<H", blob, at + 4) if at else (0,)
    at += 8
    for _ in range(count):
        (size,) = struct.unpack_from("<H", blob, at + 2)
        entries.append(blob[at : at + size])
        at += size
    return entries


def sid_in(blob: bytes, at: int) -> tuple[int, tuple[int, ...]]:
    count = blob[at + 1]
    return int.from_bytes(blob[at + 2 : at + 8], "big"), struct.unpack_from(f"<{count}I", blob, at + 8)


def sid_text(blob: bytes, at: int) -> str:
    return str(second.sid_text(sid_in(blob, at)))


# Volumes


class Ntfs:
    """An NTFS volume in a file of a folder, mounted beside it: `with Ntfs(room) as volume: ..`."""

    def __init__(self, room: Path, megabytes: int = 300) -> None:
        self.image, self.folder = room / "volume", room / "mount"
        with open(self.image, "wb") as file:
            file.truncate(megabytes << 20)
        subprocess.run(["mkntfs", "-F", "-q", self.image], check=True, capture_output=True)
        self.folder.mkdir()
        self.mount()

    def __enter__(self) -> "Ntfs":
        return self

    def __exit__(self, *_: object) -> None:
        # (a mount whose server was killed is one still)
        if f" {self.folder} " in Path("/proc/self/mounts").read_text():
            self.unmount()

    def mount(self, *options: str) -> None:
        subprocess.run(["ntfs-3g", *options, self.image, self.folder], check=True, capture_output=True)
        #: The process that serves this one mount: the volume disappears where it is killed.
        self.server = self._found_server()

    def unmount(self) -> None:
        # (a call that has just ended may keep the mount busy for a moment)
        end = time.monotonic() + PATIENCE
        while subprocess.run(["umount", self.folder], capture_output=True).returncode != 0:
            if time.monotonic() > end:
                raise RuntimeError(f"{self.folder} can't be unmounted")
            time.sleep(0.05)
        # (the server ends after umount, and writes until then)
        while subprocess.run(["ntfs-3g.probe", "--readwrite", self.image], capture_output=True).returncode == 16:
            time.sleep(0.05)

    def _found_server(self) -> int:
        for process in Path("/proc").glob("[0-9]*"):
            try:
                words = (process / "cmdline").read_bytes().split(b"\0")
            except OSError:
                continue
            if words[0].endswith(b"ntfs-3g") and os.fsencode(self.image) in words:
                return int(process.name)
        raise RuntimeError("no process serves the volume")

    def at(self, path: Names) -> bytes:
        return os.fsencode(os.path.join(self.folder, *path))

    def put(self, path: Names, blob: bytes) -> None:
        os.setxattr(self.at(path), NTFS, blob, follow_symlinks=False)

    def get(self, path: Names) -> bytes:
        return attributes.read(self.at(path), NTFS)


def fill(volume: Ntfs, tree: Tree, forms: Callable[[Names], bytes]) -> None:
    """Makes the tree's folders and files, and gives each its descriptor."""
    for path in sorted(tree.nodes):
        if path and tree.nodes[path].is_container:
            os.mkdir(volume.at(path))
        elif path:
            os.close(os.open(volume.at(path), os.O_CREAT | os.O_WRONLY))
        volume.put(path, forms(path))


class Case(unittest.TestCase):
    """A test with a folder of its own."""

    room: Path
    #: The Python that runs the tool.
    python = sys.executable

    def setUp(self) -> None:
        made = tempfile.TemporaryDirectory(prefix="estate.")
        self.room = Path(made.name)
        self.addCleanup(made.cleanup)

    def runs(self, status: int, *words: str | Path, says: str = "") -> list[str]:
        """Runs estate, whose status has to be this one and whose messages have to hold this text, and returns the lines
        of its standard output."""
        ran = estate(*words, room=self.room, python=self.python)
        self.assertEqual(ran.returncode, status, f"{words}: {ran.stdout[-2000:]}{ran.stderr[-2000:]}")
        self.assertIn(says, ran.stderr)
        self.assertNotIn("Traceback", ran.stderr)
        return ran.stdout.splitlines()

    def breaks(self, call: str, count: int, number: int, process: int, status: int, *words: str) -> str:
        """Runs estate by breaking.py, whose status has to be this one, and returns its messages."""
        ran = estate(call, str(count), str(int(number)), str(process), *words, room=self.room, by=HERE / "breaking.py")
        self.assertEqual(ran.returncode, status, f"{words}: {ran.stdout[-2000:]}{ran.stderr[-2000:]}")
        return ran.stderr

    def write(self, name: str, text: str | bytes, encoding: str = "utf-8") -> Path:
        path = self.room / name
        path.write_bytes(text if isinstance(text, bytes) else text.encode(encoding))
        return path
