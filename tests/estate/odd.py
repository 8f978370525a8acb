"""An NTFS volume with whatever a tree or a script doesn't take as it is, or might take for something else: nodes that
were moved within the volume, links, reparse points, second names, deep folders, and lists of every kind."""

import os
import random
import struct
from collections.abc import Callable

from rig import AI, AUDIT, NO_SID_ENTRY, OBJECT_ENTRY, PRESENT, PROTECTED, Names, Ntfs, acl_bytes, entry_bytes, fill
from rig import form, sid_bytes
from second import CI, ID, IO, NP, OI, Entry
from test_volumes import CLOUD, LINK, MOUNT_POINT
from trees import BA, BG, BU, SY, USERS, WD, planted

#: More names than a path of a tree has.
DEEP = 100
#: One of so many nodes gets a list of an odd kind, is moved, and gets a second name.
ODD_EVERY, MOVED_EVERY, LINKED_EVERY = 20, 50, 200
#: Tags of reparse points ([MS-FSCC] 2.1.2.1).
COMPRESSED, A_LINK, A_MOUNT_POINT = 0x80000017, 0xA000000C, 0xA0000003
#: Control's SE_DACL_AUTO_INHERIT_REQ; the SIDs of OWNER RIGHTS and of the high label.
AUTO_INHERIT_REQ, OWNER_RIGHTS, HIGH = 0x100, (3, (4,)), (16, (12288,))
_SUBJECTS = [*USERS, BA, BG, BU, SY, WD, OWNER_RIGHTS]
_GENERIC = (0x10000000, 0x20000000, 0x40000000, 0x80000000)
_CONDITIONAL = struct.pack("<BBHI", 9, 0, 28, 0x1F01FF) + sid_bytes(WD) + b"artx\xf8\2\0\0"
_UNKNOWN = struct.pack("<BBH", 0x42, 0, 20) + bytes(16)
_LABEL = acl_bytes([struct.pack("<BBHI", 0x11, 0, 20, 1) + sid_bytes(HIGH)])


class Dice(random.Random):
    """What is random of a volume."""

    def entry(self, flags: int) -> Entry:
        """An allow or deny with one right, some, or a generic one, for children or this node or both."""
        some = self.getrandbits(21) & self.getrandbits(21)
        mask = self.choice([1 << self.randrange(21), some, some, self.choice(_GENERIC)])
        flags |= self.choice((0, 0, CI, OI, OI | CI, OI | CI | IO, CI | NP))
        return Entry(self.choice("AAD"), flags, mask, self.sid())

    def sid(self) -> tuple[int, tuple[int, ...]]:
        return self.choice(_SUBJECTS)

    def entries(self, flags: int = 0) -> list[bytes]:
        return [entry_bytes(self.entry(flags)) for _ in range(self.randrange(6))]

    def form(self, entries: list[bytes] | None, control: int, sacl: bytes = b"", revision: int = 2) -> bytes:
        dacl = None if entries is None else acl_bytes(entries, revision)
        return form(sid_bytes(self.sid()), sid_bytes(self.sid()), dacl, control | PRESENT, sacl)


#: The bytes of a node by the kind of what is odd about it.
KINDS: dict[str, Callable[[Dice], bytes]] = {
    "in any order": lambda dice: dice.form(dice.entries(), AI),
    "inherited elsewhere": lambda dice: dice.form(dice.entries(ID), AI),
    "inherited before its own": lambda dice: dice.form([*dice.entries(ID), *dice.entries()], AI),
    "protected, inherited": lambda dice: dice.form([*dice.entries(), *dice.entries(ID)], AI | PROTECTED),
    "protected": lambda dice: dice.form(dice.entries(), PROTECTED),
    "empty": lambda dice: dice.form([], dice.choice((0, AI, PROTECTED))),
    "null": lambda dice: dice.form(None, dice.choice((0, AI, AI | PROTECTED, AI | AUTO_INHERIT_REQ))),
    "absent": lambda dice: form(sid_bytes(dice.sid()), sid_bytes(SY), None, 0),
    "of an object": lambda dice: dice.form([*dice.entries(), OBJECT_ENTRY], 0, revision=4),
    "with a condition": lambda dice: dice.form([_CONDITIONAL, *dice.entries()], 0),
    "of an unknown type": lambda dice: dice.form([_UNKNOWN, *dice.entries()], 0),
    "audited": lambda dice: dice.form(dice.entries(), AI, AUDIT),
    "labelled": lambda dice: dice.form(dice.entries(), AI, _LABEL),
    "without a SID": lambda dice: dice.form([NO_SID_ENTRY], 0),
    "repeated": lambda dice: dice.form(dice.entries() * 2, AI),
}


def make(volume: Ntfs, count: int, seed: int) -> None:
    """Fills a volume with so many nodes and those of the odd kinds, and mounts it again."""
    dice, made = Dice(seed), planted(count, seed)
    fill(volume, made.tree, made.form)
    nodes = [path for path in sorted(made.tree.nodes) if path]
    for number, path in enumerate(dice.sample(nodes, count // ODD_EVERY)):
        volume.put(path, KINDS[list(KINDS)[number % len(KINDS)]](dice))
    folders = [path for path in nodes if made.tree.nodes[path].is_container]
    files = [path for path in nodes if not made.tree.nodes[path].is_container]
    for number, path in enumerate(dice.sample(files, count // LINKED_EVERY)):
        os.link(volume.at(path), volume.at((*dice.choice(folders), f"again{number}")))
    for number, path in enumerate(dice.sample(nodes, count // MOVED_EVERY)):
        _move(volume, path, (*dice.choice(folders)[:3], f"moved{number}"))
    _skipped(volume)
    _deep(volume, dice)
    volume.unmount()
    volume.mount()


def _move(volume: Ntfs, path: Names, to: Names) -> None:
    """Moves a node, unless something above it was moved before, or it would get into itself."""
    if to[: len(path)] != path and os.path.lexists(volume.at(path)) and os.path.isdir(volume.at(to[:-1])):
        os.rename(volume.at(path), volume.at(to))


def _skipped(volume: Ntfs) -> None:
    """A link, a pipe, and nodes with reparse points: of a cloud and of a compression, a mount point and a link."""
    os.symlink("nowhere", volume.at(("link",)))
    os.mkfifo(volume.at(("pipe",)))
    for name, tag, data in (("cloud", CLOUD, bytes(8)), ("packed", COMPRESSED, bytes(8)), ("far", A_LINK, LINK)):
        volume.folder.joinpath(name).touch()
        _reparse(volume, name, tag, data)
    for name, tag, data in (("mounted", A_MOUNT_POINT, MOUNT_POINT), ("online", CLOUD, bytes(8))):
        volume.folder.joinpath(name).mkdir()
        _reparse(volume, name, tag, data)


def _reparse(volume: Ntfs, name: str, tag: int, data: bytes) -> None:
    whole = struct.pack("<IHH", tag, len(data), 0) + data
    os.setxattr(volume.at((name,)), "system.ntfs_reparse_data", whole)


def _deep(volume: Ntfs, dice: Dice) -> None:
    """Folders in each other, each with a file."""
    for length in range(1, DEEP + 1):
        path = ("deep",) * length
        os.mkdir(volume.at(path))
        volume.put(path, dice.form(dice.entries(), AI))
        os.close(os.open(volume.at((*path, "file")), os.O_CREAT))
