"""Whole security descriptors by the layouts of [MS-DTYP] 2.4.4 to 2.4.6 and the grammar of 2.5.1.1: a second
implementation, for comparison alone. It shares nothing with the first, and knows nothing of Samba."""

import struct
from typing import Any, List, NamedTuple, Optional, Tuple

import claims
import conditions

WIRE = {"Short": 1, "Revision": 2, "NotSelfRelative": 3, "BadOffset": 5, "BadSid": 6, "AclRevision": 7, "AclSize": 8,
        "EntrySize": 9}
NO_TEXT = {"ResourceManager": 1, "Control": 2, "Keywords": 3, "Opaque": 4, "Kind": 5, "Data": 6}
#: A list whose control bit is set, and whose offset is 0.
NULL = "null"
HEADER_BYTES, LIST_BYTES, ENTRY_BYTES, GUID_BYTES = 20, 8, 4, 16
#: Control ([MS-DTYP] 2.4.6): SR, and what says that a list is there.
SELF_RELATIVE, DACL_PRESENT, SACL_PRESENT = 0x8000, 0x4, 0x10
#: OD, GD, DD, SD, SS, DT and RM have no text.
WITHOUT_TEXT = 0x40EB
#: The section of a list, its control bit, and the bits of P, AR and AI.
DACL = ("D:", DACL_PRESENT, ((0x1000, "P"), (0x100, "AR"), (0x400, "AI")))
SACL = ("S:", SACL_PRESENT, ((0x2000, "P"), (0x200, "AR"), (0x800, "AI")))
#: AceType ([MS-DTYP] 2.4.4.1) to its letters; two have none.
LETTERS = {0x00: "A", 0x01: "D", 0x02: "AU", 0x03: "AL", 0x05: "OA", 0x06: "OD", 0x07: "OU", 0x08: "OL", 0x09: "XA",
           0x0A: "XD", 0x0B: "ZA", 0x0C: "", 0x0D: "XU", 0x0F: "", 0x11: "ML", 0x12: "RA", 0x13: "SP", 0x14: "TL",
           0x15: "FL"}
OBJECTS = {0x05, 0x06, 0x07, 0x08, 0x0B, 0x0C, 0x0F}
CONDITIONAL, ATTRIBUTE, POLICY, LABEL, FILTER = {0x09, 0x0A, 0x0B, 0x0D, 0x15}, 0x12, 0x13, 0x11, 0x15
CRITICAL = 0x20
FLAGS = ((0x01, "OI"), (0x02, "CI"), (0x04, "NP"), (0x08, "IO"), (0x10, "ID"), (0x40, "SA"), (0x80, "FA"),
         (CRITICAL, "CR"))
#: Of an access filter, where 0x40 has another meaning.
FILTER_FLAGS = (*FLAGS[:5], (0x80, "FA"), (0x40, "TP"), (CRITICAL, "CR"))
RIGHTS = {0x1F01FF: "FA", 0x120089: "FR", 0x120116: "FW", 0x1200A0: "FX", 0xF003F: "KA", 0x20019: "KR", 0x20006: "KW",
          0x10000000: "GA", 0x80000000: "GR", 0x40000000: "GW", 0x20000000: "GX", 0x10000: "SD", 0x20000: "RC",
          0x40000: "WD", 0x80000: "WO"}
ALIASES = {"S-1-1-0": "WD", "S-1-3-0": "CO", "S-1-3-1": "CG", "S-1-3-4": "OW", "S-1-15-2-1": "AC"}
ALIASES.update({f"S-1-5-{number}": alias for number, alias in (
    (2, "NU"), (4, "IU"), (6, "SU"), (7, "AN"), (9, "ED"), (10, "PS"), (11, "AU"), (12, "RC"), (18, "SY"), (19, "LS"),
    (20, "NS"))})
ALIASES.update({f"S-1-5-32-{number}": alias for number, alias in (
    (544, "BA"), (545, "BU"), (546, "BG"), (547, "PU"), (548, "AO"), (549, "SO"), (550, "PO"), (551, "BO"),
    (552, "RE"), (554, "RU"), (555, "RD"), (556, "NO"), (558, "MU"), (559, "LU"), (568, "IS"), (569, "CY"),
    (573, "ER"), (574, "CD"))})
#: The levels of labels, which have aliases there alone.
LEVELS = {"S-1-16-4096": "LW", "S-1-16-8192": "ME", "S-1-16-8448": "MP", "S-1-16-12288": "HI", "S-1-16-16384": "SI"}


class Fault(Exception):
    """The line that the program prints of a fault."""

    def __init__(self, of: str, name: str, place: str = ""):
        super().__init__(f"fault {of} {(WIRE if of == 'wire' else NO_TEXT)[name]} {name}")
        self.name, self.place = name, place


class Entry(NamedTuple):
    kind: int
    flags: int
    mask: int
    #: The two GUIDs of an object entry, where they are there.
    types: Tuple[Optional[bytes], Optional[bytes]]
    sid: str
    #: What follows the SID.
    data: bytes


class Opaque(NamedTuple):
    """An entry without the layout of its type."""

    kind: int
    flags: int
    body: bytes


class AccessList(NamedTuple):
    revision: int
    entries: Tuple[Any, ...]


class Descriptor(NamedTuple):
    """Without the bits of Control that follow from what is there. A list is None where it is absent, or NULL."""

    manager: int
    control: int
    owner: Optional[str]
    group: Optional[str]
    sacl: Any
    dacl: Any


def sid_text(data: bytes) -> Tuple[str, int]:
    """The SID at the front of the bytes, in full, and its length ([MS-DTYP] 2.4.2.2)."""
    if len(data) < 8 or data[0] != 1 or not 1 <= data[1] <= 15 or len(data) < 8 + 4 * data[1]:
        raise Fault("wire", "BadSid")
    authority = int.from_bytes(data[2:8], "big")
    parts = struct.unpack_from(f"<{data[1]}I", data, 8)
    head = f"0x{authority:012x}" if authority >> 32 else str(authority)
    return "-".join(["S-1", head, *map(str, parts)]), 8 + 4 * len(parts)


def sid_bytes(text: str) -> bytes:
    head, *parts = (int(number, 0) for number in text.split("-")[2:])
    return bytes([1, len(parts)]) + head.to_bytes(6, "big") + struct.pack(f"<{len(parts)}I", *parts)


def part_at(data: bytes, offset: int) -> bytes:
    """What begins at an offset that isn't 0."""
    if offset < HEADER_BYTES or len(data) - offset < 8:
        raise Fault("wire", "BadOffset")
    return data[offset:]


def types_of(kind: int, body: bytes) -> Optional[Tuple[Tuple[Optional[bytes], Optional[bytes]], int]]:
    """The GUIDs of an object entry, and where they end in its body; None where it hasn't the layout."""
    if kind not in OBJECTS:
        return (None, None), 4
    named = int.from_bytes(body[4:8], "little")
    guids: List[Optional[bytes]] = []
    at = 8
    for bit in (1, 2):
        guids.append(body[at : at + GUID_BYTES] if named & bit else None)
        at += GUID_BYTES if named & bit else 0
    return None if named > 3 or at > len(body) else ((guids[0], guids[1]), at)


def entry_of(kind: int, flags: int, body: bytes) -> Any:
    """An entry of a type, flags and a body ([MS-DTYP] 2.4.4)."""
    found = types_of(kind, body) if kind in LETTERS and len(body) >= 4 else None
    try:
        if found is not None:
            types, at = found
            sid, length = sid_text(body[at:])
            mask = int.from_bytes(body[:4], "little")
            return Entry(kind, flags, mask, types, sid, body[at + length :])
    except Fault:
        pass
    if kind > 1:
        return Opaque(kind, flags, body)
    raise Fault("wire", "EntrySize" if len(body) < 12 else "BadSid")


def list_of(data: bytes) -> AccessList:
    """The list at the front of the bytes ([MS-DTYP] 2.4.5)."""
    revision, _, size, count, _ = struct.unpack_from("<BBHHH", data)
    if revision not in (2, 4):
        raise Fault("wire", "AclRevision")
    if not LIST_BYTES <= size <= len(data):
        raise Fault("wire", "AclSize")
    rest, entries = data[LIST_BYTES:size], []
    for _ in range(count):
        if len(rest) < ENTRY_BYTES:
            raise Fault("wire", "EntrySize")
        kind, flags, length = struct.unpack_from("<BBH", rest)
        if length < ENTRY_BYTES or length % 4 or length > len(rest):
            raise Fault("wire", "EntrySize")
        entries.append(entry_of(kind, flags, rest[ENTRY_BYTES:length]))
        rest = rest[length:]
    return AccessList(revision, tuple(entries))


def read(data: bytes) -> Descriptor:
    """The descriptor in the bytes, or the first test that they fail, in the order of docs/FORMATS.md."""
    if len(data) < HEADER_BYTES:
        raise Fault("wire", "Short")
    if data[0] != 1:
        raise Fault("wire", "Revision")
    _, manager, control, owner, group, sacl, dacl = struct.unpack_from("<BBHIIII", data)
    if not control & SELF_RELATIVE:
        raise Fault("wire", "NotSelfRelative")
    sids = [sid_text(part_at(data, offset))[0] if offset else None for offset in (owner, group)]
    lists: List[Any] = []
    for (_, bit, _), offset in ((SACL, sacl), (DACL, dacl)):
        is_there = control & bit
        lists.append(list_of(part_at(data, offset)) if is_there and offset else NULL if is_there else None)
    kept = control & ~(SELF_RELATIVE | SACL_PRESENT | DACL_PRESENT)
    return Descriptor(manager, kept, sids[0], sids[1], lists[0], lists[1])


def entry_bytes(entry: Any) -> bytes:
    if isinstance(entry, Opaque):
        return struct.pack("<BBH", entry.kind, entry.flags, 4 + len(entry.body)) + entry.body
    body = struct.pack("<I", entry.mask)
    if entry.kind in OBJECTS:
        first, second = entry.types
        body += struct.pack("<I", (first is not None) + 2 * (second is not None)) + (first or b"") + (second or b"")
    body += sid_bytes(entry.sid) + entry.data
    return struct.pack("<BBH", entry.kind, entry.flags, 4 + len(body)) + body


def list_bytes(acl: AccessList) -> bytes:
    body = b"".join(map(entry_bytes, acl.entries))
    return struct.pack("<BBHHH", acl.revision, 0, LIST_BYTES + len(body), len(acl.entries), 0) + body


def written(descriptor: Descriptor) -> bytes:
    """The one written form: header, owner, group, SACL, DACL, without gaps."""
    d, body, offsets = descriptor, b"", []
    control = d.control | SELF_RELATIVE
    for (_, bit, _), acl in ((SACL, d.sacl), (DACL, d.dacl)):
        control |= 0 if acl is None else bit
    sids = [sid_bytes(sid) if sid else b"" for sid in (d.owner, d.group)]
    for part in (*sids, *(list_bytes(acl) if isinstance(acl, AccessList) else b"" for acl in (d.sacl, d.dacl))):
        offsets.append(HEADER_BYTES + len(body) if part else 0)
        body += part
    return struct.pack("<BBHIIII", 1, d.manager, control, *offsets) + body


def implied(acl: Any) -> Any:
    """The list with the revision that its entries imply: 4 with an object entry, else 2."""
    if not isinstance(acl, AccessList):
        return acl
    return acl._replace(revision=4 if any(entry.kind in OBJECTS for entry in acl.entries) else 2)


def as_parsed(descriptor: Descriptor) -> Descriptor:
    """What a text of the descriptor is parsed as: AclRevision isn't said in a text."""
    return descriptor._replace(sacl=implied(descriptor.sacl), dacl=implied(descriptor.dacl))


def sid_name(sid: str) -> str:
    return ALIASES.get(sid, sid)


def guid_text(guid: Optional[bytes]) -> str:
    """[MS-DTYP] 2.3.4.3."""
    if guid is None:
        return ""
    first, second, third = struct.unpack_from("<IHH", guid)
    return f"{first:08x}-{second:04x}-{third:04x}-{guid[8:10].hex()}-{guid[10:].hex()}"


def rights_text(entry: Entry) -> str:
    """The mask: a label's by its own names, and nothing of one that has to be 0, and is."""
    if entry.kind in (ATTRIBUTE, POLICY) and entry.mask == 0:
        return ""
    if entry.kind == LABEL and 0 < entry.mask <= 7:
        return "".join(name for bit, name in ((1, "NW"), (2, "NR"), (4, "NX")) if entry.mask & bit)
    return f"0x{entry.mask:x}" if entry.kind == LABEL else RIGHTS.get(entry.mask, f"0x{entry.mask:x}")


def data_text(entry: Entry) -> Optional[str]:
    """The last field of an entry with its semicolon; None where what follows the SID has no text."""
    if entry.kind in CONDITIONAL:
        text = conditions.text_of(entry.data, sid_text, sid_name)
    elif entry.kind == ATTRIBUTE:
        text = claims.text_of(entry.data, sid_name)
    else:
        return None if entry.data else ""
    return None if text is None else ";" + text


def entry_text(entry: Any, place: str) -> str:
    if isinstance(entry, Opaque):
        raise Fault("notext", "Opaque", place)
    if not LETTERS[entry.kind]:
        raise Fault("notext", "Kind", place)
    data = data_text(entry)
    if data is None:
        raise Fault("notext", "Data", place)
    names = FILTER_FLAGS if entry.kind == FILTER else FLAGS
    flags = "".join(name for bit, name in names if entry.flags & bit)
    types = ";".join(map(guid_text, entry.types))
    level = LEVELS.get(entry.sid) if entry.kind == LABEL else None
    return f"({LETTERS[entry.kind]};{flags};{rights_text(entry)};{types};{level or sid_name(entry.sid)}{data})"


def words_of(which: Any, control: int) -> str:
    """The keywords of a list's section."""
    return "".join(word for bit, word in which[2] if control & bit)


def list_text(which: Any, control: int, acl: Any) -> str:
    head, words = which[0], words_of(which, control)
    if acl is None:
        return ""
    if acl == NULL:
        return head + words + "NO_ACCESS_CONTROL"
    return head + words + "".join(entry_text(entry, f" (entry {number} of the {head[0]}ACL)")
                                  for number, entry in enumerate(acl.entries, 1))


def text(descriptor: Descriptor) -> str:
    """The text ([MS-DTYP] 2.5.1.1), or the first part that has none: of the header, then of the entries."""
    d = descriptor
    if d.manager:
        raise Fault("notext", "ResourceManager")
    if d.control & WITHOUT_TEXT:
        raise Fault("notext", "Control")
    for which, acl in ((DACL, d.dacl), (SACL, d.sacl)):
        if acl is None and words_of(which, d.control):
            raise Fault("notext", "Keywords", f" (the {which[0][0]}ACL)")
    sids = "".join(head + sid_name(sid) for head, sid in (("O:", d.owner), ("G:", d.group)) if sid)
    return sids + list_text(DACL, d.control, d.dacl) + list_text(SACL, d.control, d.sacl)


def without_bits(data: bytes) -> bytes:
    """The bytes of a descriptor without the control bits that no text has."""
    control = int.from_bytes(data[2:4], "little") & ~WITHOUT_TEXT
    return data[:2] + control.to_bytes(2, "little") + data[4:]


def printed(data: bytes) -> str:
    """The line that the program prints of bytes."""
    try:
        return text(read(data))
    except Fault as fault:
        return str(fault)
