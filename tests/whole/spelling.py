"""SDDL as values, so that two spellings of one descriptor are equal: sections, keywords and flags as sets, rights as
numbers, SIDs in full, and a condition or a claim with its SIDs in full."""

import re
import uuid
from typing import Any, Callable, Dict, List, Optional, Tuple

from model import ALIASES, DACL, FLAGS, LETTERS, NULL, RIGHTS, SACL, AccessList, Descriptor, Entry, implied

#: The names of rights that are never printed here ([MS-DTYP] 2.5.1.1).
BITS = {name: mask for mask, name in RIGHTS.items()}
BITS.update(CC=1, DC=2, LC=4, SW=8, RP=0x10, WP=0x20, DT=0x40, LO=0x80, CR=0x100, KX=0x20019)
LABELS = {"NW": 1, "NR": 2, "NX": 4}
SIDS = {alias: sid for sid, alias in ALIASES.items()}
#: The aliases that only newer versions of Windows have, of all systems.
SIDS.update(RA="S-1-5-32-575", ES="S-1-5-32-576", MS="S-1-5-32-577", HA="S-1-5-32-578", AA="S-1-5-32-579",
            RM="S-1-5-32-580", UD="S-1-5-84-0-0-0-0-0", AS="S-1-18-1", SS="S-1-18-2", HI="S-1-16-12288",
            SI="S-1-16-16384", ME="S-1-16-8192", MP="S-1-16-8448", LW="S-1-16-4096", WR="S-1-5-33")
#: The aliases of a domain, and the last number of their SIDs.
IN_DOMAIN = dict(LA=500, LG=501, DA=512, DU=513, DG=514, DC=515, DD=516, CA=517, SA=518, EA=519, PA=520, RS=553, RO=498,
                 CN=522, AP=525, KA=526)
SECTION = re.compile(r"[OGDS]:")
KEYWORD = re.compile(r"NO_ACCESS_CONTROL|P|AR|AI")
QUOTED = re.compile(r'"[^"]*"')
#: The bytes after an entry's SID, of its letters and its last field.
DataOf = Callable[[str, Optional[str]], bytes]


class Unreadable(Exception):
    """A text without the form of SDDL."""


def sid(text: str) -> str:
    """The SID of an alias, or a SID in full with its authority in one spelling."""
    known = SIDS.get(text.upper(), text.upper())
    parts = known.split("-")
    if parts[0] == "S" and len(parts) > 2:
        authority = int(parts[2], 0)
        parts[2] = f"0x{authority:012x}" if authority >> 32 else str(authority)
    return "-".join(parts)


def rights(text: str, kind: str) -> int:
    """The mask of a field of rights."""
    if re.match("[0-9]", text):
        return int(text, 0)
    mask, names = 0, LABELS if kind == "ML" else BITS
    for at in range(0, len(text), 2):
        if text[at : at + 2] not in names:
            raise Unreadable(f"no right: {text}")
        mask |= names[text[at : at + 2]]
    return mask


def data(kind: str, text: str) -> str:
    """A condition, or a claim: SIDs are in full, and a number has no plus that Samba writes before it."""
    parts, at = [], 0
    for found in QUOTED.finditer(text):
        parts += [text[at : found.start()], found[0]]
        at = found.end()
    parts.append(text[at:])
    for place in range(0, len(parts), 2):
        parts[place] = re.sub(r"SID\(([^)]*)\)", lambda found: f"SID({sid(found[1])})", parts[place])
        if kind == "RA":
            parts[place] = re.sub(r"(?<=,)\+(?=\d)", "", parts[place])
            if parts[1][: 1] and ",TD," in parts[2]:
                parts[place] = ",".join(map(sid, parts[place].split(",")))
    return "".join(parts)


def end_of_entry(text: str, at: int) -> int:
    """Where the entry that begins there ends: at its last parenthesis, of which quotes hide others."""
    depth, quoted = 0, False
    for place in range(at, len(text)):
        letter = text[place]
        quoted ^= letter == '"'
        depth += 0 if quoted else (letter == "(") - (letter == ")")
        if depth == 0 and not quoted:
            return place + 1
    raise Unreadable(f"an entry without its end: {text[at:][:40]}")


def entry(text: str) -> Tuple[Any, ...]:
    fields = text[1:-1].split(";", 6)
    if len(fields) < 6:
        raise Unreadable(f"an entry of {len(fields)} fields: {text}")
    kind, flags, mask, first, second, trustee = fields[:6]
    # (Samba prints SA for it)
    names = frozenset("SA" if name == "TP" else name for name in re.findall("..", flags))
    rest = data(kind, fields[6]) if len(fields) > 6 else None
    return kind, names, rights(mask, kind), first.lower(), second.lower(), sid(trustee), rest


def entries(text: str, at: int) -> Tuple[List[Tuple[Any, ...]], int]:
    found = []
    while text[at : at + 1] == "(":
        end = end_of_entry(text, at)
        found.append(entry(text[at:end]))
        at = end
    return found, at


def normal(text: Optional[str]) -> Dict[str, Any]:
    """The value of a text: its sections by their letter."""
    sections, at = {}, 0
    while text and at < len(text):
        if not SECTION.match(text, at) or text[at] in sections:
            raise Unreadable(f"no section at {at}: {text[at:][:40]}")
        letter = text[at]
        at += 2
        if letter in "OG":
            end = re.compile(r"(?=[OGDS]:)|\Z").search(text, at).start()
            sections[letter], at = sid(text[at:end]), end
            continue
        words = set()
        while KEYWORD.match(text, at) and not SECTION.match(text, at):
            words.add(KEYWORD.match(text, at)[0])
            at = KEYWORD.match(text, at).end()
        found, at = entries(text, at)
        sections[letter] = (frozenset(words), tuple(found))
    return sections


def value(text: Optional[str]) -> Any:
    """The value of a text, or why it has none."""
    try:
        return normal(text)
    except Unreadable as why:
        return str(why)


def full(trustee: str, domain: str) -> str:
    """The SID of what `sid` returned, also of an alias of the domain."""
    return sid(f"{domain}-{IN_DOMAIN[trustee]}" if trustee in IN_DOMAIN else trustee)


def types_of(first: str, second: str) -> Tuple[Optional[bytes], Optional[bytes]]:
    def guid(text: str) -> Optional[bytes]:
        return uuid.UUID(text).bytes_le if text else None

    return guid(first), guid(second)


def no_data(kind: str, rest: Optional[str]) -> bytes:
    """What follows the SID of an entry that has neither a condition nor a claim."""
    if rest is not None:
        raise Unreadable(f"a condition or a claim: {rest}")
    return b""


def list_of(found: Any, domain: str, data_of: DataOf) -> Any:
    """The list of a section's entries."""
    entries_found = []
    for kind, names, mask, first, second, trustee, rest in found:
        flags = sum(bit for bit, name in FLAGS if name in names)
        number = next(number for number, letters in LETTERS.items() if letters == kind)
        entries_found.append(Entry(number, flags, mask, types_of(first, second), full(trustee, domain),
                                   data_of(kind, rest)))
    return implied(AccessList(2, tuple(entries_found)))


def descriptor_of(text: str, domain: str, data_of: DataOf = no_data) -> Descriptor:
    """The descriptor of a text; without `data_of` it has neither conditions nor claims."""
    sections, control, lists = normal(text), 0, []
    for which in (SACL, DACL):
        words, found = sections.get(which[0][0], (frozenset(), None))
        control |= sum(bit for bit, word in which[2] if word in words)
        lists.append(None if found is None else NULL if "NO_ACCESS_CONTROL" in words
                     else list_of(found, domain, data_of))
    owner, group = (full(sections[letter], domain) if letter in sections else None for letter in "OG")
    return Descriptor(0, control, owner, group, lists[0], lists[1])
