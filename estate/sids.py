"""SIDs of accounts: their text in full, and their order. [MS-DTYP] 2.4.2.

A list of accounts has them as a directory does, in full and by the hundred thousand, so they are parsed here and not by
the library, whose texts are aliases where a SID has one."""

import re
import struct

#: How SIDs of groups of BUILTIN begin, of what Samba calls Unix users and groups, and of both.
BUILTIN, UNIX_USER, UNIX_GROUP, UNIX = "S-1-5-32-", "S-1-22-1-", "S-1-22-2-", "S-1-22-"

_TEXT = re.compile(r"S-1-(\d{1,15}|0x[0-9A-F]{12})((?:-\d{1,10}){1,15})", re.ASCII | re.IGNORECASE)
#: [MS-DTYP] 2.4.2.1: a larger authority is hexadecimal.
_MOST_DECIMAL = 0xFFFFFFFF
_MOST_SUBS = 15


def sid_of_text(text: str) -> str | None:
    """The SID that the text spells, or None: also of an alias, as BA."""
    found = _TEXT.fullmatch(text)
    if found is None:
        return None
    authority = int(found[1], 16 if "x" in found[1].lower() else 10)
    subs = [int(each) for each in found[2].split("-")[1:]]
    return _text(authority, subs) if authority < 1 << 48 and max(subs) <= 0xFFFFFFFF else None


def sid_of_bytes(data: bytes) -> str | None:
    """The SID that the bytes are, all of them, or None."""
    if len(data) < 8 or data[0] != 1 or not 1 <= data[1] <= _MOST_SUBS or len(data) != 8 + 4 * data[1]:
        return None
    return _text(int.from_bytes(data[2:8], "big"), struct.unpack_from(f"<{data[1]}I", data, 8))


def _text(authority: int, subs: list[int] | tuple[int, ...]) -> str:
    first = str(authority) if authority <= _MOST_DECIMAL else f"0x{authority:012X}"
    return "-".join(("S-1", first, *map(str, subs)))


def order_of(sid: str) -> tuple[int, ...]:
    """By what SIDs are sorted: their numbers."""
    return tuple(int(each, 16 if "x" in each else 10) for each in sid.split("-")[2:])


def domain_of(sid: str) -> str | None:
    """The SID of the domain, or the machine, of whose accounts the SID is one; None if it is of neither."""
    return sid.rpartition("-")[0] if sid.startswith("S-1-5-21-") and sid.count("-") == 7 else None
