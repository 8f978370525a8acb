"""The claims of resource attribute entries: their text ([MS-DTYP] 2.5.1.1) from their bytes (2.4.10.1)."""

import re
import struct
from typing import Callable, List, Optional, Tuple

from conditions import UNQUOTABLE

#: ValueType to its word.
WORDS = {1: "TI", 2: "TU", 3: "TS", 5: "TD", 6: "TB", 0x10: "TX"}
HEADER_BYTES = 16
SID = re.compile(r"S-1-(\d+|0x[0-9a-f]{12})(-(0|[1-9]\d*)){1,15}")


class NoText(Exception):
    """The data is no claim in its one written form, or has no text."""


def string_at(data: bytes, at: int) -> Tuple[str, int]:
    """A text that a zero ends, and where that ends."""
    end = at
    while data[end : end + 2] != b"\0\0":
        if end + 2 > len(data):
            raise NoText
        end += 2
    try:
        return data[at:end].decode("utf-16-le"), end + 2
    except UnicodeDecodeError:
        raise NoText from None


def octets_at(data: bytes, at: int) -> Tuple[bytes, int]:
    if at + 4 > len(data):
        raise NoText
    end = at + 4 + int.from_bytes(data[at : at + 4], "little")
    if end > len(data):
        raise NoText
    return data[at + 4 : end], end


def sid_of(octets: bytes, sid_name: Callable[[str], str]) -> str:
    text = octets.decode("latin-1")
    if not SID.fullmatch(text) or any(int(part) >> 32 for part in text.split("-")[3:]):
        raise NoText
    return sid_name(text)


def value_at(kind: int, data: bytes, at: int, sid_name: Callable[[str], str]) -> Tuple[str, int]:
    """A value's text, and where its bytes end."""
    if kind in (1, 2, 6):
        if at + 8 > len(data):
            raise NoText
        number = struct.unpack_from("<q" if kind == 1 else "<Q", data, at)[0]
        if kind == 6 and number > 1:
            raise NoText
        return str(number), at + 8
    if kind == 3:
        text, end = string_at(data, at)
        if UNQUOTABLE.search(text):
            raise NoText
        return f'"{text}"', end
    octets, end = octets_at(data, at)
    return sid_of(octets, sid_name) if kind == 5 else octets.hex().upper() or "#", end


def claim(data: bytes, sid_name: Callable[[str], str]) -> str:
    """The text of a claim whose parts follow each other: offsets, name, values, zeros up to a multiple of four."""
    if len(data) < HEADER_BYTES:
        raise NoText
    name_at, kind, reserved, flags, count = struct.unpack_from("<IHHII", data)
    start = HEADER_BYTES + 4 * count
    if kind not in WORDS or reserved or start > len(data) or name_at != start:
        raise NoText
    name, at = string_at(data, name_at)
    if not name:
        raise NoText
    values: List[str] = []
    for place in struct.unpack_from(f"<{count}I", data, HEADER_BYTES):
        if place != at:
            raise NoText
        value, at = value_at(kind, data, place, sid_name)
        values.append("," + value)
    if len(data) - at > 3 or any(data[at:]) or len(data) % 4:
        raise NoText
    units = struct.unpack(f"<{len(name.encode('utf-16-le')) // 2}H", name.encode("utf-16-le"))
    escaped = "".join(chr(u) if 0x21 <= u <= 0x7E and chr(u) not in '!"%&()<=>|' else f"%{u:04x}" for u in units)
    return f'("{escaped}",{WORDS[kind]},0x{flags:x}{"".join(values)})'


def text_of(data: bytes, sid_name: Callable[[str], str]) -> Optional[str]:
    """The claim's text; None where the data is none, or has none."""
    try:
        return claim(data, sid_name)
    except NoText:
        return None
