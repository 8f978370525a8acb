"""The conditions of callback entries: their text ([MS-DTYP] 2.5.1.1) from their bytes (2.4.4.17)."""

import re
import struct
from typing import Any, Callable, List, Optional, Tuple

COMPARING = {0x80: "==", 0x81: "!=", 0x82: "<", 0x83: "<=", 0x84: ">", 0x85: ">=", 0x86: "Contains", 0x88: "Any_of",
             0x8E: "Not_Contains", 0x8F: "Not_Any_of"}
EXISTS = {0x87: "Exists", 0x8D: "Not_Exists"}
MEMBERS = {0x89: "Member_of", 0x8A: "Device_Member_of", 0x8B: "Member_of_Any", 0x8C: "Device_Member_of_Any",
           0x90: "Not_Member_of", 0x91: "Not_Device_Member_of", 0x92: "Not_Member_of_Any",
           0x93: "Not_Device_Member_of_Any"}
#: As they are printed: Samba, and so the program, prints one of them in another case.
PRINTED_MEMBERS = {**MEMBERS, 0x8B: "Member_of_any"}
JOINING, NOT = {0xA0: "&&", 0xA1: "||"}, 0xA2
SCOPES = {0xF8: "", 0xF9: "@USER.", 0xFA: "@RESOURCE.", 0xFB: "@DEVICE."}
WORDS = {word.lower() for word in (*EXISTS.values(), *MEMBERS.values())}
INTEGER_BYTES = 11
SIGNS, BASES = {1: "+", 2: "-", 3: ""}, {1: "0{:o}", 2: "{}", 3: "0x{:x}"}


class NoText(Exception):
    """The data is no condition, or no text is parsed as just this one."""


#: What doesn't stand between quotes: a quote, and what wouldn't stay in a line.
UNQUOTABLE = re.compile('["\x00-\x1f\x7f-\x9f\u2028\u2029]')


class Part:
    """A part on the stack: its text, and what an operator may take it for."""

    def __init__(self, text: str, kind: str):
        self.text, self.kind = text, kind


def decoded(octets: bytes) -> str:
    """UTF-16 in which no unit is 0."""
    try:
        text = octets.decode("utf-16-le")
    except UnicodeDecodeError:
        raise NoText from None
    if "\0" in text:
        raise NoText
    return text


def integer(token: bytes) -> str:
    """An integer of any width, which has a text only if it has 64 bits."""
    value, sign, base = struct.unpack("<qBB", token[1:])
    if sign not in SIGNS or base not in BASES or token[0] != 4 or (value > 0 if sign == 2 else value < 0):
        raise NoText
    return SIGNS[sign] + BASES[base].format(abs(value))


def attribute(scope: str, octets: bytes) -> str:
    name = decoded(octets)
    if not name:
        raise NoText
    if scope:
        units = struct.unpack(f"<{len(octets) // 2}H", octets)
        return scope + "".join(
            chr(u) if 0x21 <= u <= 0x7E and chr(u) not in '!"%&()<=>|' else f"%{u:04x}" for u in units)
    if not all(c.isascii() and (c.isalnum() or c in ":./_") for c in name) or name.lower() in WORDS:
        raise NoText
    return name


def contents(data: bytes, at: int) -> Tuple[bytes, int]:
    """What a token with a length holds, and where it ends."""
    if len(data) < at + 5:
        raise NoText
    end = at + 5 + int.from_bytes(data[at + 1 : at + 5], "little")
    if end > len(data):
        raise NoText
    return data[at + 5 : end], end


class Reader:
    """The tokens of a condition's data."""

    def __init__(self, sid_of: Callable[[bytes], Tuple[str, int]], sid_name: Callable[[str], str]):
        self.sid_of, self.sid_name = sid_of, sid_name

    def literal(self, data: bytes, at: int) -> Tuple[Part, int]:
        """A value at a place, and where it ends."""
        kind = data[at]
        if 1 <= kind <= 4:
            if len(data) < at + INTEGER_BYTES:
                raise NoText
            return Part(integer(data[at : at + INTEGER_BYTES]), "value"), at + INTEGER_BYTES
        content, end = contents(data, at)
        if kind == 0x10:
            text = decoded(content)
            if UNQUOTABLE.search(text):
                raise NoText
            return Part(f'"{text}"', "value"), end
        if kind == 0x18:
            return Part("#" + content.hex().upper(), "value"), end
        if kind == 0x51:
            return Part(self.sid(content), "sids"), end
        raise NoText

    def sid(self, content: bytes) -> str:
        try:
            sid, length = self.sid_of(content)
        except Exception:
            raise NoText from None
        if length != len(content):
            raise NoText
        return f"SID({self.sid_name(sid)})"

    def values(self, data: bytes) -> Part:
        """A list of values."""
        parts: List[Part] = []
        at = 0
        while at < len(data):
            part, at = self.literal(data, at)
            parts.append(part)
        kind = "sids" if all(part.kind == "sids" for part in parts) else "value"
        return Part("{" + ", ".join(part.text for part in parts) + "}", kind)

    def operand(self, data: bytes, at: int) -> Tuple[Part, int]:
        if data[at] in SCOPES:
            content, end = contents(data, at)
            scope = SCOPES[data[at]]
            return Part(attribute(scope, content), "attribute" if scope else "local"), end
        if data[at] == 0x50:
            content, end = contents(data, at)
            return self.values(content), end
        return self.literal(data, at)


def taken(stack: List[Part], *kinds: Any) -> List[Part]:
    """The uppermost parts, of these kinds."""
    parts = stack[-len(kinds) :]
    if len(parts) < len(kinds) or any(part.kind not in some for part, some in zip(parts, kinds)):
        raise NoText
    del stack[-len(kinds) :]
    return parts


def operate(stack: List[Part], operator: int) -> None:
    """An operator takes its operands, and leaves a condition. On the right of a comparison no plain name stands."""
    names, truths = ("attribute", "local"), ("attribute", "local", "condition")
    if operator in COMPARING:
        left, right = taken(stack, names, ("attribute", "value", "sids"))
        text = f"{left.text} {COMPARING[operator]} {right.text}"
    elif operator in EXISTS:
        text = f"{EXISTS[operator]} {taken(stack, names)[0].text}"
    elif operator in MEMBERS:
        text = f"{PRINTED_MEMBERS[operator]} {taken(stack, ('sids',))[0].text}"
    elif operator in JOINING:
        left, right = taken(stack, truths, truths)
        text = f"({left.text}) {JOINING[operator]} ({right.text})"
    elif operator == NOT:
        text = f"!({taken(stack, truths)[0].text})"
    else:
        raise NoText
    stack.append(Part(text, "condition"))


def condition(data: bytes, reader: Reader) -> str:
    if data[:4] != b"artx" or len(data) % 4:
        raise NoText
    stack: List[Part] = []
    at = 4
    while at < len(data) and data[at]:
        if 0x80 <= data[at] <= 0xA2:
            operate(stack, data[at])
            at += 1
        else:
            part, at = reader.operand(data, at)
            stack.append(part)
    if len(data) - at > 3 or any(data[at:]) or len(stack) != 1:
        raise NoText
    return f"({taken(stack, ('attribute', 'local', 'condition'))[0].text})"


def text_of(data: bytes, sid_of: Callable[[bytes], Tuple[str, int]], sid_name: Callable[[str], str]) -> Optional[str]:
    """The condition's text; None where the data is none, or has none."""
    try:
        return condition(data, Reader(sid_of, sid_name))
    except NoText:
        return None
