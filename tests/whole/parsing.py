"""The bytes of conditions and claims ([MS-DTYP] 2.4.4.17, 2.4.10.1) from their texts (2.5.1.1), and whole descriptors
from texts with them."""

import re
import struct
from typing import List, Optional, Tuple

import claims
import conditions
import model
import spelling

#: Of a condition, after white space.
TOKEN = re.compile(r'\s*("[^"]*"|#[0-9A-Fa-f]*|SID\([^)]*\)|@?[A-Za-z_][^\s()!"&<=>|,{}]*|[-+]?[0-9][0-9A-Fa-fxX]*'
                   r"|&&|\|\||==|!=|<=|>=|[<>(){},!])", re.IGNORECASE)
NUMBER = re.compile("[-+]?(0x[0-9a-f]+|0[0-7]*|[1-9][0-9]*)", re.IGNORECASE)
ESCAPE = re.compile("%([0-9A-Fa-f]{4})")
#: What stands between two operands, before an attribute and before SIDs, in lower case, to its byte.
COMPARING, EXISTS, MEMBERS, SCOPES = ({name.lower(): byte for byte, name in table.items()} for table in (
    conditions.COMPARING, conditions.EXISTS, conditions.MEMBERS, conditions.SCOPES))
JOINING = {name: byte for byte, name in conditions.JOINING.items()}
TYPES = {name: number for number, name in claims.WORDS.items()}
TEXT, OCTETS, LIST, SID, INTEGER = 0x10, 0x18, 0x50, 0x51, 0x04
SIGNS = {"+": 1, "-": 2, "": 3}
OCTAL, DECIMAL, HEXADECIMAL = 1, 2, 3


class NotParsed(Exception):
    """A text that is no condition, no claim, or no value."""


def padded(data: bytes) -> bytes:
    """With zeros up to a multiple of four."""
    return data + bytes(-len(data) % 4)


def named(name: str) -> str:
    """A name whose escapes are replaced."""
    return ESCAPE.sub(lambda found: chr(int(found[1], 16)), name)


def utf16(text: str) -> bytes:
    return text.encode("utf-16-le", "surrogatepass")


def token(kind: int, content: bytes) -> bytes:
    """A token that has its length."""
    return struct.pack("<BI", kind, len(content)) + content


def number_of(text: str) -> Tuple[int, int]:
    """A number and its base, as in C."""
    if not NUMBER.fullmatch(text):
        raise NotParsed(text)
    digits = text.lstrip("+-")
    base = HEXADECIMAL if digits[:2].lower() == "0x" else OCTAL if digits[0] == "0" and digits != "0" else DECIMAL
    value = int(digits, {OCTAL: 8, DECIMAL: 10, HEXADECIMAL: 16}[base])
    return (-value if text[0] == "-" else value), base


def integer(text: str) -> bytes:
    value, base = number_of(text)
    sign = SIGNS[text[0] if text[0] in "+-" else ""]
    return struct.pack("<BqBB", INTEGER, value, sign, base)


class Condition:
    """The tokens of a condition's text, in postfix order as they are parsed."""

    def __init__(self, text: str):
        self.words: List[str] = []
        at = 0
        while text[at:].strip():
            found = TOKEN.match(text, at)
            if not found:
                raise NotParsed(text[at:])
            self.words.append(found[1])
            at = found.end()

    def next(self) -> str:
        """The next word in lower case, "" at the end."""
        return self.words[0].lower() if self.words else ""

    def take(self, *expected: str) -> str:
        if not self.words or (expected and self.next() not in expected):
            raise NotParsed(" ".join(self.words))
        return self.words.pop(0)

    def condition(self) -> bytes:
        """`(..)`: what `||` joins, of what `&&` joins."""
        self.take("(")
        made = self.joined("||")
        self.take(")")
        return made

    def joined(self, operator: str) -> bytes:
        operand = self.operand if operator == "&&" else lambda: self.joined("&&")
        made = operand()
        while self.next() == operator:
            self.take()
            made += operand() + bytes([JOINING[operator]])
        return made

    def operand(self) -> bytes:
        if self.next() == "(":
            return self.condition()
        if self.next() == "!":
            self.take()
            return self.condition() + bytes([conditions.NOT])
        return self.term()

    def term(self) -> bytes:
        word = self.next()
        if word in EXISTS:
            self.take()
            return self.attribute() + bytes([EXISTS[word]])
        if word in MEMBERS:
            self.take()
            return self.operands() + bytes([MEMBERS[word]])
        left = self.attribute()
        if self.next() not in COMPARING:
            return left
        operator = COMPARING[self.take().lower()]
        return left + (self.attribute() if self.next().startswith("@") else self.operands()) + bytes([operator])

    def attribute(self) -> bytes:
        """A name with its scope, or of local claims without one."""
        word = self.take()
        scope = word[: word.find(".") + 1].lower() if word[0] == "@" else ""
        if scope not in SCOPES:
            raise NotParsed(word)
        return token(SCOPES[scope], utf16(named(word[len(scope) :]) if scope else word))

    def operands(self) -> bytes:
        """A value, or a list of values."""
        if self.next() != "{":
            return self.value()
        self.take()
        made = b"" if self.next() == "}" else self.value()
        while self.next() == ",":
            self.take()
            made += self.value()
        self.take("}")
        return token(LIST, made)

    def value(self) -> bytes:
        word = self.take()
        if word[0] == '"':
            return token(TEXT, utf16(word[1:-1]))
        if word[0] == "#":
            return token(OCTETS, bytes.fromhex(word[1:]))
        if word[:4].upper() == "SID(":
            return token(SID, model.sid_bytes(spelling.sid(word[4:-1].strip())))
        return integer(word)


def condition(text: str) -> bytes:
    """The application data of a condition."""
    parsed = Condition(text)
    made = parsed.condition()
    if parsed.words:
        raise NotParsed(" ".join(parsed.words))
    return padded(b"artx" + made)


def literal(text: str) -> bytes:
    """The token of a value, or of a list of values."""
    parsed = Condition(text)
    made = parsed.operands()
    if parsed.words:
        raise NotParsed(text)
    return made


def claim_value(kind: str, text: str) -> bytes:
    """A value of a claim, as it stands after the offsets."""
    if kind == "TS":
        return utf16(text[1:-1]) + bytes(2)
    if kind in ("TX", "TD"):
        octets = bytes.fromhex(text.lstrip("#")) if kind == "TX" else spelling.sid(text).encode()
        return struct.pack("<I", len(octets)) + octets
    return struct.pack("<Q", number_of(text)[0] % 2**64)


def claim_parts(text: str) -> Tuple[str, str, int, List[str]]:
    """Name, type, flags and values of a claim's text: `("name",TS,0x0,"a","b")`."""
    parts = re.findall(r'"[^"]*"|[^,"\s]+', text[1:-1])
    if len(parts) < 3 or parts[1].upper() not in TYPES:
        raise NotParsed(text)
    return named(parts[0][1:-1]), parts[1].upper(), number_of(parts[2])[0], parts[3:]


def claim(text: str) -> bytes:
    """The data of a claim: header, offsets, name and values, without gaps."""
    name, kind, flags, values = claim_parts(text)
    body, offsets = utf16(name) + bytes(2), []
    start = claims.HEADER_BYTES + 4 * len(values)
    for value in values:
        offsets.append(start + len(body))
        body += claim_value(kind, value)
    header = struct.pack("<IHHII", start, TYPES[kind], 0, flags, len(values))
    return padded(header + struct.pack(f"<{len(values)}I", *offsets) + body)


def data_of(kind: str, text: Optional[str]) -> bytes:
    """What follows the SID of an entry with these letters."""
    if text is None:
        return b""
    return claim(text) if kind == "RA" else condition(text)


def descriptor(text: str, domain: str) -> model.Descriptor:
    """The descriptor of a text."""
    return spelling.descriptor_of(text, domain, data_of)
