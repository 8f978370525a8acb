"""LDIF, by RFC 2849, as ldapsearch, ldbsearch and ldifde write it. (python3-ldap has a reader too, but isn't in the
standard library, skips what it doesn't know, and knows no line numbers.)"""

import base64
import binascii
import re
from collections.abc import Iterator
from dataclasses import dataclass, field
from typing import NamedTuple

from errors import Invalid
from lines import Line

#: How what ldapsearch prints beside entries begins: references, and how a search ended.
_BESIDE = {"ref", "search", "result", "control", "pagedresults", "matcheddn", "text", "sortresult", "vlvresult"}


_FIRST = re.compile(r"(version|dn|search|result|ref)::?(\s|$)|dn:[A-Za-z0-9.-]+=", re.IGNORECASE)


def is_ldif(line: str) -> bool:
    """Whether a file whose first line this is, but for comments, is LDIF."""
    return _FIRST.match(line) is not None


class Value(NamedTuple):
    """A value of an attribute, undecoded. `mark` is ':' before base64, '<' before a URL, and else nothing."""

    number: int
    name: str
    options: str
    mark: str
    raw: str


@dataclass(slots=True)
class Record:
    """An entry: its DN, and its values in their order."""

    number: int
    dn: str
    values: list[Value] = field(default_factory=list)


class Ldif:
    """The entries of a file of this name."""

    def __init__(self, name: str, lines: Iterator[Line]) -> None:
        self.name, self._lines = name, lines

    def invalid(self, number: int, text: str) -> Invalid:
        return Invalid(f"{self.name}: line {number}: {text}")

    def records(self) -> Iterator[Record]:
        """Each entry. What is beside entries is dropped, but a search that ended early is Invalid."""
        block: list[Value] = []
        for number, line in self._unfolded():
            if not line:
                yield from self._record(block)
                block = []
            elif not line.startswith("#"):
                block.append(self._value(number, line))
        yield from self._record(block)

    def _unfolded(self) -> Iterator[Line]:
        """The lines, each with those that continue it."""
        at, parts = 0, [""]
        for number, line in self._lines:
            if line.startswith(" "):
                if not parts[0]:
                    raise self.invalid(number, "it continues no line")
                parts.append(line[1:])
            else:
                if at:
                    yield at, "".join(parts)
                at, parts = number, [line]
        if at:
            yield at, "".join(parts)

    def _value(self, number: int, line: str) -> Value:
        described, colon, rest = line.partition(":")
        name, _, options = described.partition(";")
        if not colon or not name or not name.isascii():
            raise self.invalid(number, f"'attribute: value' is expected, and not {line[:40]!a}")
        mark = rest[:1] if rest[:1] in (":", "<") else ""
        return Value(number, name.lower(), options.lower(), mark, rest[len(mark) :].lstrip(" "))

    def _record(self, block: list[Value]) -> Iterator[Record]:
        if block and block[0].name == "version":
            block = block[1:]
        if not block:
            return
        first = block[0]
        if first.name == "dn":
            yield Record(first.number, self.text(first), [each for each in block[1:] if self._is_content(each)])
        elif first.name not in _BESIDE:
            raise self.invalid(first.number, f"'dn: ..' is expected, and not {first.name[:40]!a}")
        for each in block:
            if first.name != "dn" and each.name == "result" and each.raw.split(" ")[0] != "0":
                raise self.invalid(each.number, f"the search ended early, so entries are missing: {each.raw[:80]!a}")

    def _is_content(self, value: Value) -> bool:
        """Whether it is a value of the entry, and no line about a change."""
        if value.name == "changetype" and value.raw != "add":
            raise self.invalid(value.number, f"changes aren't supported: changetype {value.raw[:40]!a}")
        if value.name == "dn":
            raise self.invalid(value.number, "a blank line is expected before the next entry")
        return value.name not in ("changetype", "control")

    def data(self, value: Value) -> bytes:
        """The value's bytes. Nothing is loaded from a URL."""
        if value.mark == "<":
            raise self.invalid(value.number, f"{value.name} is in another file, which isn't supported")
        if value.mark != ":":
            return value.raw.encode("utf-8", "surrogatepass")
        try:
            return base64.b64decode(value.raw, validate=True)
        except (binascii.Error, ValueError) as error:
            raise self.invalid(value.number, f"{value.name}: invalid base64") from error

    def text(self, value: Value) -> str:
        """The value as a text, with a surrogate for each byte that isn't UTF-8."""
        return value.raw if not value.mark else self.data(value).decode("utf-8", "surrogateescape")
