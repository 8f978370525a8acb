"""`estate lines`: the descriptors of what other tools export, a line each, as `sdstore each --key` takes them."""

import os
import re
from collections.abc import Callable, Iterator
from dataclasses import dataclass
from itertools import chain
from typing import BinaryIO

from hudarin import WholeDescriptor

from atomic_file import atomic_file
from csv_rows import CsvRows, columns_of
from errors import Invalid, Stopped
from ldif import Ldif, Record, Value, is_ldif
from lines import Line, encoding_in, lines_of, start_of
from table import Table, plural
from texts import saved_rows

#: Attributes whose syntax is String(NT-Sec-Desc) ([MS-ADTS] 3.1.1.2.2.2), and the first, which each object has.
_OF_OBJECTS = "ntsecuritydescriptor"
_SYNTAX = {
    _OF_OBJECTS,
    "frsrootsecurity",
    "msds-allowedtoactonbehalfofotheridentity",
    "msds-groupmsamembership",
    "msdfs-linksecuritydescriptorv2",
    "msexchmailboxsecuritydescriptor",
    "pkienrollmentaccess",
}
#: A value of a registry file: its name, and its bytes in hexadecimal if it has some.
_VALUE = re.compile(r'(@|"(?:[^"\\]|\\.)*")=(?:hex(?:\([0-9a-f]+\))?:([0-9a-f, ]*)$)?', re.IGNORECASE)
#: SECURITY_DESCRIPTOR ([MS-DTYP] 2.4.6): SE_SELF_RELATIVE in its fourth byte.
_SELF_RELATIVE = 0x80


@dataclass(frozen=True, slots=True)
class Export:
    """A descriptor of a file: SDDL as the file has it, bytes, or a reason why there is neither."""

    number: int
    key: str
    content: str | bytes | None
    reason: str = ""


def write_lines(sources: list[str], file_name: str, columns: tuple[str, str], table: Table) -> tuple[int, int]:
    """Writes a line for each descriptor, with a row for each that is left out, and returns how many both are. Invalid if
    a file can't be understood: then nothing is written."""
    _check_replaced(file_name)
    written = left = 0
    with atomic_file(file_name) as file:
        for source in sources:
            for each in _exports_of(source, columns):
                reason = _write(file, source, each)
                if reason:
                    table.row("left", {"source": source, "line": each.number, "name": each.key, "why": reason})
                written, left = written + (not reason), left + bool(reason)
        if not written + left:
            raise Invalid(f"{sources[0]}: it has no descriptor")
    return written, left


def _check_replaced(name: str) -> None:
    """Stops before a source is replaced, where no FILE is given."""
    if os.path.isfile(name):
        start = start_of(name, 1 << 16).partition(b"\n")[0]
        if start and not re.search(rb"\t[OGDS]:", start):
            raise Stopped(f"{name}: it is no file of lines, and isn't replaced")


def _write(file: BinaryIO, source: str, each: Export) -> str:
    """Writes the line, or says why there is none."""
    text = each.content
    if text is None:
        return each.reason
    if isinstance(text, bytes):
        try:
            text = str(WholeDescriptor(text))
        except ValueError as error:
            return f"no text is it: {error}"
    if re.search(r"[\x00-\x1f\x7f]", each.key + text):
        raise Invalid(f"{source}: line {each.number}: a control character: a key and a descriptor are one line")
    file.write(f"{each.key}\t{text.strip()}\n".encode("utf-8", "surrogateescape"))
    return ""


def _exports_of(source: str, columns: tuple[str, str]) -> Iterator[Export]:
    lines = ((number, line) for number, line in lines_of(source, encoding_in(source)))
    first = next((line for line in lines if line[1].strip()), (1, ""))
    return _reader_of(first[1], columns)(source, chain((first,), lines))


def _reader_of(line: str, columns: tuple[str, str]) -> Callable[[str, Iterator[Line]], Iterator[Export]]:
    """What reads a file whose first line that isn't blank is this."""
    if line.startswith(("Windows Registry Editor", "REGEDIT4")):
        return _of_registry
    if line.startswith("#TYPE") or columns[1] in columns_of(line):
        return lambda name, lines: _of_csv(name, lines, columns)
    if re.match("[OGDS]:", line):
        return _of_sddl
    if line.startswith("#") or is_ldif(line):
        return _of_ldif
    return lambda name, lines: (Export(number, path, sddl) for number, path, sddl in saved_rows(name, lines))


def _of_sddl(name: str, lines: Iterator[Line]) -> Iterator[Export]:
    """A descriptor a line, as `sc sdshow` prints one after a blank line."""
    for number, line in lines:
        if line.strip():
            yield Export(number, f"{name}:{number}", line)


def _of_csv(name: str, lines: Iterator[Line], columns: tuple[str, str]) -> Iterator[Export]:
    rows = CsvRows(name, lines)
    for column in columns:
        if rows.columns.count(column) != 1:
            raise rows.invalid(f"a header with the column {column} once is required: --columns KEY,SDDL names others")
    for number, cells in rows.rows():
        sddl = cells[columns[1]]
        yield Export(number, cells[columns[0]], sddl if sddl.strip() else None, "the cell is empty")


def _of_ldif(name: str, lines: Iterator[Line]) -> Iterator[Export]:
    ldif = Ldif(name, lines)
    for record in ldif.records():
        yield from _of_record(ldif, record)


def _of_record(ldif: Ldif, record: Record) -> Iterator[Export]:
    """The descriptors of an entry, that of the object first; each object has one, which not everybody may read."""
    found = [value for value in record.values if value.name in _SYNTAX]
    if not any(value.name == _OF_OBJECTS for value in found):
        yield Export(record.number, record.dn, None, "the entry has no nTSecurityDescriptor")
    for value in found:
        key = record.dn if value.name == _OF_OBJECTS else f"{record.dn} {value.name}"
        yield Export(value.number, key, _content(ldif, value))


def _content(ldif: Ldif, value: Value) -> str | bytes:
    return value.raw if not value.mark and re.match("[OGDS]:", value.raw) else ldif.data(value)


def _of_registry(name: str, lines: Iterator[Line]) -> Iterator[Export]:
    """Each value of which the bytes are a descriptor, or begin as one."""
    key = ""
    for number, line in _unfolded(lines):
        if line.startswith("[") and line.endswith("]"):
            key = line[1:-1]
        elif line.startswith(("@", '"')):
            value = _VALUE.match(line)
            if value is None:
                raise Invalid(f"{name}: line {number}: a name, '=' and a value are expected, and not {line[:40]!a}")
            content = bytes.fromhex(value[2].replace(",", " ")) if value[2] else b""
            if content[:1] == b"\1" and len(content) > 3 and content[3] & _SELF_RELATIVE:
                yield Export(number, key if value[1] == "@" else f"{key}\\{_unescaped(value[1])}", content)


def _unescaped(name: str) -> str:
    return re.sub(r"\\(.)", r"\1", name[1:-1])


def _unfolded(lines: Iterator[Line]) -> Iterator[Line]:
    """The lines, each with those that go on after a backslash at its end."""
    at, whole = 0, ""
    for number, line in lines:
        at, whole = at or number, whole + line.strip()
        if not whole.endswith("\\"):
            yield at, whole
            at, whole = 0, ""
        whole = whole.removesuffix("\\")
    if whole:
        yield at, whole
