"""`estate schema`: the names of object types, as a file. [MS-ADTS] 3.1.1.2 and 5.1.3.2.1 have the attributes."""

import uuid
from collections.abc import Iterator

from atomic_file import atomic_file, check_replaced
from directory import fault_of_name
from errors import Invalid
from ldif import Ldif, Record, Value
from lines import encoding_in, lines_of
from table import plural

_HEAD = "# Object types by estate: classes, attributes, property sets, rights."
#: Of each class of objects: the attribute with the GUID, and those with names.
_ATTRIBUTES = {
    "classschema": ("schemaidguid", ("ldapdisplayname",)),
    "attributeschema": ("schemaidguid", ("ldapdisplayname",)),
    "controlaccessright": ("rightsguid", ("cn", "displayname")),
}
#: The words of the file, in its order, and what its rows are about.
_KINDS = {"class": "class", "attribute": "attribute", "set": "property set", "right": "right"}
#: validAccesses of a property set: to read and to write properties. [MS-ADTS] 5.1.3.2.1.
_PROPERTY_ACCESSES = "48"

#: The word of a row, the GUID and the name.
Row = tuple[str, str, str]


def write_schema(sources: list[str], file_name: str) -> str:
    """Writes what files of LDIF say, and returns the counts as a text. Invalid if one can't be understood: then nothing
    is written."""
    check_replaced(file_name, _HEAD, "schema file")
    rows: set[Row] = set()
    for source in sources:
        ldif = Ldif(source, lines_of(source, encoding_in(source)))
        for record in ldif.records():
            rows.update(_rows(ldif, record))
    if not rows:
        raise Invalid(f"{sources[0]}: it has no class, attribute or right with a GUID and a name")
    order = list(_KINDS)
    with atomic_file(file_name) as file:
        lines = (" ".join(row) for row in sorted(rows, key=lambda row: (order.index(row[0]), row[2].lower(), row)))
        file.writelines(f"{line}\n".encode() for line in (_HEAD, *lines))
    return ", ".join(_counted(len({guid for word, guid, _ in rows if word == kind}), _KINDS[kind]) for kind in order)


def _counted(count: int, what: str) -> str:
    return f"{count:,} classes" if what == "class" and count != 1 else plural(count, what)


def _rows(ldif: Ldif, record: Record) -> Iterator[Row]:
    """The rows of an entry; none if it is no object type."""
    classes = {ldif.text(value).lower() for value in record.values if value.name == "objectclass"}
    found = next((name for name in _ATTRIBUTES if name in classes), None)
    if found is None:
        return
    guid_name, names = _ATTRIBUTES[found]
    guids = [_guid(ldif, value) for value in record.values if value.name == guid_name]
    accesses = [ldif.text(value) for value in record.values if value.name == "validaccesses"]
    word = {"classschema": "class", "attributeschema": "attribute"}.get(found)
    if word is None:
        word = "set" if accesses == [_PROPERTY_ACCESSES] else "right"
    for value in record.values:
        if value.name in names:
            yield from ((word, guid, _name(ldif, value)) for guid in guids)


def _guid(ldif: Ldif, value: Value) -> str:
    """A GUID, in its bytes or as ldbsearch prints it."""
    data = ldif.data(value)
    try:
        return str(uuid.UUID(bytes_le=data) if len(data) == 16 else uuid.UUID(data.decode("ascii")))
    except ValueError as error:
        raise ldif.invalid(value.number, f"{value.name} isn't a GUID: {value.raw[:80]!a}") from error


def _name(ldif: Ldif, value: Value) -> str:
    name = ldif.text(value)
    fault = fault_of_name(name)
    if fault is not None:
        raise ldif.invalid(value.number, f"{value.name}: {fault}: {name[:40]!a}")
    return name
