"""Accounts of a Samba server: what `pdbedit -L -v` and `net groupmap list verbose` print."""

import re
from collections.abc import Callable, Iterator
from dataclasses import dataclass, field

from directory import Account, Directory, Kind
from errors import Invalid
from lines import Line
from sids import UNIX_GROUP, domain_of, sid_of_text

_RULE = re.compile(r"-{4,}")
_CELL = re.compile(r"\t?([A-Z][A-Za-z ]*[A-Za-z]) *: ?(.*)")
_FLAGS = re.compile(r"\[[A-Z ]*\]")
#: The groups that are in tokens, and whether they may have members by SID, which no line of the list is.
_KINDS = {"Domain Group": False, "Local Group": True, "Well-known Group": True}
#: The number of no group.
_NO_GID = (1 << 32) - 1


def is_pdbedit(first: str) -> bool:
    """Whether it is the first line of `pdbedit -L -v`."""
    return bool(_RULE.fullmatch(first)) or first.startswith("Unix username:")


def is_groupmap(second: str) -> bool:
    """Whether it is the line after the first one of `net groupmap list verbose`, which is a name."""
    return bool(re.match(r"\tSID *: ", second))


@dataclass(slots=True)
class _Record:
    """Lines `NAME: VALUE` after a head."""

    place: str
    head: str
    cells: dict[str, str] = field(default_factory=dict)

    def cell(self, name: str) -> str:
        if name not in self.cells:
            raise self.invalid(f"no line {name!a} follows")
        return self.cells[name]

    def sid(self, name: str) -> str:
        sid = sid_of_text(self.cell(name))
        if sid is None:
            raise self.invalid(f"{name} isn't a SID: {self.cells[name][:80]!a}")
        return sid

    def invalid(self, text: str) -> Invalid:
        return Invalid(f"{self.place}: {text}")


def _records(name: str, lines: Iterator[Line], is_head: Callable[[str], bool]) -> Iterator[_Record]:
    record = _Record(name, "")
    for number, line in lines:
        place = f"{name}: line {number}"
        if is_head(line):
            yield record
            record = _Record(place, line)
        elif line.strip():
            found = _CELL.fullmatch(line)
            if found is None or found[1] in record.cells:
                expected = "a line NAME: VALUE is expected" if found is None else f"one line {found[1]!a} is expected"
                raise Invalid(f"{place}: {expected}, and not {line[:40]!a}")
            record.cells[found[1]] = found[2].strip()
            record.place = record.place if record.head else place
    yield record


def read_pdbedit(directory: Directory, name: str, lines: Iterator[Line]) -> None:
    """Users, by their Unix names too."""
    directory.is_of_server = True
    for record in _records(name, lines, lambda line: bool(_RULE.fullmatch(line))):
        if record.cells:
            _add_user(directory, record)


def _add_user(directory: Directory, record: _Record) -> None:
    sid, unix_name, flags = record.sid("User SID"), record.cell("Unix username"), record.cell("Account Flags")
    if not unix_name:
        raise record.invalid("the Unix username is empty")
    if not _FLAGS.fullmatch(flags):
        raise record.invalid(f"Account Flags has an unknown value: {flags[:40]!a}")
    # (a user without a name of Windows has the one of Unix there too)
    names = [record.cells.get("NT username") or unix_name]
    primary = record.sid("Primary Group SID")
    account = Account(record.place, Kind.USER, sid, names, is_disabled="D" in flags, primary=("sid", primary))
    directory.add(("sid", sid), account)
    if directory.unix_users.setdefault(unix_name, sid) != sid:
        raise record.invalid(f"the Unix user {unix_name!a} has another SID before")
    machine, domain = domain_of(sid), record.cells.get("Domain", "")
    if "\\" in domain:
        raise record.invalid(f"Domain isn't the name of a machine: {domain[:40]!a}")
    if machine is not None and domain:
        directory.machines.setdefault(machine, domain)


def read_groupmap(directory: Directory, name: str, lines: Iterator[Line]) -> None:
    """Groups, each with the Unix group whose members it has."""
    directory.is_of_server = directory.has_mapping = True
    for record in _records(name, lines, lambda line: bool(line.strip()) and not line.startswith("\t")):
        if record.head or record.cells:
            _add_group(directory, record)


def _add_group(directory: Directory, record: _Record) -> None:
    sid, kind, gid = record.sid("SID"), record.cell("Group type"), record.cell("Unix gid")
    if not re.fullmatch(r"[0-9]{1,10}", gid) or int(gid) > _NO_GID:
        raise record.invalid(f"the Unix gid is a number of 32 bits, and not {gid[:40]!a}")
    known = Kind.GROUP if kind in _KINDS else None
    directory.add(("sid", sid), Account(record.place, known, sid, [record.head], is_security=True))
    if int(gid) != _NO_GID:
        directory.edges.append((("sid", sid), ("sid", f"{UNIX_GROUP}{int(gid)}")))
    if _KINDS.get(kind, False):
        directory.missing.append((sid, "what 'net groupmap listmem' prints"))
