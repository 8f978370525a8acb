"""Which format a source of accounts has, by its content; and the lines of a Unix system."""

from collections.abc import Callable, Iterator
from itertools import chain, islice

from account_csv import read_csv
from account_hive import is_hive, read_hive
from account_ldif import read_ldif
from account_samba import is_groupmap, is_pdbedit, read_groupmap, read_pdbedit
from csv_rows import columns_of
from directory import Account, Directory, Kind
from errors import Invalid
from ldif import is_ldif
from lines import Line, encoding_in, lines_of
from sids import sid_of_text
from unix_lines import GroupLine, NamedSid, getent_line, named_sid

#: What kind of account the numbers of wbinfo mean, by SID_NAME_USE of [MS-LSAT] 2.2.13.
_KINDS = {1: Kind.USER, 2: Kind.GROUP, 4: Kind.GROUP, 5: Kind.GROUP, 9: Kind.USER}
#: The numbers of accounts that are deleted, invalid or unknown, whose names are none.
_NOBODY = (6, 7, 8)


def read_sources(names: list[str]) -> Directory:
    """What files of these names say. Invalid if one can't be understood, or if two contradict each other."""
    directory = Directory()
    for name in names:
        if is_hive(name):
            read_hive(directory, name)
        else:
            _read_lines(directory, name)
    return directory


def _read_lines(directory: Directory, name: str) -> None:
    lines = lines_of(name, encoding_in(name))
    before: list[Line] = []
    for line in lines:
        before.append(line)
        if _shows_format(line[1]):
            break
    else:
        raise Invalid(f"{name}: it has no line with an account")
    after = list(islice(lines, 1))
    reader = read_groupmap if after and is_groupmap(after[0][1]) else _reader_of(name, line)
    reader(directory, name, chain(before, after, lines))


def _shows_format(line: str) -> bool:
    """Whether the line shows what the file is: a comment doesn't, nor a line that continues one in LDIF."""
    return bool(line.strip()) and (not line.startswith(("#", " ")) or line.startswith("#TYPE"))


def _reader_of(name: str, line: Line) -> Callable[[Directory, str, Iterator[Line]], None]:
    number, text = line
    if is_pdbedit(text):
        return read_pdbedit
    if is_ldif(text):
        return read_ldif
    if named_sid(text) or getent_line(text):
        return _read_unix
    if text.startswith("#TYPE") or {"sid", "objectsid"}.intersection(columns_of(text)):
        return read_csv
    raise Invalid(
        f"{name}: line {number}: LDIF, a CSV with a column SID, a hive, or what getent, wbinfo, pdbedit or net prints "
        f"is expected, and not {text[:40]!a}"
    )


def _read_unix(directory: Directory, name: str, lines: Iterator[Line]) -> None:
    for number, line in lines:
        if line.strip() and not line.startswith("#"):
            place = f"{name}: line {number}"
            found = named_sid(line) or getent_line(line)
            sid = None if found is None else sid_of_text(found.sid)
            if found is None or sid is None:
                raise Invalid(f"{place}: a line of getent or wbinfo is expected, and not {line[:40]!a}")
            if isinstance(found, NamedSid):
                names = [] if found.kind in _NOBODY else [found.name]
                directory.add(("sid", sid), Account(place, _KINDS.get(found.kind or 0), sid, full_names=names))
            elif isinstance(found, GroupLine):
                directory.add(("sid", sid), Account(place, Kind.GROUP, sid, [found.name], is_security=True))
                for member in found.members:
                    directory.edges.append((("sid", sid), directory.by_name("user", member, place)))
            else:
                group = sid_of_text(found.group or "")
                if group is None:
                    raise Invalid(f"{place}: the number of a group is expected")
                account = Account(place, Kind.USER, sid, [found.name], primary=("sid", group))
                directory.add(("sid", sid), account)
