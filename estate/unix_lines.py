"""Lines of a Unix system about accounts: of `getent passwd`, `getent group` and `wbinfo --lookup-sids`."""

import re
from typing import NamedTuple

from sids import UNIX_GROUP, UNIX_USER

_NAMED = re.compile(r"(S-1(?:-\d+)+)\s+(?:->\s+)?(\S(?:.*\S)?)")
#: What `wbinfo --lookup-sids` writes after a name: the kind of the account.
_KIND = re.compile(r"(.*\S)\s+(\d+)")


class NamedSid(NamedTuple):
    """A line `SID NAME`, or one of wbinfo, which says by a number what kind of account it is."""

    sid: str
    name: str
    kind: int | None


class PasswdLine(NamedTuple):
    """A user, whose SID Samba writes by its number."""

    name: str
    sid: str
    #: The SID of the primary group, if its cell is a number.
    group: str | None


class GroupLine(NamedTuple):
    """A group, and the names of its members."""

    name: str
    sid: str
    members: tuple[str, ...]


def named_sid(line: str) -> NamedSid | None:
    found = _NAMED.fullmatch(line)
    if found is None:
        return None
    kind = _KIND.fullmatch(found[2]) if "->" in line else None
    return NamedSid(found[1], kind[1], int(kind[2])) if kind else NamedSid(found[1], found[2], None)


def getent_line(line: str) -> PasswdLine | GroupLine | None:
    cells = line.split(":")
    if len(cells) not in (4, 7) or not cells[0] or not _is_number(cells[2]):
        return None
    if len(cells) == 7:
        group = f"{UNIX_GROUP}{int(cells[3])}" if _is_number(cells[3]) else None
        return PasswdLine(cells[0], f"{UNIX_USER}{int(cells[2])}", group)
    return GroupLine(cells[0], f"{UNIX_GROUP}{int(cells[2])}", tuple(filter(None, cells[3].split(","))))


def _is_number(text: str) -> bool:
    return text.isascii() and text.isdecimal() and len(text) <= 20
