"""Accounts of a Windows machine: the hive SAM, which `reg save HKLM\\SAM` writes.

[MS-SAMR] has what is kept of an account, and no document of Windows where: the layouts here are those that tools for
offline hives use. Whatever doesn't fit them makes the hive invalid: no part of it is taken."""

import importlib
import re
import struct
from collections.abc import Callable, Iterator
from typing import Any

from directory import Account, Directory, Kind
from errors import Failed, Invalid
from lines import start_of
from sids import BUILTIN, sid_of_bytes

_MARK = b"regf"
#: Two numbers of a hive's first block, which are equal if no change of it is in its logs alone.
_SEQUENCES = struct.Struct("<4x2I")
#: The value F of a user: its number, that of its primary group, and UserAccountControl.
_FIXED = struct.Struct("<48x3I")
#: USER_ACCOUNT_DISABLED of [MS-SAMR] 2.2.1.12.
_DISABLED = 0x1
#: The value C of a local group: its number; the offset and the length of its name; offset and length of its members'
#: SIDs, and how many these are. Offsets count from the end of this header.
_GROUP = struct.Struct("<I12x2I12x4x3I")
#: The SID of the machine is at the end of the value V of its domain: S-1-5-21 and three numbers.
_MACHINE, _MACHINE_BYTES = re.compile(r"S-1-5-21(-\d+){3}"), 24
_NUMBER = re.compile(r"[0-9A-F]{8}", re.IGNORECASE)
#: The one global group of a machine, called None, in which all its users are by their primary group.
_NONE = 513


def is_hive(name: str) -> bool:
    """Whether the file begins as a hive does."""
    return start_of(name, len(_MARK)) == _MARK


def read_hive(directory: Directory, name: str) -> None:
    if directory.hive not in (None, name):
        raise Invalid(f"{name}: the accounts of one machine are expected, and {directory.hive} has some too")
    directory.hive, directory.is_of_server = name, True
    first, second = _SEQUENCES.unpack(start_of(name, _SEQUENCES.size).ljust(_SEQUENCES.size, b"\0"))
    if first != second:
        raise Invalid(f"{name}: changes of it are in its logs alone: 'reg save HKLM\\SAM FILE' writes all of it")
    opened = _opener(name)
    try:
        _Sam(directory, name, opened(name)).read()
    except (RuntimeError, OSError, ValueError, struct.error) as error:
        raise Invalid(f"{name}: no hive SAM: {error}") from error


def _opener(name: str) -> Callable[[str], Any]:
    """What opens a hive by libhivex."""
    try:
        hivex = importlib.import_module("hivex").Hivex
    except ImportError as error:
        raise Failed(f"{name}: the module hivex is required for a hive: the package python3-hivex has it") from error

    def close(hive: Any) -> None:
        # (its own close prints a fault where the file couldn't be opened)
        if hasattr(hive, "_o"):
            hivex.__del__(hive)

    opener: Callable[[str], Any] = type("Hive", (hivex,), {"__del__": close})
    return opener


class _Sam:
    """The hive, by the calls of libhivex."""

    def __init__(self, directory: Directory, name: str, hive: Any) -> None:
        self._directory, self._name, self._hive = directory, name, hive

    def read(self) -> None:
        domains = self._key(self._hive.root(), "SAM", "Domains")
        machine = self._key(domains, "Account")
        sid = sid_of_bytes(self._value(machine, "V")[1][-_MACHINE_BYTES:]) or ""
        if not _MACHINE.fullmatch(sid):
            raise ValueError("Account\\V doesn't end in the SID of a machine")
        prefix = f"{sid}-"
        self._read_users(self._key(machine, "Users"), prefix)
        self._read_global_groups(self._key(machine, "Groups"), prefix)
        self._read_local_groups(self._key(machine, "Aliases"), prefix)
        self._read_local_groups(self._key(domains, "Builtin", "Aliases"), BUILTIN)

    def _key(self, key: int, *names: str) -> int:
        for name in names:
            found = self._hive.node_get_child(key, name)
            if found is None:
                raise ValueError(f"the key {name} is missing")
            key = int(found)
        return key

    def _value(self, key: int, name: str) -> tuple[int, bytes]:
        """The type and the bytes of a value, whose name is empty if it is the key's own."""
        for each in self._hive.node_values(key):
            if self._hive.value_key(each) == name:
                kind, data = self._hive.value_value(each)
                return int(kind), bytes(data)
        raise ValueError(f"the key {self._hive.node_name(key)!a} has no value {name!a}")

    def _numbered(self, key: int) -> Iterator[tuple[int, int]]:
        """The keys below that are named by a number: each number and key."""
        for each in self._hive.node_children(key):
            name = str(self._hive.node_name(each))
            if _NUMBER.fullmatch(name):
                yield int(name, 16), each
            elif name not in ("Names", "Members"):
                raise ValueError(f"an unknown key {name[:40]!a}")

    def _names(self, key: int) -> dict[int, str]:
        """The names of the accounts of a key by their numbers: of each name the number is the type of its value."""
        names: dict[int, str] = {}
        for each in self._hive.node_children(self._key(key, "Names")):
            number, name = self._value(each, "")[0], str(self._hive.node_name(each))
            if number in names:
                raise ValueError(f"the account {number} has two names")
            names[number] = name
        return names

    def _named(self, key: int) -> Iterator[tuple[int, int, str]]:
        """Each numbered key with its name: there is a name for each, and no other."""
        names = self._names(key)
        for number, each in self._numbered(key):
            if number not in names:
                raise ValueError(f"the account {number} has no name")
            yield number, each, names.pop(number)
        if names:
            raise ValueError(f"the account {min(names)} has a name alone")

    def _add(self, sid: str, kind: Kind, name: str, **said: Any) -> None:
        self._directory.add(("sid", sid), Account(self._name, kind, sid, [name], **said))

    def _read_users(self, key: int, prefix: str) -> None:
        for number, each, name in self._named(key):
            same, primary, control = _FIXED.unpack_from(self._value(each, "F")[1])
            if same != number:
                raise ValueError(f"the user {number} has the number {same} too")
            is_disabled = bool(control & _DISABLED)
            self._add(f"{prefix}{number}", Kind.USER, name, is_disabled=is_disabled, primary_number=primary)

    def _read_global_groups(self, key: int, prefix: str) -> None:
        for number, _, name in self._named(key):
            sid = f"{prefix}{number}"
            self._add(sid, Kind.GROUP, name, is_security=True)
            if number != _NONE:
                self._directory.missing.append((sid, "its members, which aren't taken from a hive"))

    def _read_local_groups(self, key: int, prefix: str) -> None:
        for number, each, name in self._named(key):
            sid = f"{prefix}{number}"
            self._add(sid, Kind.GROUP, name, is_security=True)
            for member in _members(self._value(each, "C")[1], number, name):
                self._directory.edges.append((("sid", sid), ("sid", member)))


def _members(value: bytes, number: int, name: str) -> Iterator[str]:
    """The SIDs of a local group's members, one after the other."""
    same, name_at, name_size, at, size, count = _GROUP.unpack_from(value)
    body = value[_GROUP.size :]
    written = body[name_at : name_at + name_size].decode("utf-16-le")
    if same != number or written.lower() != name.lower() or at + size > len(body):
        raise ValueError(f"the group {number} isn't laid out as a group named {name!a}")
    end = at + size
    for _ in range(count):
        length = 8 + 4 * body[at + 1] if at + 1 < end else 0
        sid = sid_of_bytes(body[at : min(at + length, end)])
        if sid is None:
            raise ValueError(f"the group {number} has a member without a SID")
        yield sid
        at += length
    if at != end:
        raise ValueError(f"the group {number} has more members than it counts")
