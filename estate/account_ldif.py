"""Accounts of a directory, from LDIF: [MS-ADTS] and [MS-ADA1] to [MS-ADA3] have the attributes."""

import re
from collections.abc import Iterator
from itertools import groupby

from directory import Account, Directory, Key, Kind, fault_of_name
from ldif import Ldif, Record, Value
from lines import Line
from sids import sid_of_bytes, sid_of_text

#: groupType: a group without this bit is a distribution group. [MS-ADTS] 2.2.12.
_SECURITY_ENABLED = 0x80000000
#: userAccountControl. [MS-ADTS] 2.2.16.
_ACCOUNT_DISABLE = 0x2
_CLASSES = {
    "group": Kind.GROUP,
    "user": Kind.USER,
    "computer": Kind.USER,
    "inetorgperson": Kind.USER,
    "msds-managedserviceaccount": Kind.USER,
    "msds-groupmanagedserviceaccount": Kind.USER,
    "msds-delegatedmanagedserviceaccount": Kind.USER,
    "foreignsecurityprincipal": Kind.FOREIGN,
}
_ONE_VALUE = {
    "objectsid", "samaccountname", "userprincipalname", "grouptype", "primarygroupid", "useraccountcontrol",
    "isdeleted", "ncname", "netbiosname",
}  # fmt: skip
_MORE_VALUES = {"objectclass", "member", "memberof", "sidhistory"}
_RANGE = re.compile(r"(?:^|;)range=(\d{1,9})-(\d{1,9}|\*)(?:;|$)")


def kind_of_class(classes: set[str]) -> Kind | None:
    """By the classes of an object, in small letters. None if they aren't known."""
    return next((kind for name, kind in _CLASSES.items() if name in classes), Kind.OTHER if classes else None)


def is_security(group_type: int) -> bool:
    return bool(group_type & _SECURITY_ENABLED)


def is_disabled(account_control: int) -> bool:
    return bool(account_control & _ACCOUNT_DISABLE)


def number_in(text: str) -> int | None:
    """A number of 32 bits, which directories print with a sign."""
    number = int(text) if re.fullmatch(r"-?[0-9]{1,10}", text) else 1 << 32
    return number % (1 << 32) if -(1 << 31) <= number < 1 << 32 else None


def read_ldif(directory: Directory, name: str, lines: Iterator[Line]) -> None:
    ldif = Ldif(name, lines)
    for record in ldif.records():
        _Entry(directory, ldif, record).add()


class _Entry:
    """An entry of a directory."""

    def __init__(self, directory: Directory, ldif: Ldif, record: Record) -> None:
        self._directory, self._ldif = directory, ldif
        self.place = f"{ldif.name}: line {record.number}"
        #: (The root of a directory has no name.)
        self._key: Key | None = directory.by_dn(record.dn, self.place) if record.dn else None
        self._one: dict[str, Value] = {}
        self._more: dict[str, list[Value]] = {name: [] for name in _MORE_VALUES}
        for value in record.values:
            if value.name in _MORE_VALUES:
                self._more[value.name].append(value)
            elif value.name in _ONE_VALUE:
                if value.name in self._one:
                    raise ldif.invalid(value.number, f"a second value of {value.name}")
                self._one[value.name] = value

    def add(self) -> None:
        if self._key is not None:
            self._directory.add(self._key, self._account())
            self._add_members(self._key)
            self._add_domain()

    def _account(self) -> Account:
        group_type, control = self._number("grouptype"), self._number("useraccountcontrol")
        sid = self._one.get("objectsid")
        return Account(
            self.place,
            self._kind(),
            None if sid is None else self._sid(sid),
            self._texts("samaccountname"),
            self._texts("userprincipalname"),
            is_security=None if group_type is None else is_security(group_type),
            is_disabled=None if control is None else is_disabled(control),
            primary_number=self._number("primarygroupid"),
            history=[self._sid(value) for value in self._more["sidhistory"]],
        )

    def _kind(self) -> Kind | None:
        """By the classes; without them by what only groups have, or only users."""
        if self._texts("isdeleted") == ["TRUE"]:
            return Kind.OTHER
        kind = kind_of_class({self._ldif.text(value).lower() for value in self._more["objectclass"]})
        if kind is None and ("grouptype" in self._one or self._more["member"]):
            return Kind.GROUP
        return Kind.USER if kind is None and {"useraccountcontrol", "primarygroupid"} & self._one.keys() else kind

    def _texts(self, name: str) -> list[str]:
        return [self._ldif.text(self._one[name])] if name in self._one else []

    def _number(self, name: str) -> int | None:
        if name not in self._one:
            return None
        value = self._one[name]
        number = number_in(self._ldif.text(value))
        if number is None:
            raise self._ldif.invalid(value.number, f"{name} is a number of 32 bits, and not {value.raw[:40]!a}")
        return number

    def _sid(self, value: Value) -> str:
        """A SID, in its bytes or as ldbsearch prints it."""
        data = self._ldif.data(value)
        sid = sid_of_bytes(data) or sid_of_text(data.decode("latin-1"))
        if sid is None:
            raise self._ldif.invalid(value.number, f"{value.name} isn't a SID: {value.raw[:80]!a}")
        return sid

    def _add_members(self, key: Key) -> None:
        for name in ("member", "memberof"):
            for options, values in groupby(self._more[name], lambda value: value.options):
                found = _RANGE.search(options)
                if found:
                    self._directory.ranges.setdefault((key, name), []).append((int(found[1]), found[2]))
                for value in values:
                    if value.raw or not found:
                        other = self._directory.by_dn(self._ldif.text(value), f"{self._ldif.name}: line {value.number}")
                        self._directory.edges.append((key, other) if name == "member" else (other, key))

    def _add_domain(self) -> None:
        """The NetBIOS name of a domain, by a crossRef."""
        if "ncname" in self._one and "netbiosname" in self._one:
            value = self._one["netbiosname"]
            name = self._ldif.text(value)
            if fault_of_name(name) is not None or "\\" in name:
                raise self._ldif.invalid(value.number, f"netbiosname isn't a name of a domain: {name[:40]!a}")
            above = self._directory.by_dn(self._ldif.text(self._one["ncname"]), self.place)
            if self._directory.domains.setdefault(above[1], name) != name:
                raise self._ldif.invalid(value.number, "the domain has another name before")
