"""Accounts from CSV that PowerShell exports: of Get-ADUser, Get-ADComputer, Get-ADGroup and Get-ADGroupMember."""

import re
from collections.abc import Iterator

from account_ldif import is_disabled, is_security, kind_of_class, number_in
from csv_rows import CsvRows
from directory import Account, Directory, Key, Kind
from lines import Line
from sids import sid_of_text

#: How a collection begins that Export-Csv prints by the name of its type.
_TYPE = re.compile(r"(System|Microsoft)\.[\w.]+\.")
_JOINED = re.compile(r"(?:[^;\\]|\\.|\\$)+", re.DOTALL)
_TRUTHS = {"true": True, "false": False, "": None}
_CATEGORIES = {"security": True, "1": True, "distribution": False, "0": False, "": None}


def read_csv(directory: Directory, name: str, lines: Iterator[Line]) -> None:
    _Export(directory, CsvRows(name, lines)).read()


class _Export:
    """A file, each of whose rows is an account; with a column Group or GroupSid also one of the group's members."""

    def __init__(self, directory: Directory, rows: CsvRows) -> None:
        self._directory, self._rows = directory, rows
        self._cells: dict[str, str] = {}

    def read(self) -> None:
        columns = self._rows.columns
        twice = sorted({column for column in columns if column and columns.count(column) > 1})
        if twice or not {"sid", "objectsid"}.intersection(columns):
            raise self._rows.invalid(
                f"the column {twice[0][:40]!a} twice" if twice else "a header with the column SID is required"
            )
        for _, self._cells in self._rows.rows():
            self._read_row()

    @property
    def _place(self) -> str:
        return f"{self._rows.name}: line {self._rows.number}"

    def _cell(self, *columns: str) -> str:
        """The text of the first of these columns that has one, without blanks around it."""
        text = next(filter(None, (self._cells.get(column, "").strip() for column in columns)), "")
        if _TYPE.match(text):
            raise self._rows.invalid(f"{columns[0]} is the name of a type: join its values by ';' before the export")
        return text

    def _read_row(self) -> None:
        sid, dn = self._sid("sid", "objectsid"), self._cell("distinguishedname")
        key: Key | None = self._directory.by_dn(dn, self._place) if dn else None
        if key is None and sid is not None:
            key = ("sid", sid)
        if key is None:
            raise self._rows.invalid("it has neither a SID nor a DistinguishedName")
        self._directory.add(key, self._account(sid))
        for each in self._dns("memberof"):
            self._directory.edges.append((each, key))
        for each in self._dns("member", "members"):
            self._directory.edges.append((key, each))
        if {"group", "groupsid"}.intersection(self._cells):
            self._directory.edges.append((self._group(), key))

    def _account(self, sid: str | None) -> Account:
        group_type, control = self._number("grouptype"), self._number("useraccountcontrol")
        primary = self._cell("primarygroup")
        category = self._one_of(_CATEGORIES, "groupcategory")
        enabled = self._one_of(_TRUTHS, "enabled")
        if enabled is None and control is not None:
            enabled = not is_disabled(control)
        return Account(
            self._place,
            self._kind(sid is not None),
            sid,
            # (blanks around a name are part of it)
            list(filter(None, [self._cells.get("samaccountname")])),
            list(filter(None, [self._cells.get("userprincipalname")])),
            is_security=category if group_type is None else is_security(group_type),
            is_disabled=None if enabled is None else not enabled,
            primary_number=self._number("primarygroupid"),
            primary=self._directory.by_dn(primary, self._place) if primary else None,
            history=self._history(),
        )

    def _kind(self, has_sid: bool) -> Kind | None:
        """By the class; without a column for it by the columns that only groups have, or only users. (The column has
        one class, which may be one made of that of users.)"""
        named = self._cell("objectclass").lower()
        kind = kind_of_class({named} if named else set())
        if kind is Kind.OTHER and has_sid:
            return None
        if kind is None and {"groupcategory", "groupscope", "grouptype"}.intersection(self._cells):
            return Kind.GROUP
        of_users = {"enabled", "userprincipalname", "useraccountcontrol", "primarygroup", "primarygroupid"}
        return Kind.USER if kind is None and of_users.intersection(self._cells) else kind

    def _sid(self, *columns: str) -> str | None:
        text = self._cell(*columns)
        sid = sid_of_text(text)
        if text and sid is None:
            raise self._rows.invalid(f"{columns[0]} isn't a SID: {text[:80]!a}")
        return sid

    def _number(self, column: str) -> int | None:
        text = self._cell(column)
        number = number_in(text)
        if text and number is None:
            raise self._rows.invalid(f"{column} is a number of 32 bits, and not {text[:40]!a}")
        return number

    def _one_of(self, known: dict[str, bool | None], column: str) -> bool | None:
        text = self._cell(column).lower()
        if text not in known:
            raise self._rows.invalid(f"{column} has an unknown value: {text[:40]!a}")
        return known[text]

    def _history(self) -> list[str]:
        made = []
        for text in self._cell("sidhistory").split(";"):
            sid = sid_of_text(text.strip())
            if text.strip() and sid is None:
                raise self._rows.invalid(f"sidhistory isn't SIDs with ';' between them: {text[:80]!a}")
            made += [sid] if sid else []
        return made

    def _dns(self, *columns: str) -> list[Key]:
        joined = _JOINED.findall(self._cell(*columns))
        return [self._directory.by_dn(each.strip(" "), self._place) for each in joined if each.strip(" ")]

    def _group(self) -> Key:
        """The group whose member the row is: by its SID or its DN, or by a name that one group has."""
        sid = self._sid("groupsid")
        text = self._cell("group")
        if sid is None and not text:
            raise self._rows.invalid("the group is empty")
        sid = sid or sid_of_text(text)
        if sid is not None:
            return ("sid", sid)
        if re.match(r"[A-Za-z0-9.-]+=", text):
            return self._directory.by_dn(text, self._place)
        return self._directory.by_name("group", text, self._place)
