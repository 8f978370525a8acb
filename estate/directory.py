"""What sources say about accounts: users, groups, and who is a member of which. joining.py makes one answer of it."""

import unicodedata
from dataclasses import dataclass, field
from enum import Enum
from typing import Literal, TypeVar

from dn import key_of
from errors import Invalid

_T = TypeVar("_T")


class Kind(Enum):
    #: No account, as a container.
    OTHER = "no account"
    #: A foreignSecurityPrincipal: it stands for an account of another domain, or a well-known one.
    FOREIGN = "a foreign security principal"
    USER = "a user"
    GROUP = "a group"


#: Which kinds may become another, if a second source knows more.
_WEAK = (None, Kind.OTHER, Kind.FOREIGN)

#: Whom a source means: by a SID, a DN, the name of a user, or that of a group.
Key = tuple[Literal["sid", "dn", "user", "group"], str]


@dataclass(slots=True)
class Account:
    """What is said of one object. What is None isn't said."""

    #: The file and line that said so first.
    place: str
    kind: Kind | None = None
    sid: str | None = None
    #: Names without that of the domain; user principal names; and names as wbinfo prints them, in full.
    names: list[str] = field(default_factory=list)
    principal_names: list[str] = field(default_factory=list)
    full_names: list[str] = field(default_factory=list)
    #: Of a group: whether it is no distribution group, which is in no token.
    is_security: bool | None = None
    is_disabled: bool | None = None
    #: The primary group: its number in the account's domain, or whom else the source means.
    primary_number: int | None = None
    primary: Key | None = None
    #: The SIDs that the account had in other domains.
    history: list[str] = field(default_factory=list)

    def join(self, other: "Account") -> None:
        """Adds what is also said of the same object. Invalid if it contradicts."""
        if self.kind in _WEAK or other.kind in _WEAK:
            self.kind = max(self.kind, other.kind, key=_strength)
        else:
            self._one(other, self.kind, other.kind)
        self.sid = self._one(other, self.sid, other.sid)
        self.is_security = self._one(other, self.is_security, other.is_security, "a security group")
        self.is_disabled = self._one(other, self.is_disabled, other.is_disabled, "disabled")
        self.primary_number = self._one(other, self.primary_number, other.primary_number)
        self.primary = self.primary or other.primary
        self.names += other.names
        self.principal_names += other.principal_names
        self.full_names += other.full_names
        self.history += other.history

    def _one(self, other: "Account", mine: _T | None, others: _T | None, what: str = "") -> _T | None:
        if mine is not None and others is not None and mine != others:
            who = self.sid or other.sid or "the object"
            said, before = (each.value if isinstance(each, Kind) else str(each) for each in (others, mine))
            if what:
                said, before = (what if each == "True" else f"not {what}" for each in (said, before))
            raise Invalid(f"{other.place}: {who}: {said} here, and {before} in {self.place}")
        return others if mine is None else mine


def _strength(kind: Kind | None) -> int:
    return -1 if kind is None else list(Kind).index(kind)


class Directory:
    """All that the sources say."""

    def __init__(self) -> None:
        self.accounts: dict[Key, Account] = {}
        #: Each a group and a member.
        self.edges: list[tuple[Key, Key]] = []
        #: NetBIOS names of domains, by the key of the domain's DN.
        self.domains: dict[str, str] = {}
        #: How a DN or a name is spelled in the first source that has it, and where that is.
        self.spelled: dict[Key, str] = {}
        self.places: dict[Key, str] = {}
        #: Of an attribute that came in ranges: the first and the last of each, of which the last may be '*'.
        self.ranges: dict[tuple[Key, str], list[tuple[int, str]]] = {}
        #: Users of a Samba server by their Unix names: their SIDs.
        self.unix_users: dict[str, str] = {}
        #: Names of machines, by the SIDs before those of their accounts.
        self.machines: dict[str, str] = {}
        #: Each a group, or what groups there may be, and what of its members no source says.
        self.missing: list[tuple[str, str]] = []
        #: Whether a source has a server's own accounts; and whether one says which groups Unix groups are there.
        self.is_of_server = self.has_mapping = False
        #: The one source that is a hive.
        self.hive: str | None = None
        self._keys: dict[str, Key] = {}

    def by_dn(self, text: str, place: str) -> Key:
        known = self._keys.get(text)
        if known is not None:
            return known
        try:
            key: Key = ("dn", key_of(text))
        except ValueError as error:
            raise Invalid(f"{place}: {error}") from error
        self._keys[text] = key
        self.spelled.setdefault(key, text)
        return key

    def by_sid(self, sid: str) -> Key:
        return ("sid", sid)

    def by_name(self, kind: Literal["user", "group"], name: str, place: str) -> Key:
        key: Key = (kind, name)
        self.spelled.setdefault(key, name)
        self.places.setdefault(key, place)
        return key

    def add(self, key: Key, account: Account) -> None:
        """What a source says of the object that it means by the key."""
        known = self.accounts.setdefault(key, account)
        if known is not account:
            known.join(account)


def fault_of_name(name: str) -> str | None:
    """Why a file of accounts can't have the name, if it can't."""
    if not name:
        return "the name is empty"
    if any(unicodedata.category(each) == "Cc" for each in name):
        return "the name has a control character"
    return "the name isn't UTF-8" if any("\ud800" <= each <= "\udfff" for each in name) else None
