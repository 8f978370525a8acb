"""The users of a file of accounts: what descriptors grant each of them, by the groups that it really has."""

from collections.abc import Iterable, Iterator
from functools import cached_property, reduce
from itertools import product
from operator import or_
from typing import NamedTuple

from hudarin import Accounts, Descriptor, KeptDescriptor, Refused, Sid, Token, Verdict, mask

from errors import Failed, Invalid
from paths import Path, spelled
from script import Script
from sddl import parts_of
from table import Table

#: The access mask that asks for all that is granted ([MS-DTYP] 2.4.3).
_MAXIMUM_ALLOWED = 0x02000000
#: What a text that means no user has for a reason, and what helps.
_NO_USER = {
    "Unknown": "no account of {file} has this name: give another one of it, or a SID",
    "Ambiguous": "two accounts of {file} may be meant: add the domain, or give the SID",
    "NoUser": "it is no user of {file}: a line 'user SID NAME' makes it one",
    "Disabled": "its account is disabled by {file}, so it can't log on: name another user, or delete the line",
}
#: The same of a line that is none of accounts.
_NO_LINE = {
    "Keyword": "it begins with none of user, group, member, primary, disabled: estate accounts writes such a file",
    "Sid": "a SID is missing or invalid: correct it",
    "Name": "the name is missing, or has a control character: correct it",
    "Surplus": "something follows the last SID: delete it",
    "Incomplete": "it says that accounts are missing, so a user may lack groups: complete what estate accounts reads",
}
#: What of an argument follows the SID of a group, of the user or of its device.
_OF_GROUPS = ("", "deny", "off", "device")

#: Which users have which rights: sets of users by their rights.
Rights = dict[int, int]


class User(NamedTuple):
    """A user that may log on: a name of it, and its SID in full."""

    name: str
    sid: str


def numbers_in(users: int) -> Iterator[int]:
    """The numbers of the users of a set, from the lowest."""
    while users:
        lowest = users & -users
        yield lowest.bit_length() - 1
        users ^= lowest


def differing(before: Rights, after: Rights) -> dict[int, tuple[int, int]]:
    """The users whose rights differ, in their order, with those before and after."""
    found: dict[int, tuple[int, int]] = {}
    pairs = product(before.items(), after.items())
    for (had, users), (has, others) in ((one, other) for one, other in pairs if one[0] != other[0]):
        found |= dict.fromkeys(numbers_in(users & others), (had, has))
    return dict(sorted(found.items()))


def require_own_groups(words: Iterable[str], only_given: bool) -> None:
    """Invalid if an argument beside a file of accounts gives users other groups than they have by it."""
    if only_given:
        raise Invalid("--only-given: by --accounts each user has the groups of a logon: leave out one of both")
    for word in words:
        if not word.startswith("+") and word.partition("=")[2] in _OF_GROUPS:
            raise Invalid(
                f"{word}: by --accounts each user has the groups of the file: a line 'member GROUP USER' of it adds "
                "one, and 'sdstore --accounts' takes others"
            )


class People:
    """The users of a file of accounts that may log on, and those that Windows has everywhere: `with People(name) as
    people: ..`. They are numbered, and a set of them is an int with a bit for each."""

    def __init__(self, file_name: str) -> None:
        self._file_name, self._accounts = file_name, _accounts_in(file_name)
        self._tokens: dict[int, Token] = {}
        self._rights: dict[str, Rights] = {}

    def __enter__(self) -> "People":
        return self

    def __exit__(self, *_: object) -> None:
        for held in (*self._tokens.values(), self._accounts):
            held.close()

    @cached_property
    def users(self) -> list[User]:
        return [User(name, sid.full) for sid, name in self._accounts.users()]

    @property
    def all(self) -> int:
        """The set of all users."""
        return (1 << len(self.users)) - 1

    def sids(self, user: str) -> tuple[Sid, ...]:
        """The SID of the user that a text means, and those of its groups. Invalid if it may not log on."""
        try:
            return self._accounts.sids(user)
        except Refused as refused:
            why = _NO_USER.get(refused.name or "", "{refused}").format(file=self._file_name, refused=refused)
            raise Invalid(f"{user}: {why}") from refused

    def rights(self, text: str) -> Rights:
        """What a descriptor grants each user, of all rights."""
        found = self._rights.get(text)
        if found is None:
            found = self._rights[text] = {}
            descriptor = Descriptor.from_sddl(text)
            for users in self._alike(text):
                bits = _bits(descriptor.check_by(self._token(users), _MAXIMUM_ALLOWED))
                found[bits] = found.get(bits, 0) | users
        return found

    def granted(self, text: str, asked: int) -> dict[int, tuple[int, str]]:
        """The users to whom a descriptor grants some of the rights that are asked for: which, and by what."""
        found: dict[int, tuple[int, str]] = {}
        with KeptDescriptor(Descriptor.from_sddl(text)) as kept:
            for users in self._alike(text):
                parts = [part for part in kept.explain(self._token(users), asked).parts if part.is_granted]
                if parts:
                    rights = reduce(or_, (part.mask for part in parts))
                    reasons = ", ".join(f"{part.mask:#x} {part.why}" for part in parts)
                    found |= dict.fromkeys(numbers_in(users), (rights, reasons))
        return dict(sorted(found.items()))

    def _alike(self, text: str) -> list[int]:
        """The users in sets, of which each has just the same of the SIDs that the descriptor names. No other SID of a
        token decides ([MS-DTYP] 2.5.3.2), so a check of one user of a set is one of all."""
        sets = [self.all]
        for sid in _named_in(text):
            having = self._holders.get(sid, 0)
            sets = [part for users in sets for part in (users & having, users & ~having) if part]
        return sets

    @cached_property
    def _holders(self) -> dict[Sid, int]:
        """Who has a SID, of each that somebody has."""
        holders: dict[Sid, int] = {}
        pairs = ((1 << number, sid) for number, user in enumerate(self.users) for sid in self.sids(user.sid))
        for user, sid in pairs:
            holders[sid] = holders.get(sid, 0) | user
        return holders

    def _token(self, users: int) -> Token:
        """That of the first user of a set."""
        number = next(numbers_in(users))
        if number not in self._tokens:
            own, *groups = self.sids(self.users[number].sid)
            self._tokens[number] = Token(own, groups)
        return self._tokens[number]


def _accounts_in(name: str) -> Accounts:
    try:
        # (a text file's ends of lines would become others)
        with open(name, "rb") as file:
            data = file.read()
    except OSError as error:
        raise Failed(f"{name}: {error.strerror}") from error
    try:
        return Accounts(data.decode())
    except UnicodeDecodeError as error:
        line = data.count(b"\n", 0, error.start) + 1
        raise Invalid(f"{name}: line {line}: it isn't UTF-8") from error
    except Refused as refused:
        why = _NO_LINE.get(refused.name or "", str(refused))
        raise Invalid(f"{name}: line {refused.place}: {why}") from refused


def _named_in(text: str) -> list[Sid]:
    """The SIDs by which a descriptor decides, each once: its owner, for whom OWNER RIGHTS stands, and the trustees of
    its entries."""
    parts = parts_of(text)
    texts = [parts.owner, *(entry.rest.rpartition(";")[2] for entry in parts.entries or ())]
    return list(map(Sid.from_text, dict.fromkeys(texts)))


def _bits(verdict: Verdict) -> int:
    """The rights that a check of MAXIMUM_ALLOWED grants; it is denied where there are none."""
    if verdict.kind not in ("granted", "denied"):
        raise Failed(f"a check of all rights says {verdict}")
    return verdict.mask if verdict.is_granted else 0


def who(script: Script, path: Path, mask_text: str, people: People, table: Table) -> int:
    """A row for each user to whom a node grants some of the rights, as the tree is after the changes of the script, and
    how many these are."""
    granted = people.granted(script.descriptor(path), _asked(mask_text))
    for number, (rights, reasons) in granted.items():
        _row(table, path, rights, people.users[number], {"by": reasons})
    return len(granted)


def _asked(text: str) -> int:
    try:
        return mask(text)
    except Refused as refused:
        raise Invalid(f"{text}: not a mask: {refused}") from refused


def review(script: Script, top: Path, people: People, table: Table) -> int:
    """A row for each user that gains or loses rights at a node at or below a path, and how many users do."""
    found: set[int] = set()
    for change in script.changes():
        if change.path[: len(top)] == top:
            differences = differing(people.rights(change.before), people.rights(change.after))
            found.update(differences)
            say_differences(table, change.path, people, differences)
    return len(found)


def say_differences(table: Table, path: Path, people: People, differences: dict[int, tuple[int, int]]) -> None:
    """A row for what each user gains at a node, and one for what it loses, by the rights before and after."""
    for number, (had, has) in differences.items():
        _row(table, path, has & ~had, people.users[number], {"change": "gained"})
        _row(table, path, had & ~has, people.users[number], {"change": "lost"})


def _row(table: Table, path: Path, rights: int, user: User, more: dict[str, str]) -> None:
    """A row, if there are rights of which it is."""
    if rights:
        cells = {"path": spelled(path), "rights": f"{rights:#x}", "name": user.name, "sid": user.sid}
        table.row("person", cells | more)
