"""What sources say, joined to the users and groups that tokens are made of."""

from collections import Counter
from dataclasses import dataclass, field

from directory import Account, Directory, Key, Kind, fault_of_name
from dn import first_value, foreign_in, is_in
from errors import Invalid
from server import settle_server
from sids import BUILTIN, UNIX, domain_of, sid_of_text
from table import Cell, Table


@dataclass(slots=True)
class Joined:
    """The accounts, and what was left out."""

    #: The names of each user and each group, by its SID, in the order in which they are written.
    users: dict[str, list[str]] = field(default_factory=dict)
    groups: dict[str, list[str]] = field(default_factory=dict)
    #: Each a group and a member.
    members: set[tuple[str, str]] = field(default_factory=set)
    primaries: dict[str, str] = field(default_factory=dict)
    disabled: set[str] = field(default_factory=set)
    #: Rows of these kinds.
    unknown: int = 0
    skipped: int = 0
    #: Objects that are no accounts, and what isn't in tokens: distribution groups, and memberships in and of them, and
    #: of what is no account.
    others: int = 0
    distribution_groups: int = 0
    left_out_members: int = 0
    #: Groups of which no source says whether they are security groups: they are taken for such.
    assumed_groups: int = 0

    def counts(self) -> dict[str, Cell]:
        return {
            "users": len(self.users),
            "groups": len(self.groups),
            "members": len(self.members),
            "disabled": len(self.disabled),
            "distribution_groups": self.distribution_groups,
            "left_out_members": self.left_out_members,
            "other_objects": self.others,
            "assumed_groups": self.assumed_groups,
            "skipped": self.skipped,
            "unknown": self.unknown,
        }


class Joining:
    """One run, with a row for each thing that is left out and may be missing."""

    def __init__(self, directory: Directory, domain: str | None, table: Table) -> None:
        self._directory, self._domain, self._table = directory, domain, table
        self._by_sid: dict[str, Account] = {}
        #: Users and groups by the names that are written, in small letters; groups also by shorter ones.
        self._named: dict[tuple[str, str], set[str]] = {}
        self._named_groups: dict[str, set[str]] = {}
        #: By the names of the Unix system, whose case counts.
        self._unix_users: dict[str, str] = {}
        self._rows: set[tuple[str, tuple[tuple[str, str], ...]]] = set()
        self._distribution: set[str | None] = set()
        self._left_out: set[tuple[Key, Key]] = set()
        self._made = Joined()

    def run(self) -> Joined:
        settle_server(self._directory)
        self._join_by_sid()
        for sid in [sid for sid, account in self._by_sid.items() if account.kind in (Kind.USER, Kind.GROUP)]:
            self._add(sid, self._by_sid[sid])
        self._add_names()
        for group, member in self._directory.edges:
            self._add_member(group, member)
        self._find_missing_ranges()
        for missing in self._directory.missing:
            self._row("unknown", group=missing[0], member=missing[1])
        for what, cells in sorted(self._rows):
            self._table.row(what, dict(cells))
        self._made.left_out_members = len(self._left_out)
        kinds = Counter(what for what, _ in self._rows)
        self._made.unknown, self._made.skipped = kinds["unknown"], kinds["skipped"]
        return self._made

    def _row(self, what: str, **cells: str) -> None:
        self._rows.add((what, tuple(cells.items())))

    # Accounts

    def _join_by_sid(self) -> None:
        """One account for each SID, whatever names it has in the sources."""
        for key, account in self._directory.accounts.items():
            if account.kind is Kind.FOREIGN and account.sid is None:
                account.sid = sid_of_text(first_value(key[1]))
            if account.sid is not None and account.kind is not Kind.OTHER:
                known = self._by_sid.setdefault(account.sid, account)
                if known is not account:
                    known.join(account)
            elif account.kind in (Kind.USER, Kind.GROUP, Kind.FOREIGN):
                self._row("skipped", account=self._directory.spelled[key], why=f"{account.kind.value} without a SID")
            else:
                self._made.others += 1
        for sid, account in self._by_sid.items():
            if account.kind is None:
                self._row("skipped", account=sid, why="no source says whether it is a user or a group")

    def _add(self, sid: str, account: Account) -> None:
        """What is said of a user or a group, but names and members."""
        if account.kind is Kind.GROUP:
            if account.is_security is False:
                self._made.distribution_groups += 1
                self._distribution.add(sid)
                return
            self._made.groups[sid] = []
            self._made.assumed_groups += account.is_security is None
        else:
            self._made.users[sid] = []
            self._add_primary(sid, account)
            if account.is_disabled:
                self._made.disabled.add(sid)
        self._made.members.update((former, sid) for former in account.history if former != sid)

    def _add_primary(self, sid: str, account: Account) -> None:
        domain = sid.rpartition("-")[0]
        if account.primary_number is not None:
            self._made.primaries[sid] = f"{domain}-{account.primary_number}"
        elif account.primary is not None:
            group = self._sid_of(account.primary)
            if group is None:
                self._row("unknown", group=self._directory.spelled[account.primary], member=sid)
            else:
                self._made.primaries[sid] = group

    # Names

    def _add_names(self) -> None:
        """The names that are one account's. A name that two users have, or two groups, is of neither."""
        prefixes = self._prefixes()
        self._find_names(prefixes)
        made = (("user", self._made.users), ("group", self._made.groups))
        for kind, accounts in made:
            for sid, names in accounts.items():
                names += self._names_of(sid, prefixes.get(domain_of(sid) or ""))
                for name in names:
                    self._named.setdefault((kind, name.lower()), set()).add(sid)
        for kind, accounts in made:
            for sid, names in accounts.items():
                shared = [name for name in names if len(self._named[kind, name.lower()]) > 1]
                for name in shared:
                    self._row("skipped", account=sid, why="another account has the name too", name=name)
                names[:] = [name for name in names if name not in shared] or [sid]

    def _find_names(self, prefixes: dict[str, str]) -> None:
        """By which names other lines of the sources may mean an account, in the order of the sources."""
        self._unix_users.update(self._directory.unix_users)
        for sid, account in self._by_sid.items():
            if account.kind is Kind.GROUP and not sid.startswith(UNIX):
                prefix = prefixes.get(domain_of(sid) or "")
                full = [f"{prefix}\\{name}" for name in account.names if prefix]
                for name in [*account.names, *account.full_names, *full]:
                    self._named_groups.setdefault(name.lower(), set()).add(sid)
            elif account.kind is Kind.USER and sid.startswith(UNIX):
                for name in account.names:
                    self._unix_users.setdefault(name, sid)

    def _names_of(self, sid: str, prefix: str | None) -> list[str]:
        """The names in their order, each once in any case."""
        account = self._by_sid[sid]
        names: dict[str, str] = {}
        prefix = "BUILTIN" if sid.startswith(BUILTIN) else prefix
        local = [f"{prefix}\\{name}" if prefix else name for name in sorted(account.names)]
        for name in [*local, *sorted(account.principal_names), *sorted(account.full_names)]:
            why = fault_of_name(name)
            if why is None:
                names.setdefault(name.lower(), name)
            else:
                self._row("skipped", account=sid, why=why, name=name)
        return list(names.values())

    def _prefixes(self) -> dict[str, str]:
        """The names of domains, by their SIDs."""
        domains: dict[str, str] = {}
        place = ""
        for key, account in self._directory.accounts.items():
            domain = domain_of(account.sid or "") if account.kind in (Kind.USER, Kind.GROUP) else None
            if domain is not None and domain not in domains:
                of_directory = self._domain or (self._netbios(key[1]) if key[0] == "dn" else None)
                name = self._directory.machines.get(domain, of_directory)
                if name is not None:
                    domains[domain], place = name, account.place
        for name, count in Counter(domains.values()).items():
            if count > 1:
                sids = ", ".join(sorted(domain for domain, each in domains.items() if each == name))
                raise Invalid(f"{place}: {name!a} names one domain, and the accounts that it would name are of {sids}")
        return domains

    def _netbios(self, dn: str) -> str | None:
        """The name of the domain in which the object is, the nearest one above it."""
        above = [key for key in self._directory.domains if is_in(dn, key)]
        return self._directory.domains[max(above, key=len)] if above else None

    # Members

    def _add_member(self, group: Key, member: Key) -> None:
        group_sid, sid = self._sid_of(group), self._sid_of(member)
        if not self._distribution.isdisjoint((group_sid, sid)) or any(map(self._is_no_account, (group, member))):
            self._left_out.add((group, member))
        elif group_sid is None or sid is None:
            spelled = self._directory.spelled
            self._row("unknown", group=group_sid or spelled[group], member=sid or spelled[member])
        elif group_sid in self._made.users:
            self._row("skipped", account=group_sid, why="a user has members")
        else:
            self._made.members.add((group_sid, sid))

    def _sid_of(self, key: Key) -> str | None:
        """The SID of whom a source means."""
        how, text = key
        if how == "sid":
            return text
        if how == "dn":
            account = self._directory.accounts.get(key)
            return sid_of_text(foreign_in(text) or "") if account is None else account.sid
        return self._group_of(key) if how == "group" else self._user_of(text)

    def _group_of(self, key: Key) -> str:
        """The group that a source means by a name, with or without that of the domain."""
        found = self._named_groups.get(key[1].lower(), set())
        if len(found) != 1:
            text = f"{len(found)} groups of the sources have the name {key[1]!a}"
            raise Invalid(f"{self._directory.places[key]}: {text}")
        return next(iter(found))

    def _user_of(self, name: str) -> str | None:
        """The user whom a Unix group names: one of the Unix system, or of a directory if a domain's name stands before
        the user's."""
        found = self._named.get(("user", name.lower()), set()) if "\\" in name else set()
        return self._unix_users.get(name) or (next(iter(found)) if len(found) == 1 else None)

    def _is_no_account(self, key: Key) -> bool:
        account = self._directory.accounts.get(key)
        return account is not None and account.sid is None and account.kind in (None, Kind.OTHER)

    def _find_missing_ranges(self) -> None:
        """A directory that returns members in ranges returned all of them only if the last one is there."""
        for (key, attribute), ranges in self._directory.ranges.items():
            after = 0
            for first, last in sorted(ranges):
                if first <= after:
                    after = -1 if last == "*" else max(after, int(last) + 1)
                if after < 0:
                    break
            else:
                sid = self._sid_of(key) or self._directory.spelled[key]
                self._row("unknown", group=sid, member=f"{attribute};range={after}-*")
