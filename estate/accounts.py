"""`estate accounts`: which names SIDs have, and which groups users are in, as a file for `sdstore --accounts`."""

from collections.abc import Iterator

from account_sources import read_sources
from atomic_file import atomic_file, check_replaced
from directory import fault_of_name
from errors import Invalid
from joining import Joined, Joining
from sids import order_of
from table import Table, plural

_HEAD = "# Accounts by estate: users, groups, members, primary groups, disabled users."


def write_accounts(sources: list[str], file_name: str, domain: str | None, table: Table) -> Joined:
    """Writes what the sources say. Invalid if one can't be understood: then nothing is written."""
    fault = None if domain is None else fault_of_name(domain)
    if fault is not None or "\\" in (domain or ""):
        raise Invalid(f"--domain {domain!a}: {fault or 'a name without a backslash is expected'}")
    check_replaced(file_name, _HEAD, "file of accounts")
    with atomic_file(file_name) as file:
        joined = Joining(read_sources(sources), domain, table).run()
        file.writelines(f"{line}\n".encode() for line in _lines(joined))
    return joined


def _lines(joined: Joined) -> Iterator[str]:
    """The lines of the file, in an order that doesn't depend on that of the sources."""
    yield _HEAD
    if joined.skipped or joined.unknown:
        # (`sdstore` refuses such a file: a user may lack a group by which it is denied)
        yield f"incomplete {joined.skipped} skipped, {joined.unknown} unknown"
    sids = {*joined.users, *joined.groups, *joined.primaries.values()}
    sids.update(sid for pair in joined.members for sid in pair)
    rank = {sid: number for number, sid in enumerate(sorted(sids, key=order_of))}
    for kind, accounts in (("user", joined.users), ("group", joined.groups)):
        for sid in sorted(accounts, key=rank.__getitem__):
            yield from (f"{kind} {sid} {name}" for name in accounts[sid])
    for group, member in sorted(joined.members, key=lambda pair: (rank[pair[0]], rank[pair[1]])):
        yield f"member {group} {member}"
    for sid in sorted(joined.primaries, key=rank.__getitem__):
        yield f"primary {sid} {joined.primaries[sid]}"
    for sid in sorted(joined.disabled, key=rank.__getitem__):
        yield f"disabled {sid}"


def summed_up(joined: Joined) -> str:
    """The counts as a text: what was left out or assumed only where there is some."""
    counts = (
        (joined.distribution_groups, plural(joined.distribution_groups, "distribution group")),
        (joined.left_out_members, f"{plural(joined.left_out_members, 'member')} in or of no security group"),
        (joined.others, plural(joined.others, "other object")),
        (joined.skipped, f"{joined.skipped:,} skipped"),
        (joined.unknown, f"{joined.unknown:,} unknown"),
    )
    left_out = ", ".join(text for count, text in counts if count)
    parts = [plural(len(joined.users), "user"), plural(len(joined.groups), "group")]
    parts += [plural(len(joined.members), "member"), f"{len(joined.disabled):,} disabled"]
    if joined.assumed_groups:
        parts.append(f"{plural(joined.assumed_groups, 'group')} assumed to be for security")
    return ", ".join(parts) + (f"; left out: {left_out}" if left_out else "")
