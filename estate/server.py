"""A server's own accounts: what is done with them before they are joined with those of a directory."""

from directory import Account, Directory, Kind
from sids import BUILTIN, UNIX_GROUP, UNIX_USER


def settle_server(directory: Directory) -> None:
    if directory.is_of_server:
        _leave_out_builtin(directory)
        _join_unix_users(directory)
        _find_missing(directory)


def _leave_out_builtin(directory: Directory) -> None:
    """The groups of BUILTIN that a directory has are its controllers': no token of another server has them."""
    for key, account in directory.accounts.items():
        if key[0] == "dn" and (account.sid or "").startswith(BUILTIN):
            account.sid, account.kind = None, Kind.OTHER


def _join_unix_users(directory: Directory) -> None:
    """A Unix user is no user beside the one of Samba with its name, whose token has its SID and its groups."""
    named = {
        name: account
        for account in directory.accounts.values()
        if account.kind is Kind.USER and (account.sid or "").startswith(UNIX_USER)
        for name in account.names
    }
    for name, sid in directory.unix_users.items():
        unix: Account | None = named.get(name)
        if unix is None or unix.sid is None or unix.primary is None:
            directory.missing.append(("the groups of its Unix user, of which 'getent passwd' has no line", sid))
        else:
            directory.accounts[("sid", sid)].history.append(unix.sid)
            directory.edges.append((unix.primary, ("sid", sid)))
            del directory.accounts[("sid", unix.sid)]


def _find_missing(directory: Directory) -> None:
    """What no source says of the groups of Samba's users."""
    everybody, has_users = "users of the server", bool(directory.unix_users)
    has_groups = any((account.sid or "").startswith(UNIX_GROUP) for account in directory.accounts.values())
    if (has_users or directory.has_mapping) and not has_groups:
        directory.missing.append(("Unix groups, which 'getent group' prints", everybody))
    if has_users and not directory.has_mapping:
        directory.missing.append(("mapped groups, which 'net groupmap list verbose' prints", everybody))
