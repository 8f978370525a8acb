"""Accounts: who has which name, and who is in which group."""

from typing import Iterable, Iterator, Optional, Tuple

from ._arguments import _of_type, _text
from ._held import _Shared
from ._library import _library
from ._sids import Sid, _sid_at
from ._tokens import Token


def _joined(data: bytes) -> Iterator[Sid]:
    """The SIDs whose bytes are concatenated."""
    at = 0
    while at < len(data):
        sid = _sid_at(data, at)
        yield sid
        at += len(sid._bytes)


class Accounts(_Shared):
    """Who has which name, and who is in which group: the accounts of a file's text, which ``sdstore --accounts`` takes
    too, and those that Windows has everywhere. It is used in a ``with``, or until ``close``. A line that is no row, or
    that says that rows are missing, is ``Refused`` as "row", with its number, from 1, as the ``place``. Threads take
    turns at it, or use a ``share`` each."""

    __slots__ = ()

    _argument = "accounts"

    def __init__(self, text: str) -> None:
        given = _text(text)
        self._keep(_library.hudarin_keep_accounts, given, len(given))

    def sids(self, user: str, domain: Optional[Sid] = None) -> Tuple[Sid, ...]:
        """The SIDs in the token of a user that logged on, each once: first the user's own, then Everyone, Authenticated
        Users, and the groups that the user really has. The user is the name of an account, with its domain or without,
        or a SID's text; with a ``domain`` the aliases of that domain's accounts, as "LA", are SIDs of it. Who may not
        log on is ``Refused`` as "account": "Unknown", "Ambiguous", "NoUser" or "Disabled"."""
        given, sid = _text(user), b"" if domain is None else bytes(_of_type(domain, Sid, "domain"))
        words = sid, len(sid), given, len(given)
        return tuple(_joined(self._written(_library.hudarin_account_sids, *words, argument="user")[0]))

    def token(
        self,
        user: str,
        domain: Optional[Sid] = None,
        privileges: int = 0,
        restricting: Iterable[Sid] = (),
        deny_only_user: bool = False,
    ) -> Token:
        """The ``Token`` of these SIDs, with all groups enabled, until it is closed."""
        own, *groups = self.sids(user, domain)
        return Token(own, groups, privileges, restricting, deny_only_user)

    def users(self) -> Tuple[Tuple[Sid, str], ...]:
        """The users that may log on, in the file's order and after them those that Windows has everywhere, each with a
        name."""
        text = self._written(_library.hudarin_account_users)[0].decode()
        lines = (line.partition(" ") for line in text.split("\n")[:-1])
        return tuple((Sid.from_text(sid), name) for sid, _, name in lines)
