"""Who asks: tokens, and the clients that ask about whole descriptors."""

from typing import Any, Iterable, Optional, Tuple

from ._arguments import _number, _of_type, _text
from ._held import _Shared
from ._library import _library
from ._numbers import _DENY_ONLY_USER
from ._refused import Refused
from ._sids import Group, Sid, _groups


def _token(
    user: Sid, groups: Iterable[Group], privileges: int, restricting: Iterable[Sid], deny_only_user: bool
) -> Tuple[Any, ...]:
    """A token as arguments of the library."""
    given = _groups(groups)
    who = bytes(_of_type(user, Sid, "user"))
    again = b"".join(bytes(_of_type(sid, Sid, "restricting")) for sid in restricting)
    bits = _number(privileges, "privileges")
    if bits & _DENY_ONLY_USER:
        raise Refused("privileges", argument="privileges")
    state = _DENY_ONLY_USER if _of_type(deny_only_user, bool, "deny_only_user") else 0
    return (who, len(who), *given, again, len(again), bits | state)


class Token(_Shared):
    """A user, groups and privileges, prepared for many checks: ``with Token(user, groups) as token: ..``, or until
    ``close``. Its arguments are those of ``Descriptor.check``. Threads take turns at it, or use a ``share`` each."""

    __slots__ = ()

    _argument = "token"

    def __init__(
        self,
        user: Sid,
        groups: Iterable[Group] = (),
        privileges: int = 0,
        restricting: Iterable[Sid] = (),
        deny_only_user: bool = False,
    ) -> None:
        self._keep(_library.hudarin_keep_token, *_token(user, groups, privileges, restricting, deny_only_user))


def _words(words: Iterable[str]) -> bytes:
    """Words as an argument of the library: a zero byte ends each, so none may have one."""
    if isinstance(words, (str, bytes)):
        raise TypeError(f"words: expected several words, not {words!r}")
    given = [_text(word) for word in words]
    for index, word in enumerate(given):
        if b"\0" in word:
            raise ValueError(f"words: the one at {index} has a zero byte")
    return b"".join(word + b"\0" for word in given)


class Client(_Shared):
    """Who asks about a ``WholeDescriptor``, prepared for many checks: a user, and words as those of ``sdstore --whole
    verdict``. Each is a group, "S-1-5-32-545", "BU=deny" or "BU=off"; "BU=restrict"; "+security" or "+take";
    "user=deny", by which the user counts for denies alone; a group of the device, "BU=device"; an integrity level,
    "level=low"; or a claim, '@User.Project="VP"'. No group is added, and of two claims with one name the first counts.
    With a ``domain`` the aliases of a domain's accounts and groups, as "DA", are SIDs of that domain. Threads take turns
    at it, or use a ``share`` each."""

    __slots__ = ()

    _argument = "client"

    def __init__(self, user: Sid, words: Iterable[str] = (), domain: Optional[Sid] = None) -> None:
        sid = b"" if domain is None else bytes(_of_type(domain, Sid, "domain"))
        who, given = bytes(_of_type(user, Sid, "user")), _words(words)
        self._keep(_library.hudarin_keep_client, sid, len(sid), who, len(who), given, len(given))
