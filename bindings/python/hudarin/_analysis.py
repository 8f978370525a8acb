"""Who is granted what, what a change of a descriptor grants and takes, and what is doubtful in one."""

from typing import NamedTuple, Optional, Tuple

from ._numbers import DENY_ONLY
from ._sids import Group, Sid
from ._tokens import Token


class Access(NamedTuple):
    """Rights, and a way to be granted them: by ``sid``, in a token that has none of ``unless``. It is false if nobody
    is granted them, and prints as a line of ``sdstore who``."""

    mask: int
    #: "sid", "owner", "everyone" or "nobody".
    holder: str
    #: Of "sid" the user or an enabled group, of "owner" the descriptor's owner, who needs no entry; otherwise None.
    sid: Optional[Sid]
    #: None of these is in the token, enabled or for denies alone.
    unless: Tuple[Sid, ...]

    def __bool__(self) -> bool:
        return self.holder != "nobody"

    def __str__(self) -> str:
        holder = self.sid.full + (" as the owner" if self.holder == "owner" else "") if self.sid else self.holder
        unless = " unless " + " ".join(sid.full for sid in self.unless) if self.unless else ""
        return f"{self.mask:#x} to {holder}{unless}"


class Accesses(Tuple[Access, ...]):
    """Who is granted which rights without a privilege. It is false if nobody is granted any, and prints as ``sdstore
    who`` does."""

    __slots__ = ()

    def __bool__(self) -> bool:
        return any(self)

    def __str__(self) -> str:
        return "\n".join(map(str, self))


class Change(NamedTuple):
    """Rights that some token gains, or loses, and a token that shows it: beside the base ``user``, ``denied`` and the
    ``restricting`` SIDs. It prints as a line of ``sdstore compare``."""

    #: "gained" or "lost".
    kind: str
    mask: int
    #: Its user. If ``is_everyone`` is true any other that neither descriptor names shows the same.
    user: Sid
    is_everyone: bool
    #: A group for denies alone, or None.
    denied: Optional[Sid]
    #: The SIDs that restrict it, or none.
    restricting: Tuple[Sid, ...]
    #: The groups that all tokens in question have.
    base: Tuple[Group, ...]
    #: Of what is made in a container, as "new objects", what that is; "" of the descriptor's own object.
    of: str = ""

    @property
    def groups(self) -> Tuple[Group, ...]:
        """Its groups: the base, and the one for denies alone."""
        return self.base if self.denied is None else (*self.base, (self.denied, DENY_ONLY))

    def token(self) -> Token:
        """It as a ``Token``, until ``close``."""
        return Token(self.user, self.groups, restricting=self.restricting)

    def __str__(self) -> str:
        user = "everyone" if self.is_everyone else self.user.full
        denied = f" {self.denied.full}=deny" if self.denied else ""
        restricting = "".join(f" {sid.full}=restrict" for sid in self.restricting)
        head = f"{self.of}: " if self.of else ""
        return f"{head}{self.kind} {self.mask:#x} by {user}{denied}{restricting}"


class Comparison(NamedTuple):
    """What tokens gain and lose by a change of a descriptor. It is true if there is a change, and prints as ``sdstore
    compare`` does."""

    #: Of the object itself, in the order of their lowest bits. No token gains or loses another bit.
    gained: Tuple[Change, ...]
    lost: Tuple[Change, ...]
    #: Of what is made in it, if it is a container.
    below: Tuple[Change, ...] = ()
    #: "inheritance: was protected, is not", "inheritance: is protected, was not", or "" where both are the same.
    inheritance: str = ""

    def __bool__(self) -> bool:
        return any(self)

    def __str__(self) -> str:
        lines = [*map(str, self.gained + self.lost + self.below), self.inheritance]
        return "\n".join(filter(None, lines)) or "same"


class Finding(NamedTuple):
    """What is doubtful in a descriptor. It prints as a line of ``sdstore lint``."""

    #: "no effect", "out of order" and so on: a kind of docs/JSON.md.
    kind: str
    #: The entry of which it is, counted from 1, and its text; or None.
    entry: Optional[int]
    ace: Optional[str]
    #: The entry that this one is behind, or that it repeats, counted from 1; or None.
    other: Optional[int]
    #: The line.
    text: str

    def __str__(self) -> str:
        return self.text
