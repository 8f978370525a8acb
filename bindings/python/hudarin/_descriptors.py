"""Descriptors, as values and prepared for many checks, and questions about many of them."""

import functools
import itertools
from typing import Any, Callable, Iterable, List, Optional, Tuple

from ._analysis import Accesses, Comparison, Finding
from ._answers import _checked, _written
from ._arguments import Data, _data, _of_type
from ._entries import Entry
from ._forms import _ACL, _ENTRY, _HEADER, _PRESENT, _PROTECTED, _self_relative, _SelfRelative
from ._held import _Shared
from ._library import _check_bytes, _library
from ._lines import _access, _change, _finding, _Lines
from ._masks import Mask, _mapping, _mask
from ._numbers import _ALL_FLAGS, _MAXIMUM_ALLOWED, FILES
from ._sids import Group, Sid, _groups, _sid_at, _spelled
from ._tokens import Token, _token
from ._values import _Bytes
from ._verdicts import Explanation, Verdict, _entry, _part, _verdict

_OWNER_RIGHTS = Sid.from_text("S-1-3-4")


class Descriptor(_SelfRelative):
    """A security descriptor: ``Descriptor(data)`` is the one at the front of the bytes, which are in self-relative
    form. It keeps them up to the end of its last part. A SACL, and entries of other types than allow and deny, are
    ``Refused``: a ``WholeDescriptor`` has them, and ``plain`` leaves its SACL out."""

    __slots__ = ()

    def __new__(cls, data: Data) -> "Descriptor":
        given = _data(data)
        return cls._of(given[: _checked(_library.hudarin_descriptor_length(given, len(given))).length])

    @classmethod
    def from_sddl(cls, text: str, domain: Optional[Sid] = None) -> "Descriptor":
        """The descriptor that the SDDL text spells. With a ``domain`` the aliases of a domain's accounts and groups, as
        "DA", are SIDs of that domain."""
        return cls._of(_spelled("hudarin_sddl_to_bytes", text, domain, "sddl"))

    def __str__(self) -> str:
        """The canonical SDDL text."""
        return _written(_library.hudarin_bytes_to_sddl, self._bytes).decode()

    def __repr__(self) -> str:
        return f"Descriptor.from_sddl({str(self)!r})"

    def __eq__(self, other: object) -> bool:
        return isinstance(other, Descriptor) and self._bytes == other._bytes

    __hash__ = _Bytes.__hash__

    @classmethod
    def of(
        cls,
        entries: Iterable[Entry],
        owner: Optional[Sid] = None,
        group: Optional[Sid] = None,
        is_protected: bool = False,
    ) -> "Descriptor":
        """The descriptor with a list of these entries in their order, of none an empty list, which grants nothing by
        itself. A list of more than 65,535 bytes is a ValueError."""
        given = [bytes(_of_type(entry, Entry, "entries")) for entry in entries]
        first = b"" if owner is None else bytes(_of_type(owner, Sid, "owner"))
        second = b"" if group is None else bytes(_of_type(group, Sid, "group"))
        shield = _PROTECTED if _of_type(is_protected, bool, "is_protected") else 0
        return cls(_self_relative(given, first, second, shield))

    @property
    def is_protected(self) -> bool:
        """Whether it inherits no entries."""
        bits = _PRESENT | _PROTECTED
        return bool(_HEADER.unpack_from(self._bytes)[1] & bits == bits)

    @property
    def entries(self) -> Tuple[Entry, ...]:
        """The entries of the DACL in their order. An absent or a null DACL, which grants access to everyone, raises
        ``NoList``: ``dacl_kind`` says so before."""
        self._require_list()
        data, found = self._bytes, []
        at = _HEADER.unpack_from(data)[5]
        count, at = _ACL.unpack_from(data, at)[2], at + _ACL.size
        for _ in range(count):
            kind, flags, size, mask = _ENTRY.unpack_from(data, at)
            found.append(Entry("deny" if kind else "allow", flags & _ALL_FLAGS, mask, _sid_at(data, at + _ENTRY.size)))
            at += size
        return tuple(found)

    def subject(self, entry: Entry) -> Optional[Sid]:
        """The SID by which an entry of it applies to a token: the entry's own, but of OWNER RIGHTS (S-1-3-4) the owner,
        or None."""
        return self.owner if _of_type(entry, Entry, "entry").sid == _OWNER_RIGHTS else entry.sid

    def check(
        self,
        user: Sid,
        groups: Iterable[Group] = (),
        *,
        asked: Mask,
        privileges: int = 0,
        mapping: Iterable[Mask] = FILES,
        restricting: Iterable[Sid] = (),
        deny_only_user: bool = False,
    ) -> Verdict:
        """Whether the descriptor grants ``asked`` to the user: a mask as a number, or as a text as "FR". The verdict is
        true if it does. A group is a ``Sid``, which is enabled, or a pair of a Sid and its state. No group is added:
        neither Everyone nor Authenticated Users. With ``restricting`` SIDs the list has to grant twice: to the user
        and the groups, and to these SIDs alone. A ``deny_only_user`` counts for denies alone. ``mapping`` has the masks
        of the four generic rights."""
        token = _token(user, groups, privileges, restricting, deny_only_user)
        request = _mapping(mapping), _mask(asked, "asked")
        return _verdict(_library.hudarin_check(self._bytes, len(self._bytes), *token, *request))

    def check_by(self, token: Token, asked: Mask, mapping: Iterable[Mask] = FILES) -> Verdict:
        """The same for a ``Token``."""
        _of_type(token, Token, "token")
        request = _mapping(mapping), _mask(asked, "asked")
        with token._turn:
            answer = _library.hudarin_check_bytes(self._bytes, len(self._bytes), token._kept, *request)
        return _verdict(answer)

    def check_open(
        self, parent: Optional["Descriptor"], token: Token, asked: Mask, mapping: Iterable[Mask] = FILES
    ) -> Verdict:
        """Whether an open of the existing file that has this descriptor is granted, as NTFS says ([MS-FSA]
        2.1.5.1.2.1): what ``check_by`` grants; DELETE also where the ``parent`` grants FILE_DELETE_CHILD, and
        FILE_READ_ATTRIBUTES where it grants FILE_LIST_DIRECTORY. A volume's root has no parent: None."""
        above = b"" if parent is None else bytes(_of_type(parent, Descriptor, "parent"))
        _of_type(token, Token, "token")
        request = _mapping(mapping), _mask(asked, "asked")
        with token._turn:
            both = self._bytes, len(self._bytes), above, len(above)
            answer = _library.hudarin_check_open(*both, token._kept, *request)
        return _verdict(answer)

    def explain(
        self,
        user: Sid,
        groups: Iterable[Group] = (),
        *,
        asked: Mask,
        privileges: int = 0,
        mapping: Iterable[Mask] = FILES,
        restricting: Iterable[Sid] = (),
        deny_only_user: bool = False,
    ) -> Explanation:
        """The verdict of ``check`` with the same arguments, and why."""
        token = Token(user, groups, privileges, restricting, deny_only_user)
        with KeptDescriptor(self) as kept, token:
            return kept.explain(token, asked, mapping)

    def who(
        self, asked: Mask = _MAXIMUM_ALLOWED, base: Iterable[Group] = (), mapping: Iterable[Mask] = FILES
    ) -> Accesses:
        """Who is granted which rights of ``asked``, or of all, among all tokens that have the groups of the ``base``:
        false if nobody is granted any without a privilege. A token that nothing restricts, and without privileges, is
        granted a right if and only if one of the accesses with that right holds for it. To ask for no right is a
        ValueError."""
        given, request = _groups(base), (_mapping(mapping), _mask(asked, "asked"))
        if request[1] == 0:
            raise ValueError("asked: no right is asked for")
        with KeptDescriptor(self) as kept, _Lines() as lines:
            _checked(_library.hudarin_who(kept._kept, *given, *request, lines._kept))
            return Accesses(_access(lines, index) for index in range(len(lines)))

    def lint(self, base: Iterable[Group] = (), mapping: Iterable[Mask] = FILES) -> Tuple[Finding, ...]:
        """What is doubtful in the descriptor, where all tokens have the groups of the ``base``, in the order of
        ``sdstore lint``. Without the entries that have no effect no check of such a token has another verdict."""
        given, masks = _groups(base), _mapping(mapping)
        with KeptDescriptor(self) as kept, _Lines() as lines:
            _checked(_library.hudarin_lint(kept._kept, *given, masks, lines._kept))
            return tuple(_finding(lines, index) for index in range(len(lines)))

    def compare(
        self, new: "Descriptor", base: Iterable[Group] = (), mapping: Iterable[Mask] = FILES
    ) -> Comparison:
        """What tokens that have the groups of the ``base`` gain and lose if ``new`` takes this descriptor's place, each
        change with a token that shows it; also of what is made in it, if it is a container. No token gains or loses
        another right, restricted ones and those with privileges included."""
        groups, everyone = tuple(base), functools.lru_cache(None)(lambda: _unnamed(self, new))
        given, masks = _groups(groups), _mapping(mapping)
        with KeptDescriptor(self) as kept, KeptDescriptor(new) as other, _Lines() as lines:
            _checked(_library.hudarin_compare(kept._kept, other._kept, *given, masks, lines._kept).answer)
            count, inheritance = len(lines), ""
            # The line about protection is the last one, and has no bits.
            if count > 0 and lines.value(count - 1, b"mask") is None:
                count, inheritance = count - 1, lines.printed(count - 1)
            changes = [_change(lines, index, everyone, groups) for index in range(count)]
        own = [tuple(each for each in changes if (each.of, each.kind) == ("", kind)) for kind in ("gained", "lost")]
        return Comparison(own[0], own[1], tuple(each for each in changes if each.of), inheritance)


def check_all(
    descriptors: Iterable[Descriptor], token: Token, asked: Mask, mapping: Iterable[Mask] = FILES
) -> List[Verdict]:
    """The verdict of ``check_by`` of each, faster than one by one, and of equal ones once."""
    _of_type(token, Token, "token")
    request = _mapping(mapping), _mask(asked, "asked")
    given = [bytes(_of_type(one, Descriptor, "descriptors")) for one in descriptors]
    with token._turn:
        kept = token._kept
        answers = {data: _check_bytes(data, len(data), kept, *request) for data in set(given)}
    verdicts = {data: _verdict(answer) for data, answer in answers.items()}
    return [verdicts[data] for data in given]


def who_all(
    descriptors: Iterable[Descriptor],
    asked: Mask = _MAXIMUM_ALLOWED,
    base: Iterable[Group] = (),
    mapping: Iterable[Mask] = FILES,
) -> List[Accesses]:
    """The accesses of ``who`` of each, of equal ones once."""
    groups, masks = tuple(base), tuple(mapping)
    given = [_of_type(one, Descriptor, "descriptors") for one in descriptors]
    found = {one: one.who(asked, groups, masks) for one in set(given)}
    return [found[one] for one in given]


def _unnamed(*descriptors: Descriptor) -> Sid:
    """A SID that none of the descriptors names."""
    lists = [one.entries if one.dacl_kind == "list" else () for one in descriptors]
    named = {one.owner for one in descriptors} | {entry.sid for entries in lists for entry in entries}
    numbered = (Sid.from_text(f"S-1-0-{number}") for number in itertools.count())
    return next(sid for sid in numbered if sid not in named)


class KeptDescriptor(_Shared):
    """A ``Descriptor``, prepared for many checks: ``with KeptDescriptor(descriptor) as kept: ..``, or until ``close``.
    Threads take turns at it, or use a ``share`` each."""

    __slots__ = ("_descriptor",)

    _argument = "descriptor"

    _descriptor: Descriptor

    def __init__(self, descriptor: Descriptor) -> None:
        given = bytes(_of_type(descriptor, Descriptor, "descriptor"))
        self._keep(_library.hudarin_keep_bytes, given, len(given))
        self._descriptor = descriptor

    @property
    def descriptor(self) -> Descriptor:
        """What it was made of."""
        return self._descriptor

    def share(self) -> "KeptDescriptor":
        """Another one of the same descriptor, which is closed by itself."""
        other = super().share()
        other._descriptor = self._descriptor
        return other

    def check(self, token: Token, asked: Mask, mapping: Iterable[Mask] = FILES) -> Verdict:
        """Whether the descriptor grants ``asked``, as ``Descriptor.check`` says."""
        return _verdict(self._asked(_library.hudarin_check_kept, token, asked, mapping))

    def explain(self, token: Token, asked: Mask, mapping: Iterable[Mask] = FILES) -> Explanation:
        """The same verdict, and why."""
        descriptor = self._descriptor
        entries = functools.lru_cache(None)(lambda: descriptor.entries)

        def found(finding: Any) -> str:
            number = _entry(finding)
            if number is None:
                return "by no entry"
            entry = entries()[number - 1]
            subject = descriptor.subject(entry)
            return f"by entry {number} {entry} as {subject.full if subject else ''}"

        with self._turn:
            explained = self._asked(_library.hudarin_explain, token, asked, mapping)
            verdict = _verdict(explained.answer)
            return Explanation(verdict, tuple(_part(part, found) for part in explained.parts if part.mask != 0))

    def _asked(self, call: Callable[..., Any], token: Token, asked: Mask, mapping: Iterable[Mask]) -> Any:
        _of_type(token, Token, "token")
        request = _mapping(mapping), _mask(asked, "asked")
        with self._turn, token._turn:
            return call(self._kept, token._kept, *request)
