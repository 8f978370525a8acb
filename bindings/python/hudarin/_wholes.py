"""Whole descriptors, with entries of every type and a SACL."""

import struct
import uuid
from typing import Any, Iterable, List, NamedTuple, Optional, Tuple, Union

from ._answers import _checked, _filled
from ._arguments import Data, _data, _number, _of_type, _text
from ._calls import _TypeNode, _TypeVerdict
from ._descriptors import Descriptor
from ._forms import _self_relative, _SelfRelative
from ._library import _library
from ._masks import Mask, _mapping, _mask
from ._numbers import FILES
from ._refused import Refused
from ._sids import Sid
from ._tokens import Client
from ._values import _Bytes
from ._verdicts import Verdict, _verdict, _verdict_of

_LIST = 3
_OBJECT_TYPES = (0x05, 0x06, 0x07, 0x08, 0x0B, 0x0C, 0x0F)


class WholeEntry(NamedTuple):
    """An entry of a whole descriptor's list, of any type."""

    #: AceType ([MS-DTYP] 2.4.4.1): 0 an allow, 1 a deny, 2 an audit, and so on.
    type: int
    #: The numbers of ``FLAGS``, joined by |, and bits without a name.
    flags: int
    #: 0 where the entry doesn't have the layout of its type, as then ``sid`` is None.
    mask: int
    #: The type of objects that the entry is for, and that of the children that inherit it, or None.
    object_type: Optional[uuid.UUID]
    inherited_object_type: Optional[uuid.UUID]
    sid: Optional[Sid]
    #: What follows the SID, as a condition or a claim; without a SID all that follows the entry's header.
    data: bytes

    @property
    def text(self) -> Optional[str]:
        """The entry in SDDL, or None if it has no text."""
        try:
            return str(WholeDescriptor(_self_relative([bytes(self)])))[2:]
        except Refused:
            return None

    def __bytes__(self) -> bytes:
        """The entry as it is in a list. A mask or an object type for which it has no place is a ValueError."""
        number, flags, mask = _number(self.type, "type", 8), _number(self.flags, "flags", 8), _number(self.mask, "mask")
        kinds = (self.object_type, self.inherited_object_type)
        types = [_of_type(kind, uuid.UUID, "object type").bytes_le for kind in kinds if kind is not None]
        has_types = self.sid is not None and number in _OBJECT_TYPES
        if mask != 0 and self.sid is None:
            raise ValueError("mask: an entry without a SID has none")
        if types and not has_types:
            raise ValueError(f"object type: an entry of type {number:#x}, or one without a SID, has none")
        body = b"" if self.sid is None else struct.pack("<I", mask)
        if has_types:
            word = (self.object_type is not None) + 2 * (self.inherited_object_type is not None)
            body += struct.pack("<I", word) + b"".join(types)
        body += (b"" if self.sid is None else bytes(_of_type(self.sid, Sid, "sid"))) + _data(self.data)
        return struct.pack("<BBH", number, flags, _number(4 + len(body), "an entry's bytes", 16)) + body


#: A type of objects, as a UUID or as its text in SDDL.
ObjectType = Union[uuid.UUID, str]


def _types(types: Iterable[ObjectType]) -> bytes:
    """Object types as an argument of the library."""
    if isinstance(types, (str, bytes)):
        raise TypeError(f"types: expected several object types, not {types!r}")
    return b"".join(_object_type(kind).bytes_le for kind in types)


def _object_type(kind: object) -> uuid.UUID:
    if not isinstance(kind, str):
        return _of_type(kind, uuid.UUID, "types")
    made = uuid.UUID(kind)
    # uuid.UUID takes other spellings too.
    if str(made) != kind.lower():
        raise ValueError(f"types: {kind!r} is no GUID")
    return made


def _nodes(tree: Iterable[Tuple[int, ObjectType]]) -> Tuple[Any, int]:
    """Nodes of a tree of object types as arguments of the library."""
    pairs = [_of_type(node, tuple, "tree") for node in tree]
    if any(len(node) != 2 for node in pairs):
        raise TypeError("tree: expected pairs of a level and an object type")
    packed = [struct.pack("=I16s", _number(level, "level"), _object_type(kind).bytes_le) for level, kind in pairs]
    return (_TypeNode * len(packed)).from_buffer_copy(b"".join(packed)), len(packed)


def _self(principal_self: Optional[Sid]) -> Tuple[bytes, int]:
    """The SID that PRINCIPAL SELF stands for, or none, as arguments of the library."""
    who = b"" if principal_self is None else bytes(_of_type(principal_self, Sid, "principal_self"))
    return who, len(who)


def _form(descriptor: object, what: str) -> Tuple[bytes, int]:
    """A descriptor of either kind as arguments of the library."""
    if not isinstance(descriptor, (WholeDescriptor, Descriptor)):
        raise TypeError(f"{what}: expected a WholeDescriptor or a Descriptor, not {descriptor!r}")
    return bytes(descriptor), len(bytes(descriptor))


def _optional_form(descriptor: object, what: str) -> Tuple[bytes, int]:
    """One, or none."""
    return (b"", 0) if descriptor is None else _form(descriptor, what)


class WholeDescriptor(_SelfRelative):
    """A security descriptor with all that Windows writes: a SACL, entries of every type in both lists, every control
    bit. ``WholeDescriptor(data)`` is the one at the front of the bytes, which are in self-relative form; its own bytes
    are the one written form."""

    __slots__ = ()

    def __new__(cls, data: Data) -> "WholeDescriptor":
        return cls.from_blob(data, 0)

    @classmethod
    def from_sddl(cls, text: str, domain: Optional[Sid] = None) -> "WholeDescriptor":
        """The descriptor that the SDDL text spells. With a ``domain`` the aliases of a domain's accounts and groups, as
        "DA", are SIDs of that domain."""
        given, sid = _text(text), b"" if domain is None else bytes(_of_type(domain, Sid, "domain"))
        call = _library.hudarin_whole_from_sddl
        return cls._of(_filled(lambda *buffer: call(sid, len(sid), given, len(given), *buffer))[0])

    @classmethod
    def from_blob(cls, data: Data, place: int) -> "WholeDescriptor":
        """The descriptor whose header is at the offset ``place`` of a blob, where its own offsets count from the blob's
        front, as in Samba's security.NTACL."""
        given, at = _data(data), _number(place, "place", 64)
        return cls._of(_filled(lambda *buffer: _library.hudarin_whole_at(given, len(given), at, *buffer))[0])

    @classmethod
    def create(
        cls,
        parent: Union["WholeDescriptor", Descriptor, None],
        creator: Union["WholeDescriptor", Descriptor, None],
        defaults: Union["WholeDescriptor", Descriptor],
        owners: Iterable[Sid] = (),
        *,
        container: bool = False,
        types: Iterable[ObjectType] = (),
        flags: int = 0,
        restores: bool = False,
        mapping: Iterable[Mask] = FILES,
    ) -> "WholeDescriptor":
        """The descriptor of a new object ([MS-DTYP] 2.5.3.4, CreateSecurityDescriptor): of the one of the ``parent`` that
        it is made in, of what the ``creator`` gave, whose owner, group and lists may be missing, and of ``defaults``,
        the owner, the group and the DACL that the creator's token has for what is given none. The ``owners`` are those
        that the token may set; with SeRestorePrivilege, ``restores``, any may. ``types`` are the object's classes, and
        ``flags`` are joined by |, as ``DACL_AUTO_INHERIT``. An object that gets no descriptor is ``Refused`` as "not
        created"; a ``defaults`` without an owner or a group as "parts"."""
        both = *_optional_form(parent, "parent"), *_optional_form(creator, "creator")
        sids = b"".join(bytes(_of_type(sid, Sid, "owners")) for sid in owners)
        classes = _types(types)
        kind, restoring = _of_type(container, bool, "container"), _of_type(restores, bool, "restores")
        terms = int(kind), _number(flags, "flags"), int(restoring), _mapping(mapping)
        arguments = *both, *_form(defaults, "defaults"), sids, len(sids), classes, len(classes), *terms
        return cls._of(_filled(lambda *buffer: _library.hudarin_create(*arguments, *buffer))[0])

    def __str__(self) -> str:
        """The SDDL text. What has none is ``Refused``."""
        return self._printed(0)[0]

    def without_bits(self) -> Tuple[str, int]:
        """The SDDL text without what of the header has none, and what that is: 2 for the resource manager's byte, 4 for
        control bits, 6 for both."""
        return self._printed(1)

    def _printed(self, leaves_bits: int) -> Tuple[str, int]:
        given, call = self._bytes, _library.hudarin_whole_to_sddl
        text, answer = _filled(lambda *buffer: call(given, len(given), leaves_bits, *buffer))
        return text.decode(), answer.left_out

    def __repr__(self) -> str:
        return f"WholeDescriptor(bytes.fromhex({self._bytes.hex()!r}))"

    def __eq__(self, other: object) -> bool:
        return isinstance(other, WholeDescriptor) and self._bytes == other._bytes

    __hash__ = _Bytes.__hash__

    @property
    def dacl(self) -> Tuple[WholeEntry, ...]:
        """The entries of the DACL in their order. An absent or a null DACL, which grants access to everyone, raises
        ``NoList``: ``dacl_kind`` says so before."""
        self._require_list()
        return self._entries(1)

    @property
    def sacl(self) -> Optional[Tuple[WholeEntry, ...]]:
        """The entries of the SACL in their order. None if there is no list, but an absent or a null SACL."""
        return self._entries(2) if self._list(2).kind == _LIST else None

    @property
    def dacl_revision(self) -> Optional[int]:
        """AclRevision of the DACL, 2 or 4. None if there is no list."""
        return self._list(1).revision or None

    @property
    def sacl_revision(self) -> Optional[int]:
        """AclRevision of the SACL, 2 or 4. None if there is no list."""
        return self._list(2).revision or None

    def check(
        self,
        client: Client,
        asked: Mask,
        types: Iterable[ObjectType] = (),
        principal_self: Optional[Sid] = None,
        mapping: Iterable[Mask] = FILES,
    ) -> Verdict:
        """Whether the descriptor grants ``asked`` to the client, by entries of every type, conditions, claims and the
        integrity label. The question is about the object ``types``, at most five from the class on, or else about the
        whole object. ``principal_self`` takes the place of PRINCIPAL SELF (S-1-5-10) in entries. A descriptor
        that can't be decided is ``Refused`` as "undecided": with the index of an entry of the DACL, or as "MayBeDenied"
        where an entry of the SACL may deny what the DACL grants."""
        _of_type(client, Client, "client")
        given, chain, who = self._bytes, _types(types), _self(principal_self)
        request = _mapping(mapping), _mask(asked, "asked")
        call = _library.hudarin_check_whole
        with client._turn:
            answer = call(given, len(given), client._kept, chain, len(chain), *who, *request)
        return _verdict(answer)

    def check_types(
        self,
        client: Client,
        asked: Mask,
        tree: Iterable[Tuple[int, ObjectType]],
        principal_self: Optional[Sid] = None,
        mapping: Iterable[Mask] = FILES,
    ) -> List[Verdict]:
        """The verdict on ``asked`` of each node of a ``tree`` of object types, in its order. A node is a pair of its
        level and its type, after the node above it: the class has level 0, its property sets 1, and so on to 4. The
        verdict on a node without others below it is that of ``check`` about the types from the class to its own. One
        with others is granted what each of these is. What is no tree is ``Refused`` as "tree", with the index of the
        first node that can't stand where it does. What ``check`` refuses for one node is refused for all."""
        _of_type(client, Client, "client")
        given, (nodes, count), who = self._bytes, _nodes(tree), _self(principal_self)
        request, verdicts = (_mapping(mapping), _mask(asked, "asked")), (_TypeVerdict * count)()
        call = _library.hudarin_check_types
        with client._turn:
            _checked(call(given, len(given), client._kept, nodes, count, *who, *request, verdicts, count))
        return [_verdict_of(each.kind, each.mask) for each in verdicts]

    def plain(self) -> Tuple[Descriptor, int]:
        """The descriptor that has the owner, the group and the DACL, and what is left out: joined by | 1 for a SACL, 2
        for the resource manager's byte, 4 for control bits that speak of something else. An entry of the DACL that is
        no allow and no deny is ``Refused``."""
        data, answer = _filled(lambda *buffer: _library.hudarin_whole_plain(self._bytes, len(self._bytes), *buffer))
        return Descriptor._of(data), answer.left_out

    def with_parts(self, other: Union["WholeDescriptor", Descriptor], parts: int) -> "WholeDescriptor":
        """The descriptor with these parts of another, ``OF_OWNER`` and so on, joined by |, each with the control bits
        that speak of it."""
        one, two, number = self._bytes, _form(other, "other"), _number(parts, "parts")
        call = _library.hudarin_whole_with_parts
        return WholeDescriptor._of(_filled(lambda *buffer: call(one, len(one), *two, number, *buffer))[0])

    def with_entries(self, entries: Iterable[WholeEntry], revision: int = 2, sacl: bool = False) -> "WholeDescriptor":
        """The descriptor with a DACL, or with ``sacl`` a SACL, of just these entries in their order and of this
        AclRevision, 2 or 4, whether there was one or none. All else stays. What no list can be is ``Refused`` as
        "wire": another revision as "AclRevision", more than 65,535 bytes as "AclSize", an entry as "EntrySize" or
        "BadSid"."""
        number, place = _number(revision, "revision"), 2 if _of_type(sacl, bool, "sacl") else 1
        one, two = self._bytes, b"".join(bytes(_of_type(entry, WholeEntry, "entries")) for entry in entries)
        call = _library.hudarin_whole_with_entries
        made = _filled(lambda *buffer: call(one, len(one), place, number, two, len(two), *buffer))[0]
        return WholeDescriptor._of(made)

    def _list(self, number: int) -> Any:
        return _checked(_library.hudarin_whole_list(self._bytes, len(self._bytes), number))

    def _entries(self, number: int) -> Tuple[WholeEntry, ...]:
        return tuple(self._entry_at(number, index) for index in range(self._list(number).entries))

    def _entry_at(self, number: int, index: int) -> WholeEntry:
        given, call = self._bytes, _library.hudarin_whole_entry
        data, answer = _filled(lambda *buffer: call(given, len(given), number, index, *buffer))
        length, types = answer.sid_length, answer.object_types
        return WholeEntry(
            answer.type,
            answer.flags,
            answer.mask,
            uuid.UUID(bytes_le=bytes(answer.object_type)) if types & 1 else None,
            uuid.UUID(bytes_le=bytes(answer.inherited_object_type)) if types & 2 else None,
            Sid._of(data[:length]) if length else None,
            data[length:],
        )
