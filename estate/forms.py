"""Descriptors in extended attributes: the self-relative form of [MS-DTYP] 2.4.6, alone or in a blob of Samba's
security.NTACL. The library judges each; what is done here is to find it, and to replace parts of it."""

import enum
import struct

from hudarin import OF_DACL, OF_GROUP, OF_OWNER, Descriptor, WholeDescriptor

from others import Kept, kept_of, put_back

#: The offsets of owner, group, SACL and DACL in a header, and where they begin.
_OFFSETS, _OFFSETS_AT = struct.Struct("<4I"), 4


class Attribute(enum.Enum):
    """The extended attribute that has a node's descriptor, by its name."""

    NTFS = "system.ntfs_acl"
    SAMBA = "security.NTACL"
    #: Of Linux' cifs, for a share of a server; the attribute without `full` lacks the SACL.
    SMB = "system.cifs_ntsd_full"

    @property
    def is_written(self) -> bool:
        """Whether a write replaces it. A server makes of what it is sent what it will."""
        return self is not Attribute.SMB

    def place_in(self, blob: bytes) -> int:
        """The offset of the descriptor's header in the attribute, or a ValueError."""
        return _place_in_ntacl(blob) if self is Attribute.SAMBA else 0


def _place_in_ntacl(blob: bytes) -> int:
    """Of a blob of Samba's NTACL, versions 1 to 4: what precedes the descriptor, in the layout of NDR. Version 1 has
    nothing besides; 2 a hash of 16 bytes; 3 its kind and 64 bytes; 4 also a description, a time and a second hash."""
    if len(blob) < 8:
        raise ValueError("the NTACL is cut off")
    version, level = struct.unpack_from("<HH", blob)
    if version != level or version not in (1, 2, 3, 4):
        raise ValueError(f"the NTACL has the version {version}, and 1 to 4 are supported")
    if version < 4:
        return {1: 8, 2: 28, 3: 80}[version]
    end = blob.find(b"\0", 78)
    if end < 0:
        raise ValueError("the NTACL is cut off")
    return (end + 1 + 3) // 4 * 4 + 8 + 64


def kept_in(attribute: Attribute, blob: bytes) -> Kept:
    """What is kept of the descriptor that the attribute holds. A ValueError says why there is none."""
    return kept_of(whole_in(attribute, blob))


def whole_in(attribute: Attribute, blob: bytes) -> WholeDescriptor:
    """All that the descriptor of the attribute has. A ValueError says why there is none."""
    return WholeDescriptor.from_blob(blob, attribute.place_in(blob))


def replaced(attribute: Attribute, blob: bytes, before: str, after: str) -> bytes:
    """The attribute with the parts of the descriptor that differ between two texts, before and after a change. All else
    stays, as the SACL, entries of other types, and what Samba keeps beside the descriptor. The texts are canonical
    SDDL; a ValueError says why the attribute has no descriptor, or can't have the new one."""
    place, has = attribute.place_in(blob), whole_in(attribute, blob)
    old, new = (WholeDescriptor(Descriptor.from_sddl(text)) for text in (before, after))
    changed = sum(part for part in (OF_OWNER, OF_GROUP, OF_DACL) if old.with_parts(new, part) != old)
    new = put_back(has, before, after) if changed & OF_DACL else new
    return blob[:place] + _counted_from(place, bytes(has.with_parts(new, changed)))


def _counted_from(place: int, descriptor: bytes) -> bytes:
    """The descriptor, whose offsets count from `place` bytes before it."""
    offsets = (offset + place if offset else 0 for offset in _OFFSETS.unpack_from(descriptor, _OFFSETS_AT))
    behind = _OFFSETS_AT + _OFFSETS.size
    return descriptor[:_OFFSETS_AT] + _OFFSETS.pack(*offsets) + descriptor[behind:]
