"""What a name of an NTFS volume is that ntfs-3g shows as a link, since it has a reparse point ([MS-FSCC] 2.1.2)."""

import struct

import attributes

_POINT, _ATTRIBUTES = "system.ntfs_reparse_data", "system.ntfs_attrib"
#: The tags of what leads elsewhere ([MS-FSCC] 2.1.2.1): mount points, links, and links of Linux.
_LINKS = (0xA0000003, 0xA000000C, 0xA000001D)
#: FILE_ATTRIBUTE_DIRECTORY ([MS-FSCC] 2.6).
_FOLDER = 0x10


def is_closed_folder(at: bytes) -> bool | None:
    """Whether the node of this path is a folder, in which nothing is shown, or a file; None if it is a link. Others, as
    of files in a cloud or with compression, have descriptors as every node."""
    tag = _number_in(at, _POINT)
    if tag is None or tag in _LINKS:
        return None
    return bool((_number_in(at, _ATTRIBUTES) or 0) & _FOLDER)


def _number_in(at: bytes, name: str) -> int | None:
    """The first four bytes of an attribute, or None if there are none."""
    try:
        (number,) = struct.unpack_from("<I", attributes.read(at, name))
    except (OSError, struct.error):
        return None
    return int(number)
