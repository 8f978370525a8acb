"""Rights of files in words."""

import functools

#: The masks of files that have a name in Windows' own editor.
NAMED = {
    0x1F01FF: "full control",
    0x1301BF: "modify",
    0x1200A9: "read and execute",
    0x120089: "read",
    0x120116: "write",
    0x10000000: "all (generic)",
    0x80000000: "read (generic)",
    0x40000000: "write (generic)",
    0x20000000: "execute (generic)",
}
#: The rights that a file or a folder has names for, a bit each.
_BITS = {
    0x1: "read or list",
    0x2: "write or add files",
    0x4: "append or add folders",
    0x8: "read extended attributes",
    0x10: "write extended attributes",
    0x20: "execute or traverse",
    0x40: "delete children",
    0x80: "read attributes",
    0x100: "write attributes",
    0x10000: "delete",
    0x20000: "read permissions",
    0x40000: "change permissions",
    0x80000: "take ownership",
    0x100000: "synchronize",
}


def in_words(rights: int) -> str:
    """The rights by their names for files, and what no name has as a number."""
    if rights in NAMED:
        return NAMED[rights]
    named = [name for bit, name in _BITS.items() if rights & bit]
    rest = rights & ~sum(_BITS)
    return ", ".join([*named, *([f"{rest:#x}"] if rest else [])])


@functools.lru_cache(65_536)
def in_few_words(rights: int) -> str:
    """The same, where a right that a name has covered isn't named again; "none" if there is none."""
    names, left = [], rights
    for bits, name in NAMED.items():
        if rights & bits == bits and left & bits:
            names.append(name)
            left &= ~bits
    return ", ".join([*names, *([in_words(left)] if left else [])]) or "none"
