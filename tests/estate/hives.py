"""Makes a hive for a test, by libhivex: `hives.py FILE`, with a JSON object on standard input. Each key of the object
is a path of keys with `/` between them, and its value the values of the last one: each a name, a type and hexadecimal
digits. Python's module hivex is required: it makes no hive from nothing, so the smallest one is laid out here."""

import json
import struct
import sys

#: No offset, of a key that has no such part.
_NONE = 0xFFFFFFFF
_BLOCK = 0x1000


def smallest() -> bytes:
    """A hive with a root alone: a first block, and a bin with the root, its descriptor and free room."""
    root_at, name = 0x20, b"root"
    root_size = 0x50 + len(name) + 4
    root_size += -root_size % 8
    security_at = root_at + root_size
    descriptor = struct.pack("<BBHIIII", 1, 0, 0x8000, 0, 0, 0, 0)
    security_size = 0x18 + len(descriptor) + 4
    free_at = security_at + security_size
    # (a key's counts of keys and values, where these are, its descriptor, and the lengths of its name and its class)
    counts = struct.pack("<IIIIII", 0, 0, _NONE, _NONE, 0, _NONE)
    rest = struct.pack("<IIIIIIIHH", security_at, _NONE, 0, 0, 0, 0, 0, len(name), 0)
    root = struct.pack("<i2sHQII", -root_size, b"nk", 0x2C, 0, 0, _NONE) + counts + rest + name
    links = struct.pack("<IIII", security_at, security_at, 1, len(descriptor))
    security = struct.pack("<i2sH", -security_size, b"sk", 0) + links + descriptor
    free = struct.pack("<i", _BLOCK - free_at)
    head = struct.pack("<4sIIQQI", b"hbin", 0, _BLOCK, 0, 0, 0)
    cells = root.ljust(root_size, b"\0") + security.ljust(security_size, b"\0") + free
    first = struct.pack("<4sIIQIIIIIII", b"regf", 1, 1, 0, 1, 3, 0, 1, root_at, _BLOCK, 1).ljust(0x1FC, b"\0")
    check = 0
    for (number,) in struct.iter_unpack("<I", first):
        check ^= number
    return (first + struct.pack("<I", check)).ljust(_BLOCK, b"\0") + (head + cells).ljust(_BLOCK, b"\0")


def main(name: str) -> None:
    import hivex

    with open(name, "wb") as file:
        file.write(smallest())
    hive = hivex.Hivex(name, write=True)
    for path, values in json.load(sys.stdin).items():
        key = hive.root()
        for each in path.split("/"):
            key = hive.node_get_child(key, each) or hive.node_add_child(key, each)
        made = [{"key": each, "t": kind, "value": bytes.fromhex(data)} for each, kind, data in values]
        hive.node_set_values(key, made)
    hive.commit(None)


if __name__ == "__main__":
    main(sys.argv[1])
