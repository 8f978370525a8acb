"""Bytes of descriptors with something changed, by chance: what a fuzzer gives both implementations."""

import random
import struct
from typing import Iterator, List

import model

EDGES = (0, 1, 2, 3, 4, 7, 8, 16, 0x20, 0x40, 0x7F, 0x80, 0xFF)
#: AceType, with two that have no layout.
KINDS = (*model.LETTERS, 0x04, 0x16)
#: Some bytes of tokens of conditions.
TOKENS = b"\x10\x50\x51\x80\x87\x89\xa0\xa2\xf8\xf9"


def changed_byte(rng: random.Random, data: bytearray) -> None:
    at = rng.randrange(len(data))
    data[at] = rng.choice((data[at] ^ 1 << rng.randrange(8), rng.choice(EDGES), rng.randrange(256)))


def cut(rng: random.Random, data: bytearray) -> None:
    del data[rng.randrange(len(data)) :]


def longer(rng: random.Random, data: bytearray) -> None:
    """Some bytes stand twice, or zeros follow."""
    at = rng.randrange(len(data) + 1)
    data[at:at] = data[at : at + 4 * rng.randrange(1, 9)] if rng.random() < 0.5 else bytes(4 * rng.randrange(1, 4))


def header(rng: random.Random, data: bytearray) -> None:
    """A number of the descriptor's header."""
    kind = rng.choice(("control", "offset", "offset", "manager"))
    if kind == "offset" and len(data) >= model.HEADER_BYTES:
        offset = rng.choice((0, 8, 20, len(data) - 8, rng.randrange(2 * len(data))))
        struct.pack_into("<I", data, rng.choice((4, 8, 12, 16)), offset)
    elif kind == "manager" and len(data) > 1 and rng.random() < 0.2:
        data[1] = rng.randrange(256)
    elif len(data) >= 4:
        struct.pack_into("<H", data, 2, int.from_bytes(data[2:4], "little") ^ 1 << rng.randrange(16))


def entries(data: bytes) -> List[int]:
    """Where the entries of the lists begin, as far as their sizes lead."""
    found = []
    for place in (12, 16):
        at = int.from_bytes(data[place : place + 4], "little")
        if not 20 <= at <= len(data) - 8:
            continue
        end, at = at + int.from_bytes(data[at + 2 : at + 4], "little"), at + 8
        while at + 8 <= min(end, len(data)) and int.from_bytes(data[at + 2 : at + 4], "little") >= 8:
            found.append(at)
            at += int.from_bytes(data[at + 2 : at + 4], "little")
    return found


def rest(rng: random.Random, data: bytearray, at: int, size: int) -> None:
    """A byte after the mask of an entry."""
    place = min(at + 8 + rng.randrange(max(1, size - 8)), len(data) - 1)
    data[place] = rng.choice((rng.choice(EDGES), data[place] ^ 1 << rng.randrange(8), rng.choice(TOKENS)))


def entry(rng: random.Random, data: bytearray) -> None:
    """A field of an entry: its type, flags, size, mask, and what follows."""
    places = entries(data)
    if not places:
        changed_byte(rng, data)
        return
    at = rng.choice(places)
    size = int.from_bytes(data[at + 2 : at + 4], "little")
    field = rng.choice(("kind", "kind", "flags", "size", "mask", "rest", "rest", "rest"))
    if field == "kind":
        data[at] = rng.choice(KINDS)
    elif field == "flags":
        data[at + 1] ^= 1 << rng.randrange(8)
    elif field == "size":
        struct.pack_into("<H", data, at + 2, min(max(0, size + rng.choice((-4, 4, 1, 8, -8))), 65535))
    elif field == "mask":
        struct.pack_into("<I", data, at + 4, rng.choice((0, 7, 1 << rng.randrange(32), rng.getrandbits(32))))
    else:
        rest(rng, data, at, size)


CHANGES = (changed_byte, changed_byte, cut, longer, header, entry, entry, entry, entry, entry)


def mutated(seed: int, bases: List[bytes]) -> Iterator[bytes]:
    """Such bytes without end, each of one of the bases."""
    rng = random.Random(f"whole {seed}")
    bases = sorted(bases, key=len)
    while True:
        # The short ones more often: a change of them meets more that is of another kind.
        data = bytearray(bases[min(rng.randrange(len(bases)), rng.randrange(len(bases)))])
        for _ in range(rng.choice((0, 1, 1, 1, 2, 3))):
            if data:
                rng.choice(CHANGES)(rng, data)
        yield bytes(data)
