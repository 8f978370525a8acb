"""Arguments, tested before ctypes takes them."""

from pathlib import PurePath
from typing import SupportsBytes, Type, TypeVar, Union, cast

#: What the bytes of a SID or of a descriptor are taken from.
Data = Union[bytes, bytearray, memoryview, SupportsBytes]
#: The path of a node: "/" for the root, else each name after a "/".
NodePath = Union[str, PurePath]


def _number(value: object, what: str, bits: int = 32) -> int:
    """The value, if it is a number of so many bits: ctypes would cut off the higher bits of another."""
    if not isinstance(value, int) or isinstance(value, bool):
        raise TypeError(f"{what}: expected an int, not {value!r}")
    if not 0 <= value < 1 << bits:
        raise ValueError(f"{what}: {value:#x} is no number of {bits} bits")
    return value


_T = TypeVar("_T")


def _of_type(value: object, kind: Type[_T], what: str) -> _T:
    if not isinstance(value, kind):
        raise TypeError(f"{what}: expected a {kind.__name__}, not {value!r}")
    return value


def _text(value: object) -> bytes:
    """The text in UTF-8. A surrogate, which UTF-8 doesn't have, becomes bytes that the library rejects."""
    if not isinstance(value, str):
        raise TypeError(f"expected a str, not {value!r}")
    return value.encode("utf-8", "surrogatepass")


def _path(path: object) -> bytes:
    return _text(path.as_posix() if isinstance(path, PurePath) else path)


def _data(value: object) -> bytes:
    if isinstance(value, (bytes, bytearray, memoryview)) or hasattr(type(value), "__bytes__"):
        return bytes(cast(SupportsBytes, value))
    raise TypeError(f"expected bytes, not {value!r}")
