"""Lines of text files of Windows, in UTF-8 or UTF-16."""

import io
import os
import stat
from collections.abc import Iterator
from dataclasses import dataclass

from errors import Failed, Invalid

_MARKS = ((b"\xef\xbb\xbf", "utf-8"), (b"\xff\xfe", "utf-16-le"), (b"\xfe\xff", "utf-16-be"))

#: A line's number, counted from 1, and its text without its end.
Line = tuple[int, str]


@dataclass(frozen=True, slots=True)
class Encoding:
    """How a file is encoded, and the byte order mark at its start, or nothing."""

    name: str
    mark: bytes


def encoding_of(start: bytes) -> Encoding:
    """The encoding of a file that begins with these bytes. Without a mark a first character in ASCII shows UTF-16."""
    for mark, name in _MARKS:
        if start.startswith(mark):
            return Encoding(name, mark)
    if len(start) > 1 and 0 in start[:2]:
        return Encoding("utf-16-le" if start[1] == 0 else "utf-16-be", b"")
    return Encoding("utf-8", b"")


def start_of(name: str, count: int) -> bytes:
    """The first bytes of the file of this name, or Failed: also of a pipe, whose start can't be read twice."""
    try:
        if not stat.S_ISREG(os.stat(name).st_mode):
            raise Failed(f"{name}: it is no regular file")
        with open(name, "rb") as file:
            return file.read(count)
    except OSError as error:
        raise Failed(f"{name}: {error.strerror}") from error


def encoding_in(name: str) -> Encoding:
    """The encoding of the file of this name, or Failed as `start_of` says."""
    return encoding_of(start_of(name, 4))


def lines_of(name: str, encoding: Encoding) -> Iterator[Line]:
    """The lines of the file: Failed if it can't be read, Invalid if it is encoded otherwise."""
    try:
        with open(name, "rb") as file:
            file.seek(len(encoding.mark))
            text = io.TextIOWrapper(file, encoding.name, "strict", newline="\n")
            for number, line in enumerate(text, 1):
                yield number, line.removesuffix("\n").removesuffix("\r")
    except UnicodeDecodeError as error:
        raise Invalid(f"{name}: invalid {encoding.name.upper()} at byte {_fault_in(name, encoding)}") from error
    except OSError as error:
        raise Failed(f"{name}: {error.strerror}") from error


def _fault_in(name: str, encoding: Encoding) -> int:
    """The offset of the first fault, which the decoder of a stream doesn't say."""
    with open(name, "rb") as file:
        data = file.read()
    try:
        data[len(encoding.mark) :].decode(encoding.name)
    except UnicodeDecodeError as error:
        return len(encoding.mark) + error.start
    return len(data)
