"""The words of a line: paths spelled by `%` as `sdstore --percent` has them, and descriptors in canonical SDDL."""

import functools
from collections.abc import Iterable, Sequence
from urllib.parse import quote_from_bytes, unquote_to_bytes

from hudarin import Descriptor, Refused, Sid

from answers import Result
from errors import Fault

#: What a printed path has as it is: all printable ASCII but `%`.
_SAFE = "".join(map(chr, range(0x21, 0x7F))).replace("%", "")
#: A number of a line is below this.
_NUMBERS = 1 << 64
#: Descriptors and their texts are kept, as a tree has many nodes of one descriptor: so many, and each so long at most.
_KEPT, _KEPT_LENGTH = 4096, 256


def spelled(path: str) -> str:
    """The path as one word of a line."""
    return path if _is_word(path) else quote_from_bytes(path.encode(), safe=_SAFE)


def all_spelled(paths: Sequence[str]) -> Iterable[str]:
    """The same of each: mostly all are plain, as is asked of all at once."""
    return paths if _is_word("".join(paths)) else map(spelled, paths)


def _is_word(path: str) -> bool:
    """Whether it is spelled as it is."""
    return path.isascii() and path.isprintable() and " " not in path and "%" not in path


def path_of(word: str) -> str:
    """The path that a word spells, which may still be none by the library. Fault: it isn't UTF-8, or a slash is spelled
    by `%`, which would make two names of one."""
    if "%" not in word:
        return word
    if "%2f" in word.lower():
        raise Fault.of("path")
    return _decoded(word, "path")


def name_of(word: str) -> str:
    """The name of an account that a word spells, or the SID. Fault: it isn't UTF-8."""
    return _decoded(word, "user")


def _decoded(word: str, what: str) -> str:
    try:
        return unquote_to_bytes(word).decode()
    except UnicodeDecodeError:
        raise Fault.of(what) from None


def descriptor_of(word: str) -> Descriptor:
    """The descriptor that a word spells."""
    return _kept_descriptor(word) if len(word) <= _KEPT_LENGTH else _descriptor(word)


def _descriptor(word: str) -> Descriptor:
    try:
        return Descriptor.from_sddl(word)
    except Refused as refused:
        raise Fault(fault_of(refused)) from None


_kept_descriptor = functools.lru_cache(_KEPT)(_descriptor)


def printed(descriptor: Descriptor, given: str = "") -> str:
    """The canonical text, which isn't parsed again if it is the one that was given. Fault: it parses to other bytes."""
    is_short = len(given or bytes(descriptor)) <= _KEPT_LENGTH
    return _kept_text(descriptor, given) if is_short else _text(descriptor, given)


def _text(descriptor: Descriptor, given: str) -> str:
    text = str(descriptor)
    if text != given and Descriptor.from_sddl(text) != descriptor:
        raise Fault.of("parts")
    return text


_kept_text = functools.lru_cache(_KEPT)(_text)


def sid_of(word: str) -> Sid:
    """The SID that a word spells."""
    try:
        return Sid.from_text(word)
    except Refused:
        raise Fault.of("sid") from None


def number_of(word: str) -> int:
    """The number that a word spells in decimal digits. Fault: none below 2^64."""
    if word == "0":
        return 0
    digits = word.lstrip("0") or word[-1:]
    if not (word.isascii() and word.isdigit()) or len(digits) > 20 or int(digits) >= _NUMBERS:
        raise Fault.of("number")
    return int(digits)


def fault_of(refused: Refused) -> Result:
    """The answer to a line whose argument, or whose edit, the library refuses."""
    if refused.status == "refused":
        return Result("refused", str(refused.name), refused.fault)
    if refused.status == "sddl":
        return Result("fault", f"sddl {refused.fault} {refused.name} at {refused.place}")
    is_of_path = refused.status in ("path", "utf8") and refused.argument is not None
    return Result("fault", "path" if is_of_path else refused.status)
