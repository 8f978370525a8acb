"""Access masks and generic mappings."""

from typing import Iterable, Literal, Optional, Union

from ._answers import _checked, _filled
from ._arguments import _number, _text
from ._calls import _Mapping
from ._library import _library
from ._numbers import FILES

#: A mask: a number, or a text as ``mask`` parses it.
Mask = Union[int, str]
#: The kinds of objects, whose names masks have in words: `ds` is an object of Active Directory, `scm` the service
#: control manager, and a share has the rights of files.
Kind = Literal["file", "folder", "share", "ds", "key", "service", "scm", "printer", "process", "section", "token"]
_KINDS = {
    None: 0,
    "file": 1,
    "folder": 5,
    "share": 1,
    "ds": 6,
    "key": 2,
    "service": 3,
    "scm": 10,
    "printer": 7,
    "process": 4,
    "section": 8,
    "token": 9,
}


def _kind(kind: object) -> int:
    if kind is None or isinstance(kind, str):
        if kind in _KINDS:
            return _KINDS[kind]
        raise ValueError(f"expected one of {', '.join(filter(None, _KINDS))}, not {kind!r}")
    raise TypeError(f"expected a kind of object, not {kind!r}")


def mask(text: str, kind: Optional[Kind] = None) -> int:
    """The mask that the text is: words joined by "+", each a name that rights have for the kind of object, in any case,
    or else rights of SDDL or a number, as "FR", "RCWD", "0x20" or, of a file, "Modify+WRITE_DAC". "" is 0."""
    given = _text(text)
    return int(_checked(_library.hudarin_mask_from_text(given, len(given), _kind(kind)), "mask").mask)


def mask_names(mask: int, kind: Optional[Kind] = None) -> str:
    """The mask by the names of the kind of object, of a file as "FR+WD"; without a kind by those that every object has.
    The bits that no name has follow as a number, as in "FR+0x200". `mask` with the same kind returns it again."""
    number, of = _number(mask, "mask"), _kind(kind)
    return _filled(lambda *buffer: _library.hudarin_mask_to_text(number, of, *buffer), "mask")[0].decode()


def map_mask(mask: Mask, mapping: Iterable[Mask] = FILES) -> int:
    """The mask with its generic rights mapped, as each check maps what is asked for and the entries."""
    return int(_checked(_library.hudarin_map_mask(_mask(mask, "mask"), _mapping(mapping)), "mapping").mask)


def _mask(value: object, what: str) -> int:
    return mask(value) if isinstance(value, str) else _number(value, what)


# The mapping of files, which most checks use, is made once: making one takes longer than a check.
def _mapping(masks: Iterable[Mask], files: Iterable[Mask] = FILES, of_files: _Mapping = _Mapping(*FILES)) -> _Mapping:
    if masks is files:
        return of_files
    if isinstance(masks, (str, bytes)):
        raise TypeError(f"mapping: expected four masks, not {masks!r}")
    given = tuple(masks)
    if len(given) != 4:
        raise ValueError(f"mapping: expected four masks, not {len(given)}")
    return _Mapping(*(_mask(one, "mapping") for one in given))
