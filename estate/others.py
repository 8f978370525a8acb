"""Entries of a DACL that are neither allows nor denies, as those of objects and with conditions. A tree has none: they
are kept beside it, and a write puts them back."""

import contextlib
from dataclasses import dataclass

from hudarin import FLAGS, OF_DACL, OF_GROUP, OF_OWNER, Descriptor, Refused, WholeDescriptor, WholeEntry

from sddl import parts_of

#: AceType ([MS-DTYP] 2.4.4.1): an allow is 0 and a deny 1; of others deny those of objects, with a condition, and both.
_DENY, _DENIES = 0x01, (0x06, 0x0A, 0x0C)
#: The flags of an entry that was inherited, and of one that children inherit.
INHERITED, FOR_CHILDREN = FLAGS["ID"], FLAGS["OI"] | FLAGS["CI"]

_NOTHING = WholeDescriptor.from_sddl("D:")


@dataclass(frozen=True, slots=True)
class Kept:
    """What of a descriptor is in a tree, and what is kept beside it."""

    #: Owner, group and the allows and denies of the DACL, in canonical SDDL.
    text: str
    has_sacl: bool = False
    #: If the DACL has entries of other types: owner, group and all of it, by `whole_text`; and which is the first one.
    whole: str = ""
    first: str = ""


def kept_of(whole: WholeDescriptor) -> Kept:
    """What is kept of a descriptor."""
    try:
        plain, left_out = whole.plain()
    except Refused as refused:
        if refused.status != "not plain":
            raise
        plain, left_out = whole.with_entries(each for each in whole.dacl if not _is_other(each)).plain()
        return Kept(str(plain), bool(left_out & 1), whole_text(whole), str(refused))
    return Kept(str(plain), bool(left_out & 1))


def whole_text(whole: WholeDescriptor) -> str:
    """Owner, group and DACL in SDDL, or in hexadecimal after 0x where they have no text in printed ASCII."""
    listed = _NOTHING.with_parts(whole, OF_OWNER | OF_GROUP | OF_DACL)
    with contextlib.suppress(Refused):
        text = listed.without_bits()[0]
        if text.isascii() and text.isprintable():
            return text
    return f"0x{bytes(listed).hex()}"


def whole_of(text: str) -> WholeDescriptor:
    """The descriptor of such a text, or a ValueError."""
    return WholeDescriptor(bytes.fromhex(text[2:])) if text.startswith("0x") else WholeDescriptor.from_sddl(text)


def listed(whole: WholeDescriptor) -> tuple[WholeEntry, ...]:
    """The entries of the DACL. An absent or a null one has none, though it grants access to everyone."""
    return whole.dacl if whole.dacl_kind == "list" else ()


def others_of(text: str) -> list[WholeEntry]:
    """The entries of other types in the DACL of such a text: none if it is empty."""
    return [each for each in listed(whole_of(text)) if _is_other(each)] if text else []


def put_back(has: WholeDescriptor, before: str, after: str) -> WholeDescriptor:
    """The descriptor of the text after a change, with the entries of other types that a node has; but without those
    that it inherited if it no longer inherits. A ValueError says why it can't have them."""
    new, old = WholeDescriptor(Descriptor.from_sddl(after)), list(listed(has))
    if parts_of(before).inherits and not parts_of(after).inherits:
        old = [each for each in old if not (_is_other(each) and each.flags & INHERITED)]
    revision = has.dacl_revision
    if revision is None or not any(map(_is_other, old)):
        return new
    if new.dacl_kind != "list":
        raise ValueError("a null DACL has no entries of other types")
    entries: list[WholeEntry] = []
    for flag in (0, INHERITED):
        mine, plain = ([each for each in part if each.flags & INHERITED == flag] for part in (old, new.dacl))
        entries += _joined(mine, plain)
    try:
        return new.with_entries(entries, revision)
    except Refused as refused:
        if refused.name != "AclSize":
            raise
        raise ValueError("its DACL would have more than 65,535 bytes") from refused


def _joined(old: list[WholeEntry], plain: list[WholeEntry]) -> list[WholeEntry]:
    """The entries of other types among the old ones, all explicit or all inherited, with the new allows and denies. If
    these are the old ones, each entry stays in its place. Otherwise those that deny come first and the others last, as
    in the canonical order of explicit ones (2.4.5): so none grants more, or denies less, than in any other place."""
    if [each for each in old if not _is_other(each)] == plain:
        return old
    others = list(filter(_is_other, old))
    denies = [each for each in others if each.type in _DENIES]
    return [*denies, *plain, *(each for each in others if each.type not in _DENIES)]


def _is_other(entry: WholeEntry) -> bool:
    return entry.type > _DENY
