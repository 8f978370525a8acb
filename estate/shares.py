"""The descriptor of a share, which counts beside those of its files: whoever comes by the share is granted what both
grant."""

import argparse
import subprocess

from hudarin import Descriptor, Refused, mask

from errors import Failed, Invalid

#: The access mask that asks for all that is granted ([MS-DTYP] 2.4.3).
_MAXIMUM_ALLOWED = 0x02000000


def share_of(arguments: argparse.Namespace) -> str | None:
    """The descriptor of `--share` or `--samba-share` in canonical SDDL, or None without one. Invalid if it is none, or
    has no DACL, which would grant all."""
    if arguments.samba_share is not None:
        return _parsed(f"--samba-share {arguments.samba_share}", _of_samba(arguments.samba_share))
    return None if arguments.share is None else _parsed(f"--share {arguments.share!a}", arguments.share)


def _parsed(option: str, text: str) -> str:
    try:
        descriptor = Descriptor.from_sddl(text)
    except Refused as refused:
        raise Invalid(f"{option}: {refused}") from refused
    if descriptor.dacl_kind == "absent":
        raise Invalid(f"{option}: it has no DACL, which would grant everything: give all of the descriptor")
    return str(descriptor)


def _of_samba(name: str) -> str:
    """The descriptor that this machine's Samba has of a share in its share_info.tdb, as its sharesec prints it."""
    try:
        words = ["sharesec", "--viewsddl", "--", name]
        ran = subprocess.run(words, capture_output=True, encoding="utf-8", errors="replace")
    except OSError as error:
        raise Failed(f"sharesec: {error.strerror}: Samba's package has it") from error
    if ran.returncode:
        raise Failed(f"sharesec: {ran.stderr.strip() or ran.stdout.strip() or ran.returncode}")
    return ran.stdout.strip()


def require_rights(mask_text: str) -> None:
    """Invalid if not rights are asked for but all that is granted, of which the share and the file each have theirs."""
    try:
        asked = mask(mask_text)
    except Refused as refused:
        raise Invalid(f"{mask_text}: not a mask: {refused}") from refused
    if asked & _MAXIMUM_ALLOWED:
        raise Invalid(f"{mask_text}: --share is for rights: ask for one, as FR or 0x2, instead of MAXIMUM_ALLOWED")
