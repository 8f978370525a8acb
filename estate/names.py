"""Names of SIDs, for what is displayed: never for what is stored."""

import re
from collections.abc import Callable

from hudarin import Refused, Sid

from errors import Failed
from unix_lines import getent_line, named_sid

#: The accounts that Windows has everywhere ([MS-DTYP] 2.4.2.4), as `sdstore --accounts` names them.
WELL_KNOWN = {
    "S-1-1-0": "Everyone",
    "S-1-2-0": "LOCAL",
    "S-1-3-0": "CREATOR OWNER",
    "S-1-3-1": "CREATOR GROUP",
    "S-1-5-2": "NT AUTHORITY\\NETWORK",
    "S-1-5-3": "NT AUTHORITY\\BATCH",
    "S-1-5-4": "NT AUTHORITY\\INTERACTIVE",
    "S-1-5-6": "NT AUTHORITY\\SERVICE",
    "S-1-5-7": "NT AUTHORITY\\ANONYMOUS LOGON",
    "S-1-5-9": "NT AUTHORITY\\ENTERPRISE DOMAIN CONTROLLERS",
    "S-1-5-10": "NT AUTHORITY\\SELF",
    "S-1-5-11": "NT AUTHORITY\\Authenticated Users",
    "S-1-5-12": "NT AUTHORITY\\RESTRICTED",
    "S-1-5-13": "NT AUTHORITY\\TERMINAL SERVER USER",
    "S-1-5-14": "NT AUTHORITY\\REMOTE INTERACTIVE LOGON",
    "S-1-5-15": "NT AUTHORITY\\This Organization",
    "S-1-5-18": "NT AUTHORITY\\SYSTEM",
    "S-1-5-19": "NT AUTHORITY\\LOCAL SERVICE",
    "S-1-5-20": "NT AUTHORITY\\NETWORK SERVICE",
    "S-1-5-32-544": "BUILTIN\\Administrators",
    "S-1-5-32-545": "BUILTIN\\Users",
    "S-1-5-32-546": "BUILTIN\\Guests",
    "S-1-5-32-547": "BUILTIN\\Power Users",
    "S-1-5-32-548": "BUILTIN\\Account Operators",
    "S-1-5-32-549": "BUILTIN\\Server Operators",
    "S-1-5-32-550": "BUILTIN\\Print Operators",
    "S-1-5-32-551": "BUILTIN\\Backup Operators",
    "S-1-5-32-552": "BUILTIN\\Replicator",
    "S-1-5-32-554": "BUILTIN\\Pre-Windows 2000 Compatible Access",
    "S-1-5-32-555": "BUILTIN\\Remote Desktop Users",
    "S-1-5-32-580": "BUILTIN\\Remote Management Users",
}

#: How a line of a file of accounts begins.
_ACCOUNT = re.compile(r"\A(?:user|group) (?=S-1-)")

_SID = re.compile(r"S-1(?:-\d+)+")
#: An alias where SDDL has a SID.
_ALIAS = re.compile(r"(?<=;;;)[A-Z]{2}(?=\))|(?<=\bO:)[A-Z]{2}(?=G:)|(?<=G:)[A-Z]{2}(?=D:|$)")


def read_names(file_names: list[str]) -> dict[str, str]:
    """The names of SIDs from files: lines `SID NAME`, files of accounts, or output of `wbinfo --lookup-sids`, `getent
    passwd` or `getent group`, whose numbers are SIDs as Samba writes them. Other lines are ignored."""
    names: dict[str, str] = {}
    for file_name in file_names:
        try:
            with open(file_name, encoding="utf-8-sig", errors="replace") as lines:
                for line in lines:
                    named = _named(line.rstrip("\r\n"))
                    if named is not None:
                        names.setdefault(*named)
        except OSError as error:
            raise Failed(f"{file_name}: {error.strerror}") from error
    return names


def _named(line: str) -> tuple[str, str] | None:
    found = named_sid(_ACCOUNT.sub("", line)) or getent_line(line)
    return None if found is None else (found.sid, found.name)


def shown_by(names: dict[str, str]) -> Callable[[str], str]:
    """Puts names in the place of SIDs and their aliases in a text. A name from outside can't pass for a SID or end an
    entry: it stands in quotes, and its own quotes are doubled."""
    quoted = {sid: '"' + name.replace('"', '""') + '"' for sid, name in names.items()}
    aliases = {str(Sid.from_text(sid)): name for sid, name in quoted.items() if _is_sid(sid)}

    def shown(text: str) -> str:
        text = _SID.sub(lambda found: quoted.get(found[0], found[0]), text)
        return _ALIAS.sub(lambda found: aliases.get(found[0], found[0]), text) if aliases else text

    return shown


def _is_sid(text: str) -> bool:
    try:
        Sid.from_text(text)
    except Refused:
        return False
    return True
