"""Distinguished names, compared as a directory does: without case, and however they are escaped (RFC 4514)."""

import re

#: A name without escapes, whose key is itself in small letters.
_RDN = r'[A-Za-z][A-Za-z0-9-]*=(?! )[^\\"+;<>#,\x00]*(?<! )'
_PLAIN = re.compile(f"{_RDN}(?:,{_RDN})*")
#: A type and a value of any name. (Directories of Windows and of Samba have no value in quotes.)
_PART = re.compile(r" *([A-Za-z][A-Za-z0-9-]*|[0-9.]+) *= *((?:[^\\,+]|\\.)*)", re.DOTALL)
_ESCAPED = re.compile(r"((?:\\[0-9A-Fa-f]{2})+)|\\(.)", re.DOTALL)
#: What has an escape in a key, so that none can be taken for the end of a value.
_SPECIAL = re.compile(r'[\\,+"<>;#\x00]|^ | $')
#: What the control LDAP_SERVER_EXTENDED_DN_OID puts before a name.
_EXTENDED = re.compile(r"(?:<[^<>]*>;)+")
_FOREIGN = re.compile(r"cn=(s-1-[0-9a-fx-]+),cn=foreignsecurityprincipals,")


def key_of(dn: str) -> str:
    """A text that two names have alike if they are the same. ValueError if the text is no name."""
    if _PLAIN.fullmatch(dn):
        return _small(dn)
    at = found.end() if (found := _EXTENDED.match(dn)) else 0
    rdns: list[list[str]] = [[]]
    while True:
        part = _PART.match(dn, at)
        if part is None:
            raise ValueError(f"invalid DN: {dn[:200]!a}")
        rdns[-1].append(f"{part[1].lower()}={_value(part[2])}")
        at = part.end()
        if at == len(dn):
            return ",".join("+".join(sorted(parts)) for parts in rdns)
        if dn[at] == ",":
            rdns.append([])
        at += 1


def _value(raw: str) -> str:
    """The value of a type, in the form of a key."""
    text = raw.rstrip(" ")
    if (len(text) - len(text.rstrip("\\"))) % 2:
        text += " "
    if text.startswith("#"):
        return text.lower()
    text = _ESCAPED.sub(_unescaped, text)
    return _SPECIAL.sub(lambda found: f"\\{ord(found[0]):02x}", _small(text))


def _unescaped(found: "re.Match[str]") -> str:
    if found[1]:
        return bytes.fromhex(found[1].replace("\\", "")).decode("utf-8", "surrogateescape")
    return found[2]


def _small(text: str) -> str:
    """The text in small letters, each character by itself: `str.lower` has another small sigma at the end of a word."""
    return text.lower() if text.isascii() else "".join(map(str.lower, text))


def is_in(key: str, above: str) -> bool:
    """Whether the name is the other, or one below it."""
    return key == above or key.endswith(f",{above}")


def first_value(key: str) -> str:
    """The value of the first type of a key."""
    return key.partition(",")[0].partition("=")[2]


def foreign_in(key: str) -> str | None:
    """The text of the SID for which a foreignSecurityPrincipal stands, by its place in the directory."""
    found = _FOREIGN.match(key)
    return found[1] if found else None
