"""Text for the man macros."""

_SPECIAL = {
    "\\": "\\(rs",
    "-": "\\-",
    "'": "\\(aq",
    "`": "\\(ga",
    "^": "\\(ha",
    "~": "\\(ti",
}


def escaped(text: str) -> str:
    """The text, each character of which is printed as itself."""
    return "".join(_SPECIAL.get(each, each if each.isascii() else "\\[u%04X]" % ord(each)) for each in text)


def breakable(text: str, width: int) -> str:
    """The same for a word in a column of this width. If it is too long, it may be broken anywhere."""
    if len(text) <= width:
        return escaped(text)
    return "\\:".join(escaped(each) for each in text)


def line(text: str) -> str:
    """A line of a page's source that is text, whatever it begins with."""
    return "\\&" + text if text[:1] in (".", "'") else text


def paragraph(text: str) -> list[str]:
    return [".PP", line(escaped(text))]


def literal(lines: list[str]) -> list[str]:
    """Indented lines, not filled."""
    return [".PP", ".RS 4", ".EX", *(line(escaped(each)) for each in lines), ".EE", ".RE"]


def entry(name: str, text: str) -> list[str]:
    """A name and its description."""
    return [".TP", line("\\fB" + escaped(name) + "\\fR"), line(escaped(text)) if text else "\\&"]


def head(name: str, section: int, changed: str, source: str) -> list[str]:
    # (words aren't hyphenated, since many are names)
    title = '.TH %s %d %s "%s" "Hudarin"' % (name.upper(), section, changed, source)
    return ["'\\\" t", title, ".nr HY 0", ".hy 0", ".ad l"]
