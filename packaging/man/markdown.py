"""A page of docs/ as a manual page: headings, paragraphs, lists, tables and blocks."""

import re
from textwrap import indent

import roff

_SPAN = re.compile(r"`(?P<code>[^`]*)`|\*\*(?P<bold>[^*]+)\*\*|\*(?P<soft>[^*\s][^*]*)\*|\[(?P<link>[^\]]+)\]\([^)]+\)")
# The greatest width of a table, in columns of a terminal.
_ROOM = 68


def inline(text: str, width: int = 10**6) -> str:
    """A line's spans, for a column of this width: code and bold text are bold, a link is its text."""
    made, at = [], 0
    for found in _SPAN.finditer(text):
        made.append(_words(text[at : found.start()], width))
        at = found.end()
        if found["code"] is not None:
            made.append("\\fB" + _words(found["code"], width) + "\\fR")
        elif found["bold"] is not None:
            made.append("\\fB" + roff.escaped(found["bold"]) + "\\fR")
        elif found["soft"] is not None:
            made.append("\\fI" + roff.escaped(found["soft"]) + "\\fR")
        else:
            made.append(inline(found["link"], width))
    return "".join(made) + _words(text[at:], width)


def _words(text: str, width: int) -> str:
    return " ".join(roff.breakable(each, width) for each in text.split(" "))


def _width(cell: str) -> int:
    return len(_SPAN.sub(lambda found: next(each for each in found.groups() if each is not None), cell))


def _widths(rows: list[list[str]], longest: list[int]) -> list[int]:
    """The width of each column: that of its longest text, if all fit; otherwise at least that of its longest word, and
    a share of the rest."""
    room = _ROOM - 3 * (len(longest) - 1)
    if sum(longest) <= room:
        return longest
    widths = [max(min(20, _width(word)) for row in rows for word in row[at].split(" ")) for at in range(len(longest))]
    while sum(widths) > room:
        widths[widths.index(max(widths))] -= 1
    left = room - sum(widths)
    wanted = [most - width for most, width in zip(longest, widths)]
    return [width + left * want // sum(wanted) for width, want in zip(widths, wanted)]


def _cells(line: str) -> list[str]:
    return [each.strip() for each in line.strip().strip("|").split("|")]


def _table(lines: list[str]) -> list[str]:
    rows = [_cells(each) for at, each in enumerate(lines) if at != 1]
    count = len(rows[0])
    rows = [(row + [""] * count)[:count] for row in rows]
    longest = [max(_width(row[at]) for row in rows) for at in range(count)]
    widths = _widths(rows, longest)
    shape = " ".join("l" if longest[at] <= widths[at] else "lw(%dn)" % widths[at] for at in range(count))
    made = [".TS", "nokeep tab(|);", shape + "."]
    for number, row in enumerate(rows):
        cells = []
        for at, cell in enumerate(row):
            text = inline("**" + cell + "**" if number == 0 and cell and "`" not in cell else cell, widths[at])
            cells.append(text if longest[at] <= widths[at] else "T{\n" + roff.line(text or "\\&") + "\nT}")
        made += "|".join(each or "\\&" for each in cells).split("\n")
    return [".PP", *made, ".TE"]


def _block(lines: list[str]) -> list[str]:
    """A paragraph, a list or a table."""
    if lines[0].startswith("|"):
        return _table(lines)
    text = "\n".join(lines)
    if found := re.match(r"(- |\d+\. )", text):
        made = []
        for each in re.split(r"\n(?=- |\d+\. )", text):
            mark, _, rest = each.partition(" ")
            tag = "\\(bu" if mark == "-" else mark
            made += [".IP %s 3" % tag, roff.line(inline(" ".join(rest.split())))]
        return made
    return [".PP", roff.line(inline(" ".join(text.split())))]


def page(text: str) -> list[str]:
    """The page without its title and its list of headings, which a manual page doesn't have."""
    made: list[str] = []
    text = re.sub(r"\A# .*\n", "", text)
    text = re.sub(r"(^- \[.*\]\(#.*\)\n)+", "", text, flags=re.MULTILINE)
    console = re.compile(r"^```[^\n]*\n(.*?)\n```$", re.MULTILINE | re.DOTALL)
    text = console.sub(lambda found: indent(found[1], "    "), text)
    for block in re.split(r"\n{2,}", text.strip("\n")):
        lines = block.splitlines()
        if found := re.match(r"(##+) (.*)", block):
            made.append("%s %s" % (".SH" if len(found[1]) == 2 else ".SS", inline(found[2])))
            lines = lines[1:]
        if not lines:
            continue
        if all(each.startswith("    ") for each in lines):
            made += roff.literal([each[4:] for each in lines])
        else:
            made += _parts(lines)
    return made


def _parts(lines: list[str]) -> list[str]:
    """The lines of a block: a table, and the lines before it."""
    at = next((at for at, each in enumerate(lines) if each.startswith("|")), 0)
    before = _block(lines[:at]) if at else []
    return before + _block(lines[at:])
