"""The declarations of bindings/hudarin.h, with the comments before them."""

import re
import textwrap
from dataclasses import dataclass, field


@dataclass
class Item:
    """A call, a type or a constant: its name, its declaration line by line, and its comment."""

    name: str
    lines: list[str]
    text: str


@dataclass
class Section:
    title: str
    text: str
    constants: list[Item] = field(default_factory=list)


@dataclass
class Header:
    text: str
    sections: list[Section] = field(default_factory=list)
    types: list[Item] = field(default_factory=list)
    calls: list[Item] = field(default_factory=list)

    def version(self) -> str:
        """That of the library, as "0.3.0"."""
        lines = [each.lines[0].partition(" ") for section in self.sections for each in section.constants]
        return ".".join(value.rstrip("u") for name, _, value in lines if name.startswith("HUDARIN_VERSION_"))


_PIECE = re.compile(
    r"/\*(?P<comment>.*?)\*/"
    r"|#define (?P<constant>HUDARIN_[A-Z0-9_]+) (?P<value>[^\n]*)"
    r"|\n    (?P<enumerator>HUDARIN_[A-Z0-9_]+) = (?P<number>[0-9]+)"
    r"|\n} (?P<enum>\w+);"
    r"|typedef struct \w+ (?P<hidden>\w+);"
    r"|typedef struct \w+ \{\n(?P<fields>.*?)\n\} (?P<type>\w+);"
    r"|(?P<inline>static inline )?(?P<call>(?:HUDARIN_ANSWERS )?(?:const )?[a-z_0-9]+ \*?"
    r"(?P<name>hudarin_[a-z_0-9]+)\([^;{]*\))(?:;|\n\{.*?\n\})",
    re.DOTALL,
)


def _plain(comment: str) -> str:
    """A comment's text, with an empty line between two paragraphs."""
    lines = [re.sub(r"^\s*\* ?", "", each).strip() for each in comment.strip().splitlines()]
    return re.sub(r"(?<!\n)\n(?!\n)", " ", "\n".join(lines)).strip()


def _call(found: re.Match) -> list[str]:
    """The declaration without HUDARIN_ANSWERS, in lines that fit a terminal."""
    text = (found["inline"] or "") + found["call"].replace("HUDARIN_ANSWERS ", "") + ";"
    wrap = textwrap.TextWrapper(72, subsequent_indent="    ", break_long_words=False, break_on_hyphens=False)
    return wrap.wrap(" ".join(text.split()))


def read_header(text: str) -> Header:
    _, head, rest = re.split(r"/\*|\*/", text, maxsplit=2)
    header = Header(_plain(head))
    comment = ""
    for found in _PIECE.finditer(rest):
        if found["comment"] is not None:
            comment = _plain(found["comment"])
            if comment.startswith("---- "):
                title, _, rest_of_it = comment[5:].partition(". ")
                title, _, more = title.partition(": ")
                header.sections.append(Section(title, " ".join(each for each in (more, rest_of_it) if each)))
                comment = ""
            continue
        if found["constant"] and found["constant"] != "HUDARIN_ANSWERS":
            line = "%s %s" % (found["constant"], found["value"])
            header.sections[-1].constants.append(Item(found["constant"], [line], comment))
        elif found["enumerator"]:
            line = "%s %s" % (found["enumerator"], found["number"])
            header.sections[-1].constants.append(Item(found["enumerator"], [line], comment))
        elif found["type"]:
            fields = [each.strip() for each in found["fields"].splitlines()]
            header.types.append(Item(found["type"], fields, comment))
        elif found["enum"]:
            header.types.append(Item(found["enum"], ["enum " + found["enum"]], comment))
        elif found["hidden"]:
            header.types.append(Item(found["hidden"], ["struct " + found["hidden"]], comment))
        elif found["name"]:
            header.calls.append(Item(found["name"], _call(found), comment))
        comment = ""
    return header
