"""The lines that the program prints: the forms of forms.rt of sd_answer, sd_show, sd_script, sd_people and sd_commands, put
together.

A form is words in which each `{name}` stands for a value, which a line's object has as the member of that name.
LAYOUTS, WITH_PARTS and PLACES have which forms make a line, NUMBERS and ARRAYS of which type a value is: forms.rt says
none of this."""

from __future__ import annotations

import itertools
import re
from pathlib import Path
from typing import Any, Iterator, NamedTuple

CRATES = Path(__file__).resolve().parent.parent / "crates"
SOURCES = [CRATES / crate / "src/forms.rt"
           for crate in ("sd_answer", "sd_show", "sd_script", "sd_people", "sd_commands")]

FORM = re.compile(r"pub const ([A-Z_]+): (LineForm|BitsForm|&str) =\s*([^;]*);")
USE = re.compile(r"use [\w:]+;|pub type BitsForm = [^;]*;")
TEXT = re.compile(r'"([^"\\]*)"')
NAME = re.compile(r"\{(\w+)\}")

#: The values that are numbers, and those that are arrays of strings; all others are strings. A line has each string of an
#: array after a space, and an object has no array that is empty.
NUMBERS = ("at behind byte entry floor from_entry length level number published readers repeats second_entry seen type"
           " was_byte with_pending").split()
ARRAYS = "control entries flags names policy unless way with".split()

#: The lines of several forms, part by part. Of parts with `|` between them a line has one, and with a `?` after them it may
#: have none. A form of bits is three of these: that of its line, X; of one about what is made in a container, X_BELOW; and
#: X_LIST, its SIDs. A form of a line that no layout has is a line by itself.
LAYOUTS = """
SEEN? GRANTED|DENIED|RESERVED|EMPTY
GRANTED|DENIED|RESERVED|EMPTY AT_NODE
SEEN? NO_NODE
SEEN FOUND|GRANTED_BY|DENIED_ALL|SHOWN
OPENED DIFFERS?
GRANTED BY_ENTRY|WITHOUT_A|TO_THE|BY
GRANTED BY_ENTRY|WITHOUT_A|TO_THE|BY BY_WAY_OF? PERSON
GRANTED BY_ENTRY SECOND_BY_ENTRY
GRANTED BY_ENTRY SECOND_BY_ENTRY BY_WAY_OF? PERSON
DENIED BY_ENTRY|BY_NO|WITHOUT|BEYOND|AS|BY
DENIED BY_ENTRY|BY_NO SECOND_BY_ENTRY|SECOND_BY_NO
WHO AS_THE? WHO_LIST?
NEW|BELOW_NEW WHO_BELOW AS_THE? WHO_LIST?
NEW|BELOW_NEW NOTHING_INHERITED
PATH? GAINED GAINED_LIST?
PATH? NEW|BELOW_NEW GAINED_BELOW GAINED_LIST?
OF_CLASS|OF_OTHERS NEW|BELOW_NEW GAINED_BELOW GAINED_LIST?
PATH? LOST LOST_LIST?
GAINED_BY BY_PERSON
LOST_BY BY_PERSON
PATH? NEW|BELOW_NEW LOST_BELOW LOST_LIST?
OF_CLASS|OF_OTHERS NEW|BELOW_NEW LOST_BELOW LOST_LIST?
PATH? NO_LONGER_PROTECTED|NOW_PROTECTED
NEW|BELOW_NEW RISKY_GRANT_BELOW
""".strip().split("\n")

#: The lines of an entry: after each of these forms come the parts of PLACES, a form of each place in their order, of one
#: with a `?` maybe none. There are too many such lines for a list of all.
WITH_PARTS = "ENTRY REMOVED ADDED ENTRY_MOVED".split()
PLACES = """
ACCESS|AUDIT|LABEL|OF_SID|LIMIT|OPAQUE
OTHER_MASK?
ON
OBJECT_TYPE?
INHERITED_TYPE?
CONDITION|UNKNOWN_CONDITION|CLAIM|DATA?
FLAGS?
""".split()
#: The part that the object of each line may have, and that no text has: the names of its SIDs.
NAMES = "NAMES"
#: These two have one name. The program prints neither of a text: SDDL has no text for either.
ALIKE = {"UNKNOWN_CONDITION": "DATA"}


class Line(NamedTuple):
    """A line: its kind, its words, and whether parts come after these."""

    kind: str
    words: str
    has_parts: bool = False


def read_forms() -> dict[str, tuple[str, str]]:
    """The forms of the sources, in their order: of a line its kind and its words, of a part no kind and its words."""
    source = "".join(path.read_text(encoding="utf-8") for path in SOURCES)
    source = re.sub(r"^ *//.*", "", source, flags=re.MULTILINE)
    rest = USE.sub("", FORM.sub("", source))
    assert not rest.strip(), f"forms.rt has something that is no form: {rest.strip()}"
    forms: dict[str, tuple[str, str]] = {}
    for name, type_, value in FORM.findall(source):
        assert name not in forms, f"two forms are {name}"
        texts = TEXT.findall(value)
        assert not TEXT.sub("", value).strip("(), \n"), f"{name} has something that is no text"
        if type_ == "BitsForm":
            kind, kind_below, words, sids = texts
            forms.update({name: (kind, words), f"{name}_BELOW": (kind_below, words), f"{name}_LIST": ("", sids)})
        else:
            kind, words = texts if type_ == "LineForm" else ("", *texts)
            assert (type_ == "LineForm") == bool(kind), f"{name} has no kind"
            forms[name] = kind, words
    return forms


FORMS = read_forms()
#: The words that may come before a line.
HEADS = [FORMS[part][1] for part in ("PATH", "OF_CLASS", "OF_OTHERS", "NEW", "BELOW_NEW")]


def names(words: str) -> list[str]:
    """The names of the values, in their order."""
    return NAME.findall(words)


def choices(part: str) -> list[str]:
    """The forms of which a line has one at a place; the empty name is none."""
    return [""] * part.endswith("?") + part.rstrip("?").split("|")


def laid_out(parts: list[str]) -> Iterator[tuple[str, ...]]:
    """The lines of a layout: the names of the forms of each."""
    for line in itertools.product(*map(choices, parts)):
        yield tuple(filter(None, line))


def compositions() -> Iterator[tuple[str, tuple[str, ...]]]:
    """Each line, by the form that has its kind, and by all of its forms."""
    laid = [parts for layout in LAYOUTS for parts in laid_out(layout.split())]
    of_places = set(itertools.chain(*map(choices, PLACES))) - {""}
    used = set(itertools.chain(*laid))
    assert used | of_places <= set(FORMS), f"forms.rt has no {(used | of_places) - set(FORMS)}"
    laid += [(name,) for name, (kind, _) in FORMS.items() if kind and name not in used]
    unused = set(FORMS) - set(itertools.chain(*laid)) - of_places - {NAMES}
    assert not unused, f"no layout has {unused}"
    for parts in laid:
        (kind,) = (part for part in parts if FORMS[part][0])
        yield kind, parts


def without_arrays(words: str) -> str:
    """The words where each array is empty."""
    return NAME.sub(lambda found: found[0] * (found[1] not in ARRAYS), words)


def read_lines() -> list[Line]:
    """Each line, by the form that has its kind, in the order of forms.rt."""
    lines = []
    order = list(FORMS)
    for name, parts in sorted(compositions(), key=lambda line: order.index(line[0])):
        kind, words = FORMS[name][0], "".join(FORMS[part][1] for part in parts)
        # Only an array within the form of a line may be empty: a part for one is left out.
        if len(parts) == 1 and without_arrays(words) != words:
            lines.append(Line(kind, without_arrays(words)))
        lines.append(Line(kind, words, name in WITH_PARTS))
    assert len({(line.kind, frozenset(names(line.words))) for line in lines}) == len(lines), \
        "two lines of one kind have the same names"
    return lines


def texts_of(part: str) -> set[str]:
    """The words of a form of PLACES. Of these only a label's array may be empty: another part is left out then."""
    words = FORMS[part][1]
    return {words, without_arrays(words)} if part == "LABEL" else {words}


def read_parts() -> dict[tuple[str, ...], list[str]]:
    """What may follow a line that has parts: the words, by the names of their values in their order. What an entry does,
    `does`, tells forms of the first place with the same names apart."""
    found: dict[tuple[str, ...], list[str]] = {}
    known = {}
    for parts in laid_out(PLACES):
        words = "".join(FORMS[part][1] for part in parts)
        # Of several parts with one name a line has one at most.
        if len(set(names(words))) < len(names(words)):
            continue
        told = parts[0], frozenset(names(words))
        alike = tuple(ALIKE.get(part, part) for part in parts)
        assert known.setdefault(told, alike) == alike, f"{parts} and {known[told]} have the same names"
        for each in itertools.product(*map(texts_of, parts)):
            found.setdefault(tuple(names("".join(each))), []).append("".join(each))
    return found


LINES = read_lines()
#: The words of the forms of each place, the empty ones where a line may have none there.
PARTS = [[FORMS[name][1] if name else "" for name in choices(place)] for place in PLACES]
AFTER = read_parts()


def check_names() -> None:
    """Each name that has a type is one of a line."""
    found = {name for line in LINES for name in names(line.words)} | set(names(FORMS[NAMES][1]))
    found |= {name for place in PARTS for words in place for name in names(words)}
    assert set(NUMBERS + ARRAYS) <= found, f"no line has {set(NUMBERS + ARRAYS) - found}"


check_names()


def wordings(kind: str, of: tuple[str, ...]) -> set[str]:
    """The words of the lines of a kind whose values have these names, in this order."""
    found = set()
    for line in LINES:
        head = tuple(names(line.words))
        if line.kind != kind or of[:len(head)] != head:
            continue
        rests = AFTER.get(of[len(head):], []) if line.has_parts else [""] * (of == head)
        found |= {line.words + rest for rest in rests}
    return found


def text_of(name: str, value: Any) -> str:
    """A member's value as its line has it."""
    if name in NUMBERS:
        assert type(value) is int
        return str(value)
    if name in ARRAYS:
        assert value and all(type(each) is str for each in value)
        return "".join(f" {each}" for each in value)
    assert type(value) is str
    return value


def line_of(words: str, members: dict[str, Any]) -> str:
    """The line that has these values."""
    return NAME.sub(lambda found: text_of(found[1], members[found[1]]), words)
