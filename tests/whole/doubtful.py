"""What `--object lint` says of whole lists, beside the second model: without the entries that have no effect the model
grants who asks the same, whatever its claims; and of a SID of concern it grants at least the rights that are granted,
and at most those and the ones that may be."""

from typing import Any, Dict, List, NamedTuple, Set, Tuple

import access
import model
import parsing
import whose
from program import DOMAIN

#: SIDs of concern, and those of which the random descriptors have entries.
CONCERN = ("S-1-1-0", "S-1-5-11", "S-1-5-32-545", "S-1-5-32-546", "S-1-5-21-1-2-3-513")
FULL, WRITE, DELETE, PERMISSIONS = "full-control", "write", "delete", "change-permissions"


class Said(NamedTuple):
    """What the lines say: the numbers of entries without an effect, and the rights of each SID of concern."""

    useless: Set[int]
    granted: Dict[str, Set[str]]
    possible: Dict[str, Set[str]]


def said_by(lines: List[Dict[str, Any]]) -> Said:
    said = Said(set(), {sid: set() for sid in CONCERN}, {sid: set() for sid in CONCERN})
    for line in lines:
        if line["answer"] == "no effect":
            said.useless.add(line["entry"])
        elif line.get("sid") in CONCERN and line["answer"] == "risky grant":
            said.granted[line["sid"]].add(line["right"])
        elif line.get("sid") in CONCERN and line["answer"] == "risky grant by conditions":
            said.possible[line["sid"]].add(line["right"])
    return said


def without(descriptor: model.Descriptor, numbers: Set[int]) -> model.Descriptor:
    """The descriptor without the entries of these numbers of its DACL."""
    kept = [entry for number, entry in enumerate(descriptor.dacl.entries, 1) if number not in numbers]
    return descriptor._replace(dacl=descriptor.dacl._replace(entries=kept))


def rights_in(mask: int, question: access.Question) -> Set[str]:
    """The rights to change an object that are granted, as `--risks` names them."""
    read, write, execute, every = (access.mapped(bit << 28, question.mapping) for bit in (8, 4, 2, 1))
    if every and mask & every == every:
        return {FULL, WRITE, DELETE, PERMISSIONS}
    child = 0x40 if every & 0x40 and not (read | write | execute) & 0x40 else 0
    return {name for name, bits in ((WRITE, write & ~(read | execute)), (DELETE, 0x10000 | child),
                                    (PERMISSIONS, 0xC0000)) if mask & bits}


def all_of(rights: Set[str]) -> Set[str]:
    return {FULL, WRITE, DELETE, PERMISSIONS} if FULL in rights else rights


def found_in(descriptor: model.Descriptor, question: access.Question, said: Said) -> List[str]:
    """What the model says otherwise."""
    wrong = []
    was, now = (whose.Asked(one, question).granted() for one in (descriptor, without(descriptor, said.useless)))
    if was != now:
        wrong.append(f"without {sorted(said.useless)} {hex(now)}, and not {hex(was)}")
    claims = tuple(word for word in question.words if word.startswith("@User.") or word[:1].islower() and "=" in word)
    for sid in CONCERN:
        asked = question._replace(user=sid, words=claims)
        rights = rights_in(whose.Asked(descriptor, asked).granted(), question)
        if not all_of(said.granted[sid]) >= rights - all_of(said.possible[sid]) or not rights >= all_of(said.granted[sid]):
            wrong.append(f"{sid} has {sorted(rights)}")
    return wrong


def compared(program: str, question: access.Question, text: str) -> Tuple[List[Dict[str, Any]], List[str]]:
    """The lines of `lint`, and what the model says otherwise: nothing of a list that is rejected."""
    lines = whose.lines_of(program, question, "--object", "--concern", CONCERN[-1], "lint", text)
    if lines[0]["answer"] == "fault":
        return lines, []
    descriptor = parsing.descriptor(text, DOMAIN)
    return lines, found_in(descriptor, question, said_by(lines))
