"""What `who` and `compare` say where entries have conditions, beside the second model: for the token of a question the
lines of `who` grant just the rights that the model grants it, and those of `compare` have each right that it gains or
loses; and the token of each line gains or loses the rights, where just the conditions that the line has let entries
apply."""

import dataclasses
import json
import subprocess
import uuid
from typing import Any, Dict, Iterable, List, NamedTuple, Optional, Tuple

import access
import evaluate
import model
import parsing
import spelling
from evaluate import Conditions, second
from program import DOMAIN, PATIENCE, Stopped

IF, NOT_FALSE = " if ", " isn't false"


def lines_of(program: str, question: access.Question, *asked: str) -> List[Dict[str, Any]]:
    """The lines that answer a command, as objects."""
    words = [program, *question.options(), "--domain", DOMAIN, "--json", *asked]
    done = subprocess.run(words, capture_output=True, text=True, timeout=PATIENCE, check=False)
    if done.returncode not in (0, 1):
        raise Stopped(f"{words}: status {done.returncode}: {done.stderr[-300:]}")
    return [json.loads(line) for line in done.stdout.splitlines()]


def condition_of(text: str) -> bytes:
    """The data of a condition, as a line has it."""
    return parsing.descriptor(f"D:(XA;;FA;;;WD;{text.removesuffix(NOT_FALSE)})", DOMAIN).dacl.entries[0].data


class Asked:
    """Who asks, and what the model says of it."""

    def __init__(self, descriptor: model.Descriptor, question: access.Question):
        self.descriptor, self.question = descriptor, question
        self.facts = access.client_of(question, access.resource_claims(descriptor)).facts

    def granted(self) -> int:
        """The rights that the list and the owner's grant, without the label."""
        entries = access.Specializing(self.question, self.facts).entries(self.descriptor.dacl)
        owner = evaluate.parts(self.descriptor.owner) if self.descriptor.owner else None
        return access.Plain(owner, entries, self.facts.token, 0).grants(access.RIGHTS)

    def stands_for(self, kind: str, sid: str) -> bool:
        """Whether an entry of the kind for the SID applies: by one entry for it, that grants, or denies what follows."""
        parts = evaluate.parts(sid)
        everybody = second.Entry("A", 0, 1, self.facts.token.user)
        entries = [second.Entry(kind, 0, 1, parts)] + ([everybody] if kind == "D" else [])
        is_granted = second.verdict(None, entries, self.facts.token, 1).startswith("granted")
        return is_granted == (kind == "A")

    def meets(self, kind: str, word: str) -> bool:
        """Whether it has the SID of a word, and meets its condition, if there is one."""
        sid, _, condition = word.partition(IF)
        if not self.stands_for(kind, sid):
            return False
        if not condition:
            return True
        if condition.endswith(NOT_FALSE) != (kind == "D"):
            raise ValueError(word)
        truth = Conditions(self.facts, kind, False).truth(condition_of(condition))
        return truth is not False if kind == "D" else truth is True

    def is_holder(self, line: Dict[str, Any]) -> bool:
        if line["to"] in ("everyone", "nobody"):
            return line["to"] == "everyone"
        return self.meets("A", line["to"])

    def by_lines(self, lines: List[Dict[str, Any]]) -> int:
        """The rights that the lines say are granted."""
        found = 0
        for line in lines:
            if self.is_holder(line) and not any(self.meets("D", word) for word in line.get("unless", ())):
                found |= int(line["mask"], 16)
        return found


def compared(program: str, question: access.Question, text: str) -> Tuple[List[Dict[str, Any]], str, str]:
    """The lines, and what they and the model grant to who asks."""
    lines = lines_of(program, question, "who", text, hex(access.RIGHTS))
    asked = Asked(parsing.descriptor(text, DOMAIN), question)
    return lines, hex(asked.by_lines(lines)), hex(asked.granted())


# ---- compare


#: Whether it is of an allow or a deny, the SID of its entry, and its condition.
Marker = Tuple[str, str, bytes]


def marker_of(entry: model.Entry) -> Marker:
    return "D" if entry.kind in access.DENIES else "A", entry.sid, entry.data


def markers_in(descriptor: model.Descriptor) -> List[Marker]:
    """Those of the effective entries with a condition."""
    return [marker_of(entry) for entry in access.entries_of(descriptor.dacl)
            if isinstance(entry, model.Entry) and entry.kind in access.CALLBACKS and access.is_effective(entry)]


class Marking(access.Specializing):
    """An entry with a condition is for who has its SID and condition, as a word of a line; a plain one is also for who
    has a marker of its SID, but for an allow not for that of a deny, who may have the SID for denies alone."""

    def __init__(self, question: access.Question, facts: Any, markers: Iterable[Marker] = ()):
        super().__init__(question, facts)
        self.markers = list(dict.fromkeys(markers))

    def entry(self, number: int, entry: Any) -> second.Entry:
        if entry.kind not in access.CALLBACKS:
            return super().entry(number, entry)
        marker = marker_of(entry)
        mask = access.mapped(entry.mask, self.question.mapping) if self.has_type(entry) else 0
        return second.Entry(marker[0], 0, mask, marker)

    def entries(self, acl: Any) -> Optional[List[second.Entry]]:
        found = super().entries(acl)
        return found and [each for entry in found for each in (entry, *self.copies(entry))]

    def copies(self, entry: second.Entry) -> List[second.Entry]:
        return [dataclasses.replace(entry, sid=marker) for marker in self.markers
                if entry.sid == self.trustee(marker[1]) and not (entry.kind == "A" and marker[0] == "D")]

    def trustee(self, sid: str) -> Any:
        named = self.question.principal_self
        return evaluate.parts(spelling.sid(named) if named and sid == access.PRINCIPAL_SELF else sid)


def named(word: str) -> Tuple[Any, str]:
    """Whom a word of a line is about, and in which state."""
    text, _, condition = word.partition(IF)
    sid, _, state = text.partition("=")
    if not condition:
        return evaluate.parts(sid), state
    return ("D" if condition.endswith(NOT_FALSE) else "A", sid, condition_of(condition)), state


def token_of(line: Dict[str, Any]) -> second.Token:
    """The token that a line shows."""
    words = [named(word) for word in line.get("with", ())]
    return second.Token(
        ("everyone",) if line["by"] == "everyone" else named(line["by"])[0],
        [(who, "=deny") for who, state in words if state == "deny"],
        [who for who, state in words if state == "restrict"])


class Changed:
    """OLD and NEW, and what the model says of them."""

    def __init__(self, question: access.Question, both: List[model.Descriptor], markers: Iterable[Marker] = ()):
        self.question, self.both, self.markers = question, both, list(markers)
        self.was, self.now = (Asked(descriptor, question) for descriptor in both)

    def is_shown(self, line: Dict[str, Any]) -> bool:
        """Whether the token of a line gains or loses all of its rights."""
        token, bits, found = token_of(line), int(line["mask"], 16), []
        for descriptor, asked in zip(self.both, (self.was, self.now)):
            entries = Marking(self.question, asked.facts, self.markers).entries(descriptor.dacl)
            owner = evaluate.parts(descriptor.owner) if descriptor.owner else None
            found.append(access.Plain(owner, entries, token, 0).grants(bits))
        return found == ([0, bits] if line["answer"] == "gained" else [bits, 0])

    def missed(self, lines: List[Dict[str, Any]]) -> int:
        """The rights that who asks gains or loses, and no line has."""
        was, now = self.was.granted(), self.now.granted()
        said = {kind: 0 for kind in ("gained", "lost")}
        for line in lines:
            said[line["answer"]] |= int(line["mask"], 16)
        return now & ~was & ~said["gained"] | was & ~now & ~said["lost"]

    def left(self, lines: List[Dict[str, Any]]) -> str:
        """What the lines miss, and those that are of nobody."""
        return f"{hex(self.missed(lines))} {[line for line in lines if not self.is_shown(line)]}"


def with_list(text: str, other: str) -> str:
    """The descriptor with the DACL of the other one."""
    sacl = ["S:" + part for part in text.rsplit("S:", 1)[1:]]
    return text.split("D:", 1)[0] + "D:" + other.rsplit("S:", 1)[0].split("D:", 1)[1] + "".join(sacl)


def changes(program: str, question: access.Question, old: str, new: str) -> Tuple[List[Dict[str, Any]], str]:
    """The lines of `compare`, and by the model what they miss, and those that are of nobody."""
    lines = [line for line in lines_of(program, question, "--object", "compare", old, new) if line["answer"] != "same"]
    both = [parsing.descriptor(text, DOMAIN) for text in (old, new)]
    return lines, Changed(question, both, [marker for descriptor in both for marker in markers_in(descriptor)]).left(lines)


# ---- what is made in a container

OWNER_RIGHTS = "S-1-3-4"
ANYBODY = {is_container: second.Node(is_container, second.CREATOR_OWNER, second.CREATOR_GROUP, ())
           for is_container in (False, True)}
#: What the lines of each begin with, and which containers and objects it is inherited by, one below the other.
CHILDREN = ((("new", "objects"), (False,)), (("new", "containers"), (True,)),
            (("below", "objects"), (True, False)), (("below", "containers"), (True, True)))


def is_handed_on(entry: Any) -> bool:
    return bool(entry.flags & (second.OI | second.CI))


def is_unsaid(entry: Any) -> bool:
    """Whether what a child inherits of the entry isn't looked at."""
    if isinstance(entry, model.Opaque) or entry.kind not in access.ALLOWS | access.DENIES:
        return True
    return entry.kind in access.CALLBACKS and entry.sid == OWNER_RIGHTS


def handed_on(entry: Any, is_container: bool, mapping: Tuple[int, ...]) -> List[Any]:
    """The entries of a child: with the flags and the masks that a plain entry hands on."""
    plain = second.Entry("A", entry.flags, entry.mask, evaluate.parts(entry.sid))
    copies = second.handed_on(plain, ANYBODY[is_container], dict(zip(access.GENERIC, mapping)))
    return [entry._replace(flags=copy.flags, mask=copy.mask) for copy in copies]


def class_named(entry: Any) -> Optional[bytes]:
    """Its InheritedObjectType, the class whose objects alone it is for."""
    return entry.types[1] if isinstance(entry, model.Entry) and entry.types else None


def of_class(entry: Any, its_class: Optional[bytes]) -> Any:
    """The entry in a child of the class: where it is for another one, it is there to be inherited alone."""
    named = class_named(entry)
    return entry if named is None or named == its_class else entry._replace(flags=entry.flags | second.IO)


def child_of(descriptor: model.Descriptor, line: Tuple[bool, ...], mapping: Tuple[int, ...],
             its_class: Optional[bytes]) -> model.Descriptor:
    """What is made in a container, of an owner for whom CREATOR OWNER stands."""
    entries = access.entries_of(descriptor.dacl)
    for is_container in line:
        entries = tuple(copy for entry in entries if is_handed_on(entry)
                        for copy in handed_on(entry, is_container, mapping))
    entries = tuple(of_class(entry, its_class) for entry in entries)
    return descriptor._replace(owner="S-1-3-0", dacl=model.AccessList(2, entries))


def head_of(line: Dict[str, Any]) -> Dict[str, str]:
    """What a line says of the class of the children that it is about."""
    return {name: line[name] for name in ("class", "classes") if name in line}


class Child(NamedTuple):
    """Children of a class, or of none that an entry names; and what a line says of it."""

    its_class: Optional[bytes]
    said: Dict[str, str]

    def question(self, of_parent: access.Question) -> access.Question:
        """A child is asked about its class too, where object types are asked about; nobody is its PRINCIPAL SELF."""
        own = (str(uuid.UUID(bytes_le=self.its_class)),) if self.its_class and of_parent.types else ()
        return of_parent._replace(types=own + of_parent.types, principal_self=None)

    def lines(self, lines: List[Dict[str, Any]], where: str, kind: str) -> List[Dict[str, Any]]:
        """Those of its lines that are of this kind of child, as lines of an object."""
        return [{**line, "answer": line["answer"].removesuffix(" below")} for line in lines
                if line.get(where) == kind and head_of(line) == self.said]


def children_in(entries: List[Any]) -> List[Child]:
    """Those of each class that an entry that is handed on names, and the others."""
    named = dict.fromkeys(class_named(entry) for entry in entries if is_handed_on(entry))
    classes = [its_class for its_class in named if its_class]
    return [*(Child(its_class, {"class": str(uuid.UUID(bytes_le=its_class))}) for its_class in classes),
            Child(None, {"classes": "other"} if classes else {})]


def of_children(program: str, question: access.Question, old: str, new: str) -> Tuple[List[Dict[str, Any]], List[str]]:
    """The lines of `compare` of containers, and by the model what is wrong with those of what is made in them."""
    lines = lines_of(program, question, "compare", old, new)
    both = [parsing.descriptor(text, DOMAIN) for text in (old, new)]
    entries = [entry for descriptor in both for entry in access.entries_of(descriptor.dacl)]
    is_left = any(is_handed_on(entry) and is_unsaid(entry) for entry in entries) and both[0].dacl != both[1].dacl
    wrong = ["left out"] if is_left != any(line["answer"] == "object alone" for line in lines) else []
    stops = any(entry.flags & second.NP for entry in entries)
    children = [] if is_left else children_in(entries)
    for child in children:
        for (name, kind), path in CHILDREN:
            said = child.lines(lines, name if stops else "new", kind)
            made = [child_of(descriptor, path, question.mapping, child.its_class) for descriptor in both]
            found = Changed(child.question(question), made).left(said)
            wrong += [f"{child.said} {name} {kind}: {found}"] if found != "0x0 []" else []
    heads = [child.said for child in children]
    others = [line for line in lines if {"new", "below"} & set(line) and head_of(line) not in heads]
    return lines, wrong + [f"of no child: {line}" for line in others]
