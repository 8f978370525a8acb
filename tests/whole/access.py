"""The verdict of a whole descriptor for one question ([MS-DTYP] 2.5.3.2, 2.5.3.3; [MS-ADTS] 5.1.3), by the rules of
docs/CHECK.md: a second model, for comparison alone. Each effective entry of the DACL becomes a plain one, or has no
part; tests/second checks these; what the object's label takes away is taken from its answer."""

import re
import struct
import uuid
from typing import Any, Callable, Dict, List, NamedTuple, Optional, Tuple

import evaluate
import model
import parsing
import spelling
from evaluate import Claim, Conditions, Facts, second

ALLOW, DENY, OBJECT_ALLOW, OBJECT_DENY, CALLBACK_ALLOW, CALLBACK_DENY = 0x00, 0x01, 0x05, 0x06, 0x09, 0x0A
CALLBACK_OBJECT_ALLOW, CALLBACK_OBJECT_DENY = 0x0B, 0x0C
ALLOWS = {ALLOW, OBJECT_ALLOW, CALLBACK_ALLOW, CALLBACK_OBJECT_ALLOW}
DENIES = {DENY, OBJECT_DENY, CALLBACK_DENY, CALLBACK_OBJECT_DENY}
CALLBACKS = {CALLBACK_ALLOW, CALLBACK_DENY, CALLBACK_OBJECT_ALLOW, CALLBACK_OBJECT_DENY}
PRINCIPAL_SELF = "S-1-5-10"
#: GENERIC_READ, GENERIC_WRITE, GENERIC_EXECUTE and GENERIC_ALL, and the mapping of files.
GENERIC = (0x80000000, 0x40000000, 0x20000000, 0x10000000)
FILES = (0x120089, 0x120116, 0x1200A0, 0x1F01FF)
#: A central policy, a trust label and an access filter, by which Windows may deny; and what a verdict says then.
LIMITS, LEFT_OUT = (0x13, 0x14, 0x15), ", the rest of the SACL left out"
#: What a label's policy takes away: NR, NW and NX, by the place of the right in the mapping.
NO_UP = (0x2, 0x1, 0x4)
MEDIUM = 8192
LEVELS = {"untrusted": 0, "low": 4096, "medium": MEDIUM, "mediumplus": 8448, "high": 12288, "system": 16384}
LEVEL_NUMBER = re.compile("[0-9]+|0x[0-9a-f]+", re.IGNORECASE)
LEVEL_SID = re.compile(r"S-1-16-(\d+)")
#: A SID S-1-16 with other sub-authorities, and what is no integrity SID, is above every level.
TOP = 0xFFFFFFFF
MAXIMUM_ALLOWED, RESERVED, RIGHTS, OWNERS = 0x02000000, 0x0CE00000, 0x1FFFFF, 0x60000
#: What the words that name no SID set of a token.
WORDS = {"+security": "security", "+take": "take", "user=deny": "denies_alone"}
SCOPES = {"@user.": evaluate.USER, "@device.": evaluate.DEVICE, "": evaluate.LOCAL}


class NoWord(Exception):
    """A WORD that is none."""


class EntryFault(Exception):
    """An entry that can't be decided."""

    def __init__(self, number: int, name: str):
        super().__init__(f"fault entry {number} {name}")


class Question(NamedTuple):
    """As the program has it: WORDs, GUIDs and SIDs are texts."""

    user: str
    asked: int
    words: Tuple[str, ...] = ()
    types: Tuple[str, ...] = ()
    principal_self: Optional[str] = None
    mapping: Tuple[int, ...] = FILES

    def request(self) -> int:
        """The mapped request without MAXIMUM_ALLOWED."""
        return mapped(self.asked & ~MAXIMUM_ALLOWED, self.mapping)

    def options(self) -> List[str]:
        """The options before the command."""
        named = [] if self.mapping == FILES else ["--mapping", ",".join(map(hex, self.mapping))]
        named += [word for guid in self.types for word in ("--type", guid)]
        return ["--whole", *named, *(["--self", self.principal_self] if self.principal_self else [])]


class Client(NamedTuple):
    """What the words of a question say."""

    facts: Facts
    level: int


def level_of(text: str) -> int:
    """The level of `level=..`: a name, or a number below 2^32, in decimal or in hexadecimal after 0x."""
    if text.lower() in LEVELS:
        return LEVELS[text.lower()]
    if not LEVEL_NUMBER.fullmatch(text):
        raise NoWord(text)
    level = int(text, 16 if text[:2].lower() == "0x" else 10)
    if level > TOP:
        raise NoWord(text)
    return level


def claim_word(word: str) -> Tuple[int, Claim]:
    """The scope and the claim of `@User.NAME=LITERAL`, `@Device.NAME=LITERAL` or `NAME=LITERAL`, whose values, at least
    one, are of one type."""
    name, _, literal = word.partition("=")
    scope = name[: name.find(".") + 1].lower() if name.startswith("@") else ""
    if scope not in SCOPES or not name[len(scope) :]:
        raise NoWord(word)
    try:
        values = evaluate.literal(literal)
    except parsing.NotParsed:
        raise NoWord(word) from None
    if len({value.kind for value in values.values}) != 1:
        raise NoWord(word)
    found = evaluate.units(parsing.utf16(parsing.named(name[len(scope) :])))
    return SCOPES[scope], Claim(found, 0, 0, values.values)


def client_of(question: Question, resource: Tuple[Claim, ...]) -> Client:
    """The token, the device, the claims, and the lowest of the levels that are named."""
    token = second.Token(evaluate.parts(question.user), [], [])
    device: List[str] = []
    levels: List[int] = []
    claims: Dict[int, Tuple[Claim, ...]] = {scope: () for scope in SCOPES.values()}
    claims[evaluate.RESOURCE] = resource
    for word in question.words:
        name, _, state = word.partition("=")
        sid = spelling.sid(name)
        if word in WORDS:
            setattr(token, WORDS[word], True)
        elif name.lower() == "level":
            levels.append(level_of(state))
        elif not sid.startswith("S-1-"):
            scope, claim = claim_word(word)
            claims[scope] += (claim,)
        elif state == "device":
            device.append(sid)
        elif state == "restrict":
            token.restricting.append(evaluate.parts(sid))
        else:
            token.groups.append((evaluate.parts(sid), "=" + state if state else ""))
            levels += [int(found[1]) for found in [LEVEL_SID.fullmatch(sid)] if found]
    return Client(Facts(token, tuple(device), claims), min(levels, default=MEDIUM))


def entries_of(acl: Any) -> Tuple[Any, ...]:
    return acl.entries if isinstance(acl, model.AccessList) else ()


def is_effective(entry: Any) -> bool:
    return not entry.flags & second.IO


def resource_claims(descriptor: model.Descriptor, counts: Callable[[Any], bool] = is_effective) -> Tuple[Claim, ...]:
    """The attributes of the object, of its SACL's entries that count."""
    return tuple(evaluate.claim_of(entry.data) for entry in entries_of(descriptor.sacl)
                 if entry.kind == model.ATTRIBUTE and isinstance(entry, model.Entry) and counts(entry))


class Specializing:
    """What the entries of a DACL are for one question."""

    def __init__(self, question: Question, facts: Facts):
        self.question, self.facts = question, facts
        self.chain = {uuid.UUID(guid).bytes_le for guid in question.types}

    def conditions(self, kind: str, again: bool) -> Conditions:
        return Conditions(self.facts, kind, again)

    def has_type(self, entry: model.Entry) -> bool:
        """Whether the entry is for the object types asked about. Where none is, a deny for one denies the whole."""
        asked = entry.types[0]
        return asked is None or asked in self.chain or (entry.kind in DENIES and not self.chain)

    def applies(self, entry: model.Entry, again: bool) -> bool:
        """Whether the entry has a part in the pass, whoever it is for."""
        if not self.has_type(entry):
            return False
        if entry.kind not in CALLBACKS:
            return True
        is_deny = entry.kind in DENIES
        truth = self.conditions("D" if is_deny else "A", again).truth(entry.data)
        return truth is not False if is_deny else truth is True

    def entry(self, number: int, entry: Any) -> second.Entry:
        """The plain entry; one without a part is an allow that names no right, or inherit-only."""
        if isinstance(entry, model.Opaque):
            raise EntryFault(number, "OpaqueAce")
        if entry.kind not in ALLOWS | DENIES:
            raise EntryFault(number, "SystemAce")
        found = [self.applies(entry, again) for again in ([False, True] if self.facts.token.restricting else [False])]
        if found[0] != found[-1]:
            raise EntryFault(number, "PassesDiffer")
        named = self.question.principal_self
        sid = spelling.sid(named) if named and entry.sid == PRINCIPAL_SELF else entry.sid
        mask = mapped(entry.mask, self.question.mapping) if found[0] else 0
        return second.Entry("D" if entry.kind in DENIES else "A", 0, mask, evaluate.parts(sid))

    def entries(self, acl: Any) -> Optional[List[second.Entry]]:
        """The effective entries; None without a list."""
        if not isinstance(acl, model.AccessList):
            return None
        return [self.entry(number, entry) for number, entry in enumerate(acl.entries, 1) if is_effective(entry)]


#: Rules by which the entries of a question are what they are.
MakeSpecializing = Callable[[Question, Facts], Specializing]


def mapped(mask: int, mapping: Tuple[int, ...]) -> int:
    return second.mapped(mask, dict(zip(GENERIC, mapping)))


def label_of(descriptor: model.Descriptor) -> Tuple[int, int]:
    """The level and the policy of the object: those of its first effective label, else Medium, no write up."""
    for entry in entries_of(descriptor.sacl):
        if entry.kind == model.LABEL and isinstance(entry, model.Entry) and is_effective(entry):
            found = LEVEL_SID.fullmatch(entry.sid)
            return (int(found[1]) if found else TOP), entry.mask
    return MEDIUM, 0x1


def has_limits(descriptor: model.Descriptor) -> bool:
    """Whether an effective entry of the SACL but the label may deny, or one that can't be read."""
    for entry in filter(is_effective, entries_of(descriptor.sacl)):
        unread = not isinstance(entry, model.Entry)
        if entry.kind in LIMITS or unread and (entry.kind == model.LABEL or entry.kind not in model.LETTERS):
            return True
    return False


def taken(descriptor: model.Descriptor, level: int, mapping: Tuple[int, ...]) -> int:
    """What the label takes away from a client of a lower level: all but what a right is mapped to that isn't barred."""
    of_object, policy = label_of(descriptor)
    if level >= of_object:
        return 0
    left = 0
    for bit, rights in zip(NO_UP, mapping):
        left |= 0 if policy & bit else rights
    return 0xFFFFFFFF & ~left


class Plain(NamedTuple):
    """A question to the plain check, whose masks have no generic bit."""

    owner: Any
    dacl: Optional[List[second.Entry]]
    token: second.Token
    #: GENERIC_ALL of the mapping.
    everything: int

    def grants(self, bits: int) -> int:
        """Those of the bits that are granted, each asked by itself."""
        each = [1 << place for place in range(32) if bits >> place & 1]
        return sum(bit for bit in each if second.verdict(self.owner, self.dacl, self.token, bit).startswith("granted"))

    def most(self) -> int:
        """What MAXIMUM_ALLOWED adds: of a list all that it grants; else GENERIC_ALL, and what needs no entry."""
        if self.dacl is not None:
            return self.grants(RIGHTS)
        return self.everything | Plain(self.owner, [], self.token, 0).grants(RIGHTS)


def granted(descriptor: model.Descriptor, question: Question,
            specializing: MakeSpecializing = Specializing) -> Tuple[int, int]:
    """What is granted of the mapped request, and what MAXIMUM_ALLOWED adds."""
    client = client_of(question, resource_claims(descriptor))
    entries = specializing(question, client.facts).entries(descriptor.dacl)
    owner = descriptor.owner and evaluate.parts(descriptor.owner)
    plain = Plain(owner, entries, client.facts.token, question.mapping[3])
    left = ~taken(descriptor, client.level, question.mapping)
    return plain.grants(question.request()) & left, plain.most() & left


def answered(question: Question, of_request: int, most: int) -> str:
    """The verdict, of what is granted of the request, and of what MAXIMUM_ALLOWED adds."""
    asked, request = question.asked, question.request()
    if asked == 0:
        return "empty"
    if asked & RESERVED:
        return "reserved " + hex(asked & RESERVED)
    if request & ~of_request:
        return "denied " + hex(request & ~of_request)
    if not asked & MAXIMUM_ALLOWED:
        return "granted " + hex(request) if request else "empty"
    return "granted " + hex(request | most) if request | most else "denied " + hex(MAXIMUM_ALLOWED)


def verdict(descriptor: model.Descriptor, question: Question, specializing: MakeSpecializing = Specializing) -> str:
    """The line that `sdstore --whole verdict` prints."""
    try:
        said = answered(question, *granted(descriptor, question, specializing))
    except NoWord:
        return "fault token"
    except EntryFault as fault:
        return str(fault)
    return said + LEFT_OUT if said.startswith("granted") and has_limits(descriptor) else said


def verdict_of(text: str, question: Question) -> str:
    """The verdict of a descriptor's text."""
    return verdict(parsing.descriptor(text, "S-1-5-21-1-2-3"), question)
