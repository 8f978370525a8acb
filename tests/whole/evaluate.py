"""What the condition of a callback entry is ([MS-DTYP] 2.5.3.1.5), by the rules of docs/CHECK.md: a second model, for
comparison alone. A truth is True, False, or None where it is unknown."""

import struct
import sys
from pathlib import Path
from typing import Any, Dict, List, NamedTuple, Optional, Tuple

import claims
import conditions
import model
import parsing
import spelling

sys.path.insert(0, str(Path(__file__).resolve().parents[1] / "second"))
import second  # noqa: E402

Truth = Optional[bool]
#: ValueType of claims ([MS-DTYP] 2.4.10.1), and their flags.
SIGNED, UNSIGNED, TEXT, SID, BOOLEAN, OCTETS = 1, 2, 3, 5, 6, 0x10
CASE_SENSITIVE, FOR_DENY_ONLY, DISABLED = 0x2, 0x4, 0x10
#: The scopes of attributes, by their tokens (2.4.4.17.8).
LOCAL, USER, RESOURCE, DEVICE = 0xF8, 0xF9, 0xFA, 0xFB
NEGATED = {"!=": "==", "<=": ">", ">=": "<"}


class Value(NamedTuple):
    """A number, a text of UTF-16 units, octets or a SID."""

    kind: str
    content: Any


class Values(NamedTuple):
    """What an operand is: a value, or a list of values."""

    values: Tuple[Value, ...]
    is_list: bool
    with_case: bool = False


class Claim(NamedTuple):
    name: Tuple[int, ...]
    kind: int
    flags: int
    values: Tuple[Value, ...]


class Attribute(NamedTuple):
    scope: int
    name: Tuple[int, ...]


class Facts(NamedTuple):
    """Who asks, the groups of the device, and the claims by their scope."""

    token: second.Token
    device: Tuple[str, ...]
    claims: Dict[int, Tuple[Claim, ...]]


def units(octets: bytes) -> Tuple[int, ...]:
    return struct.unpack(f"<{len(octets) // 2}H", octets)


def parts(sid: str) -> Tuple[int, Tuple[int, ...]]:
    """A SID as tests/second has it."""
    authority, *subs = (int(number, 0) for number in sid.split("-")[2:])
    return authority, tuple(subs)


def upper(unit: int) -> int:
    """The unit in upper case, where that is one unit."""
    if 0xD800 <= unit < 0xE000:
        return unit
    letters = chr(unit).upper()
    return ord(letters) if len(letters) == 1 and ord(letters) < 0x10000 else unit


def sid_in(octets: bytes) -> Value:
    """The SID of a claim: its text, which a zero may end, or its bytes; other octets are no value."""
    if octets[:4].upper() == b"S-1-":
        text = octets[:-1] if octets.endswith(b"\0") else octets
        found = claims.SID.fullmatch(text.decode("latin-1"))
        return Value("sid", spelling.sid(found[0])) if found else Value("none", octets)
    try:
        sid, length = model.sid_text(octets)
    except model.Fault:
        return Value("none", octets)
    return Value("sid", sid) if length == len(octets) else Value("none", octets)


def value_at(kind: int, data: bytes, at: int) -> Value:
    """The value of a claim at its offset."""
    if kind in (SIGNED, UNSIGNED, BOOLEAN):
        number = struct.unpack_from("<q" if kind == SIGNED else "<Q", data, at)[0]
        return Value("number", int(number != 0) if kind == BOOLEAN else number)
    if kind == TEXT:
        return Value("text", units(parsing.utf16(claims.string_at(data, at)[0])))
    octets = claims.octets_at(data, at)[0]
    return sid_in(octets) if kind == SID else Value("octets", octets)


def claim_of(data: bytes) -> Claim:
    """The claim in the data of a resource attribute entry."""
    name_at, kind, _, flags, count = struct.unpack_from("<IHHII", data)
    offsets = struct.unpack_from(f"<{count}I", data, claims.HEADER_BYTES)
    name = units(parsing.utf16(claims.string_at(data, name_at)[0]))
    return Claim(name, kind, flags, tuple(value_at(kind, data, at) for at in offsets))


def literal_at(data: bytes, at: int) -> Tuple[Value, int]:
    """The value of a token, and where it ends."""
    kind = data[at]
    if kind <= 4:
        return Value("number", struct.unpack_from("<q", data, at + 1)[0]), at + conditions.INTEGER_BYTES
    content, end = conditions.contents(data, at)
    if kind == parsing.TEXT:
        return Value("text", units(content)), end
    return (Value("octets", content) if kind == parsing.OCTETS else Value("sid", model.sid_text(content)[0])), end


def operand_at(data: bytes, at: int) -> Tuple[Any, int]:
    """An attribute, or the values of a literal, and where the token ends."""
    if data[at] in conditions.SCOPES:
        content, end = conditions.contents(data, at)
        return Attribute(data[at], units(content)), end
    if data[at] != parsing.LIST:
        value, end = literal_at(data, at)
        return Values((value,), False), end
    content, end = conditions.contents(data, at)
    found: List[Value] = []
    place = 0
    while place < len(content):
        value, place = literal_at(content, place)
        found.append(value)
    return Values(tuple(found), True), end


def literal(text: str) -> Values:
    """The values of a literal's text."""
    return operand_at(parsing.literal(text), 0)[0]


def opposite(truth: Truth) -> Truth:
    return None if truth is None else not truth


def all_of(truths: List[Truth]) -> Truth:
    return False if False in truths else None if None in truths else True


def one_of(truths: List[Truth]) -> Truth:
    return True if True in truths else None if None in truths else False


class Conditions:
    """The conditions of entries of a kind, "A" or "D", in one of the passes of a token."""

    def __init__(self, facts: Facts, kind: str, again: bool):
        self.facts, self.kind, self.again = facts, kind, again

    def truth(self, data: bytes) -> Truth:
        """What the condition is; data without one is unknown. Each condition that is asked about has a text."""
        if conditions.text_of(data, model.sid_text, model.sid_name) is None:
            return None
        stack: List[Any] = []
        at = 4
        while at < len(data) and data[at]:
            if 0x80 <= data[at] <= 0xA2:
                self.operate(stack, data[at])
                at += 1
            else:
                operand, at = operand_at(data, at)
                stack.append(operand)
        return self.condition(stack.pop())

    def operate(self, stack: List[Any], operator: int) -> None:
        """The operator replaces its operands by a truth."""
        right = stack.pop()
        if operator == conditions.NOT:
            stack.append(opposite(self.condition(right)))
        elif operator in conditions.EXISTS:
            found = self.exists(right)
            stack.append(opposite(found) if operator == 0x8D else found)
        elif operator in conditions.MEMBERS:
            stack.append(self.member(conditions.MEMBERS[operator], right.values))
        elif operator in conditions.JOINING:
            stack.append(self.join(conditions.JOINING[operator], self.condition(stack.pop()), self.condition(right)))
        else:
            stack.append(self.compare(conditions.COMPARING[operator], self.values(stack.pop()), self.values(right)))

    # ---- attributes

    def is_there(self, claim: Claim) -> bool:
        """Whether the claim has a value, for entries of the kind."""
        for_others = claim.flags & FOR_DENY_ONLY and self.kind == "A"
        return bool(claim.values) and not claim.flags & DISABLED and not for_others

    def claim(self, attribute: Attribute) -> Optional[Claim]:
        """The first claim that the name means."""
        name = tuple(map(upper, attribute.name))
        for claim in self.facts.claims.get(attribute.scope, ()):
            if self.is_there(claim) and tuple(map(upper, claim.name)) == name:
                return claim
        return None

    def values(self, operand: Any) -> Optional[Values]:
        """The values of an operand; None where the attribute is missing."""
        if isinstance(operand, Values):
            return operand
        claim = self.claim(operand)
        return claim and Values(claim.values, len(claim.values) > 1, bool(claim.flags & CASE_SENSITIVE))

    def exists(self, operand: Any) -> Truth:
        return self.claim(operand) is not None

    def condition(self, operand: Any) -> Truth:
        """A truth; or an attribute alone: a number that isn't 0, or a text that isn't empty."""
        return self.alone(operand) if isinstance(operand, Attribute) else operand

    def alone(self, attribute: Attribute) -> Truth:
        values = self.values(attribute)
        if values is None or values.is_list or values.values[0].kind not in ("number", "text"):
            return None
        return values.values[0].content not in (0, ())

    # ---- operators

    def join(self, operator: str, left: Truth, right: Truth) -> Truth:
        return (all_of if operator == "&&" else one_of)([left, right])

    def has(self, sid: str, of_device: bool) -> bool:
        if of_device:
            return sid in self.facts.device
        known = parts(sid)
        return second.applies(known, self.facts.token, self.again, second.Entry(self.kind, 0, 0, known))

    def member(self, operator: str, sids: Tuple[Value, ...]) -> Truth:
        """Whether the user, or the device, has all of the SIDs, or one of them."""
        if not sids:
            return None
        held = [self.has(sid.content, "Device" in operator) for sid in sids]
        found = any(held) if operator.endswith("Any") else all(held)
        return not found if operator.startswith("Not") else found

    def compare(self, operator: str, left: Optional[Values], right: Optional[Values]) -> Truth:
        """The comparison of two operands, which is unknown where one is missing."""
        if left is None or right is None:
            return None
        if operator in NEGATED or operator.startswith("Not_"):
            return opposite(self.compare(NEGATED.get(operator, operator[4:]), left, right))
        with_case = left.with_case or right.with_case
        if operator == "Contains":
            return self.contains(left.values, right.values, with_case) if right.values else None
        if operator == "Any_of":
            return self.any_of(left.values, right.values, with_case)
        if left.is_list != right.is_list:
            return None
        if left.is_list:
            return self.same_sets(left, right, with_case) if operator == "==" else None
        return self.relation(operator, left.values[0], right.values[0], with_case)

    def contains(self, left: Tuple[Value, ...], right: Tuple[Value, ...], with_case: bool) -> Truth:
        """All values on the right are on the left."""
        return all_of([one_of([self.relation("==", mine, other, with_case) for mine in left]) for other in right])

    def any_of(self, left: Tuple[Value, ...], right: Tuple[Value, ...], with_case: bool) -> Truth:
        """A value on the right is on the left."""
        return one_of([self.relation("==", mine, other, with_case) for mine in left for other in right])

    def same_sets(self, left: Values, right: Values, with_case: bool) -> Truth:
        return all_of([self.contains(left.values, right.values, with_case),
                       self.contains(right.values, left.values, with_case)])

    def relation(self, operator: str, left: Value, right: Value, with_case: bool) -> Truth:
        """`==`, `<` or `>` of two values: of SIDs `==` alone."""
        if left.kind != right.kind or left.kind == "none" or (left.kind == "sid" and operator != "=="):
            return None
        mine, other = (self.ordered(value, with_case) for value in (left, right))
        return mine == other if operator == "==" else mine < other if operator == "<" else mine > other

    def ordered(self, value: Value, with_case: bool) -> Any:
        """What a value is compared by."""
        return tuple(map(upper, value.content)) if value.kind == "text" and not with_case else value.content
