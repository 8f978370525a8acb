"""Random questions about whole descriptors, of a seed. A question is asked about many descriptors, so that the program
answers them in one run. Where Samba is asked too, groups are enabled, and nothing restricts the token."""

import random
from typing import Any, Callable, Dict, Iterator, List, NamedTuple, Sequence, Tuple

import access
from access import Question

DOMAIN = "S-1-5-21-1-2-3"
USER, OTHER = DOMAIN + "-1001", DOMAIN + "-1002"
SIDS = ("WD", "AU", "BU", "BA", "BG", "RC", USER, OTHER, DOMAIN + "-513")
#: Of entries: that of every token is twice as frequent as all others.
TRUSTEES = ("WD",) * 20 + SIDS
#: A class, a property set of it, two properties, an extended right and another class ([MS-ADTS] 3.1.1.2.3, 5.1.3.2.1).
TYPES = ("bf967aba-0de6-11d0-a285-00aa003049e2", "77b5b886-944a-11d1-aebd-0000f80367c1",
         "bf967a49-0de6-11d0-a285-00aa003049e2", "bf967950-0de6-11d0-a285-00aa003049e2",
         "00299570-246d-11d0-a768-00aa006e0529", "bf967a9c-0de6-11d0-a285-00aa003049e2")
CHAINS = ((), TYPES[:1], TYPES[:2], TYPES[:3], (TYPES[0], TYPES[3]), (TYPES[0], TYPES[4]), TYPES[2:3], TYPES[4:5])
NUMBERS = ("1", "2", "3", "0", "1", "2", "3", "-1", "-2", "0x3", "010", "9223372036854775807", "-9223372036854775808")
#: Of a literal, and of an unsigned claim.
LARGEST, TOO_LARGE = str(2**63 - 1), str(2**64 - 1)
TEXTS = ('"a"', '"A"', '"b"', '"Ab"', '"_"', '""', '"VP"', '"ä"', '"Ä"', '"ß"', '"a b"')
OCTETS = ("#00", "#0a", "#0A0B", "#ff")
VALUES: Dict[str, Sequence[str]] = {"TI": NUMBERS, "TS": TEXTS, "TX": OCTETS, "TD": ("BA", "BU", "WD", USER)}
#: The names of attributes, and of which type their values mostly are; and those that mostly have several.
NAMES = {"Clearance": "TI", "Grades": "TI", "Title": "TS", "Projects": "TS", "Key": "TX", "Manager": "TD",
         "Gr%00f6%00dfe": "TI"}
LISTS = ("Grades", "Projects")
#: The scopes of attributes in conditions.
SCOPES = ("@User.",) * 6 + ("@Resource.", "@Resource.", "@Device.", "")
COMPARISONS = ("==", "==", "!=", "<", "<=", ">", ">=", "Contains", "Any_of", "Not_Contains", "Not_Any_of", "any_OF")
MEMBERS = ("Member_of", "Member_of_Any", "Not_Member_of", "Not_Member_of_Any", "Device_Member_of",
           "Device_Member_of_Any", "Not_Device_Member_of", "Not_Device_Member_of_Any")
MASKS = ("FR", "FW", "FX", "FA", "0x0", "0x60000", "RPWP", "0x1f", "CC", "DC", "LC", "SW", "RP", "WP", "DT", "LO", "CR",
         "SD", "RC", "WD", "WO")
OTHERS = ("GA", "GR", "GW", "GX", "0x1000001", "0xe2000000", "0x1fffff")
REQUESTS = (0x1, 0x2, 0x3, 0x10, 0x30, 0x100, 0x20089, 0x120089, 0x120116, 0x60000, 0xD0001, 0x1F01FF)
MAPPINGS = (access.FILES,) * 6 + ((0x20019, 0x20006, 0x20019, 0xF003F), (0x1, 0x2, 0x4, 0x1F), (0x3, 0x6, 0x5, 0x0))
LEVELS = ("level=untrusted", "level=low", "level=medium", "level=high", "level=system", "level=8447", "S-1-16-4096")


class Batch(NamedTuple):
    """A question, and the descriptors that it is asked about."""

    question: Question
    texts: Tuple[str, ...]


class Random:
    """What is drawn by chance."""

    def __init__(self, seed: str):
        self.rng = random.Random(seed)
        self.one, self.sample = self.rng.choice, self.rng.sample
        #: The values of the last claims of each name, of which conditions ask for some.
        self.known: Dict[str, List[List[str]]] = {}

    def is_so(self, chance: float) -> bool:
        return self.rng.random() < chance

    def some(self, make: Callable[[], str], least: int, most: int) -> List[str]:
        return [make() for _ in range(self.rng.randint(least, most))]

    # ---- conditions

    def name(self) -> str:
        name = self.one(list(NAMES))
        return name.upper() if "%" not in name and self.is_so(0.1) else name

    def attribute(self, scopes: Sequence[str] = SCOPES) -> str:
        scope, name = self.one(scopes), self.name()
        return "Local" if not scope and "%" in name else scope + name

    def value(self, kind: str) -> str:
        value = self.one(VALUES[kind])
        return f"SID({value})" if kind == "TD" else value

    def is_list(self, name: str) -> bool:
        return self.is_so(0.85 if name in LISTS else 0.15)

    def values(self, name: str) -> List[str]:
        """Values of a claim of the name, or others: in any order and case, now and then of another type."""
        def value() -> str:
            return self.value(NAMES.get(name, "TI") if self.is_so(0.95) else self.one(list(VALUES)))

        if name.upper() not in self.known or self.is_so(0.3):
            return self.some(value, 0, 4) if self.is_list(name) else [value()]
        known = self.one(self.known[name.upper()])
        found = self.sample(known, len(known) if self.is_so(0.8) else 1)
        found += [value()] * self.is_so(0.2) + found[:1] * self.is_so(0.15)
        return [text.swapcase() if text[0] == '"' and self.is_so(0.3) else text for text in found]

    def literal(self, name: str) -> str:
        """What an attribute is compared with."""
        values = self.values(name)
        return values[0] if len(values) == 1 and self.is_so(0.85) else "{" + ", ".join(values) + "}"

    def term(self) -> str:
        chance, name = self.rng.random(), self.attribute()
        if chance < 0.2:
            sids = self.some(lambda: self.value("TD"), 0 if self.is_so(0.2) else 1, 3)
            one = len(sids) == 1 and self.is_so(0.5)
            return self.one(MEMBERS) + " " + (sids[0] if one else "{" + ",".join(sids) + "}")
        if chance < 0.27:
            return self.one(("Exists ", "Not_Exists ")) + name
        if chance < 0.32:
            return name
        if chance < 0.45:
            return f"{name} {self.one(COMPARISONS)} {self.attribute(('@User.', '@Resource.', '@Device.'))}"
        return f"{name}{self.one((' ', '  '))}{self.one(COMPARISONS)} {self.literal(name.split('.')[-1])}"

    def condition(self, depth: int = 0) -> str:
        if depth == 3 or self.is_so(0.5):
            return f"({self.term()})"
        if self.is_so(0.2):
            return f"(!{self.condition(depth + 1)})"
        parts = self.some(lambda: self.condition(depth + 1) if self.is_so(0.7) else self.term(), 2, 3)
        text = parts[0]
        for part in parts[1:]:
            text += self.one((" && ", " || ", "&&")) + part
        return f"({text})"

    # ---- claims

    def names(self, chance: float) -> List[str]:
        """Each name with this chance, and now and then one twice."""
        found = [name for name in NAMES if self.is_so(chance)]
        return found + [self.one(found)] if found and self.is_so(0.3) else found

    def remember(self, name: str, values: List[str]) -> None:
        """Notes the values; one that no condition can have is the largest that one can."""
        values = [LARGEST if value == TOO_LARGE else value for value in values]
        self.known[name.upper()] = [*self.known.get(name.upper(), []), values][-4:]

    def several(self, kind: str, least: int, most: int) -> List[str]:
        """Values of a claim. None of several is an empty text: between that and others Samba's order has circles."""
        return [value if value != '""' else '"_"' for value in self.some(lambda: self.value(kind), least, most)]

    def claim_word(self, scope: str, name: str) -> str:
        """A WORD that is a claim: its values are of one type."""
        kind = NAMES.get(name, "TI") if self.is_so(0.9) else self.one(list(VALUES))
        values = self.several(kind, 2, 4) if self.is_list(name) else [self.value(kind)]
        self.remember(name, values)
        if not scope and "%" in name:
            name = "Local"
        return f"{scope}{name}=" + (values[0] if len(values) == 1 else "{" + ",".join(values) + "}")

    def resource(self, name: str) -> str:
        """A resource attribute entry, at times of numbers that only a claim has, or with flags."""
        kind, values = NAMES.get(name, "TI"), []
        if kind == "TI" and self.is_so(0.3):
            kind = self.one(("TU", "TB"))
            values = self.some(lambda: self.one(("0", "1") if kind == "TB" else ("1", "3", TOO_LARGE)), 1, 2)
        values = values or (self.several(kind, 2, 4) if self.is_list(name) else [self.value(kind)])
        self.remember(name, values)
        values = [value[4:-1] if kind == "TD" else value.lstrip("#") for value in values]
        flags = self.one(("0x0", "0x0", "0x2", "0x2", "0x4", "0x10", "0x6"))
        return f'(RA;{self.one(("", "", "", "", "OICI", "OICIIO"))};;;;WD;("{name}",{kind},{flags},{",".join(values)}))'

    # ---- descriptors

    def entry(self, kind: str, masks: Sequence[str], sids: Sequence[str]) -> str:
        flags = self.one(("",) * 10 + ("CI", "OICI", "ID", "CIIO", "IO"))
        types = ";;"
        if kind in ("OA", "OD", "ZA", "OU"):
            first = self.one(TYPES) if self.is_so(0.8) else ""
            types = f";{first};{self.one(TYPES) if self.is_so(0.2) else ''}"
        data = ";" + self.condition() if kind in ("XA", "XD", "ZA", "XU") else ""
        return f"({kind};{flags};{self.one(masks)}{types};{self.one(sids)}{data})"

    def dacl(self, kinds: Sequence[str], masks: Sequence[str], sids: Sequence[str]) -> str:
        """A list; or one whose entries have a right each, so that the verdict shows what each of them is."""
        if self.is_so(0.3):
            return "D:" + "".join(self.some(lambda: self.entry(self.one(kinds), masks, sids), 1, 6))
        drawn = [self.one(kinds) for _ in range(self.rng.randint(4, 8))]
        denied = sum(1 << place for place, kind in enumerate(drawn) if kind.endswith("D"))
        each = [self.entry(kind, (hex(1 << place),), sids) for place, kind in enumerate(drawn)]
        return "D:" + "".join(each) + f"(A;;{denied:#x};;;WD)"

    def owner(self) -> str:
        return "O:" + self.one(("BA", "SY", USER, USER, "BU"))

    def label(self) -> str:
        policy = "".join(name for name in ("NW", "NR", "NX") if self.is_so(0.5)) or "0x0"
        flags = self.one(("", "", "", "", "OICI", "OICIIO"))
        return f"(ML;{flags};{policy};;;{self.one(('LW', 'ME', 'MP', 'HI', 'SI', 'S-1-16-0', 'S-1-16-8447', 'WD'))})"

    def conditional(self) -> str:
        """A descriptor with conditional entries, as a file has them. Without a SACL, what Samba finds of an attribute
        of the resource depends on what it asked before."""
        resources = list(map(self.resource, self.names(0.35)))
        dacl = self.dacl(("XA", "XA", "XA", "XD", "XD", "A", "D"), MASKS, TRUSTEES)
        return self.owner() + dacl + "S:" + ("".join(resources) or "(AU;SA;FA;;;WD)")

    def typed(self) -> str:
        """A descriptor with entries for object types, as an object of a directory has them."""
        return self.owner() + self.dacl(("OA", "OA", "OA", "OD", "OD", "A", "D"), MASKS, (*TRUSTEES, "PS", "PS"))

    def anything(self) -> str:
        """A descriptor with entries of every type that has letters."""
        resources, chance = list(map(self.resource, self.names(0.25))), self.rng.random()
        kinds = ("A", "D", "OA", "OD", "XA", "XA", "XD", "XD", "ZA") + (("AU", "OU", "XU") if self.is_so(0.05) else ())
        dacl = self.dacl(kinds, (*MASKS, *OTHERS), (*TRUSTEES, "PS", "OW"))
        dacl = "" if chance < 0.03 else "D:NO_ACCESS_CONTROL" if chance < 0.08 else "D:P" if chance < 0.1 else dacl
        system = resources + self.some(self.label, 0, 2)
        system = self.sample(system, len(system)) + (["(AU;SAFA;FA;;;WD)"] if self.is_so(0.1) else [])
        text = ("" if self.is_so(0.05) else self.owner()) + dacl + ("S:" + "".join(system) if system else "")
        return text or "O:BA"

    # ---- questions

    def who(self) -> Tuple[str, ...]:
        """Groups, groups of the device, and claims."""
        groups = ["WD", *self.sample(SIDS[1:6], self.rng.randint(0, 3))]
        device = [sid + "=device" for sid in self.sample(SIDS[:6], self.rng.randint(0, 2))]
        chances = (("@User.", 0.7), ("@Device.", 0.5), ("", 0.5))
        claims = [self.claim_word(scope, name) for scope, chance in chances for name in self.names(chance)]
        return (*groups, *device, *self.sample(claims, len(claims)))

    def request(self) -> int:
        return access.MAXIMUM_ALLOWED if self.is_so(0.6) else self.one(REQUESTS)

    def more_words(self, words: Tuple[str, ...]) -> Tuple[str, ...]:
        """States of groups, restricting SIDs, privileges and levels too."""
        made = [word + self.one(("", "", "=deny", "=off")) if word in SIDS else word for word in words]
        if self.is_so(0.3):
            made += [sid + "=restrict" for sid in self.sample(SIDS, self.rng.randint(1, 4))]
        made += [word for word in ("+security", "+take", "user=deny") if self.is_so(0.15)]
        made += self.some(lambda: self.one(LEVELS), 0, 2) if self.is_so(0.6) else []
        return tuple(self.sample(made, len(made)))

    def any_request(self) -> int:
        chance = self.rng.random()
        if chance < 0.06:
            return self.one((0, 0x200001, 0x8000000, 0x2400000))
        more = self.one((0, 0, 0x80000000, 0x40000000, 0x10000000, 0x1000000, access.MAXIMUM_ALLOWED))
        return self.request() | more


def batches(kind: str, seed: int, count: int, size: int) -> Iterator[Batch]:
    """As many descriptors, so many of them a question: of a kind of KINDS."""
    drawn = Random(f"{kind} {seed}")
    question, text = KINDS[kind]
    for at in range(0, count, size):
        texts = tuple(text(drawn) for _ in range(min(size, count - at)))
        yield Batch(question(drawn), texts)


def of_conditions(drawn: Random) -> Question:
    return Question(drawn.one((USER, OTHER)), drawn.request(), drawn.who())


def of_types(drawn: Random) -> Question:
    named = drawn.one((None, USER, OTHER, "S-1-5-32-545"))
    return Question(USER, drawn.request(), drawn.who(), drawn.one(CHAINS), named)


def of_anything(drawn: Random) -> Question:
    named = drawn.one((None, None, USER, OTHER, "BU", "OW"))
    words = drawn.more_words(drawn.who())
    return Question(drawn.one((USER, OTHER)), drawn.any_request(), words, drawn.one(CHAINS), named,
                    drawn.one(MAPPINGS))


#: What is asked, and about what: Samba can be asked about the first two kinds.
KINDS: Dict[str, Tuple[Callable[[Random], Question], Callable[[Random], str]]] = {
    "conditions": (of_conditions, Random.conditional),
    "object types": (of_types, Random.typed),
    "anything": (of_anything, Random.anything),
}
