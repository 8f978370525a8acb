"""Scripts by the rules of docs/SCRIPT.md, docs/TREE.md and docs/CHECK.md: a second implementation, for comparison alone.

It shares nothing with the first: it keeps what was given to each node, and works out each DACL anew from the root down.
"""
from dataclasses import dataclass, field, replace

OI, CI, NP, IO, ID, SA, FA = 0x01, 0x02, 0x04, 0x08, 0x10, 0x40, 0x80
FLAGS = {"OI": OI, "CI": CI, "NP": NP, "IO": IO, "ID": ID, "SA": SA, "FA": FA}
GENERIC = {0x80000000: 0x120089, 0x40000000: 0x120116, 0x20000000: 0x1200A0, 0x10000000: 0x1F01FF}
MAXIMUM_ALLOWED, RESERVED, RIGHTS = 0x02000000, 0x0CE00000, 21
READ_CONTROL, WRITE_DAC, WRITE_OWNER, SYSTEM_SECURITY = 17, 18, 19, 24
OBJECT_RIGHTS = (1 << RIGHTS) - 1
DELETE, DELETE_CHILD = 0x10000, 0x40

# A SID is an authority and its sub-authorities.
ALIASES = {
    "WD": (1, (0,)), "CO": (3, (0,)), "CG": (3, (1,)), "OW": (3, (4,)), "SY": (5, (18,)), "AU": (5, (11,)),
    "BA": (5, (32, 544)), "BU": (5, (32, 545)), "BG": (5, (32, 546)),
}
CREATOR_OWNER, CREATOR_GROUP, OWNER_RIGHTS = ALIASES["CO"], ALIASES["CG"], ALIASES["OW"]
RIGHT_NAMES = {
    0x1F01FF: "FA", 0x120089: "FR", 0x120116: "FW", 0x1200A0: "FX", 0xF003F: "KA", 0x20019: "KR", 0x20006: "KW",
    0x10000000: "GA", 0x80000000: "GR", 0x40000000: "GW", 0x20000000: "GX", 0x10000: "SD", 0x20000: "RC",
    0x40000: "WD", 0x80000: "WO",
}
REFUSALS = [
    "NoParent", "ParentIsObject", "Exists", "NoNode", "NotEmpty", "IsRoot", "InheritedEntry", "NotCanonical",
    "AclTooLarge", "TooDeep", "NodesFull", "JournalFull", "IntoItself",
]


@dataclass(frozen=True)
class Entry:
    kind: str
    flags: int
    mask: int
    sid: tuple


@dataclass(frozen=True)
class Node:
    is_container: bool
    owner: tuple
    group: tuple
    # None is a null DACL; else whether it is protected, and its own entries; and behind them, if it was stored with
    # these, what it had inherited and what it was offered
    dacl: tuple


def sid_text(sid):
    for alias, known in ALIASES.items():
        if sid == known:
            return alias
    return "S-1-%d-%s" % (sid[0], "-".join(map(str, sid[1])))


def entry_text(e):
    flags = "".join(name for name, bit in FLAGS.items() if e.flags & bit)
    return "(%s;%s;%s;;;%s)" % (e.kind, flags, RIGHT_NAMES.get(e.mask, hex(e.mask)), sid_text(e.sid))


def mapped(mask, generic=GENERIC):
    own = mask & 0x0FFFFFFF
    for bit, stands_for in generic.items():
        if mask & bit:
            own |= stands_for
    return own


def handed_on(e, child, generic=GENERIC):
    kept = e.flags & (SA | FA)
    subject = {CREATOR_OWNER: child.owner, CREATOR_GROUP: child.group}.get(e.sid, e.sid)
    effective = Entry(e.kind, ID | kept, mapped(e.mask, generic), subject)
    waiting = replace(e, flags=(e.flags & (OI | CI)) | IO | ID | kept)
    whole = replace(e, flags=(e.flags & (OI | CI)) | ID | kept)
    objects, containers, stops = e.flags & OI, e.flags & CI, e.flags & NP
    if not child.is_container:
        return [effective] if objects else []
    if containers and stops:
        return [effective]
    if containers:
        is_split = e.mask & 0xF0000000 or e.sid in (CREATOR_OWNER, CREATOR_GROUP)
        return [effective, waiting] if is_split else [whole]
    return [waiting] if objects and not stops else []


def offered(above, child):
    """What a parent hands on, before the child's owner and group take the creators' places."""
    anybody = replace(child, owner=CREATOR_OWNER, group=CREATOR_GROUP)
    return [copy for e in above for copy in handed_on(e, anybody)]


def denies_first(entries):
    return [e for e in entries if e.kind == "D"] + [e for e in entries if e.kind == "A"]


def list_refusal(dacl):
    if dacl is None:
        return None
    kinds = "".join(e.kind for e in dacl[1])
    if any(e.flags & ID for e in dacl[1]):
        return "InheritedEntry"
    return "NotCanonical" if "AD" in kinds else None


def own_entries(entries):
    """Those that weren't inherited, the denies first."""
    return denies_first([e for e in entries if not e.flags & ID])


def path_word(path, percent, at_will=lambda: False):
    """How a line spells the path: as it is, or by `%` what has to be, and what else is to be."""
    text = "/" + "/".join(path)
    if not percent:
        return text
    stays = [b == 0x2F or (0x21 <= b < 0x7F and b != 0x25 and not at_will()) for b in text.encode()]
    return "".join(chr(b) if stay else "%%%02X" % b for b, stay in zip(text.encode(), stays))


@dataclass
class Tree:
    nodes: dict
    length: int = 0
    most_nodes: int = 65536
    most_edits: int = 1048576

    def dacl(self, path):
        node = self.nodes[path]
        if node.dacl is None:
            return None
        protected, own, *stored = node.dacl
        if protected:
            return list(own)
        above = (self.dacl(path[:-1]) if path else None) or []
        if stored and denies_first(offered(above, node)) == denies_first(stored[1]):
            return list(own) + [replace(e, flags=e.flags | ID) for e in stored[0]]
        return list(own) + [copy for e in above for copy in handed_on(e, node)]

    def has_large_dacl(self):
        lists = [self.dacl(path) or [] for path in self.nodes]
        return any(8 + sum(16 + 4 * len(e.sid[1]) for e in entries) > 65535 for entries in lists)

    def place_refusal(self, path):
        """Why no node may come to stand at the path."""
        if path and path[:-1] not in self.nodes:
            return "NoParent"
        if path and not self.nodes[path[:-1]].is_container:
            return "ParentIsObject"
        return "Exists" if path in self.nodes else None

    def early_refusal(self, edit, path, given):
        """The refusal that follows from the nodes and what is given, without any list that is inherited."""
        if edit in ("addc", "addo"):
            return self.place_refusal(path) or list_refusal(given.dacl)
        if edit == "move" and (refusal := self.place_refusal(given)):
            return refusal
        if path not in self.nodes:
            return "NoNode"
        if edit == "remove" and any(other[: len(path)] == path for other in self.nodes if other != path):
            return "NotEmpty"
        if edit in ("remove", "move") and not path:
            return "IsRoot"
        if edit == "move" and given[: len(path)] == path:
            return "IntoItself"
        return list_refusal(given) if edit == "dacl" else None

    def edited(self, edit, path, given):
        """The nodes after an edit without an early refusal."""
        if edit in ("addc", "addo"):
            return self.nodes | {path: given}
        if edit == "remove":
            return {other: node for other, node in self.nodes.items() if other != path}
        if edit == "move":
            below = len(path)
            return {given + other[below:] if other[:below] == path else other: node for other, node in self.nodes.items()}
        if edit != "protect":
            part = {"owner": "owner", "group": "group", "dacl": "dacl"}[edit]
            return self.nodes | {path: replace(self.nodes[path], **{part: given})}
        whole = self.dacl(path)
        if whole is None:
            return self.nodes
        explicit = [replace(e, flags=e.flags & ~ID) for e in whole]
        return self.nodes | {path: replace(self.nodes[path], dacl=(True, denies_first(explicit)))}

    def apply(self, edit, path, given):
        """Makes the edit, and answers None, or the name of its refusal. Of a move the target is given."""
        if refusal := self.early_refusal(edit, path, given):
            return refusal
        after = Tree(self.edited(edit, path, given))
        if after.has_large_dacl():
            return "AclTooLarge"
        if any(len(other) > 64 for other in after.nodes):
            return "TooDeep"
        if len(after.nodes) > self.most_nodes:
            return "NodesFull"
        if self.length >= self.most_edits:
            return "JournalFull"
        self.nodes = after.nodes
        self.length += 1
        return None

    def copy(self):
        return replace(self, nodes=dict(self.nodes))

    def shown(self, path):
        node = self.nodes[path]
        whole = self.dacl(path)
        words = "NO_ACCESS_CONTROL" if whole is None else ("P" if node.dacl[0] else "") + "AI"
        return "O:%sG:%sD:%s%s" % (sid_text(node.owner), sid_text(node.group), words, "".join(map(entry_text, whole or [])))

    def given(self, path):
        """The descriptor that was given to the node, without what it inherits, and what it was stored with."""
        node = self.nodes[path]
        protected, own, *stored = node.dacl or (False, [])
        words = "NO_ACCESS_CONTROL" if node.dacl is None else "P" if protected else ""
        lists = ["D:%s%s" % (words, "".join(map(entry_text, own)))] + ["D:" + "".join(map(entry_text, each)) for each in stored]
        return "O:%sG:%s%s" % (sid_text(node.owner), sid_text(node.group), " ".join(lists))

    def listed(self, top, percent):
        """The lines of `list`, of the nodes at and below the path."""
        kinds = {True: "container", False: "object"}
        below = [path for path in sorted(self.nodes) if path[: len(top)] == top]
        return ["%s %s %s" % (kinds[self.nodes[path].is_container], path_word(path, percent), self.shown(path)) for path in below]

    def found(self, top, percent, token, asked):
        """The paths that `find` prints, of the nodes at and below the path."""
        below = [path for path in sorted(self.nodes) if path[: len(top)] == top]
        granted = [path for path in below if verdict(self.nodes[path].owner, self.dacl(path), token, asked).startswith("granted")]
        return [path_word(path, percent) for path in granted]

    def deletion(self, path, token):
        """What `delete` prints of the node at the path."""

        def grants(at, mask):
            return verdict(self.nodes[at].owner, self.dacl(at), token, mask).startswith("granted")

        if grants(path, DELETE):
            return "granted by node"
        return "granted by parent" if path and grants(path[:-1], DELETE_CHILD) else "denied"

    def dumped(self, readers, percent):
        """The lines of `dump`."""
        edits = {True: "addc", False: "addo"}
        below = [path for path in sorted(self.nodes) if path]
        added = ["%s %s %s" % (edits[self.nodes[path].is_container], path_word(path, percent), self.given(path)) for path in below]
        return ["open %d %s" % (readers, self.given(()))] + added + ["publish"]


@dataclass
class Token:
    user: tuple
    groups: list = field(default_factory=list)
    restricting: list = field(default_factory=list)
    security: bool = False
    take: bool = False
    #: The user counts for denies alone.
    denies_alone: bool = False

    def stands_for(self, kind, subject):
        """Whether the user or a group has the SID and counts for an entry of the kind."""
        states = [state for group, state in self.groups if group == subject]
        states += ["=deny" if self.denies_alone else ""] * (subject == self.user)
        return "" in states or (kind == "D" and "=deny" in states)


def verdict(owner, dacl, token, asked):
    """Each bit by itself, by the first effective entry that applies and names it, in each pass that the token has."""

    def applies(again, kind, sid):
        subject = owner if sid == OWNER_RIGHTS else sid
        if again:
            return subject in token.restricting
        return token.stands_for(kind, subject)

    effective = [] if dacl is None else [e for e in dacl if not e.flags & IO]
    passes = [False, True] if token.restricting else [False]
    owners = all(applies(again, "A", owner) for again in passes) and not any(e.sid == OWNER_RIGHTS for e in effective)

    def by_entries(again, bit):
        for e in effective:
            if mapped(e.mask) >> bit & 1 and applies(again, e.kind, e.sid):
                return e.kind == "A"
        return dacl is None

    def granted(bit):
        return (
            (bit < RIGHTS and all(by_entries(again, bit) for again in passes))
            or (bit in (READ_CONTROL, WRITE_DAC) and owners)
            or (bit == WRITE_OWNER and token.take)
            or (bit == SYSTEM_SECURITY and token.security)
        )

    if asked == 0:
        return "empty"
    if asked & RESERVED:
        return "reserved " + hex(asked & RESERVED)
    wanted = mapped(asked & ~MAXIMUM_ALLOWED)
    missing = sum(1 << bit for bit in range(32) if wanted >> bit & 1 and not granted(bit))
    if missing:
        return "denied " + hex(missing)
    if not asked & MAXIMUM_ALLOWED:
        return "granted " + hex(wanted) if wanted else "empty"
    if dacl is None:
        most = 0x1F01FF
    else:
        most = sum(1 << bit for bit in range(RIGHTS) if granted(bit))
    return "granted " + hex(wanted | most) if wanted | most else "denied " + hex(MAXIMUM_ALLOWED)


def full_text(sid):
    return "S-1-%d-%s" % (sid[0], "-".join(map(str, sid[1])))


def applies(owner, token, again, e):
    subject = owner if e.sid == OWNER_RIGHTS else e.sid
    if e.flags & IO or subject is None:
        return False
    if again:
        return subject in token.restricting
    return token.stands_for(e.kind, subject)


def allowed(owner, dacl, token, again, generic=GENERIC):
    """The bits that the pass allows by its entries, and those that are the owner's in it."""
    mine = owner is not None and applies(owner, token, again, Entry("A", 0, 0, owner))
    owned = 1 << READ_CONTROL | 1 << WRITE_DAC if mine else 0
    if dacl is None:
        return OBJECT_RIGHTS, owned
    listed, undecided = 0, OBJECT_RIGHTS
    for e in dacl:
        if applies(owner, token, again, e):
            decided = undecided & mapped(e.mask, generic)
            undecided ^= decided
            listed |= decided if e.kind == "A" else 0
    return listed, 0 if any(e.sid == OWNER_RIGHTS and not e.flags & IO for e in dacl) else owned


def by_entry(owner, dacl, token, again, bit):
    """Whether the pass allows the bit, and by which entry."""
    for number, e in enumerate(dacl, 1):
        if mapped(e.mask) >> bit & 1 and applies(owner, token, again, e):
            subject = owner if e.sid == OWNER_RIGHTS else e.sid
            return e.kind == "A", "by entry %d %s as %s" % (number, entry_text(e), full_text(subject))
    return False, "by no entry"


def reason(owner, dacl, token, named, bit):
    """Whether the bit is granted, and why."""
    if bit >= RIGHTS:
        return (True, "by SeSecurityPrivilege") if token.security and bit == SYSTEM_SECURITY else (False, "without SeSecurityPrivilege")
    if dacl is None:
        found = (True, "without a list") if named or 0x1F01FF >> bit & 1 else (False, "beyond GENERIC_ALL")
    else:
        passes = [by_entry(owner, dacl, token, again, bit) for again in ([False, True] if token.restricting else [False])]
        found = all(allowed for allowed, _ in passes), ", restricted ".join(text for _, text in passes)
    if not found[0]:
        mine = Entry("A", 0, 0, owner)
        limited = any(e.sid == OWNER_RIGHTS and not e.flags & IO for e in dacl or [])
        owns = owner is not None and all(applies(owner, token, again, mine) for again in ([False, True] if token.restricting else [False]))
        if bit in (READ_CONTROL, WRITE_DAC) and owns and not limited:
            return True, "to the owner"
        if bit == WRITE_OWNER and token.take:
            return True, "by SeTakeOwnershipPrivilege"
    return found


def alternatives(owner, dacl, base, bit):
    """Whom the bit is granted to, of the tokens with the base: texts, and at the end nothing more that counts."""
    if dacl is None:
        return ["everyone"]
    enabled = {sid for sid, state in base if state == ""}
    present = {sid for sid, state in base if state != "=off"}
    away, holders, found = [], set(), []

    def add(sid, text):
        holders.add(sid)
        found.append("everyone" if sid in enabled else text)
        found[-1] += " unless " + " ".join(map(full_text, away)) if away else ""
        return sid in enabled

    limited = any(e.sid == OWNER_RIGHTS and not e.flags & IO for e in dacl)
    if bit in (READ_CONTROL, WRITE_DAC) and not limited and add(owner, full_text(owner) + " as the owner"):
        return found
    for e in dacl:
        sid = owner if e.sid == OWNER_RIGHTS else e.sid
        if e.flags & IO or not mapped(e.mask) >> bit & 1 or sid in away:
            continue
        if e.kind == "D" and sid in present:
            break
        if e.kind == "D":
            away.append(sid)
        elif sid not in holders and add(sid, full_text(sid)):
            break
    return found


def who_lines(owner, dacl, base, asked):
    """What `who` prints: rights, and whom they are granted to, in the order of the lowest right of each line."""
    rights = OBJECT_RIGHTS if asked & MAXIMUM_ALLOWED else mapped(asked) & OBJECT_RIGHTS
    lines = {}
    for bit in (bit for bit in range(RIGHTS) if rights >> bit & 1):
        for text in alternatives(owner, dacl, base, bit) or ["nobody"]:
            lines[text] = lines.get(text, 0) | 1 << bit
    return ["%s to %s" % (hex(mask), text) for text, mask in lines.items()] or ["empty"]


def why_lines(owner, dacl, token, asked):
    """What `why` prints: the verdict, and a line for each reason."""
    parts = {}
    if asked & RESERVED:
        parts[False, "as reserved"] = asked & RESERVED
    else:
        wanted = mapped(asked & ~MAXIMUM_ALLOWED)
        for bit in range(32):
            if wanted >> bit & 1 or (asked & MAXIMUM_ALLOWED and bit < RIGHTS):
                why = reason(owner, dacl, token, wanted >> bit & 1, bit)
                parts[why] = parts.get(why, 0) | 1 << bit
    told = ["%s %s %s" % ("granted" if granted else "denied", hex(bits), text) for (granted, text), bits in parts.items()]
    return [verdict(owner, dacl, token, asked)] + told
