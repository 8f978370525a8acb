"""What Python passes to the library: numbers of 32 bits, four masks, SIDs, texts and bytes, and nothing else; and
the results of checks, explanations, stores and views. The last line is 'N passed, M failed'."""

import sys
import threading
from pathlib import Path

TOP = Path(__file__).resolve().parents[2]
sys.path[:0] = [str(TOP / "tests"), str(TOP / "bindings/python")]

from hudarin import (  # noqa: E402
    ENABLED,
    FILES,
    KEYS,
    TAKE_OWNERSHIP,
    Closed,
    Descriptor,
    KeptDescriptor,
    Refused,
    Sid,
    Store,
    Token,
    WholeDescriptor,
    mask,
)
from tally import close, gives, raises  # noqa: E402

USER = Sid.from_text("S-1-5-21-1-2-3-1001")
EVERYONE = Sid.from_text("WD")
OPEN = Descriptor.from_sddl("D:(A;;0x1;;;S-1-5-21-1-2-3-1001)")
HELD = Descriptor.from_sddl("D:(A;;0x1;;;WD)")

#: No numbers of 32 bits. Cut down to 32 bits, most of them would be granted.
NUMBERS = [
    (-1, ValueError),
    (-0xFFFFFFFF, ValueError),
    (1 << 32, ValueError),
    ((1 << 32) + 1, ValueError),
    ((1 << 32) | ENABLED, ValueError),
    ((1 << 64) + 1, ValueError),
    (True, TypeError),
    (1.0, TypeError),
    (None, TypeError),
    (b"\x01", TypeError),
]

for number, wanted in NUMBERS:
    raises(f"asked {number!r}", wanted, lambda: OPEN.check(USER, asked=number))
    raises(f"state {number!r}", wanted, lambda: HELD.check(USER, [(EVERYONE, number)], asked=0x1))
    raises(f"privileges {number!r}", wanted, lambda: OPEN.check(USER, asked=0x1, privileges=number))
    raises(f"a token's state {number!r}", wanted, lambda: Token(USER, [(EVERYONE, number)]))
    raises(f"a token's privileges {number!r}", wanted, lambda: Token(USER, privileges=number))
    for place in range(4):
        masks = FILES[:place] + (number,) + FILES[place + 1 :]
        raises(f"mask {place} {number!r}", wanted, lambda: OPEN.check(USER, asked=0x1, mapping=masks))

MAPPINGS = [((), ValueError), (FILES[:3], ValueError), (FILES + (0,), ValueError), (None, TypeError), (7, TypeError)]
for masks, wanted in MAPPINGS:
    raises(f"mapping {masks!r}", wanted, lambda: OPEN.check(USER, asked=0x1, mapping=masks))
# A text is a mask, and neither a state nor privileges.
raises("a state by a text", TypeError, lambda: HELD.check(USER, [(EVERYONE, "4")], asked=0x1))
for other in (1, 0, None, "deny"):
    raises(f"deny_only_user {other!r}", TypeError, lambda: OPEN.check(USER, asked=0x1, deny_only_user=other))
    raises(f"a token's deny_only_user {other!r}", TypeError, lambda: Token(USER, deny_only_user=other))
raises("privileges by a text", TypeError, lambda: OPEN.check(USER, asked=0x1, privileges="1"))

for other in (bytes(USER), str(USER), 5, None, (USER, ENABLED)):
    raises(f"user {other!r}", TypeError, lambda: OPEN.check(other, asked=0x1))
    raises(f"restricting {other!r}", TypeError, lambda: OPEN.check(USER, asked=0x1, restricting=[other]))
for other in (bytes(EVERYONE), 5, None, (bytes(EVERYONE), ENABLED)):
    raises(f"group {other!r}", TypeError, lambda: HELD.check(USER, [other], asked=0x1))

for other in (b"D:", 5, None):
    raises(f"text {other!r}", TypeError, lambda: Descriptor.from_sddl(other))
    raises(f"SID text {other!r}", TypeError, lambda: Sid.from_text(other))
    raises(f"mask text {other!r}", TypeError, lambda: mask(other))
for other in ("D:", 5, None, [1, 2, 3]):
    raises(f"bytes {other!r}", TypeError, lambda: Descriptor(other))
    raises(f"SID bytes {other!r}", TypeError, lambda: Sid(other))

# The largest numbers reach the library.
gives("all reserved", "reserved 0xce00000", lambda: str(OPEN.check(USER, asked=0xFFFFFFFF)))
raises("the largest state", Refused, lambda: HELD.check(USER, [(EVERYONE, 0xFFFFFFFF)], asked=0x1))
raises("the largest privileges", Refused, lambda: OPEN.check(USER, asked=0x1, privileges=0xFFFFFFFF))
# The bit by which the library knows a user for denies alone is no privilege.
raises("the first bit that is no privilege", Refused, lambda: OPEN.check(USER, asked=0x1, privileges=4))
# By the rules of docs/CHECK.md: an allow for the user doesn't count, and a deny does; a group is a group.
OWN = Descriptor.from_sddl(f"O:{USER}G:SYD:(A;;0x1;;;{USER})(D;;0x2;;;{USER})(A;;0x6;;;WD)")
gives("a user", "granted 0x60005", lambda: str(OWN.check(USER, [EVERYONE], asked=0x60005)))
for words, wanted in (([EVERYONE], "denied 0x60003"), ([EVERYONE, USER], "denied 0x2"), ([], "denied 0x60007")):
    gives(
        f"a user for denies alone, in {words}",
        (wanted, wanted, wanted),
        lambda: (
            str(OWN.check(USER, words, asked=0x60007, deny_only_user=True)),
            str(OWN.check_by(Token(USER, words, deny_only_user=True), 0x60007)),
            str(OWN.explain(USER, words, asked=0x60007, deny_only_user=True).verdict),
        ),
    )
raises("the largest mask", Refused, lambda: OPEN.check(USER, asked=0x1, mapping=(0, 0, 0, 0xFFFFFFFF)))

# What a refusal says: the argument and the status, the fault with its name, and the place.
def refusal(call):
    try:
        call()
    except Refused as e:
        return str(e), e.name
    return None


# The aliases of a domain, which [MS-DTYP] 2.4.2.4 gives relative identifiers: 512 is DA's, 513 DU's, 500 LA's.
DOMAIN = Sid.from_text("S-1-5-21-7-8-9")
gives("an alias of a domain", "S-1-5-21-7-8-9-512", lambda: str(Sid.from_text("DA", DOMAIN)))
gives("an alias of none", "BA", lambda: str(Sid.from_text("BA", DOMAIN)))
gives(
    "aliases of a domain in a text",
    "O:S-1-5-21-7-8-9-500G:S-1-5-21-7-8-9-513D:(A;;FA;;;S-1-5-21-7-8-9-512)",
    lambda: str(Descriptor.from_sddl("O:LAG:DUD:(A;;FA;;;DA)", DOMAIN)),
)
gives("a SID of no domain", ("domain at 0", None), lambda: refusal(lambda: Descriptor.from_sddl("O:DA", USER)))
UNKNOWN = ("sddl 5 UnknownAlias at 6", "UnknownAlias")
gives("a fault after an alias of a domain", UNKNOWN, lambda: refusal(lambda: Descriptor.from_sddl("O:DAG:QQ", DOMAIN)))
raises("a domain that is no Sid", TypeError, lambda: Sid.from_text("DA", "S-1-5-21-7-8-9"))
NO_DOMAIN = ("sddl 6 DomainAlias at 2", "DomainAlias")
SACL = "O:BAS:(AU;SA;FA;;;WD)"
HAS_SACL = ("sddl 2 HasSacl at 4", "HasSacl")
gives("a SACL", HAS_SACL, lambda: refusal(lambda: Descriptor.from_sddl(SACL)))
gives("a SACL that is left out", "O:BA", lambda: str(WholeDescriptor.from_sddl(SACL).plain()[0]))
IN_DOMAIN = "O:DAS:(AU;SA;FA;;;DU)"
OWNED = "O:S-1-5-21-7-8-9-512"
gives("a SACL in a domain", OWNED, lambda: str(WholeDescriptor.from_sddl(IN_DOMAIN, DOMAIN).plain()[0]))
ALIAS = ("sddl 5 UnknownAlias at 18", "UnknownAlias")
BROKEN = "O:BAS:(AU;SA;FA;;;QQ)"
gives("a fault of a SACL", ALIAS, lambda: refusal(lambda: WholeDescriptor.from_sddl(BROKEN)))
raises("a domain of a SACL that is no Sid", TypeError, lambda: WholeDescriptor.from_sddl(SACL, "S-1-5-21-7-8-9"))
gives("a fault of a text", NO_DOMAIN, lambda: refusal(lambda: Descriptor.from_sddl("O:DA")))
gives("a fault of bytes", ("wire 1 Short at 0", "Short"), lambda: refusal(lambda: Descriptor(b"")))
gives("a fault of a SID", ("sid 3 Short at 0", "Short"), lambda: refusal(lambda: Sid(b"\x01\x01")))
STATE = ("states state at 0", None)
gives("an argument", STATE, lambda: refusal(lambda: HELD.check(USER, [(EVERYONE, 0x14)], asked=0x1)))
gives("a text that isn't UTF-8", ("utf8 at 2", None), lambda: refusal(lambda: Descriptor.from_sddl("O:\ud800")))

# Reasons: the arguments of an explanation are tested as those of a check, and the reasons are as worked by hand.
for number, wanted in NUMBERS:
    raises(f"explained {number!r}", wanted, lambda: OPEN.explain(USER, asked=number))
raises("a group without a state", Refused, lambda: OPEN.explain(USER, [(EVERYONE, 0x14)], asked=0x1))
raises("a mapping beyond a list's rights", Refused, lambda: OPEN.explain(USER, asked=0x1, mapping=(0, 0, 0, 0x200000)))
gives(
    "by an entry, and by none",
    "denied 0x2\ngranted 0x1 by entry 1 (A;;0x1;;;S-1-5-21-1-2-3-1001) as S-1-5-21-1-2-3-1001\ndenied 0x2 by no entry",
    lambda: str(OPEN.explain(USER, asked=0x3)),
)
PARTS = [(True, 0x1, 1, None), (False, 0x2, None, None)]
gives("entries count from 1", PARTS, lambda: [x[:4] for x in OPEN.explain(USER, asked=0x3).parts])
RESTRICTED = HELD.explain(USER, [EVERYONE], asked=0x1, restricting=[USER])
gives("two passes", [(False, 0x1, 1, None)], lambda: [x[:4] for x in RESTRICTED.parts])
gives("an empty request", (("empty", 0), ()), lambda: OPEN.explain(USER, asked=0))
raises("nothing asked", TypeError, lambda: OPEN.check(USER))
raises("nothing asked, explained", TypeError, lambda: OPEN.explain(USER, [EVERYONE]))

# A check by a token has the verdict of one by its parts, until the token is closed.
with Token(USER, [EVERYONE]) as token:
    for asked in (0x1, 0x3, 0x80000000, 0, 0xFFFFFFFF):
        for one in (OPEN, HELD):
            gives(f"kept {asked:#x}", one.check(USER, [EVERYONE], asked=asked), lambda: one.check_by(token, asked))
    for number, wanted in NUMBERS:
        raises(f"by a token {number!r}", wanted, lambda: HELD.check_by(token, number))
    raises("a mapping beyond a list's rights", Refused, lambda: HELD.check_by(token, 1, (0, 0, 0, 0x200000)))
raises("a token that was closed", Closed, lambda: HELD.check_by(token, 0x1))
# An open of a file, with what its parent grants ([MS-FSA] 2.1.5.1.2.1): DELETE by FILE_DELETE_CHILD, and
# FILE_READ_ATTRIBUTES by FILE_LIST_DIRECTORY.
SEALED = Descriptor.from_sddl("D:(D;;FA;;;WD)")
FOLDER = Descriptor.from_sddl("D:(A;;0x41;;;WD)")
with Token(USER, [EVERYONE]) as token:
    for above, asked, answer in [
        (FOLDER, "SD", "granted 0x10000"),
        (FOLDER, 0x80, "granted 0x80"),
        (FOLDER, 0x1F01FF, "denied 0x1e017f"),
        (FOLDER, 0x02000000, "granted 0x10080"),
        (HELD, 0x10080, "denied 0x10000"),
        (None, 0x10080, "denied 0x10080"),
        (FOLDER, 0, "empty"),
    ]:
        gives(f"open {above!r} {asked!r}", answer, lambda: str(SEALED.check_open(above, token, asked)))
    gives("open, of its own", "granted 0x1", lambda: str(HELD.check_open(None, token, 0x1)))
    raises("open, no parent's descriptor", TypeError, lambda: SEALED.check_open(bytes(FOLDER), token, 0x1))
    raises("open, bits beyond a list's rights", Refused, lambda: HELD.check_open(None, token, 1, (0, 0, 0, 0x200000)))
raises("open, by a token that was closed", Closed, lambda: HELD.check_open(FOLDER, token, 0x1))
raises("open, no token", TypeError, lambda: HELD.check_open(FOLDER, USER, 0x1))
gives("a token that is closed twice", None, token.close)
raises("no token", TypeError, lambda: HELD.check_by(USER, 0x1))
raises("a token without a state", Refused, lambda: Token(USER, [(EVERYONE, 0x14)]))
raises("a token of no Sid", TypeError, lambda: Token("BA"))
NULL = Descriptor.from_sddl("D:NO_ACCESS_CONTROL")
gives("keys are mapped as keys", "granted 0x20019", lambda: str(NULL.check(USER, asked=0x80000000, mapping=KEYS)))
gives("equal descriptors", 1, lambda: len({OPEN, Descriptor(bytes(OPEN)), Descriptor(bytes(OPEN) + b"more")}))
gives("another descriptor", False, lambda: OPEN == HELD or OPEN == bytes(OPEN))

# A kept descriptor: the worked lines of README.md, until it is closed. A share of it is closed by itself.
WORKED = Descriptor.from_sddl("O:BAG:SYD:(D;;FW;;;BU)(A;;FR;;;BU)")
WHY = """denied 0x130116
granted 0x89 by entry 2 (A;;FR;;;BU) as S-1-5-32-545
denied 0x120116 by entry 1 (D;;FW;;;BU) as S-1-5-32-545
denied 0x10000 by no entry
granted 0x80000 by SeTakeOwnershipPrivilege"""
CLOSED = ("descriptor: it is closed", None)
with Token(USER, [Sid.from_text("BU")], TAKE_OWNERSHIP) as token:
    with KeptDescriptor(WORKED) as kept, kept.share() as other:
        gives("by a kept descriptor", "denied 0x130116", lambda: str(kept.check(token, 0x1B019F)))
        gives("why, by a kept descriptor", WHY, lambda: str(kept.explain(token, 0x1B019F)))
        gives("what is kept", (WORKED, WORKED), lambda: (kept.descriptor, other.descriptor))
        for number, wanted in NUMBERS:
            raises(f"by a kept descriptor {number!r}", wanted, lambda: kept.check(token, number))
            raises(f"why, by a kept descriptor {number!r}", wanted, lambda: kept.explain(token, number))
            raises(f"mask 0 {number!r}, kept", wanted, lambda: kept.check(token, 0x1, (number, 0, 0, 0)))
        for one in (USER, None, kept, bytes(USER)):
            raises(f"by a kept descriptor, token {one!r}", TypeError, lambda: kept.check(one, 0x1))
            raises(f"why, by a kept descriptor, token {one!r}", TypeError, lambda: kept.explain(one, 0x1))
        raises("three masks, by a kept descriptor", ValueError, lambda: kept.check(token, 0x1, FILES[:3]))
        raises("a mapping beyond a kept list's rights", Refused, lambda: kept.check(token, 0x1, (0, 0, 0, 0x200000)))
        raises("why, by such a mapping", Refused, lambda: kept.explain(token, 0x1, (0, 0, 0, 0x200000)))
        kept.close()
        gives("a descriptor that was closed", CLOSED, lambda: refusal(lambda: kept.check(token, 0x1)))
        gives("why, by one that was closed", CLOSED, lambda: refusal(lambda: kept.explain(token, 0x1)))
        raises("a share of a descriptor that was closed", Closed, kept.share)
        gives("a share, after the first", "denied 0x130116", lambda: str(other.check(token, 0x1B019F)))
        gives("a descriptor that is closed twice", None, kept.close)
    shared = token.share()
raises("a share of a token that was closed", Closed, token.share)
with KeptDescriptor(WORKED) as kept, shared:
    gives("a share of a token", "denied 0x130116", lambda: str(kept.check(shared, 0x1B019F)))
    gives("a token that was closed", ("token: it is closed", None), lambda: refusal(lambda: kept.check(token, 0x1)))
with KeptDescriptor(NULL) as kept, Token(USER) as token:
    gives("keys are mapped as keys, kept", "granted 0x20019", lambda: str(kept.check(token, 0x80000000, KEYS)))
for one in (bytes(WORKED), str(WORKED), None, 5, USER):
    raises(f"to keep {one!r}", TypeError, lambda: KeptDescriptor(one))

# Threads take turns at a token, and at a kept descriptor.
wrong = []
with Token(USER, [EVERYONE]) as token, KeptDescriptor(HELD) as kept:
    answers = {asked: str(HELD.check(USER, [EVERYONE], asked=asked)) for asked in (0x1, 0x2, 0x3)}

    def turns():
        for turn in range(3000):
            asked = 1 + turn % 3
            if str(HELD.check_by(token, asked)) != answers[asked] or str(kept.check(token, asked)) != answers[asked]:
                wrong.append(asked)

    threads = [threading.Thread(target=turns) for _ in range(4)]
    for thread in threads:
        thread.start()
    for thread in threads:
        thread.join()
gives("threads at one token", [], lambda: wrong)

# Restricting Sids only take away.
gives("not restricted", "granted 0x1", lambda: str(HELD.check(USER, [EVERYONE], asked=0x1)))
gives("restricted to the user", "denied 0x1", lambda: str(HELD.check(USER, [EVERYONE], asked=0x1, restricting=[USER])))
BOTH = [USER, EVERYONE]
gives("and to everyone", "granted 0x1", lambda: str(HELD.check(USER, [EVERYONE], asked=0x1, restricting=BOTH)))
gives("to everyone, in no group", "denied 0x1", lambda: str(HELD.check(USER, asked=0x1, restricting=[EVERYONE])))


def refusal(call):
    """Why the call is refused: its status, its fault's name, and its argument."""
    try:
        return call()
    except Refused as e:
        return e.status, e.name, e.argument


# A store and its views, each with the tree of its publish.
ROOT = Descriptor.from_sddl("O:SYG:SYD:(A;OICI;FR;;;S-1-5-21-1-2-3-1001)")
NODE = Descriptor.from_sddl("O:BAG:SYD:")
with Store(ROOT) as store, Token(USER) as token:
    with store.publish() as empty:
        store.add_container("/a", NODE)
        store.add_object("/a/o", NODE)
        gives("nothing is pending in a view", (0, 2), lambda: (empty.edits, store.edits))
        gives("no node yet", ("no node", None, "path"), lambda: refusal(lambda: empty.check("/a/o", token, 0x1)))
        first = store.publish()
    gives("a view that was closed", ("handle", None, "view"), lambda: refusal(lambda: empty.check("/", token, 0x1)))
    gives("a view", "granted 0x1", lambda: str(first.check("/a/o", token, 0x1)))
    gives("a node's descriptor", "O:BAG:SYD:AI(A;ID;FR;;;S-1-5-21-1-2-3-1001)", lambda: str(first.descriptor("/a/o")))
    store.set_dacl("/a", Descriptor.from_sddl("D:P(A;OICI;0x2;;;WD)"))
    store.set_owner("/a/o", Sid.from_text("BA"))
    store.set_group("/a/o", Sid.from_text("BU"))
    store.protect_keeping("/a/o")
    store.move("/a", "/b")
    with store.publish() as second, first, first.share() as third:
        gives("the edits", (2, 7, 7, 2), lambda: (first.edits, second.edits, store.edits, third.edits))
        gives("the first, as it was", "granted 0x1", lambda: str(first.check("/a/o", token, 0x1)))
        gives("a share of it", "granted 0x1", lambda: str(third.check("/a/o", token, 0x1)))
        gives("the second", "denied 0x1", lambda: str(second.check("/b/o", token, 0x1)))
        gives("a node that was moved", "O:BAG:BUD:PAI(A;;0x2;;;WD)", lambda: str(second.descriptor("/b/o")))
        raises("no token, by a view", TypeError, lambda: second.check("/b/o", USER, 0x1))
        for number, wanted in NUMBERS:
            raises(f"by a view {number!r}", wanted, lambda: second.check("/b/o", token, number))
        gives(
            "its nodes",
            [
                ("/", True, "O:SYG:SYD:(A;OICI;FR;;;S-1-5-21-1-2-3-1001)"),
                ("/b", True, "O:BAG:SYD:P(A;OICI;0x2;;;WD)"),
                ("/b/o", False, "O:BAG:BUD:P(A;;0x2;;;WD)"),
            ],
            lambda: [(node.path, node.is_container, str(node.own)) for node in second.nodes()],
        )
        gives("their paths", ["/", "/b", "/b/o"], lambda: list(second))
        gives("one of them", second.own("/b/o"), lambda: list(second.nodes())[2])
        gives("no such node", ("no node", None, "path"), lambda: refusal(lambda: second.own("/a")))
        store.remove("/b/o")
        raises("a revert to no view", TypeError, lambda: store.revert(token))
        gives("a store that goes back", (None, 7), lambda: (store.revert(second), store.edits))
    gives("a revert to a view that was closed", ("handle", None, "view"), lambda: refusal(lambda: store.revert(second)))
    gives("nodes of a view that was closed", ("handle", None, "view"), lambda: refusal(lambda: list(second.nodes())))
    raises("a revert to a token", TypeError, lambda: store.revert(token))
    raises("a token that is a view", TypeError, lambda: first.check("/", second, 0x1))
    raises("a token that is a store", TypeError, lambda: HELD.check_by(store, 0x1))
    store.remove("/b/o")
    gives("an edit that would be made", (None, 8), lambda: (store.judge.add_object("/q", NODE), store.edits))
    no_parent = ("refused", "NoParent", None)
    gives("an edit that wouldn't", no_parent, lambda: refusal(lambda: store.judge.add_object("/x/y", NODE)))
    raises("an owner that is no Sid, judged", TypeError, lambda: store.judge.set_owner("/b", "BA"))
    gives("a parent that isn't there", no_parent, lambda: refusal(lambda: store.add_object("/x/y", NODE)))
    gives("no path", ("path", "Syntax", "path"), lambda: refusal(lambda: store.remove("b")))
    gives("no target", ("path", "Syntax", "value"), lambda: refusal(lambda: store.move("/b", "b")))
    gives("no owner", ("parts", None, "value"), lambda: refusal(lambda: store.add_object("/q", HELD)))
    raises("an owner that is no Sid", TypeError, lambda: store.set_owner("/b", "BA"))
    raises("a node that is no Descriptor", TypeError, lambda: store.add_object("/q", b""))
    raises("a path that is no text", TypeError, lambda: store.remove(b"/b"))
    gives("nothing has changed", 8, lambda: store.edits)
gives("a store that was closed", ("handle", None, "store"), lambda: refusal(lambda: store.remove("/b")))
gives("a root without an owner", ("parts", None, "value"), lambda: refusal(lambda: Store(HELD)))

# The limits of a store: numbers of 64 bits, of which the library refuses those beyond its own; and what is within them.
for number, wanted in [(-1, ValueError), (1 << 64, ValueError), (True, TypeError), (1.0, TypeError), ("1", TypeError)]:
    raises(f"nodes {number!r}", wanted, lambda: Store(ROOT, nodes=number))
    raises(f"edits {number!r}", wanted, lambda: Store(ROOT, edits=number))
raises("limits by position", TypeError, lambda: Store(ROOT, FILES, 2, 3))
for nodes, edits, name, argument in [
    (0, 3, "NoNodes", "nodes"),
    ((1 << 24) + 1, 3, "TooManyNodes", "nodes"),
    ((1 << 64) - 1, (1 << 64) - 1, "TooManyNodes", "nodes"),
    (2, (1 << 32) + 1, "TooManyEdits", "edits"),
]:
    limits = ("limits", name, argument)
    gives(f"{nodes} nodes, {edits} edits", limits, lambda: refusal(lambda: Store(ROOT, nodes=nodes, edits=edits)))
with Store(ROOT, nodes=1 << 24, edits=1 << 32) as store:
    gives("the largest limits", 0, lambda: store.edits)
with Store(ROOT, nodes=2, edits=3) as store:
    store.add_object("/a", NODE)
    gives("a third node", ("refused", "NodesFull", None), lambda: refusal(lambda: store.add_object("/b", NODE)))
    store.move("/a", "/b")
    store.remove("/b")
    gives("a fourth edit", ("refused", "JournalFull", None), lambda: refusal(lambda: store.add_object("/a", NODE)))

sys.exit(close())
