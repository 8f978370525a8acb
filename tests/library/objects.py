"""How the objects of hudarin behave in Python: truth, copies, pickles and a second __init__; the parts of a
descriptor, masks by names, which mistake raises what, whole descriptors, and who is granted what. The last line is
'N passed, M failed'.

The module is that of bindings/python, or where there is none the one that Python finds.
"""

import copy
import functools
import multiprocessing
import operator
import pickle
import random
import struct
import sys
import uuid
from pathlib import Path
from typing import Any, Callable, List, Optional, Tuple, Union

TOP = Path(__file__).resolve().parents[2]
sys.path[:0] = [str(TOP / "tests"), str(TOP / "bindings/python")]

import hudarin  # noqa: E402
from hudarin import (  # noqa: E402
    FILES,
    FLAGS,
    KEYS,
    OF_DACL,
    OF_GROUP,
    OF_OWNER,
    OF_SACL,
    Access,
    Accounts,
    Change,
    Client,
    Closed,
    Comparison,
    Descriptor,
    Explanation,
    Finding,
    KeptDescriptor,
    NoList,
    Part,
    Refused,
    Reviewed,
    Sid,
    Store,
    Stored,
    Token,
    Verdict,
    View,
    WholeDescriptor,
    WholeEntry,
    map_mask,
    mask,
    mask_names,
)
from tally import close, gives, holds, raises  # noqa: E402

USER = Sid.from_text("S-1-5-21-1-2-3-1001")
USERS = Sid.from_text("BU")
READERS = Descriptor.from_sddl("O:BAG:SYD:(A;;FR;;;BU)")
OPEN = ("O:BA", "D:NO_ACCESS_CONTROL")
READERS_WITHOUT = Descriptor.from_sddl("D:(A;;FR;;;BU)")
ROOT = Descriptor.from_sddl("O:SYG:SYD:(A;OICI;FR;;;BU)")
CLASSES = ("bf967a86-0de6-11d0-a285-00aa003049e2", "bf967aba-0de6-11d0-a285-00aa003049e2")
ENTRIES = ["(A;;FA;;;WD)", f"(OA;CI;0x10;{CLASSES[0]};{CLASSES[1]};AU)", "(XA;;FX;;;BU;(a))", "(AU;SA;FA;;;WD)"]
WHOLE = WholeDescriptor.from_sddl("O:BAG:SYD:" + "".join(ENTRIES[:3]) + "S:AI" + ENTRIES[3])
NONE = WholeDescriptor.from_sddl("")
EMPTY_SACL = WholeDescriptor.from_sddl("S:")


def refused(call: Callable[[], Any]) -> Optional[Tuple[Any, ...]]:
    """What a refusal says."""
    try:
        call()
    except Refused as e:
        return e.status, e.fault, e.name, e.place, e.argument
    return None


def closed(call: Callable[[], Any]) -> Optional[Tuple[Any, ...]]:
    """What the refusal of something closed says, if it names that."""
    try:
        call()
    except Closed as e:
        return refused(call) if str(e) == f"{e.argument}: it is closed" else None
    return None


def truth() -> None:
    """A result is true if access is granted, and false otherwise."""
    for asked, verdict in ((0x1, "granted 0x1"), (0x2, "denied 0x2"), (0x00200000, "reserved 0x200000"), (0, "empty")):
        answer = READERS.check(USER, [USERS], asked=asked)
        granted = verdict.startswith("granted")
        gives(f"{asked:#x}", (verdict, granted, granted), lambda: (str(answer), answer.is_granted, bool(answer)))
        why = READERS.explain(USER, [USERS], asked=asked)
        gives(f"why {asked:#x}", (answer, granted, granted), lambda: (why.verdict, why.is_granted, bool(why)))
        with Token(USER, [USERS]) as token, KeptDescriptor(READERS) as kept:
            gives(f"{asked:#x}, by a token", granted, lambda: bool(READERS.check_by(token, asked)))
            gives(f"{asked:#x}, by a kept descriptor", granted, lambda: bool(kept.check(token, asked)))
    parts = READERS.explain(USER, [USERS], asked=0x3).parts
    gives("parts", [(True, True), (False, False)], lambda: [(part.is_granted, bool(part)) for part in parts])
    # They are compared and taken apart as before.
    gives("a verdict as a tuple", True, lambda: Verdict("denied", 0x2) == ("denied", 0x2))
    gives("verdicts that differ", False, lambda: Verdict("denied", 0x2) == Verdict("granted", 0x2))
    gives("no parts", False, lambda: bool(Explanation(Verdict("empty", 0), ())))
    gives("a part by its fields", "denied 0x2 by no entry", lambda: str(Part(False, 0x2, None, None, "by no entry")))


VALUES = {
    "a Sid": USER,
    "a Descriptor": READERS,
    "a Verdict": Verdict("denied", 0x2),
    "an Explanation": READERS.explain(USER, [USERS], asked=0x3),
    "an Entry": READERS.entries[0],
    "a Finding": Descriptor.from_sddl("O:BA").lint()[0],
}


def copies() -> None:
    """Values are copied and pickled; what holds memory of the library isn't."""
    for name, value in VALUES.items():
        gives(f"{name}, copied", value, lambda: copy.copy(value))
        gives(f"{name}, deeply", [value], lambda: copy.deepcopy([value]))
        for protocol in range(pickle.HIGHEST_PROTOCOL + 1):
            gives(f"{name}, pickled by {protocol}", value, lambda: pickle.loads(pickle.dumps(value, protocol)))
    classes: List[type] = [Sid, Refused, Verdict, Descriptor, Store]
    gives("where classes are from", {"hudarin"}, lambda: {one.__module__ for one in classes})
    gives("a Sid, hashed", hash(USER), lambda: hash(pickle.loads(pickle.dumps(USER))))
    # The library tests the bytes of a pickle again.
    broken = pickle.dumps(USER, 4).replace(bytes(USER)[:2], b"\x01\x0f")
    gives("the bytes of a pickle", "sid", lambda: (refused(lambda: pickle.loads(broken)) or ("loaded",))[0])
    with Token(USER, [USERS]) as token, KeptDescriptor(READERS) as kept, Store(ROOT) as store, store.publish() as view:
        for held in (token, Client(USER), Accounts(""), kept, store, view):
            name = type(held).__name__
            raises(f"{name}, copied", TypeError, lambda: copy.copy(held))
            raises(f"{name}, deeply", TypeError, lambda: copy.deepcopy(held))
            for protocol in range(pickle.HIGHEST_PROTOCOL + 1):
                raises(f"{name}, pickled by {protocol}", TypeError, lambda: pickle.dumps(held, protocol))
        gives("a token, after that", "granted 0x1", lambda: str(kept.check(token, 0x1)))


def said(e: Any) -> Tuple[Any, ...]:
    return type(e), e.status, e.fault, e.name, e.place, e.argument, str(e), e.args


def refusals() -> None:
    """A refusal is copied and pickled with all that it says."""
    calls: List[Tuple[str, Callable[[], Any]]] = [
        ("a text", lambda: Descriptor.from_sddl("O:DA")),
        ("bytes", lambda: Descriptor(b"")),
        ("a state", lambda: READERS.check(USER, [USERS, (USERS, 0x14)], asked=0x1)),
    ]
    for name, call in calls:
        try:
            call()
        except Refused as e:
            same = [copy.copy(e)] + [pickle.loads(pickle.dumps(e, at)) for at in range(pickle.HIGHEST_PROTOCOL + 1)]
            for other in same:
                gives(f"the refusal of {name}", said(e), lambda: said(other))
        else:
            holds(f"the refusal of {name}", False, "it isn't refused")


def rejected(text: str) -> str:
    return str(Descriptor.from_sddl(text))


def pool() -> None:
    """Worker processes take values, and give back results and refusals."""
    with multiprocessing.get_context("spawn").Pool(1) as workers:
        gives("a pool", [str(READERS)], lambda: workers.map(rejected, [str(READERS)]))
        fault = ("sddl", 6, "DomainAlias", 2, None)
        gives("a pool's refusal", fault, lambda: refused(lambda: workers.map(rejected, ["O:DA"])))
        check = functools.partial(READERS.check, asked=0x2)
        gives("a pool's verdict", Verdict("denied", 0x2), lambda: workers.apply(check, (USER, [USERS])))


def again() -> None:
    """A second __init__ neither changes a value nor leaks memory: what holds some refuses it."""
    with Token(USER, [USERS]) as token, KeptDescriptor(READERS) as kept, Store(ROOT) as store:
        inits: List[Tuple[Any, Any]] = [(token, USER), (Client(USER), USER), (Accounts(""), ""), (kept, ROOT), (store, ROOT)]
        for held, given in inits:
            raises(f"a {type(held).__name__}, again", RuntimeError, lambda: held.__init__(given))
        gives("a kept one, after that", (READERS, "granted 0x1"), lambda: (kept.descriptor, str(kept.check(token, 1))))
    value: Any
    for value in (Sid(bytes(USER)), Descriptor(bytes(READERS))):
        same = bytes(value)
        value.__init__(bytes(ROOT))
        gives(f"{value!r}, again", same, lambda: bytes(value))
    gives("a view of nothing", ("handle", 0, None, 0, "view"), lambda: closed(lambda: View().own("/")))


def parts() -> None:
    """The owner, the group and the entries are those of the text, in any order of the parts' bytes."""
    text = "O:S-1-5-21-1-2-3-1001G:BUD:PARAI(D;OICINPIOIDSAFA;0x30000;;;WD)(A;;FA;;;S-1-0x000100000000-7)(A;;0x0;;;BG)"
    one = Descriptor.from_sddl(text)
    gives("owner and group", (USER, USERS), lambda: (one.owner, one.group))
    entries = one.entries
    gives(
        "entries",
        [("deny", 0xDF, 0x30000, "WD"), ("allow", 0, 0x1F01FF, "S-1-0x000100000000-7"), ("allow", 0, 0, "BG")],
        lambda: [(each.kind, each.flags, each.mask, str(each.sid)) for each in entries],
    )
    gives("their texts", text[text.index("(") :], lambda: "".join(str(each) for each in entries))
    rights = Descriptor.from_sddl("O:BGD:(A;;FR;;;OW)(A;;FR;;;BU)")
    gives("their subjects", ["BG", "BU"], lambda: [str(rights.subject(each)) for each in rights.entries])
    gives("without an owner", None, lambda: READERS_WITHOUT.subject(rights.entries[0]))
    raises("the subject of a text", TypeError, lambda: rights.subject("(A;;FR;;;OW)"))  # type: ignore[arg-type]
    shields = [("", False), ("D:AI", False), ("D:P", True), ("D:PNO_ACCESS_CONTROL", True)]
    gives("protection", shields, lambda: [(sddl, Descriptor.from_sddl(sddl).is_protected) for sddl, _ in shields])
    gives("SIDs in full", ["S-1-5-32-545", "S-1-5-21-1-2-3-1001"], lambda: [USERS.full, USER.full])
    gives("their flags", 0xDF, lambda: sum(FLAGS.values()))
    for letters, flag in FLAGS.items():
        gives(letters, flag, lambda: Descriptor.from_sddl(f"D:(A;{letters};FR;;;WD)").entries[0].flags)


def shapes() -> None:
    """What a descriptor has no part of; an absent and a null DACL are no lists without entries."""
    given: List[Tuple[str, Tuple[Any, Any, Any]]] = [
        ("", (None, None, "absent")),
        ("O:BG", (Sid.from_text("BG"), None, "absent")),
        ("G:BG", (None, Sid.from_text("BG"), "absent")),
        ("O:BGG:BG", (Sid.from_text("BG"), Sid.from_text("BG"), "absent")),
        ("D:", (None, None, "list")),
        ("D:P", (None, None, "list")),
        ("D:NO_ACCESS_CONTROL", (None, None, "null")),
        ("D:PAINO_ACCESS_CONTROL", (None, None, "null")),
    ]
    for text, wanted in given:
        forms: List[Union[Descriptor, WholeDescriptor]] = [Descriptor.from_sddl(text), WholeDescriptor.from_sddl(text)]
        for form in forms:
            gives(f"the parts of {text!r}", wanted, lambda: (form.owner, form.group, form.dacl_kind))
            if wanted[2] == "list":
                gives(f"the entries of {text!r}", (), lambda: listed_in(form))
            else:
                gives(f"no entries of {text!r}", wanted[2], lambda: no_list(lambda: listed_in(form)))
    # The list in front of the group, which is the owner's bytes too: [MS-DTYP] 2.4.6 leaves the order open.
    written = bytes(Descriptor.from_sddl("O:BAD:(A;;FA;;;WD)"))
    acl, sid = written[36:], written[20:36]
    offsets = b"".join(at.to_bytes(4, "little") for at in (20 + len(acl), 20 + len(acl), 0, 20))
    turned = written[:4] + offsets + acl + sid
    gives("parts that share bytes", ("BA", "BA", ["(A;;FA;;;WD)"]), lambda: _of(Descriptor(turned)))
    many = Descriptor.from_sddl("D:" + 3276 * "(A;;FA;;;WD)")
    gives("the longest list", 3276, lambda: len(many.entries))


def listed_in(form: Union[Descriptor, WholeDescriptor]) -> Tuple[Any, ...]:
    return form.entries if isinstance(form, Descriptor) else form.dacl


def no_list(call: Callable[[], Any]) -> Optional[str]:
    """Which list there is instead of entries, as it is after a pickle too."""
    try:
        call()
    except NoList as e:
        same = pickle.loads(pickle.dumps(e))
        return e.kind if (same.kind, str(same)) == (e.kind, str(e)) and e.kind in str(e) else None
    return None


def _of(one: Descriptor) -> Tuple[str, str, List[str]]:
    return str(one.owner), str(one.group), [str(each) for each in one.entries]


def names() -> None:
    """A mask is a number or names of rights, wherever one is asked for."""
    with Token(USER, [USERS]) as token, KeptDescriptor(READERS) as kept, Store(ROOT) as store, store.publish() as view:
        asks: List[Tuple[str, Callable[[Any], Any]]] = [
            ("check", lambda asked: READERS.check(USER, [USERS], asked=asked)),
            ("check_by", lambda asked: READERS.check_by(token, asked)),
            ("kept", lambda asked: kept.check(token, asked)),
            ("explain", lambda asked: READERS.explain(USER, [USERS], asked=asked).verdict),
            ("kept.explain", lambda asked: kept.explain(token, asked).verdict),
            ("view", lambda asked: view.check("/", token, asked)),
            ("view, all", lambda asked: view.check_all(["/"], token, asked)[0]),
        ]
        for name, ask in asks:
            for text in ("FR", "0x1", "FW", "RCWD", "0x80000000", "fr", "01", ""):
                gives(f"{name} {text!r}", ask(mask(text)), lambda: ask(text))
            gives(f"{name} by no right", ("mask", 1, "Syntax", 0, None), lambda: refused(lambda: ask("X")))
            gives(f"{name} by 33 bits", ("mask", 7, "Range", 0, None), lambda: refused(lambda: ask("0x100000000")))
            gives(f"{name} by no text", ("utf8", 0, None, 1, None), lambda: refused(lambda: ask("F\ud800")))
    full = Descriptor.from_sddl("D:(A;;GR;;;BU)")
    of_files, of_keys = ("FR", "FW", "FX", "FA"), ("KR", 0, "", "KA")
    by_names = full.check(USER, [USERS], asked="GR", mapping=of_files)
    gives("a mapping by names", "granted 0x120089", lambda: str(by_names))
    by_both = full.check(USER, [USERS], asked="GR", mapping=of_keys)
    gives("a mapping by both", "granted 0x20019", lambda: str(by_both))
    texts: List[Any] = ["1234", bytes(4)]
    for wrong in texts:
        raises(f"the mapping {wrong!r}", TypeError, lambda: full.check(USER, [USERS], asked="GR", mapping=wrong))


def one_exception() -> None:
    """One kind of mistake is one exception, whichever call finds it."""
    gives("a SID's text", ("sid", 5, "UnknownAlias", 0, None), lambda: refused(lambda: Sid.from_text("alice")))
    gives("an alias of a domain", ("sid", 6, "DomainAlias", 0, None), lambda: refused(lambda: Sid.from_text("DA")))
    gives("a SID's bytes", ("sid", 3, "Short", 0, None), lambda: refused(lambda: Sid(b"\x01\x01")))
    gives("a mask's text", ("mask", 1, "Syntax", 0, None), lambda: refused(lambda: mask("alice")))
    named = (mask_names(0x160089, "file"), mask_names(0x120289, "file"), mask_names(3, "key"), mask_names(0))
    gives("masks by names", ("FR+WD", "FR+0x200", "KEY_QUERY_VALUE+KEY_SET_VALUE", "0x0"), lambda: named)
    gives("masks mapped", (0x1200C9, 0xF003F), lambda: (map_mask(0x80000040), map_mask("GA", KEYS)))
    gives("a name of a kind", 0x1301BF, lambda: mask("modify", "file"))
    kinds: List[Any] = [None, *hudarin.MAPPINGS]
    for kind in kinds:
        some = [random.getrandbits(32) & random.getrandbits(32) for _ in range(2000)]
        gives(f"masks by the names of {kind}", some, lambda: [mask(mask_names(one, kind), kind) for one in some])
    wrong: List[Any] = ["File", "files", ""]
    for kind in wrong:
        raises(f"the kind {kind!r}", ValueError, lambda: mask_names(1, kind))
    gives("a descriptor's text", ("sddl", 1, "Syntax", 0, None), lambda: refused(lambda: Descriptor.from_sddl("alice")))
    texts: List[Tuple[str, Callable[[str], Any]]] = [
        ("SDDL", Descriptor.from_sddl),
        ("SDDL in a domain", lambda text: Descriptor.from_sddl(text, Sid.from_text("S-1-5-21-7-8-9"))),
        ("a SID", Sid.from_text),
        ("a mask", mask),
    ]
    for name, call in texts:
        for text in ("\ud800", "\udcff", "\udfff"):
            gives(f"{name}, {text!a}", ("utf8", 0, None, 0, None), lambda: refused(lambda: call(text)))
    written = bytes(READERS)
    groups: List[Any] = [(), (USERS,), (USERS, 0x4, 0x4)]
    for group in groups:
        raises(f"the group {group}", TypeError, lambda: Token(USER, [group]))
    places: List[Tuple[Any, Any]] = [(-1, ValueError), (1 << 64, ValueError), ("0", TypeError), (True, TypeError)]
    for place, wanted in places:
        raises(f"the place {place!r}", wanted, lambda: WholeDescriptor.from_blob(written, place))
        raises(f"the parts {place!r}", wanted, lambda: WHOLE.with_parts(READERS, place))
    with Token(USER, [USERS]) as token, Store(ROOT) as store, store.publish() as view:
        finds: List[Tuple[str, Callable[[Any], Any]]] = [
            ("check", lambda path: view.check(path, token, "FR")),
            ("own", lambda path: view.own(path)),
            ("descriptor", lambda path: view.descriptor(path)),
            ("stored", lambda path: view.stored(path)),
        ]
        for name, find in finds:
            gives(f"{name}, no node", ("no node", 0, None, 0, "path"), lambda: refused(lambda: find("/x")))
            gives(f"{name}, no path", ("path", 1, "Syntax", 0, "path"), lambda: refused(lambda: find("x")))
            gives(f"{name}, no text", ("utf8", 0, None, 1, "path"), lambda: refused(lambda: find("/\udcff")))
            raises(f"{name}, bytes", TypeError, lambda: find(b"/"))
            view.close()
            gives(f"{name}, closed", ("handle", 0, None, 0, "view"), lambda: closed(lambda: find("/")))
            view = store.publish()
        handle = ("handle", 0, None, 0)
        both = [view.check("/", token, "FR"), None]
        gives("check_all", both, lambda: view.check_all(iter(["/", "/x"]), token, "FR"))
        gives("check_all of none", [], lambda: view.check_all([], token, "FR"))
        gives("check_all, no path", ("path", 1, "Syntax", 0, "path"), lambda: refused(lambda: view.check_all(["x"], token, "FR")))
        raises("check_all of one text", TypeError, lambda: view.check_all("/", token, "FR"))
        view.close()
        gives("checks of a closed view", handle + ("view",), lambda: closed(lambda: view.check_all(["/"], token, "FR")))
        gives("revert to a closed view", handle + ("view",), lambda: closed(lambda: store.revert(view)))
        gives("nodes of a closed view", handle + ("view",), lambda: closed(lambda: list(view.nodes())))
        gives("the edits of a closed view", handle + ("view",), lambda: closed(lambda: view.edits))
        gives("a share of a closed view", handle + ("view",), lambda: closed(view.share))
        other = store.publish()
        store.close()
        asks: List[Tuple[str, Callable[[], Any]]] = [
            ("publish", store.publish),
            ("revert", lambda: store.revert(other)),
            ("edits", lambda: store.edits),
            ("edit", lambda: store.remove("/x")),
            ("judge", lambda: store.judge.remove("/x")),
            ("review", lambda: list(store.review())),
        ]
        for name, ask in asks:
            gives(f"{name} of a closed store", handle + ("store",), lambda: closed(ask))
    raises("a judge of no store", TypeError, lambda: hudarin.Judge(READERS))  # type: ignore[arg-type]


def whole() -> None:
    """Whole descriptors: their texts, their parts, and their plain parts."""
    # Behind the header, as Windows writes it: an empty SACL, and the rest of READERS.
    written = bytes(READERS)
    head, rest = bytearray(written[:20]), written[20:]
    for at in (4, 8, 16):
        head[at : at + 4] = (int.from_bytes(head[at : at + 4], "little") + 8).to_bytes(4, "little")
    head[2], head[12] = head[2] | 0x10, 20
    with_sacl = bytes(head) + b"\x02\x00\x08\x00\x00\x00\x00\x00" + rest
    wire = ("wire", 4, "HasSacl", 0, None)
    gives("a SACL", wire, lambda: refused(lambda: Descriptor(with_sacl)))
    gives("a SACL, left out", (READERS, 1), lambda: WholeDescriptor(with_sacl).plain())
    gives("no SACL", (READERS, 0), lambda: WholeDescriptor(READERS).plain())
    gives("more after it", str(READERS) + "S:", lambda: str(WholeDescriptor(with_sacl + b"more")))
    gives("a text", str(WHOLE), lambda: str(WholeDescriptor.from_sddl(str(WHOLE))))
    gives("equal", True, lambda: WHOLE == WholeDescriptor(bytes(WHOLE)) == pickle.loads(pickle.dumps(WHOLE)))
    gives("of another type", False, lambda: WholeDescriptor(READERS) == READERS)
    gives("as it is shown", WHOLE, lambda: eval(repr(WHOLE), {"WholeDescriptor": WholeDescriptor}))
    gives("owner and group", ("BA", "SY"), lambda: (str(WHOLE.owner), str(WHOLE.group)))
    gives("no owner, no group, no SACL", 3 * [None], lambda: [NONE.owner, NONE.group, NONE.sacl])
    gives("a null SACL", None, lambda: WholeDescriptor.from_sddl("S:NO_ACCESS_CONTROL").sacl)
    wholes_entries()
    wholes_lists()
    wholes_refusals()


def wholes_entries() -> None:
    """The entries of whole descriptors."""
    given = [*WHOLE.dacl, *(WHOLE.sacl or ())]
    gives("their texts", ENTRIES, lambda: [entry.text for entry in given])
    gives("their types", [0x00, 0x05, 0x09, 0x02], lambda: [entry.type for entry in given])
    gives("their SIDs", ["WD", "AU", "BU", "WD"], lambda: [str(entry.sid) for entry in given])
    gives("their masks", [0x1F01FF, 0x10, 0x1200A0, 0x1F01FF], lambda: [entry.mask for entry in given])
    gives("their flags", [0, 2, 0, 0x40], lambda: [entry.flags for entry in given])
    gives("object types", CLASSES, lambda: (str(given[1].object_type), str(given[1].inherited_object_type)))
    gives("no object types", (None, None), lambda: (given[0].object_type, given[0].inherited_object_type))
    gives("a condition", b"artx", lambda: given[2].data[:4])
    gives("the list's bytes", True, lambda: b"".join(bytes(entry) for entry in given[:3]) in bytes(WHOLE))
    opaque = bytearray(bytes(WholeDescriptor.from_sddl("D:(A;;FA;;;WD)")))
    opaque[28] = 4
    entry = WholeDescriptor(opaque).dacl[0]
    gives("no layout", (4, 0, None, 16, None), lambda: (entry.type, entry.mask, entry.sid, len(entry.data), entry.text))
    gives("its bytes", bytes(opaque[28:]), lambda: bytes(entry))


def listed(revision: int, *entries: bytes) -> bytes:
    """A descriptor that has just a DACL, as [MS-DTYP] 2.4.5 and 2.4.6 have it."""
    body = b"".join(entries)
    head = struct.pack("<BBHIIIIBBHHH", 1, 0, 0x8004, 0, 0, 0, 20, revision, 0, 8 + len(body), len(entries), 0)
    return head + body


def revisions(one: WholeDescriptor) -> List[Optional[int]]:
    return [one.dacl_revision, one.sacl_revision]


def wholes_lists() -> None:
    """Lists of whole descriptors, of given entries. Their bytes are those of [MS-DTYP] 2.4.4."""
    sid = b"\1\1\0\0\0\0\0\1\0\0\0\0"
    allow = b"\0\0\x14\0\xff\1\x1f\0" + sid
    of_class = b"\5\2\x28\0\x10\0\0\0\1\0\0\0" + uuid.UUID(CLASSES[0]).bytes_le + sid
    conditional = b"\x09\x10\x20\0\x20\0\0\0" + sid + b"artx\xf8\2\0\0\0a\0\0"
    unknown = b"\x42\x80\x0c\0" + bytes(range(8))
    everyone = Sid(sid)
    entries = [
        WholeEntry(0, 0, 0x1F01FF, None, None, everyone, b""),
        WholeEntry(5, 2, 0x10, uuid.UUID(CLASSES[0]), None, everyone, b""),
        WholeEntry(9, 0x10, 0x20, None, None, everyone, conditional[20:]),
        WholeEntry(0x42, 0x80, 0, None, None, None, bytes(range(8))),
    ]
    forms = allow, of_class, conditional, unknown
    gives("an empty list", listed(2), lambda: bytes(NONE.with_entries([])))
    gives("entries of each kind", listed(4, *forms), lambda: bytes(NONE.with_entries(iter(entries), 4)))
    gives("in another order", listed(2, unknown, allow), lambda: bytes(NONE.with_entries([entries[3], entries[0]])))
    gives("they come back", tuple(entries), lambda: NONE.with_entries(entries).dacl)
    gives("instead of others", listed(2, allow), lambda: bytes(NONE.with_entries(entries, 4).with_entries(entries[:1])))
    system = str(WHOLE).replace(ENTRIES[3], "(OA;CI;0x10;" + CLASSES[0] + ";;WD)")
    gives("a SACL", system, lambda: str(WHOLE.with_entries(entries[1:2], 4, True)))
    gives("a SACL where there was none", "S:(A;;FA;;;WD)", lambda: str(NONE.with_entries(entries[:1], sacl=True)))
    both = WHOLE.with_entries((), 2).with_entries((), 4, True)
    gives("their revisions", [4, 2, 2, 4], lambda: [*revisions(WHOLE), *revisions(both)])
    gives("no revisions", [None, None], lambda: revisions(NONE))
    gives("a null DACL has none", None, lambda: WholeDescriptor.from_sddl("D:NO_ACCESS_CONTROL").dacl_revision)
    longest = [WholeEntry(0x42, 0, 0, None, None, None, bytes(65_520))]
    gives("the longest list", 65_552, lambda: len(bytes(NONE.with_entries(longest))))
    faults: List[Tuple[int, str, List[Any], int]] = [
        (7, "AclRevision", entries, 3),
        (7, "AclRevision", [], 0x102),
        (8, "AclSize", 2 * longest, 2),
        (9, "EntrySize", [entries[3]._replace(data=b"123")], 2),
        (6, "BadSid", [WholeEntry(0, 0, 0, None, None, None, bytes(16))], 2),
    ]
    for fault, name, given, revision in faults:
        gives(name, ("wire", fault, name, 0, None), lambda: refused(lambda: NONE.with_entries(given, revision)))
    def other(at: int, **fields: Any) -> WholeEntry:
        return entries[at]._replace(**fields)

    wrong: List[Tuple[Any, Any]] = [
        (TypeError, ["(A;;FA;;;WD)"]),
        (TypeError, [allow]),
        (TypeError, entries[0]),
        (TypeError, READERS.entries),
        (TypeError, [other(0, sid=sid)]),
        (TypeError, [other(1, object_type=CLASSES[0])]),
        (TypeError, [other(0, flags=True)]),
        (TypeError, [other(0, data="")]),
        (ValueError, [other(0, type=0x100)]),
        (ValueError, [other(0, flags=-1)]),
        (ValueError, [other(0, mask=1 << 32)]),
        (ValueError, [other(0, data=bytes(65_516))]),
        (ValueError, [other(0, object_type=uuid.UUID(CLASSES[0]))]),
        (ValueError, [other(3, inherited_object_type=uuid.UUID(CLASSES[0]))]),
        (ValueError, [other(3, mask=1)]),
    ]
    for kind, given in wrong:
        raises(f"the entries {given!r}"[:100], kind, lambda: NONE.with_entries(given))
    numbers: List[Tuple[Any, Any]] = [(-1, ValueError), (1 << 32, ValueError), (True, TypeError), ("2", TypeError)]
    for number, kind in numbers:
        raises(f"the revision {number!r}", kind, lambda: NONE.with_entries([], number))
    lists: List[Any] = [0, 1, None, "DACL"]
    for one in lists:
        raises(f"the list {one!r}", TypeError, lambda: NONE.with_entries([], 2, one))


def wholes_refusals() -> None:
    """What has no text, what isn't plain, and what is put together."""
    bits = bytearray(bytes(WHOLE))
    bits[1], bits[2] = 7, bits[2] | 1
    has_none = ("no text", 1, "ResourceManager", 0, None)
    gives("bits without a text", has_none, lambda: refused(lambda: str(WholeDescriptor(bits))))
    gives("bits left out", (str(WHOLE), 6), lambda: WholeDescriptor(bits).without_bits())
    odd = ("not plain", 1, "ObjectAce", 1, "DACL")
    gives("an entry that isn't plain", odd, lambda: refused(WHOLE.plain))
    opaque = bytearray(bytes(WholeDescriptor.from_sddl("S:(AU;;FA;;;WD)")))
    opaque[28] = 0x10
    gives("no text", ("no text", 4, "Opaque", 0, "SACL"), lambda: refused(lambda: str(WholeDescriptor(opaque))))
    gives("a fault of bytes", ("wire", 1, "Short", 0, None), lambda: refused(lambda: WholeDescriptor(b"")))
    joined = str(READERS) + str(WHOLE)[str(WHOLE).index("S:AI") :]
    gives("parts of another", joined, lambda: str(WHOLE.with_parts(READERS, OF_OWNER | OF_GROUP | OF_DACL)))
    audited = WholeDescriptor(READERS).with_parts(EMPTY_SACL, OF_SACL)
    gives("a SACL of another", str(READERS) + "S:", lambda: str(audited))
    raises("parts of a text", TypeError, lambda: WHOLE.with_parts("D:", OF_DACL))  # type: ignore[arg-type]


def analysis() -> None:
    """Who is granted what, and what a change grants and takes away, as values."""
    guests, admins, everyone = map(Sid.from_text, ("BG", "BA", "WD"))
    denying = Descriptor.from_sddl("O:BAG:SYD:(D;;0x1;;;BG)(A;;0x1;;;BU)")
    granted = (Access(0x120089, "sid", USERS, ()), Access(0x20000, "owner", admins, ()))
    gives("who", granted, lambda: READERS.who("FR"))
    gives("unless", (Access(0x1, "sid", USERS, (guests,)),), lambda: denying.who(0x1))
    gives("nobody", (Access(0x1, "nobody", None, ()),), lambda: denying.who(0x1, [(guests, hudarin.DENY_ONLY)]))
    gives("everyone", (Access(0x1, "everyone", None, ()),), lambda: READERS.who(0x1, [everyone, USERS]))
    none = denying.who(0x1, [(guests, hudarin.DENY_ONLY)])
    gives("nobody is false", (False, "0x1 to nobody", [False]), lambda: (bool(none), str(none), list(map(bool, none))))
    some = denying.who(0x3, [(guests, hudarin.DENY_ONLY)])
    gives("some are true", [True] * 3, lambda: [bool(each.who(0x1)) for each in (READERS, denying, READERS_WITHOUT)])
    gives("everybody is true", [True] * 2, lambda: [bool(Descriptor.from_sddl(each).who(0x1)) for each in OPEN])
    gives("nobody, of two rights", (False, 0x3), lambda: (bool(some), sum(each.mask for each in some)))
    gives("of several rights as a text", "\n".join(map(str, READERS.who())), lambda: str(READERS.who()))
    gives("they are copied", [none, False], lambda: [copy.copy(none), bool(pickle.loads(pickle.dumps(none)))])
    raises("no right", ValueError, lambda: READERS.who(0))
    gives("all rights", 0x1FFFFF, lambda: functools.reduce(operator.or_, (access.mask for access in READERS.who())))
    keys = (Access(0x20019, "sid", USERS, ()), Access(0x20000, "owner", admins, ()))
    gives("by a mapping", keys, lambda: _users("GR").who("KR", mapping=hudarin.KEYS))
    same, gain = READERS.compare(READERS), READERS.compare(_users("FW"))
    gives("nothing changed", (False, "same", ((), (), (), "")), lambda: (bool(same), str(same), same))
    shown = ("gained 0x116 by S-1-5-32-545", "lost 0x89 by S-1-5-32-545")
    gives("a change", (True, "\n".join(shown)), lambda: (bool(gain), str(gain)))
    restricted = _users("FA").compare(READERS, [(USERS, hudarin.DENY_ONLY)])
    gives("a group of the base", ((USERS, hudarin.DENY_ONLY),), lambda: restricted.lost[0].groups)
    for nobody, named in (("S-1-0-0", "D:"), ("S-1-0-1", "O:S-1-0-0D:"), ("S-1-0-2", "O:S-1-0-0D:(A;;;;;S-1-0-1)")):
        opened = Descriptor.from_sddl(named).compare(Descriptor.from_sddl("D:NO_ACCESS_CONTROL"))
        gives(f"a user whom {named} doesn't name", (True, nobody), lambda: _user(opened.gained[0]))
    opened = READERS.compare(Descriptor.from_sddl("O:BAG:SYD:P(A;;FR;;;BU)(A;OIIO;0x1;;;WD)"))
    shown = ("new objects: gained 0x1 by S-1-1-0", "inheritance: is protected, was not")
    gives("what is made in it", (True, "\n".join(shown), (), ()), lambda: (bool(opened), str(opened), *opened[:2]))
    gives("what that is", ("new objects", "gained"), lambda: (opened.below[0].of, opened.below[0].kind))
    gives("protection", "inheritance: is protected, was not", lambda: opened.inheritance)
    gives("a comparison as a tuple", True, lambda: Comparison((), ()) == ((), (), (), ""))
    wide, state = (0, 0, 0, 0x200000), [USERS, (USERS, 0x1)]
    asks: List[Tuple[str, Callable[..., Any]]] = [
        ("who", lambda **words: READERS.who("FR", **words)),
        ("lint", lambda **words: READERS.lint(**words)),
        ("compare", lambda **words: READERS.compare(READERS, **words)),
    ]
    for name, ask in asks:
        gives(f"{name}, a state", ("state", 0, None, 1, "states"), lambda: refused(lambda: ask(base=state)))
        gives(f"{name}, a mapping", ("mapping", 0, None, 0, "mapping"), lambda: refused(lambda: ask(mapping=wide)))
        raises(f"{name}, no groups", TypeError, lambda: ask(base=USERS))
        raises(f"{name}, texts for groups", TypeError, lambda: ask(base=["WD"]))
    raises("compare with a text", TypeError, lambda: READERS.compare("D:"))  # type: ignore[arg-type]


def findings() -> None:
    """What is doubtful in a descriptor, as values: the worked rows of docs/CHECK.md, and of tests/program."""
    twice = Descriptor.from_sddl("D:(A;;FR;;;BU)(A;;FR;;;BU)").lint()
    repeated = Finding("repeated", 2, "(A;;FR;;;BU)", 1, "entry 2 (A;;FR;;;BU) repeats entry 1")
    useless = Finding("no effect", 2, "(A;;FR;;;BU)", None, "entry 2 (A;;FR;;;BU) has no effect")
    gives("an entry twice", (repeated, useless), lambda: twice)
    gives("its lines", (repeated.text, useless.text), lambda: tuple(map(str, twice)))
    gives("nothing", (), READERS.lint)
    absent = (Finding("no DACL", None, None, None, "no DACL grants everything"),)
    gives("of no entry", absent, Descriptor.from_sddl("O:BA").lint)
    late = Descriptor.from_sddl("D:(A;;FR;;;BU)(D;;FW;;;BU)(A;;0x1;;;BU)").lint()[0]
    gives("out of order", ("out of order", 2, "(D;;FW;;;BU)", 1), lambda: late[:4])
    based = Descriptor.from_sddl("D:(D;;0x1;;;WD)(A;;0x3;;;BU)(A;;0x1;;;BG)")
    everyone = Sid.from_text("WD")
    gives("without a base", (), based.lint)
    gives("by a base", ["entry 3 (A;;0x1;;;BG) has no effect"], lambda: list(map(str, based.lint([everyone]))))
    # GENERIC_READ is KEY_READ of a key, and of a file it has other bits.
    mapped = Descriptor.from_sddl("D:(A;;KR;;;BU)(A;;GR;;;BU)")
    gives("by the mapping of files", (), mapped.lint)
    gives("by that of keys", [("no effect", 2)], lambda: [each[:2] for each in mapped.lint(mapping=hudarin.KEYS)])


def reviews() -> None:
    """What a publish would change, as values."""
    with Store(ROOT) as store:
        store.add_object("/a", Descriptor.from_sddl("O:BAG:SYD:"))
        store.publish().close()
        gives("nothing pending", [], lambda: list(store.review()))
        store.set_dacl("/", Descriptor.from_sddl("D:(A;OICI;0x3;;;BU)"))
        store.move("/a", "/b")
        gained, lost = "gained 0x2 by S-1-5-32-545", "lost 0x120088 by S-1-5-32-545"
        whose = ("", "new objects: ", "new containers: ")
        root = [f"/ {each}{change}" for each in whose for change in (gained, lost)]
        lines = [*root, "moved /a /b", "/b " + gained, "/b " + lost, "gone /a"]
        gives("lines", lines, lambda: "\n".join(map(str, store.review())).split("\n"))
        moved = Reviewed("moved", "/b", "/a", 0x2, 0x120088, (gained, lost))
        gives("nodes", [moved, Reviewed("gone", "/a", None, 0, 0, ())], lambda: list(store.review())[1:])
        walk = store.review()
        gives("the first node", "/", lambda: next(walk).path)
        store.add_object("/c", Descriptor.from_sddl("O:BAG:SYD:"))
        raises("a node after an edit", RuntimeError, lambda: next(walk))
        gives("one that is new", Reviewed("new", "/c", None, 0, 0, ()), lambda: list(store.review())[2])
        long = "S-1-5" + 15 * "-4294967295"
        store.set_dacl("/c", Descriptor.from_sddl(f"D:P(D;;0x1;;;{long})(A;;0x3;;;{long[:-1]}4)"))
        store.publish().close()
        store.set_dacl("/c", Descriptor.from_sddl(f"D:P(A;;0x3;;;{long[:-1]}4)"))
        shown = f"/c gained 0x1 by {long[:-1]}4 {long}=deny"
        gives("a long line", shown, lambda: str(next(store.review())))


def kept() -> None:
    """The example of docs/TREE.md: what a node keeps, as it is told, and in a tree that is made anew of that."""
    inherited, offer = (Descriptor.from_sddl(f"D:(A;ID;{each})") for each in ("FA;;;WD", "FR;;;BU"))
    own, folder = Descriptor.from_sddl("O:BAG:SYD:(A;;FA;;;BA)"), Descriptor.from_sddl("O:BAG:SYD:(A;OICI;FR;;;BU)")
    shown = "O:BAG:SYD:AI(A;;FA;;;BA)"
    with Store(folder) as store, Store(folder) as again:
        store.judge.add_object("/f", own, kept=inherited, offer=offer)
        gives("a judged one isn't made", 0, lambda: store.edits)
        store.add_object("/f", own, kept=inherited, offer=offer)
        store.add_container("/d", own)
        for number in range(40):
            store.add_object(f"/d/{number}", own)
        store.add_container("/e", own, kept=offer, offer=inherited)
        with store.publish() as view:
            gives("as it was elsewhere", shown + "(A;ID;FA;;;WD)", lambda: str(view.descriptor("/f")))
            gives("where the folder offers another", shown + "(A;OICIID;FR;;;BU)", lambda: str(view.descriptor("/e")))
            gives("what it keeps", Stored(inherited, offer), lambda: view.stored("/f"))
            gives("the last container", Stored(offer, inherited), lambda: view.own("/e").stored)
            gives("nothing", [None] * 3, lambda: [view.stored(path) for path in ("/", "/d", "/d/39")])
            gives("each by its path", list(view.nodes()), lambda: [view.own(path) for path in view])
            gives("no such node", ("no node", 0, None, 0, "path"), lambda: refused(lambda: view.stored("/d/40")))
            for node in list(view.nodes())[1:]:
                lists = {} if node.stored is None else node.stored._asdict()
                (again.add_container if node.is_container else again.add_object)(node.path, node.own, **lists)
            with again.publish() as other:
                gives("the same tree", list(view.nodes()), lambda: list(other.nodes()))
                gives("the same lists", *_shown(view, other))
        for each in (store, again):
            each.set_dacl("/", Descriptor.from_sddl("D:(A;OICI;FX;;;BU)"))
        with store.publish() as view, again.publish() as other:
            gives("as any other", shown + "(A;ID;FX;;;BU)", lambda: str(view.descriptor("/f")))
            gives("what it keeps all the same", Stored(inherited, offer), lambda: view.stored("/f"))
            gives("the same lists, changed", *_shown(view, other))
        for had, offered, argument in ((folder, offer, "kept"), (inherited, folder, "offer")):
            lists = {"kept": had, "offer": offered}
            wanted = ("parts", 0, None, 0, argument)
            gives(f"{argument} with an owner", wanted, lambda: refused(lambda: store.add_object("/x", own, **lists)))
            gives(f"{argument}, judged", wanted, lambda: refused(lambda: store.judge.add_container("/x", own, **lists)))
        raises("kept without an offer", TypeError, lambda: store.add_object("/x", own, kept=inherited))
        raises("an offer without kept", TypeError, lambda: store.add_object("/x", own, offer=inherited))
        raises("lists by position", TypeError, lambda: store.add_object("/x", own, inherited, offer))  # type: ignore[misc]


def _shown(one: View, other: View) -> Tuple[List[str], Callable[[], List[str]]]:
    return [str(one.descriptor(path)) for path in one], lambda: [str(other.descriptor(path)) for path in other]


def _users(rights: str) -> Descriptor:
    return Descriptor.from_sddl(f"O:BAG:SYD:(A;;{rights};;;BU)")


def _user(change: Change) -> Tuple[bool, str]:
    return change.is_everyone, change.user.full


def main() -> int:
    for test in (truth, copies, refusals, pool, again, parts, shapes, names, one_exception):
        test()
    for test in (whole, analysis, findings, reviews, kept):
        test()
    gives("all names of the module", [], lambda: [name for name in hudarin.__all__ if not hasattr(hudarin, name)])
    gives("the mapping of files", FILES, lambda: (mask("FR"), mask("FW"), mask("FX"), mask("FA")))
    return close()


if __name__ == "__main__":
    sys.exit(main())
