"""Descriptors that are built, what is read from their bytes beside what the library reads there, SIDs, paths, and
questions about many descriptors. The last line is 'N passed, M failed'.

    values.py [SEED [COUNT]]

The module is that of bindings/python, or where there is none the one that Python finds.
"""

import ctypes
import random
import struct
import sys
from pathlib import Path, PurePosixPath, PureWindowsPath
from typing import Any, Callable, List, Optional, Tuple, Union

TOP = Path(__file__).resolve().parents[2]
sys.path[:0] = [str(TOP / "tests"), str(TOP / "bindings/python")]

import hudarin  # noqa: E402
from hudarin import (  # noqa: E402
    FLAGS,
    Closed,
    Descriptor,
    Entry,
    KeptDescriptor,
    Refused,
    Sid,
    Store,
    Token,
    View,
    WholeDescriptor,
    check_all,
    who_all,
)
from hudarin._library import _library  # noqa: E402
from tally import close, gives, holds, raises  # noqa: E402

USER = Sid.from_text("S-1-5-21-1-2-3-1001")
USERS = Sid.from_text("BU")
READERS = Descriptor.from_sddl("O:BAG:SYD:(A;;FR;;;BU)")
READERS_WITHOUT = Descriptor.from_sddl("D:(A;;FR;;;BU)")
ROOT = Descriptor.from_sddl("O:SYG:SYD:(A;OICI;FR;;;BU)")


def refused(call: Callable[[], Any]) -> Optional[Tuple[Any, ...]]:
    """What a refusal says."""
    try:
        call()
    except Refused as e:
        return e.status, e.fault, e.name, e.place, e.argument
    return None


def closed(call: Callable[[], Any]) -> Optional[Tuple[Any, ...]]:
    """What the refusal of something closed says, if it names that."""
    try:
        call()
    except Closed as e:
        return refused(call) if str(e) == f"{e.argument}: it is closed" else None
    return None


class _Written(ctypes.Structure):
    _fields_ = [
        *((name, ctypes.c_uint32) for name in ("status", "fault")),
        *((name, ctypes.c_uint64) for name in ("place", "length")),
    ]


class _Dacl(ctypes.Structure):
    _fields_ = [(name, ctypes.c_uint32) for name in ("status", "kind", "control")] + [("entries", ctypes.c_uint64)]


class _Entry(ctypes.Structure):
    _fields_ = [("written", _Written), *((name, ctypes.c_uint32) for name in ("kind", "flags", "mask"))]


class Library:
    """What the library reads of a kept descriptor, which the package reads from the bytes."""

    def __init__(self, kept: KeptDescriptor) -> None:
        self._kept, self._room = ctypes.byref(kept._kept), ctypes.create_string_buffer(256)

    def _call(self, name: str, answers: Any, *index: int) -> Any:
        call = getattr(ctypes.CDLL(_library._name), "hudarin_descriptor_" + name)
        call.restype = answers
        if answers is _Dacl:
            return call(self._kept)
        numbers = map(ctypes.c_uint64, index)
        return call(self._kept, *numbers, self._room, ctypes.c_size_t(len(self._room)))

    def _sid(self, written: _Written) -> Optional[Sid]:
        return None if written.status else Sid(self._room.raw[: written.length])

    def _entry(self, index: int) -> Tuple[Entry, Optional[Sid]]:
        answer = self._call("entry", _Entry, index)
        sid = self._sid(answer.written) or USER
        subject = self._sid(self._call("subject", _Written, index))
        return Entry("allow" if answer.kind == 1 else "deny", answer.flags, answer.mask, sid), subject

    def parts(self) -> Tuple[Any, ...]:
        dacl = self._call("dacl", _Dacl)
        kind = {1: "absent", 2: "null", 3: "list"}[dacl.kind]
        owner, group = (self._sid(self._call(name, _Written)) for name in ("owner", "group"))
        return owner, group, kind, dacl.control & 0x1000 != 0, [self._entry(index) for index in range(dacl.entries)]


def read_parts(one: Descriptor) -> Tuple[Any, ...]:
    entries = one.entries if one.dacl_kind == "list" else ()
    return one.owner, one.group, one.dacl_kind, one.is_protected, [(each, one.subject(each)) for each in entries]


class Drawn:
    """Bytes of descriptors with parts in any order, with gaps and with what is ignored, of which some are broken."""

    def __init__(self, seed: int) -> None:
        self._chance = random.Random(seed)

    def _sid(self) -> bytes:
        texts = ("BA", "BU", "OW", "WD", "CO", "S-1-5-21-1-2-3-1001", "S-1-5" + 15 * "-4294967295")
        return bytes(Sid.from_text(self._chance.choice(texts)))

    def _entry(self) -> bytes:
        rest = self._sid() + bytes(self._chance.choice((0, 0, 0, 4, 8)))
        kind, flags = self._chance.randrange(2), self._chance.choice((0, 3, 0x10, 0x20, 0xFF))
        return struct.pack("<BBHI", kind, flags, 8 + len(rest), self._chance.getrandbits(32)) + rest

    def _list(self) -> bytes:
        entries = [self._entry() for _ in range(self._chance.randrange(4))]
        body = b"".join(entries) + bytes(self._chance.choice((0, 0, 5)))
        return struct.pack("<BBHHH", self._chance.choice((2, 4)), 7, 8 + len(body), len(entries), 9) + body

    def descriptor(self) -> bytes:
        named = [(4, self._sid()), (8, self._sid()), (16, self._list())]
        self._chance.shuffle(named)
        control = 0x8000 | self._chance.choice((4, 4, 4, 0)) | self._chance.getrandbits(16) & ~0x14
        form = bytearray(struct.pack("<BBHIIII", 1, 7, control, 0, 0, 0, 0))
        for at, part in named:
            if self._chance.random() < 0.85:
                form += bytes(self._chance.choice((0, 0, 3)))
                form[at : at + 4] = struct.pack("<I", len(form))
                form += part
        for _ in range(self._chance.choice((0, 0, 0, 1, 2))):
            form[self._chance.randrange(len(form))] = self._chance.choice((0, 1, 4, 0xFF))
        return bytes(form)


def beside() -> None:
    """The parts are those that the library reads from the same bytes."""
    given = list(map(int, sys.argv[1:]))
    seed, count = given + [1, 3000][len(given) :]
    drawn, read, kinds = Drawn(seed), 0, set()
    for number in range(count):
        form = drawn.descriptor()
        if refused(lambda: Descriptor(form)):
            continue
        one, read = Descriptor(form), read + 1
        with KeptDescriptor(one) as kept:
            wanted = Library(kept).parts()
        got = read_parts(one)
        kinds.add((one.dacl_kind, one.owner is None, one.is_protected))
        if wanted != got:
            holds(f"seed {seed}, number {number}", False, f"{form.hex()}: {got}, not {wanted}")
        if refused(lambda: WholeDescriptor(form)) is None:
            whole = WholeDescriptor(form)
            gives(f"whole, number {number}", got[:3], lambda: (whole.owner, whole.group, whole.dacl_kind))
    holds("all kinds of descriptors are read", len(kinds) == 10 and 2 * read > count, f"{read} of {count}, {kinds}")


def built() -> None:
    """A descriptor that is built has the bytes of the one that is parsed."""
    flagged = "G:SYD:P(D;OICINPIOIDSAFA;0x30000;;;WD)(A;;0x0;;;BG)"
    for text in ("D:", "D:P", "O:BAD:(A;;FR;;;BU)", flagged, str(READERS)):
        one = Descriptor.from_sddl(text)
        gives(text, one, lambda: Descriptor.of(iter(one.entries), one.owner, one.group, one.is_protected))
        gives(f"the texts of {text}", text[text.index("D:") :].lstrip("D:P"), lambda: "".join(map(str, one.entries)))
    reads, writes = Entry.allow("FR", USERS, "OICI"), Entry.deny(0x2, USER)
    gives("an allow", ("allow", 0x3, 0x120089, USERS), lambda: tuple(reads))
    gives("a deny", ("deny", 0, 0x2, USER), lambda: tuple(writes))
    gives("a list", "D:(D;;0x2;;;S-1-5-21-1-2-3-1001)(A;OICI;FR;;;BU)", lambda: str(Descriptor.of([writes, reads])))
    gives("flags by number, by name in any case", reads, lambda: Entry.allow("FR", USERS, FLAGS["OI"] | FLAGS["CI"]))
    gives("flags in any case and order, once more", reads, lambda: Entry.allow(0x120089, USERS, "ciOIci"))
    everyone = Entry.allow("FA", Sid.from_text("WD"))
    longest = Descriptor.from_sddl("D:" + 3276 * "(A;;FA;;;WD)")
    gives("the longest list, built", longest, lambda: Descriptor.of(3276 * [everyone]))
    raises("an entry too many", ValueError, lambda: Descriptor.of(3277 * [everyone]))


def not_built() -> None:
    """What no entry and no descriptor can have is no argument."""
    reads = Entry.allow("FR", USERS, "OICI")
    wrong: List[Tuple[Any, Callable[[], Any]]] = [
        (TypeError, lambda: Entry.allow("FR", "BU")),  # type: ignore[arg-type]
        (TypeError, lambda: Entry.allow(1.0, USERS)),  # type: ignore[arg-type]
        (ValueError, lambda: Entry.allow(1 << 32, USERS)),
        (Refused, lambda: Entry.deny("alice", USERS)),
        (ValueError, lambda: Entry.allow("FR", USERS, "OIC")),
        (ValueError, lambda: Entry.allow("FR", USERS, "OI CI")),
        (ValueError, lambda: Entry.allow("FR", USERS, 0x20)),
        (ValueError, lambda: Entry.allow("FR", USERS, 0x100)),
        (ValueError, lambda: Entry.allow("FR", USERS, -1)),
        (TypeError, lambda: Entry.allow("FR", USERS, True)),
        (TypeError, lambda: Entry.allow("FR", USERS, None)),  # type: ignore[arg-type]
        (TypeError, lambda: Descriptor.of(None)),  # type: ignore[arg-type]
        (TypeError, lambda: Descriptor.of(["(A;;FR;;;BU)"])),  # type: ignore[list-item]
        (TypeError, lambda: Descriptor.of([tuple(reads)])),  # type: ignore[list-item]
        (TypeError, lambda: Descriptor.of(WholeDescriptor(READERS).dacl)),  # type: ignore[arg-type]
        (TypeError, lambda: Descriptor.of([], "BA")),  # type: ignore[arg-type]
        (TypeError, lambda: Descriptor.of([], None, bytes(USER))),  # type: ignore[arg-type]
        (TypeError, lambda: Descriptor.of([], is_protected=1)),  # type: ignore[arg-type]
        (ValueError, lambda: Descriptor.of([reads._replace(kind="Allow")])),
        (ValueError, lambda: Descriptor.of([reads._replace(flags=0x120)])),
        (ValueError, lambda: Descriptor.of([reads._replace(mask=-1)])),
        (TypeError, lambda: reads._replace(sid="BU").text),  # type: ignore[arg-type]
    ]
    for number, (kind, call) in enumerate(wrong):
        raises(f"wrong part {number}", kind, call)


def sids() -> None:
    """SIDs are ordered by their numbers, and have a relative identifier, a domain and a form."""
    texts = ["S-1-0-0", "S-1-1-0", "S-1-5-2", "S-1-5-18", "S-1-5-21-1-2-3", "S-1-5-21-1-2-3-1001", "S-1-5-21-1-2-4-5"]
    texts += ["S-1-5-32-544", "S-1-5-100", "S-1-15-2-1", "S-1-0x000100000000-7"]
    ordered = [Sid.from_text(text) for text in texts]
    gives("their order", ordered, lambda: sorted(reversed(ordered)))
    one, other = ordered[:2]
    gives("one before another", 4 * [True], lambda: [one < other, one <= other, other > one, other >= one])
    gives("one beside itself", [False, True, True, False], lambda: [one < one, one <= one, one >= one, one > one])
    for wrong in ("S-1-1-0", bytes(one), 5, None, READERS):
        raises(f"{wrong!r} for a SID", TypeError, lambda: one < wrong)  # type: ignore[operator]
    gives("relative identifiers", [0, 1001, 544, 7], lambda: [ordered[at].rid for at in (1, 5, 7, 10)])
    domains = [str(sid.domain) for sid in ordered if sid.domain is not None]
    gives("domains", ["S-1-5-21-1-2-3", "S-1-5-21-1-2-4"], lambda: domains)
    gives("a domain, as such", Sid.from_text("S-1-5-21-1-2-3-512"), lambda: Sid.from_text("DA", USER.domain))
    for text in ("BA", "S-1-5-22-1-2-3-4", "S-1-4-21-1-2-3-4", "S-1-5-21-1-2-3", "S-1-5-21-1-2-3-4-5"):
        gives(f"no domain of {text}", None, lambda: Sid.from_text(text).domain)
    gives("in a column", "[  BU|BU  |S-1-5-32-545]", lambda: f"[{USERS:>4}|{USERS:4}|{USERS.full}]")
    gives("in a text", "BU S-1-5-21-1-2-3-1001", lambda: "{} {}".format(USERS, USER))
    raises("as a number", ValueError, lambda: f"{USERS:04x}")


def paths() -> None:
    """A view is an iterable of paths, and a path is a text or a PurePath."""
    with Token(USER, [USERS]) as token, Store(ROOT) as store:
        gives("the root alone", ["/"], lambda: with_view(store, list))
        store.add_container(PurePosixPath("/a"), READERS)
        for number in range(20):
            store.add_object(PurePosixPath("/a") / f"{number:02}", READERS)
        store.move(PurePosixPath("/a/00"), PurePosixPath("/z"))
        with store.publish() as view:
            wanted = ["/", "/a", *(f"/a/{number:02}" for number in range(1, 20)), "/z"]
            gives("paths", wanted, lambda: list(view))
            raises("their number, which was that of the edits", TypeError, lambda: len(view))  # type: ignore[arg-type]
            gives("two at once", list(zip(wanted, wanted)), lambda: list(zip(view, view)))
            gives("each is in it", True, lambda: all(path in view and PurePosixPath(path) in view for path in view))
            for other in ("/b", "/a/00", PurePosixPath("/a/1")):
                gives(f"{other!r} isn't", False, lambda: other in view)
            for wrong in ("a", "", PurePosixPath("a"), PureWindowsPath("C:/a"), "/\udcff"):
                fault = "utf8" if wrong == "/\udcff" else "path"
                gives(f"{wrong!r}, no path", (fault, "path"), lambda: (refused(lambda: wrong in view) or ())[::4])
            for value in (b"/a", 5, None, USER):
                raises(f"{value!r} in a view", TypeError, lambda: value in view)
            path, granted = PurePosixPath("/a/01"), ["granted 0x1", None]
            gives("a check", "granted 0x1", lambda: str(view.check(path, token, 0x1)))
            gives("checks", granted, lambda: [each and str(each) for each in view.check_all([path, "/b"], token, 0x1)])
            gives("of all paths", 22 * ["granted 0x1"], lambda: list(map(str, view.check_all(view, token, 0x1))))
            raises("checks of one path", TypeError, lambda: view.check_all(path, token, 0x1))  # type: ignore[arg-type]
            gives("a node", (view.own("/a/01"), "/a/01"), lambda: (view.own(path), view.own(path).path))
            gives("of Windows", "granted 0x1", lambda: str(view.check(PureWindowsPath("\\a\\01"), token, 0x1)))
            view.close()
            for call in (lambda: next(iter(view)), lambda: "/" in view, lambda: view.edits):
                gives("a closed view", ("handle", 0, None, 0, "view"), lambda: closed(call))


def with_view(store: Store, call: Callable[[View], Any]) -> Any:
    with store.publish() as view:
        return call(view)


def many() -> None:
    """The answers about many descriptors are those about each."""
    every = [READERS, ROOT, READERS_WITHOUT, Descriptor.from_sddl("D:NO_ACCESS_CONTROL"), Descriptor.from_sddl("O:BA")]
    every += [Descriptor.from_sddl(f"O:BAG:SYD:(D;;0x{number:x};;;BU)(A;;FA;;;BU)") for number in range(1, 40)] + every
    with Token(USER, [USERS]) as token:
        asks: List[Union[int, str]] = [0x1, "FR", 0x02000000, 0]
        for asked in asks:
            wanted = [each.check_by(token, asked) for each in every]
            gives(f"{asked!r} of all", wanted, lambda: check_all(iter(every), token, asked))
        mapped = [each.check_by(token, "GR", hudarin.KEYS) for each in every]
        gives("by a mapping", mapped, lambda: check_all(every, token, "GR", hudarin.KEYS))
        gives("of none", [], lambda: check_all([], token, 0x1))
        raises("of bytes", TypeError, lambda: check_all([bytes(READERS)], token, 0x1))  # type: ignore[list-item]
        raises("of one", TypeError, lambda: check_all(READERS, token, 0x1))  # type: ignore[arg-type]
        raises("by a user", TypeError, lambda: check_all(every, USER, 0x1))  # type: ignore[arg-type]
        raises("of no mask", ValueError, lambda: check_all([], token, -1))
        wide, fault = (0, 0, 0, 0x200000), ("mapping", 0, None, 0, "mapping")
        gives("by a wide mapping", fault, lambda: refused(lambda: check_all(every, token, 1, wide)))
    gives("by a closed token", ("handle", 0, None, 0, "token"), lambda: closed(lambda: check_all(every, token, 0x1)))
    gives("who of all", [each.who("FR") for each in every], lambda: who_all(iter(every), "FR"))
    based = [each.who(0x1, [USERS], hudarin.KEYS) for each in every]
    gives("who, of a base", based, lambda: who_all(every, 0x1, iter([USERS]), iter(hudarin.KEYS)))
    gives("who of none", [], lambda: who_all([]))
    raises("who of a text", TypeError, lambda: who_all(["D:"]))  # type: ignore[list-item]
    raises("who of no right", ValueError, lambda: who_all(every, 0))


def main() -> int:
    for test in (built, not_built, beside, sids, paths, many):
        test()
    return close()


if __name__ == "__main__":
    sys.exit(main())
