"""What the users of a file of accounts may do, by the groups that they really have: who, find and review. What a case
has to answer was worked out by hand, by [MS-DTYP] 2.5.3.2 and the lines of the file; and at random by a closure over
these lines and the check of tests/second."""

import json
import random

from rig import Case, needs_program  # (the modules of estate and tests/second are in its folders)
from by_hand import ACCOUNTS, ALICE, ALL, BOB, CAROL, DAVE, DOMAIN, EDITORS, EVE, INTERNS, LOGGED_ON, NAMES, STAFF, TREE
from by_hand import token_of
from people import People
from second import Entry, entry_text, sid_text, verdict

AU_READS = "0x1 by entry {} (A;;0x1;;;AU) as S-1-5-11"
#: A descriptor, the rights that are asked for, and what each user is granted, and by what.
CASES = [
    ("a group of a group", f"O:BAG:SYD:(A;;0x3;;;{STAFF})", "0x1",
     {"alice": (0x1, f"0x1 by entry 1 (A;;0x3;;;{STAFF}) as {STAFF}")}),
    ("in a cycle", f"O:BAG:SYD:(A;;0x1;;;{EDITORS})", "0x1",
     {"alice": (0x1, f"0x1 by entry 1 (A;;0x1;;;{EDITORS}) as {EDITORS}")}),
    ("a primary group, in a group of the machine", "O:BAG:SYD:(A;;FR;;;BU)", "0x3",
     {name: (0x1, "0x1 by entry 1 (A;;FR;;;BU) as S-1-5-32-545") for name in ("alice", "bob")}),
    ("a deny by a nested group", f"O:BAG:SYD:(D;;0x1;;;{STAFF})(A;;0x1;;;AU)", "0x1",
     {name: (0x1, AU_READS.format(2)) for name in LOGGED_ON if name != "alice"}),
    ("some of the rights, by two entries", f"O:BAG:SYD:(A;;0x1;;;{INTERNS})(A;;0x2;;;{BOB})(A;;0x4;;;{ALICE})", "0x7",
     {"alice": (0x5, f"0x1 by entry 1 (A;;0x1;;;{INTERNS}) as {INTERNS}, 0x4 by entry 3 (A;;0x4;;;{ALICE}) as {ALICE}"),
      "bob": (0x2, f"0x2 by entry 2 (A;;0x2;;;{BOB}) as {BOB}")}),
    ("a disabled user", f"O:{CAROL}G:SYD:(A;;FA;;;{CAROL})", "0x40001", {}),
    ("the owner", f"O:{DAVE}G:SYD:", "0x60001", {"dave": (0x60000, "0x60000 to the owner")}),
    ("a group that owns", f"O:{STAFF}G:SYD:", "0x20000", {"alice": (0x20000, "0x20000 to the owner")}),
    ("OWNER RIGHTS", f"O:{EVE}G:SYD:(A;;RC;;;OW)", "0x60000",
     {"eve": (0x20000, f"0x20000 by entry 1 (A;;RC;;;OW) as {EVE}")}),
    ("a user of nothing", f"O:BAG:SYD:(A;;0x1;;;{DAVE})", "0x1",
     {"dave": (0x1, f"0x1 by entry 1 (A;;0x1;;;{DAVE}) as {DAVE}")}),
    ("a guest, who is in Everyone", "O:BAG:SYD:(D;;0x1;;;AU)(A;;0x1;;;WD)", "0x1",
     {"guest": (0x1, "0x1 by entry 2 (A;;0x1;;;WD) as S-1-1-0")}),
    ("nobody", "O:BAG:SYD:(A;OICIIO;FA;;;WD)", "0x1", {}),
    ("a null DACL", "O:BAG:SYD:NO_ACCESS_CONTROL", "0x2", {name: (0x2, "0x2 without a list") for name in ALL}),
    ("SYSTEM is an administrator", "O:SYG:SYD:(A;;GW;;;BA)", "0x3",
     {"system": (0x2, "0x2 by entry 1 (A;;GW;;;BA) as S-1-5-32-544")}),
    ("all rights", f"O:BAG:SYD:(D;;0x2;;;{STAFF})(A;;0x1301bf;;;{INTERNS})", "0x02000000",
     {"alice": (0x1301BD, f"0x1301bd by entry 2 (A;;0x1301bf;;;{INTERNS}) as {INTERNS}"),
      "system": (0x60000, "0x60000 to the owner")}),
]  # fmt: skip

def script_of(text: str) -> str:
    return f"open 1 {text}\n# rows\t0\npublish\n"


def row_of(path: str, rights: int, name: str, last: str) -> str:
    return "\t".join(["person", path, f"{rights:#x}", *NAMES[name], last])


@needs_program
class Asked(Case):
    def setUp(self) -> None:
        super().setUp()
        self.write("accounts", ACCOUNTS)
        self.write("tree", TREE)

    def who(self, text: str, asked: str) -> list[str]:
        self.write("script", script_of(text))
        rows = self.runs(0, "who", "script", "/", asked, "--accounts", "accounts")
        # (what it answers without a file of accounts stands before)
        without = self.runs(0, "who", "script", "/", asked)
        self.assertEqual(rows[: len(without)], without)
        return rows[len(without) :]

    def test_who(self) -> None:
        for what, text, asked, granted in CASES:
            with self.subTest(what):
                rows = [row_of("/", rights, name, by) for name, (rights, by) in granted.items()]
                self.assertEqual(self.who(text, asked), rows)

    def test_who_as_objects_and_with_names(self) -> None:
        """A user's name is never one for a SID, however it is spelled."""
        self.write("accounts", f"user {ALICE} {BOB}\nmember {STAFF} {ALICE}\n")
        self.write("names", f"{BOB} bob\n{STAFF} staff\n")
        self.write("script", script_of(f"O:BAG:SYD:(A;;0x1;;;{STAFF})"))
        words = ("script", "/", "0x1", "--accounts", "accounts", "--names", "names", "--json")
        *_, person, end = map(json.loads, self.runs(0, "who", *words, says="1 line, 1 user of the accounts"))
        wanted = {"what": "person", "path": "/", "rights": "0x1", "name": BOB, "sid": ALICE}
        self.assertEqual(person, wanted | {"by": '0x1 by entry 1 (A;;0x1;;;"staff") as "staff"'})
        self.assertEqual(end, {"what": "answered", "lines": 1, "users": 1, "of": 1, "answered": 1, "left_out": 0})

    def test_find(self) -> None:
        """The user's groups come by themselves, and nothing is assumed."""
        for user, asked, found in (
            (r"EXAMPLE\alice", "0x1", ["/", "/a%20b", "/d"]),
            (r"example\ALICE", "0x1", ["/", "/a%20b", "/d"]),
            ("alice@example.test", "0x1", ["/", "/a%20b", "/d"]),
            ("alice", "0x2", ["/d"]),
            (ALICE, "0x40000", ["/d"]),
            (r"EXAMPLE\bob", "0x1", ["/", "/a%20b", "/a%20b/c"]),
            (r"OTHER\bob", "0x1", []),
            ("dave", "0x40000", ["/a%20b/c"]),
            ("SYSTEM", "0x2", ["/", "/a%20b", "/a%20b/c"]),
        ):
            with self.subTest(user):
                rows = self.runs(0, "find", "tree", "/", user, asked, "--accounts", "accounts")
                self.assertEqual(rows, [f"found\t{path}" for path in found])
        ask = ("find", "tree", "/d", r"EXAMPLE\bob", "WO", "+take", "--accounts", "accounts")
        self.assertEqual(self.runs(0, *ask), ["found\t/d"])
        # of a user for denies alone the groups count as they do
        self.write("script", script_of(f"O:BAG:SYD:(A;;0x1;;;{ALICE})(A;;0x2;;;{STAFF})"))
        for asked, found in (("0x1", []), ("0x2", ["found\t/"])):
            ask = ("find", "script", "/", "alice", asked, "user=deny", "--accounts", "accounts")
            self.assertEqual(self.runs(0, *ask), found)

    def test_refusals(self) -> None:
        """Each has a name, prints no row, and has the status 2."""
        self.write("lost", f"user {ALICE} alice\nincomplete 1 skipped, 0 unknown\n")
        self.write("bad", f"# x\nuser {ALICE} al\tice\n")
        self.write("bytes", b"# x\nuser S-1-5-21-1-2-3-1 \xff\n")
        find, who = ("find", "tree", "/"), ("who", "tree", "/", "0x1")
        accounts = ("--accounts", "accounts")
        for words, says in (
            ((*find, "zoe", "0x1", *accounts), "zoe: no account of accounts has this name"),
            ((*find, "", "0x1", *accounts), "no account of accounts has this name"),
            ((*find, "bob", "0x1", *accounts), "bob: two accounts of accounts may be meant: add the domain"),
            ((*find, "staff", "0x1", *accounts), "staff: it is no user of accounts"),
            ((*find, f"{DOMAIN}-9999", "0x1", *accounts), f"{DOMAIN}-9999: it is no user of accounts"),
            ((*find, "carol", "0x1", *accounts), "carol: its account is disabled by accounts"),
            ((*find, CAROL, "0x1", *accounts), f"{CAROL}: its account is disabled by accounts"),
            ((*find, "alice", "0x1", "BU", *accounts), "BU: by --accounts each user has the groups of the file"),
            ((*find, "alice", "0x1", f"{STAFF}=deny", *accounts), f"{STAFF}=deny: by --accounts each user has"),
            ((*find, "alice", "0x1", "BU=off", *accounts), "'sdstore --accounts' takes others"),
            ((*find, "alice", "XX", *accounts), "sdstore find: fault mask"),
            ((*find, "alice", "0x1", "--only-given", *accounts), "--only-given: by --accounts each user has"),
            ((*who, "--only-given", *accounts), "--only-given: by --accounts each user has"),
            ((*who, "AU", *accounts), "AU: by --accounts each user has the groups of the file"),
            ((*who, "user=deny", *accounts), "user=deny: by --accounts each user has the groups of the file"),
            (("review", "tree", "/", "AU", *accounts), "AU: by --accounts each user has the groups of the file"),
            ((*who, "--accounts", "lost"), "lost: line 2: it says that accounts are missing"),
            ((*who, "--accounts", "bad"), "bad: line 2: the name is missing, or has a control character"),
            ((*who, "--accounts", "bytes"), "bytes: line 2: it isn't UTF-8"),
            ((*who, "--accounts", "tree"), "tree: line 1: it begins with none of user, group, member"),
            (("report", "tree", "page", "--matrix", "csv"), "--matrix: it is about the users of --accounts FILE"),
            (("report", "tree", "page", *accounts, "--matrix", "page"), "FILE and that of --matrix are two files"),
            (("report", "tree", "page", *accounts, "--matrix", "accounts"), "none that is read"),
            (("report", "tree", "accounts", *accounts), "none that is read"),
        ):
            with self.subTest(words):
                self.assertEqual(self.runs(2, *words, says=says), [])
        self.assertEqual(self.runs(3, *who, "--accounts", "none", says="none: No such file or directory"), [])
        files = {path.name for path in self.room.iterdir()}
        self.assertEqual(files, {"accounts", "bad", "bytes", "lost", "tree"})

    def test_review(self) -> None:
        """After the rows as they are: all that a user is granted before and after, and not of nodes that stay."""
        change = f"dacl /d D:P(A;;0x1200a9;;;{STAFF})(A;;0x2;;;{EVE})\nowner /a%20b/c {EVE}\npublish\n"
        self.write("changed", TREE + change)
        without = self.runs(1, "review", "changed")
        rows = self.runs(1, "review", "changed", "--accounts", "accounts", says=", 3 users of the accounts")
        self.assertEqual(rows[: len(without)], without)
        wanted = [
            row_of("/a%20b/c", 0x60000, "dave", "lost"),
            row_of("/a%20b/c", 0x60000, "eve", "gained"),
            row_of("/d", 0x1F01FF & ~0x1200A9, "alice", "lost"),
            row_of("/d", 0x2, "eve", "gained"),
        ]
        self.assertEqual(rows[len(without) :], wanted)
        below = self.runs(1, "review", "changed", "/d", "--accounts", "accounts")
        self.assertEqual(below[-2:], wanted[2:])
        self.write("same", f"{TREE}dacl /d D:P(A;;0x1;;;{INTERNS})(A;;FA;;;{INTERNS})\npublish\n")
        self.assertEqual(self.runs(0, "review", "same", "--accounts", "accounts", says=", 0 users of the accounts"), [])


#: Seeds, and how many users, groups and descriptors each has.
SEEDS, MANY = range(12), 24
OWNER_RIGHTS = (3, (4,))


class Second(Case):
    """At random: descriptors that name a few of many groups and users, as People and as the second implementation."""

    def test_each_user_of_each_descriptor(self) -> None:
        for seed in SEEDS:
            with self.subTest(seed):
                self.compare(random.Random(seed))

    def compare(self, pick: random.Random) -> None:
        users = [(5, (21, 1, 2, 3, number)) for number in range(1000, 1000 + MANY)]
        groups = [(5, (21, 1, 2, 3, number)) for number in range(2000, 2000 + MANY)]
        pairs = {(pick.choice(groups), pick.choice(users + groups)) for _ in range(3 * MANY)}
        lines = [f"user {sid_text(user)} u{at}" for at, user in enumerate(users)]
        lines += [f"member {sid_text(group)} {sid_text(member)}" for group, member in pairs]
        name = self.write("accounts", "\n".join(lines))
        with People(str(name)) as people:
            self.assertEqual([user.sid for user in people.users[:MANY]], list(map(sid_text, users)))
            for _ in range(MANY):
                owner, dacl = pick.choice(users + groups), self.entries(pick, users, groups)
                wanted = [verdict(owner, dacl, token_of(user, pairs), 0x02000000) for user in users]
                text = f"O:{sid_text(owner)}G:SYD:{''.join(map(entry_text, dacl))}"
                self.assertEqual(self.said(people, text), wanted, text)
                wanted = [verdict(owner, dacl, token_of(user, pairs), 0x2) for user in users]
                granted = people.granted(text, 0x2)
                writers = [at for at, each in enumerate(wanted) if each == "granted 0x2"]
                self.assertEqual([at for at in granted if at < MANY], writers, text)

    @staticmethod
    def entries(pick: random.Random, users: list[object], groups: list[object]) -> list[Entry]:
        trustees = [*pick.sample(groups, 3), *pick.sample(users, 2), (1, (0,)), (5, (11,)), OWNER_RIGHTS]
        masks = pick.choices((0x1, 0x2, 0x3, 0x60000), k=pick.randrange(6))
        return [Entry(pick.choice("AAD"), 0, bits, pick.choice(trustees)) for bits in masks]

    @staticmethod
    def said(people: People, text: str) -> list[str]:
        """What People says of the users, as the second implementation says it."""
        rights = people.rights(text)
        found = [next(bits for bits, users in rights.items() if users >> at & 1) for at in range(MANY)]
        return [f"granted {bits:#x}" if bits else "denied 0x2000000" for bits in found]
