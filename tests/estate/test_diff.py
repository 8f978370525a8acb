"""What changed between two scripts, and who gains and loses by it. The expected rows were worked out by hand, by
docs/CHECK.md and docs/ANALYSIS.md; at random each gain and loss is checked by the rules of tests/second, for all tokens
that differ by the SIDs that are named."""

import json
import random
from itertools import product

from rig import Case, estate
from by_hand import ACCOUNTS, NAMES, STAFF, TREE
from by_hand import EVE as EVE_SID
from second import ALIASES, Entry, Token, entry_text, sid_text, verdict
from test_people import row_of

X = "S-1-5-21-1-2-3-1200"
ROOT = "open 1 O:BAG:SYD:P(A;OICI;FA;;;BA)"
BA, BU, AU, WD = "S-1-5-32-544", "S-1-5-32-545", "S-1-5-11", "S-1-1-0"
FULL, MODIFY = "0x1f01ff\tfull control", "0x1301bf\tmodify"
CLOSED = "O:BAG:SYD:P(A;;FA;;;BA)"
FOLDER, FILE = "O:BAG:SYD:(A;OICIID;FA;;;BA)", "O:BAG:SYD:(A;ID;FA;;;BA)"
OTHERS = "entries of other types are kept beside the tree: DACL not plain 2 ConditionalAce at 0"


def file(path: str, text: str = FILE) -> str:
    return f"import object {path} {text}"


def folder(path: str, text: str = FOLDER) -> str:
    return f"import container {path} {text}"


class Diffs(Case):
    def put(self, name: str, *lines: str, root: str = ROOT) -> None:
        """A script: the root, nodes and comments of gaps, whose count is added."""
        gaps = sum(line.startswith("# ") for line in lines)
        self.write(name, "\n".join([root, *lines, f"# rows\t{gaps}", "publish", ""]))

    def diff(self, status: int, *words: str, says: str = "") -> list[str]:
        return self.runs(status, "diff", "before", "after", *words, says=says)


class Nodes(Diffs):
    def test_each_part(self) -> None:
        changed = "changed\t/n\t"
        for what, before, after, rows in (
            ("owner", file("/n", "O:BAG:SYD:P"), file("/n", "O:BUG:SYD:P"),
             [f"{changed}owner\t{BA}\t{BU}", f"gained\t/n\t0x60000\t{BU}", f"lost\t/n\t0x60000\t{BA}"]),
            ("group", file("/n"), file("/n", FILE.replace("SY", "BU")), [f"{changed}group\tS-1-5-18\t{BU}"]),
            ("kind", file("/n", CLOSED), folder("/n", CLOSED), [f"{changed}kind\tfile\tfolder"]),
            ("protected", file("/n", CLOSED), file("/n", "O:BAG:SYD:(A;;FA;;;BA)(A;ID;FA;;;BA)"),
             [f"{changed}list\tprotected\tinheriting", f"{changed}entry\tnone\t(A;ID;FA;;;BA)"]),
            ("null", file("/n", "O:BAG:SYD:P"), file("/n", "O:BAG:SYD:NO_ACCESS_CONTROL"),
             [f"{changed}list\tprotected\tnull", "gained\t/n\t0x1fffff\teveryone"]),
            ("added", file("/n", CLOSED), file("/n", f"{CLOSED}(A;;0x2;;;AU)"),
             [f"{changed}entry\tnone\t(A;;0x2;;;AU)", f"gained\t/n\t0x2\t{AU}"]),
            ("removed", file("/n", f"{CLOSED}(A;;0x2;;;AU)"), file("/n", CLOSED),
             [f"{changed}entry\t(A;;0x2;;;AU)\tnone", f"lost\t/n\t0x2\t{AU}"]),
            ("rights", file("/n", f"{CLOSED}(A;;FR;;;BU)"), file("/n", f"{CLOSED}(A;;0x1;;;BU)"),
             [f"{changed}entry\t(A;;FR;;;BU)\t(A;;0x1;;;BU)", f"lost\t/n\t0x120088\t{BU}"]),
            ("flags", folder("/n", f"{CLOSED}(A;OI;FR;;;BA)"), folder("/n", f"{CLOSED}(A;CI;FR;;;BA)"),
             [f"{changed}entry\t(A;OI;FR;;;BA)\tnone", f"{changed}entry\tnone\t(A;CI;FR;;;BA)",
              f"gained\t/n\t0x120089\t{BA}\tnew containers", f"lost\t/n\t0x120089\t{BA}\tnew objects"]),
            ("once less", file("/n", f"{CLOSED}(A;;FA;;;BA)"), file("/n", CLOSED),
             [f"{changed}entry\t(A;;FA;;;BA)\tnone"]),
            ("order", file("/n", "O:BAG:SYD:P(A;;0x1;;;BU)(A;;0x2;;;AU)"),
             file("/n", "O:BAG:SYD:P(A;;0x2;;;AU)(A;;0x1;;;BU)"),
             [f"{changed}order\t(A;;0x1;;;BU)(A;;0x2;;;AU)\t(A;;0x2;;;AU)(A;;0x1;;;BU)"]),
            ("nothing", file("/n"), file("/n"), []),
            ("the text alone", file("/n", "O:BAG:SYD:AI(A;ID;FA;;;BA)"), file("/n"), []),
        ):  # fmt: skip
            with self.subTest(what):
                self.put("before", before)
                self.put("after", after)
                said = self.diff(int(any(row.startswith("gained\t") for row in rows)))
                self.assertEqual([row for row in said if not row.startswith("total\t")], rows)

    def test_new_and_gone(self) -> None:
        """Beside a list without an owner and without an entry; a node that was renamed is both."""
        self.put("before", file("/old", CLOSED))
        self.put("after", file("/new", CLOSED))
        says = "1 added, 1 gone, 0 changed; rights gained on 1, lost on 1; of 3 nodes 3 answered, none left out"
        rows = [
            f"total\tgained\t{FULL}\t1\t/new\t{BA}",
            f"total\tlost\t{FULL}\t1\t/old\t{BA}",
            f"added\t/new\tfile\t{CLOSED}",
            f"gained\t/new\t0x1f01ff\t{BA}",
            f"gone\t/old\tfile\t{CLOSED}",
            f"lost\t/old\t0x1f01ff\t{BA}",
        ]
        self.assertEqual(self.diff(1, says=says), rows)
        self.put("after")
        self.assertEqual(self.diff(0, says="0 added, 1 gone"), [rows[1], *rows[4:]])
        # (nobody is granted anything, not even an owner)
        none = "O:BAG:SYD:P(D;;FA;;;WD)(A;;0x0;;;OW)"
        self.put("after", file("/old", CLOSED), folder("/none", none))
        self.assertEqual(self.diff(0, says="1 added"), [f"added\t/none\tfolder\t{none}"])

    def test_what_is_made_in_a_folder_later(self) -> None:
        """Where the folder itself isn't changed alike: else it is said once."""
        self.put("before", folder("/n", "O:BAG:SYD:P(A;OICI;FA;;;BA)"))
        self.put("after", folder("/n", "O:BAG:SYD:P(A;OICI;FA;;;BA)(A;OICIIO;FR;;;WD)"))
        rows = ["changed\t/n\tentry\tnone\t(A;OICIIO;FR;;;WD)"]
        rows += [f"gained\t/n\t0x120089\t{WD}\tnew {what}" for what in ("objects", "containers")]
        totals = [f"total\tgained\t0x120089\tread\t1\t/n\t{WD}\tnew {what}" for what in ("containers", "objects")]
        self.assertEqual(self.diff(1), totals + rows)
        last = json.loads(self.diff(1, "--json")[-2])
        wanted = {"what": "gained", "path": "/n", "rights": "0x120089", "by": WD, "of": "new containers"}
        self.assertEqual(last, wanted)
        self.put("after", folder("/n", "O:BAG:SYD:P(A;OICI;FA;;;BA)(A;OICI;FR;;;WD)"))
        self.assertEqual(self.diff(1)[-1], f"gained\t/n\t0x120089\t{WD}")

    def test_changes_after_the_nodes(self) -> None:
        """They count; and nodes have the order of their paths, in which the lines needn't be."""
        self.put("before", folder("/b"), file("/b/c"), file("/a", CLOSED))
        self.put("after", file("/a", CLOSED), folder("/b"), file("/b/c"))
        self.assertEqual(self.diff(0, says="of 4 nodes 4 answered, none left out"), [])
        text = (self.room / "after").read_text()
        self.write("after", f"{text}dacl / D:P(A;OICI;FA;;;BA)(A;OICI;0x2;;;AU)\ndacl /a D:P(A;;FA;;;BA)\npublish\n")
        rows = [f"total\tgained\t0x2\twrite or add files\t3\t/\t{AU}"]
        for path, flags in (("/", "OICI"), ("/b", "OICIID"), ("/b/c", "ID")):
            rows += [f"changed\t{path}\tentry\tnone\t(A;{flags};0x2;;;AU)", f"gained\t{path}\t0x2\t{AU}"]
        self.assertEqual(self.diff(1, says="0 added, 0 gone, 3 changed; rights gained on 3, lost on 0"), rows)


class Many(Diffs):
    def test_totals(self) -> None:
        """What 714 nodes have alike is a row; and the folder in which they are."""
        had, has = f"{CLOSED}(A;;0x1301bf;;;{X})", CLOSED
        paths = [f"/finance/{number}" for number in range(714)]
        for name, text in (("before", had), ("after", has)):
            self.put(name, folder("/finance"), *(file(path, text) for path in paths), file("/z"))
        rows = self.diff(0, says="714 changed; rights gained on 0, lost on 714; of 717 nodes 717 answered")
        total = f"total\tlost\t{MODIFY}\t714\t/finance\t{X}"
        self.assertEqual(rows[0], total)
        nodes = []
        for path in sorted(paths):
            nodes += [f"changed\t{path}\tentry\t(A;;0x1301bf;;;{X})\tnone", f"lost\t{path}\t0x1301bf\t{X}"]
        self.assertEqual(rows[1:], nodes)
        self.assertEqual(self.diff(0, "--totals"), [total])
        first, end = map(json.loads, self.diff(0, "--totals", "--json"))
        wanted = {"what": "total", "change": "lost", "rights": "0x1301bf", "words": "modify", "nodes": 714}
        self.assertEqual(first, wanted | {"path": "/finance", "by": X})
        wanted = {"what": "compared", "added": 0, "gone": 0, "changed": 714, "gained": 0, "lost": 714}
        self.assertEqual(end, wanted | {"of": 717, "answered": 717, "left_out": 0})
        self.write("names", f"{X} clerks\n")
        self.assertEqual(self.diff(0, "--totals", "--names", "names"), [total.replace(X, '"clerks"')])

    def test_people(self) -> None:
        """As review has them, and totals of each user; a new node gives to all that it grants something."""
        self.write("accounts", ACCOUNTS)
        self.write("before", TREE)
        change = f"dacl /d D:P(A;;0x1200a9;;;{STAFF})(A;;0x2;;;{EVE_SID})\nowner /a%20b/c {EVE_SID}\npublish\n"
        self.write("after", TREE + change)
        without = self.diff(1)
        rows = self.diff(1, "--accounts", "accounts", says=", 3 users of the accounts; of 4 nodes 4 answered")
        lost = 0x1F01FF & ~0x1200A9
        persons = [
            row_of("/a%20b/c", 0x60000, "dave", "lost"),
            row_of("/a%20b/c", 0x60000, "eve", "gained"),
            row_of("/d", lost, "alice", "lost"),
            row_of("/d", 0x2, "eve", "gained"),
        ]
        self.assertEqual([row for row in rows if row.startswith("person\t")], persons)
        self.assertEqual([row for row in rows if not row.startswith("person")], without)
        totals = [row.split("\t") for row in rows if row.startswith("person-total\t")]
        wanted = [("gained", 0x2, "/d", "eve"), ("gained", 0x60000, "/a%20b/c", "eve")]
        wanted += [("lost", 0x60000, "/a%20b/c", "dave"), ("lost", lost, "/d", "alice")]
        said = [(change, rights, path, name, sid) for _, change, rights, _, _, path, name, sid in totals]
        self.assertEqual(said, [(change, f"{bits:#x}", path, *NAMES[who]) for change, bits, path, who in wanted])
        self.write("after", TREE.replace("# rows", f"import object /new {CLOSED}\n# rows"))
        rows = self.diff(1, "--accounts", "accounts", says=", 1 user of the accounts")
        self.assertEqual(rows[-1], row_of("/new", 0x1F01FF, "system", "gained"))

    def test_refusals(self) -> None:
        self.put("before")
        self.write("after", "open 1 O:BAG:SYD:P\nimport object /a\n")
        self.diff(2, says="after: line 2: 'import KIND PATH SDDL' is expected")
        self.write("after", ROOT)
        self.diff(2, says="after: line 1: it ends before 'publish'")
        self.put("after")
        self.write("accounts", "incomplete 1 skipped, 0 unknown\n")
        self.diff(2, "--accounts", "accounts", says="accounts: line 1: it says that accounts are missing")
        self.runs(3, "diff", "before", "none", says="none: No such file or directory")
        self.runs(2, "diff", "before")


#: A file that was skipped, and a folder with two nodes in it.
SKIPPED = ("# skipped\t/f\tits descriptor isn't supported\t0", "# skipped\t/s\tits descriptor isn't supported\t2")


class LeftOut(Diffs):
    def test_skipped_in_one(self) -> None:
        """What the other one has there is neither new nor gone, and not the same."""
        nodes = (file("/f", CLOSED), folder("/s"), file("/s/a", f"{CLOSED}(A;;FA;;;WD)"), file("/s/b"))
        rows = [row.removeprefix("# ") for row in SKIPPED]
        says = "0 added, 0 gone, 0 changed; rights gained on 0, lost on 0; of 5 nodes 1 answered; 4 can't be: 4 that"
        self.put("before", *SKIPPED)
        self.put("after", *nodes)
        self.assertEqual(self.diff(4, says=says), [f"{row}\tbefore" for row in rows])
        self.put("before", *nodes)
        self.put("after", *SKIPPED)
        self.assertEqual(self.diff(4, says=says), [f"{row}\tafter" for row in rows])
        self.put("before", *SKIPPED)
        self.assertEqual(self.diff(4, says=says), [f"{row}\tboth" for row in rows])
        last = json.loads(self.diff(4, "--json")[-1])
        self.assertEqual([last[name] for name in ("of", "answered", "left_out")], [5, 1, 2])
        # (of more nodes than the one script knew of, all count)
        self.put("after", *nodes, file("/s/c"))
        self.diff(4, says="of 6 nodes 1 answered; 5 can't be")

    def test_a_gain_elsewhere(self) -> None:
        """It has its rows, and the status is 4 all the same."""
        self.put("before", SKIPPED[0], file("/n", CLOSED))
        self.put("after", SKIPPED[0], file("/n", f"{CLOSED}(A;;0x2;;;AU)"))
        rows = self.diff(4, says="of 3 nodes 2 answered; 1 can't be: 1 that couldn't be read")
        self.assertEqual(rows[2:], [f"gained\t/n\t0x2\t{AU}", f"{SKIPPED[0].removeprefix('# ')}\tboth"])

    def test_not_listed(self) -> None:
        row = "# unlisted\t/s\tit can't be listed: Input/output error"
        self.put("before", folder("/s"), row)
        self.put("after", folder("/s"), file("/s/a", f"{CLOSED}(A;;FA;;;WD)"), folder("/s/b"), file("/s/b/c"))
        says = "0 added, 0 gone, 0 changed; rights gained on 0, lost on 0; of 2 nodes 2 answered; can't be: what is in 1"
        self.assertEqual(self.diff(4, says=says), [f"{row.removeprefix('# ')}\tbefore"])

    def test_folders_alone(self) -> None:
        """A script without files that inherit everything doesn't say which there are; folders it does."""
        row = "# files\t/s\t2"
        own = f"{CLOSED}(A;;0x2;;;AU)"
        self.put("before", folder("/s"), row, file("/s/own", own), file("/t"))
        self.put("after", folder("/s"), file("/s/a"), file("/s/b"), file("/s/own", own), folder("/s/new", CLOSED))
        says = "1 added, 1 gone, 0 changed; rights gained on 1, lost on 1; of 7 nodes 5 answered; 2 can't be: 2 files"
        rows = self.diff(4, says=says)
        self.assertEqual(rows[2:], [
            f"added\t/s/new\tfolder\t{CLOSED}", f"gained\t/s/new\t0x1f01ff\t{BA}",
            f"gone\t/t\tfile\t{FILE}", f"lost\t/t\t0x1f01ff\t{BA}", "files\t/s\t2\tbefore",
        ])  # fmt: skip
        self.put("after", folder("/s"), "# files\t/s\t3", file("/t"))
        rows = self.diff(4, says="of 6 nodes 3 answered; 3 can't be: 3 files without a line")
        self.assertEqual(rows, ["files\t/s\t2\tbefore", "files\t/s\t3\tafter"])

    def test_a_script_that_lost_its_comments(self) -> None:
        self.put("before", file("/n"))
        self.write("after", (self.room / "before").read_text().replace("# rows\t0\n", ""))
        rows = self.diff(4, says="of 2 nodes 0 answered; 2 can't be: it isn't known which")
        self.assertRegex(rows[0], "^unknown\t/\tthe script doesn't say .*\tafter$")
        self.assertEqual(len(rows), 1)

    def test_another_list_than_the_tree(self) -> None:
        """The script has that of the source, so it is compared; but not where the script changes the node, or of the
        root, whose line has its entries in another order."""
        moved = ("# differs\t/n\tit inherits otherwise than its folder passes down",)
        had, has = file("/n", "O:BAG:SYD:(A;ID;FR;;;BU)"), file("/n", "O:BAG:SYD:(A;ID;FR;;;BU)(A;ID;0x2;;;AU)")
        self.put("before", had, *moved)
        self.put("after", had, *moved)
        self.assertEqual(self.diff(0, says="of 2 nodes 2 answered, none left out"), [])
        self.put("after", has, *moved)
        rows = ["changed\t/n\tentry\tnone\t(A;ID;0x2;;;AU)", f"gained\t/n\t0x2\t{AU}"]
        self.assertEqual(self.diff(1, says="of 2 nodes 2 answered, none left out")[1:], rows)
        self.write("after", (self.room / "before").read_text() + "owner /n BU\npublish\n")
        self.assertEqual(self.diff(4, says="of 2 nodes 1 answered; 1 can't be")[-1], f"{moved[0][2:]}\tboth")
        root = "# differs\t/\tits own entries are in another order: the script has denies first"
        self.put("before", root)
        self.put("after", root)
        self.assertEqual(self.diff(4, says="of 1 node 0 answered"), [f"{root[2:]}\tboth"])

    def test_entries_of_other_types(self) -> None:
        """A node that has some is the same only if all of its entries are; else it is named."""
        conditional = "O:BAG:SYD:(XD;;FW;;;WD;(a))(A;ID;FA;;;BA)"
        row = f"# differs\t/n\t{OTHERS}\t{conditional}"
        self.put("before", file("/n"), row)
        self.put("after", file("/n"), row)
        self.assertEqual(self.diff(0, says="of 2 nodes 2 answered, none left out"), [])
        other = row.replace("(a)", "(b)")
        self.put("after", file("/n"), other)
        named = f"differs\t/n\t{OTHERS}"
        rows = [f"changed\t/n\twhole\t{conditional}\t{conditional.replace('(a)', '(b)')}"]
        rows += [f"{named}\tbefore", f"{named}\tafter"]
        self.assertEqual(self.diff(4, says="1 changed; rights gained on 0, lost on 0; of 2 nodes 1 answered"), rows)
        self.put("after", file("/n"))
        rows = [f"changed\t/n\twhole\t{conditional}\tnone", f"{named}\tbefore"]
        self.assertEqual(self.diff(4), rows)
        self.put("after")
        rows = [f"gone\t/n\tfile\t{conditional}", f"lost\t/n\t0x1f01ff\t{BA}", f"{named}\tbefore"]
        self.assertEqual(self.diff(4)[1:], rows)


#: Of a random comparison.
SEEDS, NODES = range(8), 12
TRUSTEES = [ALIASES[name] for name in ("BA", "BU", "BG", "OW")]
OWNERS = TRUSTEES[:3]
OTHER_USER = (5, (21, 9, 9, 9, 9))
#: All tokens that differ by the SIDs that are named.
TOKENS = [
    Token(user, [(sid, state) for sid, state in zip(OWNERS, states) if state is not None])
    for user in (*OWNERS, OTHER_USER)
    for states in product((None, "", "=deny"), repeat=len(OWNERS))
]
Planted = tuple[tuple[int, tuple[int, ...]], list[Entry]]


def rights(node: Planted | None, token: Token) -> int:
    if node is None:
        return 0
    said = verdict(*node, token, 0x02000000)
    return int(said.partition(" ")[2], 16) if said.startswith("granted") else 0


class Second(Diffs):
    def test_gains_and_losses(self) -> None:
        for seed in SEEDS:
            with self.subTest(seed):
                self.compare(random.Random(seed))

    def compare(self, pick: random.Random) -> None:
        sides: list[dict[str, Planted]] = []
        for name in ("before", "after"):
            paths = [f"/n{number}" for number in range(NODES) if pick.random() < 0.8]
            sides.append({path: (pick.choice(OWNERS), self.entries(pick)) for path in paths})
            nodes = pick.sample(sorted(sides[-1].items()), len(paths))
            self.put(name, *(file(path, self.text(node)) for path, node in nodes))
        before, after = sides
        found: dict[tuple[str, str], int] = {}
        ran = estate("diff", "before", "after", room=self.room)
        rows = [row.split("\t") for row in ran.stdout.splitlines()]
        self.assertEqual(ran.returncode, int("gained" in {row[0] for row in rows}), ran.stderr)
        for kind, path, bits, by in (row for row in rows if row[0] in ("gained", "lost")):
            pair = before.get(path), after.get(path)
            had, has = (rights(node, self.token(by)) for node in (pair if kind == "gained" else reversed(pair)))
            self.assertEqual((had & int(bits, 16), has & int(bits, 16)), (0, int(bits, 16)), (kind, path, by))
            found[kind, path] = found.get((kind, path), 0) | int(bits, 16)
        for path in {*before, *after}:
            pairs = [(rights(before.get(path), token), rights(after.get(path), token)) for token in TOKENS]
            gained, lost = 0, 0
            for had, has in pairs:
                gained, lost = gained | has & ~had, lost | had & ~has
            said = found.get(("gained", path), 0), found.get(("lost", path), 0)
            self.assertEqual(said, (gained, lost), path)

    @staticmethod
    def entries(pick: random.Random) -> list[Entry]:
        masks = pick.choices((0x1, 0x2, 0x3, 0x60000), k=pick.randrange(4))
        made = [Entry(pick.choice("AAD"), 0, bits, pick.choice(TRUSTEES)) for bits in masks]
        return sorted(made, key=lambda entry: entry.kind != "D")

    @staticmethod
    def text(node: Planted) -> str:
        return f"O:{sid_text(node[0])}G:SYD:P{''.join(map(entry_text, node[1]))}"

    @staticmethod
    def token(by: str) -> Token:
        """The token that a row names, of SIDs in full."""
        sids = {f"S-1-5-{'-'.join(map(str, sid[1]))}": sid for sid in OWNERS} | {"everyone": OTHER_USER}
        user, *words = by.split(" ")
        states = [word.partition("=") for word in words]
        restricting = [sids[sid] for sid, _, state in states if state == "restrict"]
        groups = [(sids[sid], f"={state}" if state else "") for sid, _, state in states if state != "restrict"]
        return Token(sids[user], groups, restricting)
