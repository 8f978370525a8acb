"""Where a source has more or other nodes than the tree of its script: each answer that is about such a node names it,
and has a status of its own. Sources are text files, folders with attributes that are written here, and an NTFS
volume."""

import json
import os
import struct
from collections.abc import Callable
from pathlib import Path

from rig import AI, NO_SID_ENTRY, PRESENT, PROTECTED, Case, Names
from rig import acl_bytes, entry_bytes, form, needs_program, sid_bytes
from test_texts import CHILD, FILE, ROOT, csv_of
from test_volumes import Volumes
from trees import BA, FULL, SY, WD, allow
from second import ID

USER = "S-1-5-21-1-2-3-1001"
#: Its own entries aren't in a tree's order, and it keeps what it inherited elsewhere.
EVERYONE = "O:BAG:SYD:AI(A;;FR;;;BU)(D;;0x1;;;BG)(A;ID;FA;;;WD)"
#: An alias of a domain, which isn't known.
UNKNOWN = "O:BAG:SYD:(A;;FA;;;DA)"
#: A file that was moved here, a folder whose descriptor isn't supported, and a file in it.
ROWS = (
    ("C:\\s", ROOT),
    ("C:\\s\\a", CHILD),
    ("C:\\s\\a\\moved", EVERYONE),
    ("C:\\s\\b", UNKNOWN),
    ("C:\\s\\b\\c", FILE),
    ("C:\\s\\d", FILE),
)
MOVED = "differs\t/a/moved\tits own entries are in another order: the script has denies first"
SUM = "of 6 nodes 3 answered; 3 can't be: 1 that the source has otherwise, 2 that couldn't be read"
ONE = "of 1 node 0 answered; 1 can't be: 1 that the source has otherwise"
NONE = "of {} answered, none left out"
ASSUMED = "assumed\tS-1-1-0 S-1-5-11"


class Sources(Case):
    def read(self, *rows: tuple[str, str], words: tuple[str, ...] = ()) -> str:
        """The script of a CSV."""
        self.write("source", csv_of(*rows))
        self.runs(1 if UNKNOWN in dict(rows).values() else 0, "read", *words, "source", "script")
        return (self.room / "script").read_text()


class Elsewhere(Sources):
    """Nodes that were moved with what they had inherited: the tree has them as the source."""

    #: A folder that was moved here with Everyone's entry, a file in it, and a file that was moved without any.
    ROWS = (
        ("C:\\s", ROOT),
        ("C:\\s\\d", "O:BAG:SYD:AI(A;;FR;;;BU)(A;OICIID;FA;;;WD)"),
        ("C:\\s\\d\\f", "O:BAG:SYD:AI(A;ID;FA;;;WD)"),
        ("C:\\s\\e", "O:BAG:SYD:AI"),
    )
    LINES = [
        "open 1 O:BAG:SYD:P(A;OICI;FA;;;BA)",
        "addc /d O:BAG:SYD:(A;;FR;;;BU) D:(A;OICIID;FA;;;WD) D:(A;OICIID;FA;;;BA)",
        "import object /d/f O:BAG:SYD:(A;ID;FA;;;WD)",
        "addo /e O:BAG:SYD: D: D:(A;ID;FA;;;BA)",
        "# rows\t0",
        "publish",
    ]

    def test_lines(self) -> None:
        script = self.read(*self.ROWS)
        self.assertEqual(script.splitlines()[2:], self.LINES)
        last = self.runs(0, "read", "--json", "source", "script", says="2 nodes with what was inherited elsewhere")[-1]
        self.assertEqual([json.loads(last)[name] for name in ("differing", "stored")], [0, 2])

    def test_plan(self) -> None:
        """What such a node has is what the plan changes, and it keeps it in every other change."""
        script = self.read(*self.ROWS)
        self.write("owner", script + "owner /d SY\npublish\n")
        old, new = ("O:{}G:SYD:AI(A;;FR;;;BU)(A;OICIID;FA;;;WD)".format(owner) for owner in ("BA", "SY"))
        says = NONE.format("1 node 1")
        self.assertEqual(self.runs(0, "plan", "owner", says=says), [f"change\t/d\t{old}\t{new}"])
        self.write("changed", script + "dacl / D:P(A;OICI;FA;;;SY)\npublish\n")
        rows = self.runs(0, "plan", "changed", says=NONE.format("4 nodes 4"))
        self.assertIn("change\t/d/f\tO:BAG:SYD:AI(A;ID;FA;;;WD)\tO:BAG:SYD:AI(A;ID;FA;;;SY)", rows)
        self.assertIn("change\t/e\tO:BAG:SYD:AI\tO:BAG:SYD:AI(A;ID;FA;;;SY)", rows)

    def test_invalid_lines(self) -> None:
        script = self.read(*self.ROWS)
        line, own = self.LINES[1], "(A;;FA;;;WD)"
        for wrong, says in (
            (line.rpartition(" ")[0], "'addc PATH SDDL KEPT OFFER' is expected"),
            (line.replace("(A;OICIID;FA;;;WD)", own), "not just inherited entries"),
            (line.replace("D:(A;OICIID;FA;;;WD)", "D:P(A;OICIID;FA;;;WD)"), "line 4"),
            (line.replace("D:(A;OICIID;FA;;;WD)", "D:NO_ACCESS_CONTROL"), "line 4"),
        ):
            self.write("wrong", script.replace(line, wrong))
            self.runs(2, "plan", "wrong", says=says)

    @needs_program
    def test_answers(self) -> None:
        self.read(*self.ROWS)
        rows = self.runs(0, "find", "script", "/", USER, "0x2", says=NONE.format("4 nodes 4"))
        self.assertEqual(rows, [ASSUMED, "found\t/d", "found\t/d/f"])
        self.runs(0, "who", "script", "/d/f", "0x2", says=NONE.format("1 node 1"))
        self.runs(0, "report", "script", "page", says=NONE.format("4 nodes 4"))


@needs_program
class Answers(Sources):
    def setUp(self) -> None:
        super().setUp()
        self.script = self.read(*ROWS)
        skipped = next(line for line in self.script.splitlines() if line.startswith("# skipped"))
        self.skipped = skipped.removeprefix("# ")
        self.assertRegex(self.skipped, r"^skipped\t/b\tits descriptor isn't supported: .*\t1$")

    def test_find(self) -> None:
        """At and below the path that is asked about: elsewhere the status is 0."""
        rows = self.runs(4, "find", "script", "/", USER, "0x2", says=f"1 node; {SUM}")
        self.assertEqual(rows, [ASSUMED, "found\t/a/moved", MOVED, self.skipped])
        says = "1 node; of 2 nodes 1 answered; 1 can't be: 1 that the source has otherwise"
        rows = self.runs(4, "find", "script", "/a", USER, "0x2", says=says)
        self.assertEqual(rows, [ASSUMED, "found\t/a/moved", MOVED])
        self.assertEqual(self.runs(0, "find", "script", "/d", USER, "0x2", says=NONE.format("1 node 1")), [ASSUMED])
        self.runs(2, "find", "script", "/b/c", USER, "0x2", says="no such node: its descriptor isn't supported")
        last = self.runs(4, "find", "--json", "script", "/", USER, "0x2")[-1]
        self.assertEqual(json.loads(last), {"what": "found", "nodes": 1, "of": 6, "answered": 3, "left_out": 2})

    def test_who(self) -> None:
        rows = self.runs(4, "who", "script", "/a/moved", "0x2", says=f"1 line; {ONE}")
        self.assertEqual(rows, [ASSUMED, "who\t/a/moved\t0x2\teveryone", MOVED])
        self.runs(0, "who", "script", "/a", "0x2", says=f"1 line; {NONE.format('1 node 1')}")

    def test_lint_and_the_report(self) -> None:
        """A finding doesn't hide that nodes are left out: the status is 4 all the same."""
        risk = "lint\t/a/moved\tS-1-1-0 is granted full-control"
        self.assertEqual(self.runs(4, "lint", "script", says=f"1 finding; {SUM}"), [risk, MOVED, self.skipped])
        self.assertEqual(self.runs(4, "report", "script", "page", says=SUM), [MOVED, self.skipped])
        data = json.loads((self.room / "page").read_text().partition('application/json">')[2].partition("<")[0])
        self.assertEqual(data["sum"], f"2 folders, 2 files: {SUM}")
        self.assertEqual([gap[:2] for gap in data["gaps"]], [[2, "/a/moved"], [-1, "/b"]])
        self.assertIn("not read, and 1 node below: its descriptor isn't supported", data["gaps"][1][2])
        self.assertEqual([node[8] for node in data["nodes"]], ["", "", MOVED.split("\t")[2], ""])
        self.write("doubtful", self.script + "dacl /d D:(A;;FA;;;WD)\npublish\n")
        rows = self.runs(4, "lint", "doubtful", says=f"2 findings; {SUM}")
        self.assertEqual(rows[:2], [risk, "lint\t/d\tS-1-1-0 is granted full-control"])
        self.runs(4, "report", "doubtful", "page")
        self.assertIn('["risk","S-1-1-0 is granted full-control"]', (self.room / "page").read_text())

    def test_review_and_plan(self) -> None:
        """Of nodes that change, or whose folder passes down other entries; a change elsewhere leaves nothing out."""
        self.write("elsewhere", self.script + "dacl /d D:P\npublish\n")
        none = NONE.format("1 node 1")
        self.runs(1, "review", "elsewhere", says=f"1 node where somebody gains or loses rights; {none}")
        self.runs(0, "plan", "elsewhere", says=none)
        self.write("changed", self.script + "dacl / D:P(A;OICI;FR;;;BA)\npublish\n")
        self.assertEqual(self.runs(4, "review", "changed", says=SUM)[-2:], [MOVED, self.skipped])
        self.assertEqual(self.runs(4, "plan", "changed", says=SUM)[-2:], [MOVED, self.skipped])
        self.assertEqual(self.runs(4, "review", "changed", "/a")[-1:], [MOVED])
        same = "dacl /a/moved D:P(D;;0x1;;;BG)(A;;FR;;;BU)(A;;FA;;;WD)\npublish\n"
        self.write("same", self.script + same)
        rows = self.runs(4, "review", "same", says=f"0 nodes where somebody gains or loses rights; {ONE}")
        self.assertEqual(rows, [MOVED])

    def test_a_script_that_lost_its_comments(self) -> None:
        """It doesn't pass for one that leaves nothing out."""
        whole = "".join(f"{line}\n" for line in self.script.splitlines() if not line.startswith("#"))
        for text in (whole, self.script.replace(f"# {self.skipped}\n", ""), self.script.replace("# rows\t2\n", "")):
            self.write("lost", text)
            for words in (("find", "lost", "/d", USER, "0x2"), ("who", "lost", "/d", "0x2"), ("lint", "lost")):
                rows = self.runs(4, *words, says="it isn't known which")
                self.assertIn("unknown\t/\tthe script doesn't say where its source has more or other nodes", rows[-1])
            self.runs(4, "review", "lost")


@needs_program
class Parts(Sources):
    def test_files_without_a_line(self) -> None:
        """A file may be granted what its folder isn't: so those that --folders leaves out are named."""
        folder = "O:BAG:SYD:PAI(A;OICI;FA;;;BA)(A;OIIO;FA;;;WD)"
        file = "O:BAG:SYD:AI(A;ID;FA;;;BA)(A;ID;FA;;;WD)"
        script = self.read(("C:\\s", folder), ("C:\\s\\f", file), words=("--folders",))
        self.assertIn("# files\t/\t1\n# rows\t1\npublish\n", script)
        says = "0 nodes; of 2 nodes 1 answered; 1 can't be: 1 file without a line"
        rows = self.runs(4, "find", "script", "/", USER, "0x2", says=says)
        self.assertEqual(rows, [ASSUMED, "files\t/\t1"])
        self.write("changed", script + "dacl / D:P(A;OICI;FA;;;BA)\npublish\n")
        says = "0 nodes where somebody gains or loses rights; of 2 nodes 1 answered; 1 can't be: 1 file without a line"
        rows = self.runs(4, "review", "changed", says=says)
        self.assertEqual(rows, ["files\t/\t1"])

    def test_a_null_list_with_flags(self) -> None:
        """It is no node that is left out."""
        self.read(("C:\\s", ROOT), ("C:\\s\\n", "O:BAG:SYD:PARAINO_ACCESS_CONTROL"), ("C:\\s\\n\\f", "O:BAG:SYD:AI"))
        self.assertEqual(self.runs(0, "find", "script", "/", USER, "0x2", says="1 node"), [ASSUMED, "found\t/n"])

    def test_names_that_no_tree_has(self) -> None:
        """A row of such a node is in the script as any other, and isn't refused where it is read again."""
        self.write("source", csv_of(("C:\\s", ROOT), ("C:\\s\\" + "\u4e2d" * 86, FILE)))
        rows = self.runs(1, "read", "source", "script")
        self.assertEqual(self.runs(4, "lint", "script"), rows)

    def test_a_folder_that_could_not_be_listed(self) -> None:
        """What is in it is left out of what is asked about it, and of a change that it passes down."""
        head = "open 1 O:BAG:SYD:P(A;OICI;FA;;;BA)\nimport container /a O:BAG:SYD:(A;OICIID;FA;;;BA)\n"
        row = "unlisted\t/a\tit can't be listed: Input/output error"
        self.write("script", f"{head}# {row}\n# rows\t1\npublish\n")
        says = "1 node; of 1 node 1 answered; can't be: what is in 1 folder"
        self.assertEqual(self.runs(4, "find", "script", "/a", "BA", "FA", says=says)[-1], row)
        self.write("changed", (self.room / "script").read_text() + "dacl / D:P(A;OICI;FR;;;BA)\npublish\n")
        self.assertEqual(self.runs(4, "review", "changed")[-1], row)


def ntacl(blob: bytes) -> bytes:
    """Of Samba's security.NTACL, version 1: the offsets count from its start, 8 bytes before the form."""
    head = struct.unpack_from("<BBHIIII", blob)
    moved = (*head[:3], *(at + 8 if at else 0 for at in head[3:]))
    return struct.pack("<HHI", 1, 1, 0x20000) + struct.pack("<BBHIIII", *moved) + blob[20:]


def blob_of(control: int, *entries: bytes) -> bytes:
    return form(sid_bytes(BA), sid_bytes(SY), acl_bytes(list(entries)), control | PRESENT)


def plant(put: Callable[[Names, bytes], None], folder: Path) -> None:
    """A root, a file that was moved into it, a folder with a null list that has AI, and one without a descriptor."""
    for name in ("null", "none"):
        (folder / name).mkdir()
    (folder / "moved").touch()
    put((), blob_of(PROTECTED, entry_bytes(allow(BA, FULL))))
    put(("moved",), blob_of(AI, entry_bytes(allow(WD, FULL, ID))))
    put(("null",), form(sid_bytes(BA), sid_bytes(SY), None, PRESENT | AI))


@needs_program
class Folders(Case):
    def test_a_folder(self) -> None:
        """A share, by attributes of version 1: what is moved and what has no attribute is named by each answer."""
        share = self.room / "share"
        share.mkdir()

        def put(path: Names, blob: bytes) -> None:
            os.setxattr(share.joinpath(*path), "security.NTACL", ntacl(blob))

        try:
            plant(put, share)
        except OSError as error:
            self.skipTest(f"security.NTACL can't be written here: {error}")
        none = "skipped\t/none\tits descriptor can't be read: No data available\t0"
        counted = "0 differing, 0 SACLs kept, 1 node with what was inherited elsewhere"
        self.runs(1, "read", share, "script", says=f"4 nodes, 3 lines of nodes, 0 files left out, 1 skipped, {counted}")
        rows = self.runs(4, "find", "script", "/", USER, "0x2", says="of 4 nodes 3 answered")
        self.assertEqual(rows, [ASSUMED, "found\t/moved", "found\t/null", none])
        script = (self.room / "script").read_text()
        self.write("changed", script + "dacl / D:P(A;OICI;FA;;;SY)\npublish\n")
        change = "change\t/moved\tO:BAG:SYD:AI(A;ID;FA;;;WD)\tO:BAG:SYD:AI(A;ID;FA;;;SY)"
        self.assertEqual(self.runs(4, "plan", "changed")[1], change)
        left = "left\t/none\tit has no line in the script"
        allowed = "--leave-unread"
        rows = self.runs(4, "plan", allowed, "changed", share, says="2 nodes would be written; left out: 1 node")
        self.assertEqual(rows, [left])
        self.assertEqual(self.runs(4, "write", allowed, "changed", share, says="; left out: 1 node"), rows)
        self.write("owner", script + "owner /moved SY\npublish\n")
        self.runs(0, "undo", "changed.journal")
        self.assertEqual(self.runs(0, "write", "owner", share, says="1 node written"), [])


@needs_program
class Ntfs(Volumes):
    def test_a_volume(self) -> None:
        """A file that was moved with Everyone's entry, and nodes below a folder whose descriptor isn't supported."""
        folder = self.volume.folder
        plant(self.volume.put, folder)
        (folder / "none" / "below").touch()
        self.volume.put(("none",), blob_of(0, NO_SID_ENTRY))
        self.read("script")
        rows = self.runs(4, "find", "script", "/", USER, "0x2", says="2 that couldn't be read")
        self.assertEqual(rows[:3], [ASSUMED, "found\t/moved", "found\t/null"])
        self.assertRegex(rows[3], r"^skipped\t/none\t.*\t1$")
        self.runs(0, "who", "script", "/moved", "FA", says=NONE.format("1 node 1"))
        self.runs(4, "lint", "script")
        self.runs(4, "report", "script", "page")
