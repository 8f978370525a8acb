"""What estate asks the program: whom a node grants rights, where a user has them, and what a change grants and takes
away. The expected answers were worked out by hand, by docs/CHECK.md."""

import json
import os
from unittest import mock

from rig import Case, needs_program

ALICE = "S-1-5-21-1-2-3-1001"
#: /a inherits, /a/b has a deny of its own before what it inherits, and /c is protected.
SCRIPT = f"""\
open 1 O:BAG:SYD:P(A;OICI;FA;;;BA)(A;OICI;FR;;;BU)
import container /a%20b O:BAG:SYD:(A;OICIID;FA;;;BA)(A;OICIID;FR;;;BU)
import object /a%20b/c O:{ALICE}G:SYD:(D;;0x1;;;BG)(A;ID;FA;;;BA)(A;ID;FR;;;BU)
import object /d O:BAG:SYD:P(A;;FA;;;BA)
# rows	0
publish
"""
CHANGE = "dacl / D:P(A;OICI;FA;;;BA)(A;OICI;0x120088;;;BU)\nlist\nowner /d BU\npublish\n"


@needs_program
class Questions(Case):
    def setUp(self) -> None:
        super().setUp()
        self.write("before", SCRIPT)
        self.write("changed", SCRIPT + CHANGE)

    def test_a_program_that_answers_nothing(self) -> None:
        """It is an error, and no list without findings."""
        none = "0 answers to 4: it is no sdstore of this version"
        for program, says in (("/bin/true", none), ("/bin/false", none), ("/none", "No such file or directory")):
            with self.subTest(program), mock.patch.dict(os.environ, SDSTORE=program):
                self.assertEqual(self.runs(3, "lint", "before", says=f"{program}: {says}"), [])

    def test_who(self) -> None:
        """Of the tree after the changes; SIDs have names where they are given."""
        self.assertEqual(
            self.runs(0, "who", "before", "/a%20b/c", "0x40001"),
            [
                "assumed\tS-1-1-0 S-1-5-11",
                "who\t/a%20b/c\t0x1\tS-1-5-32-544\tS-1-5-32-546",
                "who\t/a%20b/c\t0x1\tS-1-5-32-545\tS-1-5-32-546",
                f"who\t/a%20b/c\t0x40000\t{ALICE} as the owner",
                "who\t/a%20b/c\t0x40000\tS-1-5-32-544",
            ],
        )
        self.assertEqual(
            self.runs(0, "who", "changed", "/a%20b/c", "0x1")[1:], ["who\t/a%20b/c\t0x1\tS-1-5-32-544\tS-1-5-32-546"]
        )
        self.write("names", f"{ALICE} alice\nS-1-5-32-544 admins\n")
        rows = self.runs(0, "who", "--json", "--names", "names", "before", "/", "0x2", "BU")
        self.assertEqual(
            list(map(json.loads, rows)),
            [
                {"what": "assumed", "groups": "S-1-1-0 S-1-5-11"},
                {"what": "who", "path": "/", "rights": "0x2", "to": '"admins"'},
                {"what": "answered", "lines": 1, "of": 1, "answered": 1, "left_out": 0},
            ],
        )
        self.runs(2, "who", "before", "/none", "0x1", says="/none: the script has no such node")
        self.runs(2, "who", "before", "a", "0x1", says="a: a path begins with '/'")
        self.runs(2, "who", "before", "/", "XX", says="sdstore who: fault mask")

    def test_find(self) -> None:
        rows = self.runs(0, "find", "before", "/", ALICE, "0x1", "BU", says="3 nodes")
        self.assertEqual(rows, ["assumed\tS-1-1-0 S-1-5-11", "found\t/", "found\t/a%20b", "found\t/a%20b/c"])
        self.assertEqual(self.runs(0, "find", "changed", "/", ALICE, "0x1", "BU", says="0 nodes")[1:], [])
        self.assertEqual(self.runs(0, "find", "before", "/a%20b", ALICE, "0x1", "BU", "BG")[1:], ["found\t/a%20b"])
        rows = self.runs(0, "find", "changed", "/", ALICE, "0x40000", "BU", says="2 nodes")
        self.assertEqual(rows[1:], ["found\t/a%20b/c", "found\t/d"])
        self.runs(2, "find", "before", "/none", ALICE, "0x1", says="/none: the script has no such node")
        self.runs(2, "find", "before", "/", "alice", "0x1", says="sdstore find: fault sid")
        self.runs(2, "find", "before", "/", ALICE, "0x1", "BU\nlist", says="'BU\\nlist': not an argument")

    def test_review(self) -> None:
        """What somebody gains or loses; nothing of a change that nobody could notice."""
        self.assertEqual(self.runs(0, "review", "before", says="0 nodes"), [])
        rows = self.runs(1, "review", "changed", says="4 nodes")
        self.assertEqual(
            rows,
            [
                "lost\t/\t0x1\tS-1-5-32-545",
                "lost\t/a%20b\t0x1\tS-1-5-32-545",
                "lost\t/a%20b/c\t0x1\tS-1-5-32-545",
                "gained\t/d\t0x60000\tS-1-5-32-545",
            ],
        )
        self.assertEqual(self.runs(1, "review", "changed", "/a%20b", says="2 nodes"), rows[1:3])
        rows = self.runs(1, "review", "changed", "/d", "BU", says="1 node ")
        self.assertEqual(rows, ["gained\t/d\t0x60000\teveryone"])
        same = "dacl /a%20b/c D:(D;;0x1;;;BG)(D;;0x1;;;BG)\nprotect /a%20b\npublish\n"
        self.write("same", SCRIPT + same)
        self.assertEqual(self.runs(0, "review", "same", says="0 nodes"), [])
        self.runs(2, "review", "changed", "/none", says="/none: the script has no such node")
        self.runs(2, "review", "changed", "/", "XX", says="sdstore compare: fault token")

    def test_the_groups_that_are_assumed(self) -> None:
        """Everyone and Authenticated Users, as of a file server, unless --only-given: a row says which."""
        head = "open 1 O:BAG:SYD:P(A;OICI;FR;;;WD)(A;OICI;0x2;;;AU)"
        self.write("script", f"{head}\n# rows\t0\npublish\n")
        ask = ("script", "/", ALICE, "0x3")
        both = ["assumed\tS-1-1-0 S-1-5-11", "found\t/"]
        self.assertEqual(self.runs(0, "find", *ask), both)
        self.assertEqual(self.runs(0, "find", "--only-given", *ask, says="0 nodes"), ["assumed\tnone"])
        self.assertEqual(self.runs(0, "find", *ask, "AU"), ["assumed\tS-1-1-0", "found\t/"])
        self.assertEqual(self.runs(0, "find", *ask, "S-1-5-11=deny", says="0 nodes"), ["assumed\tS-1-1-0"])
        self.assertEqual(self.runs(0, "find", *ask, "BU=restrict", "WD=restrict", says="0 nodes"), both[:1])
        self.assertEqual(self.runs(0, "find", "script", "/", "AN", "0x3", says="0 nodes"), ["assumed\tnone"])
        rows = self.runs(0, "who", "script", "/", "0x3")
        self.assertEqual(rows, [both[0], "who\t/\t0x3\teveryone"])
        rows = self.runs(0, "who", "--only-given", "script", "/", "0x3")
        wanted = ["assumed\tnone", "who\t/\t0x1\tS-1-1-0", "who\t/\t0x2\tS-1-5-11"]
        self.assertEqual(rows, wanted)
