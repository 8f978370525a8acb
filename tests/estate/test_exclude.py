"""Nodes that --exclude leaves out: a folder isn't entered, and each answer that is about such a node names it."""

import json
import os

from rig import PRESENT, PROTECTED, acl_bytes, entry_bytes, form, needs_program, sid_bytes
from test_gaps import ASSUMED, NONE, USER, Sources
from test_texts import CHILD, FILE, ROOT, csv_of
from test_volumes import Volumes
from trees import BA, FULL, SY, allow

#: A folder of what is temporary, with a file and a folder in it, and two files.
ROWS = (
    ("C:\\s", ROOT),
    ("C:\\s\\a", CHILD),
    ("C:\\s\\a\\tmp", CHILD),
    ("C:\\s\\a\\tmp\\b", CHILD),
    ("C:\\s\\a\\tmp\\c.bak", FILE),
    ("C:\\s\\d.bak", FILE),
    ("C:\\s\\e", FILE),
)
WORDS = ("--exclude", "*/tmp", "--exclude", "*.bak")
TMP, BAK = "excluded\t/a/tmp\t--exclude */tmp\t2", "excluded\t/d.bak\t--exclude *.bak\t0"
SUM = "of 7 nodes 3 answered; 4 can't be: 4 excluded with what is in them"


class Texts(Sources):
    def setUp(self) -> None:
        super().setUp()
        self.script = self.read(*ROWS, words=WORDS)

    def test_the_script(self) -> None:
        """Each node that is left out has a row and a comment; what is in a folder is counted."""
        lines = [line.split(" ")[2] for line in self.script.splitlines() if line.startswith("import")]
        self.assertEqual(lines, ["/a", "/e"])
        self.assertIn(f"# {TMP}\n# {BAK}\n", self.script.replace("import object /e O:BAG:SYD:(A;ID;FA;;;BA)\n", ""))
        self.assertTrue(self.script.endswith("# rows\t2\npublish\n"))
        says = "7 nodes, 3 lines of nodes, 0 files left out, 0 skipped, 0 differing, 0 SACLs kept, 4 excluded"
        self.assertEqual(self.runs(0, "read", *WORDS, "source", "script", says=says), [TMP, BAK])
        row = json.loads(self.runs(0, "read", "--json", *WORDS, "source", "script")[0])
        self.assertEqual(row, {"what": "excluded", "path": "/a/tmp", "why": "--exclude */tmp", "below": 2})

    def test_patterns(self) -> None:
        """Case counts, no pattern leaves out the folder itself, and one that matches nothing is named."""
        self.runs(0, "read", "--exclude", "*.BAK", "source", "script", says="--exclude *.BAK: no node that was reached")
        self.assertEqual(self.runs(0, "read", "--exclude", "tmp", "source", "script"), [])
        rows = self.runs(0, "read", "--exclude", "*", "source", "script", says="1 line of nodes")
        self.assertEqual([row.split("\t")[1] for row in rows], ["/a", "/d.bak", "/e"])

    def test_a_question_about_it(self) -> None:
        self.runs(2, "who", "script", "/a/tmp/b", "0x2", says="the script has no such node: --exclude */tmp")

    @needs_program
    def test_answers(self) -> None:
        says = f"0 nodes; {SUM}"
        self.assertEqual(self.runs(4, "find", "script", "/", USER, "0x2", says=says), [ASSUMED, TMP, BAK])
        self.runs(0, "find", "script", "/e", USER, "0x2", says=NONE.format("1 node 1"))
        self.assertEqual(self.runs(4, "report", "script", "page", says=SUM), [TMP, BAK])
        data = json.loads((self.room / "page").read_text().partition('application/json">')[2].partition("<")[0])
        self.assertEqual(data["gaps"][0], [-1, "/a/tmp", "excluded, and 2 nodes below: --exclude */tmp"])

    def test_differences(self) -> None:
        """What the other script has there is in no row, and counted as left out."""
        self.runs(0, "read", "source", "whole")
        says = f"0 added, 0 gone, 0 changed; rights gained on 0, lost on 0; {SUM}"
        rows = self.runs(4, "diff", "script", "whole", says=says)
        self.assertEqual(rows, [f"{TMP}\tbefore", f"{BAK}\tbefore"])

    def test_changes(self) -> None:
        """A change that a folder passes down leaves out what is excluded in it; icacls has no lines for that."""
        self.write("changed", self.script + "dacl / D:P(A;OICI;FR;;;BA)\npublish\n")
        self.assertEqual(self.runs(4, "plan", "changed")[-2:], [TMP, BAK])
        rows = self.runs(1, "icacls", "--folder", "s", "changed", "file", says="2 nodes can't be written so")
        self.assertEqual([row.split("\t")[1] for row in rows], ["/", "/a"])


class Ntfs(Volumes):
    def test_a_volume(self) -> None:
        """A folder isn't opened, and a write leaves it as it is, and a file of its own too."""
        folder = self.volume.folder
        for path in ((), ("tmp",), ("tmp", "below"), ("team",)):
            os.makedirs(self.volume.at(path), exist_ok=True)
        for path in (("f.bak",), ("g",)):
            os.close(os.open(self.volume.at(path), os.O_CREAT | os.O_WRONLY))
        entries = acl_bytes([entry_bytes(allow(BA, FULL))])
        self.volume.put((), form(sid_bytes(BA), sid_bytes(SY), entries, PROTECTED | PRESENT))
        words = ("read", "--progress", "--exclude", "tmp", "--exclude", "*.bak", folder, "script")
        rows = self.runs(0, *words, says="5 nodes, 3 lines of nodes, 0 files left out, 0 skipped")
        rows = [row for row in rows if row.startswith("excluded")]
        self.assertEqual(rows, ["excluded\t/f.bak\t--exclude *.bak\t0", "excluded\t/tmp\t--exclude tmp\t0"])
        self.runs(0, *words, says="estate: 1 node")
        script = (self.room / "script").read_text()
        self.write("changed", script + "dacl / D:P(A;OICI;FA;;;BA)(A;OICI;FR;;;BU)\npublish\n")
        before = [self.volume.get(path) for path in (("tmp",), ("f.bak",))]
        why = "--exclude left it out of the script"
        stops = self.runs(1, "plan", "changed", folder, says="2 nodes can't be written safely")
        self.assertIn(f"stop\t/tmp\t{why}: read it again, or --leave-unread leaves it as it is", stops)
        left = self.runs(4, "write", "--leave-unread", "changed", folder, says="left out: 2 nodes")
        self.assertEqual(left, [f"left\t/f.bak\t{why}", f"left\t/tmp\t{why}"])
        self.assertEqual([self.volume.get(path) for path in (("tmp",), ("f.bak",))], before)
