"""Questions about a user who comes by a share: what both the share and the file grant."""

import json
import os
import shutil
import subprocess
import unittest
from unittest import mock

from rig import needs_program
from test_ask import asked
from test_gaps import Sources
from test_texts import CHILD, ROOT

ALICE, STAFF = "S-1-5-21-1-2-3-1001", "S-1-5-21-1-2-3-1200"
#: Staff may change what is in it.
OPEN = "O:BAG:SYD:AI(A;OICI;0x1301bf;;;S-1-5-21-1-2-3-1200)(A;OICIID;FA;;;BA)"
#: As Windows shares a folder for reading, and as it does where an administrator gives staff changes.
READ, CHANGE = "D:(A;;0x1200a9;;;WD)", f"D:(A;;0x1301bf;;;{STAFF})(A;;0x1200a9;;;WD)"


@needs_program
class Share(Sources):
    def setUp(self) -> None:
        super().setUp()
        self.read(("C:\\s", ROOT), ("C:\\s\\open", OPEN), ("C:\\s\\closed", CHILD))

    def find(self, status: int, *words: str, says: str = "") -> list[str]:
        return self.runs(status, "find", *words, says=says)[1:]

    def test_the_share_denies(self) -> None:
        """No node is found, and a row says why: the files grant it."""
        self.assertEqual(self.find(0, "script", "/", ALICE, "0x2", STAFF), ["found\t/open"])
        rows = self.find(0, "--share", READ, "script", "/", ALICE, "0x2", STAFF, says="0 nodes")
        self.assertEqual(rows, ["share\tdenied 0x2", "share\tdenied 0x2 by no entry"])

    def test_the_share_grants(self) -> None:
        """Those that grant it too are found."""
        rows = self.find(0, "--share", CHANGE, "script", "/", ALICE, "0x2", STAFF, says="1 node")
        self.assertEqual([rows[0], rows[-1]], ["share\tgranted 0x2", "found\t/open"])
        self.assertEqual(len(rows), 3)
        rows = self.find(0, "--share", CHANGE, "script", "/", ALICE, "0x2", says="0 nodes")
        self.assertEqual(rows[0], "share\tdenied 0x2")

    def test_a_null_list(self) -> None:
        """A share with one grants everything, so the files decide."""
        rows = self.find(0, "--share", "D:NO_ACCESS_CONTROL", "script", "/", ALICE, "0x2", STAFF)
        self.assertEqual([rows[0], rows[-1]], ["share\tgranted 0x2", "found\t/open"])

    def test_many_questions(self) -> None:
        """Each `find` is through the share; `who` can't be."""
        lines = f"find / {ALICE} 0x2 {STAFF}\nfind / {ALICE} 0x1 BA\nwho / 0x2\n"
        ran = asked(self.room, lines.encode(), "--json", "--share", READ, "script")
        self.assertEqual(ran.returncode, 2, ran.stderr[-2000:])
        rows = list(map(json.loads, ran.stdout.splitlines()))
        found = [row["path"] for row in rows if row["what"] == "found" and "path" in row]
        self.assertEqual(found, ["/", "/closed", "/open"])
        self.assertEqual([row["status"] for row in rows if row["what"] == "end"], [0, 0, 2])
        (error,) = [row["why"] for row in rows if row["what"] == "error"]
        self.assertIn("--share is for questions about one user", error)

    def test_refusals(self) -> None:
        """What isn't a whole answer is none."""
        for share, says in (
            ("", "it has no DACL, which would grant everything"),
            ("O:BA", "it has no DACL, which would grant everything"),
            ("D:(A;;FA;;;XX)", "--share 'D:(A;;FA;;;XX)'"),
            ("--help", "--share"),
        ):
            self.runs(2, "find", f"--share={share}", "script", "/", ALICE, "0x2", says=says)
        for mask in ("0x2000000", "MAXIMUM_ALLOWED", "0x2000001"):
            says = f"{mask}: --share is for rights"
            self.runs(2, "find", "--share", READ, "script", "/", ALICE, mask, says=says)
        self.runs(2, "find", "--share", READ, "script", "/", ALICE, "XX", says="XX: not a mask")


@needs_program
@unittest.skipUnless(shutil.which("sharesec") and shutil.which("net"), "the package samba is required")
class OfSamba(Sources):
    """The descriptors that Samba's own tools have written into its share_info.tdb, of shares of a file and of the
    registry."""

    def setUp(self) -> None:
        super().setUp()
        self.read(("C:\\s", ROOT), ("C:\\s\\open", OPEN))
        folders = ("state directory", "private dir", "lock directory", "cache directory", "pid directory")
        lines = "".join(f"  {folder} = {self.room}\n" for folder in folders)
        lines += f"  server role = standalone server\n  registry shares = yes\n[pay]\n  path = {self.room}\n"
        text = f"[global]\n{lines}"
        found = mock.patch.dict(os.environ, SMB_CONF_PATH=str(self.write("smb.conf", text)))
        found.start()
        self.addCleanup(found.stop)

    def samba(self, *words: str) -> None:
        subprocess.run(words, check=True, capture_output=True)

    def find(self, status: int, name: str, says: str) -> list[str]:
        words = ("find", "--samba-share", name, "script", "/", ALICE, "0x2", STAFF)
        return [row for row in self.runs(status, *words, says=says)[1:] if row.startswith(("share\tgranted", "found"))]

    def test_what_it_grants(self) -> None:
        """As it is made it grants everything; a list for reading alone takes away what the files grant."""
        self.samba("net", "conf", "addshare", "kept", str(self.room))
        for name in ("pay", "kept", "PAY"):
            with self.subTest(name):
                self.samba("sharesec", "-S", "D:(A;;FA;;;WD)", "--", name)
                self.assertEqual(self.find(0, name, "1 node")[-1], "found\t/open")
                self.samba("sharesec", "-S", f"O:BAG:BA{CHANGE}", "--", name)
                self.assertEqual(self.find(0, name, "1 node")[-1], "found\t/open")
                self.samba("sharesec", "-S", f"O:BAG:BA{READ}", "--", name)
                self.assertEqual(self.find(0, name, "0 nodes"), [])
                self.samba("sharesec", "-S", f"O:BAG:BAD:(D;;CCDC;;;{STAFF})(A;;0x1f01ff;;;WD)", "--", name)
                self.assertEqual(self.find(0, name, "0 nodes"), [])

    def test_what_is_none(self) -> None:
        self.find(3, "none", "sharesec: Invalid sharename: none")
        both = ("find", "--samba-share", "pay", "--share", READ, "script", "/", ALICE, "0x2")
        self.runs(2, *both, says="not allowed with")
        with mock.patch.dict(os.environ, PATH="/none"):
            self.find(3, "pay", "sharesec: No such file or directory: Samba's package has it")
