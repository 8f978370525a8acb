"""CSV of PowerShell and files of icacls: what they say, and files that nobody should trust."""

import errno
import io
import os
import pty
import subprocess
import sys
from contextlib import redirect_stderr
from unittest.mock import patch

import rig
from rig import TOOL, Case

from progress import Progress

HEADER = '"Path","Sddl"\r\n'
PREFIX = "Microsoft.PowerShell.Core\\FileSystem::"
ROOT = "O:BAG:SYD:PAI(A;OICI;FA;;;BA)"
CHILD = "O:BAG:SYD:AI(A;OICIID;FA;;;BA)"
FILE = "O:BAG:SYD:AI(A;ID;FA;;;BA)"
#: The script of the three lines below.
SCRIPT = """\
open 1 O:BAG:SYD:P(A;OICI;FA;;;BA)
import container /a%20b O:BAG:SYD:(A;OICIID;FA;;;BA)
import object /a%20b/c%25%C3%A9.txt O:BAG:SYD:(A;ID;FA;;;BA)
publish
"""


def csv_of(*rows: tuple[str, str]) -> str:
    return HEADER + "".join(f'"{PREFIX}{path}","{sddl}"\r\n' for path, sddl in rows)


THREE = csv_of(("C:\\share", ROOT), ("C:\\share\\a b", CHILD), ("C:\\share\\a b\\c%\u00e9.txt", FILE))


def all_of(terminal: io.FileIO) -> bytes:
    """What is to be read next of a terminal: nothing where all that wrote to it are gone."""
    try:
        return terminal.read(4096) or b""
    except OSError as error:
        if error.errno != errno.EIO:
            raise
        return b""


class Texts(Case):
    def script(self, *words: str, status: int = 0, says: str = "") -> str:
        """The script of a source, without its comment, and its rows in `self.rows`."""
        self.rows = self.runs(status, "read", *words, "source", "script", says=says)
        lines = (self.room / "script").read_text().splitlines(keepends=True)
        return "".join(line for line in lines if not line.startswith("#"))

    def refuses(self, text: str | bytes, says: str, *words: str, encoding: str = "utf-8") -> None:
        """The source is invalid as a whole, and nothing is written."""
        self.write("source", text, encoding)
        (self.room / "script").unlink(missing_ok=True)
        self.runs(2, "read", *words, "source", "script", says=says)
        self.assertEqual([path.name for path in self.room.iterdir()], ["source"])

    # CSV

    def test_encodings(self) -> None:
        for encoding in ("utf-8", "utf-8-sig", "utf-16", "utf-16-le", "utf-16-be"):
            with self.subTest(encoding):
                self.write("source", THREE, encoding)
                self.assertEqual(self.script(), SCRIPT)

    def test_forms_of_lines(self) -> None:
        """Other ends of lines, delimiters and columns, the type that Windows PowerShell prints, and plain paths."""
        plain = THREE.replace(PREFIX, "")
        for text in (
            THREE.replace("\r\n", "\n"),
            "#TYPE Selected.System.Security.AccessControl.DirectorySecurity\r\n" + THREE,
            plain.replace('","', '";"'),
            plain.replace('"', "").replace(",", "\t"),
            plain.replace("C:\\", "\\\\server\\"),
            plain.replace("C:\\", "\\\\?\\C:\\"),
            plain.replace("C:\\", "\\\\?\\UNC\\server\\"),
            THREE.replace('"Path","Sddl"', "path,sddl"),
        ):
            with self.subTest(text[:60]):
                self.write("source", text)
                self.assertEqual(self.script(), SCRIPT)

    def test_kinds(self) -> None:
        """An empty folder is known by an entry for children, or by the column PSIsContainer."""
        header = '"Path","Sddl","PSIsContainer"\r\n'
        rows = f'"C:\\s","{ROOT}","True"\r\n"C:\\s\\d","O:BAG:SYD:P","True"\r\n"C:\\s\\f","O:BAG:SYD:P","False"\r\n'
        self.write("source", header + rows)
        self.assertIn("container /d O", self.script())
        self.assertIn("object /f O", self.script())
        self.refuses(header + rows.replace("False", "Perhaps"), "PSIsContainer is True or False")

    def test_a_missing_root(self) -> None:
        text = csv_of(("C:\\s\\a", FILE), ("C:\\s\\b", FILE))
        self.refuses(text, "no line has 'C:\\\\s', the folder in which all others are")
        self.write("source", text)
        self.assertTrue(self.script("--root", ROOT).startswith(SCRIPT.splitlines()[0]))

    def test_a_missing_folder(self) -> None:
        """What is in it is skipped, and the rest goes on."""
        rows = (("C:\\s", ROOT), ("C:\\s\\a\\b", CHILD), ("C:\\s\\a\\b\\c", FILE), ("C:\\s\\d", FILE))
        self.write("source", csv_of(*rows))
        self.assertIn("import object /d ", self.script(status=1, says="2 skipped"))
        self.assertEqual(self.rows, ["skipped\t/a/b\tno line has its folder\t1"])

    def test_entries_of_other_types(self) -> None:
        """A node has a line without them, and a row with them; so has a file in it that inherited none of them."""
        conditional = "O:BAG:SYD:AI(XA;CI;FX;;;WD;(a))(A;OICIID;FA;;;BA)"
        audited = FILE + "S:AI(AU;SAFA;FA;;;WD)"
        rows = (("C:\\s", ROOT), ("C:\\s\\a", conditional), ("C:\\s\\a\\b", FILE), ("C:\\s\\c", audited))
        self.write("source", csv_of(*rows))
        script = self.script(says="4 lines of nodes, 0 files left out, 0 skipped, 1 differing, 1 SACL kept")
        plain = "O:BAG:SYD:(A;OICIID;FA;;;BA)"
        self.assertIn(f"import container /a {plain}\nimport object /a/b O:BAG:SYD:(A;ID;FA;;;BA)\n", script)
        self.assertIn("import object /c O:BAG:SYD:(A;ID;FA;;;BA)\n", script)
        why = "entries of other types are kept beside the tree: DACL not plain 2 ConditionalAce at 0"
        self.assertEqual(self.rows, [f"differs\t/a\t{why}\t{conditional}\t{plain}"])
        self.assertIn(f"# differs\t/a\t{why}\t{conditional}\n", (self.room / "script").read_text())

    def test_a_null_list_with_flags(self) -> None:
        """AI, AR and P of it are dropped, and what is below it is read too."""
        for flags in ("", "AI", "AR", "P", "PARAI"):
            with self.subTest(flags):
                null = f"O:BAG:SYD:{flags}NO_ACCESS_CONTROL"
                self.write("source", csv_of(("C:\\s", ROOT), ("C:\\s\\n", null), ("C:\\s\\n\\f", "O:BAG:SYD:AI")))
                lines = "import container /n O:BAG:SYD:NO_ACCESS_CONTROL\nimport object /n/f O:BAG:SYD:\n"
                self.assertIn(lines, self.script())

    def test_aliases_of_a_domain(self) -> None:
        self.write("source", csv_of(("C:\\s", "O:DAG:DUD:P(A;;FA;;;DA)")))
        self.assertIn("O:S-1-5-21-1-2-3-512G:S-1-5-21-1-2-3-513D:P", self.script("--domain", "S-1-5-21-1-2-3"))
        self.refuses(csv_of(("C:\\s", "O:DAG:DUD:P(A;;FA;;;DA)")), "can't be the root of a tree")

    def test_files_that_are_invalid(self) -> None:
        a = ("C:\\s", ROOT)
        self.refuses(csv_of(a, ("C:\\s\\b\nimport", FILE)), "line 4: invalid path")
        self.refuses(csv_of(a, ("C:\\s\\b\x1b[1m", FILE)), "line 3: invalid path")
        self.refuses(csv_of(a, ("C:\\s\\..\\b", FILE)), "line 3: invalid path")
        self.refuses(csv_of(a, ("C:\\s\\\\b", FILE)), "line 3: invalid path")
        self.refuses(csv_of(a, ("C:\\s\\b/c", FILE)), "line 3: invalid path")
        self.refuses(csv_of(a, ("C:\\s\\b", FILE), ("C:\\s\\b", FILE)), "line 4: the path")
        self.refuses(csv_of(a, ("C:\\s\\b", FILE), ("c:\\S\\B", FILE)), "of line 3 again")
        self.refuses(HEADER + '"C:\\s","D:\r\n', "line")
        self.refuses(HEADER + '"C:\\s"\r\n', "line 2: it has 1 cells, and the header 2")
        self.refuses('"Path"\r,"Sddl"\n', "line 1: a header with the columns Path and Sddl is required")
        self.refuses('"Path","Path","Sddl"\r\n', "line 1: a header with the columns Path and Sddl is required")
        self.refuses(HEADER, "it has no line with a descriptor")
        self.refuses(b"", "it has no line with a descriptor")

    def test_encodings_that_are_invalid(self) -> None:
        whole = THREE.encode("utf-16")
        self.refuses(whole[:-1], f"invalid UTF-16-LE at byte {len(whole) - 2}")
        self.refuses(whole[:200] + b"\x00\xd8" + whole[200:], "invalid UTF-16-LE at byte 200")
        self.refuses(THREE.encode("latin-1"), f"invalid UTF-8 at byte {THREE.index(chr(233))}")
        self.refuses(whole[:2] + b"\0\0" + whole[2:], "source", "--form", "csv")

    # icacls

    def test_icacls(self) -> None:
        text = "share\r\nD:PAI(A;OICI;FA;;;BA)\r\nshare\\a b\r\nD:AI(A;OICIID;FA;;;BA)\r\n"
        text += "share\\a b\\c%\u00e9.txt\r\nD:AI(A;ID;FA;;;BA)S:AI\r\n"
        for encoding in ("utf-16-le", "utf-16"):
            self.write("source", text, encoding)
            self.assertEqual(self.script("--owner", "BA", "--group", "SY"), SCRIPT)
        self.refuses(text, "it lacks an owner or a group, which --owner gives", encoding="utf-16-le")

    def test_icacls_files_that_are_invalid(self) -> None:
        sids = ("--owner", "BA", "--group", "SY")
        text = "share\r\nD:PAI(A;OICI;FA;;;BA)\r\nshare\\a\nb\r\nD:AI\r\n"
        self.refuses(
            text, "line 4: the descriptor of 'share\\\\a' is expected, and not 'b'", *sids, encoding="utf-16-le"
        )
        self.refuses("share\r\n", "line 2: the descriptor of 'share' is expected", *sids, encoding="utf-16-le")
        self.refuses("D:P\r\nD:P\r\n", "line 1: a path without ':' is expected", *sids, encoding="utf-16-le")

    def test_arguments(self) -> None:
        self.write("source", THREE)
        self.runs(2, "read", "--owner", "nobody", "source", "script", says="--owner 'nobody': sid")
        self.runs(2, "read", "--root", "D:(", "source", "script", says="--root 'D:(': sddl")
        self.runs(3, "read", "none", "script", says="none: No such file")
        self.runs(3, "read", "source", "none/script", says="nothing is written")
        self.runs(2, "read", "--fold", "source", "script", says="unrecognized arguments: --fold")
        os.mkfifo(self.room / "pipe")
        self.runs(3, "read", "source", "pipe", says="pipe: it is no regular file, and isn't replaced")
        self.write("--folders", THREE)
        self.runs(0, "read", "--", "--folders", "--json")
        self.assertIn("open 1", (self.room / "--json").read_text())

    def test_the_progress(self) -> None:
        """On a terminal a line is replaced, and wiped out at the end; elsewhere --progress prints lines."""
        self.write("source", THREE)
        ours, theirs = pty.openpty()
        command = [sys.executable, str(TOOL), "read", "source", "script"]
        with open(ours, "rb", buffering=0) as terminal:
            subprocess.run(command, cwd=self.room, stderr=theirs, check=True)
            os.close(theirs)
            said = b"".join(iter(lambda: all_of(terminal), b""))
        self.assertTrue(said.startswith(b"\r1 of 3 nodes\x1b[K"), said)
        self.assertIn(b"\r\x1b[Kestate: source: 3 nodes", said)
        lines = rig.estate("read", "source", "script", room=self.room).stderr
        asked = rig.estate("read", "--progress", "source", "script", room=self.room).stderr
        self.assertEqual(asked, f"estate: 1 of 3 nodes\n{lines}")

    def test_the_progress_on_a_volume(self) -> None:
        """How many nodes a second, and how many the file system has, unless that can't be."""
        speed = "100 nodes, 50 a second"
        for total, said in ((500, f"{speed}; the whole file system has 500"), (9, speed)):
            with redirect_stderr(io.StringIO()) as lines, patch("progress.time.monotonic", side_effect=(0, 2, 2, 2)):
                progress = Progress(total, is_of_all=True, is_asked=True)
                progress.count = 99
                progress.step()
            self.assertEqual(lines.getvalue(), f"estate: {said}\n")

    def test_too_deep(self) -> None:
        deep = [("C:\\s" + "\\d" * count, ROOT) for count in range(67)]
        self.write("source", csv_of(*deep))
        self.script(status=1, says="2 skipped")
        self.assertIn("too deep: its path has 65 names, and 64 fit; read its folder by itself", self.rows[-1])

    def test_names_that_no_tree_has(self) -> None:
        self.write("source", csv_of(("C:\\s", ROOT), ("C:\\s\\" + "\u4e2d" * 86, FILE)))
        self.script(status=1)
        self.assertIn("the name has 258 bytes, and 255 fit", self.rows[0])


class Icacls(Case):
    def test_changes_as_a_file_of_icacls(self) -> None:
        self.write("source", THREE)
        self.runs(0, "read", "source", "script")
        script = (self.room / "script").read_text()
        self.write("changed", script + "dacl / D:P(A;OICI;FR;;;BU)\npublish\n")
        self.runs(0, "icacls", "--folder", "share", "changed", "new")
        new = (self.room / "new").read_bytes().decode("utf-16-le")
        self.assertEqual(
            new,
            "share\r\nD:PAI(A;OICI;FR;;;BU)\r\nshare\\a b\r\nD:AI(A;OICIID;FR;;;BU)\r\n"
            "share\\a b\\c%\u00e9.txt\r\nD:AI(A;ID;FR;;;BU)\r\n",
        )
        self.runs(0, "read", "--owner", "BA", "--group", "SY", "new", "again")
        self.assertEqual((self.room / "again").read_text(), script.replace("FA;;;BA", "FR;;;BU"))
        self.runs(0, "icacls", "--old", "--folder", "share", "changed", "old")
        self.runs(0, "read", "--owner", "BA", "--group", "SY", "old", "again")
        self.assertEqual((self.room / "again").read_text(), script)

    def test_changes_that_icacls_cannot_make(self) -> None:
        self.write("source", THREE)
        self.runs(0, "read", "source", "script")
        self.write("changed", (self.room / "script").read_text() + "owner / BU\npublish\n")
        lines = self.runs(1, "icacls", "--folder", "share", "changed", "new", says="nothing is written")
        self.assertEqual(lines, ["stop\t/\tits owner or group changes, which icacls /restore doesn't set"])
        self.runs(0, "read", "--folders", "source", "script")
        self.write("changed", (self.room / "script").read_text() + "dacl / D:P\npublish\n")
        lines = self.runs(1, "icacls", "--folder", "share", "changed", "new", says="nothing is written")
        self.assertIn("read without --folders", lines[0])
        self.assertFalse((self.room / "new").exists())
