"""Trees of more nodes than sdstore takes by default: what it is asked then, how many are too many, and how much memory
a node takes."""

import io
import os
import subprocess
import sys
from unittest import mock

from rig import TOOL, Case, needs_program
from test_texts import CHILD, FILE, ROOT, csv_of

import limits
import reading
from exclusion import Exclusion
from errors import Invalid
from progress import Progress
from table import Table
from texts import Assumed, TextFile

#: Nodes of a script, in folders of so many files.
NODES, IN_FOLDER = 70_000, 499
USER = "S-1-5-21-1-2-3-1001"
#: No answer takes more bytes of memory for each node.
BYTES = 600
ALL = f"of {NODES:,} nodes {NODES:,} answered, none left out"


def script_of(count: int) -> str:
    """A script of so many nodes: a user may change each tenth folder, and what is in it."""
    lines = ["open 1 O:BAG:SYD:P(A;OICI;FA;;;BA)"]
    for number in range(count // (IN_FOLDER + 1)):
        own, below = ("(A;OICI;0x2;;;WD)", "(A;ID;0x2;;;WD)") if number % 10 == 0 else ("", "")
        lines.append(f"import container /d{number:04} O:BAG:SYD:{own}(A;OICIID;FA;;;BA)")
        line = f"import object /d{number:04}/f{{}} O:BAG:SYD:{below}(A;ID;FA;;;BA)"
        lines += [line.format(f"{file:04}") for file in range(IN_FOLDER)]
    return "\n".join([*lines[:count], "# rows\t0", "publish", ""])


class Limits(Case):
    def test_options(self) -> None:
        """Only what is more than by default is said to sdstore."""
        self.assertEqual(limits.options_for(65_536), [])
        self.assertEqual(limits.options_for(65_537), ["--nodes", "65537"])
        self.assertEqual(limits.options_for(1_048_577), ["--nodes", "1048577", "--edits", "4294967296"])
        self.assertIsNone(limits.requirement_of(65_536, 16_777_216))
        self.assertIn("'sdstore --percent --nodes 65537 script'", limits.requirement_of(65_537, 16_777_216) or "")
        self.assertIn("'sdstore --percent serve'", limits.requirement_of(1, 16_777_217) or "")

    def test_the_head(self) -> None:
        """The script itself says what it is for, in a comment of one line."""
        self.write("source", csv_of(("C:\\s", ROOT)))
        self.runs(0, "read", "source", "script")
        head = (self.room / "script").read_text().splitlines()[:2]
        self.assertTrue(all(line.startswith("# ") for line in head), head)
        self.assertIn("'sdstore --percent --nodes 16777216 --edits 4294967296 script'", head[1])

    def test_too_many(self) -> None:
        """Nothing is written, and the error says what helps."""
        rows = (("C:\\s", ROOT), ("C:\\s\\a", CHILD), ("C:\\s\\a\\b", FILE), ("C:\\s\\c", FILE))
        source = TextFile(str(self.write("source", csv_of(*rows))), None, Assumed())
        made = reading.Reading(io.BytesIO(), Table(False, str, io.StringIO()), False)
        with mock.patch.object(reading, "MAX_NODES", 3), self.assertRaises(Invalid) as refused:
            made.run(source.walk(Exclusion([])), Progress(0))
        says = "more than 3 nodes, which is what fits: read its folders alone by --folders"
        self.assertIn(says, str(refused.exception))
        with mock.patch.object(reading, "MAX_NODES", 3):
            made = reading.Reading(io.BytesIO(), Table(False, str, io.StringIO()), False)
            self.assertEqual(made.run(source.walk(Exclusion(["c"])), Progress(0)).lines, 3)


class Many(Case):
    def test_read(self) -> None:
        """What a script of so many nodes is for by hand is said at the end."""
        rows = [("C:\\s", ROOT), *((f"C:\\s\\f{number:05}", FILE) for number in range(NODES - 1))]
        self.write("source", csv_of(*rows))
        says = f"estate: by hand the script goes to 'sdstore --percent --nodes {NODES} script'"
        self.runs(0, "read", "source", "script", says=says)

    def test_plan(self) -> None:
        self.write("changed", script_of(NODES) + "dacl /d0001 D:P\npublish\n")
        self.runs(0, "plan", "changed", says=f"{IN_FOLDER + 1} nodes of the script would change")

    @needs_program
    def test_answers(self) -> None:
        self.write("script", script_of(NODES))
        ran = self.runs(0, "find", "script", "/", USER, "0x2", says=f"7,000 nodes; {ALL}")
        self.assertEqual(ran[1:4], ["found\t/d0000", "found\t/d0000/f0000", "found\t/d0000/f0001"])

    @needs_program
    def test_the_report(self) -> None:
        self.write("script", script_of(NODES))
        self.runs(0, "report", "script", "page", says=f"{NODES:,} nodes in page; {ALL}")

    @needs_program
    def test_memory(self) -> None:
        for words in (["find", "script", "/", USER, "0x2"], ["lint", "script"], ["report", "script", "page"]):
            with self.subTest(words[0]):
                one, many = (self.most_memory(count, words) for count in (1, NODES))
                self.assertLessEqual((many - one) / NODES, BYTES)

    def most_memory(self, nodes: int, words: list[str]) -> int:
        """The most bytes that estate has at once, for a script of so many nodes."""
        self.write("script", script_of(nodes))
        quiet = {"stdout": subprocess.DEVNULL, "stderr": subprocess.DEVNULL}
        with subprocess.Popen([sys.executable, TOOL, *words], cwd=self.room, **quiet) as running:
            _, status, used = os.wait4(running.pid, 0)
            running.returncode = os.waitstatus_to_exitcode(status)
        self.assertLess(running.returncode, 2)
        return used.ru_maxrss << 10
