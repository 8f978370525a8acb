"""Questions of which each is a line of standard input. What they answer was worked out by hand for test_questions.py,
test_people.py and test_gaps.py; here it is how a program asks and reads them."""

import json
import os
import subprocess
import sys
from collections.abc import Iterator
from pathlib import Path

from rig import PATIENCE, TOOL, Case, needs_program
from by_hand import ACCOUNTS, TREE
from test_gaps import ASSUMED
from test_questions import ALICE, CHANGE, SCRIPT

NONE = "of {} answered, none left out"
#: Questions, the rows of their answers, and the ends of these, but for the number of the line.
ASKED = (
    (f"find / {ALICE} 0x1 BU", [ASSUMED, "found\t/", "found\t/a%20b", "found\t/a%20b/c"],
     f"0\t3 nodes; {NONE.format('4 nodes 4')}"),
    ("who / 0x2", [ASSUMED, "who\t/\t0x2\tS-1-5-32-544"], f"0\t1 line; {NONE.format('1 node 1')}"),
    (f"find\t/a%20b/c\t{ALICE}\t0x1\tBU", [ASSUMED, "found\t/a%20b/c"], f"0\t1 node; {NONE.format('1 node 1')}"),
    (f"find /d {ALICE} 0x1", [ASSUMED], f"0\t0 nodes; {NONE.format('1 node 1')}"),
    ("who /a%20b/c 0x1 BG=deny", [ASSUMED, "who\t/a%20b/c\t0x1\tnobody"], f"0\t1 line; {NONE.format('1 node 1')}"),
)  # fmt: skip
#: Lines that are no questions, and how each answer says why.
WRONG = (
    (b"", "the line has an empty word"),
    (b"find  / S-1-5-18 0x1", "the line has an empty word"),
    (b" who / 0x1", "the line has an empty word"),
    (b"who\t/\t0x1\t", "the line has an empty word"),
    (b"#", "#: not a question: 'who PATH MASK [ARG ..]' or 'find PATH USER MASK [ARG ..]' is expected"),
    (b"who /", "who: not a question"),
    (b"find / S-1-5-18", "find: not a question"),
    (b"Who / 0x1", "Who: not a question"),
    (b"publish", "publish: not a question"),
    (b"dacl / D:(A;;FA;;;WD)", "dacl: not a question"),
    (b"review", "review: not a question"),
    (b"--json", "--json: not a question"),
    (b"-h / 0x1", "-h: not a question"),
    (b"who / --json", "sdstore who: fault mask"),
    (b"who / 0x1 --only-given", "sdstore who: fault token"),
    (b"who / 0x1 --accounts", "sdstore who: fault token"),
    (b"who / 0x1 -- -h", "sdstore who: fault token"),
    (b"who --help 0x1", "--help: a path begins with '/'"),
    (b"who /none 0x1", "/none: the script has no such node"),
    (b"who / 0", "sdstore who: fault mask"),
    (b"find / --help 0x1", "sdstore find: fault sid"),
    (b"find / alice 0x1", "sdstore find: fault sid"),
    (b"find / S-1-5-18 XX", "sdstore find: fault mask"),
    (b"find / S-1-5-18 0x1 --percent", "sdstore find: fault token"),
    (b"find\t/\tan account\t0x1", "'an account': not an argument"),
    (b"find / S-1-5-18 0x1 BU\rpublish", "'BU\\rpublish': not an argument"),
    (b"find / S-1-5-18 0x1 BU\x0bpublish", "'BU\\x0bpublish': not an argument"),
    (b"find / S-1-5-18 0x1 \0", "'\\x00': not an argument"),
    (b"who / 0x1 \0", "'\\x00': not an argument"),
    (b"who / \xc3\xa9", "'\\xe9': not an argument"),
    (b"who /\0 0x1", "/\\x00: the name has a '/' or a zero byte"),
    (b"who / \xff", "the line isn't UTF-8"),
    (b"\xff\xfew\0h\0o\0", "the line isn't UTF-8"),
    (b"who / 0x1" + b" BU" * 400_000, "the line has more than 1,048,576 bytes"),
)


def asked(room: Path, given: bytes, *words: str, **more: str) -> "subprocess.CompletedProcess[bytes]":
    command = [sys.executable, TOOL, "ask", *words]
    return subprocess.run(
        command, input=given, cwd=room, capture_output=True, timeout=PATIENCE, env={**os.environ, **more}
    )


def answers_in(text: bytes) -> Iterator[list[str]]:
    """The rows of each answer, of which the last one is its end."""
    rows: list[str] = []
    for row in text.decode().splitlines():
        rows.append(row)
        if row.startswith("end\t"):
            yield rows
            rows = []
    assert not rows, rows


@needs_program
class Asked(Case):
    def setUp(self) -> None:
        super().setUp()
        self.write("script", SCRIPT)

    def ask(self, status: int, given: str | bytes, *words: str, says: str = "", **more: str) -> list[list[str]]:
        ran = asked(self.room, given.encode() if isinstance(given, str) else given, *words, **more)
        self.assertEqual(ran.returncode, status, f"{ran.stdout[-2000:]!r}{ran.stderr[-2000:]!r}")
        self.assertIn(says, ran.stderr.decode())
        self.assertNotIn("Traceback", ran.stderr.decode())
        return list(answers_in(ran.stdout))

    def test_each_line(self) -> None:
        """With the rows that the command of its name has; the last one needs no end, and one may end as in Windows."""
        given = "\r\n".join(line for line, _, _ in ASKED)
        wanted = [[*rows, f"end\t{number}\t{end}"] for number, (_, rows, end) in enumerate(ASKED, 1)]
        self.assertEqual(self.ask(0, given, "script", says="5 questions, 0 without an answer"), wanted)
        self.write("changed", SCRIPT + CHANGE)
        # (of one node the user is the owner, and of the other one the group that it is in)
        answers = self.ask(0, f"find / {ALICE} 0x40000 BU\nwho /a%20b/c 0x1\n", "changed")
        wanted = [["found\t/a%20b/c", "found\t/d"], ["who\t/a%20b/c\t0x1\tS-1-5-32-544\tS-1-5-32-546"]]
        self.assertEqual([rows[1:-1] for rows in answers], wanted)
        self.assertEqual(self.ask(0, "who / 0x2\n", "--only-given", "script")[0][0], "assumed\tnone")

    def test_wrong_lines(self) -> None:
        """Each has its number and its reason, none is an option or a command, and the lines after it are answered."""
        line, rows, end = ASKED[0]
        given = b"".join(wrong + b"\n" + line.encode() + b"\n" for wrong, _ in WRONG)
        answers = self.ask(2, given, "script", says=f"{2 * len(WRONG)} questions, {len(WRONG)} without an answer")
        for number, (_, why) in enumerate(WRONG):
            with self.subTest(why):
                *before, error, last = answers[2 * number]
                self.assertIn(before, ([], [ASSUMED]))
                self.assertEqual(error.split("\t")[:2], ["error", f"{2 * number + 1}"])
                self.assertIn(why, error.split("\t")[2])
                self.assertEqual(last, f"end\t{2 * number + 1}\t2\tno answer")
                self.assertEqual(answers[2 * number + 1], [*rows, f"end\t{2 * number + 2}\t{end}"])
        self.assertEqual(self.ask(2, "", "script", says="standard input: no question"), [])

    def test_objects(self) -> None:
        ran = asked(self.room, b"who / 0x2\nfind / nobody 0x1\n", "--json", "script")
        self.assertEqual(ran.returncode, 2)
        assumed = {"what": "assumed", "groups": "S-1-1-0 S-1-5-11"}
        says = NONE.format("1 node 1")
        self.assertEqual(
            list(map(json.loads, ran.stdout.splitlines())),
            [
                assumed,
                {"what": "who", "path": "/", "rights": "0x2", "to": "S-1-5-32-544"},
                {"what": "answered", "lines": 1, "of": 1, "answered": 1, "left_out": 0},
                {"what": "end", "line": 1, "status": 0, "text": f"1 line; {says}"},
                assumed,
                {"what": "error", "line": 2, "why": "sdstore find: fault sid"},
                {"what": "end", "line": 2, "status": 2, "text": "no answer"},
                {"what": "asked", "questions": 2, "errors": 1},
            ],
        )

    def test_by_people(self) -> None:
        """A name with a space is between tabs; groups are those of the accounts."""
        self.write("accounts", ACCOUNTS)
        self.write("tree", TREE)
        given = (
            "find\t/\tNT AUTHORITY\\SYSTEM\t0x2\nfind / EXAMPLE\\alice 0x2\nfind / carol 0x1\nfind / alice 0x1 BU\n"
            "who /d 0x2 AU\nwho /d 0x2\n"
        )
        answers = self.ask(2, given, "--accounts", "accounts", "tree", says="6 questions, 3 without an answer")
        found = [[row.removeprefix("found\t") for row in rows[:-1]] for rows in answers[:2]]
        self.assertEqual(found, [["/", "/a%20b", "/a%20b/c"], ["/d"]])
        whys = ("its account is disabled", "BU: by --accounts each user", "AU: by --accounts each user")
        for rows, why in zip(answers[2:5], whys):
            self.assertEqual(len(rows), 2)
            self.assertIn(why, rows[0])
        self.assertEqual([row.split("\t")[0] for row in answers[5]], ["assumed", "who", "person", "end"])
        words = ("--accounts", "accounts", "--only-given", "tree")
        self.ask(2, "who /d 0x2\n", *words, says="1 question, 1 without an answer")
        self.assertEqual(self.ask(3, "who /d 0x2\n", "--accounts", "none", "tree", says="none: No such file"), [])

    def test_what_is_left_out(self) -> None:
        """Each answer has its own coverage, and the worst status is that of all."""
        row = "differs\t/a%20b\tit inherits otherwise than its folder passes down"
        self.write("script", SCRIPT.replace("# rows\t0", f"# {row}\n# rows\t1"))
        given = f"who /d 0x2\nfind / {ALICE} 0x2\nwho /a%20b 0x2\n"
        answers = self.ask(4, given, "script", says="3 questions, 0 without an answer")
        one = "of 1 node 0 answered; 1 can't be: 1 that the source has otherwise"
        self.assertEqual(answers[0][-1], f"end\t1\t0\t1 line; {NONE.format('1 node 1')}")
        self.assertEqual(answers[1][-2], row)
        self.assertRegex(answers[1][-1], "^end\t2\t4\t0 nodes; of 4 nodes 3 answered; 1 can't be: 1 that")
        self.assertEqual(answers[2][-2:], [row, f"end\t3\t4\t1 line; {one}"])
        self.ask(2, f"{given}who\n", "script")

    def test_a_program_that_fails(self) -> None:
        """The status is 3, and the next line is answered."""
        answers = self.ask(3, f"find / {ALICE} 0x1\nwho\n", "script", SDSTORE="/bin/false")
        error = "error\t1\t/bin/false: 0 answers to 4: it is no sdstore of this version"
        self.assertEqual(answers[0][1:], [error, "end\t1\t3\tno answer"])
        self.assertEqual(answers[1][-1], "end\t2\t2\tno answer")
        # (answers that aren't the program's are none)
        refusing = self.write("refusing", "#!/bin/sh\nwhile read -r line; do echo refused 3 Exists; done\n")
        refusing.chmod(0o755)
        answers = self.ask(3, f"find / {ALICE} 0x1\n", "script", SDSTORE=str(refusing))
        self.assertIn("it is no sdstore of this version", answers[0][1])
        answers = self.ask(3, f"find / {ALICE} 0x1\n", "script", SDSTORE="/none")
        self.assertEqual(answers[0][1], "error\t1\t/none: No such file or directory")

    def test_line_by_line(self) -> None:
        """Each is answered before the next one is written."""
        with subprocess.Popen(
            [sys.executable, TOOL, "ask", "script"],
            stdin=subprocess.PIPE,
            stdout=subprocess.PIPE,
            stderr=subprocess.DEVNULL,
            cwd=self.room,
            text=True,
        ) as asking:
            assert asking.stdin is not None and asking.stdout is not None
            for number, (line, rows, end) in enumerate(ASKED, 1):
                print(line, file=asking.stdin, flush=True)
                for wanted in (*rows, f"end\t{number}\t{end}"):
                    self.assertEqual(asking.stdout.readline(), f"{wanted}\n")
            asking.stdin.close()
            self.assertEqual(asking.wait(PATIENCE), 0)
