"""Where the rights of users change from folder to folder, as CSV and in the report. What is expected was worked out by
hand, by [MS-DTYP] 2.5.3.2; and at random by the check of tests/second, of each user and node by itself."""

import contextlib
import csv
import io
import json
import os
import random
import sys
import unittest
import zipfile
from collections.abc import Iterator
from unittest import mock
from xml.etree import ElementTree

import chromium
from rig import Case, needs_program, python_with
from by_hand import ACCOUNTS, ALICE, DAVE, DOMAIN, NAMES, STAFF, TREE, token_of
from command_line import main
from matrix import Matrix
from paths import names_in
from people import People
from rights import in_few_words
from script import read_script
from second import Entry, Node, Tree, sid_text, verdict
from table import safe

#: Everybody at the root, and at the other nodes those whose rights are others than in the folder.
ROOT = {
    "alice": ("read", 0x120089), "bob": ("read", 0x120089), "dave": ("none", 0), "eve": ("none", 0),
    "guest": ("none", 0), "other": ("none", 0), "anonymous": ("none", 0), "system": ("full control", 0x1F01FF),
    "local": ("none", 0), "network": ("none", 0),
}  # fmt: skip
OF_OWNER = "read permissions, change permissions"
ALL_BUT_DATA = "read extended attributes, read attributes, read permissions, synchronize"
CHANGES = {
    "/": ROOT,
    "/a%20b/c": {"alice": (ALL_BUT_DATA, 0x120088), "dave": (OF_OWNER, 0x60000)},
    "/d": {"alice": ("full control", 0x1F01FF), "bob": ("none", 0), "system": (OF_OWNER, 0x60000)},
}
SPREADSHEET = "{http://schemas.openxmlformats.org/spreadsheetml/2006/main}"
HEADER = ["path", "user", "SID", "rights", "mask"]
#: Names that a file of accounts may have, and how a cell has them.
ODD = {
    '=cmd|\' /C calc\'!A1': '\'=cmd|\' /C calc\'!A1',
    "=1+1": "'=1+1", "@SUM(A1)": "'@SUM(A1)", "-2": "'-2", "+3": "'+3", "\uff1d4": "'\uff1d4", ' "=5': ' "\'=5',
    'a "quoted", name': 'a "quoted", name', "b;=6": "b;'=6", 'c,"@7': 'c,"\'@7', "<script>alert(1)</script>": None,
    "</script><img src=x onerror=alert(1)>": None, "tab\u2028line\u0085next": "tab\\u2028line\\x85next", "'": None,
}  # fmt: skip
#: What a spreadsheet takes for the beginning of a formula.
FORMULA = tuple("=+-@\uff1d\uff0b\uff0d\uff20\t\r")
#: Seconds of a processor until a report of so many users and nodes can be used.
SECONDS, USERS, NODES = 2.0, 2_000, 20_000


def rows_of(text: str, delimiter: str = ",") -> list[list[str]]:
    return list(csv.reader(io.StringIO(text, newline=""), delimiter=delimiter))


def wanted_at(path: str) -> list[list[str]]:
    """The rows of a node in the CSV."""
    return [[path, *NAMES[name], words, f"{bits:#x}"] for name, (words, bits) in CHANGES[path].items()]


@needs_program
class Sheet(Case):
    def csv(self, status: int, script: str, accounts: str = ACCOUNTS) -> str:
        self.write("script", script)
        self.write("accounts", accounts)
        self.runs(status, "report", "script", "page.html", "--accounts", "accounts", "--matrix", "sheet.csv")
        return (self.room / "sheet.csv").read_bytes().decode()

    def test_by_hand(self) -> None:
        """The root has a line for each user, other nodes for each whose rights differ from those in the folder."""
        text = self.csv(0, TREE)
        self.assertEqual(rows_of(text), [HEADER, *(row for path in CHANGES for row in wanted_at(path))])
        # (RFC 4180: lines end with CR LF, and cells with commas are in quotes)
        lines = text.split("\r\n")
        self.assertEqual((lines[0], lines[-1], text.count("\n")), ("path,user,SID,rights,mask", "", len(lines) - 1))
        self.assertIn(f'/d,NT AUTHORITY\\SYSTEM,S-1-5-18,"{OF_OWNER}",0x60000', lines)

    def test_after_the_changes(self) -> None:
        """The node inherits what the root passes down, and has an entry of its own for alice's group."""
        rows = rows_of(self.csv(0, f"{TREE}dacl /d D:(A;;0x1200a9;;;{STAFF})\npublish\n"))
        wanted = ["/d", *NAMES["alice"], "read and execute", "0x1200a9"]
        self.assertEqual(rows[1 + len(ROOT) :], [*wanted_at("/a%20b/c"), wanted])

    def test_what_is_left_out(self) -> None:
        gaps = "# files\t/a%20b\t3\n# skipped\t/x%0A\t=its list\t2\n# differs\t/d\tit has other entries\n# rows\t3\n"
        rows = rows_of(self.csv(4, TREE.replace("# rows\t0\n", gaps)))
        self.assertEqual(
            rows[-3:],
            [
                ["/a%20b", "", "", "left out: 3 files without a line", ""],
                ["/x%0A", "", "", "left out: not read, and 2 nodes below: =its list", ""],
                ["/d", "", "", "left out: another list: it has other entries", ""],
            ],
        )

    def test_paths(self) -> None:
        """They are spelled as in a script, where any character may be percent-encoded."""
        names = {"=a": "=a", "b,-c": "b,%2Dc", 'd;"@e': 'd;"%40e', "f|+g": "f|%2Bg", "h-i=j": "h-i=j"}
        names["k, =l"] = "k,%20=l"
        lines = "".join(f"import object /{name.replace(' ', '%20')} O:{DAVE}G:SYD:P\n" for name in names)
        rows = rows_of(self.csv(0, f"open 1 O:BAG:SYD:P\n{lines}# rows\t0\npublish\n"))
        found = list(dict.fromkeys(row[0] for row in rows[1:]))
        self.assertEqual(sorted(found), sorted(["/", *(f"/{cell}" for cell in names.values())]))
        self.assertEqual({names_in(path) for path in found if path != "/"}, {(name.encode(),) for name in names})

    def test_names_that_are_more_than_names(self) -> None:
        """None is a formula, a cell or a line of its own: of the CSV, however it is split, and of the rows of who."""
        users = {name: f"{DOMAIN}-{2000 + at}" for at, name in enumerate(ODD)}
        accounts = "".join(f"user {sid} {name}\n" for name, sid in users.items())
        text = self.csv(0, "open 1 O:BAG:SYD:(A;;0x1;;;AU)\n# rows\t0\npublish\n", accounts)
        header, *rows = rows_of(text)
        self.assertEqual(header, HEADER)
        shown = {name: name if cell is None else cell for name, cell in ODD.items()}
        wanted = [["/", shown[name], sid, "read or list", "0x1"] for name, sid in users.items()]
        self.assertEqual(rows[: len(ODD)], wanted)
        cells = [cell for delimiter in ",;|" for row in rows_of(text, delimiter) for cell in row]
        self.assertEqual([cell for cell in cells if cell.lstrip(' "').startswith(FORMULA)], [])
        told = self.runs(0, "who", "script", "/", "0x1", "--accounts", "accounts")
        people = [row.split("\t") for row in told if row.startswith("person\t")]
        self.assertEqual([cells[4] for cells in people[: len(ODD)]], list(users.values()))
        self.assertEqual({len(cells) for cells in people}, {6})


@needs_program
class InAWorkbook(Case):
    """The same rows as of CSV, read from the workbook as Office Open XML has them."""

    def cells(self, accounts: str) -> list[list[tuple[str, str]]]:
        """Of each row of the first sheet the types and the texts."""
        self.write("script", TREE)
        self.write("accounts", accounts)
        found = python_with("openpyxl")
        if found is None:
            self.skipTest("no Python here has openpyxl")
        self.python = found
        self.runs(0, "report", "script", "page.html", "--accounts", "accounts", "--matrix", "sheet.xlsx")
        with zipfile.ZipFile(self.room / "sheet.xlsx") as parts:
            sheet = ElementTree.fromstring(parts.read("xl/worksheets/sheet1.xml"))
        rows = sheet.iter(f"{SPREADSHEET}row")
        return [[(cell.get("t", ""), "".join(cell.itertext())) for cell in row] for row in rows]

    def test_by_hand(self) -> None:
        rows = self.cells(ACCOUNTS)
        self.assertEqual({kind for row in rows for kind, _ in row}, {"inlineStr"})
        wanted = [HEADER, *(row for path in CHANGES for row in wanted_at(path))]
        self.assertEqual([[text for _, text in row] for row in rows], wanted)

    def test_no_cell_is_a_formula(self) -> None:
        users = {name: f"{DOMAIN}-{2000 + at}" for at, name in enumerate(ODD)}
        rows = self.cells("".join(f"user {sid} {name}\n" for name, sid in users.items()))
        self.assertEqual({kind for row in rows for kind, _ in row}, {"inlineStr"})
        shown = [safe(name) for name in users]
        self.assertEqual([row[1][1] for row in rows[1 : 1 + len(users)]], shown)

    def test_without_the_package(self) -> None:
        self.write("script", TREE)
        self.write("accounts", ACCOUNTS)
        words = ["report", "script", "page.html", "--accounts", "accounts", "--matrix", "sheet.XLSX"]
        with mock.patch.dict(sys.modules, openpyxl=None), contextlib.chdir(self.room):
            told = io.StringIO()
            with contextlib.redirect_stderr(told):
                status = main(words)
        self.assertEqual((status, sorted(os.listdir(self.room))), (2, ["accounts", "script"]))
        self.assertIn("install python3-openpyxl", told.getvalue())


class AtRandom(Case):
    """The rows and the page's data, beside the second implementation of inheritance and the check."""

    def test_each_user_and_node(self) -> None:
        for seed in range(6):
            with self.subTest(seed):
                self.compare(random.Random(seed))

    def compare(self, pick: random.Random) -> None:
        users = [(5, (21, 1, 2, 3, number)) for number in range(1000, 1012)]
        groups = [(5, (21, 1, 2, 3, number)) for number in range(2000, 2008)]
        pairs = {(pick.choice(groups), pick.choice(users + groups)) for _ in range(24)}
        lines = [f"user {sid_text(user)} u{at}" for at, user in enumerate(users)]
        lines += [f"member {sid_text(group)} {sid_text(member)}" for group, member in pairs]
        accounts = self.write("accounts", "\n".join(lines))
        tree = tree_at_random(pick, users + groups)
        with read_script(str(self.write("script", script_of(tree)))) as script, People(str(accounts)) as people:
            matrix = Matrix(script, people)
            paths = sorted(script.nodes)
            page = json.loads(json.dumps(matrix.page()))
        wanted = {path: [said(tree, path, token_of(user, pairs)) for user in users] for path in tree.nodes}
        shown = {paths[number]: words for number, words in self.shown(page)}
        for path in paths:
            names = tuple(name.decode() for name in path)
            with self.subTest(path):
                row = row_at(path, shown)
                self.assertEqual(row[: len(users)], wanted[names])
                # (a node with a row has others than its folder)
                self.assertTrue(not path or path not in shown or row != row_at(path[:-1], shown))

    @staticmethod
    def shown(page: dict[str, list[object]]) -> Iterator[tuple[int, list[str]]]:
        """Of each row the node's number, and what it says of each user."""
        column = {user: at for at, users in enumerate(page["groups"]) for user in users}
        for node, number in page["rows"]:
            runs = page["lists"][number]
            words = [page["words"][word] for word, count in zip(runs[::2], runs[1::2]) for _ in range(count)]
            yield node, [words[column[user]] for user in range(len(page["users"]))]


def row_at(path: tuple[bytes, ...], shown: dict[tuple[bytes, ...], list[str]]) -> list[str]:
    """What the page says of a node: without a row it has what its folder has."""
    while path not in shown:
        path = path[:-1]
    return shown[path]


def tree_at_random(pick: random.Random, trustees: list[tuple[int, tuple[int, ...]]]) -> Tree:
    """A few folders in each other, with entries of which children inherit some."""

    def entry() -> Entry:
        flags, bits = pick.choice((0, 3, 3)), pick.choice((0x1, 0x3, 0x120089))
        return Entry(pick.choice("AAD"), flags, bits, pick.choice(trustees))

    def entries() -> list[Entry]:
        return sorted((entry() for _ in range(pick.randrange(3))), key=lambda entry: entry.kind != "D")

    nodes = {(): Node(True, trustees[0], trustees[0], (True, entries()))}
    for number in range(20):
        above = pick.choice([path for path in nodes if len(path) < 4])
        nodes[*above, f"n{number}"] = Node(True, pick.choice(trustees), trustees[0], (pick.random() < 0.2, entries()))
    return Tree(nodes)


def script_of(tree: Tree) -> str:
    first, *others = sorted(tree.nodes)
    lines = [f"import container /{'/'.join(path)} {tree.shown(path)}" for path in others]
    return "\n".join([f"open 1 {tree.given(first)}", *lines, "# rows\t0", "publish", ""])


def said(tree: Tree, path: tuple[str, ...], token: object) -> str:
    """What the second implementation grants of all rights, in words."""
    found = verdict(tree.nodes[path].owner, tree.dacl(path), token, 0x02000000)
    return in_few_words(int(found.split(" ")[1], 16)) if found.startswith("granted") else "none"


class Room(Case):
    @needs_program
    def test_a_page_without_room(self) -> None:
        """What the page has no room for is a row, the page says it, and the CSV has all."""
        self.write("script", TREE)
        self.write("accounts", ACCOUNTS)
        words = [str(self.room / name) for name in ("script", "page", "accounts", "sheet")]
        out = io.StringIO()
        with mock.patch("matrix._MOST_RUNS", 1), contextlib.redirect_stdout(out):
            status = main(["report", *words[:2], "--accounts", words[2], "--matrix", words[3]])
        why = "from here on the page has no room for nodes where rights of users differ: --matrix FILE writes all"
        self.assertEqual((status, out.getvalue()), (4, f"cut\t/a%20b/c\t{why}\t2\n"))
        page = (self.room / "page").read_text()
        data = json.loads(page.partition('<script id="data" type="application/json">')[2].partition("</script>")[0])
        self.assertEqual((data["people"]["rows"], data["people"]["leftOut"]), ([[0, 0]], [["/a%20b/c", 2]]))
        rows = rows_of((self.room / "sheet").read_bytes().decode())
        self.assertEqual({row[0] for row in rows[1:]}, set(CHANGES))

    def test_words(self) -> None:
        for rights, words in (
            (0, "none"), (0x1F01FF, "full control"), (0x1301BF, "modify"), (0x1200A9, "read and execute"),
            (0x1201BF, "read and execute, write"), (0x1301FF, "modify, delete children"),
            (0x1600A9, "read and execute, change permissions"), (0x60000, OF_OWNER), (0x120289, "read, 0x200"),
        ):  # fmt: skip
            self.assertEqual(in_few_words(rights), words)


@needs_program
@unittest.skipUnless(chromium.found(), "the package chromium is required")
class Table(Case):
    def page(self, script: str, accounts: str, status: int = 0) -> chromium.Page:
        self.write("script", script)
        self.write("accounts", accounts)
        self.runs(status, "report", "script", "report.html", "--accounts", "accounts")
        page = chromium.Page(self.room / "report.html")
        self.addCleanup(page.__exit__)
        return page

    def cells(self, page: chromium.Page) -> list[list[str]]:
        texts = "(row) => [...row.children].map((cell) => cell.innerText)"
        rows = page.value(f"[...document.querySelectorAll('#people tr')].map({texts})")
        return [[cell.replace("\n", "|") for cell in row] for row in rows]

    def search(self, page: chromium.Page, words: str) -> None:
        field = "document.getElementById('people-words')"
        page.value(f"{field}.value = {words!r}; {field}.dispatchEvent(new Event('input'))")

    def test_the_table(self) -> None:
        """Users with the same rights everywhere have one column, and the last one is of those who have none."""
        page = self.page(TREE, ACCOUNTS)
        none = r"EXAMPLE\eve|EXAMPLE\Guest|OTHER\bob|and 3 more"
        self.assertEqual(
            self.cells(page),
            [
                ["Node", r"EXAMPLE\alice", r"EXAMPLE\bob", r"EXAMPLE\dave", r"NT AUTHORITY\SYSTEM", none],
                ["/", "read", "read", "none", "full control", "none"],
                ["/a b/c", f"{ALL_BUT_DATA}|above: read", "read", f"{OF_OWNER}|above: none", "full control", "none"],
                [
                    "/d", "full control|above: read", "none|above: read", "none", f"{OF_OWNER}|above: full control",
                    "none",
                ],  # fmt: skip
            ],
        )
        said = page.value("document.getElementById('people').innerText")
        self.assertIn("10 users that may log on, of which 6 may do nothing. 3 nodes where somebody has", said)
        page.value("document.querySelector('#people thead button').click()")
        self.assertEqual(self.cells(page)[0][-1].count("|"), 5)
        self.search(page, DAVE)
        self.assertEqual(self.cells(page)[0], ["Node", r"EXAMPLE\dave"])
        self.search(page, "LOCAL")
        found = r"NT AUTHORITY\LOCAL SERVICE|EXAMPLE\eve|EXAMPLE\Guest|and 3 more"
        self.assertEqual(self.cells(page)[0], ["Node", found])
        self.search(page, "nobody")
        self.assertIn("No user of the file has such a name", page.value("document.getElementById('people').innerText"))
        page.value("document.querySelectorAll('#people tbody button')[2].click()")
        self.assertEqual(page.value("document.getElementById('node-title').textContent"), "/d")
        self.assertEqual(page.faults(), [])

    def test_names_are_texts(self) -> None:
        accounts = "".join(f"user {DOMAIN}-{2000 + at} {name}\n" for at, name in enumerate(ODD))
        lists = "".join(f"(A;;{1 << at % 9:#x};;;{DOMAIN}-{2000 + at})" for at in range(len(ODD)))
        page = self.page(f"open 1 O:BAG:SYD:{lists}\n# rows\t0\npublish\n", accounts)
        self.assertEqual(page.value("document.querySelectorAll('img, link, iframe, script[src]').length"), 0)
        names = page.value("[...document.querySelectorAll('#people thead div')].map((one) => one.textContent)")
        self.assertIn("</script><img src=x onerror=alert(1)>", names)
        self.assertIn("tab\\u2028line\\x85next", names)
        self.assertEqual(page.faults(), [])

    def test_many_users_and_nodes(self) -> None:
        """Homes, of which each user owns one: columns, rows and bytes stay few."""
        users = [f"{DOMAIN}-{10_000 + at}" for at in range(USERS)]
        accounts = "".join(f"user {sid} EXAMPLE\\user{at}\nmember BU {sid}\n" for at, sid in enumerate(users))
        lines = ["open 1 O:BAG:SYD:P(A;OICI;FA;;;BA)(A;OICI;0x1200a9;;;BU)"]
        homes = [f"O:{sid}G:SYD:P(A;OICI;FA;;;BA)(A;OICI;FA;;;{sid})" for sid in users]
        lines += [f"import container /home{at} {text}" for at, text in enumerate(homes)]
        for at in range(NODES - USERS - 1):
            sid = users[at % USERS]
            below = f"O:BAG:SYD:(A;OICIID;FA;;;BA)(A;OICIID;FA;;;{sid})"
            lines.append(f"import container /home{at % USERS}/n{at} {below}")
        page = self.page("\n".join([*lines, "# rows\t0", "publish", ""]), accounts)
        self.assertEqual(page.value("data.people.users.length"), USERS + 4)
        self.assertEqual(page.value("data.people.rows.length"), USERS + 1)
        self.assertEqual(page.value("document.querySelectorAll('#people tbody tr').length"), 200)
        seconds, size = page.processor_seconds(), (self.room / "report.html").stat().st_size
        print(f"a report of {USERS:,} users and {NODES:,} nodes: {size:,} bytes, {seconds:.2f} s of a processor")
        self.assertLess(seconds, SECONDS)
