"""Entries of other types than allow and deny, on NTFS volumes: they are read beside the tree, answers name their nodes,
and a write puts them back. Their bytes are laid out by hand after [MS-DTYP] 2.4.4, allows and denies are those of
tests/second, and each stands where 2.4.5 has it."""

import os
import struct
from collections.abc import Callable

from rig import AI, AUDIT, PRESENT, PROTECTED, Names, acl_bytes, entry_bytes, form, needs_program
from rig import raw_entries, read_form, sid_bytes
from second import CI, ID, OI, Entry, Node, Tree
from test_volumes import Volumes, imports
from trees import BA, BG, BU, FULL, READ, SY, WD, WRITE, allow, deny

BOTH, EXECUTE = OI | CI, 0x1200A0
FOLDER, CHILD, FILE, CLOSED, ALONE = ("f",), ("f", "c"), ("f", "c", "d"), ("f", "p"), ("g",)
#: The condition (a), as 2.4.4.17 has it, and the class bf967a86-0de6-11d0-a285-00aa003049e2.
CONDITION = b"artx\xf8\2\0\0\0a\0\0"
CLASS = bytes.fromhex("867a96bfe60dd011a28500aa003049e2")


def entry(kind: int, flags: int, body: bytes) -> bytes:
    return struct.pack("<BBH", kind, flags, 4 + len(body)) + body


def conditional(flags: int, condition: bytes = CONDITION) -> bytes:
    """A deny with a condition."""
    return entry(0x0A, flags, struct.pack("<I", WRITE) + sid_bytes(WD) + condition)


def of_objects(flags: int) -> bytes:
    """An allow of a class of objects."""
    return entry(0x05, flags, struct.pack("<II", 0x10, 1) + CLASS + sid_bytes(WD))


def unknown(flags: int) -> bytes:
    """An entry of a type that the standard doesn't have."""
    return entry(0x42, flags, bytes(range(16)))


def texts(flags: str) -> tuple[str, str]:
    """The first two in SDDL: docs/FORMATS.md has both forms."""
    return f"(XD;{flags};FW;;;WD;(a))", f"(OA;{flags};0x10;bf967a86-0de6-11d0-a285-00aa003049e2;;WD)"


#: The nodes that have some.
PATHS = ("/f", "/f/c", "/f/c/d")
WHY = "entries of other types are kept beside the tree: DACL not plain 2 ConditionalAce at 0"
CHANGE = "dacl /f D:(D;OICI;0x4;;;BG)(A;OICI;FX;;;BU)\npublish\n"
CHANGED = (False, [deny(BG, 0x4), allow(BU, EXECUTE)])
READ_AGAIN = "its descriptor isn't the one that was read: read it again"


class Others(Volumes):
    """In a protected root a folder with a SACL and entries of other types; in that a folder and a file that inherited
    them, and a protected folder that didn't; and a file without any."""

    #: The entries that don't deny.
    kinds: tuple[Callable[[int], bytes], ...] = (of_objects, unknown)

    def setUp(self) -> None:
        super().setUp()
        self.tree = Tree(
            {
                (): Node(True, BA, SY, (True, [allow(BA, FULL)])),
                FOLDER: Node(True, BA, SY, (False, [deny(BG, 0x2), allow(BU, READ)])),
                CHILD: Node(True, BA, SY, (False, [])),
                FILE: Node(False, BA, SY, (False, [])),
                CLOSED: Node(True, BA, SY, (True, [allow(BA, FULL)])),
                ALONE: Node(False, BA, SY, (False, [])),
            }
        )
        for path, node in self.tree.nodes.items():
            if path and node.is_container:
                os.mkdir(self.volume.at(path))
            elif path:
                os.close(os.open(self.volume.at(path), os.O_CREAT))
        self.put()

    def put(self, *others: Names) -> None:
        """Gives each node its descriptor, and to `others` an entry with a condition too."""
        for path in self.tree.nodes:
            control = PRESENT | AI | (PROTECTED if self.tree.nodes[path].dacl[0] else 0)
            listed = [*([conditional(0)] if path in others else []), *self.natural(path)]
            sacl = AUDIT if path == FOLDER else b""
            self.volume.put(path, form(sid_bytes(BA), sid_bytes(SY), acl_bytes(listed, 4), control, sacl))
        self.before = self.blobs(self.tree)

    # What each list has to be

    def plain(self, path: Names) -> tuple[list[bytes], list[bytes]]:
        """The explicit allows and denies, and the inherited ones."""
        entries: list[Entry] = self.tree.dacl(path)
        own, inherited = ([entry_bytes(each) for each in entries if each.flags & ID == flag] for flag in (0, ID))
        return own, inherited

    def natural(self, path: Names) -> list[bytes]:
        """The list as Windows makes it: denies before allows, and what is inherited in the order of the folder."""
        own, inherited = self.plain(path)
        flags = {FOLDER: BOTH, CHILD: BOTH | ID, FILE: ID}.get(path)
        if flags is None:
            return own + inherited
        rest = [kind(flags) for kind in self.kinds]
        if path == FOLDER:
            return [conditional(flags), *own, *rest, *inherited]
        return [*own, conditional(flags), *inherited[:-1], *rest, inherited[-1]]

    def written(self, path: Names) -> list[bytes]:
        """The list of a node whose inherited allows and denies are others than before: no allow stands before a deny of
        another type, and none of another type before a deny."""
        own, inherited = self.plain(path)
        flags = {CHILD: BOTH | ID, FILE: ID}.get(path)
        if flags is None:
            return self.natural(path)
        return [*own, conditional(flags), *inherited, *(kind(flags) for kind in self.kinds)]

    def assert_lists(self, lists: dict[Names, list[bytes]]) -> None:
        """These nodes have these lists, with all else of them, and all other nodes, as before."""
        for path, old in self.before.items():
            blob = self.volume.get(path)
            if path in lists:
                self.assertEqual(raw_entries(blob), lists[path], path)
                self.assertEqual(read_form(blob)[1], read_form(old)[1], path)
                self.assertEqual(read_form(blob)[0].partition("D:")[0], "O:BAG:SY", path)
            else:
                self.assertEqual(blob, old, path)

    # Runs

    def changed(self, lines: str) -> str:
        """Reads the volume, whose rows are in `self.rows`, and adds lines to the script, which is returned."""
        self.rows = self.rows_of_read("script")
        script = (self.room / "script").read_text()
        self.write("changed", script + lines)
        return script

    def rows_of_read(self, name: str) -> list[list[str]]:
        return [row.split("\t") for row in self.runs(0, "read", self.volume.folder, name)]

    def writes(self, status: int, *words: str, says: str = "") -> list[str]:
        return self.runs(status, "write", *words, "changed", self.volume.folder, says=says)

    def restores(self) -> None:
        """An undo gives back each byte."""
        self.runs(0, "undo", "changed.journal")
        self.assert_lists({})
        (self.room / "changed.journal").unlink()


class Written(Others):
    def test_a_folder(self) -> None:
        """The folder's allows and denies are replaced, and those that are inherited; the rest is put back."""
        counts = "6 nodes, 6 lines of nodes, 0 files left out, 0 skipped, 3 differing, 1 SACL kept"
        self.runs(0, "read", self.volume.folder, "script", says=counts)
        script = self.changed(CHANGE)
        self.assertEqual([row[:3] for row in self.rows], [["differs", path, WHY] for path in PATHS])
        for path, (_, text) in zip(sorted(self.tree.nodes), imports(script).values(), strict=True):
            self.assertEqual(text, read_form(self.before[path])[0])
        says = "it differed from the tree when it was read: --replace-differing replaces its list"
        self.assertEqual(self.writes(1), [f"stop\t{path}\t{says}" for path in PATHS])
        self.assert_lists({})
        self.tree.nodes = self.tree.edited("dacl", FOLDER, CHANGED)
        allowed = "--replace-differing"
        rows = self.runs(0, "plan", allowed, "changed", self.volume.folder, says="3 nodes would be written")
        self.assertEqual(self.writes(0, allowed, says="3 nodes written"), rows)
        self.assert_lists({path: self.written(path) for path in (FOLDER, CHILD, FILE)})
        again = self.rows_of_read("again")
        wanted = zip(PATHS, self.rows, again, strict=True)
        self.assertEqual(rows, [f"replaced\t{path}\t{old[3]}\t{new[3]}" for path, old, new in wanted])
        self.restores()

    def test_a_node_alone(self) -> None:
        """Own entries change, and what is inherited stays in its places."""
        self.changed("dacl /f/c D:(A;;FR;;;BG)\npublish\n")
        self.tree.nodes = self.tree.edited("dacl", CHILD, (False, [allow(BG, READ, 0)]))
        self.writes(0, "--replace-differing", says="1 node written")
        self.assert_lists({CHILD: self.natural(CHILD)})
        self.restores()

    def test_an_owner(self) -> None:
        """Of a node whose list isn't the tree's: the list stays, which a row says."""
        self.changed("owner /g SY\nowner /f SY\npublish\n")
        rows = self.writes(4, says="; left out: 1 node")
        self.assertEqual(rows, ["left\t/f\tits list isn't the tree's, and the script changes its owner or group"])
        self.assertEqual(raw_entries(self.volume.get(FOLDER)), self.natural(FOLDER))
        self.assertEqual(read_form(self.volume.get(FOLDER))[0].partition("G:")[0], "O:SY")
        self.restores()

    def test_a_node_that_is_protected(self) -> None:
        """It loses what it had inherited of other types, which a row says; what is in it keeps that, which another row
        says."""
        self.changed("dacl /f/c D:P(A;OICI;FA;;;BA)\npublish\n")
        self.tree.nodes = self.tree.edited("dacl", CHILD, (True, [allow(BA, FULL)]))
        rows = self.writes(4, "--replace-differing", says="; left out: 1 node")
        dropped = f"dropped\t/f/c\t{''.join(texts('OICIID'))}0x{unknown(BOTH | ID).hex()}"
        left = "left\t/f/c/d\tit keeps entries of other types that it inherited, and that /f/c loses"
        self.assertEqual([row for row in rows if not row.startswith("replaced\t")], [dropped, left])
        self.assert_lists({CHILD: self.plain(CHILD)[0], FILE: self.written(FILE)})
        self.restores()

    def test_the_root(self) -> None:
        """It may have such entries too; those that it inherited itself stop a write that leaves it unprotected."""
        self.put(())
        self.changed("dacl / D:P(A;OICI;FR;;;BA)\npublish\n")
        self.assertEqual(self.rows[0][:3], ["differs", "/", WHY])
        self.tree.nodes = self.tree.edited("dacl", (), (True, [allow(BA, READ)]))
        self.writes(0, "--replace-differing", says="5 nodes written")
        lists = {path: self.written(path) for path in (CHILD, FILE, ALONE)}
        self.assert_lists({**lists, (): [conditional(0), *self.plain(())[0]], FOLDER: self.natural(FOLDER)})
        self.restores()
        entries = [conditional(BOTH | ID), entry_bytes(allow(BA, FULL, BOTH | ID))]
        self.volume.put((), form(sid_bytes(BA), sid_bytes(SY), acl_bytes(entries, 4), PRESENT | AI))
        self.changed("dacl / D:(A;OICI;FR;;;BA)\npublish\n")
        self.assertIn("stop\t/\tit inherits from a folder that the script doesn't have", self.writes(1)[0])
        self.changed("dacl / D:P(A;OICI;FR;;;BA)\npublish\n")
        rows = self.writes(4, "--replace-differing")
        self.assertIn(f"dropped\t/\t{texts('OICIID')[0]}", rows)
        self.assertEqual(raw_entries(self.volume.get(())), [entry_bytes(allow(BA, READ))])

    def test_texts_that_are_not_ascii(self) -> None:
        """The node is compared all the same."""
        string = b"\x10" + struct.pack("<I", 2) + "\u00e9".encode("utf-16-le")
        entries = [conditional(0, CONDITION[:-1] + string + b"\x80\0"), entry_bytes(allow(BA, FULL, ID))]
        self.volume.put(ALONE, form(sid_bytes(BA), sid_bytes(SY), acl_bytes(entries, 4), PRESENT | AI))
        self.changed("dacl /g D:(A;;FR;;;BU)\npublish\n")
        self.assertRegex(self.rows[-1][3], "^0x01[0-9a-f]+$")
        self.writes(0, "--replace-differing")
        self.assertEqual(raw_entries(self.volume.get(ALONE)), [entries[0], entry_bytes(allow(BU, READ, 0)), entries[1]])


class Stopped(Others):
    def test_what_no_script_says(self) -> None:
        """That a node inherits such entries which it hadn't, or loses its own by a null DACL."""
        self.changed("dacl /f/p D:\npublish\n")
        for words in (("plan", "changed"), ("write", "changed", str(self.volume.folder))):
            self.runs(2, *words, says="/f/p: it would inherit entries of other types, and no write adds some")
        self.changed("dacl /f D:NO_ACCESS_CONTROL\npublish\n")
        self.runs(2, "plan", "changed", says="/f: it has entries of other types, and a null DACL has none")
        self.changed("dacl /f/p D:\npublish\ndacl /f/p D:P\ndacl /f/c D:(A;;FR;;;BU)\npublish\n")
        self.runs(0, "plan", "--replace-differing", "changed", self.volume.folder, says="2 nodes would be written")

    def test_nodes_that_changed_since(self) -> None:
        """Each entry counts, and a SACL doesn't."""
        script = self.changed(CHANGE)
        entries = self.natural(FILE)
        for at, each in enumerate(entries):
            other = each[:4] + bytes([each[4] ^ 1]) + each[5:]
            listed = acl_bytes([*entries[:at], other, *entries[at + 1 :]], 4)
            self.volume.put(FILE, form(sid_bytes(BA), sid_bytes(SY), listed, PRESENT | AI))
            self.assertIn(f"stop\t/f/c/d\t{READ_AGAIN}", self.writes(1, "--replace-differing"))
        self.volume.put(FILE, form(sid_bytes(BA), sid_bytes(SY), acl_bytes(entries, 4), PRESENT | AI, AUDIT))
        self.writes(0, "--replace-differing")
        self.runs(0, "undo", "changed.journal")
        self.write("changed", "".join(f"{line}\n" for line in script.splitlines() if not line.startswith("#")) + CHANGE)
        (self.room / "changed.journal").unlink()
        self.assertIn(f"stop\t/f\t{READ_AGAIN}", self.writes(1, "--replace-differing"))
        self.write("changed", script.replace(f"# differs\t/f\t{WHY}\t0x", f"# differs\t/f\t{WHY}\tx") + CHANGE)
        self.runs(2, "plan", "changed", says="line 5: refused: sddl")

    def test_folders_alone(self) -> None:
        """A file that inherited such entries has a line."""
        self.runs(0, "read", "--folders", self.volume.folder, "script", says="1 file left out, 0 skipped, 3 differing")
        self.assertIn("import object /f/c/d ", (self.room / "script").read_text())

    def test_icacls(self) -> None:
        """An entry without a text can't be written so, and is named."""
        self.changed(CHANGE)
        rows = self.runs(1, "icacls", "--folder", "share", "changed", "new", says="nothing is written")
        self.assertRegex("\n".join(rows), "^(stop\t/f.*\tit has entries of other types: DACL no text .*\n?){3}$")


class Icacls(Others):
    kinds = (of_objects,)

    def test_texts(self) -> None:
        """All entries are written, and what would be lost isn't."""
        self.changed(CHANGE)
        own = "{0}(D;{2};0x{3};;;BG)(A;{2};{4};;;BU){1}"
        rows = [row[3] for row in self.rows]
        self.assertEqual(rows[0], f"O:BAG:SYD:AI{own.format(*texts('OICI'), 'OICI', 2, 'FR')}(A;OICIID;FA;;;BA)")
        self.runs(0, "icacls", "--folder", "s", "changed", "new", says="3 nodes in new")
        self.runs(0, "icacls", "--old", "--folder", "s", "changed", "old", says="3 nodes in old")
        new, old = ((self.room / name).read_bytes().decode("utf-16-le").splitlines() for name in ("new", "old"))
        self.assertEqual(old[::2], ["s\\f", "s\\f\\c", "s\\f\\c\\d"])
        self.assertEqual(old[1::2], [row.removeprefix("O:BAG:SY") for row in rows])
        inherited = "{0}(D;{2};0x4;;;BG)(A;{2};FX;;;BU)(A;{2};FA;;;BA){1}"
        wanted = [f"{own.format(*texts('OICI'), 'OICI', 4, 'FX')}(A;OICIID;FA;;;BA)"]
        wanted += [inherited.format(*texts(flags), flags) for flags in ("OICIID", "ID")]
        self.assertEqual(new[1::2], [f"D:AI{text}" for text in wanted])
        self.changed("dacl /f/c D:P(A;OICI;FA;;;BA)\npublish\n")
        rows = self.runs(1, "icacls", "--folder", "s", "changed", "none")
        self.assertEqual(rows, ["stop\t/f/c\tit would lose entries of other types that it inherited"])


@needs_program
class Answers(Others):
    def test_answers(self) -> None:
        """Each that is about such a node names it and has the status 4, and each other one the status 0."""
        self.changed(CHANGE)
        gaps = [f"differs\t{path}\t{WHY}" for path in PATHS]
        user = "S-1-5-21-1-2-3-1001"
        for words, names in (
            (("who", "changed", "/f", "0x2"), gaps[:1]),
            (("who", "changed", "/f/c/d", "0x2"), gaps[2:]),
            (("find", "changed", "/", user, "0x2"), gaps),
            (("find", "changed", "/f/c", user, "0x2"), gaps[1:]),
            (("lint", "changed"), gaps),
            (("report", "changed", "page"), gaps),
            (("plan", "changed"), gaps),
            (("review", "changed"), gaps),
            (("review", "changed", "/f/c"), gaps[1:]),
            (("who", "changed", "/g", "0x2"), []),
            (("find", "changed", "/f/p", user, "0x2"), []),
        ):
            with self.subTest(words):
                rows = self.runs(4 if names else 0, *words)
                self.assertEqual([row for row in rows if row.startswith("differs\t")], names)
