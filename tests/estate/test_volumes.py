"""NTFS volumes, end to end: 5,000 nodes are read, changed, written, mounted again and read again. What each node has to
have comes from a second implementation of the rules."""

import os
import struct
import subprocess
from pathlib import Path

import second
from rig import NO_SID_ENTRY, PRESENT, PROTECTED, Case, Names, Ntfs, acl_bytes, by_sdstore, entry_bytes, fill, form
from rig import needs_program, node_form, others_in, read_form, sid_bytes
from trees import BA, BG, BU, SY, WD, Planted, allow, deny, planted

NODES = 5000


def reparse_data(substitute: str, printed: str, *flags: int) -> bytes:
    """The data of a link or of a mount point ([MS-FSCC] 2.1.2.4, 2.1.2.5)."""
    names = [name.encode("utf-16-le") + b"\0\0" for name in (substitute, printed)]
    places = (0, len(names[0]) - 2, len(names[0]), len(names[1]) - 2)
    return struct.pack(f"<4H{len(flags)}I", *places, *flags) + b"".join(names)


#: Of a file in a cloud.
CLOUD = 0x9000001A
LINK, MOUNT_POINT = reparse_data("wof", "wof", 1), reparse_data("\\??\\C:\\x", "C:\\x")


def spelled(path: Names) -> str:
    return str(second.path_word(path, True))


def imports(script: str) -> dict[str, tuple[str, str]]:
    """The kind and the descriptor of each path that the script opens, imports or adds."""
    rows = {}
    for line in script.splitlines():
        words = line.split(" ")
        if words[0] == "open":
            rows["/"] = ("container", words[2])
        elif words[0] == "import":
            rows[words[2]] = (words[1], words[3])
        elif words[0] in ("addc", "addo"):
            rows[words[1]] = ("container" if words[0] == "addc" else "object", words[2] + words[3].removeprefix("D:"))
    return rows


def table_of(lines: list[str]) -> dict[str, list[str]]:
    """The rows of a table by their paths."""
    return {cells[1]: cells for cells in (line.split("\t") for line in lines)}


def wanted_after(tree: second.Tree, old: second.Tree, path: Names, old_text: str) -> str:
    """What a node has to have after a change: what it had, unless the tree changed its descriptor."""
    return old_text if tree.shown(path) == old.shown(path) else read_form(node_form(tree, path))[0]


class Volumes(Case):
    def setUp(self) -> None:
        super().setUp()
        self.volume = Ntfs(self.room)
        self.addCleanup(self.volume.__exit__)

    def plant(self, count: int) -> Planted:
        made = planted(count)
        fill(self.volume, made.tree, made.form)
        return made

    def read(self, name: str, *options: str, status: int = 1, says: str = "") -> tuple[str, dict[str, list[str]]]:
        lines = self.runs(status, "read", *options, self.volume.folder, name, says=says)
        return (self.room / name).read_text(), table_of(lines)

    def blobs(self, tree: second.Tree) -> dict[Names, bytes]:
        return {path: self.volume.get(path) for path in tree.nodes}


class EndToEnd(Volumes):
    def test_a_volume(self) -> None:
        made = self.plant(NODES)
        script, table = self.read("script", says=f"{made.sacl_count:,} SACLs kept")
        self.assert_table(made, table)
        self.assert_read(made, script)
        before, old = self.blobs(made.tree), made.tree.copy()
        self.write("changed", script + self.change(made))
        self.runs(1, "write", "changed", self.volume.folder, says="can't be written safely: nothing is written")
        self.assertEqual(self.blobs(made.tree), before)
        allowed = ("--replace-differing", "--leave-unread")
        self.runs(4, "write", *allowed, "changed", self.volume.folder, says="nodes written")
        self.volume.unmount()
        self.volume.mount()
        self.assert_written(made, old, before)
        again, _ = self.read("again")
        self.assert_read(made, again)
        self.runs(0, "undo", "changed.journal", says="nodes restored")
        self.assertEqual(self.blobs(made.tree), before)

    def assert_table(self, made: Planted, table: dict[str, list[str]]) -> None:
        """The table has just the nodes that were planted."""
        said = {spelled(path): what for path, what in made.said.items()}
        self.assertEqual({path: cells[0] for path, cells in table.items()}, said)

    def assert_read(self, made: Planted, script: str) -> None:
        """The script has each node as its bytes on the volume say."""
        rows = imports(script)
        for path, node in made.tree.nodes.items():
            at = spelled(path)
            if made.said.get(path) == "skipped":
                self.assertNotIn(at, rows)
                continue
            text, _ = read_form(self.volume.get(path))
            wanted = text if "D:" in text else text + "D:NO_ACCESS_CONTROL"
            self.assertEqual(rows[at], ("container" if node.is_container else "object", wanted), at)

    def change(self, made: Planted) -> str:
        """Lines that change several nodes, which are changed in the second implementation too."""
        folders = [path for path, node in sorted(made.tree.nodes.items()) if path and node.is_container]
        deep = max(folders, key=len)
        kept = next(path for path in folders if made.kinds[path] == "own deny")
        owned = next(path for path in sorted(made.kinds) if made.kinds[path] == "audited")
        edits = [
            ("dacl", (), (False, [deny(BG, 0x2), allow(BU, 0x1200A9), allow(SY, 0x1F01FF)])),
            ("dacl", deep, (True, [allow(WD, 0x1)])),
            ("owner", owned, SY),
            ("protect", kept, None),
        ]
        lines = []
        for edit, path, given in edits:
            made.tree.nodes = made.tree.edited(edit, path, given)
            lines.append(" ".join(filter(None, (edit, spelled(path), self.text_of(given)))))
        return "\n".join([*lines, "publish", ""])

    def text_of(self, given: object) -> str:
        if given is None:
            return ""
        if given == SY:
            return "SY"
        protected, entries = given  # type: ignore[misc]
        return f"D:{'P' if protected else ''}" + "".join(map(second.entry_text, entries))

    def assert_written(self, made: Planted, old: second.Tree, before: dict[Names, bytes]) -> None:
        """Each node has just the changed list, owner and group, and the SACL, the entries of other types and the
        manager's bit that it had."""
        for path in made.tree.nodes:
            if made.said.get(path) == "skipped":
                self.assertEqual(self.volume.get(path), before[path])
                continue
            text, sacl = read_form(self.volume.get(path))
            old_text, old_sacl = read_form(before[path])
            wanted = wanted_after(made.tree, old, path, old_text)
            self.assertEqual((text, sacl), (wanted, old_sacl), path)
            self.assertEqual(self.volume.get(path)[3] & 0x40, before[path][3] & 0x40)
            self.assertEqual(others_in(self.volume.get(path)), others_in(before[path]), path)


@needs_program
class ByTheProgram(Volumes):
    def test_that_sdstore_has_the_same_tree(self) -> None:
        """The program has each node as the second implementation, and as the source."""
        made = self.plant(1000)
        script, _ = self.read("script")
        answers = by_sdstore(script + "list\n")
        rows = [line.split(" ") for line in answers if line.startswith(("container ", "object "))]
        wanted = {spelled(path): made.tree.shown(path) for path in made.tree.nodes if made.said.get(path) != "skipped"}
        self.assertEqual({path: text for _, path, text in rows}, wanted)
        self.assertEqual(answers.count("ok differs"), 0)
        self.assertEqual(sum(kind == "moved" for kind in made.kinds.values()), 8)


class Folders(Volumes):
    def test_folders_alone(self) -> None:
        """Files that inherit all have no line and are counted; a change reaches them all the same."""
        made = self.plant(1500)
        whole, _ = self.read("whole")
        lines = self.runs(1, "read", "--folders", self.volume.folder, "script")
        script = (self.room / "script").read_text()
        left_out = imports(whole).keys() - imports(script).keys()
        for path, node in made.tree.nodes.items():
            follows = not node.is_container and made.kinds[path] in ("inherits", "audited") and path not in made.said
            self.assertEqual(spelled(path) in left_out, follows, path)
        counts = [int(line.split("\t")[2]) for line in lines if line.startswith("files\t")]
        self.assertEqual(sum(counts), len(left_out))
        self.write("changed", script + "dacl / D:(A;OICI;FA;;;SY)\npublish\n")
        made.tree.nodes = made.tree.edited("dacl", (), (False, [allow(SY, 0x1F01FF)]))
        self.runs(4, "write", "--replace-differing", "--leave-unread", "changed", self.volume.folder)
        for path in made.tree.nodes:
            if path not in made.said:
                self.assertEqual(read_form(self.volume.get(path))[0], read_form(node_form(made.tree, path))[0])


class NotRead(Volumes):
    def test_links_mounts_and_depths(self) -> None:
        """Links, special files, other file systems and what is too deep have rows, and so many nodes are below them."""
        os.mkdir(self.volume.at(("folder",)))
        os.symlink("/etc", self.volume.at(("folder", "link")))
        os.mkfifo(self.volume.at(("folder", "pipe")))
        os.mkdir(self.volume.at(("mounted",)))
        subprocess.run(["mount", "-t", "tmpfs", "none", self.volume.at(("mounted",))], check=True)
        self.addCleanup(subprocess.run, ["umount", self.volume.at(("mounted",))])
        os.mkdir(self.volume.at(("mounted", "in")))
        deep = Path(os.fsdecode(self.volume.at(("d",) * 67)))
        deep.mkdir(parents=True)
        deep.joinpath("file").touch()
        script, table = self.read("script", says="7 skipped")
        self.assertEqual(table["/folder/link"][2], "a link")
        self.assertEqual(table["/folder/pipe"][2], "neither a folder nor a file")
        self.assertEqual(table["/mounted"][2], "another file system is mounted there")
        what, _, why, below = table["/d" * 65]
        self.assertIn("too deep: its path has 65 names, and 64 fit", why)
        self.assertEqual((what, below), ("skipped", "3"))
        rows = imports(script)
        self.assertEqual({path for path in rows if "/d" not in path}, {"/", "/folder"})
        self.assertEqual(max(path.count("/") for path in rows), 64)

    def test_reparse_points(self) -> None:
        """What ntfs-3g shows as a link is read and written, unless it is one. Of a folder nothing in it is shown."""
        for name, tag, data in (("cloud", CLOUD, bytes(8)), ("link", 0xA000000C, LINK), ("wof", 0x80000017, bytes(8))):
            self.volume.folder.joinpath(name).touch()
            self.reparse((name,), tag, data)
        os.mkdir(self.volume.at(("mounted",)))
        self.reparse(("mounted",), 0xA0000003, MOUNT_POINT)
        os.mkdir(self.volume.at(("online",)))
        self.reparse(("online",), CLOUD, bytes(8))
        self.volume.unmount()
        self.volume.mount()
        blob = form(sid_bytes(BA), sid_bytes(SY), acl_bytes([entry_bytes(allow(WD, 1, 0))]), PRESENT | PROTECTED)
        for name in ("cloud", "online", "wof"):
            self.volume.put((name,), blob)
        script, table = self.read("script", says="2 skipped")
        why = "a reparse point hides what is in it"
        self.assertEqual({path: cells[:3] for path, cells in table.items()}, {
            "/link": ["skipped", "/link", "a link"],
            "/mounted": ["skipped", "/mounted", "a link"],
            "/online": ["unlisted", "/online", why],
        })  # fmt: skip
        kinds = {path: kind for path, (kind, _) in imports(script).items() if path != "/"}
        self.assertEqual(kinds, {"/cloud": "object", "/online": "container", "/wof": "object"})
        self.write("changed", script + "dacl /wof D:P(A;;FR;;;SY)\ndacl /cloud D:P(A;;FR;;;SY)\npublish\n")
        self.runs(0, "write", "changed", self.volume.folder, says="2 nodes written")
        self.assertEqual(read_form(self.volume.get(("wof",)))[0], "O:BAG:SYD:P(A;;FR;;;SY)")
        self.runs(0, "undo", "changed.journal")
        self.assertEqual(read_form(self.volume.get(("wof",)))[0], read_form(blob)[0])

    def reparse(self, path: Names, tag: int, data: bytes) -> None:
        os.setxattr(self.volume.at(path), "system.ntfs_reparse_data", struct.pack("<IHH", tag, len(data), 0) + data)

    def test_what_is_closed_below_a_node_without_a_line(self) -> None:
        """Nobody knows what is in it, and a row says so."""
        blob = form(sid_bytes(BA), sid_bytes(SY), acl_bytes([NO_SID_ENTRY]), PRESENT)
        os.makedirs(self.volume.at(("odd", "online")))
        self.reparse(("odd", "online"), CLOUD, bytes(8))
        self.volume.unmount()
        self.volume.mount()
        self.volume.put(("odd",), blob)
        _, table = self.read("script", says="2 skipped, 0 differing, 0 SACLs kept, 1 folder not listed")
        self.assertEqual((table["/odd"][0], table["/odd"][3]), ("skipped", "1"))
        self.assertEqual(table["/odd/online"][:3], ["unlisted", "/odd/online", "a reparse point hides what is in it"])

    def test_names_of_one_file(self) -> None:
        """Each further one has a row, and the descriptor of the file."""
        self.volume.folder.joinpath("a").touch()
        os.mkdir(self.volume.at(("d",)))
        for name in ("b", "d/c"):
            os.link(self.volume.at(("a",)), self.volume.folder / name)
        self.volume.folder.joinpath("alone").touch()
        lines = self.runs(0, "read", self.volume.folder, "script", says="2 further names of files")
        self.assertEqual([line for line in lines if line.startswith("linked")], ["linked\t/b\t/a", "linked\t/d/c\t/a"])
