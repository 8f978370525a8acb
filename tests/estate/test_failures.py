"""What goes wrong: writes that are killed, volumes that disappear, nodes that change meanwhile, links put in the way,
and files that nobody should trust."""

import json
import os
import signal

from rig import NTFS, Case, Names, needs_program
from test_volumes import Volumes
from trees import Planted

CHANGE = "dacl / D:(A;OICI;FA;;;SY)\npublish\n"


class Writes(Volumes):
    def prepare(self, count: int = 800) -> Planted:
        made = self.plant(count)
        script, _ = self.read("script")
        self.write("changed", script + CHANGE)
        return made

    def changed(self, made: Planted, before: dict[Names, bytes]) -> int:
        return sum(blob != before[path] for path, blob in self.blobs(made.tree).items())

    allowed = ("--replace-differing", "--leave-unread")

    def test_kills(self) -> None:
        """A write that was killed is resumed, an undo too."""
        made = self.prepare()
        before = self.blobs(made.tree)
        whole = ("write", *self.allowed, "changed", str(self.volume.folder))
        self.runs(4, *whole)
        after = self.blobs(made.tree)
        total = self.changed(made, before)
        self.assertGreater(total, 300)
        self.runs(0, "undo", "changed.journal")
        self.assertEqual(self.blobs(made.tree), before)
        (self.room / "changed.journal").unlink()
        self.breaks("write", 20, signal.SIGKILL, 0, -signal.SIGKILL, *whole)
        self.assertEqual(self.changed(made, before), 20)
        self.runs(0, "resume", "changed.journal", says=f"{total - 20:,} node")
        self.assertEqual(self.blobs(made.tree), after)
        self.breaks("write", 20, signal.SIGKILL, 0, -signal.SIGKILL, "undo", "changed.journal")
        self.assertEqual(self.changed(made, after), 20)
        self.runs(0, "undo", "changed.journal")
        self.assertEqual(self.blobs(made.tree), before)

    def test_a_volume_that_disappears(self) -> None:
        made = self.prepare()
        before = self.blobs(made.tree)
        words = ("write", *self.allowed, "changed", str(self.volume.folder))
        said = self.breaks("write", 20, signal.SIGKILL, self.volume.server, 3, *words)
        self.assertIn("'estate resume' writes the others by the journal, 'estate undo' restores these", said)
        self.volume.unmount()
        self.volume.mount("-o", "recover")
        self.runs(0, "undo", "changed.journal", says="restored")
        self.assertEqual(self.blobs(made.tree), before)

    def test_a_volume_that_disappears_from_a_read(self) -> None:
        self.plant(2000)
        words = ("read", str(self.volume.folder), "script")
        said = self.breaks("read", 1000, signal.SIGKILL, self.volume.server, 3, *words)
        self.assertIn("the volume disappeared at /", said)
        self.assertFalse((self.room / "script").exists())
        self.assertFalse(list(self.room.glob(".estate-*")))

    def test_nodes_that_changed_since(self) -> None:
        """A node that isn't as it was read, or is gone, forbids the write, and by a journal the undo."""
        made = self.prepare(100)
        files = [path for path, kind in sorted(made.kinds.items()) if kind == "inherits"]
        files = [path for path in files if not made.tree.nodes[path].is_container]
        before = self.blobs(made.tree)
        self.volume.put(files[0], before[()])
        os.unlink(self.volume.at(files[1]))
        lines = self.runs(
            1, "write", *self.allowed, "changed", self.volume.folder, says="2 nodes can't be written safely"
        )
        self.assertIn("its descriptor isn't the one that was read: read it again", "\n".join(lines))
        self.assertFalse((self.room / "changed.journal").exists())
        os.close(os.open(self.volume.at(files[1]), os.O_CREAT))
        for path in files[:2]:
            self.volume.put(path, before[path])
        self.runs(4, "write", *self.allowed, "changed", self.volume.folder)
        self.volume.put(files[0], before[()])
        lines = self.runs(1, "undo", "changed.journal", says="1 node changed since: nothing is written")
        self.assertEqual(len(lines), 1)
        self.runs(0, "undo", "--leave-changed", "changed.journal")
        before[files[0]] = before[()]
        self.assertEqual(self.blobs(made.tree), before)

    def test_a_second_write_and_a_read_only_mount(self) -> None:
        made = self.prepare(60)
        before = self.blobs(made.tree)
        self.write("changed.journal", "")
        whole = ("write", *self.allowed, "changed", str(self.volume.folder))
        self.runs(1, *whole, says="changed.journal: there is a file already")
        (self.room / "changed.journal").unlink()
        self.volume.unmount()
        self.volume.mount("-o", "ro")
        self.runs(1, *whole, says="it is mounted read-only: nothing is written")
        self.assertFalse((self.room / "changed.journal").exists())
        self.assertEqual(self.blobs(made.tree), before)

    def test_links_in_the_way(self) -> None:
        """A folder that was read and is now a link to another isn't written through."""
        made = self.prepare(400)
        folder = next(path for path, node in sorted(made.tree.nodes.items()) if path and node.is_container)
        os.rename(self.volume.at(folder), self.volume.at(("elsewhere",)))
        os.symlink("elsewhere", self.volume.at(folder))
        self.runs(1, "write", *self.allowed, "changed", self.volume.folder, says="nothing is written")
        self.assertFalse((self.room / "changed.journal").exists())

    def test_two_names_of_one_file(self) -> None:
        """A file that would get two descriptors forbids the write."""
        made = self.prepare(60)
        files = [path for path, node in sorted(made.tree.nodes.items()) if path and not node.is_container]
        os.link(self.volume.at(files[0]), self.volume.at(("again",)))
        script, _ = self.read("script")
        name = next(line.split(" ")[2] for line in script.splitlines() if " object " in line and "/again" not in line)
        self.assertTrue(name)
        self.write("changed", f"{script}dacl /again D:P(A;;FR;;;WD)\ndacl / D:(A;OICI;FR;;;SY)\npublish\n")
        lines = self.runs(1, "write", *self.allowed, "changed", self.volume.folder, says="nothing is written")
        self.assertIn("too, which gets another descriptor", "\n".join(lines))

    def test_attributes_that_ntfs_has_and_no_tree(self) -> None:
        """A folder whose descriptor isn't supported is skipped with all below it, by name and count."""
        made = self.plant(80)
        os.mkdir(self.volume.at(("odd\n",)))
        os.mkdir(self.volume.at(("odd\n", "below")))
        blob = next(made.forms[path] for path, kind in made.kinds.items() if kind == "no SID")
        self.volume.put(("odd\n",), blob)
        _, table = self.read("script")
        self.assertEqual((table["/odd%0A"][0], table["/odd%0A"][3]), ("skipped", "1"))


class Untrusted(Case):
    def test_scripts(self) -> None:
        """A script has to be one of estate read, complete, with changes of descriptors alone after it."""
        head = "open 1 O:BAG:SYD:P(A;OICI;FA;;;BA)\nimport object /a O:BAG:SYD:\n"
        for text, says in (
            ("", "it ends before 'publish'"),
            (head, "line 2: it ends before 'publish'"),
            ("import object /a O:BAG:SYD:\n", "line 1: 'open 1 SDDL' is expected"),
            (head + "addo /b O:BAG:SYD:\npublish\n", "line 3: 'addc PATH SDDL KEPT OFFER' is expected"),
            (head + "frob /b\npublish\n", "line 3: 'import KIND PATH SDDL' is expected"),
            (head + "import object /b/c O:BAG:SYD:\npublish\n", "line 3: refused: refused 1 NoParent"),
            (head + "import object /a O:BAG:SYD:\npublish\n", "line 3: refused: refused 3 Exists"),
            (head + "import object /%2F O:BAG:SYD:\npublish\n", "line 3: the name has a '/'"),
            (head + "import object /%FF O:BAG:SYD:\npublish\n", "line 3: the name isn't UTF-8"),
            (head + "publish\ndacl /a D:P\n", "line 4: changes after the last 'publish' aren't published"),
            (head + "publish\nremove /a\npublish\n", "line 4: remove: files are neither made nor removed nor moved"),
            (head + "publish\ndacl /a O:BA\npublish\n", "line 4: refused: "),
            (head + "publish\ndacl /a D:P extra\npublish\n", "line 4: 'dacl': not a command"),
            (head + "publish\nfrob\npublish\n", "line 4: 'frob': not a command"),
            (head + "# skipped\t/b\tsome\tx\npublish\n", "line 3: skipped: not a comment that estate read writes"),
            (head + "# files\t/b\npublish\n", "line 3: files: not a comment that estate read writes"),
            (head + "# differs\ta\twhy\npublish\n", "line 3: a path begins with '/'"),
            (head + "publish\n\x1b[1m /a\npublish\n", "line 4: '\\x1b[1m': not a command"),
        ):
            with self.subTest(text):
                self.write("script", text)
                self.runs(2, "plan", "script", says=f"script: {says}" if says.startswith("line") else says)

    def test_questions_and_comments_change_nothing(self) -> None:
        head = "open 1 O:BAG:SYD:P(A;OICI;FA;;;BA)\nimport object /a O:BAG:SYD:\n# rows\t0\npublish\n"
        self.write("script", head + "# a comment\n\nlist\ncheck 0 /a SY FR\nowner /a SY\npublish\nlist\n")
        lines = self.runs(0, "plan", "--json", "script", says="1 node")
        change = {"what": "change", "path": "/a", "before": "O:BAG:SYD:AI(A;ID;FA;;;BA)"}
        self.assertEqual(json.loads(lines[0]), change | {"after": "O:SYG:SYD:AI(A;ID;FA;;;BA)"})
        self.assertEqual(json.loads(lines[1]), {"what": "planned", "nodes": 1, "of": 1, "answered": 1, "left_out": 0})

    def test_journals(self) -> None:
        """A journal that was cut or changed is refused, before any node is read."""
        self.write("none", "")
        self.runs(2, "undo", "none", says="it isn't a complete journal")
        head = json.dumps({"estate": 1, "target": str(self.room), "attribute": NTFS}) + "\n"
        self.write("cut", head)
        self.runs(2, "undo", "cut", says="it isn't a complete journal")
        self.write("wrong", head + json.dumps({"nodes": 0, "sha256": "0" * 64}) + "\n")
        self.runs(2, "undo", "wrong", says="it isn't a complete journal")
        self.write("text", b"\xff\n\0\n")
        self.runs(2, "resume", "text", says="it isn't a complete journal")
        self.runs(3, "undo", "missing", says="missing: No such file")
        self.write("open", "").chmod(0o666)
        self.runs(1, "undo", "open", says="open: somebody else may have written it")

    def test_names(self) -> None:
        """Names stand for SIDs in what is displayed, and in nothing that is stored. None of them passes for more."""
        user = "S-1-5-21-1-2-3-1001"
        sddl = f"O:{user}G:SYD:P(A;OICI;FA;;;{user})(A;;FR;;;BU)(A;;FR;;;S-1-22-1-1001)(A;;FR;;;S-1-22-2-100)"
        lines_read = f"open 1 {sddl}\nimport object /S-1-5-18 O:BAG:SYD:\n# rows\t0\n"
        self.write("script", f"{lines_read}publish\ndacl / D:P\npublish\n")
        self.write("sids", f'{user} DOM\\a"l\tice\x1b[1m\nS-1-5-32-545 -> BUILTIN\\Users 4\nS-1-5-18 no\n', "utf-8-sig")
        self.write("getent", "joe:x:1001:100::/home:/bin/sh\nusers:x:100:\nnonsense\n:x:1:\na:b:c:d\n")
        lines = self.runs(0, "plan", "--names", "sids", "--names", "getent", "script")
        _, path, before, _ = lines[0].split("\t")
        name = '"DOM\\a""l\\tice\\x1b[1m"'
        self.assertEqual(path, "/")
        self.assertEqual(
            before,
            f'O:{name}G:"no"D:PAI(A;OICI;FA;;;{name})(A;;FR;;;"BUILTIN\\Users")(A;;FR;;;"joe")(A;;FR;;;"users")',
        )
        self.assertEqual(lines[1].split("\t")[1], "/S-1-5-18")

    @needs_program
    def test_lint(self) -> None:
        """With risks."""
        head = "open 1 O:BAG:SYD:P(A;OICI;FA;;;BA)\n"
        text = "import object /a O:BAG:SYD:(A;;FR;;;BU)(A;;FR;;;BU)\nimport object /b O:BAG:SYD:(A;;FA;;;WD)\n"
        self.write("script", f"{head}{text}# rows\t0\npublish\n")
        lines = self.runs(1, "lint", "script", says="3 findings")
        self.assertEqual(lines[0], "lint\t/a\tentry 2 (A;;FR;;;BU) repeats entry 1")
        self.assertEqual(lines[2], "lint\t/b\tS-1-1-0 is granted full-control")
        self.write("script", head + "# rows\t0\npublish\n")
        self.assertEqual(self.runs(0, "lint", "script", says="0 findings"), [])


class Signals(Volumes):
    def test_an_interrupt(self) -> None:
        self.plant(800)
        said = self.breaks("read", 400, signal.SIGINT, 0, 3, "read", str(self.volume.folder), "script")
        self.assertIn("interrupted", said)
        self.assertEqual(list(self.room.glob("*script*")) + list(self.room.glob(".estate-*")), [])
