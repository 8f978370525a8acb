"""Folders with security.NTACL, which Samba's own module writes and reads back."""

import os
import subprocess

from rig import HERE, Case, Names, node_form, python_with, read_form
from test_volumes import imports, spelled, wanted_after
from trees import SY, Planted, allow, planted


def python_with_samba() -> str | None:
    return python_with("samba.dcerpc.xattr")


class Samba(Case):
    def setUp(self) -> None:
        super().setUp()
        found = python_with_samba()
        if found is None:
            self.skipTest("the package python3-samba is required")
        self.python = found
        self.share = self.room / "share"
        self.share.mkdir()
        try:
            os.setxattr(self.share, "security.NTACL", b"x")
        except OSError as error:
            self.skipTest(f"security.NTACL can't be written here: {error}")

    def by_samba(self, command: str, lines: list[str]) -> list[str]:
        asked = subprocess.run(
            [self.python, HERE / "by_samba.py", command],
            input="".join(f"{line}\n" for line in lines),
            capture_output=True,
            text=True,
            check=True,
        )
        return asked.stdout.splitlines()

    def at(self, path: Names) -> str:
        return os.fsencode(os.path.join(self.share, *path)).hex()

    def fill(self, made: Planted) -> None:
        for path, node in sorted(made.tree.nodes.items()):
            place = os.path.join(self.share, *path)
            if path and node.is_container:
                os.mkdir(place)
            elif path:
                open(place, "w").close()
        versions = {path: 1 + number % 4 for number, path in enumerate(sorted(made.tree.nodes))}
        self.by_samba("write", [f"{versions[path]} {self.at(path)} {made.form(path).hex()}" for path in versions])

    def kept(self, paths: list[Names]) -> dict[Names, tuple[str, bytes, str]]:
        """By Samba's module: each node's descriptor, its SACL, and a digest of what is kept beside it."""
        kept = {}
        for path, line in zip(paths, self.by_samba("read", [self.at(path) for path in paths]), strict=True):
            blob, digest = line.split()
            kept[path] = (*read_form(bytes.fromhex(blob)), digest)
        return kept

    def test_a_share(self) -> None:
        """What Samba wrote is read; what is written Samba reads, with the hashes that were beside it."""
        made = planted(600, seed=2)
        # (ext4 keeps no longer attribute than a block, and Samba's module writes no object entry without its GUID)
        odd = {path for path, kind in made.kinds.items() if kind in ("long", "object entry", "no SID")}
        made.tree.nodes = {path: node for path, node in made.tree.nodes.items() if path not in odd}
        self.fill(made)
        paths = sorted(made.tree.nodes)
        before = self.kept(paths)
        self.runs(0, "read", self.share, "script")
        script = (self.room / "script").read_text()
        rows = imports(script)
        for path in paths:
            text = before[path][0]
            self.assertEqual(rows[spelled(path)][1], text if "D:" in text else text + "D:NO_ACCESS_CONTROL")
        self.write("changed", script + "dacl / D:(A;OICI;FA;;;SY)\npublish\n")
        old = made.tree.copy()
        made.tree.nodes = made.tree.edited("dacl", (), (False, [allow(SY, 0x1F01FF)]))
        self.runs(0, "write", "--replace-differing", "changed", self.share, says="nodes written")
        after = self.kept(paths)
        for path in paths:
            wanted = wanted_after(made.tree, old, path, before[path][0])
            self.assertEqual(after[path], (wanted, *before[path][1:]), path)
        self.runs(0, "read", self.share, "again")
        self.runs(0, "undo", "changed.journal", says="nodes restored")
        self.assertEqual(self.kept(paths), before)

    def test_a_share_whose_root_has_no_descriptor(self) -> None:
        """The attribute has to be named then, and the root's descriptor given."""
        made = planted(100, seed=4)
        root = node_form(made.tree, ())
        os.removexattr(self.share, "security.NTACL")
        (self.share / "file").touch()
        self.by_samba("write", [f"4 {self.at(('file',))} {root.hex()}"])
        self.runs(2, "read", self.share, "script", says="it has none of system.ntfs_acl, security.NTACL")
        self.runs(2, "read", "--attribute", "samba", self.share, "script", says="--root gives it a descriptor")
        self.runs(0, "read", "--attribute", "samba", "--root", "O:BAG:SYD:P", self.share, "script")
        lines = (self.room / "script").read_text().splitlines()
        self.assertEqual(lines[2:4], ["open 1 O:BAG:SYD:P", f"import object /file {read_form(root)[0]}"])

    def test_attributes_that_are_invalid(self) -> None:
        """Each cut, and each change of the first bytes, is read or named; none ends the run."""
        made = planted(60, seed=3)
        paths = [path for path in sorted(made.tree.nodes) if made.kinds[path] not in ("long", "object entry", "no SID")]
        made.tree.nodes = {path: made.tree.nodes[path] for path in paths}
        self.fill(made)
        blob = os.getxattr(self.share, "security.NTACL")
        files = [self.share / f"cut{length}" for length in range(len(blob))]
        for length, file in enumerate(files):
            file.touch()
            os.setxattr(file, "security.NTACL", blob[:length])
        (self.share / "none").touch()
        lines = self.runs(1, "read", self.share, "script", says=f"{len(files) + 1} skipped")
        skipped = {line.split("\t")[1] for line in lines if line.startswith("skipped\t")}
        self.assertEqual(skipped, {f"/{file.name}" for file in files} | {"/none"})
