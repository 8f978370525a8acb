"""Shares of a server that Linux' cifs has mounted, whose attribute is put in place of what a kernel would answer."""

import contextlib
import errno
import io
import os
from pathlib import Path
from unittest import mock

from rig import AI, AUDIT, PRESENT, PROTECTED, Case, Names, acl_bytes, entry_bytes, form, needs_program, sid_bytes
from test_gaps import plant
from test_volumes import imports
from second import ID
from trees import BA, FULL, SY, allow

import attributes
from command_line import main

NAME = "system.cifs_ntsd_full"


@needs_program
class Mounted(Case):
    """The descriptors of a folder's nodes by their inodes, as the attribute of the share has them."""

    def setUp(self) -> None:
        super().setUp()
        self.share = self.room / "share"
        self.share.mkdir()
        self.blobs: dict[int, bytes | int] = {}
        plant(self.put, self.share)
        reading = mock.patch.object(attributes, "read", self.read)
        reading.start()
        self.addCleanup(reading.stop)

    def put(self, path: Names, blob: bytes | int) -> None:
        self.blobs[self.share.joinpath(*path).stat().st_ino] = blob

    def read(self, path: bytes, name: str) -> bytes:
        found = self.blobs.get(os.stat(path).st_ino, errno.ENODATA) if name == NAME else errno.EOPNOTSUPP
        if isinstance(found, int):
            raise OSError(found, os.strerror(found))
        return found

    def ends(self, status: int, *words: str | Path) -> str:
        """Runs estate in this process, whose status has to be this one, and returns its messages."""
        said = io.StringIO()
        with contextlib.redirect_stderr(said), contextlib.redirect_stdout(io.StringIO()):
            self.assertEqual(main([str(word) for word in words]), status, said.getvalue())
        return said.getvalue()

    def test_a_share(self) -> None:
        """Its nodes are read as those of a volume; the SACL is counted, and a node without a descriptor is named."""
        sacl = form(sid_bytes(BA), sid_bytes(SY), acl_bytes([entry_bytes(allow(BA, FULL))]), PROTECTED | PRESENT, AUDIT)
        self.put((), sacl)
        said = self.ends(1, "read", self.share, self.room / "script")
        self.assertIn("4 nodes, 3 lines of nodes, 0 files left out, 1 skipped, 0 differing, 1 SACL kept", said)
        wanted = {
            "/": ("container", "O:BAG:SYD:P(A;OICI;FA;;;BA)"),
            "/moved": ("object", "O:BAG:SYD:(A;ID;FA;;;WD)"),
            "/null": ("container", "O:BAG:SYD:NO_ACCESS_CONTROL"),
        }
        self.assertEqual(imports((self.room / "script").read_text()), wanted)

    def test_a_list_that_nobody_may_read(self) -> None:
        """The root's attribute requires the right to read SACLs: nothing is taken for a descriptor in its place."""
        self.put((), errno.EACCES)
        said = self.ends(2, "read", self.share, self.room / "script")
        self.assertIn("can't be the root of a tree: its descriptor can't be read: Permission denied", said)

    def test_a_write(self) -> None:
        """A script is planned and written elsewhere."""
        self.ends(1, "read", self.share, self.room / "script")
        for command in ("plan", "write"):
            said = self.ends(2, command, self.room / "script", self.share)
            self.assertIn("a share that is mounted by cifs is read alone: 'estate icacls' writes a file for it", said)

    def test_an_entry_of_an_inheriting_file(self) -> None:
        """A file that inherits has what its folder passes down."""
        inherited = acl_bytes([entry_bytes(allow(BA, FULL, ID))])
        self.put(("moved",), form(sid_bytes(BA), sid_bytes(SY), inherited, AI | PRESENT))
        self.ends(1, "read", self.share, self.room / "script")
        self.assertEqual(imports((self.room / "script").read_text())["/moved"], ("object", "O:BAG:SYD:(A;ID;FA;;;BA)"))
