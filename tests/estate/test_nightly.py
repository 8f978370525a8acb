"""The example examples/nightly: what it mails, and what it keeps for the next night. Its units are ones that systemd
takes."""

import os
import shutil
import subprocess
import unittest
from pathlib import Path

from rig import PATIENCE, TOOL, TOP, Case
from test_texts import csv_of

EXAMPLE = TOP / "examples/nightly"
ROOT = ("C:\\s", "O:BAG:SYD:P(A;OICI;FA;;;BA)")
CLOSED, OPEN = "O:BAG:SYD:P(A;;FA;;;BA)", "O:BAG:SYD:P(A;;FA;;;BA)(A;;0x2;;;AU)"
#: A mailer that keeps what it is given, and one that fails.
MAIL = '#!/bin/sh\n{ echo "$2 to $3"; cat; } >>"$MAILED"\nexit "${MAIL_STATUS:-0}"\n'


class Nightly(Case):
    def setUp(self) -> None:
        super().setUp()
        for name in ("bin", "kept"):
            (self.room / name).mkdir()
        self.write("bin/mail", MAIL).chmod(0o755)
        (self.room / "bin/estate").symlink_to(TOOL / "estate")

    def night(self, status: int, *nodes: tuple[str, str], mail: str = "0") -> str:
        """What is mailed in a night in which the share has these nodes besides its root."""
        if nodes:
            self.write("share", csv_of(ROOT, *nodes))
        mailed = self.room / "mailed"
        mailed.write_text("")
        path = f"{self.room / 'bin'}:{os.environ['PATH']}"
        more = {"PATH": path, "MAILED": str(mailed), "MAIL_STATUS": mail}
        command = [EXAMPLE / "estate-nightly", self.room / "share", self.room / "kept", "admin"]
        ran = subprocess.run(command, capture_output=True, text=True, timeout=PATIENCE, env={**os.environ, **more})
        self.assertEqual(ran.returncode, status, ran.stderr)
        return mailed.read_text()

    def last(self) -> str:
        return (self.room / "kept/last").read_text()

    def test_nights(self) -> None:
        """Only what somebody gained is mailed, once, and compared with the night before."""
        self.assertEqual(self.night(0, ("C:\\s\\a", OPEN)), "")
        self.assertEqual(self.night(0, ("C:\\s\\a", OPEN)), "")
        self.assertEqual(self.night(0, ("C:\\s\\a", CLOSED)), "")
        said = self.night(1, ("C:\\s\\a", OPEN)).splitlines()
        self.assertEqual(said[0], f"{self.room / 'share'}: rights changed, status 1 to admin")
        self.assertRegex(said[1], "^estate: 0 added, 0 gone, 1 changed; rights gained on 1, lost on 0; of 2 nodes 2 ")
        self.assertEqual(said[2:], [
            "total\tgained\t0x2\twrite or add files\t1\t/a\tS-1-5-11",
            "changed\t/a\tentry\tnone\t(A;;0x2;;;AU)", "gained\t/a\t0x2\tS-1-5-11",
        ])  # fmt: skip
        self.assertEqual(self.night(0, ("C:\\s\\a", OPEN)), "")
        self.assertEqual((self.room / "kept/last").stat().st_mode & 0o077, 0)

    def test_what_could_not_be_compared(self) -> None:
        self.night(0, ("C:\\s\\a", CLOSED))
        said = self.night(4, ("C:\\s\\a", "O:BAG:SYD:(A;;FA;;;DA)"))
        self.assertRegex(said, "status 4 to admin\n.* of 2 nodes 1 answered; 1 can't be: .*\nskipped\t/a\t.*\tafter\n$")
        self.assertIn("# skipped\t/a\t", self.last())

    def test_what_fails(self) -> None:
        """The next night compares with the same script again, so that nothing is lost."""
        self.night(0, ("C:\\s\\a", CLOSED))
        kept = self.last()
        self.assertIn("status 1", self.night(3, ("C:\\s\\a", OPEN), mail="1"))
        self.assertEqual(self.last(), kept)
        self.write("share", "no CSV")
        self.assertEqual(self.night(2), "")
        (self.room / "share").unlink()
        self.assertEqual(self.night(3), "")
        self.assertEqual(self.last(), kept)
        self.assertIn("status 1", self.night(1, ("C:\\s\\a", OPEN)))
        self.assertNotEqual(self.last(), kept)
        self.write("kept/last", "no script")
        self.assertEqual(self.night(2), "")

    @unittest.skipUnless(shutil.which("systemd-analyze"), "systemd-analyze is required")
    def test_units(self) -> None:
        units: list[Path] = []
        for kind in ("service", "timer"):
            text = (EXAMPLE / f"estate-nightly.{kind}").read_text()
            text = text.replace("/usr/local/sbin/estate-nightly", shutil.which("true") or "")
            units.append(self.write(f"estate-nightly.{kind}", text))
        ran = subprocess.run(["systemd-analyze", "verify", *units], capture_output=True, text=True)
        self.assertEqual((ran.returncode, ran.stdout + ran.stderr), (0, ""))
