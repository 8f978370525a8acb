"""A small odd volume beside Samba, and a few writes that are killed; beside_samba.py and kills.py by hand try far more."""

import os
import unittest

from rig import Case, Ntfs, needs_program, python_with

from beside_samba import compare
from kills import kills

NODES, QUESTIONS, KILLS = 1500, 15_000, 6
PYTHON = os.environ.get("NEWER_SAMBA") or python_with("samba")


class Disk(Case):
    @needs_program
    @unittest.skipUnless(PYTHON, "the package python3-samba is required")
    def test_answers(self) -> None:
        """What find, who and the report say is what Samba grants by the bytes on the disk, or the node is named as left
        out; and each node that is on the disk is a line of the script, or counted by a row."""
        with Ntfs(self.room) as volume:
            beside = compare(self.room, volume, PYTHON or "", NODES, QUESTIONS, 1)
        self.assertEqual(beside.differing[:9], [])
        self.assertGreater(beside.compared, 300_000)
        self.assertLess(len(beside.named), NODES // 3)

    def test_kills(self) -> None:
        with Ntfs(self.room) as volume:
            total, _, killed = kills(self.room, volume, KILLS, 200, 1)
        self.assertGreater(total, 100)
        self.assertGreaterEqual(len(killed), KILLS)
