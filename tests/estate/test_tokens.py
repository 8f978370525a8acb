"""The groups of users by `estate accounts`, beside those that Samba computes of the same directory."""

import subprocess
import unittest

from rig import HERE, PATIENCE
from test_samba import python_with_samba


class Tokens(unittest.TestCase):
    def test_a_small_directory(self) -> None:
        python = python_with_samba()
        if python is None:
            self.skipTest("the package python3-samba is required")
        ran = subprocess.run(
            [python, HERE / "tokens", "60", "25", "2"], capture_output=True, text=True, timeout=PATIENCE
        )
        *before, last = ran.stdout.splitlines()
        if before and before[-1].startswith("skipped: "):
            self.skipTest(before[-1].removeprefix("skipped: "))
        # (the built program doubles the users)
        passed = ("64 passed, 0 failed", "128 passed, 0 failed")
        self.assertTrue(ran.returncode == 0 and last in passed, ran.stdout[-2000:] + ran.stderr[-2000:])
