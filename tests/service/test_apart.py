"""`who` of a node with a long list: answered as of a short one, and ended with its time."""

import contextlib
import os
import threading
import time
import unittest
from pathlib import Path
from unittest import mock

import rig

import apart
from deadline import LATE, Deadline
from errors import Fault
from hudarin import DENY_ONLY, FILES, Descriptor, Sid

#: A list that takes far more than the seconds of the tests, which are enough for a busy machine.
LONG = "O:BAG:SYD:" + "".join(f"({kind};;FR;;;S-1-5-21-1-{at}-3-{kind == 'D':d})" for kind in "DA" for at in range(900))
SECONDS = 20


class Apart(unittest.TestCase):
    def test_the_same_lines(self) -> None:
        """By a process of its own as without one."""
        one = Descriptor.from_sddl(f"O:BAG:SYD:(D;;FW;;;{rig.USER})(A;;FR;;;BU)(A;;FA;;;AU)")
        base = [Sid.from_text("BU"), (Sid.from_text("AU"), DENY_ONLY)]
        here = apart.granted(one, 0x1F01FF, base, FILES, Deadline(rig.PATIENCE, print))
        with mock.patch("apart._BYTES", 0):
            there = apart.granted(one, 0x1F01FF, base, FILES, Deadline(rig.PATIENCE, print))
        self.assertEqual(there, here)
        self.assertGreater(len(here), 1)

    def test_a_failure(self) -> None:
        """A process that ends otherwise gives no answer."""
        one = Descriptor.from_sddl("O:BAG:SYD:")
        with mock.patch("apart._BYTES", 0), self.assertRaises(RuntimeError):
            apart.granted(one, "none", (), FILES, Deadline(rig.PATIENCE, print))

    def test_an_end(self) -> None:
        """No later than its time, and no process is left."""
        long, began = Descriptor.from_sddl(LONG), time.monotonic()
        with self.assertRaises(Fault) as late:
            apart.granted(long, 0x1F01FF, (), FILES, Deadline(1, print))
        self.assertEqual(late.exception.answer, LATE)
        self.assertLess(time.monotonic() - began, SECONDS)

    def test_checkers_give_way(self) -> None:
        """A process for a checker has what others leave of the processors."""
        others = threading.Event()
        others.set()
        for first, niceness in ((None, os.nice(0)), (others, 19)):
            with self.subTest(niceness):
                deadline = Deadline(rig.PATIENCE, print, first)
                asking = threading.Thread(target=self.ask, args=(deadline,))
                asking.start()
                found, end = set[int](), time.monotonic() + rig.PATIENCE
                while niceness not in found and time.monotonic() < end:
                    found |= {os.getpriority(os.PRIO_PROCESS, child) for child in children()}
                deadline.end(LATE)
                asking.join()
                self.assertLessEqual(found, {os.nice(0), niceness})
                self.assertIn(niceness, found)

    def ask(self, deadline: Deadline) -> None:
        with contextlib.suppress(Fault):
            apart.granted(Descriptor.from_sddl(LONG), 0x1F01FF, (), FILES, deadline)


def children() -> list[int]:
    """The processes that this one has started, by their ids."""
    found = list[int]()
    for file in Path("/proc/self/task").glob("*/children"):
        # (a thread may end meanwhile)
        with contextlib.suppress(OSError):
            found += map(int, file.read_text().split())
    return found


class Services(rig.Case):
    def test_its_turn(self) -> None:
        """The next question has it then."""
        self.make(f"open 1 O:BAG:SYD:\naddo /long {LONG}\npublish\n")
        self.start("long_seconds = 1\nlong_answers = 1")
        began = time.monotonic()
        with self.connect() as asked:
            asked.send(b"x who /long FA\n")
            self.assertEqual([asked.read(), asked.read()], [b"x unavailable late\n", b"x \n"])
        self.wait_for(lambda: self.listed().startswith(b"x object /long "))
        self.assertLess(time.monotonic() - began, SECONDS)

    def listed(self) -> bytes:
        with self.connect() as asked:
            asked.send(b"x list /long\n")
            return asked.read()


if __name__ == "__main__":
    unittest.main()
