"""Copies of a store: backups and what is made of them, what is left of those that are killed, and read-only mounts."""

import os
import shutil
import signal
import subprocess
import threading
import time
import unittest
from pathlib import Path

import rig

#: The nodes of a store of which a copy takes so long that it can be interrupted.
MANY = 3_000


class Copies(rig.Case):
    def fill(self) -> None:
        """A store of two epochs and some lines after them, some of which are pending."""
        self.make()
        self.start("lines_in_epoch = 30")
        lines = [line for at in range(70) for line in (f"addo /n{at} O:BAG:SYD:(A;;FR;;;BU)", "publish")]
        self.said(*lines, "addo /last O:BAG:SYD:")
        self.wait_for(lambda: int(self.said("status")[0].split(" ")[2]) > 2)
        self.kill()

    def test_backup_and_restore(self) -> None:
        self.fill()
        self.start()
        before = set(self.dump())
        stop = threading.Event()
        edits = threading.Thread(target=self._edit_until, args=(stop,))
        edits.start()
        for at in range(3):
            rig.run("backup", self.store, self.room / f"copy{at}")
        stop.set()
        edits.join()
        self.assertIn("there is a file already", rig.run("backup", self.store, self.room / "copy0", status=2).stderr)
        rig.run("restore", self.room / "copy1", self.room / "other")
        self.assertIn("isn't an empty folder", rig.run("restore", self.room / "copy1", self.store, status=2).stderr)
        store = self.said("status")[0].split(" ")[1]
        self.said("publish")
        self.stop()
        self.store = self.room / "other"
        self.start()
        self.assertNotEqual(self.said("status")[0].split(" ")[1], store)
        self.assertEqual(self.said("publish")[0].split(" ")[0], "published")
        self.assertEqual(before - set(self.dump()), set())
        self.stop()
        rig.run("verify", self.store)
        with open(self.room / "copy2", "r+b") as copy:
            copy.seek(5000)
            copy.write(b"\xff" * 9000)
        rig.run("verify", self.room / "copy2", status=1)
        rig.run("restore", self.room / "copy2", self.room / "third", status=1)
        self.assertFalse((self.room / "third").exists())

    def _edit_until(self, stop: threading.Event) -> None:
        with self.connect() as asked:
            at = 0
            while not stop.is_set():
                at += 1
                assert asked.ask(f"addo /e{at} O:BAG:SYD:") == "ok"

    def begun(self, *words: object) -> "subprocess.Popen[bytes]":
        """A command that has begun to make a copy beside the store, or has made it already."""
        before = set(self.room.glob(".*/*"))
        nothing = subprocess.DEVNULL
        command = subprocess.Popen([*rig.PROGRAM, *map(str, words)], stdout=nothing, stderr=nothing)
        end = time.monotonic() + rig.PATIENCE
        while set(self.room.glob(".*/*")) == before and command.poll() is None:
            self.assertLess(time.monotonic(), end)
        return command

    def ended_by(self, number: int, name: str, *words: object) -> int:
        """The status of a command that gets this signal while it makes the copy: if that was there already, it is
        taken away, and made again."""
        for _ in range(30):
            command = self.begun(*words)
            command.send_signal(number)
            status, made = command.wait(rig.PATIENCE), self.room / name
            if not made.exists():
                return status
            shutil.rmtree(made) if made.is_dir() else made.unlink()
        raise AssertionError(f"{words} has always ended before")

    def hidden(self) -> list[Path]:
        """What isn't ready."""
        return [each for each in self.room.iterdir() if each.name.startswith(".")]

    def test_what_is_killed_leaves_nothing(self) -> None:
        """A signal that can be caught has it removed at once; after a SIGKILL the next command there does it."""
        dump = [f"addo /n{at} O:BAG:SYD:(A;;FR;;;BU)" for at in range(MANY)]
        self.make("\n".join(["open 1 O:BAG:SYD:", *dump, "publish", ""]))
        rig.run("backup", self.store, self.room / "copy")
        for *words, name in (("backup", self.store, "a"), ("restore", self.room / "copy", "b")):
            for number in (signal.SIGTERM, signal.SIGHUP, signal.SIGINT, signal.SIGKILL):
                with self.subTest(words[0], number=number):
                    status = self.ended_by(number, name, *words, self.room / name)
                    self.assertEqual(status, -number if number == signal.SIGKILL else 3)
                    self.assertEqual(len(self.hidden()), number == signal.SIGKILL)
                    rig.run("backup", self.store, self.room / "later")
                    (self.room / "later").unlink()
                    self.assertEqual(self.hidden(), [])
        self.assertEqual(sorted(each.name for each in self.room.iterdir()), ["copy", "store"])

    def test_what_is_still_made_stays(self) -> None:
        """What another process makes, and what only has such a name."""
        dump = [f"addo /n{at} O:BAG:SYD:(A;;FR;;;BU)" for at in range(MANY)]
        self.make("\n".join(["open 1 O:BAG:SYD:", *dump, "publish", ""]))
        other = self.room / "other"
        other.mkdir()
        (other / "file").touch()
        (self.room / ".sdstored-unfinished-link").symlink_to(other)
        (self.room / ".sdstored-unfinished-file").touch()
        slow = self.begun("backup", self.store, self.room / "slow")
        slow.send_signal(signal.SIGSTOP)
        rig.run("backup", self.store, self.room / "quick")
        slow.send_signal(signal.SIGCONT)
        self.assertEqual(slow.wait(rig.PATIENCE), 0)
        for name in ("slow", "quick"):
            rig.run("verify", self.room / name)
        self.assertEqual([each.name for each in other.iterdir()], ["file"])
        self.assertEqual(len(self.hidden()), 2)

    def test_read_only_mounts(self) -> None:
        """`verify` and `backup` require no file of a store to be written, whether its service was ended or killed."""
        small = self.mount_small()
        self.store = small / "store"
        self.make()
        for end in (self.stop, self.kill):
            with self.subTest(end=end.__name__):
                self.start()
                published = int(self.said(f"addo /{end.__name__} O:BAG:SYD:", "publish")[1].split(" ")[1])
                end()
                copy = self.room / end.__name__
                files = sorted(os.listdir(self.store))
                subprocess.run(["mount", "-o", "remount,ro", str(small)], check=True)
                for words in (("verify", self.store), ("backup", self.store, copy), ("verify", copy)):
                    said = rig.run(*words).stdout
                    self.assertEqual(said, f"epoch 1, line {2 * published}, published {published}\n")
                subprocess.run(["mount", "-o", "remount,rw", str(small)], check=True)
                self.assertEqual(sorted(os.listdir(self.store)), files)


if __name__ == "__main__":
    unittest.main()
