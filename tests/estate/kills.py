#!/usr/bin/env python3
"""Writes, resumes and undos that are killed right after a write: kills.py [KILLS [NODES [SEED]]]. By hand, as root.

After each kill every node has what it had or what it gets, whole, and just as many are new as were written; a resume
then makes all new, and an undo makes each byte as it was, also where each of these was killed before, and after a mount
of the volume."""

import random
import signal
import subprocess
import sys
import tempfile
from collections.abc import Iterator
from pathlib import Path

from rig import HERE, TOOL, Names, Ntfs, fill
from trees import Planted, planted

CHANGE = "dacl / D:(A;OICI;FA;;;SY)\npublish\n"
WRITE = ("write", "--replace-differing", "--leave-unread", "changed", "mount")
RESUME, UNDO = ("resume", "changed.journal"), ("undo", "changed.journal")


class Kills:
    """A volume, and what its nodes have before and after a write of all of them."""

    def __init__(self, room: Path, volume: Ntfs, nodes: int) -> None:
        self.room, self.volume = room, volume
        self._made: Planted = planted(nodes)
        fill(volume, self._made.tree, self._made.form)
        self.run((1,), "read", "mount", "script")
        (room / "changed").write_text((room / "script").read_text() + CHANGE)
        self.old = self.blobs()
        self.run((0, 4), *WRITE)
        self.new = self.blobs()
        self.total = self.new_count()
        self.undone()

    def blobs(self) -> dict[Names, bytes]:
        return {path: self.volume.get(path) for path in self._made.tree.nodes}

    def new_count(self) -> int:
        """How many nodes are new. Each is either new or old."""
        found = self.blobs()
        odd = [path for path, blob in found.items() if blob not in (self.old[path], self.new[path])]
        if odd:
            raise AssertionError(f"neither old nor new: {odd}")
        return sum(blob != self.old[path] for path, blob in found.items())

    def run(self, status: tuple[int, ...], *words: str) -> None:
        self._run(status, sys.executable, str(TOOL), *words)

    def _run(self, status: tuple[int, ...], *command: str) -> None:
        ran = subprocess.run(command, cwd=self.room, capture_output=True, text=True)
        if ran.returncode not in status:
            raise AssertionError(f"{command}: {ran.returncode}: {ran.stderr[-2000:]}")

    def killed(self, writes: int, *words: str) -> None:
        """Runs estate until it has written so many nodes."""
        how = ("write", str(writes), str(int(signal.SIGKILL)), "0")
        self._run((-signal.SIGKILL,), sys.executable, str(HERE / "breaking.py"), *how, *words)

    def undone(self) -> None:
        """All is as it was, also on the disk, and there is no journal."""
        self.run((0,), *UNDO)
        self.volume.unmount()
        self.volume.mount()
        if self.blobs() != self.old:
            raise AssertionError("an undo leaves other bytes")
        (self.room / "changed.journal").unlink()

    def round(self, dice: random.Random) -> Iterator[str]:
        """A write that is killed, resumes and undos that are killed, and then the end of it."""
        count = self._killed(dice, WRITE, 0)
        yield "write"
        for words in dice.choices((RESUME, UNDO), k=dice.randrange(6)):
            if self.total - count > 1 and words == RESUME or count > 1 and words == UNDO:
                count = self._killed(dice, words, count)
                yield words[0]
        self.run((0,), *RESUME)
        if self.blobs() != self.new:
            raise AssertionError("a resume leaves nodes that aren't new")
        self.undone()

    def _killed(self, dice: random.Random, words: tuple[str, ...], count: int) -> int:
        """Kills the command after some of the nodes that it has to write, and returns how many are new then."""
        writes = dice.randrange(1, count if words == UNDO else self.total - count)
        self.killed(writes, *words)
        wanted = count - writes if words == UNDO else count + writes
        if self.new_count() != wanted:
            raise AssertionError(f"{words}: {self.new_count()} nodes are new, and not {wanted}")
        return wanted


def kills(room: Path, volume: Ntfs, most: int, nodes: int, seed: int) -> tuple[int, int, list[str]]:
    """How many nodes a write changes, how many rounds there were, and what was killed, each time."""
    made, dice, killed, rounds = Kills(room, volume, nodes), random.Random(seed), [], 0
    while len(killed) < most:
        killed += made.round(dice)
        rounds += 1
    return made.total, rounds, killed


def main(most: int, nodes: int, seed: int) -> None:
    with tempfile.TemporaryDirectory(prefix="estate.") as name, Ntfs(Path(name)) as volume:
        total, rounds, killed = kills(Path(name), volume, most, nodes, seed)
    each = {what: killed.count(what) for what in ("write", "resume", "undo")}
    print(f"{len(killed)} kills in {rounds} rounds of {total} nodes: {each}; each byte is as it was")


if __name__ == "__main__":
    given = list(map(int, sys.argv[1:]))
    main(*[*given, *(200, 400, 1)[len(given) :]])
