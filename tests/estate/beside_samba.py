#!/usr/bin/env python3
"""Answers about an odd volume, beside Samba on the bytes that are on the disk: beside_samba.py [NODES [QUESTIONS
[SEED]]]. By hand, as root; NEWER_SAMBA may name a Python with a newer Samba's modules.

What `find`, `who`, and the report with its table say about a node, a user and a right is what Samba grants, or the node
is one that the answers name as left out. And each node that is on the disk is a line of the script, or is counted by a
row. Nothing here knows how Hudarin decides.
"""

import csv
import json
import os
import random
import re
import subprocess
import sys
import tempfile
import time
import urllib.parse
from collections.abc import Iterator
from dataclasses import dataclass, field
from pathlib import Path
from typing import Any

import odd
from rig import HERE, NTFS, TOOL, Ntfs
import attributes  # (rig makes its folder known)
from trees import USERS

#: A mask has so many rights, and these are those of files: of all rights that are granted there is no other one where
#: a list is missing (docs/PEERS.md, MAXIMUM_ALLOWED without a list).
RIGHTS, OF_FILES = 21, 0x1F01FF
EVERYONE, AUTHENTICATED = "S-1-1-0", "S-1-5-11"
#: Groups that users may be in.
GROUPS = ["S-1-5-32-544", "S-1-5-32-545", "S-1-5-32-546", "S-1-5-21-1-2-3-2000"]
#: What each node of the report is asked, in this order.
OF_REPORT = (0x1, 0x2, 0x40000)


def full(sid: tuple[int, tuple[int, ...]]) -> str:
    return f"S-1-{sid[0]}-{'-'.join(map(str, sid[1]))}"


def token(user: str, groups: list[str]) -> list[str]:
    return [user, *groups, EVERYONE, AUTHENTICATED]


def words_of(path: str) -> str:
    """A path of a row, as the test's own walk has it."""
    return urllib.parse.unquote_to_bytes(path).decode(errors="surrogateescape")


@dataclass
class Beside:
    """A volume, what is on its disk, and what Samba grants by it."""

    room: Path
    volume: Ntfs
    tokens: dict[str, list[str]]
    #: The bytes of each node's descriptor, by its path.
    blobs: dict[str, bytes] = field(default_factory=dict)
    #: What Samba grants each user by bytes.
    granted: dict[bytes, dict[str, int]] = field(default_factory=dict)
    version: str = ""
    #: The paths of the script, and those that a row names: "differs", or where a node has no line.
    lines: set[str] = field(default_factory=set)
    named: dict[str, str] = field(default_factory=dict)
    compared: int = 0
    of_named: int = 0
    differing: list[str] = field(default_factory=list)

    def ask(self, status: tuple[int, ...], *words: str | Path, given: str = "") -> list[str]:
        """The lines of standard output of estate, whose status is one of these."""
        ran = subprocess.run([sys.executable, TOOL, *words], cwd=self.room, input=given, capture_output=True, text=True)
        if ran.returncode not in status:
            raise RuntimeError(f"{words}: {ran.returncode}: {ran.stderr[-2000:]}")
        return ran.stdout.splitlines()

    # The disk, and Samba

    def walk(self) -> None:
        """The bytes of each node on the disk, links and pipes too, by a walk of its own."""
        top = os.fsencode(self.volume.folder)
        for folder, folders, files in os.walk(top):
            for name in [b".", *files, *(each for each in folders if os.path.islink(os.path.join(folder, each)))]:
                at = os.path.join(folder, name)
                path = os.fsdecode(os.path.normpath(at)[len(top) :]) or "/"
                self.blobs[path] = attributes.read(at, NTFS)

    def by_samba(self, python: str) -> None:
        """What Samba grants by each of the bytes."""
        distinct = list(dict.fromkeys(self.blobs.values()))
        lines = [json.dumps(list(self.tokens.values())), *(blob.hex() for blob in distinct)]
        words = [python, str(HERE / "rights_by_samba.py")]
        said = subprocess.run(words, input="\n".join(lines), stdout=subprocess.PIPE, text=True, check=True)
        self.version, *masks = said.stdout.split("\n")
        for blob, line in zip(distinct, masks):
            self.granted[blob] = dict(zip(self.tokens, map(int, line.split())))

    # The script

    def read(self) -> None:
        """The nodes of the script; and no node of the disk is missing in it without a row."""
        rows = [line.split("\t") for line in self.ask((1,), "read", self.volume.folder, "script")]
        for line in (self.room / "script").read_text().splitlines():
            command, *words = line.split(" ")
            if command in ("open", "import", "addc", "addo"):
                self.lines.add("/" if command == "open" else words_of(words[1 if command == "import" else 0]))
        for what, path, *cells in rows:
            if what in ("differs", "skipped"):
                self.named[words_of(path)] = what
            if what == "skipped":
                below = [each for each in self.blobs if each.startswith(words_of(path) + "/")]
                if len(below) != int(cells[1]):
                    self.differing.append(f"{path}: {len(below)} nodes are below it, and the row says {cells[1]}")
                self.named |= dict.fromkeys(below, "skipped")
        wanted = set(self.blobs) - {path for path, what in self.named.items() if what == "skipped"}
        for path in wanted ^ self.lines:
            self.differing.append(f"{path}: on the disk alone, or in the script alone")

    # Answers

    def say(self, how: str, path: str, user: str, right: int, is_granted: bool) -> None:
        """Compares an answer about a node that isn't left out."""
        if path in self.named:
            self.of_named += 1
            return
        self.compared += 1
        if is_granted != bool(self.granted[self.blobs[path]][user] & right):
            self.differing.append(f"{how}: {path}: {user}: {right:#x}: {is_granted}: {self.blobs[path].hex()}")

    def find(self, questions: list[tuple[str, int]]) -> None:
        """Each question is about all nodes."""
        asked = [f"find / {user} {right:#x} {' '.join(self.tokens[user][1:-2])}".strip() for user, right in questions]
        for (user, right), rows in zip(questions, self.answers(asked), strict=True):
            found = {words_of(row.split("\t")[1]) for row in rows if row.startswith("found\t")}
            for path in self.lines:
                self.say("find", path, user, right, path in found)

    def who(self, questions: list[tuple[str, int]]) -> None:
        """Each question is about one node, and all users."""
        spelled = (urllib.parse.quote_from_bytes(os.fsencode(path), safe="/") for path, _ in questions)
        asked = [f"who {at} {right:#x}" for at, (_, right) in zip(spelled, questions)]
        for (path, right), rows in zip(questions, self.answers(asked), strict=True):
            cells = [row.split("\t") for row in rows if row.startswith("who\t")]
            grants = [(to.split(" ")[0], " ".join(unless).split()) for _, _, _, to, *unless in cells]
            for user, sids in self.tokens.items():
                self.say("who", path, user, right, any(holds(sids, *grant) for grant in grants))

    def answers(self, questions: list[str]) -> Iterator[list[str]]:
        """The rows of each answer of `estate ask`."""
        rows: list[str] = []
        for line in self.ask((4, 0), "ask", "script", given="".join(f"{each}\n" for each in questions)):
            if line.startswith("end\t"):
                yield rows
                rows = []
            else:
                rows.append(line)

    def report(self) -> None:
        """What the page says of three rights, and its table of all rights of the users."""
        members = [f"member {group} {user}" for user, sids in self.tokens.items() for group in sids[1:-2]]
        users = [f"user {user} EXAMPLE\\u{number}" for number, user in enumerate(self.tokens)]
        (self.room / "accounts").write_text("\n".join([*users, *members, ""]))
        self.ask((4,), "report", "--accounts", "accounts", "--matrix", "table.csv", "script", "page.html")
        page = (self.room / "page.html").read_text()
        data = json.loads(page[page.index('{"nodes":[') :].partition("</script>")[0])
        self.page(data)
        self.table()

    def page(self, data: dict[str, Any]) -> None:
        sids = [sid for sid, _ in data["sids"]]
        paths = sorted(self.lines, key=lambda path: tuple(os.fsencode(each) for each in path[1:].split("/") if each))
        for path, node in zip(paths, data["nodes"], strict=True):
            for right, grants in zip(OF_REPORT, data["accesses"][node[7]]):
                for user, held in self.tokens.items():
                    given = ((named(sids, to), [named(sids, each) for each in unless]) for to, _, unless in grants)
                    self.say("page", path, user, right, any(holds(held, *grant) for grant in given))

    def table(self) -> None:
        """A node without a row for a user has the rights of the folder above."""
        masks: dict[str, dict[str, int]] = {}
        with open(self.room / "table.csv", encoding="utf-8-sig", newline="") as file:
            for path, _, sid, _, mask in list(csv.reader(file))[1:]:
                if sid in self.tokens:
                    masks.setdefault(words_of(path), {})[sid] = int(mask, 16)
        for path in sorted(self.lines, key=lambda each: each.count("/") if each != "/" else -1):
            above = (path.rpartition("/")[0] or "/") if path != "/" else None
            masks[path] = (masks[above] if above else {}) | masks.get(path, {})
            for user, granted in masks[path].items():
                for bit in filter(lambda bit: OF_FILES >> bit & 1, range(RIGHTS)):
                    self.say("table", path, user, 1 << bit, bool(granted >> bit & 1))


def named(sids: list[str], subject: int | str) -> str:
    return sids[subject] if isinstance(subject, int) else subject


def holds(sids: list[str], to: str, unless: list[str]) -> bool:
    """Whether rights that are granted to a SID, or to everyone, are granted to who has these."""
    return (to == "everyone" or to in sids) and not set(unless) & set(sids)


def tokens_of(dice: random.Random) -> dict[str, list[str]]:
    """Users, each with groups by chance."""
    users = [*map(full, USERS), "S-1-5-21-1-2-3-3000"]
    return {user: token(user, dice.sample(GROUPS, dice.randrange(len(GROUPS)))) for user in users}


def compare(room: Path, volume: Ntfs, python: str, nodes: int, questions: int, seed: int) -> Beside:
    """An odd volume of so many nodes is made, and as many questions of `find` about all nodes are asked as make so many
    questions about one, and a hundredth of these of `who`."""
    dice = random.Random(seed)
    odd.make(volume, nodes, seed)
    beside = Beside(room, volume, tokens_of(dice))
    beside.walk()
    beside.by_samba(python)
    beside.read()
    users, lines = list(beside.tokens), sorted(beside.lines)
    beside.find([(dice.choice(users), 1 << dice.randrange(RIGHTS)) for _ in range(1 + questions // len(lines))])
    beside.who([(dice.choice(lines), 1 << dice.randrange(RIGHTS)) for _ in range(1 + questions // 100 // len(users))])
    beside.report()
    return beside


def main(nodes: int, questions: int, seed: int) -> int:
    python = os.environ.get("NEWER_SAMBA", "/usr/bin/python3")
    with tempfile.TemporaryDirectory(prefix="estate.") as name, Ntfs(Path(name), 300 + nodes // 100) as volume:
        began = time.monotonic()
        beside = compare(Path(name), volume, python, nodes, questions, seed)
        seconds = time.monotonic() - began
    print(f"Samba {beside.version}, seed {seed}: {len(beside.blobs):,} nodes on the disk, {len(beside.lines):,} lines")
    left = {what: list(beside.named.values()).count(what) for what in ("differs", "skipped")}
    print(f"named: {left}; questions about these: {beside.of_named:,}")
    print(f"{beside.compared:,} questions were compared: {len(beside.differing):,} differ; {seconds:.0f} s")
    print("\n".join(beside.differing[:20]))
    return int(bool(beside.differing))


if __name__ == "__main__":
    given = list(map(int, sys.argv[1:]))
    sys.exit(main(*[*given, *(100_000, 1_000_000, 1)[len(given) :]]))
