"""What Python returns of edits, of pending ones and of the published nodes, beside `review`, `list` and `dump` of the
program: over each script of the files of rows whose commands are edits, and over random scripts.

    reviews.py PROGRAM SCRIPTS SEED FILE ..

The last line is 'N passed, M failed'."""

import os
import random
import subprocess
import sys
from pathlib import Path

TOP = Path(__file__).resolve().parents[2]
sys.path[:0] = [str(TOP / "tests"), str(TOP / "bindings/python")]

from hudarin import Descriptor, Refused, Sid, Store  # noqa: E402
from tally import close, holds  # noqa: E402

PROGRAM, SCRIPTS, SEED, FILES = sys.argv[1], int(sys.argv[2]), int(sys.argv[3]), sys.argv[4:]
SIDS = ("BU", "BA", "BG", "AU", "WD", "OW", "CO", "SY")
RIGHTS = ("FR", "FW", "FA", "0x1", "0x2", "RC", "WD", "GA")
KINDS = {True: "container", False: "object"}
#: The commands with an answer of several lines, and where those end that the library returns.
SEVERAL = {"review": -2, "list": -1, "dump": -1}
FLAGS = ("", "OI", "CI", "OICI", "OICIIO", "CINP")


def edited(store, command, *words):
    """Makes the edit of this line of a script."""
    given = {"owner": Sid.from_text, "group": Sid.from_text, "move": str}.get(command, Descriptor.from_sddl)
    lists = dict(zip(("kept", "offer"), map(given, words[2:])))
    edits = {
        "addc": store.add_container,
        "addo": store.add_object,
        "owner": store.set_owner,
        "group": store.set_group,
        "dacl": store.set_dacl,
        "remove": store.remove,
        "protect": store.protect_keeping,
        "move": store.move,
    }
    edits[command](words[0], *map(given, words[1:2]), **lists)


def replies(lines):
    """The answers of the program, one for each line, without a newline at the end. Those of several lines end by an empty
    one."""
    text = "".join(line + "\n" for line in lines)
    said = iter(subprocess.run([PROGRAM, "script"], input=text, text=True, capture_output=True, check=False).stdout.splitlines())
    for line in lines:
        reply = [next(said)]
        while line in SEVERAL and reply[-1] != "":
            reply.append(next(said))
        # (the library doesn't say what a moved node inherits at its new place, and whether a node has what it keeps)
        text = "\n".join(reply[: SEVERAL.get(line)])
        yield text.removesuffix(" reordered").removesuffix(" differs").removesuffix(" reinherited")


def dumped(node):
    """The line that makes the node."""
    return " ".join([f"add{'c' if node.is_container else 'o'} {node.path}", *map(str, (node.own, *(node.stored or ())))])


def reply_of(store, line):
    """What the library answers."""
    if line == "review":
        return "\n".join(map(str, store.review()))
    if line == "publish":
        with store.publish() as view:
            return f"published {view.edits}"
    if line == "list":
        with store.publish() as view:
            return "\n".join(f"{KINDS[node.is_container]} {node.path} {view.descriptor(node.path)}" for node in view.nodes())
    if line == "dump":
        with store.publish() as view:
            return "\n".join([f"open 1 {view.own('/').own}", *map(dumped, list(view.nodes())[1:]), "publish"])
    try:
        edited(store, *line.split(" "))
    except Refused as refused:
        return f"refused {refused.fault} {refused.name}"
    return "ok"


def ask(place, lines):
    """Counts each line whose reply is the same. The first one is `open 1 ROOT`."""
    with Store(Descriptor.from_sddl(lines[0].split(" ")[2])) as store:
        for number, (line, wanted) in enumerate(zip(lines, replies(lines))):
            reply = "opened 1" if number == 0 else reply_of(store, line)
            holds(f"{place}, {number + 1}: {line}", reply == wanted, f"{reply!r:.300}, and not {wanted!r:.300}")
            if reply != wanted:
                return


class Script:
    """A random script: edits of few paths, a review after most of them, and some publishes."""

    def __init__(self, chance):
        self.chance = chance
        self.lines = [f"open 1 {self.owned()}D:{self.entries()}"]
        for _ in range(chance.randrange(5, 40)):
            self.lines.append(self.edit() if chance.random() < 0.9 else "publish")
            if chance.random() < 0.7:
                self.lines.append("review")
        self.lines += ["publish", "list", "dump"]

    def path(self):
        return "".join("/" + self.chance.choice("abc") for _ in range(self.chance.randrange(1, 4)))

    def owned(self):
        return f"O:{self.chance.choice(SIDS)}G:{self.chance.choice(SIDS)}"

    def entries(self):
        kinds = sorted(self.chance.choice("DA") for _ in range(self.chance.randrange(4)))
        parts = [(kind, *map(self.chance.choice, (FLAGS, RIGHTS, SIDS))) for kind in reversed(kinds)]
        return "".join("({};{};{};;;{})".format(*part) for part in parts)

    def dacl(self):
        none = "NO_ACCESS_CONTROL" if self.chance.random() < 0.1 else self.entries()
        return "D:" + self.chance.choice(("", "", "P")) + none

    def inherited(self):
        """What a node had inherited elsewhere, or what was offered: often nothing."""
        return "D:" + self.chance.choice(("", self.entries().replace(";", ";ID", 1)))

    def edit(self):
        path, kind = self.path(), self.chance.choice(("addc", "addc", "addo", "owner", "group", "dacl", "dacl", "remove", "protect", "move", "move"))
        if kind in ("addc", "addo"):
            lists = f" {self.inherited()} {self.inherited()}" if self.chance.random() < 0.4 else ""
            return f"{kind} {path} {self.owned()}{self.dacl()}{lists}"
        if kind == "dacl":
            return f"dacl {self.chance.choice((path, '/'))} {self.dacl()}"
        if kind in ("owner", "group"):
            return f"{kind} {path} {self.chance.choice(SIDS)}"
        return f"move {path} {self.path()}" if kind == "move" else f"{kind} {path}"


def scripts_in(file):
    """The commands of each script of a file of rows, without options, that has edits, publishes and reviews alone."""
    lines = None
    with open(file, encoding="utf-8") as rows:
        for row in rows:
            if row.startswith("$ "):
                lines = [] if row == "$ sdstore script\n" else None
            elif lines is not None and row.startswith("| "):
                lines.append(row[2:].partition(" => ")[0].rstrip("\n"))
            elif row == "!!\n" and lines is not None:
                kept = [line for line in lines if not line.startswith(("check", "review "))]
                if all(line.split(" ")[0] in USED for line in kept[1:]):
                    yield kept
                lines = None


USED = ("addc", "addo", "owner", "group", "dacl", "remove", "protect", "move", "publish", "review")

for file in FILES:
    for number, script in enumerate(scripts_in(file)):
        ask(f"{os.path.basename(file)}, script {number + 1}", script[next(i for i, line in enumerate(script) if line.startswith("open ")):])
for seed in range(SEED, SEED + SCRIPTS):
    ask(f"script {seed}", Script(random.Random(seed)).lines)
sys.exit(close())
sys.exit(failed > 0)
