#!/usr/bin/env python3
"""What estate costs on a volume of many files, in seconds and the most memory: costs.py [FILES [USERS]]. By hand, as
root."""

import os
import subprocess
import sys
import tempfile
import time
from pathlib import Path

from rig import TOOL, Ntfs, node_form
from second import Node, Tree, sid_text
from trees import BA, BG, BU, FULL, READ, SY, USERS, allow

#: So many files are in a folder, so many folders in one above, and so many files have entries of their own.
IN_FOLDER, IN_ABOVE, OWN_EVERY = 40, 20, 50


def tree_of(files: int) -> Tree:
    """Folders and files, of which most inherit everything."""
    nodes = {(): Node(True, BA, SY, (False, [allow(BA, FULL), allow(BU, READ)]))}
    for number in range(files):
        folder = number // IN_FOLDER
        above = (f"above{folder // IN_ABOVE}",)
        nodes.setdefault(above, Node(True, BA, SY, (False, [allow(USERS[folder // IN_ABOVE % 20], 0x1301BF)])))
        nodes.setdefault((*above, f"folder{folder}"), Node(True, USERS[folder % 20], SY, (False, [])))
        own = [allow(BG, 0x1 << number % 8, 0)] if number % OWN_EVERY == 0 else []
        nodes[*above, f"folder{folder}", f"file{number}"] = Node(False, USERS[number % 20], SY, (False, own))
    return Tree(nodes)


def fill(volume: Ntfs, tree: Tree) -> None:
    for path in sorted(tree.nodes):
        if path and tree.nodes[path].is_container:
            os.mkdir(volume.at(path))
        elif path:
            os.close(os.open(volume.at(path), os.O_CREAT | os.O_WRONLY))
        volume.put(path, node_form(tree, path))


def accounts_of(count: int) -> str:
    """So many users, who are in Users, and each in one of the groups of a department, which are in one of all."""
    sids = [*map(sid_text, USERS), *(f"S-1-5-21-1-2-3-{100_000 + number}" for number in range(count - len(USERS)))]
    lines = [f"user {sid} EXAMPLE\\user{number}\nmember BU {sid}" for number, sid in enumerate(sids)]
    lines += [f"member S-1-5-21-1-2-3-{5000 + number % 50} {sid}" for number, sid in enumerate(sids)]
    lines += [f"member S-1-5-21-1-2-3-6000 S-1-5-21-1-2-3-{5000 + number}" for number in range(50)]
    return "\n".join([*lines, ""])


def run(room: Path, *words: str, given: str = "") -> None:
    """Measures a command, with the file `given` as its input."""
    began = time.monotonic()
    with open(room / given if given else os.devnull, "rb") as lines:
        out = subprocess.DEVNULL if given else None
        process = subprocess.Popen([sys.executable, str(TOOL), *words], cwd=room, stdin=lines, stdout=out)
    _, status, used = os.wait4(process.pid, 0)
    seconds = time.monotonic() - began
    named = " ".join(words)
    print(
        f"{named}: status {os.waitstatus_to_exitcode(status)}, {seconds:.1f} s, {used.ru_maxrss >> 10} MiB", flush=True
    )


def main(files: int, users: int) -> None:
    with tempfile.TemporaryDirectory(prefix="estate.") as name, Ntfs(Path(name), 2000) as volume:
        room, tree = Path(name), tree_of(files)
        began = time.monotonic()
        fill(volume, tree)
        print(f"{len(tree.nodes):,} nodes were made in {time.monotonic() - began:.1f} s", flush=True)
        run(room, "read", "mount", "whole")
        run(room, "read", "--folders", "mount", "folders")
        with open(room / "folders", "a") as script:
            script.write("dacl / D:(A;OICI;FA;;;BA)(A;OICI;FR;;;AU)\npublish\n")
        run(room, "plan", "folders", "mount")
        run(room, "write", "folders", "mount")
        run(room, "undo", "folders.journal")
        (room / "accounts").write_text(accounts_of(users))
        run(room, "report", "whole", "page.html", "--accounts", "accounts", "--matrix", "sheet.csv")
        (room / "questions").write_text("".join(f"find / {sid_text(user)} 0x2\n" for user in USERS * 8))
        run(room, "ask", "whole", given="questions")
        changed = (room / "whole").read_text() + "dacl / D:(A;OICI;FA;;;BA)(A;OICI;FX;;;AU)\npublish\n"
        (room / "changed").write_text(changed)
        run(room, "diff", "--totals", "whole", "changed")
        for made in ("page.html", "sheet.csv"):
            print(f"{made}: {(room / made).stat().st_size:,} bytes", flush=True)


if __name__ == "__main__":
    given = list(map(int, sys.argv[1:]))
    main(*[*given, *(100_000, 2_000)[len(given) :]])
