#!/usr/bin/env python3
"""Trees with as many nodes as one may have, by default 65,536 with the root: `full.py PROGRAM`. The last line is
'N passed, M failed'."""
import resource
import subprocess
import sys

PROGRAM = sys.argv[1]
USER = "S-1-5-21-1-2-3-1001"

# Commands and their answers, by docs/TREE.md: a node fits once another one has gone.
ROWS = (
    ("addo /200/x O:BAG:SYD:", "refused 11 NodesFull"),
    ("addc /x O:BAG:SYD:", "refused 11 NodesFull"),
    ("addo /x/y O:BAG:SYD:", "refused 1 NoParent"),
    ("owner /200 BU", "ok"),
    ("remove /100/7", "ok"),
    ("addo /200/x O:BAG:SYD:", "ok"),
    ("addo /100/7 O:BAG:SYD:", "refused 11 NodesFull"),
    ("publish", "published 65538"),
    ("show 0 /200/x", "seen 65538 shown O:BAG:SYD:AI(A;ID;FR;;;BU)"),
    ("check 0 /255/256 %s FR BU" % USER, "seen 65538 granted 0x120089"),
)

# The same tree where it may have one node more.
MORE_ROWS = (
    ("addo /200/x O:BAG:SYD:", "ok"),
    ("addo /200/y O:BAG:SYD:", "refused 11 NodesFull"),
    ("publish", "published 65536"),
    ("check 0 /200/x %s FR BU" % USER, "seen 65536 granted 0x120089"),
)

# The lists of a root whose children share what they inherit: 800 entries are 58 KB, and for each child by itself 3.7 GB.
# All that the program does fits into 56 MiB, and what siblings don't share into no limit like this one.
ENTRIES = 800
MEMORY = 128 << 20


def list_for(first):
    return "".join("(A;OI;0x1;;;S-1-5-21-1-2-3-%d)" % (first + number) for number in range(ENTRIES))


# Behind the children: one has another owner, and the root gets another list, by which they all inherit anew.
SIBLING_ROWS = (
    ("publish", "published 65535"),
    ("check 0 /65535 %s 0x1" % USER, "seen 65535 granted 0x1"),
    ("owner /65535 BU", "ok"),
    ("dacl / D:%s" % list_for(5000), "ok"),
    ("publish", "published 65537"),
    ("check 0 /1 %s 0x1" % USER, "seen 65537 denied 0x1"),
    ("check 0 /65535 S-1-5-21-1-2-3-5799 0x1", "seen 65537 granted 0x1"),
)


def folders():
    """255 folders of 256 objects each."""
    lines = ["open 1 O:BAG:SYD:(A;OICI;FR;;;BU)"]
    for container in range(1, 256):
        lines.append("addc /%d O:BAG:SYD:" % container)
        lines += ["addo /%d/%d O:BAG:SYD:" % (container, number) for number in range(1, 257)]
    return lines


def siblings():
    return ["open 1 O:BAG:SYD:" + list_for(1000)] + ["addo /%d O:BAG:SYD:" % number for number in range(1, 65536)]


def limited():
    resource.setrlimit(resource.RLIMIT_AS, (MEMORY, MEMORY))


def tried(name, lines, rows, options=(), before=None):
    """How many lines of the script, and of the rows after it, were answered as wanted, and whether all were."""
    wanted = ["opened 1"] + ["ok"] * (len(lines) - 1) + [answer for _, answer in rows]
    script = "\n".join(lines + [command for command, _ in rows]) + "\n"
    command = [PROGRAM, *options, "script"]
    done = subprocess.run(command, input=script, capture_output=True, text=True, check=False, preexec_fn=before)
    found = done.stdout.split("\n")
    is_so = (found, done.returncode) == (wanted + [""], 0)
    if not is_so:
        differs = next((it for it in zip(found, wanted) if it[0] != it[1]), (len(found), len(wanted)))
        print("%s: status %d; %s, not %s; %s" % (name, done.returncode, *differs, done.stderr[:200]))
    return sum(answer == want for answer, want in zip(found, wanted)), is_so


def main():
    results = [
        tried("a full tree", folders(), ROWS),
        tried("a tree of 65,537 nodes", folders(), MORE_ROWS, ["--nodes", "65537"]),
        tried("65,535 siblings", siblings(), SIBLING_ROWS, before=limited),
    ]
    passed = sum(count for count, _ in results)
    failed = sum(not is_so for _, is_so in results)
    print("%d passed, %d failed" % (passed, failed))
    return int(failed > 0)


if __name__ == "__main__":
    sys.exit(main())
