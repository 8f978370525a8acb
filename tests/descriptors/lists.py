#!/usr/bin/env python3
"""Every list of at most two entries, beside the second implementation of the rules (tests/second), which looks at each bit by
itself: `lists.py PROGRAM`. The last line is 'N passed, M failed', where each run of the program counts once.

The user is the owner, in Users. Each list is asked for with and without MAXIMUM_ALLOWED, unrestricted and with restricting SIDs;
then by a token whose groups share their places in its index, which are those of their last sub-authorities modulo 1,024."""
import subprocess
import sys
from concurrent.futures import ThreadPoolExecutor
from pathlib import Path

sys.path.insert(0, str(Path(__file__).resolve().parents[1] / "second"))
from second import ALIASES, IO, OWNER_RIGHTS, Entry, Token, entry_text, full_text, verdict  # noqa: E402

PROGRAM = sys.argv[1]
USERS, SYSTEM = ALIASES["BU"], ALIASES["SY"]
MASKS = (0x00020003, 0x02000000, 0x1, 0x02040002)


def account(relative):
    return (5, (21, 1, 2, 3, relative))


USER = account(1001)


def lists(masks, sids):
    """The empty list, each entry alone and each two of them: of each kind, with or without IO."""
    entries = [Entry(kind, flags, mask, sid) for kind in "AD" for flags in (0, IO) for mask in masks for sid in sids]
    return [()] + [(one,) for one in entries] + [(one, other) for one in entries for other in entries]


def words_of(token):
    groups = [full_text(sid) + state for sid, state in token.groups]
    return groups + [full_text(sid) + "=restrict" for sid in token.restricting]


def differs(case):
    """What the program answers to the lists and should not, or None."""
    asked, token, dacls = case
    wanted = [verdict(USER, dacl, token, asked) for dacl in dacls]
    texts = ["O:%sD:%s" % (full_text(USER), "".join(map(entry_text, dacl))) for dacl in dacls]
    command = [PROGRAM, "each", "verdict", full_text(USER), hex(asked), *words_of(token)]
    done = subprocess.run(command, input="\n".join(texts) + "\n", capture_output=True, text=True, check=False)
    answers = done.stdout.split("\n")
    for text, answer, want in zip(texts, answers, wanted):
        if answer != want:
            return "%s: %s: %s, not %s" % (" ".join(command[1:]), text, answer, want)
    status = int(any(not answer.startswith("granted") for answer in wanted))
    if len(answers) != len(texts) + 1 or done.stderr or done.returncode != status:
        return "%s: %d answers, status %d, %s" % (" ".join(command[1:]), len(answers) - 1, done.returncode, done.stderr)
    return None


def main():
    pairs = lists((0x1, 0x3, 0x20000), (USER, USERS, OWNER_RIGHTS))
    restricting = ([], [USER], [USERS], [USERS, USER, USERS], [SYSTEM])
    tokens = [(Token(USER, [(USERS, "")], sids), pairs) for sids in restricting]
    places = [account(relative) for relative in (1001, 1100, 1200, 1201, 1001 + 1024, 1200 + 1024, 1300)] + [OWNER_RIGHTS]
    groups = [(account(1100), ""), (account(1200), "=deny"), (account(1201), "=off")]
    tokens.append((Token(USER, groups), lists((0x1, 0x40003), places)))
    cases = [(asked, token, dacls) for token, dacls in tokens for asked in MASKS]
    with ThreadPoolExecutor() as processors:
        found = [text for text in processors.map(differs, cases) if text]
    print("\n".join(found + ["%d passed, %d failed" % (len(cases) - len(found), len(found))]))
    return bool(found)


if __name__ == "__main__":
    sys.exit(main())
