#!/usr/bin/env python3
"""Compares the library's answers to the first cases with those of tests/second, a second implementation of the rules.

    test.py [COUNT]
"""

import pathlib
import re
import sys

TOP = pathlib.Path(__file__).resolve().parent.parent.parent
sys.path += [str(TOP / "bindings/python"), str(TOP / "tests/second")]

from auditing import answer  # noqa: E402 (they use the wrapper of the library)
from cases import Case, case, groups_of  # noqa: E402
from second import ALIASES, FLAGS, RIGHT_NAMES, Entry, Token, verdict  # noqa: E402

RIGHTS = {name: mask for mask, name in RIGHT_NAMES.items()}
WORDS = {0x4: "", 0x10: "=deny", 0x0: "=off"}
ENTRY = re.compile(r"\(([AD]);([A-Z]*);(\w+);;;([\w-]+)\)")


def sid(text: str) -> tuple[int, tuple[int, ...]]:
    """The SID of an alias or of a text in full: its authority and its sub-authorities."""
    if text in ALIASES:
        return ALIASES[text]
    authority, *subs = map(int, text.removeprefix("S-1-").split("-"))
    return authority, tuple(subs)


def entry(kind: str, flags: str, rights: str, trustee: str) -> Entry:
    bits = sum(FLAGS[flags[at:at + 2]] for at in range(0, len(flags), 2))
    return Entry(kind, bits, RIGHTS[rights] if rights in RIGHTS else int(rights, 16), sid(trustee))


def second_answer(asked: Case) -> str:
    owner, entries = re.fullmatch("O:(.*)G:BAD:(.*)", asked.descriptor).groups()
    token = Token(sid(asked.user))
    token.groups += [(sid(group), WORDS[state]) for group, state in groups_of(asked.user)]
    return verdict(sid(owner), [entry(*parts) for parts in ENTRY.findall(entries)], token, asked.asked)


def main(count: int) -> int:
    differing = [number for number in range(count) if answer(case(number))[1] != second_answer(case(number))]
    for number in differing[:5]:
        print(f"{case(number)}: {answer(case(number))[1]}, where {second_answer(case(number))} was wanted")
    print(f"{count - len(differing)} answers are those of the second implementation")
    return 1 if differing else 0


if __name__ == "__main__":
    sys.exit(main(int(sys.argv[1]) if sys.argv[1:] else 2000))
