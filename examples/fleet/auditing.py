"""What a worker does: the answers of libhudarin to a share of the cases."""

import hashlib
from collections import Counter
from dataclasses import dataclass
from functools import lru_cache

from cases import Case, case, groups_of
from hudarin import Descriptor, Refused, Sid, Token

#: How many tokens a process keeps: those of the users that it was asked for last.
KEPT = 10_000
#: How many refused cases a share names.
NAMED = 5


@dataclass(frozen=True)
class Share:
    """How often each kind of answer came, a digest of all in their order, and the first refused cases."""

    counts: Counter[str]
    digest: bytes
    refused: tuple[tuple[int, str], ...] = ()


@lru_cache(KEPT)
def token_of(user: str) -> Token:
    """The token of a user, which is parsed once and kept."""
    return Token(Sid.from_text(user), [(Sid.from_text(group), state) for group, state in groups_of(user)])


def answer(asked: Case) -> tuple[str, str]:
    """The kind of the answer, and the whole of it. An invalid text is refused, and grants nothing."""
    try:
        token = token_of(asked.user)
    except Refused as error:
        return "refused", f"refused {error} in the user {asked.user} or a group"
    try:
        verdict = Descriptor.from_sddl(asked.descriptor).check_by(token, asked.asked)
    except Refused as error:
        return "refused", f"refused {error} in the descriptor {asked.descriptor}"
    return verdict.kind, str(verdict)


def share(first: int, end: int) -> Share:
    """The answers to the cases from the first one up to the one before the end."""
    counts: Counter[str] = Counter()
    refused: list[tuple[int, str]] = []
    digest = hashlib.sha256()
    for number in range(first, end):
        kind, text = answer(case(number))
        if kind == "refused" and len(refused) < NAMED:
            refused.append((number, text))
        counts[kind] += 1
        digest.update(text.encode() + b"\n")
    return Share(counts, digest.digest(), tuple(refused))
