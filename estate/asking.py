"""Questions about a script: one of a command, as `estate who`, or many on standard input, by `estate ask`."""

import argparse
import sys
from collections.abc import Iterator
from contextlib import contextmanager
from typing import BinaryIO

import people as people_of
import questions
from answers import answered, counts_of, of_users, people_in
from errors import EstateError, Failed, Invalid
from gaps import Coverage
from people import People, require_own_groups
from script import Script, read_script
from shares import require_rights, share_of
from table import Table, plural, say

#: The longest line of standard input: no path of a tree is longer, with all groups that a token has.
_MAX_LINE_BYTES = 1 << 20
_EXPECTED = "'who PATH MASK [ARG ..]' or 'find PATH USER MASK [ARG ..]' is expected"
#: The statuses of answers, the worst one last.
_STATUSES = (0, 1, 4, 2, 3)


class Asked:
    """A script that questions are about, with the users of a file of accounts if there is one. It is loaded once."""

    def __init__(
        self, script: Script, people: People | None, share: str | None, only_given: bool, table: Table
    ) -> None:
        self._script, self._people, self._share = script, people, share
        self._only_given, self._table = only_given, table

    def answer(self, command: str, words: list[str]) -> int:
        """Answers a question that is spelled as the command is, but for its options and SCRIPT. Returns the status."""
        if command == "who" and len(words) > 1:
            return self._who(*words)
        if command == "find" and len(words) > 2:
            return self._find(*words)
        raise Invalid(f"{command}: not a question: {_EXPECTED}")

    def _who(self, path_text: str, mask: str, *words: str) -> int:
        """Whom a node grants rights, of all possible users, and of those of the file of accounts."""
        if self._share is not None:
            raise Invalid("who: --share is for questions about one user: ask find, or leave it out")
        if self._people is not None:
            require_own_groups(words, self._only_given)
        path = questions.node_of(self._script, path_text)
        assumed = questions.assumed_groups(words, self._only_given, self._table)
        count = questions.who(self._script, path, [mask, *words, *assumed], self._table)
        users = None
        if self._people is not None:
            users = people_of.who(self._script, path, mask, self._people, self._table)
        about = Coverage(1, self._script.gaps_at(path))
        text = f"{plural(count, 'line')}{of_users(users)}"
        return answered(self._table, "answered", text, counts_of(users, lines=count), about)

    def _find(self, path_text: str, user: str, mask: str, *words: str) -> int:
        """The nodes that grant a user rights, if the share grants them too."""
        path = questions.node_of(self._script, path_text)
        about = self._script.covered(path)
        asked = asking_as(user, mask, words, self._people, self._only_given, self._table)
        count = 0
        if is_granted_by_share(self._share, asked, self._table):
            count = questions.find(self._script, path, asked, self._table)
        return answered(self._table, "found", plural(count, "node"), {"nodes": count}, about)


def asking_as(
    user: str, mask: str, words: tuple[str, ...], people: People | None, only_given: bool, table: Table
) -> list[str]:
    """The user, the rights, and what the user has: the groups of its account, or those that are assumed."""
    if people is not None:
        # (user=deny is about the user itself)
        require_own_groups((word for word in words if word != "user=deny"), only_given)
        own, *groups = (sid.full for sid in people.sids(user))
        return [own, mask, *groups, *words]
    assumed = questions.assumed_groups((user, *words), only_given, table)
    return [user, mask, *words, *assumed]


def is_granted_by_share(share: str | None, asked: list[str], table: Table) -> bool:
    """Rows that say why the share grants what is asked for, or doesn't, and whether it does; without a share none."""
    if share is None:
        return True
    require_rights(asked[1])
    return questions.is_granted_by(share, asked, table)


@contextmanager
def _asked(arguments: argparse.Namespace, table: Table) -> Iterator[Asked]:
    with read_script(arguments.script) as script, people_in(arguments.accounts) as people:
        yield Asked(script, people, share_of(arguments), arguments.only_given, table)


def who(arguments: argparse.Namespace, table: Table) -> int:
    """Whom a node grants rights."""
    with _asked(arguments, table) as asked:
        return asked.answer("who", [arguments.path, arguments.mask, *arguments.words])


def find(arguments: argparse.Namespace, table: Table) -> int:
    """The nodes that grant a user rights."""
    with _asked(arguments, table) as asked:
        return asked.answer("find", [arguments.path, arguments.user, arguments.mask, *arguments.words])


def ask(arguments: argparse.Namespace, table: Table) -> int:
    """Questions on standard input, each answered before the next line is read."""
    statuses: list[int] = []
    with _asked(arguments, table) as asked:
        for number, line in enumerate(_lines(sys.stdin.buffer), 1):
            # (what a command says at its end on standard error is in the row that ends the answer)
            said: list[str] = []
            table.says = said.append
            status = _answer_line(asked, line, number, table)
            table.row("end", {"line": number, "status": status, "text": " ".join(said) or "no answer"})
            sys.stdout.flush()
            statuses.append(status)
    table.says = say
    if not statuses:
        raise Invalid(f"standard input: no question: {_EXPECTED}")
    errors = sum(status in (2, 3) for status in statuses)
    text = f"{plural(len(statuses), 'question')}, {errors:,} without an answer"
    table.end("asked", text, {"questions": len(statuses), "errors": errors})
    return max(statuses, key=_STATUSES.index)


def _answer_line(asked: Asked, line: bytes | None, number: int, table: Table) -> int:
    """The status of an answer: one that can't be is a row that says why, by the number of its line."""
    try:
        command, *words = _words(line)
        return asked.answer(command, words)
    except EstateError as error:
        table.row("error", {"line": number, "why": str(error)})
        return error.status


def _lines(stream: BinaryIO) -> Iterator[bytes | None]:
    """The lines, without their ends; None is one that is too long."""
    most = _MAX_LINE_BYTES + len(b"\r\n")
    while line := _read(stream, most):
        is_whole = line.endswith(b"\n") or len(line) < most
        while len(line) == most and not line.endswith(b"\n"):
            line = _read(stream, most)
        yield line.removesuffix(b"\n").removesuffix(b"\r") if is_whole else None


def _read(stream: BinaryIO, most: int) -> bytes:
    try:
        return stream.readline(most)
    except OSError as error:
        raise Failed(f"standard input: {error.strerror}") from error


def _words(line: bytes | None) -> list[str]:
    """The words of a line: a space is between two of them, or where the line has a tab, a tab."""
    if line is None:
        raise Invalid(f"the line has more than {_MAX_LINE_BYTES:,} bytes")
    try:
        text = line.decode()
    except UnicodeDecodeError as error:
        raise Invalid("the line isn't UTF-8") from error
    words = text.split("\t" if "\t" in text else " ")
    if "" in words:
        raise Invalid("the line has an empty word: one space, or one tab, is between two words")
    return words
