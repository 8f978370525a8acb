"""The lines of a script: which command each is, and its answer by what readers see.

The store has one reader, number 0, for each client. Besides the commands of a script there are `checks`, which asks for
several paths at once, `compare`, `status`, and `once KEY` before an edit or a publish, which is then made once however
often it is sent."""

from collections.abc import Callable, Iterator, Sequence
from dataclasses import dataclass
from typing import TypeVar

import analysis
from answers import NO_NOTICE, NO_READER, Answer, Result
from deadline import Deadline
from edits import NAMES, PUBLISH, require_paths
from errors import Fault
from questions import Questions, base_of, mask_of
from spelling import descriptor_of, number_of, path_of

#: Commands that change the store: the writer answers them.
CHANGES = NAMES | {PUBLISH}
#: The first words of the lines that the writer answers.
OF_WRITER = CHANGES | {"once"}
#: What a replica asks of its leader's journal.
OF_JOURNAL = frozenset({"snapshot", "lines"})
#: What the writer's tree is asked: what a publish would change.
REVIEW = "review"
#: What waits for the next publish.
WATCH = "watch"
#: The most printable ASCII characters of a key.
_KEY_LENGTH = 100
#: The most paths of one request: its answer delays others by a few milliseconds.
MOST_PATHS = 1_000
#: So does one about a token of so many words. To parse more takes long, and so does a check at a long list.
FEW_WORDS = 256
#: So many paths of `checks` times restricting SIDs are answered in the loop.
_SOUGHT_IN_LOOP = 4_096
#: The questions that take long for a user of many groups; `check` and `delete` don't.
_OF_GROUPS = frozenset({"checks", "why"})
_A = TypeVar("_A")


@dataclass(slots=True)
class Reader:
    """A client's reader: the length of the journal that it has seen or learned of."""

    floor: int = 0


def without_key(words: list[str]) -> tuple[str, list[str]]:
    """The key of an edit that is made once, or an empty text, and the other words."""
    if words[0] != "once":
        return "", words
    if len(words) < 3 or words[2] not in CHANGES:
        raise Fault.of("words")
    if not is_key(words[1]):
        raise Fault.of("key")
    return words[1], words[2:]


def is_key(text: str) -> bool:
    return 0 < len(text) <= _KEY_LENGTH and all("!" <= each <= "~" for each in text)


def answer(words: Sequence[str], questions: Questions, reader: Reader) -> Answer:
    """The answer to a question that doesn't take long. Fault: its first fault."""
    least, most, ask = _QUESTIONS.get(words[0], _UNKNOWN)
    if not least <= len(words) - 1 <= most:
        raise Fault.of("words")
    return ask(words, questions, reader)


def long_lines(words: Sequence[str], questions: Questions, reader: Reader, deadline: Deadline) -> Iterator[Answer]:
    """The lines that answer a question that may take long, for another thread. Fault: its first fault."""
    least, most, prepare = _LONG_QUESTIONS[words[0]]
    if not least <= len(words) - 1 <= most:
        raise Fault.of("words")
    return prepare(words, questions, reader, deadline)


def restrict_long(words: Sequence[str], paths: int) -> bool:
    """Whether so many checks take long for a token of these words: each entry is sought among its restricting SIDs."""
    return paths * sum(word.endswith("=restrict") for word in words) > _SOUGHT_IN_LOOP


def takes_long(words: Sequence[str], questions: Questions) -> bool:
    """Whether a question about a token is answered by another thread: the token has many words, and isn't just checked
    at one path after it was parsed before. With accounts a user of many groups has none."""
    tokens = questions.tokens
    if tokens.accounts is None and len(words) <= FEW_WORDS:
        return False
    is_several = words[0] == "checks" and len(words) > 2 and words[2].isascii() and words[2].isdigit()
    paths = int(words[2]) if is_several and len(words[2]) < 5 else 0
    if tokens.accounts is not None:
        user = tuple(words[paths + 3 : paths + 4])
        return words[0] in _OF_GROUPS and user != () and tokens.size(user) > FEW_WORDS + 1
    if words[0] == "checks":
        return len(words) - paths > FEW_WORDS or restrict_long(words[paths + 3 :], paths)
    return not (words[0] == "check" and tokens.has((words[3], *words[5:])))


def seen_in(words: Sequence[str]) -> int:
    """The length that a `watch` names."""
    if len(words) != 2:
        raise Fault.of("words")
    return number_of(words[1])


def reviewed_path(words: Sequence[str], questions: Questions) -> str:
    """The path of a `review`."""
    if len(words) > 2:
        raise Fault.of("words")
    return _path(words[1] if words[1:] else "/", questions)


def _path(word: str, questions: Questions) -> str:
    path = path_of(word)
    require_paths(questions.shown.view, [path])
    return path


def _by_reader(number: int, said: _A, questions: Questions, reader: Reader) -> _A:
    """What the reader of this number is answered: it has then seen what is published. Fault: there is none."""
    if number != 0:
        raise Fault(NO_READER)
    length = questions.shown.length
    if reader.floor < length:
        reader.floor = length
    return said


def _tell(words: Sequence[str], questions: Questions, reader: Reader) -> Answer:
    return Result("told", number=questions.shown.length)


def _learn(words: Sequence[str], questions: Questions, reader: Reader) -> Answer:
    number, length = number_of(words[1]), number_of(words[2])
    if number != 0:
        raise Fault(NO_READER)
    if length > questions.shown.length:
        raise Fault(NO_NOTICE)
    reader.floor = max(reader.floor, length)
    return Result("learned", number=reader.floor)


def _check(words: Sequence[str], questions: Questions, reader: Reader) -> Answer:
    number = number_of(words[1])
    said = questions.check(words[4], (words[3], *words[5:]), path_of(words[2]))
    return _by_reader(number, said, questions, reader)


def _checks(words: Sequence[str], questions: Questions, reader: Reader) -> Answer:
    number = number_of(words[1])
    count = number_of(words[2])
    if count > MOST_PATHS:
        raise Fault.of("paths")
    if len(words) < count + 5:
        raise Fault.of("words")
    # (to call `path_of` takes longer than to see that a word is the path that it spells)
    paths = [path_of(word) if "%" in word else word for word in words[3 : 3 + count]]
    user, mask, *groups = words[3 + count :]
    return _by_reader(number, questions.checks(mask, (user, *groups), paths), questions, reader)


def _why(words: Sequence[str], questions: Questions, reader: Reader) -> Answer:
    number = number_of(words[1])
    said = questions.why(words[4], (words[3], *words[5:]), path_of(words[2]))
    return _by_reader(number, said, questions, reader)


def _delete(words: Sequence[str], questions: Questions, reader: Reader) -> Answer:
    number = number_of(words[1])
    said = questions.delete((words[3], *words[4:]), path_of(words[2]))
    return _by_reader(number, said, questions, reader)


def _show(words: Sequence[str], questions: Questions, reader: Reader) -> Answer:
    number = number_of(words[1])
    return _by_reader(number, questions.show(path_of(words[2])), questions, reader)


def _open(words: Sequence[str], questions: Questions, reader: Reader) -> Answer:
    raise Fault.of("open")


def _status(words: Sequence[str], questions: Questions, reader: Reader) -> Answer:
    """The store's id, the epoch, the place of the published tree, and the published length."""
    shown = questions.shown
    return Result("status", f"{questions.store} {shown.epoch} {shown.place} {shown.length}")


# Questions that may take long


def _find(words: Sequence[str], questions: Questions, reader: Reader, deadline: Deadline) -> Iterator[Answer]:
    number = number_of(words[1])
    shown, path = questions.shown, _path(words[2], questions)
    spelled = (words[3], *words[5:])
    token, bits = questions.tokens.parsed(words[4], spelled)
    seen, size = _by_reader(number, shown.length, questions, reader), questions.tokens.size(spelled)
    return analysis.found(shown.view.share(), seen, path, token.share(), size, bits, deadline)


def _list(words: Sequence[str], questions: Questions, reader: Reader, deadline: Deadline) -> Iterator[Answer]:
    path = _path(words[1] if words[1:] else "/", questions)
    return analysis.listed(questions.shown.view.share(), path, deadline)


def _dump(words: Sequence[str], questions: Questions, reader: Reader, deadline: Deadline) -> Iterator[Answer]:
    return analysis.dump(questions.shown.view.share(), deadline)


def _who(words: Sequence[str], questions: Questions, reader: Reader, deadline: Deadline) -> Iterator[Answer]:
    path, bits, base = _path(words[1], questions), mask_of(words[2]), base_of(words[3:])
    return analysis.granted(questions.shown.view.share(), path, bits, base, questions.mapping, deadline)


def _compare(words: Sequence[str], questions: Questions, reader: Reader, deadline: Deadline) -> Iterator[Answer]:
    path, new, base = _path(words[1], questions), descriptor_of(words[2]), base_of(words[3:])
    return analysis.compared(questions.shown.view.share(), path, new, base, questions.mapping)


_Ask = Callable[[Sequence[str], Questions, Reader], Answer]
_Prepare = Callable[[Sequence[str], Questions, Reader, Deadline], Iterator[Answer]]
_MOST = 1 << 20
#: The least and the most arguments of a question, and its answer.
_QUESTIONS: dict[str, tuple[int, int, _Ask]] = {
    "open": (2, 2, _open),
    "tell": (0, 0, _tell),
    "learn": (2, 2, _learn),
    "check": (4, _MOST, _check),
    "checks": (4, _MOST, _checks),
    "why": (4, _MOST, _why),
    "delete": (3, _MOST, _delete),
    "show": (2, 2, _show),
    "status": (0, 0, _status),
}
#: Another word is no command.
_UNKNOWN = (1, 0, _open)
#: The same of those that may take long.
_LONG_QUESTIONS: dict[str, tuple[int, int, _Prepare]] = {
    "find": (4, _MOST, _find),
    "list": (0, 1, _list),
    "dump": (0, 0, _dump),
    "who": (2, _MOST, _who),
    "compare": (2, _MOST, _compare),
}
#: Commands that another thread answers.
LONG = OF_JOURNAL | _LONG_QUESTIONS.keys() | {REVIEW}
#: Commands whose answer ends with an empty line, also after a fault.
OF_LINES = LONG | {"why"}
