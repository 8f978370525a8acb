"""Lines with ids, as `sdstore --percent serve --ids` answers them (docs/SCRIPT.md), and the commands of `script`."""

import itertools
from collections.abc import Iterator, Sequence

from answers import Answer
from connection import Connection, Place
from errors import Fault
from origin import UNNAMED, Origin
from script import LONG, OF_LINES, OF_WRITER, WATCH, Reader, seen_in
from service import Service
from task import Task

#: What stands for bytes that aren't UTF-8.
_REPLACED = "\ufffd"
#: The most bytes of an id, which each line of an answer has.
_ID_BYTES = 100
#: No line that is carried out has as many words. What comes after them is one more: to take it apart takes long.
_MOST_WORDS = 1 << 12
#: The lines of a long answer that are put together at once.
_LINES_IN_PIECE = 16


class LineConnection(Connection):
    """Lines are answered in their order. Edits that follow one another are sent to the writer without waiting."""

    def __init__(self, service: Service, place: Place) -> None:
        super().__init__(service, place)
        #: Up to there what was received has no line feed.
        self._searched = 0
        self._reader = Reader()
        #: Another thread makes an answer.
        self._is_long = False

    def answer_waiting(self) -> bool:
        said: list[str] = []
        buffer, most = self._buffer, self.service.limits.request_bytes
        begin, end = 0, buffer.find(b"\n", self._searched)
        while 0 <= end - begin <= most and not self._is_long and self.may_answer:
            if not self._answer(buffer[begin:end], said):
                break
            self._owes_since = None
            begin, end = end + 1, buffer.find(b"\n", end + 1)
        del buffer[:begin]
        self._searched = len(buffer) if end < 0 else end - begin
        if said:
            self.send("".join(said).encode())
        if self._searched > most:
            self.reject("line too long")
        return self._is_long or end >= 0

    def _answer(self, line: bytearray, said: list[str]) -> bool:
        """Answers a line, or has it answered later. False: it has to wait for edits before it."""
        text = line.decode(errors="replace").removesuffix("\r")
        tag, words = tagged(text)
        if not words:
            return True
        try:
            if len(tag) > _ID_BYTES + 1:
                tag, words = "", [""]
                raise Fault.of("id")
            if _REPLACED in text:
                require_utf8(line)
            # (a word is empty)
            if "  " in f" {text} ":
                raise Fault.of("words")
            if words[0] in OF_WRITER:
                return self._submit(words, tag)
            if self.in_progress:
                return False
            if words[0] in LONG or words[0] == WATCH or self.service.takes_long(words, self.caller):
                self._start_long(words, tag)
                return True
            answer = self.service.answer(words, self.caller, self._reader, self._origin(tag))
        except Fault as fault:
            if self.in_progress:
                return False
            answer = fault.answer
        said.append(_lines_of(tag, answer, words[0]))
        return True

    def _origin(self, tag: str) -> Origin:
        """What a question is called, where the log has it."""
        return Origin(tag[:-1]) if self.service.decisions.are_logged else UNNAMED

    def _submit(self, words: list[str], tag: str) -> bool:
        if self.in_progress >= self.service.limits.edits_of_client:
            return False

        def reply(task: Task) -> None:
            self.send(f"{tag}{task.answer.line()}\n".encode())
            self.finished()

        self.service.edits.submit([words], self.caller, reply, origin=Origin(tag[:-1]))
        self.in_progress += 1
        return True

    def _start_long(self, words: list[str], tag: str) -> None:
        self._is_long = True
        self.in_progress += 1
        self.start_long(self._answer_long(words, tag), words, words[0] == WATCH)

    async def _answer_long(self, words: Sequence[str], tag: str) -> None:
        try:
            if words[0] in LONG:
                answer = await self.service.long_answer(
                    words, self.caller, self._reader, lambda _, lines: _pieces(tag, lines), self.hold
                )
            elif words[0] == WATCH:
                shown = await self.service.watched(seen_in(words), self.caller)
                answer = f"{tag}told {shown.length}\n".encode()
            else:
                _, said = await self.service.long_checks(
                    [words], self.caller, self._reader, self.hold, self._origin(tag)
                )
                answer = _lines_of(tag, said[0], words[0]).encode()
        except Fault as fault:
            answer = _lines_of(tag, fault.answer, words[0]).encode()
        finally:
            self._is_long = False
        self.send(answer)
        self.finished()


def _pieces(tag: str, lines: Iterator[Answer]) -> Iterator[bytes]:
    """The lines of an answer of lines, each with the tag, and an empty one."""
    end = f"\n{tag}"
    while some := [each.line() for each in itertools.islice(lines, _LINES_IN_PIECE)]:
        # (an answer may be several lines)
        text = "\n".join(some).replace("\n", end)
        yield f"{tag}{text}\n".encode()
    yield f"{tag}\n".encode()


def _lines_of(tag: str, answer: Answer, command: str) -> str:
    """The lines of an answer, each with the tag; to some commands an empty one ends it."""
    text = answer.line()
    if command in OF_LINES:
        text = f"{text}\n".replace("\n", f"\n{tag}")
    return f"{tag}{text}\n"


def tagged(text: str) -> tuple[str, list[str]]:
    """The tag of a line, its id and a space, and the words of what it asks: none if it has no answer. A line without an
    id has no tag."""
    first, _, asked = text.partition(" ")
    if not first or first[0] == "#" or not (first.isascii() and first.isprintable()):
        return "", [] if text[:1] in ("", "#") else text.split(" ", _MOST_WORDS)
    if not asked or asked[0] == "#":
        return "", []
    return f"{first} ", asked.split(" ", _MOST_WORDS)


def require_utf8(line: bytearray) -> None:
    """Fault: it isn't UTF-8."""
    try:
        line.decode()
    except UnicodeDecodeError:
        raise Fault.of("utf8") from None
