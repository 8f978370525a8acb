"""What all connections ask: questions are answered at once by what is published, edits by the writer."""

import asyncio
import contextlib
import functools
import math
import secrets
import socket
import sqlite3
import threading
import time
import weakref
from collections.abc import Awaitable, Callable, Iterable, Iterator, Sequence

import analysis
import clock
import leading
import script
from accounts import Accounts
from answers import NO_MEMORY, NO_RECORD, Answer, Checked, CheckedAll, Result, Text
from caller import Caller
from config import Config
from deadline import Deadline
from decisions import Decisions
from edits_in_progress import EditsInProgress
from errors import Fault, Mismatch, ServiceError
from following import Following, feed_of, stream_of
from held import Held
from journal import Journal
from loading import Loaded
from logs import Log
from long_answers import LongAnswers, Work
from metrics import Metrics, seconds_since
from origin import UNNAMED, Origin
from questions import Questions
from rarely import Rarely
from shown import Shown
from slots import Slots
from tree import MAPPINGS
from turn import Turn
from watching import Watching
from writer import UNAVAILABLE, Writer

#: The answer to a question that raised what nothing expects.
FAILED = Result("unavailable", "failed")
#: What makes the bytes of an answer of its lines, by what was published then; and what learns how many there are.
Form = Callable[[Shown, Iterator[Answer]], Iterable[bytes]]
Hold = Callable[[int], None]
#: The answers that are counted as checks.
_CHECKS = (Checked, CheckedAll)
#: A warning is in the log after so many seconds, or isn't waited for.
_WARNING_SECONDS = 1.0


class Service:
    """All calls but those that say otherwise are made in the event loop's thread."""

    def __init__(self, config: Config, journal: Journal, state: Loaded, log: Log, accounts: Accounts | None) -> None:
        self.limits, self.log, self.metrics = config.limits, log, Metrics()
        self.decisions = Decisions(config.decisions, log)
        self._loop, self._thread = asyncio.get_running_loop(), threading.get_ident()
        self._journal = journal
        source, name = config.source, f"{socket.gethostname()} {secrets.token_hex(8)}"
        feed = None if source is None else feed_of(source, name, journal.store)
        self.edits = EditsInProgress(config.limits, log, self.metrics)
        self._writer = Writer(
            journal, state, self.edits.done, Rarely(self._warn), config.limits.lines_in_epoch,
            leads=source is None,
            fresh_until=math.inf if source is None else -math.inf,
            stream=stream_of(source, name) if source is not None and source.stream else None,
        )
        self.questions = Questions(self._writer.shown, journal.store, MAPPINGS[journal.mapping], accounts=accounts)
        self._long_answers = LongAnswers(config.limits.long_answers, config.limits.long_seconds)
        self.slots, self.held = Slots(config.limits), Held(config.limits.held_bytes)
        self._turns: weakref.WeakValueDictionary[str, Turn] = weakref.WeakValueDictionary()
        self.is_stopping = False
        self._watching = Watching()
        self.edits.start(self._writer, self.questions, self._watching)
        self._writer.start()
        self._following = None
        if source is not None and feed is not None:
            self._following = Following(feed, self._writer, source.max_age_seconds)

    @property
    def shown(self) -> Shown:
        return self.questions.shown

    @property
    def store(self) -> str:
        return self.questions.store

    @property
    def is_ready(self) -> bool:
        """Whether it does what it is for: edits are taken, or a replica knows enough of its source."""
        does = self.takes_edits if self._following is None else clock.now() <= self.shown.fresh_until
        return does and not self.is_stopping

    @property
    def takes_edits(self) -> bool:
        return self.shown.takes_edits and not self.is_stopping and self.log.takes_records

    @property
    def failure(self) -> Mismatch | None:
        """Why nothing more is served."""
        return self._writer.failure

    def turn_of(self, who: str) -> Turn:
        """The time of the loop that a client has."""
        turn = self._turns.get(who)
        if turn is None:
            turn = self._turns[who] = Turn()
        return turn

    def answer(
        self, words: Sequence[str], caller: Caller, reader: script.Reader, origin: Origin = UNNAMED
    ) -> Answer:
        """The answer to a question that doesn't take long. Fault: there is none."""
        began = time.perf_counter()
        caller.require_for("check", words)
        # (to ask whether a replica is late takes longer than to see that a leader never is)
        if self.questions.shown.fresh_until != math.inf:
            self.require_fresh()
        try:
            # (by a digest of all lines somebody could test guesses of other paths)
            hides = words[0] == "status" and not caller.may("check")
            said = script.answer(words, self.questions.unchained() if hides else self.questions, reader)
        except MemoryError:
            raise Fault(NO_MEMORY) from None
        if not self._is_counted(words, said, caller, origin, began):
            raise Fault(NO_RECORD)
        return said

    def _is_counted(
        self, words: Sequence[str], said: Answer, caller: Caller, origin: Origin, began: float
    ) -> bool:
        """Counts an answer, if it is that of a check, and logs it, if that is asked for. False: it has to be in the
        log, which doesn't take it."""
        if isinstance(said, _CHECKS):
            self.metrics.count_checks(said, time.perf_counter() - began)
        return not self.decisions.are_logged or self.decisions.log(words, said, caller.who, origin)

    async def watched(self, seen: int, caller: Caller) -> Shown:
        """What is published, once that is more than was seen, or after some time. Fault: there is no answer."""
        caller.require_for("check", [script.WATCH])
        await self._watching.wait(seen, self.shown.length)
        self.require_fresh()
        return self.shown

    def takes_long(self, words: Sequence[str], caller: Caller) -> bool:
        """Whether a question that isn't about many nodes is answered by `long_checks`."""
        return caller.may_somewhere("check") and script.takes_long(words, self.questions)

    async def long_answer(
        self, words: Sequence[str], caller: Caller, reader: script.Reader, form: Form, hold: Hold
    ) -> bytes:
        """The answer to a question that may take long, or to a replica: its lines by `form`. Fault: there is none."""
        if words[0] in script.OF_JOURNAL:
            caller.require("follow")
            self.require_fresh()
            # (replicas that are the same client don't wait for one another)
            who, kind, most = f"{caller.who} {id(reader)}", "follow", self.limits.held_bytes
        else:
            self._require_reads(caller, words)
            who, kind, most = caller.who, "edit" if caller.role == "edit" else "check", analysis.ANSWER_BYTES

        async def prepare(deadline: Deadline) -> Work:
            shown, lines = self.shown, await self._lines(words, caller, reader, deadline)
            return lambda: analysis.gathered(form(shown, lines), deadline, most)

        return await self._made(kind, who, prepare, hold)

    async def long_checks(
        self, lines: Sequence[Sequence[str]], caller: Caller, reader: script.Reader, hold: Hold,
        origin: Origin = UNNAMED,
    ) -> tuple[Shown, list[Answer]]:
        """The answers to questions that take long, though they aren't about many nodes: all as of one moment, and what
        was published then. Fault: there is none."""
        self._require_reads(caller, *lines)
        began, found = time.perf_counter(), list[tuple[Questions, list[Answer]]]()

        async def prepare(deadline: Deadline) -> Work:
            self._require_reads(caller, *lines)
            return functools.partial(_answer_beside, lines, self.questions.beside(deadline), reader, found)

        await self._made("edit" if caller.role == "edit" else "check", caller.who, prepare, hold)
        [(questions, answers)] = found
        self.questions.tokens.adopt(questions.tokens)
        if not all([self._is_counted(words, said, caller, origin, began) for words, said in zip(lines, answers)]):
            raise Fault(NO_RECORD)
        return questions.shown, answers

    async def _made(
        self, kind: str, who: str, prepare: Callable[[Deadline], Awaitable[Work]], hold: Hold
    ) -> bytes:
        try:
            return await self._long_answers.made(kind, who, prepare, hold)
        except MemoryError:
            raise Fault(NO_MEMORY) from None
        except (ServiceError, sqlite3.Error, OSError) as error:
            self._warn(f"the journal isn't readable: {error}")
            raise Fault(UNAVAILABLE) from error
        except (Fault, asyncio.CancelledError):
            raise
        except Exception as error:  # (a fault of this program: whoever asked isn't left without an answer)
            self._warn(f"a question failed: {error!r}")
            raise Fault(FAILED) from error

    async def _lines(
        self, words: Sequence[str], caller: Caller, reader: script.Reader, deadline: Deadline
    ) -> Iterator[Answer]:
        """The lines of an answer, which a thread makes one by one."""
        if words[0] in script.OF_JOURNAL:
            self.require_fresh()
            age = 0.0 if self._following is None else self._following.age(self.shown.fresh_until)
            return map(Text, leading.answer(self._journal.file, words, age))
        self._require_reads(caller, words)
        if words[0] == script.REVIEW:
            return await self._review(words, caller, deadline)
        return _lines_beside(words, self.questions.beside(deadline), reader, deadline)

    async def _review(self, words: Sequence[str], caller: Caller, deadline: Deadline) -> Iterator[Answer]:
        path = script.reviewed_path(words, self.questions)
        pending, between = await asyncio.wrap_future(self._writer.look())
        lines = leading.made_between(self._journal.file, *between)
        return analysis.reviewed(
            pending, lines, path, lambda path: caller.may("check", (path,)), self.questions.mapping, deadline
        )

    def _require_reads(self, caller: Caller, *lines: Sequence[str]) -> None:
        """Fault: the client may not ask so, or a replica knows too little."""
        for words in lines:
            caller.require_for("check", words)
        self.require_fresh()

    def require_fresh(self) -> None:
        """Fault: a replica, which doesn't know enough of its leader."""
        if clock.now() > self.shown.fresh_until:
            raise Fault(Result("unavailable", "behind"))

    def _warn(self, text: str) -> None:
        self.log.event("warning", text=text)
        if threading.get_ident() != self._thread:
            # (the writer may end the process then)
            self.log.flush(_WARNING_SECONDS)

    def tick(self) -> None:
        """Once a second."""
        self.log.expire()

    async def stop(self) -> None:
        """Takes no more edits, and returns once those in progress are answered and the journal is at rest."""
        self.is_stopping = True
        self.edits.stop()
        self._watching.stop()
        await self._long_answers.stop()
        if self._following is not None:
            await self._loop.run_in_executor(None, self._following.stop)
        await self._loop.run_in_executor(None, self._writer.stop)
        while self.edits.count:
            self.tick()
            await asyncio.sleep(0.01)
        with contextlib.suppress(sqlite3.Error):
            await self._loop.run_in_executor(None, self._journal.close_log)

    def metrics_text(self) -> str:
        shown = self.shown
        following = {} if self._following is None else self._following.gauges()
        return self.metrics.text(following | self.questions.gauges() | {
            "published_length": shown.length,
            "published_line": shown.place.number,
            "epoch": shown.epoch,
            "takes_edits": int(self.takes_edits),
            "connections": len(self.slots),
            "edits_in_progress": self.edits.count,
            "held_bytes": self.held.total,
            "log_waiting_bytes": self.log.waiting_bytes,
            "journal_bytes": self._journal.bytes_on_disk(),
            "journal_age_seconds": seconds_since(shown.time) if shown.time else 0,
        }, self.log.lost)


def _answer_beside(
    lines: Sequence[Sequence[str]], questions: Questions, reader: script.Reader,
    found: list[tuple[Questions, list[Answer]]],
) -> bytes:
    """In a thread: finds the answers to the lines, by a view of its own."""
    with questions.shown.view:
        found.append((questions, [script.answer(words, questions, reader) for words in lines]))
    return b""


def _lines_beside(
    words: Sequence[str], questions: Questions, reader: script.Reader, deadline: Deadline
) -> Iterator[Answer]:
    """The lines of a long answer. Once the first one is asked for, by a thread, the words are parsed."""
    with questions.shown.view:
        yield from script.long_lines(words, questions, reader, deadline)
