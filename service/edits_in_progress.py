"""The edits in progress: from a client to the writer, into the log, and back."""

import asyncio
import functools
import time
from collections.abc import Callable, Sequence

import script
from answers import NO_MEMORY, NO_RECORD, NO_ROLE
from caller import Caller
from config import Limits
from edits import ALL, PUBLISH, edit_of
from errors import Fault
from logs import Log, in_json
from long_answers import BUSY, STOPPING
from metrics import Metrics
from origin import UNNAMED, Origin
from questions import Questions
from shown import Shown
from task import UNMADE, Task
from watching import Watching
from writer import NO_LEADER, Writer

#: Of an edit of a client that may not edit the log has so many characters.
_REFUSED_LENGTH = 1_000
#: The most characters of all edits in progress.
_EDIT_LENGTH = 1 << 26


class EditsInProgress:
    """All calls but `done` are made in the event loop's thread. `start` says who makes the edits, who is asked what is
    published, and who waits for that."""

    def __init__(self, limits: Limits, log: Log, metrics: Metrics) -> None:
        self._limits, self._log, self._metrics = limits, log, metrics
        self._loop = asyncio.get_running_loop()
        #: How many there are, their characters, and those that the writer gets once this round of the loop is over.
        self.count, self._length, self._gathered = 0, 0, list[Task]()
        #: The commits so far, and those that readers see.
        self._commits = self._shown_commits = 0
        self._is_stopping = False

    def start(self, writer: Writer, questions: Questions, watching: Watching) -> None:
        self._writer, self._questions, self._watching = writer, questions, watching

    def stop(self) -> None:
        """Takes no more."""
        self._is_stopping = True
        self._hand_over()

    def submit(
        self, lines: Sequence[list[str]], caller: Caller, reply: Callable[[Task], None], only_if: int | None = None,
        origin: Origin = UNNAMED,
    ) -> None:
        """Has the writer make an edit or publish, or several, all or none and only if so many edits are published; and
        calls `reply` once that is answered. Fault: nothing is carried out, and there is no reply."""
        for words in lines:
            if not caller.may_do("edit", words):
                self.refuse(" ".join(words), caller, reply, origin)
                return
        if len(lines) == 1 and only_if is None:
            task = self._task(lines[0], caller, reply, origin)
            if task.answer:
                raise Fault(task.answer)
        else:
            parts = [self._task(words, caller, reply, origin) for words in lines]
            task = Task(None, "", "", caller.who, reply, parts=parts, only_if=only_if)
            if any(part.answer for part in parts):
                task.settle(UNMADE)
                reply(task)
                return
        is_alone = not self.count
        self._begin(task)
        self._gathered.append(task)
        if is_alone:
            self._hand_over()
        elif len(self._gathered) == 1:
            self._loop.call_soon(self._hand_over)

    def _hand_over(self) -> None:
        """The writer gets the edits of a round of the loop at once: one by one, the two would take turns at each."""
        for task in self._gathered:
            self._writer.put(task)
        self._gathered.clear()

    def _begin(self, task: Task) -> None:
        """The edits are in progress. Fault: they aren't taken now."""
        count, length = self.count, self._length
        for each in task.parts or (task,):
            count += 1
            length += len(each.line)
        if not self._writer.leads:
            raise Fault(NO_LEADER)
        if self._is_stopping:
            raise Fault(STOPPING)
        if not self._log.takes_records:
            raise Fault(NO_RECORD)
        if count > self._limits.edits or length > _EDIT_LENGTH:
            raise Fault(BUSY)
        self.count, self._length = count, length

    def _task(self, words: list[str], caller: Caller, reply: Callable[[Task], None], origin: Origin) -> Task:
        """An edit or publish of these words, or one that is answered by its fault."""
        try:
            key, words = script.without_key(words)
            if words[0] == PUBLISH:
                if words[1:] not in ([], [ALL]):
                    raise Fault.of("words")
                may_make = None if caller.may("edit") else functools.partial(caller.may_do, "edit")
                of_all = len(words) > 1
                return Task(None, PUBLISH, key, caller.who, reply, of_all=of_all, may_make=may_make, origin=origin)
            edit = edit_of(words, self._questions.shown.view)
            return Task(edit, edit.line(), key, caller.who, reply, origin=origin)
        except (Fault, MemoryError) as error:
            return Task(None, "", "", caller.who, reply, error.answer if isinstance(error, Fault) else NO_MEMORY)

    def refuse(self, asked: str, caller: Caller, reply: Callable[[Task], None], origin: Origin) -> None:
        """Answers an edit of a client that may not edit: `fault role`, once its record is written. Fault: none is."""
        if not self._log.takes_records:
            raise Fault(NO_RECORD)
        if self._log.left_out("edit") is None:
            raise Fault(BUSY)
        task = Task(None, asked[:_REFUSED_LENGTH], "", caller.who, reply, NO_ROLE, origin=origin)
        self.count += 1
        self._length += len(task.line)
        if self._record([task], functools.partial(self._reply, [task])):
            self._loop.call_soon(self._reply, [task], True)

    def done(self, tasks: list[Task], shown: Shown) -> None:
        """In the writer's thread, after each commit. The audit record of each edit is written before its answer goes
        out: without it the answer is another one."""
        self._commits += 1
        deliver = functools.partial(self._deliver, tasks, self._commits, shown)
        for task in tasks:
            if task.parts:
                task.settle()
        if self._record(tasks, deliver):
            self._loop.call_soon_threadsafe(deliver, True)
        else:
            self._loop.call_soon_threadsafe(self._show, self._commits, shown)

    def _record(self, tasks: list[Task], then: Callable[[bool], None]) -> bool:
        """Whether the records of the edits are written; otherwise the loop calls `then` with whether they are."""
        # (to encode the fields of a record together takes longer)
        return self._log.records("edit", [
            f'"who": {in_json(each.who)}, "key": {in_json(each.key)}, "line": {in_json(each.line)}, '
            f'"answer": {in_json(each.answer.line())}, "number": {each.number}{each.origin.text()}'
            for task in tasks for each in task.parts or (task,)
        ], functools.partial(self._loop.call_soon_threadsafe, then))

    def _show(self, commits: int, shown: Shown) -> None:
        """Readers see it from here on, unless they see what was committed later."""
        old = self._questions.shown
        if commits > self._shown_commits:
            self._shown_commits, self._questions.shown = commits, shown
            if shown.length != old.length:
                self._watching.show(shown.length)
            if old.view is not shown.view:
                self._writer.retired.append(old.view)

    def _deliver(self, tasks: list[Task], commits: int, shown: Shown, is_written: bool) -> None:
        self._show(commits, shown)
        self._reply(tasks, is_written)

    def _reply(self, tasks: list[Task], is_written: bool) -> None:
        now = time.perf_counter()
        for task in tasks:
            if not is_written:
                task.settle(NO_RECORD)
            for each in task.parts or (task,):
                self.count -= 1
                self._length -= len(each.line)
                self._metrics.count_edit(each.line == PUBLISH, each.answer, now - each.began)
            task.reply(task)
