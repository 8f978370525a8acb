"""The one thread that edits: it makes what clients send, commits it, and only then has it answered.

Edits that arrive during a commit share the next one."""

import functools
import math
import os
import queue
import sqlite3
import threading
import time
from collections import deque
from collections.abc import Callable
from concurrent.futures import Future
from dataclasses import dataclass, field

from hudarin import View

import clock
from analysis import Reviewing
from answers import NO_MEMORY, NO_ROLE, OTHER_KEY, UNANSWERED, Result
from checkpoint import Checkpoint
from edits import Edit, is_same
from entry import Batch, Line, Place
from epochs import Maker
from errors import Fault, Mismatch, ServiceError
from journal import Journal
from leading import Lines
from loading import Loaded, Pending, load
from shown import Shown
from stream import Stream
from task import Task, make_together

#: Once so many edits share a commit no more are added to it.
MOST_AT_ONCE = 512
#: A library's journal takes 1,048,576 edits, of which a snapshot has 65,536 at most: a new epoch starts after so many
#: more.
MOST_EDITS = 900_000
#: After a failed commit the journal is tried again by the next edit, or after so many seconds without one.
RETRY_SECONDS = 5.0
ACCEPTED = Result("ok")
UNAVAILABLE, NO_LEADER = Result("unavailable", "journal"), Result("unavailable", "replica")

#: What is pending, and the numbers of the published line and of the last one.
Look = tuple[Reviewing, tuple[int, int]]


@dataclass
class Writer:
    """`start` runs the thread, `put` hands it a task, `stop` ends it after all tasks before. `done` is called in the
    thread after each commit, with the tasks that are answered, and with what readers see from then on."""

    journal: Journal
    state: Loaded
    done: Callable[[list[Task], Shown], None]
    #: Called in the thread with a text for the log.
    warn: Callable[[str], None]
    #: So many lines after its snapshot a new epoch starts.
    lines_in_epoch: int = 100_000
    #: Whether edits are taken: of a replica, whether it leads. And what is shown of it.
    leads: bool = True
    fresh_until: float = math.inf
    #: Of a service that leads by a lease: each line has to be there before it is in the journal.
    stream: Stream | None = None
    waiting: "queue.SimpleQueue[Task | Callable[[], None] | None]" = field(default_factory=queue.SimpleQueue)
    #: Why nothing more is served: the source's lines aren't those of this store.
    failure: Mismatch | None = None
    #: Views that no reader uses any more: the thread closes them.
    retired: deque[View] = field(default_factory=deque)
    _thread: threading.Thread | None = None
    #: The store isn't the journal's since a commit failed; and what it was before that, or before the one in progress.
    is_lost: bool = False
    _before: Checkpoint = field(default_factory=Checkpoint)

    def __post_init__(self) -> None:
        #: What readers see: only what is on disk.
        self.shown = self._show()
        self._maker = Maker(self.journal.file, self.journal.mapping, self.warn, lambda: self.waiting.put(_nothing))

    def start(self) -> None:
        self._thread = threading.Thread(target=self._run, name="writer")
        self._thread.start()

    def put(self, task: Task) -> None:
        self.waiting.put(task)

    def receive(self, following: Lines, fresh_until: float) -> None:
        """Has the lines of a replica's source made, and returns once they are on disk, or can't be. Until then it may
        answer by them if these are all."""
        ended = threading.Event()

        def work() -> None:
            self._receive(following, fresh_until)
            self._answer([])
            ended.set()

        self.waiting.put(work)
        ended.wait()

    def look(self) -> "Future[Look]":
        """The published tree beside that of all edits that are on disk."""
        found: Future[Look] = Future()
        self.waiting.put(functools.partial(self._look, found))
        return found

    def stop(self) -> None:
        """Returns once all that was put is answered."""
        self.waiting.put(None)
        if self._thread is not None:
            self._thread.join()
        self._before.forget()
        self._maker.stop()
        if self.stream is not None:
            self.stream.resign()

    def _show(self) -> Shown:
        state, tree = self.state, self.state.tree
        return Shown(tree.view, tree.length, state.published, state.epoch, state.last, state.time, self.leads,
                     self.fresh_until)

    # In the thread

    def _run(self) -> None:
        try:
            while self._turn():
                pass
        except BaseException as error:
            # What is on disk is known, what is in memory isn't: as after a kill.
            self.warn(f"the writer ends: {error!r}")
            os._exit(3)

    def _turn(self) -> bool:
        """Takes what waits, and has it answered. False: it was the last."""
        tasks, other, is_last = self._take()
        while self.retired:
            self.retired.popleft().close()
        if tasks:
            self._carry_out(tasks)
            self._answer(tasks)
        if other is not None:
            other()
        if self._maker.has_made and not is_last:
            self._start_epoch_if_made()
        return not is_last

    def _answer(self, tasks: list[Task]) -> None:
        """Has the tasks answered. Readers see what is on disk from here on; if that isn't known, what they saw."""
        if self.is_lost:
            self.shown = self.shown._replace(takes_edits=False, fresh_until=self.fresh_until)
        else:
            self.shown = self._show()
        self._make_epoch_if_due()
        self.done(tasks, self.shown)

    def _take(self) -> tuple[list[Task], Callable[[], None] | None, bool]:
        """Waits for a task, and takes those that wait with it, up to other work or the end."""
        tasks: list[Task] = []
        count = 0
        try:
            item = self.waiting.get(timeout=RETRY_SECONDS if self._may_try_again() else None)
            while isinstance(item, Task):
                tasks.append(item)
                count += len(item.parts) or 1
                if count >= MOST_AT_ONCE:
                    return tasks, None, False
                item = self.waiting.get_nowait()
        except queue.Empty:
            return tasks, None if tasks else self._try_again, False
        return tasks, item, item is None

    def _carry_out(self, tasks: list[Task]) -> None:
        """Makes the edits and commits them. If that fails none is acknowledged."""
        batch = Batch()
        try:
            if self.is_lost:
                self._reload()
            last = self._before.begin(self.state)
            for task in tasks:
                self._make(task, batch)
            if self.stream is not None and self.leads:
                # Without lines too: what is refused, is refused by the leader.
                self.stream.append(last, batch.lines)
            if batch.lines:
                self.journal.append(batch.lines)
            self._before.end(batch.lines)
        except (sqlite3.Error, OSError, ServiceError, MemoryError) as error:
            self.is_lost = True
            # A replica asks whether it leads.
            self.leads = self.leads and self.stream is None
            self.warn(f"the journal takes no edits: {error}")
            for task in tasks:
                task.answer, task.number = UNAVAILABLE, 0

    def _make(self, task: Task, batch: Batch) -> None:
        """Makes one edit or publish, and adds its line to those to commit."""
        if not self.leads:
            task.answer = NO_LEADER
            return
        if task.parts:
            make_together(task, self.state, batch, self._was_made, self._make)
            return
        if task.key and self._was_made(task, batch):
            return
        try:
            is_logged = self._publish(task) if task.edit is None else self._edit(task, task.edit)
        except MemoryError:
            task.answer = NO_MEMORY
            return
        if is_logged:
            self._log(task, batch)

    def _edit(self, task: Task, edit: Edit) -> bool:
        task.answer = self.state.tree.make(edit) or ACCEPTED
        return task.answer.is_made

    def _publish(self, task: Task) -> bool:
        """Publishes what is pending; without that nothing changes."""
        tree = self.state.tree
        has_pending = tree.pending > 0
        if has_pending:
            task.answer = self._why_unpublished(task)
            if task.answer:
                return False
            self._drop(tree.publish())
        task.answer = Result("published", number=tree.length)
        return has_pending

    def _why_unpublished(self, task: Task) -> Result:
        """Why the client may not publish what is pending, if so: others made some of it, or it may not make some."""
        pending = self.state.pending
        others = 0 if task.of_all else sum(each.who != task.who for each in pending)
        if others:
            return Result("fault", f"pending {others}")
        may_make = task.may_make
        return UNANSWERED if may_make is None or all(may_make(each.line.split(" ")) for each in pending) else NO_ROLE

    def _was_made(self, task: Task, batch: Batch) -> bool:
        """Whether the key's line is there: its answer is given again. Another line, or another client's, isn't made."""
        made = batch.by_key.get(task.key) or self.journal.by_key(task.key)
        if made is None:
            return False
        if made.who != task.who or not is_same(made.line, task.line, self.state.tree.view):
            task.answer = OTHER_KEY
            return True
        task.answer = Result("published", number=made.length) if made.length else ACCEPTED
        task.number = made.number
        return True

    def _log(self, task: Task, batch: Batch) -> None:
        state, length = self.state, 0 if task.edit is not None else self.state.tree.length
        number, before = state.last
        task.number, state.time = number + 1, clock.milliseconds()
        line = Line(state.epoch, task.number, state.time, task.who, task.key, task.line, length)
        chain = line.chained(self.journal.store, before)
        batch.lines.append((line, chain))
        if task.key:
            batch.by_key[task.key] = line
        state.last = Place(task.number, chain)
        if length:
            state.published, state.pending = state.last, []
        else:
            state.pending.append(Pending(task.who, task.line))

    def _drop(self, view: View) -> None:
        """Closes a view, unless readers may use it: then they retire it."""
        if view is not self.shown.view:
            view.close()

    def _reload(self) -> None:
        """Makes the store that of the journal; if it isn't known how that ends, it is read again, as at a start."""
        if self._before.restore(self.state, self.journal.last_place()):
            self.is_lost = False
            return
        self._go_on_in(load(self.journal))
        self.is_lost = False
        # (readers see it at once: a publish closes a view that they don't, and the next commit may fail too)
        self._answer([])

    def _may_try_again(self) -> bool:
        """Whether a failed commit is all that edits wait for. A service that leads by a lease asks whether it leads."""
        return self.is_lost and self.failure is None and self.stream is None

    def _try_again(self) -> None:
        """Takes edits again, if the journal is the store's and something can be written to it."""
        try:
            self.journal.require_room()
            self._reload()
        except (sqlite3.Error, OSError, ServiceError, MemoryError) as error:
            self.is_lost = True
            self.warn(f"the journal still takes no edits: {error}")
        self._answer([])

    def _go_on_in(self, state: Loaded) -> None:
        self._before.forget()
        old, self.state = self.state.tree, state
        self._drop(old.view)
        old.close_store()

    def _look(self, found: "Future[Look]") -> None:
        shown, tree = self.shown, self.state.tree
        if not found.set_running_or_notify_cancel():
            return
        try:
            if self.is_lost:
                raise Fault(UNAVAILABLE)
            length = shown.length + tree.pending
            pending = Reviewing(shown.view.share(), tree.pending_view(), shown.length, length)
            found.set_result((pending, (shown.place.number, shown.last.number)))
        except (Fault, MemoryError) as error:
            found.set_exception(error)

    # Of a replica

    def _receive(self, following: Lines, fresh_until: float) -> None:
        """Makes the next lines, and commits them."""
        try:
            if self.is_lost:
                # They are asked for again.
                self._reload()
                return
            # What it has appended itself since it asked is there too.
            last = self._before.begin(self.state)
            lines = [each for each in following.lines if each[0].number > last.number]
            for line, chain in lines:
                self._require_next(line, chain)
                self.state.replay(line, chain, self._drop)
            if lines:
                self.journal.append(lines)
            self._before.end(lines)
            has_all = self.state.last.number >= following.last
            led, self.leads = self.leads, following.leads and has_all
            if self.leads and not led:
                self._renew_stream(is_new=False)
            if has_all:
                self.fresh_until = fresh_until
        except Mismatch as mismatch:
            self.is_lost, self.failure, self.leads, self.fresh_until = True, mismatch, False, -math.inf
        except (sqlite3.Error, OSError, ServiceError, MemoryError) as error:
            self.is_lost = True
            self.warn(f"the journal takes no lines: {error}")

    def _require_next(self, line: Line, chain: bytes) -> None:
        """Mismatch: it isn't the line that follows the last one."""
        last = self.state.last
        if line.number != last.number + 1 or chain != line.chained(self.journal.store, last.chain):
            raise Mismatch(f"line {last.number + 1} of the source isn't the one that follows here")

    # A new epoch

    def _make_epoch_if_due(self) -> None:
        """Starts to make one in the background, if there are enough lines and none is being made."""
        state, shown = self.state, self.shown
        is_long = state.last.number - state.since >= min(self.lines_in_epoch, MOST_EDITS)
        is_due = is_long and shown.place.number > state.since and not self.is_lost
        if is_due and self._maker.is_idle:
            self._maker.start(shown.view.share(), shown.epoch + 1, shown.place, shown.length)

    def _start_epoch_if_made(self) -> None:
        """Commits the snapshot of one that is made, makes the few lines that are left, and goes on in its tree."""
        epoch = None if self.is_lost else self._maker.made(self.state.last)
        if epoch is None:
            return
        state, following = self.state, epoch.state
        try:
            epoch.go_on(self.journal)
            if following.last != state.last:
                raise ServiceError(f"the journal ends at line {following.last.number}, not {state.last.number}")
            self.journal.start_epoch(epoch.snapshot, state.last.number)
        except (sqlite3.Error, OSError, ServiceError, MemoryError) as error:
            # It may be on disk all the same, so the journal is read again.
            self._before.forget()
            self.is_lost = True
            self.warn(f"no new epoch: {error}")
            following.tree.close()
        else:
            following.time = state.time
            self._go_on_in(following)
            self._renew_stream()
        self._answer([])

    def _renew_stream(self, is_new: bool = True) -> None:
        """Has new replicas start from the newest snapshot, if it is new, or if the one there is of an earlier form."""
        if self.stream is None or not self.leads:
            return
        try:
            if is_new or not self.stream.has_snapshot():
                self.stream.renew(self.journal)
        except (OSError, ServiceError) as error:
            self.warn(f"no new snapshot for replicas: {error}")


def _nothing() -> None:
    """What has the writer take a turn."""
