"""Edits on their way to the journal: single ones, and several that are made all or none."""

import time
from collections.abc import Callable, Sequence
from dataclasses import dataclass, field

from answers import NO_MEMORY, OTHER_KEY, UNANSWERED, Result
from edits import Edit
from entry import Batch
from loading import Loaded, Moment
from origin import UNNAMED, Origin

#: The answer to an edit that isn't made, since another one that was sent with it isn't.
UNMADE = Result("unmade")
#: The answer to edits that are for another published length.
NOT_FOR_THIS = Result("fault", "published")


@dataclass(slots=True)
class Task:
    """An edit, or a publish, on its way: its answer is given once it is on disk."""

    edit: Edit | None
    line: str
    key: str
    who: str
    reply: Callable[["Task"], None]
    answer: Result = UNANSWERED
    #: The number of its line in the journal; 0 if it has none.
    number: int = 0
    began: float = field(default_factory=time.perf_counter)
    #: Edits that are made all or none, and at their end a publish, if there is one: then it is none itself. If it has
    #: an answer, none of them was made, for that reason.
    parts: Sequence["Task"] = ()
    #: The published length that they are for.
    only_if: int | None = None
    #: Of a publish: whether it is of the pending edits of others too; and what says of an edit's words whether the
    #: client may make it, unless it may make each.
    of_all: bool = False
    may_make: Callable[[Sequence[str]], bool] | None = None
    #: What its request is called.
    origin: Origin = UNNAMED

    @property
    def each(self) -> Sequence["Task"]:
        """The edits that it has, or itself."""
        return self.parts or (self,)

    def settle(self, answer: Result = UNANSWERED) -> None:
        """Gives each of its edits the answer, or, without one, that of the whole where this has one."""
        answer = answer or (self.answer if self.parts else UNANSWERED)
        for each in self.each if answer else ():
            if answer != UNMADE or each.answer.is_made or not each.answer:
                each.answer, each.number = answer, 0


def make_together(
    whole: Task,
    state: Loaded,
    batch: Batch,
    was_made: Callable[[Task, Batch], bool],
    make: Callable[[Task, Batch], None],
) -> None:
    """Makes all parts, or none of them: then the store and the batch are as they were. MemoryError: they aren't."""
    known = [bool(part.key) and was_made(part, batch) for part in whole.parts]
    if any(known):
        if not all(part.answer.is_made for part in whole.parts):
            whole.answer = OTHER_KEY
    elif whole.only_if not in (None, state.tree.length):
        whole.answer = NOT_FOR_THIS
    else:
        _make_all(whole, state, batch, make)


def _make_all(whole: Task, state: Loaded, batch: Batch, make: Callable[[Task, Batch], None]) -> None:
    count = len(batch.lines)
    try:
        before = Moment(state)
    except MemoryError:
        whole.answer = NO_MEMORY
        return
    with before:
        for part in whole.parts:
            make(part, batch)
            if not part.answer.is_made:
                before.restore(state)
                for line, _ in batch.lines[count:]:
                    batch.by_key.pop(line.key, None)
                del batch.lines[count:]
                whole.answer = UNMADE
                return
