"""The requests of HTTP that edit or publish: what is sent together is made all or none."""

from collections.abc import Sequence
from http import HTTPStatus

from answers import NO_ROLE, OTHER_KEY, UNANSWERED
from api_request import Request, Response, fault_response, state_of
from edits import ALL, PUBLISH
from errors import Fault
from json_request import Given
from script import is_key
from task import NOT_FOR_THIS, UNMADE, Task

#: The most edits of one request.
_MOST_EDITS = 1_000


def edit(request: Request) -> None:
    """Edits, and then a publish if it is asked for: all or none."""
    given = request.given
    given.know("edits", "publish", "all", "key", "published")
    edits = [_words_of(Given(each, "edits")) for each in given.list("edits", _MOST_EDITS)]
    if given.flag("all") and not given.flag("publish"):
        raise Fault.of("all")
    _submit(request, edits + ([_publish(given)] if given.flag("publish") else []))


def publish(request: Request) -> None:
    given = request.given
    given.know("all", "key", "published")
    _submit(request, [_publish(given)])


def _publish(given: Given) -> list[str]:
    """The words of a publish: of the edits of all clients, or of this one."""
    return [PUBLISH, ALL] if given.flag("all") else [PUBLISH]


_VALUES = {
    "addc": "descriptor", "addo": "descriptor", "dacl": "descriptor", "owner": "sid", "group": "sid",
    "move": "target", "remove": "", "protect": "",
}


def _words_of(given: Given) -> list[str]:
    """The words of an edit."""
    edit = given.text("edit")
    value = _VALUES.get(edit)
    if value is None:
        raise Fault.of("edit")
    given.know("edit", "path", *([value] if value else []))
    words = [edit, given.path("path")]
    if value:
        words.append(given.path(value) if value == "target" else given.text(value))
    return words


def _submit(request: Request, lines: Sequence[list[str]]) -> None:
    """Has the lines made, all or none, and replies once they are answered."""
    only_if = request.given.number("published", 0) if request.given.has("published") else None
    keys = _keys(request.given, len(lines))
    if not lines:
        is_for_this = only_if in (None, request.service.shown.length)
        request.reply(_edited(request, []) if is_for_this else fault_response(NOT_FOR_THIS))
        return

    def reply(task: Task) -> None:
        request.reply(_edited(request, task.each))

    try:
        given = [[*key, *words] for key, words in zip(keys, lines)]
        request.service.edits.submit(given, request.caller, reply, only_if, request.origin)
    except Fault as fault:
        # None of them is made.
        who = request.caller.who
        request.reply(_edited(request, [Task(None, "", "", who, reply, fault.answer) for _ in lines]))


def _keys(given: Given, count: int) -> list[list[str]]:
    """The words before each of so many lines that have it made once: none without a key."""
    if not given.has("key"):
        return [[]] * count
    key = given.text("key")
    if not is_key(f"{key}/{count}"):
        raise Fault(OTHER_KEY)
    return [["once", f"{key}/{at}"] for at in range(count)]


def _edited(request: Request, tasks: Sequence[Task]) -> Response:
    """What each edit is answered. The status says whether all are made."""
    answers = [{"answer": task.answer.line(), "line": task.number} for task in tasks]
    first = next((task.answer for task in tasks if not task.answer.is_made and task.answer != UNMADE), UNANSWERED)
    if first in (NOT_FOR_THIS, OTHER_KEY, NO_ROLE):
        return fault_response(first)
    status = HTTPStatus.CONFLICT if first else HTTPStatus.OK
    if first.kind == "unavailable":
        status = HTTPStatus.SERVICE_UNAVAILABLE
    return Response(status, {**state_of(request), "answers": answers})
