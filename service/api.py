"""What each request of HTTP asks: its JSON becomes the words of a line, and their answer JSON.

docs/SERVICE.md and openapi.json have the requests."""

import itertools
import json
from collections.abc import Callable, Iterable, Iterator, Sequence
from dataclasses import replace
from http import HTTPStatus
from typing import Any

import api_edits
from analysis import Found
from answers import NO_NOTICE, NO_ROLE, Answer, Result, Reviewed
from api_request import Request, Response, fault_response, state_of
from errors import Fault
from json_request import Given
from questions import MOST_WORDS
from script import FEW_WORDS, MOST_PATHS, Reader, restrict_long
from shown import Shown


#: The words of a token, times the masks of a request, whose checks are answered in the loop.
_WORDS_IN_LOOP = 4_096
#: The answers of a list that are put together at once.
_ANSWERS_AT_ONCE = 16


def route(request: Request, method: str, target: str, fields: dict[str, str], body: bytes) -> None:
    """Has a request answered."""
    path, _, query = target.partition("?")
    methods = ROUTES.get(path)
    if methods is None:
        request.reply(Response(HTTPStatus.NOT_FOUND, {"fault": "path of the request"}))
    elif method not in methods:
        request.reply(Response(HTTPStatus.METHOD_NOT_ALLOWED, {"fault": "method"}))
    else:
        role, work = methods[method]
        try:
            if role == "edit" and not request.caller.may_somewhere(role):
                refused = f"{method} {path}"
                request.service.edits.refuse(
                    refused, request.caller, lambda task: request.reply(fault_response(task.answer)), request.origin
                )
                return
            if not request.caller.may_somewhere(role):
                raise Fault(NO_ROLE)
            kind = fields.get("content-type", "")
            given = Given.of_body(kind, body) if method == "POST" else request.given
            work(replace(request, given=given, query=query))
        except Fault as fault:
            request.reply(fault_response(fault.answer))


# Questions


def _groups(request: Request) -> list[str]:
    return request.given.texts("groups", MOST_WORDS)


def _token(request: Request) -> tuple[str, list[str]]:
    """The user and the other words of a token. The name of an account may have blanks."""
    words, given = _groups(request), request.given
    return given.text("user") if request.service.questions.tokens.accounts is None else given.path("user"), words


def _size(request: Request, user: str, words: list[str]) -> int:
    """How many words a token has beside its user, though the client doesn't send them."""
    return request.service.questions.tokens.size((user, *words)) - 1


def _given(request: Request, *names: str) -> Given:
    """The values of a question, which are of these names. A client that has seen a state gets no answer by an earlier
    one, or of another store; nobody does of a replica that is behind."""
    service, given = request.service, request.given
    given.know(*names, "store", "seen")
    service.require_fresh()
    if given.text("store", service.store) != service.store or given.number("seen", 0) > service.shown.length:
        raise Fault(NO_NOTICE)
    return given


def _ask(
    request: Request, lines: Sequence[list[str]], takes_long: bool, made: Callable[[Sequence[Any]], dict[str, Any]]
) -> None:
    """Replies with the members that `made` makes of the JSON of the answers to the lines: now, or if that takes long
    once another thread has found them. Fault: the first answer that has none."""
    service, caller = request.service, request.caller

    def reply(shown: Shown, said: Iterable[Answer]) -> None:
        answers = list[Any]()
        for each in said:
            if isinstance(each, Result):
                raise Fault(each)
            answers.append(each.json())
        request.reply(Response(HTTPStatus.OK, {**state_of(request, shown), **made(answers)}))

    async def later() -> None:
        try:
            reply(*await service.long_checks(lines, caller, Reader(), request.asker.hold, request.origin))
        except Fault as fault:
            request.reply(fault_response(fault.answer))

    if takes_long:
        request.asker.start_long(later())
    else:
        reply(service.shown, (service.answer(words, caller, Reader(), request.origin) for words in lines))


def _check(request: Request) -> None:
    given = _given(request, "user", "groups", "checks")
    user, words = _token(request)
    checks = given.list("checks", MOST_PATHS)
    asked: dict[str, list[int]] = {}
    paths: list[str] = []
    for at, value in enumerate(checks):
        each = Given(value, "checks")
        each.know("path", "mask")
        paths.append(each.path("path"))
        asked.setdefault(each.text("mask"), []).append(at)
    lines = [["checks", "0", str(len(places)), *(paths[at] for at in places), user, mask, *words]
             for mask, places in asked.items()]

    def made(said: Sequence[Any]) -> dict[str, Any]:
        answers: list[dict[str, str]] = [{}] * len(checks)
        for places, verdicts in zip(asked.values(), said):
            for at, verdict in zip(places, verdicts):
                answers[at] = verdict
        return {"answers": answers}

    size = _size(request, user, words)
    is_long = size > FEW_WORDS or size * len(asked) > _WORDS_IN_LOOP
    _ask(request, lines, is_long or restrict_long(words, len(checks)), made)


def _why(request: Request) -> None:
    given = _given(request, "user", "groups", "path", "mask")
    user, words = _token(request)
    line = ["why", "0", given.path("path"), user, given.text("mask"), *words]
    _ask(request, [line], _size(request, user, words) > FEW_WORDS, lambda said: dict(said[0]))


def _show(request: Request) -> None:
    _ask(request, [["show", "0", _given(request, "path").path("path")]], False, lambda said: dict(said[0]))


# Questions that may take long


def _asked_long(request: Request, words: list[str], name: str) -> None:
    """Replies once another thread has made an answer: a list of this name."""
    async def work() -> None:
        try:
            content = await request.service.long_answer(
                words, request.caller, Reader(),
                lambda shown, lines: _listed(state_of(request, shown), name, lines),
                request.asker.hold,
            )
            request.reply(Response(HTTPStatus.OK, content))
        except Fault as fault:
            request.reply(fault_response(fault.answer))

    request.asker.start_long(work())


def _listed(state: dict[str, Any], name: str, lines: Iterator[Answer]) -> Iterator[bytes]:
    """An object of JSON, piece by piece, with a list of this name; the end of a review has members more, or others."""
    yield f'{{"{name}": ['.encode()
    mark = ""
    while some := list(itertools.islice(lines, _ANSWERS_AT_ONCE)):
        items = [item for answer in some for item in _items(answer)]
        if items:
            yield f"{mark}{json.dumps(items)[1:-1]}".encode()
            mark = ", "
        if isinstance(some[-1], Reviewed):
            state = state | some[-1].json()
    yield f"], {json.dumps(state)[1:]}".encode()


def _items(answer: Answer) -> Sequence[object]:
    """What an answer is in a list."""
    if isinstance(answer, (Result, Reviewed)):
        return ()
    return answer.json() if isinstance(answer, Found) else (answer.json(),)


def _list_nodes(request: Request) -> None:
    _asked_long(request, ["list", _given(request, "path").path("path", "/")], "nodes")


def _find(request: Request) -> None:
    given = _given(request, "user", "groups", "path", "mask")
    user, words = _token(request)
    _asked_long(request, ["find", "0", given.path("path", "/"), user, given.text("mask"), *words], "paths")


def _who(request: Request) -> None:
    given = _given(request, "path", "mask", "groups")
    words = ["who", given.path("path"), given.text("mask", "0x02000000"), *_groups(request)]
    _asked_long(request, words, "accesses")


def _compare(request: Request) -> None:
    given = _given(request, "path", "descriptor", "groups")
    words = ["compare", given.path("path"), given.text("descriptor"), *_groups(request)]
    _asked_long(request, words, "changes")


def _review(request: Request) -> None:
    _asked_long(request, ["review", _given(request, "path").path("path", "/")], "changes")


def _status(request: Request) -> None:
    shown = request.service.shown
    chain = shown.place.chain.hex() if request.caller.may("check") else ""
    place = {"line": shown.place.number, "chain": chain}
    request.reply(Response(HTTPStatus.OK, {**state_of(request), **place, "takes_edits": request.service.takes_edits}))


def _watch(request: Request) -> None:
    """Replies once more is published than the client has seen, or after some time."""
    service, given = request.service, Given.of_query(request.query, "seen")
    given.know("store", "seen")
    if not given.has("seen"):
        raise Fault.of("seen")
    if given.text("store", service.store) != service.store:
        raise Fault(NO_NOTICE)

    async def work() -> None:
        try:
            shown = await service.watched(given.number("seen", 0), request.caller)
            request.reply(Response(HTTPStatus.OK, state_of(request, shown)))
        except Fault as fault:
            request.reply(fault_response(fault.answer))

    request.asker.start_long(work(), is_watching=True)


# For who may watch alone


def _healthz(request: Request) -> None:
    request.reply(Response(HTTPStatus.OK, "ok\n"))


def _readyz(request: Request) -> None:
    ready = request.service.is_ready
    status = HTTPStatus.OK if ready else HTTPStatus.SERVICE_UNAVAILABLE
    request.reply(Response(status, "ready\n" if ready else "not ready\n"))


def _metrics(request: Request) -> None:
    request.reply(Response(HTTPStatus.OK, request.service.metrics_text()))


#: By path and method the role that is required, and what answers.
ROUTES: dict[str, dict[str, tuple[str, Callable[[Request], None]]]] = {
    "/v1/check": {"POST": ("check", _check)},
    "/v1/why": {"POST": ("check", _why)},
    "/v1/show": {"POST": ("check", _show)},
    "/v1/find": {"POST": ("check", _find)},
    "/v1/list": {"POST": ("check", _list_nodes)},
    "/v1/who": {"POST": ("check", _who)},
    "/v1/compare": {"POST": ("check", _compare)},
    "/v1/review": {"POST": ("check", _review)},
    "/v1/status": {"GET": ("check", _status)},
    "/v1/watch": {"GET": ("check", _watch)},
    "/v1/edit": {"POST": ("edit", api_edits.edit)},
    "/v1/publish": {"POST": ("edit", api_edits.publish)},
    "/healthz": {"GET": ("watch", _healthz)},
    "/readyz": {"GET": ("watch", _readyz)},
    "/metrics": {"GET": ("watch", _metrics)},
}
