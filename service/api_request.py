"""A request of HTTP, and what it is answered."""

from collections.abc import Callable, Coroutine, Sequence
from dataclasses import dataclass
from http import HTTPStatus
from typing import Any, Protocol

from answers import Result
from caller import Caller
from json_request import Given
from origin import UNNAMED, Origin
from service import Service
from shown import Shown


@dataclass(frozen=True, slots=True)
class Response:
    """A status, and an object for JSON, or its bytes, or a plain text."""

    status: HTTPStatus
    body: dict[str, Any] | bytes | str


class Asker(Protocol):
    """The connection of a request."""

    def start_long(
        self, work: Coroutine[Any, Any, None], words: Sequence[str] = (), is_watching: bool = False
    ) -> None:
        """Has the answer made by a task, until the client leaves."""

    def hold(self, count: int) -> None:
        """The answer has so many bytes so far."""


@dataclass(frozen=True, slots=True)
class Request:
    """A request, whose answer is one call of `reply`, now or later."""

    service: Service
    caller: Caller
    reply: Callable[[Response], None]
    asker: Asker
    given: Given = Given({}, "json")
    origin: Origin = UNNAMED
    #: What the target has after its path.
    query: str = ""


#: By the names of faults; the others are BAD_REQUEST.
_STATUSES = {
    "role": HTTPStatus.FORBIDDEN,
    "content-type": HTTPStatus.UNSUPPORTED_MEDIA_TYPE,
    "key": HTTPStatus.CONFLICT,
    "published": HTTPStatus.CONFLICT,
    "nonode": HTTPStatus.NOT_FOUND,
    "nonotice": HTTPStatus.CONFLICT,
}


def fault_response(answer: Result) -> Response:
    """The response to what isn't carried out."""
    status = _STATUSES.get(answer.name, HTTPStatus.BAD_REQUEST)
    if answer.kind == "unavailable":
        status = HTTPStatus.SERVICE_UNAVAILABLE
    return Response(status, answer.json())


def state_of(request: Request, shown: Shown | None = None) -> dict[str, Any]:
    """What each answer says of the store: of what is published now, or was when the answer was made."""
    shown = shown or request.service.shown
    return {"store": request.service.store, "epoch": shown.epoch, "seen": shown.length}
