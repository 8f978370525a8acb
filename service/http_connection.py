"""HTTP/1.1: requests with a JSON object, or none, and their answers. What isn't understood is rejected, and the
connection then ends."""

import json
from dataclasses import dataclass
from http import HTTPStatus

from api import route
from api_request import Request, Response
from connection import Connection, Place
from origin import origin_of
from service import Service

_HEAD_BYTES = 16 << 10
_END = b"\r\n\r\n"
#: An answer of fewer bytes is sent together with its head.
_SMALL = 1 << 15
_CONTINUE = b"HTTP/1.1 100 Continue\r\n\r\n"
#: The fields of a head that are used: the others aren't kept.
_USED = frozenset({"connection", "content-length", "content-type", "expect", "traceparent", "x-request-id"})
_NAME = frozenset(b"!#$%&'*+-.^_`|~0123456789abcdefghijklmnopqrstuvwxyzABCDEFGHIJKLMNOPQRSTUVWXYZ")


class BadRequest(Exception):
    """What isn't a request that is understood."""

    def __init__(self, status: HTTPStatus, why: str) -> None:
        super().__init__(why)
        self.response = Response(status, {"fault": why})


@dataclass(frozen=True, slots=True)
class Head:
    method: str
    target: str
    fields: dict[str, str]

    @property
    def length(self) -> int:
        """The bytes of the body."""
        text = self.fields.get("content-length", "0")
        if not (text.isascii() and text.isdigit()) or len(text) > 12:
            raise BadRequest(HTTPStatus.BAD_REQUEST, "content-length")
        return int(text)

    @property
    def closes(self) -> bool:
        return "close" in self.fields.get("connection", "").lower()


class HttpConnection(Connection):
    """One request after the other; the next one is read once its answer is there."""

    def __init__(self, service: Service, place: Place) -> None:
        super().__init__(service, place)
        #: That of the request that isn't all there, and where it ends.
        self._head: Head | None = None
        self._head_end = 0

    def answer_waiting(self) -> bool:
        while not self.in_progress and not self.transport.is_closing() and self.may_answer:
            try:
                request = self._next()
            except BadRequest as bad:
                self._head = None
                self._answer(bad.response, closes=True)
                return False
            if request is None:
                return False
            self._ask(*request)
        return True

    def _next(self) -> tuple[Head, bytes] | None:
        """The next request; None if it isn't all there."""
        if self._head is None:
            end = self._buffer.find(_END, 0, _HEAD_BYTES)
            if end < 0:
                if len(self._buffer) > _HEAD_BYTES:
                    raise BadRequest(HTTPStatus.REQUEST_HEADER_FIELDS_TOO_LARGE, "head")
                return None
            self._head, self._head_end = self._begun(end), end + len(_END)
        head, end = self._head, self._head_end + self._head.length
        if len(self._buffer) < end:
            return None
        body = bytes(self._buffer[self._head_end : end])
        del self._buffer[:end]
        self._head, self._owes_since = None, None
        return head, body

    def _begun(self, end: int) -> Head:
        """The head that ends there."""
        head = head_of(bytes(self._buffer[:end]))
        if head.length > self.service.limits.request_bytes:
            raise BadRequest(HTTPStatus.REQUEST_ENTITY_TOO_LARGE, "length")
        there = len(self._buffer) - end - len(_END)
        if there < head.length and "100-continue" in head.fields.get("expect", "").lower():
            self.transport.write(_CONTINUE)
        return head

    def _ask(self, head: Head, body: bytes) -> None:
        """Has a request answered, at once or later."""
        self.in_progress += 1

        def reply(response: Response) -> None:
            self._answer(response, head.closes)
            self.finished()

        request = Request(self.service, self.caller, reply, self, origin=origin_of(head.fields))
        route(request, head.method, head.target, head.fields, body)

    def _answer(self, response: Response, closes: bool) -> None:
        kind, content = "application/json", response.body
        if isinstance(content, str):
            kind, content = "text/plain; version=0.0.4; charset=utf-8", content.encode()
        elif isinstance(content, dict):
            content = json.dumps(content).encode()
        lines = [
            f"HTTP/1.1 {response.status.value} {response.status.phrase}",
            f"Content-Type: {kind}",
            f"Content-Length: {len(content)}",
            "Cache-Control: no-store",
            *(["Connection: close"] if closes else []),
        ]
        self.send("\r\n".join(lines).encode() + _END + (content if len(content) < _SMALL else b""))
        if len(content) >= _SMALL:
            self.send(content)
        if closes:
            self.finish()


def head_of(text: bytes) -> Head:
    """The head of a request. BadRequest: it is none, or has what isn't supported."""
    try:
        first, *others = text.decode("ascii").split("\r\n")
        method, target, version = first.split(" ")
    except ValueError:
        raise BadRequest(HTTPStatus.BAD_REQUEST, "head") from None
    if not method or not _NAME.issuperset(method.encode()) or not first.isprintable():
        raise BadRequest(HTTPStatus.BAD_REQUEST, "head")
    if version != "HTTP/1.1":
        raise BadRequest(HTTPStatus.HTTP_VERSION_NOT_SUPPORTED, "version")
    fields: dict[str, str] = {}
    for line in others:
        name, colon, value = line.partition(":")
        name = name.lower()
        # (of what isn't printable a value has tabs alone: neither a line feed, which others take for the end of a line)
        is_field = colon and name and _NAME.issuperset(name.encode()) and value.replace("\t", " ").isprintable()
        if not is_field or name in fields:
            raise BadRequest(HTTPStatus.BAD_REQUEST, "head")
        fields[name] = value.strip(" \t")
    if "transfer-encoding" in fields:
        raise BadRequest(HTTPStatus.NOT_IMPLEMENTED, "transfer-encoding")
    if "host" not in fields:
        raise BadRequest(HTTPStatus.BAD_REQUEST, "host")
    return Head(method, target, {name: value for name, value in fields.items() if name in _USED})
