"""A client of Redis, by as much of its protocol RESP 2 as a stream requires."""

import io
import socket
from collections.abc import Callable
from typing import Any, BinaryIO

Reply = Any


class ErrorReply(ConnectionError):
    """Redis didn't carry out a request: its text."""


class Redis:
    """A connection, for one thread. After a failure, an OSError, the next request makes another one."""

    def __init__(self, connect: Callable[[], socket.socket]) -> None:
        self._connect = connect
        self._socket: socket.socket | None = None
        self._file: BinaryIO = io.BytesIO()

    def close(self) -> None:
        if self._socket is not None:
            self._file.close()
            self._socket.close()
        self._socket = None

    def ask(self, *words: str | int) -> Reply:
        """The reply: bytes, a number, None or a list of these."""
        try:
            if self._socket is None:
                self._socket = self._connect()
                self._file = self._socket.makefile("rb")
            self._socket.sendall(_request(words))
            return _reply(self._file)
        except OSError:
            self.close()
            raise
        except ValueError as error:
            self.close()
            raise ConnectionError(f"Redis doesn't speak RESP 2: {error}") from error


def _request(words: tuple[str | int, ...]) -> bytes:
    parts = [str(word).encode() for word in words]
    return b"*%d\r\n" % len(parts) + b"".join(b"$%d\r\n%b\r\n" % (len(each), each) for each in parts)


def _reply(file: BinaryIO) -> Reply:
    kind, rest = (line := _bytes(file.readline(), 3))[:1], line[1:-2]
    if kind == b"+":
        return rest
    if kind == b"-":
        raise ErrorReply(rest.decode(errors="replace"))
    count = int(rest)
    if kind == b":":
        return count
    if count < 0:
        return None
    if kind == b"*":
        return [_reply(file) for _ in range(count)]
    if kind == b"$":
        return _bytes(file.read(count + 2), count + 2)[:-2]
    raise ValueError(f"{kind!a} begins no reply")


def _bytes(data: bytes, least: int) -> bytes:
    if len(data) < least or not data.endswith(b"\r\n"):
        raise ConnectionError("Redis has ended the connection")
    return data
