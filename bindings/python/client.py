"""Clients of sdstored, for threads and for asyncio. `./install` puts this module into the package hudarin.

    from hudarin.client import Client

    with Client("/run/sdstored/lines") as client:
        client.edit("addo", "/report", "O:BAG:SYD:(A;;FR;;;BU)")
        client.publish()
        if client.check("/report", "S-1-5-21-1-2-3-1001", "FR", ["BU"]):
            ...

A client connects when it is first asked, and again if a connection fails. A question is then asked again; an edit is
sent again with the key that it was sent with before, so it is made once. An answer is taken only for the request whose
id it has. No answer is by an earlier state than the one before, nor of another store. Of several services, given as a
list, it asks the next one where one has no answer, as a replica has none to an edit."""

from __future__ import annotations

import asyncio
import itertools
import secrets
import socket
import ssl
import threading
import time
from typing import Any, Generator, List, NamedTuple, Optional, Sequence, Tuple, TypeVar, Union
from urllib.parse import quote_from_bytes, unquote

__all__ = ["AsyncClient", "Behind", "Client", "OtherStore", "Rejected", "Unavailable", "Verdict"]

#: A path of a Unix socket, or a host and a port.
_Place = Union[str, Tuple[str, int]]
#: One service, or several of one store.
Where = Union[_Place, List[str], List[Tuple[str, int]]]

_SAFE = "".join(map(chr, range(0x21, 0x7F))).replace("%", "")
#: The edits, each with how many of its words are paths.
_EDITS = {"addc": 1, "addo": 1, "owner": 1, "group": 1, "dacl": 1, "remove": 1, "protect": 1, "move": 2}
_OF_LINES = ("why", "find", "list", "dump", "who", "compare", "review", "snapshot", "lines")
#: The mask of all rights.
_ALL = "0x02000000"
_PAUSE = 0.05


class Rejected(ValueError):
    """The service didn't carry out a request: its answer, as `refused 3 Exists` or `fault path`."""


class Unavailable(ConnectionError):
    """There is no answer in time. Of an edit it isn't known whether it was made."""


class Behind(Unavailable):
    """The service has published less than this client has seen."""


class OtherStore(ConnectionError):
    """The service serves another store than the one that this client has seen."""


class Verdict(NamedTuple):
    """The result of a check. It is true if all that was asked for is granted, and false otherwise."""

    #: "granted", "denied", "reserved", "empty" or "nonode".
    kind: str
    mask: int
    #: The length of the published journal that it is by.
    seen: int

    def __bool__(self) -> bool:
        return self.kind == "granted"


class _Connect:
    """A step of a conversation: connects, if there is no connection."""


class _Close:
    """A step: ends the connection."""


class _Pause:
    """A step: waits a little."""


class _Read:
    """A step: the next line, without its end."""


#: A step of a conversation, or bytes to send. What carries steps out sends back a line to `_Read`, and for the others
#: whether a connection was made.
_Step = Union[_Connect, _Close, _Pause, _Read, bytes]
_T = TypeVar("_T")
_Talk = Generator[_Step, Any, _T]


class _Words:
    """The conversation of both clients, without any input or output."""

    def __init__(self, where: Where, tls: Optional[ssl.SSLContext], timeout: float) -> None:
        places: Sequence[_Place] = where if isinstance(where, list) else [where]
        if tls is None and not all(isinstance(place, str) for place in places):
            raise ValueError("over TCP the service is asked with certificates: tls is required")
        self._places = itertools.cycle(places)
        self._where, self._tls, self._timeout = next(self._places), tls, timeout
        #: How long one service may be silent.
        self._share = timeout / len(places)
        self._name, self._ids = secrets.token_hex(8), itertools.count(1)
        #: The id of the store, and the published length that was seen last.
        self.store, self.seen = "", 0

    def _asked(self, *words: str) -> _Talk[List[str]]:
        """The lines of the answer to these words. They are sent again after a failure, for as long as the timeout."""
        line = " ".join(_word(word) for word in words)
        of_lines = words[0] in _OF_LINES
        end = time.monotonic() + self._timeout
        while True:
            try:
                if (yield _Connect()):
                    yield from self._greeted()
                lines = yield from self._once(line, of_lines)
                if not lines[0].startswith("unavailable"):
                    return self._taken(lines)
                failure: Exception = Unavailable(lines[0])
            except OtherStore:
                yield _Close()
                raise
            except (OSError, EOFError) as error:
                failure = error
            yield _Close()
            if time.monotonic() > end:
                raise failure if isinstance(failure, Unavailable) else Unavailable(str(failure)) from failure
            self._where = next(self._places)
            yield _Pause()

    def _greeted(self) -> _Talk[None]:
        """What a new connection is asked first: whether it leads to the store that was seen, and as far."""
        said = (yield from self._once("status", False))[0]
        words = said.split(" ")
        if words[0] == "unavailable":
            raise Unavailable(said)
        if words[0] != "status":
            raise Rejected(said)
        if self.store not in ("", words[1]):
            raise OtherStore(f"the store is {words[1]}, and was {self.store}")
        if int(words[5]) < self.seen:
            raise Behind(f"{words[5]} edits are published, and {self.seen} were seen")
        self.store = words[1]

    def _once(self, line: str, of_lines: bool) -> _Talk[List[str]]:
        """The lines of the answer, each of which has the id that the line was sent with."""
        tag = f"{self._name}.{next(self._ids)} "
        yield (tag + line + "\n").encode()
        lines: List[str] = []
        while True:
            said: str = yield _Read()
            if not said.startswith(tag):
                raise EOFError(f"not the answer to this line: {said!a:.100}")
            said = said[len(tag) :]
            if of_lines and not said and lines:
                return lines
            lines.append(said)
            if not of_lines:
                return lines

    def _taken(self, lines: List[str]) -> List[str]:
        """The lines, if they say that the request was carried out."""
        words = lines[0].split(" ")
        if words[0] in ("fault", "refused", "noreader", "nonotice"):
            raise Rejected(lines[0])
        if words[0] in ("seen", "published", "told"):
            self.seen = max(self.seen, int(words[1]))
        return lines

    def _check(self, paths: Sequence[str], user: str, mask: str, groups: Sequence[str]) -> _Talk[List[Verdict]]:
        given = [_spelled(path) for path in paths]
        lines = yield from self._asked("checks", "0", str(len(given)), *given, _spelled(user), mask, *groups)
        _, seen, said = lines[0].split(" ", 2)
        return [_verdict(each, int(seen)) for each in said.split(", ")] if given else []

    def _edit(self, words: Sequence[str]) -> _Talk[str]:
        """An edit or a publish, which is made once, however often it has to be sent."""
        count = _EDITS.get(words[0], 0)
        given = [_spelled(word) if 0 < at <= count else word for at, word in enumerate(words)]
        lines = yield from self._asked("once", secrets.token_hex(16), *given)
        return lines[0]

    def _lines(self, words: Sequence[str]) -> _Talk[List[str]]:
        """The answer to a question. ValueError: it is an edit, which would be sent again without a key."""
        if words[0] in _EDITS or words[0] in ("publish", "once"):
            raise ValueError(f"not a question: {words[0]}")
        return (yield from self._asked(*words))

    def _watch(self) -> _Talk[int]:
        said = yield from self._asked("watch", str(self.seen))
        return int(said[0].split(" ")[1])

    def _publish(self, of_all: bool) -> _Talk[int]:
        said = yield from self._edit(["publish", "all"] if of_all else ["publish"])
        return int(said.split(" ")[1])

    def _why(self, path: str, user: str, mask: str, groups: Sequence[str]) -> _Talk[Tuple[Verdict, List[str]]]:
        lines = yield from self._asked("why", "0", _spelled(path), _spelled(user), mask, *groups)
        _, seen, said = lines[0].split(" ", 2)
        return _verdict(said, int(seen)), lines[1:]

    def _show(self, path: str) -> _Talk[Optional[str]]:
        said = (yield from self._asked("show", "0", _spelled(path)))[0].split(" ")
        return said[3] if said[2] == "shown" else None

    def _find(self, path: str, user: str, mask: str, groups: Sequence[str]) -> _Talk[Optional[List[str]]]:
        lines = yield from self._asked("find", "0", _spelled(path), _spelled(user), mask, *groups)
        return None if lines[0].endswith(" nonode") else [unquote(line) for line in lines[1:]]

    def _of_node(self, command: str, path: str, *words: str) -> _Talk[Optional[List[str]]]:
        """The lines of an answer about a node, without the one that says that there are none."""
        lines = yield from self._asked(command, _spelled(path), *words)
        return None if lines == ["nonode"] else [line for line in lines if line not in ("empty", "same")]


def _word(word: str) -> str:
    """The text, if it is exactly one word of a line."""
    if not word or any(each in word for each in " \n\r"):
        raise ValueError(f"not one word: {word!a}")
    return word


def _spelled(path: str) -> str:
    """A path, or the name of a user, as one word."""
    return quote_from_bytes(path.encode(), safe=_SAFE)


def _verdict(said: str, seen: int) -> Verdict:
    kind, _, mask = said.partition(" ")
    return Verdict(kind, int(mask, 16) if mask else 0, seen)


class Client(_Words):
    """A client for threads, which take turns: `with Client(..) as client: ..`, or until `close`. Over TCP `tls` has the
    client's certificate and the service's authority."""

    def __init__(self, where: Where, tls: Optional[ssl.SSLContext] = None, timeout: float = 10.0) -> None:
        super().__init__(where, tls, timeout)
        self._turn = threading.Lock()
        self._socket: Optional[socket.socket] = None
        self._rest = b""

    def __enter__(self) -> Client:
        return self

    def __exit__(self, *_: object) -> None:
        self.close()

    def close(self) -> None:
        """Ends the connection. The next request makes another one."""
        if self._socket is not None:
            self._socket.close()
        self._socket, self._rest = None, b""

    def check(self, path: str, user: str, mask: str, groups: Sequence[str] = ()) -> Verdict:
        """Whether the user with these groups, privileges and restricting SIDs is granted the mask at the path. The user
        is a SID; or, of a service with accounts, which takes no groups, the name of an account."""
        return self.checks([path], user, mask, groups)[0]

    def checks(self, paths: Sequence[str], user: str, mask: str, groups: Sequence[str] = ()) -> List[Verdict]:
        """The same at many paths, all as of one moment."""
        return self._run(self._check(paths, user, mask, groups))

    def edit(self, *words: str) -> None:
        """Makes an edit, as `edit("addo", "/a b", "O:BAG:SYD:")`: it is on disk at the return, and in no answer before
        the next publish. Rejected: the tree refuses it."""
        self._run(self._edit(words))

    def publish(self, of_all: bool = False) -> int:
        """Publishes the pending edits, and returns the published length. Rejected: other clients have some, and
        ``of_all`` isn't there, which says that these are published too."""
        return self._run(self._publish(of_all))

    def why(self, path: str, user: str, mask: str, groups: Sequence[str] = ()) -> Tuple[Verdict, List[str]]:
        """The verdict of `check`, and a line for each reason."""
        return self._run(self._why(path, user, mask, groups))

    def show(self, path: str) -> Optional[str]:
        """The descriptor of the path's node with the entries that it inherits, in SDDL; None without a node."""
        return self._run(self._show(path))

    def find(self, path: str, user: str, mask: str, groups: Sequence[str] = ()) -> Optional[List[str]]:
        """The paths of the nodes at and below the path that grant the mask; None without a node."""
        return self._run(self._find(path, user, mask, groups))

    def who(self, path: str, mask: str = _ALL, base: Sequence[str] = ()) -> Optional[List[str]]:
        """Whom the node grants which rights of the mask, of all users with the groups of the base: the lines of
        `sdstore who`; None without a node."""
        return self._run(self._of_node("who", path, mask, *base))

    def compare(self, path: str, descriptor: str, base: Sequence[str] = ()) -> Optional[List[str]]:
        """What such users gain and lose if the descriptor takes the place of the node's: the lines of `sdstore
        compare`, or none; None without a node."""
        return self._run(self._of_node("compare", path, descriptor, *base))

    def review(self, path: str = "/") -> Optional[List[str]]:
        """What a publish would change at and below the path: the lines of `review`, the last of which has the lengths
        of the two journals; None without a node."""
        return self._run(self._of_node("review", path))

    def watch(self) -> int:
        """Waits until more is published than this client has seen, or for some seconds, and returns the published
        length: so caches can be dropped at once."""
        return self._run(self._watch())

    def lines(self, command: str, *words: str) -> List[str]:
        """The lines of the answer to any other question, as `lines("list", "/")`."""
        return self._run(self._lines((command, *words)))

    def _run(self, talk: _Talk[_T]) -> _T:
        with self._turn:
            answer: Any = None
            error: Optional[Exception] = None
            while True:
                try:
                    step = talk.send(answer) if error is None else talk.throw(error)
                except StopIteration as end:
                    value: _T = end.value
                    return value
                answer, error = None, None
                try:
                    answer = self._carry_out(step)
                except (OSError, EOFError) as failure:
                    error = failure

    def _carry_out(self, step: _Step) -> Any:
        if isinstance(step, _Connect):
            return self._connect()
        if isinstance(step, _Close):
            self.close()
        elif isinstance(step, _Pause):
            time.sleep(_PAUSE)
        elif isinstance(step, bytes):
            assert self._socket is not None
            self._socket.sendall(step)
        else:
            return self._line()
        return None

    def _connect(self) -> bool:
        if self._socket is not None:
            return False
        if isinstance(self._where, str):
            made = socket.socket(socket.AF_UNIX, socket.SOCK_STREAM)
            try:
                made.settimeout(self._share)
                made.connect(self._where)
            except OSError:
                made.close()
                raise
        else:
            assert self._tls is not None
            plain = socket.create_connection(self._where, self._share)
            made = self._tls.wrap_socket(plain, server_hostname=self._where[0])
        self._socket = made
        return True

    def _line(self) -> str:
        assert self._socket is not None
        while b"\n" not in self._rest:
            data = self._socket.recv(1 << 16)
            if not data:
                raise EOFError("the service has ended the connection")
            self._rest += data
        line, _, self._rest = self._rest.partition(b"\n")
        return line.decode()


class AsyncClient(_Words):
    """The same for asyncio, whose tasks take turns: `async with AsyncClient(..) as client: ..`."""

    def __init__(self, where: Where, tls: Optional[ssl.SSLContext] = None, timeout: float = 10.0) -> None:
        super().__init__(where, tls, timeout)
        self._turn = asyncio.Lock()
        self._streams: Optional[Tuple[asyncio.StreamReader, asyncio.StreamWriter]] = None

    async def __aenter__(self) -> AsyncClient:
        return self

    async def __aexit__(self, *_: object) -> None:
        self.close()

    def close(self) -> None:
        """Ends the connection. The next request makes another one."""
        if self._streams is not None:
            self._streams[1].transport.abort()
        self._streams = None

    async def check(self, path: str, user: str, mask: str, groups: Sequence[str] = ()) -> Verdict:
        """As that of `Client`, and so are the others."""
        return (await self.checks([path], user, mask, groups))[0]

    async def checks(self, paths: Sequence[str], user: str, mask: str, groups: Sequence[str] = ()) -> List[Verdict]:
        return await self._run(self._check(paths, user, mask, groups))

    async def edit(self, *words: str) -> None:
        await self._run(self._edit(words))

    async def watch(self) -> int:
        return await self._run(self._watch())

    async def publish(self, of_all: bool = False) -> int:
        return await self._run(self._publish(of_all))

    async def why(self, path: str, user: str, mask: str, groups: Sequence[str] = ()) -> Tuple[Verdict, List[str]]:
        return await self._run(self._why(path, user, mask, groups))

    async def show(self, path: str) -> Optional[str]:
        return await self._run(self._show(path))

    async def find(self, path: str, user: str, mask: str, groups: Sequence[str] = ()) -> Optional[List[str]]:
        return await self._run(self._find(path, user, mask, groups))

    async def who(self, path: str, mask: str = _ALL, base: Sequence[str] = ()) -> Optional[List[str]]:
        return await self._run(self._of_node("who", path, mask, *base))

    async def compare(self, path: str, descriptor: str, base: Sequence[str] = ()) -> Optional[List[str]]:
        return await self._run(self._of_node("compare", path, descriptor, *base))

    async def review(self, path: str = "/") -> Optional[List[str]]:
        return await self._run(self._of_node("review", path))

    async def lines(self, command: str, *words: str) -> List[str]:
        return await self._run(self._lines((command, *words)))

    async def _run(self, talk: _Talk[_T]) -> _T:
        async with self._turn:
            answer: Any = None
            error: Optional[Exception] = None
            while True:
                try:
                    step = talk.send(answer) if error is None else talk.throw(error)
                except StopIteration as end:
                    value: _T = end.value
                    return value
                answer, error = None, None
                try:
                    answer = await asyncio.wait_for(self._carry_out(step), self._share)
                except asyncio.TimeoutError:
                    error = EOFError("the service is silent")
                except (OSError, EOFError) as failure:
                    error = failure

    async def _carry_out(self, step: _Step) -> Any:
        if isinstance(step, _Connect):
            return await self._connect()
        if isinstance(step, _Close):
            self.close()
        elif isinstance(step, _Pause):
            await asyncio.sleep(_PAUSE)
        elif isinstance(step, bytes):
            assert self._streams is not None
            self._streams[1].write(step)
            await self._streams[1].drain()
        else:
            return await self._line()
        return None

    async def _connect(self) -> bool:
        if self._streams is not None:
            return False
        limit = 1 << 26
        if isinstance(self._where, str):
            self._streams = await asyncio.open_unix_connection(self._where, limit=limit)
        else:
            self._streams = await asyncio.open_connection(*self._where, ssl=self._tls, limit=limit)
        return True

    async def _line(self) -> str:
        assert self._streams is not None
        line = await self._streams[0].readline()
        if not line.endswith(b"\n"):
            raise EOFError("the service has ended the connection")
        return line[:-1].decode()
