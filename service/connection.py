"""What all connections share: the limits of time and size, and answers that a client doesn't take."""

import asyncio
import contextlib
import math
import select
import sys
import time
from collections.abc import Coroutine, Sequence
from typing import Any, Protocol, cast

from caller import Caller, watcher
from service import Service

#: The bytes of a long answer that a client has to take in the time of a request.
_LEAST_TAKEN = 1 << 16
#: So many bytes of an answer are given to the system at once, which keeps as many for a client; and so many of requests
#: wait before no more are read: to stop and to go on reading takes longer than a check.
_PIECE = 1 << 16
#: What is received at once. All connections are read by the one thread of the loop, into this: a buffer of its own for
#: each read takes longer than a check.
_ROOM = memoryview(bytearray(1 << 17))


class Place(Protocol):
    """Where clients connect."""

    #: Those that are there.
    connections: set["Connection"]

    @property
    def name(self) -> str:
        """The place, as the configuration has it."""

    def caller(self, transport: asyncio.BaseTransport) -> Caller:
        """Who the client is. PermissionError: it is not allowed to do anything."""


class Connection(asyncio.BufferedProtocol):
    """One client. Its requests are answered in their order; nothing here waits, so none delays another client."""

    def __init__(self, service: Service, place: Place) -> None:
        self.service = service
        self._place = place
        self.caller = watcher("")
        #: What was received and isn't answered, as it came: apart it would take many times as much.
        self._buffer = bytearray()
        #: The requests in progress, edits or long answers.
        self.in_progress = 0
        #: The client sends no more, or it gets no more than what is on the way.
        self._is_ended = self._finishes = False
        #: The answers that the client's transport doesn't take, their bytes, and how many bytes that was given.
        self._unsent: list[memoryview] = []
        self._unsent_bytes = self._given = 0
        self._is_full = False
        #: Since when the client owes the rest of a request, or takes no answer, and what it had taken then; since when
        #: it asks nothing.
        self._owes_since: float | None = None
        self._full_since, self._taken = cast("float | None", None), 0
        self._asked_nothing_since = time.monotonic()
        self._loop = asyncio.get_running_loop()
        self._turn = service.turn_of("")
        #: The answer that another thread makes, its bytes so far, and those of what was asked; and all that is held.
        self._long: asyncio.Task[None] | None = None
        #: It is one to a client that waits for a publish, and asks nothing else.
        self._is_watching = False
        self._made = self._asked = self._held = 0

    # Who it is

    @property
    def who(self) -> str:
        return self.caller.who

    @property
    def role(self) -> str:
        return self.caller.role

    @property
    def place(self) -> str:
        return self._place.name

    def connection_made(self, transport: asyncio.BaseTransport) -> None:
        self.transport = cast(asyncio.Transport, transport)
        self.transport.set_write_buffer_limits(_PIECE)
        self._place.connections.add(self)
        self.admit_again()
        if not self.transport.is_closing():
            self._turn = self.service.turn_of(self.who)
            reason = self.service.slots.take(self)
            if reason:
                self.reject(reason)

    def admit_again(self) -> None:
        """Who the client is, and what it may do from here on; who isn't allowed to do anything is disconnected. An
        answer in the making isn't for who may do less than before."""
        before = self.caller
        try:
            self.caller = self._place.caller(self.transport)
            is_allowed = self._long is None or self.caller.may_all_of(before)
        except OSError as error:
            self.caller, is_allowed = watcher(str(error)), False
        if not is_allowed:
            self.reject("not allowed")

    def connection_lost(self, error: Exception | None) -> None:
        self._leave()
        # asyncio's transport of TLS keeps the methods of its protocol, and so kept this, which keeps the transport:
        # both with their buffers would wait for a collection of all garbage. (One that was closed twice keeps nothing.)
        with contextlib.suppress(AttributeError):
            self.transport.set_protocol(asyncio.BufferedProtocol())

    def _leave(self) -> None:
        """It has no slot and holds nothing any more, and nobody makes answers for it."""
        self._place.connections.discard(self)
        self.service.slots.give(self)
        self.service.held.forget(self)
        self._unsent.clear()
        self._unsent_bytes = 0
        if self._long is not None:
            self._long.cancel()

    # What it asks

    def get_buffer(self, sizehint: int) -> memoryview:
        return _ROOM

    def buffer_updated(self, nbytes: int) -> None:
        if not self.transport.is_closing():
            self._asked_nothing_since = time.monotonic()
            self._buffer += _ROOM[:nbytes]
            self._proceed()

    def eof_received(self) -> bool:
        """What was asked is answered yet, but over TLS, which can't be half open; half a request isn't carried out."""
        self._is_ended = True
        self.proceed()
        return not self._is_tls

    @property
    def _is_tls(self) -> bool:
        return self.transport.get_extra_info("sslcontext") is not None

    def proceed(self) -> None:
        """Answers what can be answered now, and reads on if all is."""
        if not self.transport.is_closing():
            self._proceed()

    def _proceed(self) -> None:
        self._turn.begin()
        if self._unsent:
            self._give()
        if self._finishes:
            self.finish()
        else:
            waits = self.answer_waiting()
            if not self.transport.is_closing() and not self._finishes:
                self._go_on(waits)
        self._turn.end()

    def _go_on(self, waits: bool) -> None:
        """Reads on, if no request waits; ends, if that is all."""
        if not waits:
            self.transport.resume_reading()
        elif len(self._buffer) > _PIECE:
            self.transport.pause_reading()
        owes = bool(self._buffer) and not waits
        self._owes_since = (self._owes_since or time.monotonic()) if owes else None
        if self._is_ended and not waits and not self.in_progress and not self._unsent:
            self.transport.close()
        if waits or owes or self._held:
            self._count_held()

    def answer_waiting(self) -> bool:
        """Answers the requests that are there, while `may_answer`, up to one that has to wait: then it returns True."""
        raise NotImplementedError

    @property
    def may_answer(self) -> bool:
        """Whether the client takes its answers, and has had no more than its turn."""
        if self._is_full or self._unsent or self._finishes:
            return False
        if not self._turn.is_over():
            return True
        self._turn.again(self)
        return False

    def finished(self) -> None:
        """A request in progress is answered."""
        self.in_progress -= 1
        self._asked_nothing_since = time.monotonic()
        if self.has_waiting or self._is_ended:
            self._turn.again(self)

    def start_long(
        self, work: Coroutine[Any, Any, None], words: Sequence[str] = (), is_watching: bool = False
    ) -> None:
        """Has a task make an answer that takes long, to a question of these words, until the client leaves."""
        self._is_watching = is_watching
        self._asked = sum(map(sys.getsizeof, words))
        self._long = self._loop.create_task(work)
        self._long.add_done_callback(self._end_long)

    def _end_long(self, done: "asyncio.Task[None]") -> None:
        # (the next one may have begun)
        if self._long is done:
            self._long, self._made, self._asked, self._is_watching = None, 0, 0, False
            self._count_held()

    def hold(self, count: int) -> None:
        """The answer in the making has so many bytes."""
        if self._long is not None:
            self._made = count
            self._count_held()

    # What it takes

    def send(self, data: bytes) -> None:
        """Has the client get an answer, after those that it hasn't taken yet."""
        self._made = 0
        if self.transport.is_closing():
            return
        if len(data) <= _PIECE and not self._unsent and not self._is_full:
            self.transport.write(data)
            return
        self._unsent.append(memoryview(data))
        self._unsent_bytes += len(data)
        self._give()
        self._count_held()

    def _give(self) -> None:
        """Gives the transport what that takes of the answers, in the client's turn."""
        while self._unsent and not self._is_full and not self.transport.is_closing():
            if self._turn.is_over():
                self._turn.again(self)
                return
            piece, rest = self._unsent[0][:_PIECE], self._unsent[0][_PIECE:]
            self._unsent[:1] = [rest] if rest else []
            self._unsent_bytes -= len(piece)
            self._given += len(piece)
            self.transport.write(piece)

    def finish(self) -> None:
        """Ends the connection once the client has taken its answers."""
        self._finishes = True
        if not self._unsent:
            self.transport.close()

    def pause_writing(self) -> None:
        self._is_full = True
        if self._full_since is None:
            self._full_since, self._taken = time.monotonic(), self._given - self.transport.get_write_buffer_size()

    def resume_writing(self) -> None:
        self._is_full = False
        self.proceed()
        if not self._is_full:
            self._full_since = None

    # What limits it

    def _count_held(self) -> None:
        """Says how many bytes are held: with those of others these may be too many, and then this client is ended, or
        another one."""
        count = len(self._buffer) + self._asked + self._made + self._unsent_bytes
        if self._is_full:
            count += self.transport.get_write_buffer_size()
        if count != self._held and not self.transport.is_closing():
            self._held = count
            self.service.held.set(self, count)

    @property
    def slow_since(self) -> float:
        """Since when the client takes no answers, or owes the rest of a request; infinite while it does neither."""
        return min(since for since in (self._owes_since, self._full_since, math.inf) if since is not None)

    @property
    def has_waiting(self) -> bool:
        """Whether there is anything to answer, or to read on."""
        return bool(self._buffer) or not self.transport.is_reading()

    @property
    def idle_since(self) -> float | None:
        """Since when the client asks nothing, but to wait for a publish; None while it does, or takes answers."""
        is_busy = self.in_progress and not self._is_watching or self.has_waiting or self._unsent or self._is_full
        return None if is_busy else self._asked_nothing_since

    def reject(self, reason: str) -> None:
        """Closes the connection at once."""
        self.service.metrics.rejected[reason] += 1
        self.service.log.few("rejected", who=self.caller.who, reason=reason)
        self.transport.abort()
        self._leave()

    def tick(self, now: float) -> None:
        """Ends a client that is too slow, or idle for too long, or whose certificate has ended."""
        limits = self.service.limits
        if self.transport.is_closing():
            return
        if time.time() > self.caller.until:
            self.reject("certificate ended")
        elif self._long is not None and self._has_left():
            self.transport.abort()
        elif self._owes_since is not None and now - self._owes_since > limits.request_seconds:
            self.reject("half a request")
        elif self._full_since is not None and now - self._full_since > limits.request_seconds:
            taken = self._given - self.transport.get_write_buffer_size()
            before, self._taken, self._full_since = self._taken, taken, now
            if taken - before < _LEAST_TAKEN:
                self.reject("answers not taken")
        elif not self._is_watching and now - (self.idle_since or now) > limits.idle_seconds:
            self.transport.close()

    def _has_left(self) -> bool:
        """Whether the client has closed the connection, of which what isn't read yet says nothing. Over TLS it can't be
        half open."""
        poll = select.poll()
        poll.register(self.transport.get_extra_info("socket"), select.POLLRDHUP if self._is_tls else 0)
        return bool(poll.poll(0))
