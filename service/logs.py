"""The log: a JSON object on a line of standard error for each event, as journald keeps it.

A thread of its own writes the lines, so that a stream that takes nothing, or a full disk, delays nobody else. A record
is an event that has to be there before an answer goes out: who put it learns whether it is. It is written at once where
the stream takes it at once."""

import contextlib
import json
import os
import select
import stat
import threading
import time
from collections import deque
from collections.abc import Callable, Sequence
from dataclasses import dataclass
from itertools import islice

#: The bytes that may wait for the stream, and of events alone: one beyond these is lost, and counted.
_MOST_BYTES, _MOST_OF_EVENTS = 1 << 20, 1 << 19
#: The events, or records of one commit, that are written at once.
_AT_ONCE = 64
#: A record that isn't there after so many seconds isn't waited for any more.
RECORD_SECONDS = 2.0
#: After a failed write the next one is tried after so many seconds.
_RETRY_SECONDS = 0.5
in_json = json.JSONEncoder().encode
#: So many events of one name are written in so many seconds: what somebody without a role causes fills no disk.
_FEW, _FEW_SECONDS = 600, 60


@dataclass(slots=True)
class _Waiting:
    """Lines that aren't on the stream yet, since when, and who waits for them."""

    text: bytes
    since: float
    then: Callable[[bool], object] | None = None


class Log:
    """Lines to an open file, by its number."""

    def __init__(self, out: int = 2) -> None:
        self._out = out
        self._is_file = stat.S_ISREG(os.fstat(out).st_mode)
        self._ready = select.poll()
        self._ready.register(out, select.POLLOUT)
        self._lock = threading.Lock()
        self._changed = threading.Condition(self._lock)
        #: What isn't on the stream, its bytes, and whether another thread than that of the log writes the first.
        self._waiting: deque[_Waiting] = deque()
        self._bytes, self._is_written = 0, False
        self._is_failing = False
        #: The events that weren't taken.
        self.lost = 0
        #: By the names of few events: the time, in such seconds, how many were written in it, and how many weren't.
        self._few: dict[str, tuple[int, int, int]] = {}
        threading.Thread(target=self._run, name="log", daemon=True).start()

    @property
    def takes_records(self) -> bool:
        """Whether the stream takes what is put, as far as is known."""
        if self._is_failing or self._bytes >= _MOST_BYTES:
            return False
        if not self._bytes:
            return True
        try:
            return time.monotonic() - self._waiting[0].since <= RECORD_SECONDS
        except IndexError:
            return True

    @property
    def waiting_bytes(self) -> int:
        """The bytes that the stream hasn't taken."""
        return self._bytes

    def event(self, what: str, **fields: object) -> bool:
        """One line. False: too many wait, and this one is lost."""
        text = _lines(what, [in_json(fields)[1:-1]])
        with self._changed:
            if self._bytes >= _MOST_OF_EVENTS:
                self.lost += 1
                return False
            self._put(_Waiting(text, time.monotonic()))
        return True

    def few(self, what: str, **fields: object) -> None:
        """One line, up to a number in a time. The next one says how many weren't written."""
        left_out = self.left_out(what)
        if left_out is not None:
            self.event(what, **fields, **({"left_out": left_out} if left_out else {}))

    def left_out(self, what: str) -> int | None:
        """How many of this name weren't written before this one; None: it isn't to be written either."""
        now = int(time.monotonic()) // _FEW_SECONDS
        when, count, left_out = self._few.get(what, (now, 0, 0))
        if when != now:
            count = 0
        if count >= _FEW:
            self._few[what] = now, count, left_out + 1
            return None
        self._few[what] = now, count + 1, 0
        return left_out

    def records(self, what: str, many: Sequence[str], then: Callable[[bool], object]) -> bool:
        """A line each, of fields in JSON. Returns whether they are on the stream; otherwise `then` is called, by any
        thread, with whether they are in time. If they aren't, they are written once the stream takes them."""
        is_failing = self._is_failing
        waiting = _Waiting(_lines(what, many), time.monotonic(), None if is_failing else then)
        with self._lock:
            is_first = not self._waiting and not is_failing
            self._is_written = self._is_written or is_first
            self._put(waiting)
        if is_failing:
            _call([then], False)
        return is_first and self._write_now(waiting)

    def _put(self, waiting: _Waiting) -> None:
        self._waiting.append(waiting)
        self._bytes += len(waiting.text)
        if not self._is_written:
            self._changed.notify_all()

    def _write_now(self, first: _Waiting) -> bool:
        """Writes the only one, as far as the stream takes it at once. Returns whether all is there, in time."""
        rest = memoryview(first.text)
        try:
            # (a ready pipe takes so many bytes; each look at it, and each write, gives other threads a turn)
            while rest and (self._is_file or self._ready.poll(0)):
                rest = rest[os.write(self._out, rest if self._is_file else rest[: select.PIPE_BUF]) :]
        except OSError:
            pass
        with self._lock:
            self._bytes -= len(first.text) - len(rest)
            first.text, is_waited_for = bytes(rest), first.then is not None
            if not rest:
                self._waiting.popleft()
            self._is_written = False
            if self._waiting:
                self._changed.notify_all()
        return not rest and is_waited_for

    def expire(self) -> None:
        """Has nobody wait any more for records that are late."""
        self._give_up(time.monotonic() - RECORD_SECONDS)

    def _give_up(self, before: float) -> None:
        """Of what was put before that time."""
        with self._changed:
            late = [each for each in self._waiting if each.since < before]
            thens = [each.then for each in late if each.then is not None]
            for each in late:
                each.then = None
        _call(thens, False)

    def flush(self, seconds: float) -> None:
        """Returns once all is on the stream, or after so many seconds."""
        with self._changed:
            self._changed.wait_for(lambda: not self._waiting or self._is_failing, seconds)

    def close(self) -> None:
        """Has the rest written, if the stream takes it soon."""
        self.flush(RECORD_SECONDS)

    # In the thread

    def _run(self) -> None:
        while True:
            with self._changed:
                self._changed.wait_for(lambda: bool(self._waiting) and not self._is_written)
                count = min(len(self._waiting), _AT_ONCE)
                text = b"".join(each.text for each in islice(self._waiting, count))
            self._write(text)
            self._end(count)

    def _write(self, text: bytes) -> None:
        """Returns once all of it is on the stream."""
        rest = memoryview(text)
        while rest:
            try:
                rest = rest[os.write(self._out, rest) :]
            except BlockingIOError:
                self._ready.poll(1000 * _RETRY_SECONDS)
            except OSError:
                with self._changed:
                    self._is_failing = True
                    self._changed.notify_all()
                self._give_up(time.monotonic() + 1)
                time.sleep(_RETRY_SECONDS)

    def _end(self, count: int) -> None:
        """The first ones are on the stream."""
        with self._changed:
            done = [self._waiting.popleft() for _ in range(count)]
            self._bytes -= sum(len(each.text) for each in done)
            self._is_failing = False
            thens = [each.then for each in done if each.then is not None]
            self._changed.notify_all()
        _call(thens, True)


def _call(thens: Sequence[Callable[[bool], object]], is_written: bool) -> None:
    for then in thens:
        # (a service that has ended doesn't wait)
        with contextlib.suppress(RuntimeError):
            then(is_written)


def _lines(what: str, many: Sequence[str]) -> bytes:
    """A line each, of fields in JSON. Texts may come from outside: JSON escapes what would make a line of its own."""
    head = f'{{"time": {round(time.time(), 3)}, "event": "{what}"'
    return "".join([f"{head}{', ' if fields else ''}{fields}}}\n" for fields in many]).encode()
