"""The lines of several services in a stream of Redis. One of them leads, by a lease.

The id of a line is its number, and its one field, `line`, the row of `leading.py`. Beside the stream NAME there are
NAME:last, the place of its last line, NAME:lease, who leads, and NAME:snapshot. Only the leader appends, and only to
the line that it has as its last one: so there is one history, whatever a clock says."""

import contextlib
import threading
from collections.abc import Sequence
from itertools import islice

from entry import Line, Place
from errors import Failed, Invalid, Mismatch
from journal import MOST_LINES, Journal
from leading import Lines, Origin, is_head, line_in, row_of, snapshot_in, snapshot_lines
from redis_client import Redis, Reply

#: Appends rows to the last line, or none.
_APPEND = """
if redis.call('GET', KEYS[3]) ~= ARGV[1] or redis.call('GET', KEYS[2]) ~= ARGV[2] then return 0 end
for at = 5, #ARGV do
    redis.call('XADD', KEYS[1], string.format('%.0f-0', ARGV[3] + at - 4), 'line', ARGV[at])
end
if #ARGV > 4 then redis.call('SET', KEYS[2], ARGV[4]) end
return 1
"""
#: Who wants the lease (for some milliseconds) gets it if nobody has it, and keeps it. Then whether it leads, the last
#: line, and those after a number.
_POLL = """
local holder = redis.call('GET', KEYS[3])
if not holder and ARGV[2] ~= '0' then
    redis.call('SET', KEYS[3], ARGV[1], 'PX', ARGV[2])
    holder = ARGV[1]
elseif holder == ARGV[1] and ARGV[2] == '0' then
    redis.call('DEL', KEYS[3])
    holder = false
elseif holder == ARGV[1] and redis.call('PTTL', KEYS[3]) * 3 < ARGV[2] * 2 then
    redis.call('PEXPIRE', KEYS[3], ARGV[2])
end
local rows = redis.call('XRANGE', KEYS[1], '(' .. ARGV[3] .. '-0', '+', 'COUNT', ARGV[4])
return {holder == ARGV[1] and 1 or 0, redis.call('GET', KEYS[2]), rows}
"""
#: Whoever leads no more says so in so many seconds.
_RESIGN_SECONDS = 1.0
#: The bytes that a snapshot's head has at most.
_HEAD_BYTES = 1_000
#: Replaces the snapshot, and drops the lines before a number.
_RENEW = """
if redis.call('GET', KEYS[3]) ~= ARGV[1] then return 0 end
redis.call('SET', KEYS[4], ARGV[2])
redis.call('XTRIM', KEYS[1], 'MINID', ARGV[3] .. '-0')
return 1
"""
#: The stream is there from here on, and anybody may lead.
_END_OF_SEED = "redis.call('SET', KEYS[1], ARGV[1]) redis.call('DEL', KEYS[2])"


class Stream:
    """The stream, for one thread of the service of this name. Where Redis doesn't answer there is an OSError."""

    def __init__(self, redis: Redis, stream: str, name: str, lease_seconds: int) -> None:
        self._redis, self._name, self._milliseconds = redis, name, 1000 * lease_seconds
        self._keys = (stream, f"{stream}:last", f"{stream}:lease", f"{stream}:snapshot")
        self._missing = f"redis: there is no stream {stream!a}: sdstored seed makes it"

    def close(self) -> None:
        """Ends the connection."""
        self._redis.close()

    def resign(self) -> None:
        """Leads no more, and ends the connection. Where Redis is silent the lease ends by itself."""
        thread = threading.Thread(target=self._resign, name="resign", daemon=True)
        thread.start()
        thread.join(_RESIGN_SECONDS)

    def _resign(self) -> None:
        with contextlib.suppress(OSError):
            self._poll(Place(0, b""), may_lead=False)
        self.close()

    def snapshot(self) -> Origin:
        """What a new replica starts from. Failed: there is no stream."""
        text = self._redis.ask("GET", self._keys[3])
        if text is None:
            raise Failed(self._missing)
        return snapshot_in(text.decode().split("\n"))

    def lines(self, after: Place, may_lead: bool) -> Lines:
        """The lines after one that is on disk here; `may_lead` says whether to lead if nobody does. Mismatch: the
        stream doesn't go on from there."""
        leads, last, rows = self._poll(after, may_lead)
        if last is None:
            raise Mismatch(self._missing)
        place = Place.of(last.decode())
        if place.number < after.number or (place.number == after.number) != (place == after):
            raise Mismatch(f"redis: the stream ends at line {place.number}, and lacks the line {after.number} of here")
        if place != after and not rows:
            raise Mismatch(f"redis: the stream has dropped the lines after {after.number}")
        return Lines([line_in(row.decode()) for _, (_, row) in rows], place.number, bool(leads))

    def _poll(self, after: Place, may_lead: bool) -> Reply:
        milliseconds = self._milliseconds if may_lead else 0
        return self._redis.ask("EVAL", _POLL, 3, *self._keys[:3], self._name, milliseconds, after.number, MOST_LINES)

    def append(self, last: Place, lines: Sequence[tuple[Line, bytes]]) -> None:
        """Appends lines after the last one, or none. Failed: this service doesn't lead, or lacks lines."""
        end = Place(lines[-1][0].number, lines[-1][1]) if lines else last
        places, rows = (str(last), last.number, str(end)), [row_of(*each) for each in lines]
        if not self._redis.ask("EVAL", _APPEND, 3, *self._keys[:3], self._name, *places, *rows):
            raise Failed("redis: another service leads")

    def has_snapshot(self) -> bool:
        """Whether the snapshot is of today's form: a new replica takes no other."""
        head: bytes = self._redis.ask("GETRANGE", self._keys[3], 0, _HEAD_BYTES - 1)
        return is_head(head.decode(errors="replace").partition("\n")[0])

    def renew(self, journal: Journal) -> None:
        """Replaces the snapshot, and drops the lines that the journal has dropped. Failed: it doesn't lead."""
        # Another leader may have dropped more of them.
        rows = self._redis.ask("XRANGE", self._keys[0], "-", "+", "COUNT", 1)
        lines = snapshot_lines(journal, line_in(rows[0][1][1].decode())[0].number - 1 if rows else 0)
        if not self._redis.ask("EVAL", _RENEW, 4, *self._keys, self._name, "\n".join(lines), journal.start.number + 1):
            raise Failed("redis: another service leads")

    def seed(self, journal: Journal) -> None:
        """Makes the stream, of the journal's snapshot and lines. Invalid: there is one."""
        stream, last, lease, snapshot = self._keys
        if self._redis.ask("EXISTS", snapshot):
            raise Invalid(f"redis: there is a stream {stream!a} already")
        place, lines = journal.start, journal.lines(journal.start.number)
        self._redis.ask("DEL", stream)
        self._redis.ask("MSET", last, str(place), lease, self._name)
        while batch := list(islice(lines, MOST_LINES)):
            self.append(place, batch)
            place = Place(batch[-1][0].number, batch[-1][1])
        self._redis.ask("EVAL", _END_OF_SEED, 2, snapshot, lease, "\n".join(snapshot_lines(journal)))
