"""A replica's thread, which takes the next lines from its source and hands them to the writer."""

import contextlib
import functools
import math
import socket
import ssl
import threading
from collections.abc import Iterator
from pathlib import Path
from typing import Protocol

import clock
from asking import Client, OtherStore, Rejected
from config import Config, Source
from entry import Line, Place
from errors import Failed, Invalid, Mismatch
from leading import Lines, Origin, lines_in, snapshot_in
from loading import Loaded, load
from redis_client import Redis
from stores import make, opened
from stream import Stream
from tree import built
from writer import RETRY_SECONDS, Writer

#: A replica that has all lines asks again after so many seconds, and one whose source doesn't answer.
_PAUSE, _SILENT_PAUSE = 0.05, 0.5
#: At a stop it has so many seconds to get its answer.
_STOP_SECONDS = 1.0
#: What a leader says of lines that aren't the replica's. Another refusal may be taken back, as that of a role.
_OTHER_LINES = ("fault gone", "fault chain")


class Feed(Protocol):
    """Where lines come from. An OSError: it doesn't answer. A Mismatch: it has other lines than the replica."""

    def snapshot(self) -> Origin:
        """What a new replica starts from."""

    def lines(self, after: Place, may_lead: bool) -> Lines:
        """The lines after one that the replica has on disk."""

    def close(self) -> None:
        """Ends the connection."""


class LeaderFeed:
    """That of a replica whose leader is the one of its configuration."""

    def __init__(self, client: Client, store: str) -> None:
        self._client = client
        self._client.store = store

    def snapshot(self) -> Origin:
        return snapshot_in(self._asked("snapshot"))

    def lines(self, after: Place, may_lead: bool) -> Lines:
        # (a store without lines has no chain)
        return lines_in(self._asked("lines", *str(after).split()))

    def _asked(self, *words: str) -> list[str]:
        try:
            said: list[str] = self._client.lines(*words)
            return said
        except (OtherStore, Rejected) as error:
            text = f"leader: {' '.join(words)}: {error}"
            if isinstance(error, OtherStore) or str(error) in _OTHER_LINES:
                raise Mismatch(text) from error
            raise ConnectionError(text) from error

    def close(self) -> None:
        self._client.close()


def feed_of(source: Source, name: str, store: str = "") -> Feed:
    """The feed of the service of this name, or of a replica that has this store."""
    if source.stream:
        return stream_of(source, name)
    tls, where = context_of(source), source.unix or source.tcp
    return LeaderFeed(Client(where, tls, timeout=source.max_age_seconds), store)


def stream_of(source: Source, name: str) -> Stream:
    connect = functools.partial(_connected, source, context_of(source))
    return Stream(Redis(connect), source.stream, name, source.lease_seconds)


def context_of(source: Source) -> ssl.SSLContext | None:
    """What TCP requires. Failed: a certificate isn't readable."""
    if source.unix:
        return None
    try:
        context = ssl.create_default_context(cafile=source.authority)
        context.load_cert_chain(source.certificate, source.key)
    except OSError as error:
        raise Failed(f"the source's certificates: {error}") from error
    return context


def _connected(source: Source, tls: ssl.SSLContext | None) -> socket.socket:
    if tls is None:
        made = socket.socket(socket.AF_UNIX)
        made.settimeout(source.max_age_seconds)
        made.connect(source.unix)
        return made
    plain = socket.create_connection(source.tcp, source.max_age_seconds)
    return tls.wrap_socket(plain, server_hostname=source.tcp[0])


def make_replica(source: Source, folder: Path) -> None:
    """Makes a store of the source's newest snapshot, and of the lines before it, whose keys count where it leads.
    Mismatch: the snapshot makes no tree, or the lines lead to another one."""
    with contextlib.closing(feed_of(source, "")) as feed:
        try:
            origin = feed.snapshot()
            built(origin.snapshot.lines, origin.mapping).close()
            try:
                make(folder, origin.store, origin.mapping, origin.snapshot, origin.first, _lines_before(feed, origin))
            except Mismatch:
                if feed.snapshot().snapshot.place == origin.snapshot.place:
                    raise
                raise Failed("the source has begun a new epoch, and dropped lines: try again") from None
        except OSError as error:
            raise Failed(f"no snapshot: {error}") from error


def _lines_before(feed: Feed, origin: Origin) -> Iterator[tuple[Line, bytes]]:
    """Those up to the snapshot."""
    place, end = origin.first, origin.snapshot.place
    while place.number < end.number:
        lines = feed.lines(place, may_lead=False).lines
        if not lines:
            raise Mismatch(f"line {place.number + 1} of the source is missing")
        for line, chain in lines:
            if place.number < end.number:
                if line.number != place.number + 1 or chain != line.chained(origin.store, place.chain):
                    raise Mismatch(f"line {line.number} of the source isn't the one after {place.number}")
                place = Place(line.number, chain)
                yield line, chain
    if place != end:
        raise Mismatch(f"line {end.number} of the source isn't the one of its snapshot")


def seed(config: Config) -> Loaded:
    """Makes the stream of a Redis, of a store that nobody serves."""
    if config.source is None or not config.source.stream:
        raise Invalid("a table 'redis' is required")
    with opened(config.folder) as journal:
        state = load(journal)
        with contextlib.closing(stream_of(config.source, "seed")) as stream:
            stream.seed(journal)
    return state


class Following:
    """Follows until `stop`, or until the writer has a failure."""

    def __init__(self, feed: Feed, writer: Writer, max_age: int) -> None:
        self._feed, self._writer, self._max_age = feed, writer, max_age
        self._stop = threading.Event()
        #: Since when it follows, and the last line that the source had.
        self._began, self._last = clock.now(), 0
        self._is_silent = False
        self._thread = threading.Thread(target=self._run, name="follower", daemon=True)
        self._thread.start()

    def stop(self) -> None:
        """Asks no more. A source that is silent isn't waited for: what it would answer isn't needed."""
        self._stop.set()
        self._thread.join(_STOP_SECONDS)

    def age(self, fresh_until: float) -> float:
        """How long ago the replica had all lines of its source, where it answers until then."""
        known = fresh_until - self._max_age
        return clock.now() - (known if math.isfinite(known) else self._began)

    def gauges(self) -> dict[str, float]:
        shown = self._writer.shown
        lag = max(0, self._last - shown.last.number)
        return {"replica_age_seconds": self.age(shown.fresh_until), "replica_lag_lines": lag}

    def _run(self) -> None:
        while not self._stop.is_set() and self._writer.failure is None:
            self._stop.wait(self._turn())
        self._feed.close()

    def _turn(self) -> float:
        """Asks once, and returns after how many seconds to ask again."""
        try:
            has_all = self._ask()
        except (OSError, MemoryError) as error:
            self._is_silent = True
            self._writer.warn(f"the source of lines doesn't answer: {error}")
            return _SILENT_PAUSE
        except Exception as error:
            self._writer.failure = error if isinstance(error, Mismatch) else Mismatch(f"the lines: {error!r}")
            return 0
        if self._is_silent:
            self._is_silent = False
            self._writer.warn("the source of lines answers again")
        if self._writer.is_lost:
            # (on a full disk it would ask without a pause)
            return RETRY_SECONDS
        return _PAUSE if has_all else 0

    def _ask(self) -> bool:
        """Asks once, and returns whether the replica then has all lines."""
        sent, shown = clock.now(), self._writer.shown
        lines = self._feed.lines(shown.last, may_lead=sent <= shown.fresh_until and not self._writer.is_lost)
        self._writer.receive(lines, sent - lines.age + self._max_age)
        self._last = lines.last
        return self._writer.shown.last.number >= lines.last
