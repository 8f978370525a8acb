"""Where clients connect: Unix sockets with the system's word on who connects, and TCP with certificates of both sides.

Who isn't in the list of `allow` is disconnected, and so is anybody beyond the limits of connections. Until a client has
shown its certificate it has one of a few places, for a short time."""

import asyncio
import contextlib
import functools
import math
import os
import socket
import stat
import struct
import time
from collections import Counter
from dataclasses import dataclass

from caller import Caller, watcher
from certificates import Certificates, name_and_end
from config import Listen
from connection import Connection
from errors import Failed
from http_connection import HttpConnection
from line_connection import LineConnection
from service import Service

_KINDS: dict[str, type[Connection]] = {"lines": LineConnection, "http": HttpConnection}
_SO_PEERGROUPS = 59
#: Python asks for no more bytes. Of a process in more groups than these the primary one alone counts.
_GROUPS_BYTES = 1024
_BACKLOG = 1024
#: A handshake has so many seconds, though others wait for its place.
_LEAST_SECONDS = 0.25
_TOO_SLOW = "handshake too slow"


@dataclass(eq=False)
class _Handshake:
    """A client that hasn't shown its certificate yet."""

    address: str
    began: float
    task: "asyncio.Task[None]"


class Listener:
    """One place of the configuration. Its certificates and its list are replaced when that is read again."""

    def __init__(self, listen: Listen, service: Service) -> None:
        self._service = service
        self.connections: set[Connection] = set()
        #: The clients that are being admitted, the oldest first.
        self._handshakes: dict[_Handshake, None] = {}
        self._certificates: Certificates | None = None
        self.configure(self.configured(listen))
        self._socket = _bound(listen)
        self._accepting = asyncio.get_running_loop().create_task(self._accept())

    @property
    def name(self) -> str:
        return self.listen.name

    def configured(self, listen: Listen) -> tuple[Listen, Certificates | None]:
        """What `configure` takes. Failed: a certificate isn't readable."""
        return listen, Certificates.read(listen) if listen.certificate else None

    def configure(self, configured: tuple[Listen, Certificates | None]) -> None:
        """Takes the certificates and the list from here on. Who is connected and no longer in it is disconnected; so is
        everybody if the authority is another one, or lacks a certificate that it had."""
        self.listen, certificates = configured
        before, self._certificates = self._certificates, certificates
        keeps = certificates is None or certificates.accepts_all_of(before)
        for connection in list(self.connections):
            if keeps:
                connection.admit_again()
            else:
                connection.reject("authority replaced")
        if not keeps:
            for handshake in self._handshakes:
                handshake.task.cancel()

    async def _accept(self) -> None:
        loop = asyncio.get_running_loop()
        while True:
            try:
                client, address = await loop.sock_accept(self._socket)
            except OSError:
                # Too many open files, or the client is gone already.
                await asyncio.sleep(0.05)
                continue
            if self._certificates:
                await self._make_room()
            host = address[0] if isinstance(address, tuple) else ""
            handshake = _Handshake(host, time.monotonic(), loop.create_task(self._admit(client)))
            self._handshakes[handshake] = None
            handshake.task.add_done_callback(functools.partial(self._end, handshake))

    def _end(self, handshake: _Handshake, task: "asyncio.Task[None]") -> None:
        self._handshakes.pop(handshake, None)

    async def _make_room(self) -> None:
        """Returns once there is a place for a handshake: that of the oldest one of an address that has most is taken,
        if it had some time."""
        while len(self._handshakes) >= self._service.limits.handshakes:
            counts = Counter(each.address for each in self._handshakes)
            most = max(counts.values())
            oldest = next(each for each in self._handshakes if counts[each.address] == most)
            left = oldest.began + _LEAST_SECONDS - time.monotonic()
            if left <= 0:
                oldest.task.cancel()
                self._handshakes.pop(oldest)
                self._service.metrics.rejected[_TOO_SLOW] += 1
            await asyncio.sleep(max(left, 0))

    async def _admit(self, client: socket.socket) -> None:
        """Makes a connection of a client. Whether it is allowed to is known once it is there."""
        metrics, certificates = self._service.metrics, self._certificates
        client.setblocking(False)
        seconds = self._service.limits.handshake_seconds if certificates else None
        try:
            await asyncio.get_running_loop().connect_accepted_socket(
                self._made, client, ssl=certificates.context if certificates else None,
                ssl_handshake_timeout=seconds, ssl_shutdown_timeout=seconds,
            )
        except OSError as error:
            client.close()
            reason = _TOO_SLOW if isinstance(error, ConnectionAbortedError) else "no certificate"
            metrics.rejected[reason] += 1
            self._service.log.few("rejected", who="", reason=reason, error=str(error), at=self.name)
        except asyncio.CancelledError:
            client.close()
            raise

    def _made(self) -> Connection:
        return _KINDS[self.listen.protocol](self._service, self)

    def caller(self, transport: asyncio.BaseTransport) -> Caller:
        """Who the client is. PermissionError: it isn't in the list."""
        if self.listen.is_plain:
            return watcher("loopback")
        if self._certificates:
            name, until = name_and_end(transport)
            return self._allowed([name], until)
        return self._allowed(_peer_names(transport), math.inf)

    def _allowed(self, names: list[str], until: float) -> Caller:
        grants = tuple(each for name in names for each in self.listen.allow.get(name, ()))
        if not grants:
            raise PermissionError(f"not allowed: {' '.join(names[:4])}")
        return Caller(names[0], grants, until)

    def tick(self) -> None:
        now = time.monotonic()
        for connection in list(self.connections):
            connection.tick(now)

    async def close(self) -> None:
        """Admits nobody any more. Those that are there stay."""
        for task in (self._accepting, *(each.task for each in self._handshakes)):
            task.cancel()
        with contextlib.suppress(asyncio.CancelledError):
            await self._accepting
        self._socket.close()
        if self.listen.unix:
            with contextlib.suppress(OSError):
                os.unlink(self.listen.unix)


def _peer_names(transport: asyncio.BaseTransport) -> list[str]:
    """The user and the groups of the process that connected, by the system."""
    client = transport.get_extra_info("socket")
    _, uid, gid = struct.unpack("3i", client.getsockopt(socket.SOL_SOCKET, socket.SO_PEERCRED, struct.calcsize("3i")))
    groups = b""
    with contextlib.suppress(OSError):
        groups = client.getsockopt(socket.SOL_SOCKET, _SO_PEERGROUPS, _GROUPS_BYTES)
    others = struct.unpack(f"{len(groups) // 4}I", groups)
    return [f"uid:{uid}", f"gid:{gid}", *(f"gid:{each}" for each in others if each != gid)]


def _bound(listen: Listen) -> socket.socket:
    """The socket, at which clients wait from here on. Failed: the place is in use, or may not be used."""
    made = socket.socket(socket.AF_UNIX if listen.unix else _family(listen.tcp[0]), socket.SOCK_STREAM)
    try:
        if listen.unix:
            _remove_stale(listen.unix)
            made.bind(listen.unix)
            os.chmod(listen.unix, 0o666)
        else:
            made.setsockopt(socket.SOL_SOCKET, socket.SO_REUSEADDR, 1)
            made.bind(listen.tcp)
        made.listen(_BACKLOG)
    except OSError as error:
        made.close()
        raise Failed(f"{listen.name}: {error.strerror or error}") from error
    made.setblocking(False)
    return made


def _family(address: str) -> socket.AddressFamily:
    return socket.AF_INET6 if ":" in address else socket.AF_INET


def _remove_stale(path: str) -> None:
    """Removes a socket that a killed service left; nothing else."""
    with contextlib.suppress(FileNotFoundError):
        if stat.S_ISSOCK(os.lstat(path).st_mode):
            with socket.socket(socket.AF_UNIX, socket.SOCK_STREAM) as other:
                try:
                    other.connect(path)
                except ConnectionRefusedError:
                    os.unlink(path)
