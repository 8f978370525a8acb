"""`sdstored run`: starts the service, and ends it at SIGTERM; SIGHUP has it read its configuration again."""

import asyncio
import contextlib
import os
import resource
import signal
import socket
import sys
import time
from pathlib import Path
from typing import Any

import formats
from accounts import Accounts, FileReader, read_accounts
from certificates import Certificates
from config import Config, read_config
from errors import Failed, Invalid, Mismatch, ServiceError
from following import context_of, make_replica
from journal import DATABASE, Journal
from listening import Listener
from loading import Loaded, load
from logs import Log
from service import Service
from stores import opened

#: At a SIGTERM clients have so many seconds to take their answers.
_DRAIN_SECONDS = 5
#: Files besides those of connections.
_OTHER_FILES = 64
#: A thread that computes lets another one go on after so many seconds: a check waits for that up to three times.
_SWITCH_SECONDS = 0.0005


def serve(file: Path) -> int:
    """Serves until a SIGTERM, and returns the status."""
    config = read_config(file)
    if sys.stderr is None:
        # A file that is opened later would have its number, and get the log.
        raise Failed("standard error is closed: the log is there")
    log = Log(sys.stderr.fileno())
    with contextlib.closing(log):
        return _serve_with(file, config, log)


def look_at(file: Path) -> None:
    """Reads what `serve` reads before it opens the store: the configuration, certificates and accounts. A ServiceError
    says what it would end with."""
    config = read_config(file)
    for listen in config.listen:
        if listen.certificate:
            Certificates.read(listen)
    if config.source is not None:
        context_of(config.source)
    if config.accounts is not None:
        read_accounts(config.accounts)


def _serve_with(file: Path, config: Config, log: Log) -> int:
    _raise_limit(config.limits.connections + len(config.listen) * config.limits.handshakes + _OTHER_FILES)
    sys.setswitchinterval(_SWITCH_SECONDS)
    accounts = None
    if config.accounts is not None:
        accounts = read_accounts(config.accounts)
        log.event("accounts", file=str(config.accounts))
    began = time.monotonic()
    if config.source is not None and not (config.folder / DATABASE).exists():
        make_replica(config.source, config.folder)
    with opened(config.folder) as journal:
        state = load(journal)
        journal.convert(formats.VERSION)
        seconds = round(time.monotonic() - began, 3)
        place = {"epoch": state.epoch, "line": state.last.number, "length": state.tree.length}
        log.event("loaded", store=journal.store, **place, seconds=seconds)
        failure = asyncio.run(_serve(file, config, journal, state, log, accounts))
        if failure is not None:
            raise failure
    return 0


async def _serve(
    file: Path, config: Config, journal: Journal, state: Loaded, log: Log, accounts: Accounts | None
) -> Mismatch | None:
    """Serves until a signal, or until a replica has a failure, which is returned."""
    asyncio.get_running_loop().set_exception_handler(lambda _, what: log.event("error", text=_text(what)))
    service = Service(config, journal, state, log, accounts)
    reader = None if accounts is None else FileReader(service.questions.take, log)
    listeners: list[Listener] = []
    try:
        for listen in config.listen:
            listeners.append(Listener(listen, service))
        stop = _on_signals(file, listeners, reader, log)
        _notify("READY=1")
        log.event("ready", listen=[each.name for each in listeners])
        while not stop.is_set() and service.failure is None:
            with contextlib.suppress(asyncio.TimeoutError):
                await asyncio.wait_for(stop.wait(), 1)
            service.tick()
            for each in listeners:
                each.tick()
    finally:
        _notify("STOPPING=1")
        for each in listeners:
            await each.close()
        await service.stop()
        await _drain(listeners)
        log.event("stopped")
    return service.failure


def _text(what: dict[str, Any]) -> str:
    """What asyncio says of an error that nobody expected; it ends the connection."""
    return f"{what.get('message')}: {what.get('exception')!r}"


def _on_signals(file: Path, listeners: list[Listener], reader: FileReader | None, log: Log) -> asyncio.Event:
    """An event that SIGTERM and SIGINT set; SIGHUP reads the configuration again."""
    stop, loop = asyncio.Event(), asyncio.get_running_loop()
    for each in (signal.SIGTERM, signal.SIGINT):
        loop.add_signal_handler(each, stop.set)
    loop.add_signal_handler(signal.SIGHUP, lambda: _reload(file, listeners, reader, log))
    return stop


def _reload(file: Path, listeners: list[Listener], reader: FileReader | None, log: Log) -> None:
    """Takes certificates and lists from the file, and accounts from the one that it names. If something in the former
    is invalid all stays as it is."""
    try:
        config = read_config(file)
        found = {each.name: each for each in config.listen}
        made = [each.configured(found[each.listen.name]) for each in listeners]
        if (config.accounts is None) != (reader is None):
            # (whom it trusts is nothing that a service changes while it answers)
            raise Invalid("accounts: a table is added, or removed, by a restart")
    except (ServiceError, KeyError) as error:
        log.event("warning", text=f"the configuration isn't taken: {error}")
        return
    for listener, configured in zip(listeners, made):
        listener.configure(configured)
    log.event("reloaded")
    if reader is not None and config.accounts is not None:
        reader.read(config.accounts)


async def _drain(listeners: list[Listener]) -> None:
    """Ends the connections once their answers are taken, or after some seconds."""
    end = time.monotonic() + _DRAIN_SECONDS
    connections = [connection for each in listeners for connection in each.connections]
    for connection in connections:
        connection.finish()
    while any(each.connections for each in listeners) and time.monotonic() < end:
        await asyncio.sleep(0.01)
    for connection in connections:
        connection.transport.abort()


def _notify(text: str) -> None:
    """Says so to systemd, if it started the service."""
    where = os.environ.get("NOTIFY_SOCKET")
    if where:
        with socket.socket(socket.AF_UNIX, socket.SOCK_DGRAM) as out, contextlib.suppress(OSError):
            out.sendto(text.encode(), "\0" + where[1:] if where.startswith("@") else where)


def _raise_limit(files: int) -> None:
    """Allows so many open files. Invalid: the system doesn't."""
    soft, hard = resource.getrlimit(resource.RLIMIT_NOFILE)
    if hard != resource.RLIM_INFINITY and hard < files:
        raise Invalid(f"limits: connections: the system allows {hard} open files, and {files} are required")
    resource.setrlimit(resource.RLIMIT_NOFILE, (max(soft, files), hard))
