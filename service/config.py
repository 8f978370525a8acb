"""The configuration, a TOML file. What it doesn't know it rejects."""

import ipaddress
import os
import tomllib
from dataclasses import dataclass, field, fields
from pathlib import Path
from typing import Any, NamedTuple, TypeVar

from errors import Failed, Invalid

_T = TypeVar("_T")

#: What a client may do: each role includes those before it.
ROLES = ("watch", "check", "follow", "edit")
#: Those that may be for a path: the others are about the whole store.
_ROLES_BELOW = ("check", "edit")
PROTOCOLS = ("lines", "http")
#: The decisions that may be logged.
DECISIONS = ("none", "denied", "all")
#: The most bytes of a Unix socket's path, of which the system has an array with a zero at its end.
_SOCKET_BYTES = 107


class Grant(NamedTuple):
    """A role, and the path at and below which it counts."""

    role: str
    below: str = "/"


@dataclass(frozen=True)
class Limits:
    """What one client, and all together, may take. Each is a whole number of at least 1."""

    #: The bytes of a line, or of a request with its head.
    request_bytes: int = 1 << 20
    #: The seconds in which a request that has begun has to be there, and an answer has to be taken.
    request_seconds: int = 10
    #: The seconds after which a client without a request is disconnected.
    idle_seconds: int = 600
    #: Connections at once: in all and at each place to listen, of which one of eight is for who may follow or edit; and
    #: of each client.
    connections: int = 2_048
    connections_of_listener: int = 1_024
    connections_of_client: int = 256
    #: Where certificates are shown: the clients at once that haven't shown theirs yet, and the seconds that they have.
    handshakes: int = 32
    handshake_seconds: int = 3
    #: The bytes that all connections hold: requests that aren't whole, answers in the making, answers not taken.
    held_bytes: int = 1 << 29
    #: The edits that one client, and all clients, may have in progress.
    edits_of_client: int = 256
    edits: int = 4_096
    #: The questions about many nodes, or about all tokens, that are answered at once: of checkers, and of those who may
    #: edit; and as many of replicas. And the seconds in which there is an answer.
    long_answers: int = 2
    long_seconds: int = 60
    #: After so many lines a new epoch starts, and after 900,000 at the latest.
    lines_in_epoch: int = 100_000


@dataclass(frozen=True)
class Listen:
    """Where clients connect, how they speak, and which of them may do what."""

    protocol: str
    #: A path, for a Unix socket, or an empty text.
    unix: str = ""
    #: An address and a port, for TCP.
    tcp: tuple[str, int] = ("", 0)
    #: For TCP: the service's certificate with its key, and the authority of the clients' certificates.
    certificate: str = ""
    key: str = ""
    clients: str = ""
    #: Roles by `uid:N` and `gid:N` of a Unix socket, and `cn:NAME` of certificates.
    allow: dict[str, tuple[Grant, ...]] = field(default_factory=dict)

    @property
    def name(self) -> str:
        return self.unix or "%s:%d" % self.tcp

    @property
    def is_plain(self) -> bool:
        """TCP without certificates: of the loopback interface, and to watch alone."""
        return not self.unix and not self.certificate


@dataclass(frozen=True)
class Source:
    """Where a replica's lines come from: another service, which leads, or a Redis, whose lease says which service does.
    For TCP it has the replica's certificate, and the authority of the other side."""

    unix: str = ""
    tcp: tuple[str, int] = ("", 0)
    certificate: str = ""
    key: str = ""
    authority: str = ""
    #: A replica that has known nothing of its source for so long answers nothing.
    max_age_seconds: int = 10
    #: Of a Redis: the key of its stream, and how long it keeps the lease of a service that is silent.
    stream: str = ""
    lease_seconds: int = 10


@dataclass(frozen=True)
class Config:
    folder: Path
    listen: tuple[Listen, ...]
    source: Source | None = None
    limits: Limits = Limits()
    #: Which decisions have a record in the log.
    decisions: str = "none"
    #: The file that says which groups a user has. Without one clients say so.
    accounts: Path | None = None


def read_config(file: Path) -> Config:
    """The configuration of a file. Invalid: something in it is."""
    try:
        given = tomllib.loads(file.read_text(encoding="utf-8"))
    except OSError as error:
        raise Failed(f"{file}: {error.strerror}") from error
    except ValueError as error:
        raise Invalid(f"{file}: {error}") from error
    try:
        return _config(given)
    except ValueError as error:
        raise Invalid(f"{file}: {error}") from error


def _config(given: dict[str, Any]) -> Config:
    _know(given, {"folder", "listen", "accounts", "leader", "redis", "limits", "log"}, "")
    log = _typed(given, "log", dict, {})
    if "denials" in log:
        raise ValueError("log: 'denials' is replaced: write decisions = \"denied\" for true, and nothing for false")
    _know(log, {"decisions"}, "log: ")
    decisions = _typed(log, "decisions", str, "none")
    if decisions not in DECISIONS:
        raise ValueError(f"log: decisions: {decisions!a} is none of {', '.join(DECISIONS)}")
    listen = tuple(_listen(each) for each in _typed(given, "listen", list))
    names = [each.name for each in listen]
    if not listen or len(set(names)) != len(names):
        raise ValueError("listen: at least one is required, and each at a place of its own")
    limits = _limits(_typed(given, "limits", dict, {}))
    return Config(Path(_typed(given, "folder", str)), listen, _source(given), limits, decisions, _accounts(given))


def _accounts(config: dict[str, Any]) -> Path | None:
    if "accounts" not in config:
        return None
    given = _typed(config, "accounts", dict)
    _know(given, {"file"}, "accounts: ")
    file = _typed(given, "file", str, "")
    if not file:
        raise ValueError("accounts: file: a path is required")
    return Path(file)


def _source(config: dict[str, Any]) -> Source | None:
    if "leader" in config and "redis" in config:
        raise ValueError("leader: a service with a table 'redis' has its leader by the lease")
    where = "redis" if "redis" in config else "leader"
    if where not in config:
        return None
    given, of_redis = _typed(config, where, dict), {"stream", "lease_seconds"}
    _know(given, {each.name for each in fields(Source)} - (of_redis if where == "leader" else set()), f"{where}: ")
    unix, tcp = _place(given, where)
    certificate, key, authority = (_typed(given, name, str, "") for name in ("certificate", "key", "authority"))
    if {certificate != "", key != "", authority != ""} != {not unix}:
        raise ValueError(f"{where}: 'certificate', 'key' and 'authority' are required for TCP, and for nothing else")
    age, lease = (_seconds(given, name, where) for name in ("max_age_seconds", "lease_seconds"))
    stream = _typed(given, "stream", str, "sdstored")
    if not stream:
        raise ValueError(f"{where}: stream: a name is required")
    return Source(unix, tcp, certificate, key, authority, age, stream if where == "redis" else "", lease)


def _seconds(given: dict[str, Any], name: str, where: str) -> int:
    seconds = _typed(given, name, int, 10)
    if seconds < 1:
        raise ValueError(f"{where}: {name}: a whole number of at least 1 is required")
    return seconds


def _place(given: dict[str, Any], where: str) -> tuple[str, tuple[str, int]]:
    """Either a path of a Unix socket, or an address and a port."""
    unix, tcp = _typed(given, "unix", str, ""), _typed(given, "tcp", str, "")
    if (unix == "") == (tcp == ""):
        raise ValueError(f"{where}: either 'unix' or 'tcp' is required")
    if len(os.fsencode(unix)) > _SOCKET_BYTES:
        raise ValueError(f"{where}: unix: {unix!a} has more than {_SOCKET_BYTES} bytes, as no socket's path may have")
    return unix, _address(tcp) if tcp else ("", 0)


def _limits(given: dict[str, Any]) -> Limits:
    _know(given, {each.name for each in fields(Limits)}, "limits: ")
    for name, value in given.items():
        if type(value) is not int or value < 1:
            raise ValueError(f"limits: {name}: a whole number of at least 1 is required")
    return Limits(**given)


def _listen(given: object) -> Listen:
    if not isinstance(given, dict):
        raise ValueError("listen: a table is required, as [[listen]]")
    _know(given, {"unix", "tcp", "protocol", "certificate", "key", "clients", "allow"}, "listen: ")
    protocol = _typed(given, "protocol", str)
    if protocol not in PROTOCOLS:
        raise ValueError(f"listen: the protocol {protocol!a} is none of {', '.join(PROTOCOLS)}")
    unix, tcp = _place(given, "listen")
    files = {name: _typed(given, name, str, "") for name in ("certificate", "key", "clients")}
    made = Listen(protocol, unix, tcp, **files, allow=_allow(given, unix != ""))
    _require_certificates(made)
    return made


def _require_certificates(made: Listen) -> None:
    given = [bool(text) for text in (made.certificate, made.key, made.clients)]
    if made.unix and any(given):
        raise ValueError(f"listen: {made.unix}: a Unix socket has no certificates")
    if any(given) and not all(given):
        raise ValueError(f"listen: {made.name}: 'certificate', 'key' and 'clients' are required together")
    if made.is_plain:
        if not ipaddress.ip_address(made.tcp[0]).is_loopback or made.allow or made.protocol != "http":
            raise ValueError(f"listen: {made.name}: without certificates only http on the loopback interface is open, "
                             "to watch, and has no 'allow'")
    elif not made.allow:
        raise ValueError(f"listen: {made.name}: 'allow' names nobody")


def _address(text: str) -> tuple[str, int]:
    host, _, port = text.rpartition(":")
    host = host.removeprefix("[").removesuffix("]")
    ipaddress.ip_address(host)
    if not (port.isascii() and port.isdigit() and int(port) < 65_536):
        raise ValueError(f"{text!a}: an address and a port are required, as 127.0.0.1:7390")
    return host, int(port)


def _allow(given: dict[str, Any], is_unix: bool) -> dict[str, tuple[Grant, ...]]:
    allow: dict[str, Any] = _typed(given, "allow", dict, {})
    for who in allow:
        kind, _, name = who.partition(":")
        is_number = name.isascii() and name.isdigit() and name == str(int(name))
        is_known = kind in ("uid", "gid") and is_number if is_unix else kind == "cn" and name.isprintable() and name
        if not is_known:
            raise ValueError(f"listen: allow: {who!a} is neither uid:N nor gid:N of a Unix socket, nor cn:NAME of TCP")
    return {who: _grants(who, given) for who, given in allow.items()}


def _grants(who: str, given: object) -> tuple[Grant, ...]:
    """A role, or a role below a path, or a list of these."""
    many = given if isinstance(given, list) else [given]
    if not many:
        raise ValueError(f"listen: allow: {who!a} has no role")
    return tuple(map(_grant, many))


def _grant(given: object) -> Grant:
    values = given if isinstance(given, dict) else {"role": given}
    _know(values, {"role", "below"}, "listen: allow: ")
    grant = Grant(_typed(values, "role", str), _typed(values, "below", str, "/"))
    if grant.role not in ROLES:
        raise ValueError(f"listen: allow: the role {grant.role!a} is none of {', '.join(ROLES)}")
    if grant.below != "/":
        if grant.role not in _ROLES_BELOW:
            raise ValueError(f"listen: allow: the role {grant.role!a} is for the whole store")
        if grant.below[:1] != "/" or "" in grant.below[1:].split("/"):
            raise ValueError(f"listen: allow: below: {grant.below!a} is no path")
    return grant


def _typed(given: dict[str, Any], name: str, kind: type[_T], default: _T | None = None) -> _T:
    value = given.get(name, default)
    if type(value) is not kind:
        raise ValueError(f"{name}: a value of the type {kind.__name__} is required")
    if "\0" in str(value):
        raise ValueError(f"{name}: a text without NUL is required")
    return value


def _know(given: dict[str, Any], names: set[str], where: str) -> None:
    unknown = sorted(given.keys() - names)
    if unknown:
        raise ValueError(f"{where}{unknown[0]!a} is unknown")
