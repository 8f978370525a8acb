"""The journal of a write: what each node had and gets, in a file that is complete before any node is written. So a
write that was killed is resumed or undone by it.

Its lines are JSON: the target and its attribute; each node's path, and its attribute before and after in base64; and
the number of nodes with a digest of all lines before."""

import base64
import fcntl
import hashlib
import json
import os
from collections.abc import Iterator
from contextlib import contextmanager
from dataclasses import dataclass
from typing import Any, BinaryIO

from errors import Failed, Invalid, Stopped
from forms import Attribute
from paths import Path, parsed, spelled
from atomic_file import sync_folder

_VERSION = 1


@dataclass(frozen=True, slots=True)
class Step:
    """A node, and its attribute before and after."""

    path: Path
    old: bytes
    new: bytes


@dataclass(frozen=True, slots=True)
class Journal:
    """The steps of a write, in their order."""

    target: str
    attribute: Attribute
    steps: list[Step]


def write_journal(name: str, journal: Journal) -> None:
    """Makes the file, which must not exist, and syncs it: after a failure nothing may be written."""
    try:
        with open(os.open(name, os.O_WRONLY | os.O_CREAT | os.O_EXCL | os.O_CLOEXEC, 0o600), "wb") as file:
            digest = hashlib.sha256()
            for line in _lines(journal):
                digest.update(line)
                file.write(line)
            file.write(_line({"nodes": len(journal.steps), "sha256": digest.hexdigest()}))
            file.flush()
            os.fsync(file.fileno())
        sync_folder(os.path.dirname(os.path.abspath(name)))
    except FileExistsError as error:
        raise Stopped(f"{name}: there is a file already, which may be the journal of another write") from error
    except OSError as error:
        raise Failed(f"{name}: {error.strerror}: nothing is written") from error


def _lines(journal: Journal) -> Iterator[bytes]:
    yield _line({"estate": _VERSION, "target": journal.target, "attribute": journal.attribute.value})
    for step in journal.steps:
        old, new = (base64.b64encode(blob).decode() for blob in (step.old, step.new))
        yield _line({"path": spelled(step.path), "old": old, "new": new})


def _line(values: dict[str, Any]) -> bytes:
    return json.dumps(values).encode() + b"\n"


@contextmanager
def locked_journal(name: str) -> Iterator[Journal]:
    """The journal in a file, which nobody else resumes or undoes meanwhile. Invalid if the file isn't complete."""
    try:
        file = open(name, "rb")
    except OSError as error:
        raise Failed(f"{name}: {error.strerror}") from error
    with file:
        status = os.fstat(file.fileno())
        if status.st_uid != os.geteuid() or status.st_mode & 0o022:
            raise Stopped(f"{name}: somebody else may have written it")
        try:
            fcntl.flock(file, fcntl.LOCK_EX | fcntl.LOCK_NB)
        except OSError as error:
            raise Stopped(f"{name}: another process writes by it") from error
        try:
            journal = _read(file)
        except (ValueError, KeyError, TypeError) as error:
            raise Invalid(f"{name}: it isn't a complete journal: {error}") from error
        yield journal


def _read(file: BinaryIO) -> Journal:
    *lines, last = file.readlines() or [b""]
    digest = hashlib.sha256(b"".join(lines)).hexdigest()
    end = json.loads(last)
    if not lines or end != {"nodes": len(lines) - 1, "sha256": digest}:
        raise ValueError("its last line isn't that of its other lines")
    head = json.loads(lines[0])
    if head["estate"] != _VERSION:
        raise ValueError(f"its version is {head['estate']!a}")
    steps = [_step(json.loads(line)) for line in lines[1:]]
    return Journal(str(head["target"]), Attribute(head["attribute"]), steps)


def _step(values: dict[str, str]) -> Step:
    old, new = (base64.b64decode(values[name], validate=True) for name in ("old", "new"))
    return Step(parsed(values["path"]), old, new)
