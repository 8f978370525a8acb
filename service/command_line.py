"""The commands of sdstored."""

import argparse
import signal
import sqlite3
import sys
from collections.abc import Callable, Sequence
from pathlib import Path

import stores
from config import read_config
from errors import Failed, ServiceError
from following import seed
from loading import Loaded
from serving import look_at, serve
from tree import MAPPINGS

_DESCRIPTION = "Serves a tree of Windows security descriptors: checks, edits, and a journal that loses none."
_END = """\
statuses: 0 done; 1 the journal isn't the one that was acknowledged, and nothing is served; 2 invalid arguments,
configuration or input; 3 a read or a write failed. Messages are on standard error."""


def main(words: Sequence[str] | None = None) -> int:
    """Carries out a command, and returns the status."""
    arguments = _parser().parse_args(words)
    work: Callable[[argparse.Namespace], int] = arguments.work
    if work is not _run:
        # What isn't ready is removed then, as by SIGINT.
        for each in (signal.SIGTERM, signal.SIGHUP):
            signal.signal(each, signal.default_int_handler)
    try:
        return work(arguments)
    except ServiceError as error:
        _say(str(error))
        return error.status
    except (OSError, sqlite3.Error) as error:
        _say(f"{getattr(error, 'filename', None) or 'the journal'}: {error}")
        return 3
    except (MemoryError, KeyboardInterrupt) as error:
        _say("out of memory" if isinstance(error, MemoryError) else "interrupted")
        return 3


def _say(text: str) -> None:
    """A message, in which a character that isn't printable is escaped."""
    shown = "".join(each if each.isprintable() else ascii(each)[1:-1] for each in text)
    print(f"sdstored: {shown}", file=sys.stderr)


def _parser() -> argparse.ArgumentParser:
    parser = argparse.ArgumentParser(prog="sdstored", description=_DESCRIPTION, epilog=_END, allow_abbrev=False)
    commands = parser.add_subparsers(required=True, metavar="COMMAND")

    def command(name: str, work: Callable[[argparse.Namespace], int], text: str) -> argparse.ArgumentParser:
        made = commands.add_parser(name, help=text, description=text, allow_abbrev=False)
        made.set_defaults(work=work)
        return made

    init = command("init", _init, "make a store of the lines of a dump on standard input")
    init.add_argument("folder", type=Path, metavar="FOLDER",
                      help="the store's folder, which must not exist or be empty")
    init.add_argument("--mapping", choices=tuple(MAPPINGS), default="file", help="what the generic rights stand for")
    run = command("run", _run, "serve a store")
    run.add_argument("config", type=Path, metavar="CONFIG", help="the configuration, a TOML file")
    check = command("check", _check, "read a configuration, its certificates and accounts, as run does, and serve nothing")
    check.add_argument("config", type=Path, metavar="CONFIG")
    verify = command("verify", _verify, "replay a journal, and compare it with its snapshots")
    verify.add_argument("where", type=Path, metavar="FOLDER", help="a store's folder, which may be served, or a backup")
    backup = command("backup", _backup, "copy a store, which may be served, into a file")
    backup.add_argument("folder", type=Path, metavar="FOLDER")
    backup.add_argument("file", type=Path, metavar="FILE", help="the file to make")
    restore = command("restore", _restore, "make a store of a backup, with an id of its own")
    restore.add_argument("file", type=Path, metavar="FILE")
    restore.add_argument("folder", type=Path, metavar="FOLDER", help="the folder, which must not exist or be empty")
    downgrade = command("downgrade", _downgrade, "make a store one that the version before serves")
    downgrade.add_argument("folder", type=Path, metavar="FOLDER", help="a store that isn't served")
    seed = command("seed", _seed, "put a store into Redis, for the services that share its stream")
    seed.add_argument("config", type=Path, metavar="CONFIG", help="a configuration with a table 'redis'")
    return parser


def _init(arguments: argparse.Namespace) -> int:
    try:
        lines = sys.stdin.read().splitlines()
    except UnicodeDecodeError as error:
        raise Failed(f"standard input: {error}") from error
    length = stores.init(arguments.folder, arguments.mapping, [line for line in lines if line])
    print(f"published {length}")
    return 0


def _run(arguments: argparse.Namespace) -> int:
    return serve(arguments.config)


def _check(arguments: argparse.Namespace) -> int:
    look_at(arguments.config)
    print(f"{arguments.config}: taken; neither the store nor the places to listen were looked at")
    return 0


def _verify(arguments: argparse.Namespace) -> int:
    return _say_state(stores.verified(arguments.where))


def _backup(arguments: argparse.Namespace) -> int:
    return _say_state(stores.backup(arguments.folder, arguments.file))


def _restore(arguments: argparse.Namespace) -> int:
    return _say_state(stores.restore(arguments.file, arguments.folder))


def _downgrade(arguments: argparse.Namespace) -> int:
    return _say_state(stores.downgrade(arguments.folder))


def _seed(arguments: argparse.Namespace) -> int:
    return _say_state(seed(read_config(arguments.config)))


def _say_state(state: Loaded) -> int:
    """Says how far a store goes, and returns the status."""
    print(f"epoch {state.epoch}, line {state.last.number}, published {state.tree.length}")
    return 0
