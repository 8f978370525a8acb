#!/usr/bin/env python3
"""Answers with `--json` beside those without: `objects.py PROGRAM`. The last line is 'N passed, M failed'.

Each row of tests/ whose command takes `--json`, and whose input has less than 64 KiB, is run with it and without:
its status and its standard error are the same, and each line of its output is made again from its object, by the forms
of tests/forms.py; tests/rows validates the object. Keys of all bytes are tried beside them.
"""
import importlib.machinery
import importlib.util
import json
import subprocess
import sys
from concurrent.futures import ThreadPoolExecutor
from pathlib import Path

TOP = Path(__file__).resolve().parents[2]
sys.path.append(str(TOP / "tests"))
from forms import line_of, wordings  # noqa: E402
from tally import close, holds  # noqa: E402

PROGRAM = sys.argv[1]
COMMANDS = (
    "verdict why types who compare lint print sort tobin frombin show diff replace remove protect unprotect "
    "create inherit stale rights sid each script serve audit"
).split()


def load(path):
    """A file of Python whose name has no ending."""
    name = path.replace("/", "_")
    loader = importlib.machinery.SourceFileLoader(name, str(TOP / path))
    module = importlib.util.module_from_spec(importlib.util.spec_from_loader(name, loader))
    sys.modules[name] = module
    loader.exec_module(module)
    return module


ROWS = load("tests/rows")


def named(members):
    """The members as a text has them: the names, each after its SID, stand in the places of SIDs but a user's."""
    shown = dict(pair.split(" ", 1) for pair in members.pop("names", []))
    spelled = {sid: f'"{name}"' if " " in name else name for sid, name in shown.items()}

    def of(value):
        sid, sign, state = value.partition("=")
        return spelled.get(sid, sid) + sign + state

    return {name: value if name == "user" or type(value) is int else [of(each) for each in value]
            if type(value) is list else of(value) for name, value in members.items()}


def lines_again(object_):
    """The lines that an object may have been made of: one, but for parts of entries that have the same names."""
    members = dict(object_)
    tag = "".join(members.pop(name) + end for name, end in (("key", "\t"), ("id", " ")) if name in members)
    if "text" in members:
        assert list(members) == ["text"]
        return [tag + members["text"]]
    members = named(members)
    kind = members.pop("answer")
    words = wordings(kind, tuple(members))
    assert words, "no line of this kind has these values"
    return [tag + line_of(each, members) for each in words]


def is_made_of(object_, line):
    """Whether a line is made again from its object, in which bytes that are no UTF-8 are surrogates."""
    return any(again.encode("utf-8", "surrogateescape") == line for again in lines_again(json.loads(object_)))


def are_made_of(objects, output):
    """Whether each line of an output is made again from its object."""
    assert objects.endswith(b"\n") or not objects
    found = objects.decode("ascii" if objects.isascii() else "utf-8").split("\n")[:-1]
    lines = output.split(b"\n")
    return lines.pop() == b"" and len(found) == len(lines) and all(map(is_made_of, found, lines))


def run(arguments, input_):
    return subprocess.run([PROGRAM, *arguments], input=input_, capture_output=True, timeout=120)


def compare(arguments, input_):
    """What differs between an answer and the one that its objects make again, or an object outside of the schema."""
    plain = run(arguments, input_)
    shown = run(["--json", *arguments], input_)
    if plain.returncode == shown.returncode == 2 and plain.stdout == shown.stdout:
        return None
    try:
        same = (shown.returncode, shown.stderr) == (plain.returncode, plain.stderr)
        if same and are_made_of(shown.stdout, plain.stdout):
            return "".join(ROWS.outside(shown.stdout)[:1])
    except (AssertionError, KeyError, ValueError) as error:
        return "%s: %r: %r" % (arguments, error, shown.stdout[:300])
    return "%s: %r, not %r" % (arguments, (shown.returncode, shown.stdout[:300]), (plain.returncode, plain.stdout[:300]))


def takes_json(arguments):
    """Whether a command that takes the option comes after the other options, and isn't asked for its help."""
    if arguments[1:] in ([b"-h"], [b"--help"]):
        return False
    words = iter(word.decode("utf-8", "replace") for word in arguments)
    for word in words:
        if word in ("--accounts", "--domain", "--logon", "--mapping", "--nodes", "--edits"):
            next(words, None)
        elif word == "--json" or not word.startswith("--"):
            return word in COMMANDS
    return False


def cases():
    for path in sorted((TOP / "tests").rglob("*.rows")):
        found, rejected = ROWS.read(path)
        assert not rejected, rejected
        yield from ((row.arguments, row.input) for row in found if takes_json(row.arguments) and len(row.input) < 0x1_0000)
    for byte in set(range(256)) - {9, 10}:
        yield [b"each", b"--key", b"print"], bytes([byte]) + b"\tO:BA\n" + b"\xc3\xa9" + bytes([byte]) + b"\tO:XX\n"


def main():
    with ThreadPoolExecutor() as processors:
        for found in processors.map(lambda case: compare(*case), cases()):
            holds("objects.py", not found, found)
    return close()


sys.exit(main())
