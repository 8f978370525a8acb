"""Questions about what was read, which the program sdstore answers."""

import json
import os
import re
import shutil
import subprocess
from collections.abc import Iterable, Iterator
from dataclasses import dataclass
from pathlib import Path as File
from typing import Any

from hudarin import Refused, Sid

from errors import Failed, Invalid
from forms import whole_in
from gaps import HIDDEN
from paths import Path, parsed, spelled
from script import Script
from table import Table, plural
from volumes import Volume, text_of

#: Where the program is: of a checkout what ./sdstore builds, of an installation the one beside this.
_HERE = File(__file__).resolve().parent
_PROGRAMS = (_HERE.parent / "crates/sdstore/out/sdstore", _HERE.parents[2] / "bin/sdstore")

#: What is one word of a line of a script.
_WORD = re.compile(r"[!-~]+")
#: The answers of `verdict` to what was asked: another one says what of that isn't understood.
_VERDICTS = ("granted", "denied", "reserved", "empty")
#: The kinds of lines of `compare` about what would be made in a folder, which is no node of the script; and `same`.
_OF_NO_NODE = ("gained below", "lost below", "nothing inherited", "no longer protected", "now protected", "same")


def program() -> str:
    """The path of sdstore: that of the environment variable SDSTORE, or where it was built or installed."""
    named = os.environ.get("SDSTORE")
    if named:
        return named
    for each in _PROGRAMS:
        if each.exists():
            return str(each)
    found = shutil.which("sdstore")
    if found is None:
        raise Failed("the program sdstore isn't found: SDSTORE names it")
    return found


def _ran(words: list[str], lines: Iterable[str] = ()) -> str:
    """What the program prints for its arguments and the lines of its input."""
    text = "".join(f"{line}\n" for line in lines)
    try:
        asked = subprocess.run([program(), *words], input=text, capture_output=True, encoding="utf-8")
    except OSError as error:
        raise Failed(f"{program()}: {error.strerror}") from error
    if asked.returncode == 2:
        raise Invalid(asked.stderr.strip())
    if asked.returncode not in (0, 1):
        raise Failed(f"sdstore: {asked.stderr.strip() or asked.returncode}")
    return asked.stdout


def _each(words: list[str], texts: Iterable[str], options: list[str], end: str = "\n\n") -> dict[str, list[str]]:
    """The lines that a command of `sdstore each` answers about each text, of which it is asked once; `end` follows each
    answer. No text is an option of the program: each is a line of its input."""
    distinct = list(dict.fromkeys(texts))
    said = _ran([*options, "each", *words], distinct) if distinct else ""
    answers = said.removesuffix(end).split(end) if said else []
    if len(answers) != len(distinct):
        raise Failed(f"{program()}: {plural(len(answers), 'answer')} to {len(distinct)}: it is no sdstore of this version")
    return dict(zip(distinct, (answer.split("\n") for answer in answers)))


def _each_object(
    words: list[str], texts: Iterable[str], options: tuple[str, ...] = (), end: str = '\n{"text":""}\n'
) -> dict[str, list[dict[str, Any]]]:
    """The same as the objects of `--json`."""
    answers = _each(words, texts, ["--json", *options], end)
    try:
        return {text: list(map(json.loads, lines)) for text, lines in answers.items()}
    except ValueError as error:
        raise Failed(f"{program()}: {error}: it is no sdstore of this version") from error


def _require(command: str, line: dict[str, Any], kinds: tuple[str, ...]) -> None:
    """Invalid: the line is of none of these kinds, but says which fault the command found."""
    if line.get("answer") not in kinds:
        raise Invalid(f"sdstore {command}: {' '.join(map(str, line.values()))}")


def lint(script: Script, table: Table) -> int:
    """A row for each finding of `sdstore --risks lint` about a node, as the tree is after the changes of the script,
    and how many there are."""
    findings = findings_of(text for _, text in script.described(()))
    count = 0
    for path, text in script.described(()):
        for finding in findings[text]:
            table.row("lint", {"path": spelled(path), "finding": finding})
            count += 1
    return count


def findings_of(texts: Iterable[str]) -> dict[str, list[str]]:
    """What `sdstore --risks lint` finds about each text."""
    found = _each(["lint"], texts, ["--risks"])
    return {text: [line for line in lines if line != "clean"] for text, lines in found.items()}


def kinds_of_findings(texts: Iterable[str]) -> dict[str, list[str]]:
    """The kind of each of them, as docs/JSON.md names it."""
    found = _each_object(["lint"], texts, ("--risks",))
    return {text: [line["answer"] for line in lines if line["answer"] != "clean"] for text, lines in found.items()}


# Groups that nobody gives


#: What a file server gives each authenticated user, Everyone and Authenticated Users; and Anonymous, who is none.
_ASSUMED = ("S-1-1-0", "S-1-5-11")
_ANONYMOUS = "S-1-5-7"
#: The states of a SID that is no group of the user.
_OF_OTHERS = ("restrict", "device")


def assumed_groups(words: Iterable[str], only_given: bool, table: Table) -> list[str]:
    """The groups that a user of these arguments has on a file server besides, and a row that says so: none of
    Anonymous, and none that an argument has already, as one for denies alone."""
    sids = [_full(sid) for sid, _, state in (word.partition("=") for word in words) if state not in _OF_OTHERS]
    assumed = [] if only_given or _ANONYMOUS in sids else [sid for sid in _ASSUMED if sid not in sids]
    table.row("assumed", {"groups": " ".join(assumed) or "none"})
    return assumed


def _full(text: str) -> str:
    try:
        return Sid.from_text(text).full
    except Refused:
        return text


# Who may do what


@dataclass(frozen=True, slots=True)
class Grant:
    """Rights of every user who has a SID, or of "everyone" or "nobody", unless the user has a SID of `unless`."""

    rights: int
    to: str
    is_owner: bool
    unless: tuple[str, ...]


def who(script: Script, path: Path, words: list[str], table: Table) -> int:
    """A row for each line of `sdstore who` about a node, as the tree is after the changes of the script, and how many
    there are."""
    _require_words(words)
    lines = _ran(["--json", "who", "--", script.descriptor(path), *words]).splitlines()
    grants = list(map(_grant, map(json.loads, lines)))
    for grant in grants:
        to = f"{grant.to} as the owner" if grant.is_owner else grant.to
        cells = {"path": spelled(path), "rights": f"{grant.rights:#x}", "to": to}
        table.row("who", cells | ({"unless": " ".join(grant.unless)} if grant.unless else {}))
    return len(grants)


def grants_of(texts: Iterable[str], rights: int) -> dict[str, list[Grant]]:
    """What `sdstore who` answers about each text, of all users."""
    answers = _each_object(["who", f"{rights:#x}"], texts)
    return {text: list(map(_grant, lines)) for text, lines in answers.items()}


def _grant(line: dict[str, Any]) -> Grant:
    _require("who", line, ("who",))
    return Grant(int(line["mask"], 16), line["to"], "as" in line, tuple(line.get("unless", ())))


# What a change grants and takes away


@dataclass(frozen=True, slots=True)
class Difference:
    """Rights that a user gains or loses: `by` is the user and what the user has, as arguments of `sdstore verdict`."""

    is_gain: bool
    rights: int
    by: str


def review(script: Script, path_text: str, words: list[str], table: Table) -> int:
    """A row for each difference at and below a path, and how many nodes have one."""
    top = node_of(script, path_text)
    count = 0
    for path, differences in reviewed(script, words):
        if path[: len(top)] == top:
            count += 1
            for each in differences:
                cells = {"path": spelled(path), "rights": f"{each.rights:#x}", "by": each.by}
                table.row("gained" if each.is_gain else "lost", cells)
    return count


def reviewed(script: Script, words: list[str]) -> Iterator[tuple[Path, list[Difference]]]:
    """Each node on which a user gains or loses rights, by `sdstore compare`, in the order of the paths."""
    pairs = {change.path: f"{change.before}\t{change.after}" for change in script.changes()}
    answers = _each_object(["--pairs", "compare", "--", *words], pairs.values())
    for path, pair in pairs.items():
        lines = [line for line in answers[pair] if line.get("answer") not in _OF_NO_NODE]
        if lines:
            yield path, list(map(_difference, lines))


def _difference(line: dict[str, Any]) -> Difference:
    _require("compare", line, ("gained", "lost"))
    return Difference(line["answer"] == "gained", int(line["mask"], 16), " ".join([line["by"], *line.get("with", ())]))


# Where a user may do something


def find(script: Script, top: Path, words: list[str], table: Table) -> int:
    """A row for each node at and below a path that grants a user the rights, as the tree is after the changes of the
    script, by `sdstore verdict`; and how many there are."""
    _require_words(words)
    texts = (text for _, text in script.described(top))
    answers = _each_object(["verdict", "--", *words], texts, end="\n")
    for line, *_ in answers.values():
        _require("find", line, _VERDICTS)
    found = [path for path, text in script.described(top) if answers[text][0]["answer"] == "granted"]
    for path in found:
        table.row("found", {"path": spelled(path)})
    return len(found)


def _require_words(words: Iterable[str]) -> None:
    """Invalid if one isn't a word of a line, or an argument, of the program."""
    for word in words:
        if not _WORD.fullmatch(word):
            raise Invalid(f"{word!a}: not an argument")


def node_of(script: Script, path_text: str) -> Path:
    """The path that the text spells, of a node of the script."""
    path = _path_of(path_text)
    if path not in script.nodes:
        whys = [gap.why for gap in script.gaps if gap.what in HIDDEN and path[: len(gap.path)] == gap.path]
        raise Invalid(f"{path_text}: the script has no such node{''.join(f': {why}' for why in whys)}")
    return path


def _path_of(text: str) -> Path:
    try:
        return parsed(text)
    except ValueError as error:
        raise Invalid(f"{text}: {error}") from error


# Whether a node of a volume grants a user rights


def text_on(volume: Volume, path_text: str) -> str:
    """All that the descriptor of a node of the volume has, in SDDL. The bits of its header that have no text decide
    nothing."""
    path = _path_of(path_text)
    try:
        with volume.node(path) as node:
            return whole_in(volume.attribute, node.read()).without_bits()[0]
    except OSError as error:
        raise Failed(f"{path_text}: {text_of(error)}") from error
    except ValueError as error:
        raise Invalid(f"{path_text}: its descriptor isn't supported: {error}") from error


def why(descriptor: str, path_text: str, words: list[str], table: Table) -> bool:
    """A row for each line of `sdstore --whole why` about the descriptor of a node, and whether the rights are granted:
    by object entries, conditions and the label too."""
    is_granted, lines = _reasons(descriptor, words)
    for line in lines:
        table.row("why", {"path": spelled(_path_of(path_text)), "reason": line})
    return is_granted


def is_granted_by(share: str, words: list[str], table: Table) -> bool:
    """A row for each such line about the descriptor of a share, and whether it grants the rights."""
    _require_words(words)
    is_granted, lines = _reasons(share, words)
    for line in lines:
        table.row("share", {"reason": line})
    return is_granted


def _reasons(descriptor: str, words: list[str]) -> tuple[bool, list[str]]:
    lines = _ran(["--whole", "--stdin", "why", "--", *words], [descriptor]).splitlines()
    verdict = lines[0].split(" ")[0] if lines else ""
    if verdict not in ("granted", "denied"):
        raise Invalid(f"sdstore why: {' '.join(lines)}")
    return verdict == "granted", lines
