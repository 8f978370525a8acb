"""`estate report`: one HTML file with the folders of a script and what its changes grant and take away, that loads
nothing and opens anywhere."""

import base64
import hashlib
import html
import json
import os
import time
from collections.abc import Iterable, Iterator
from dataclasses import dataclass, field
from pathlib import Path as File
from typing import Any, BinaryIO

from hudarin import Sid, mask

from gaps import Gap
from matrix import Matrix
from names import WELL_KNOWN
from numbering import Numbers
from paths import spelled
from questions import Difference, Grant, findings_of, grants_of, kinds_of_findings, reviewed
from rights import NAMED, in_words
from script import Script
from sddl import Entry, Parts, parts_of
from table import plural, safe
from atomic_file import atomic_file

_HERE = File(__file__).resolve().parent
#: What is asked about each node, in the order in which the page shows it: read, write, change permissions.
_ASKED = (0x1, 0x2, 0x40000)
#: The findings that open a node to many, and those that nobody need hurry to mend; any other is doubtful.
_KINDS = {"no DACL": "null", "null DACL": "null", "risky grant": "risk", "risky grant below": "risk"}
_KINDS |= dict.fromkeys(("no right", "not inherited", "repeated", "no effect"), "tidy")
#: The parts of the page's script, in their order.
_SCRIPT = ("report", "changes", "start")
_JSON = json.JSONEncoder(separators=(",", ":"))


@dataclass(slots=True)
class Report:
    """The data of a report, by numbers of SIDs and lists: most nodes have the same."""

    script: Script
    names: dict[str, str]
    #: What users are granted where, if there is a file of accounts.
    matrix: Matrix | None = None
    _sids: Numbers = field(default_factory=Numbers)
    _lists: dict[str, int] = field(default_factory=dict)
    _made: list[list[Any]] = field(default_factory=list)
    _accesses: Numbers = field(default_factory=Numbers)

    def write(self, name: str, title: str, source: str) -> int:
        """Writes the report on the source, and returns how many nodes it has."""
        before, after = self._page(title)
        with atomic_file(name) as file:
            file.write(before)
            self._write_data(file, source)
            file.write(after)
        return len(self.script.nodes)

    def _write_data(self, file: BinaryIO, source: str) -> None:
        """The nodes come first, each as it is made, and then what they name by numbers."""
        for number, node in enumerate(self._nodes()):
            file.write((b"," if number else b'{"nodes":[') + _inside(node))
        file.write(b"]," + _inside(self._others(source))[1:])

    def _others(self, source: str) -> dict[str, Any]:
        folders = sum(node.is_container for node in self.script.nodes.values())
        counts = {"folder": folders, "file": len(self.script.nodes) - folders}
        said = [plural(count, what) for what, count in counts.items()]
        about = self.script.covered(())
        changes = self._changes()
        data: dict[str, Any] = {
            "made": f"Made {_now()} of {safe(source)}",
            "named": bool(self.names),
            "sum": f"{', '.join(said)}: {about.text}",
            "lists": self._made,
            "accesses": list(self._accesses.numbers),
            "changed": len(self.script.changes()),
            "changes": changes,
            "gaps": [self._gap(gap) for gap in about.gaps if gap.what != "files"],
            "sids": self._named(),
        }
        if self.matrix is not None:
            data["people"] = self.matrix.page()
        return data

    def _gap(self, gap: Gap) -> list[Any]:
        """The number of its node, or -1 if the script has none, its path, and what there is to say of it. Files without
        a line are a mark of their folder."""
        number = self.script.number_of(gap.path) if gap.path in self.script.nodes else -1
        return [number, spelled(gap.path), gap.text]

    def _nodes(self) -> Iterator[list[Any]]:
        texts = list(dict.fromkeys(text for _, text in self.script.described(())))
        findings = _findings(texts)
        grants = [grants_of(texts, rights) for rights in _ASKED]
        differing = {gap.path: gap.why for gap in self.script.gaps if gap.what == "differs"}
        known: dict[str, tuple[int, int, int, int]] = {}
        for path, text in self.script.described(()):
            if text not in known:
                known[text] = self._numbered(text, [each[text] for each in grants], findings[text])
            *shown, access = known[text]
            node, label = self.script.nodes[path], safe(path[-1].decode()) if path else ""
            shape = [len(path), label, int(node.is_container)]
            yield [*shape, *shown, node.left_out, access, differing.get(path, "")]

    def _numbered(
        self, text: str, grants: list[list[Grant]], findings: list[tuple[str, str]]
    ) -> tuple[int, int, int, int]:
        """The numbers of a descriptor's owner, group and list, and of what it grants."""
        parts = parts_of(text)
        owners = self._sid(parts.owner), self._sid(parts.group)
        access = self._accesses.of(tuple(tuple(map(self._grant, each)) for each in grants))
        return *owners, self._list(text, parts, findings), access

    def _grant(self, grant: Grant) -> tuple[Any, ...]:
        return self._subject(grant.to), int(grant.is_owner), tuple(map(self._subject, grant.unless))

    def _subject(self, text: str) -> int | str:
        """The number of a SID, or a word such as "everyone"."""
        return self._sid(text) if text.startswith("S-1-") else text

    def _changes(self) -> list[list[Any]]:
        """For each node on which somebody gains or loses rights its number, and each difference."""
        found = reviewed(self.script, [])
        return [[self.script.number_of(path), list(map(self._difference, each))] for path, each in found]

    def _difference(self, difference: Difference) -> list[Any]:
        words = [word.partition("=") for word in difference.by.split(" ")]
        by = [[self._subject(who), state] for who, _, state in words]
        return [int(difference.is_gain), in_words(difference.rights), by]

    def _sid(self, text: str) -> int:
        return self._sids.of(Sid.from_text(text).full)

    def _named(self) -> list[list[str]]:
        return [[sid, safe(self.names.get(sid, WELL_KNOWN.get(sid, "")))] for sid in self._sids.numbers]

    def _list(self, text: str, parts: Parts, findings: list[tuple[str, str]]) -> int:
        number = self._lists.get(text)
        if number is None:
            number = self._lists[text] = len(self._made)
            kind = 2 if parts.entries is None else int(parts.is_protected)
            self._made.append([kind, [self._entry(entry) for entry in parts.entries or ()], findings])
        return number

    def _entry(self, entry: Entry) -> list[Any]:
        rights, _, _, sid = entry.rest.split(";")
        bits = mask(rights)
        named = NAMED.get(bits, f"{rights} ({bits:#x})" if not rights.startswith("0x") else rights)
        return [int(entry.kind == "D"), named, _applies(entry), int(entry.is_inherited), self._sid(sid)]

    def _page(self, title: str) -> tuple[bytes, bytes]:
        """The page before its data and after it."""
        more = () if self.matrix is None else ("matrix",)
        style, script = _joined(("report", *more), "css"), _joined((*_SCRIPT, *more), "js")
        page = (_HERE / "report.html").read_text("utf-8")
        digest = base64.b64encode(hashlib.sha256(script.encode()).digest()).decode()
        values = {"hash": f"sha256-{digest}", "title": html.escape(safe(title)), "style": style, "script": script}
        before, after = page.split("@data@")
        for key, value in values.items():
            before, after = before.replace(f"@{key}@", value), after.replace(f"@{key}@", value)
        return before.encode(), after.encode()


def _inside(data: Any) -> bytes:
    """The data for an element of the page, which '<' would end wherever it is."""
    return _JSON.encode(data).replace("<", "\\u003c").encode()


def _joined(parts: tuple[str, ...], kind: str) -> str:
    """The files of this kind, one after the other."""
    return "".join((_HERE / f"{part}.{kind}").read_text("utf-8") for part in parts)


def _findings(texts: Iterable[str]) -> dict[str, list[tuple[str, str]]]:
    """What is found about each text: as what, and in words."""
    distinct = list(dict.fromkeys(texts))
    said, kinds = findings_of(distinct), kinds_of_findings(distinct)
    grave = {text: [_KINDS.get(kind, "doubtful") for kind in found] for text, found in kinds.items()}
    return {text: list(zip(grave[text], said[text], strict=True)) for text in distinct}


def _now() -> str:
    """The time, or that of SOURCE_DATE_EPOCH, by which what is made twice has the same bytes."""
    seconds = os.environ.get("SOURCE_DATE_EPOCH", "")
    return time.strftime("%Y-%m-%d %H:%M UTC", time.gmtime(int(seconds) if seconds.isdecimal() else None))


def _applies(entry: Entry) -> str:
    """To what an entry applies, in words."""
    flags = set(entry.flags)
    targets = [] if "IO" in flags else ["this"]
    targets += ["folders"] if "CI" in flags else []
    targets += ["files"] if "OI" in flags else []
    deep = ", one level down" if "NP" in flags else ""
    return (" and ".join([", ".join(targets[:-1]), targets[-1]]) if len(targets) > 1 else "".join(targets)) + deep
