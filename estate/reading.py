"""`estate read`: the nodes of a source as a script, and a table of what the script doesn't say as it is."""

from collections.abc import Iterable, Mapping
from dataclasses import dataclass, field
from typing import BinaryIO

from errors import Invalid
from found import Found
from gaps import Gap, end_of
from inheritance import Chain, Given, Inheritance, TooMuch
from limits import BY_HAND, MAX_NODES
from others import Kept
from paths import Path, fault_of, spelled
from progress import Progress
from sddl import Parts, parts_of
from table import Cell, Table


@dataclass(slots=True)
class Counts:
    """What was found, and what became of it."""

    nodes: int = 0
    skipped: int = 0
    excluded: int = 0
    differing: int = 0
    #: Nodes that keep what they had inherited elsewhere.
    stored: int = 0
    left_out: int = 0
    sacls: int = 0
    #: Further names of files.
    linked: int = 0
    #: Folders whose content couldn't be listed.
    unlisted: int = 0
    lines: int = 0
    bytes: int = 0


@dataclass(slots=True)
class _Folder:
    """A folder on the way to the node that is visited: what it and those above were given, its descriptor in the tree,
    and how many of its files have no line."""

    path: Path
    chain: Chain
    text: str
    files: int = 0


@dataclass(slots=True)
class _Hidden:
    """A folder without a line: nothing in it has one either."""

    found: Found
    why: str
    below: int = 0


@dataclass(slots=True)
class Reading:
    """One run over a source. The script is right only if `run` returns."""

    script: BinaryIO
    table: Table
    folders_only: bool
    counts: Counts = field(default_factory=Counts)
    _inheritance: Inheritance = field(default_factory=Inheritance)
    _above: list[_Folder] = field(default_factory=list)
    _hidden: _Hidden | None = None
    _gap_count: int = 0

    def run(self, source: Iterable[Found], progress: Progress) -> Counts:
        """Writes the script: the root first, and each node after its folder. Invalid if no tree has the nodes."""
        self._write("# Read by estate. Nodes: open, import, addc and addo; changes of descriptors may follow the last line.")
        self._write(f"# {BY_HAND}")
        for found in source:
            progress.step()
            self.counts.nodes += 1
            self.counts.sacls += found.kept is not None and found.kept.has_sacl
            if not self._is_hidden(found.path):
                self._leave(found.path)
                self._visit(found)
            elif found.unlisted is not None:
                self._say_unlisted(found.path, found.unlisted)
        self._end_hidden()
        self._leave(None)
        self._write(end_of(self._gap_count))
        self._write("publish")
        return self.counts

    # Each node

    def _visit(self, found: Found) -> None:
        if found.first_name is not None:
            self.counts.linked += 1
            self.table.row("linked", {"path": spelled(found.path), "first": spelled(found.first_name)})
        if found.unlisted is not None:
            self._say_unlisted(found.path, found.unlisted)
        kept, why = found.kept, found.why or fault_of(found.path)
        if kept is None or why is not None:
            self._skip(found, why or "")
            return
        try:
            parts = parts_of(kept.text)
        except ValueError as error:
            self._skip(found, f"its descriptor isn't supported: {error}")
            return
        if found.path:
            self._import(found, kept, parts)
        else:
            self._open(kept, parts)

    def _open(self, kept: Kept, parts: Parts) -> None:
        given = Given(parts.as_root.own)
        text = self._inheritance.root(given)
        self._above.append(_Folder((), (given,), text))
        self._write_node(f"open 1 {given.words}")
        self._compare((), kept, parts.as_root, parts_of(text))

    def _import(self, found: Found, kept: Kept, parts: Parts) -> None:
        above = self._above[-1]
        try:
            given, text = self._given(above, parts, found.is_container)
        except TooMuch as refused:
            self._skip(found, f"the tree refuses it: {refused}")
            return
        if self.folders_only and not found.is_container and self._is_passed_down(kept, parts, given, text):
            above.files += 1
            self.counts.left_out += 1
            return
        self._write_node(_line_of(found, parts, given))
        self.counts.stored += bool(given.kept)
        self._compare(found.path, kept, parts, parts_of(text))
        if found.is_container:
            self._above.append(_Folder(found.path, (*above.chain, given), text))

    def _given(self, above: _Folder, parts: Parts, is_container: bool) -> tuple[Given, str]:
        """What makes the node in the tree, and its descriptor there. One that inherited otherwise than its folder
        passes down keeps that with what its folder offers, until that offers other entries."""
        given = Given(parts.own)
        text = self._inheritance.child(above.chain, above.text, given, is_container)
        if parts.inherits and parts.inherited != parts_of(text).inherited:
            offer = parts_of(self._inheritance.offer(above.chain, above.text, is_container)).kept
            given = Given(parts.own, parts.kept, offer)
            text = self._inheritance.child(above.chain, above.text, given, is_container)
        return given, text

    def _is_passed_down(self, kept: Kept, parts: Parts, given: Given, tree: str) -> bool:
        is_alike = not given.kept and parts.dacl == parts_of(tree).dacl
        return not kept.whole and parts.has_no_own and is_alike

    def _compare(self, path: Path, kept: Kept, source: Parts, tree: Parts) -> None:
        """A row, if the tree has another DACL for the node than the source."""
        whys = [f"entries of other types are kept beside the tree: {kept.first}"] if kept.whole else []
        if source.is_absent:
            whys.append("it has no DACL, which grants everything: so does the null one of the script")
        elif source.inherited != tree.inherited:
            whys.append("it is protected, and has inherited entries")
        elif source.dacl != tree.dacl:
            whys.append("its own entries are in another order: the script has denies first")
        if whys:
            self.counts.differing += 1
            gap = Gap("differs", path, "; ".join(whys), whole=kept.whole)
            self._say(gap, {"source": kept.whole or source.text, "tree": tree.text})

    # Nodes without a line

    def _skip(self, found: Found, why: str) -> None:
        if not found.path:
            raise Invalid(f"the folder itself can't be the root of a tree: {why}; --root gives it a descriptor")
        if found.is_container:
            self._hidden = _Hidden(found, why)
        else:
            self._row_of_hidden(_Hidden(found, why))

    def _is_hidden(self, path: Path) -> bool:
        hidden = self._hidden
        if hidden is not None and path[: len(hidden.found.path)] == hidden.found.path:
            hidden.below += 1
            return True
        self._end_hidden()
        return False

    def _end_hidden(self) -> None:
        if self._hidden is not None:
            self._row_of_hidden(self._hidden)
            self._hidden = None

    def _row_of_hidden(self, hidden: _Hidden) -> None:
        gap = Gap("excluded" if hidden.found.is_excluded else "skipped", hidden.found.path, hidden.why, hidden.below)
        if hidden.found.is_excluded:
            self.counts.excluded += gap.nodes
        else:
            self.counts.skipped += gap.nodes
        self._say(gap)

    # The script

    def _leave(self, path: Path | None) -> None:
        """Leaves each folder in which the node of the path isn't."""
        while self._above and (path is None or path[: len(self._above[-1].path)] != self._above[-1].path):
            folder = self._above.pop()
            if folder.files:
                self._say(Gap("files", folder.path, count=folder.files))

    def _say_unlisted(self, path: Path, why: str) -> None:
        """A row for a folder, also where it has no line: nobody knows how many nodes are in it."""
        self.counts.unlisted += 1
        self._say(Gap("unlisted", path, why))

    def _say(self, gap: Gap, more: Mapping[str, Cell] | None = None) -> None:
        """A row of the table, and the same in the script, which has the descriptors of `more` already."""
        self._gap_count += 1
        self.table.row(gap.what, {**gap.cells, **(more or {})})
        self._write(gap.comment)

    def _write_node(self, line: str) -> None:
        self.counts.lines += 1
        if self.counts.lines > MAX_NODES:
            raise Invalid(
                f"more than {MAX_NODES:,} nodes, which is what fits: read its folders alone by --folders, "
                "each part of it by itself, or without some of it by --exclude; nothing is written"
            )
        self._write(line)

    def _write(self, line: str) -> None:
        data = line.encode("ascii") + b"\n"
        self.counts.bytes += len(data)
        self.script.write(data)


def _line_of(found: Found, parts: Parts, given: Given) -> str:
    """The line that makes the node."""
    path = spelled(found.path)
    if given.kept:
        return f"{'addc' if found.is_container else 'addo'} {path} {given.words}"
    return f"import {'container' if found.is_container else 'object'} {path} {parts.text}"
