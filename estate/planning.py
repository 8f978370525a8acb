"""What a write to a volume would do: a step for each node that changes, or why it isn't safe."""

from collections.abc import Iterator
from dataclasses import dataclass, field

from forms import kept_in, replaced
from inheritance import Chain, Given, Inheritance, TooMuch
from journal import Step
from others import FOR_CHILDREN, INHERITED, Kept, others_of
from paths import Path, spelled
from script import Change, Script, chain_of
from sddl import Parts, parts_of
from table import Table
from volumes import FOLDERS, Volume, text_of


@dataclass(frozen=True, slots=True)
class Leave:
    """What doesn't stop a write: nodes whose lists aren't those of the tree, which are replaced; and nodes without a
    line, which are left as they are."""

    replaces_differing: bool = False
    leaves_unread: bool = False


@dataclass(slots=True)
class Plan:
    """The steps of a write, and how many nodes forbid it, each of which has a row in the table."""

    script: Script
    volume: Volume
    table: Table
    leave: Leave
    steps: list[Step] = field(default_factory=list)
    stops: int = 0
    #: How many nodes stay as they are, though the script's changes are about them.
    left: int = 0
    _inheritance: Inheritance = field(default_factory=Inheritance)
    _inodes: dict[int, Step] = field(default_factory=dict)
    #: Folders that lose entries of other types which are for children too.
    _closed: set[Path] = field(default_factory=set)
    _excluded: set[Path] = field(init=False)

    def __post_init__(self) -> None:
        self._excluded = self.script.excluded

    def make(self) -> None:
        for change in self.script.changes():
            try:
                self._plan(change)
            except OSError as error:
                self._stop(change.path, f"it can't be read: {text_of(error)}")
            except ValueError as error:
                self._stop(change.path, f"its descriptor isn't supported: {error}")
            if change.is_container and change.is_passed_down:
                self._plan_files_in(change)
        self._leave_inherited()

    def _plan(self, change: Change) -> None:
        with self.volume.node(change.path) as node:
            blob, inode = node.read(), node.inode
        kept = kept_in(self.volume.attribute, blob)
        has = parts_of(kept.text) if change.path else parts_of(kept.text).as_root
        why = self._why_not(change, kept, has)
        if why is not None:
            self._stop(change.path, why)
            return
        new = replaced(self.volume.attribute, blob, change.before, change.after)
        if _differs(change, has):
            self._say_other(change, has, new)
        self._add(Step(change.path, blob, new), inode)

    def _why_not(self, change: Change, kept: Kept, has: Parts) -> str | None:
        """Why the node can't be written safely, or None."""
        read, after = parts_of(change.read), parts_of(change.after)
        if not change.path and _inherited(kept) and change.is_of_dacl and not after.is_protected:
            return "it inherits from a folder that the script doesn't have: protect it, or read that folder"
        is_as_read = has.text == read.text if change.path else has.own == read.own
        if not is_as_read or kept.whole != change.whole:
            return "its descriptor isn't the one that was read: read it again"
        if change.is_of_dacl and _differs(change, has) and not self.leave.replaces_differing:
            return "it differed from the tree when it was read: --replace-differing replaces its list"
        return None

    def _say_other(self, change: Change, has: Parts, new: bytes) -> None:
        """A row for a node whose list isn't the tree's, so that a review of the script isn't about what is lost."""
        if not change.is_of_dacl:
            self._leave(change.path, "its list isn't the tree's, and the script changes its owner or group", False)
            return
        path = spelled(change.path)
        gets = kept_in(self.volume.attribute, new).whole or change.after
        self.table.row("replaced", {"path": path, "has": change.whole or has.text, "gets": gets})
        if change.dropped:
            entries = "".join(each.text or f"0x{bytes(each).hex()}" for each in change.dropped)
            self.table.row("dropped", {"path": path, "entries": entries})
        if any(each.flags & FOR_CHILDREN for each in change.dropped):
            self._closed.add(change.path)

    def _leave_inherited(self) -> None:
        """A row for each node that keeps entries of other types which its folder loses."""
        for path, node in self.script.nodes.items() if self._closed else ():
            if any(each.flags & INHERITED for each in others_of(node.whole)):
                above = self._closed_above(path)
                if above is not None:
                    why = f"it keeps entries of other types that it inherited, and that {spelled(above)} loses"
                    self._leave(path, why, False)

    def _closed_above(self, path: Path) -> Path | None:
        """The folder above the node from which it inherits what that loses, or None."""
        while path and parts_of(self.script.descriptor(path)).inherits:
            path = path[:-1]
            if path in self._closed:
                return path
        return None

    def _add(self, step: Step, inode: int) -> None:
        other = self._inodes.setdefault(inode, step)
        if other.new != step.new:
            self._stop(step.path, f"it is the file of {spelled(other.path)} too, which gets another descriptor")
        elif step.old != step.new:
            self.steps.append(step)

    # What the script has no line for

    def _plan_files_in(self, change: Change) -> None:
        """Files that --folders left out follow their folder. Anything else without a line was skipped or is new."""
        try:
            names = self.volume.names_in(change.path)
        except OSError as error:
            self._stop(change.path, f"it can't be listed: {text_of(error)}")
            return
        chains: tuple[Chain, Chain] | None = None
        for name, kind in names:
            path = (*change.path, name)
            if path in self.script.nodes:
                continue
            if path in self._excluded:
                self._leave(path, "--exclude left it out of the script", True)
            elif kind == "file":
                chains = chains or self._chains_of(change.path)
                self._plan_file(path, change, chains)
            else:
                self._leave(path, "it has no line in the script", kind in FOLDERS)

    def _chains_of(self, path: Path) -> tuple[Chain, Chain]:
        return chain_of(self.script.before, path), chain_of(self.script.after, path)

    def _plan_file(self, path: Path, folder: Change, chains: tuple[Chain, Chain]) -> None:
        try:
            with self.volume.node(path) as node:
                blob, inode = node.read(), node.inode
            kept = kept_in(self.volume.attribute, blob)
            has = parts_of(kept.text)
            given = Given(has.own)
            before = self._inheritance.child(chains[0], folder.before, given, False)
            after = self._inheritance.child(chains[1], folder.after, given, False)
        except OSError as error:
            self._leave(path, f"it can't be read: {text_of(error)}", True)
        except ValueError as error:
            self._leave(path, f"its descriptor isn't supported: {error}", True)
        except TooMuch as refused:
            self._leave(path, f"the tree refuses it: {refused}", True)
        else:
            if not kept.whole and has.has_no_own and has.dacl == parts_of(before).dacl:
                self._add(Step(path, blob, replaced(self.volume.attribute, blob, before, after)), inode)
            else:
                self._leave(path, "it has no line in the script, and not just what its folder passes down", True)

    def _leave(self, path: Path, why: str, stops: bool) -> None:
        if stops and not self.leave.leaves_unread:
            self._stop(path, f"{why}: read it again, or --leave-unread leaves it as it is")
        else:
            self.left += 1
            self.table.row("left", {"path": spelled(path), "why": why})

    def _stop(self, path: Path, why: str) -> None:
        self.stops += 1
        self.table.row("stop", {"path": spelled(path), "why": why})


def _inherited(kept: Kept) -> bool:
    """Whether some entry is inherited."""
    return bool(parts_of(kept.text).inherited) or any(each.flags & INHERITED for each in others_of(kept.whole))


def _differs(change: Change, has: Parts) -> bool:
    """Whether the node has another DACL than the tree before the change."""
    return bool(change.whole) or has.dacl != parts_of(change.before).dacl
