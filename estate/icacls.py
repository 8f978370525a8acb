"""Changes as a file for `icacls FOLDER /restore FILE`."""

import re

from errors import Stopped
from others import put_back, whole_of
from paths import Path, spelled
from script import Change, Script
from sddl import parts_of
from table import Table, plural
from atomic_file import atomic_file

#: What no name has on Windows.
_NOT_IN_NAMES = re.compile(r'[\x00-\x1f\x7f<>:"/\\|?*]')


def write_icacls(script: Script, name: str, folder: str, is_old: bool, table: Table) -> int:
    """Writes a line with the path and one with the DACL for each node that changes, in UTF-16 without a byte order
    mark; if `is_old` the DACLs that were read. `folder` is the root's path in the file. Stopped if a change can't be
    said so; otherwise returns how many nodes change."""
    changes = script.changes()
    stops, with_excluded = 0, {path[:-1] for path in script.excluded}
    for change in changes:
        why = _why_not(script, change, with_excluded)
        if why is not None:
            stops += 1
            table.row("stop", {"path": spelled(change.path), "why": why})
    if stops:
        raise Stopped(f"{plural(stops, 'node')} can't be written so: nothing is written")
    with atomic_file(name) as file:
        for change in changes:
            path = "\\".join([folder, *(part.decode() for part in change.path)])
            file.write(f"{path}\r\n{_dacl(change, is_old)}\r\n".encode("utf-16-le"))
    return len(changes)


def _dacl(change: Change, is_old: bool) -> str:
    """The DACL before or after a change, with all its entries. A ValueError says why there is no text."""
    text = change.read if is_old else change.after
    if change.whole:
        whole = whole_of(change.whole)
        text = (whole if is_old else put_back(whole, change.before, change.after)).without_bits()[0]
    return text[text.index("D:") :]


def _why_not(script: Script, change: Change, with_excluded: set[Path]) -> str | None:
    before, after = parts_of(change.before), parts_of(change.after)
    if (before.owner, before.group) != (after.owner, after.group):
        return "its owner or group changes, which icacls /restore doesn't set"
    if any(_NOT_IN_NAMES.search(name.decode()) for name in change.path):
        return "its path has a character that no name has on Windows"
    if change.is_passed_down and script.nodes[change.path].left_out:
        return "its files have no lines, and would keep their entries: read without --folders"
    if change.is_passed_down and change.path in with_excluded:
        return "what --exclude left out of it has no lines, and would keep its entries: read without --exclude"
    if change.dropped:
        return "it would lose entries of other types that it inherited"
    try:
        _dacl(change, False)
    except ValueError as error:
        return f"it has entries of other types: {error}"
    return None
