"""What each command does. Each returns its status."""

import argparse
import dataclasses
import os
from collections.abc import Callable, Iterable

from hudarin import Descriptor, Refused, Sid

import accounts as accounts_file
import exports
import icacls as icacls_file
import people as people_of
import questions
import schema as schema_file
from answers import LEFT_OUT, answered, counts_of, of_users, people_in
from asking import asking_as, is_granted_by_share
from errors import Invalid, Stopped
from exclusion import Exclusion
from forms import Attribute
from gaps import Coverage
from limits import requirement_of
from journal import Journal, Step, locked_journal, write_journal
from matrix import Matrix
from names import read_names
from paths import spelled
from people import require_own_groups
from planning import Leave, Plan
from progress import Progress
from report import Report
from reading import Counts, Reading
from script import Script, read_script
from shares import share_of
from table import Table, plural, say
from texts import Assumed, TextFile
from volumes import Volume
from workbook import is_workbook, require_workbooks
from atomic_file import atomic_file
from writing import Move, apply, backward, check_target, forward

ATTRIBUTES = {"ntfs": Attribute.NTFS, "samba": Attribute.SAMBA, "smb": Attribute.SMB}


def read(arguments: argparse.Namespace, table: Table) -> int:
    """The nodes of a source as a script."""
    root, exclusion = _descriptor("--root", arguments.root), Exclusion(arguments.exclude)
    with atomic_file(arguments.script) as script:
        reading = Reading(script, table, arguments.folders)
        if os.path.isdir(arguments.source):
            with _volume(arguments.source, arguments) as volume:
                with Progress(volume.node_count, is_of_all=True, is_asked=arguments.progress) as progress:
                    counts = reading.run(volume.walk(exclusion, root), progress)
        else:
            source = TextFile(arguments.source, arguments.form, _assumed(arguments, root))
            with Progress(source.node_count, is_asked=arguments.progress) as progress:
                counts = reading.run(source.walk(exclusion), progress)
    _sum_up(arguments, counts, table)
    for pattern in exclusion.unmatched:
        say(f"--exclude {pattern}: no node that was reached matches")
    return 1 if counts.skipped or counts.unlisted else 0


def _sum_up(arguments: argparse.Namespace, counts: Counts, table: Table) -> None:
    said = [
        f"{arguments.source}: {plural(counts.nodes, 'node')}",
        f"{plural(counts.lines, 'line')} of nodes",
        f"{plural(counts.left_out, 'file')} left out",
        f"{counts.skipped:,} skipped",
        f"{counts.differing:,} differing",
        f"{plural(counts.sacls, 'SACL')} kept",
    ]
    if counts.excluded:
        said.append(f"{counts.excluded:,} excluded")
    if counts.stored:
        said.append(f"{plural(counts.stored, 'node')} with what was inherited elsewhere")
    if counts.linked:
        said.append(f"{counts.linked:,} further names of files")
    if counts.unlisted:
        said.append(f"{plural(counts.unlisted, 'folder')} not listed")
    table.end("read", ", ".join(said), {"source": arguments.source, **dataclasses.asdict(counts)})
    required = requirement_of(counts.lines, counts.bytes)
    if required is not None:
        say(required)


def _volume(folder: str, arguments: argparse.Namespace) -> Volume:
    return Volume(folder, ATTRIBUTES.get(arguments.attribute))


def _assumed(arguments: argparse.Namespace, root: str | None) -> Assumed:
    owner, group = _sid("--owner", arguments.owner), _sid("--group", arguments.group)
    domain = _sid("--domain", arguments.domain)
    return Assumed(None if owner is None else str(owner), None if group is None else str(group), root, domain)


def _sid(option: str, text: str | None) -> Sid | None:
    try:
        return None if text is None else Sid.from_text(text)
    except Refused as refused:
        raise Invalid(f"{option} {text!a}: {refused}") from refused


def _descriptor(option: str, text: str | None) -> str | None:
    try:
        return None if text is None else str(Descriptor.from_sddl(text))
    except Refused as refused:
        raise Invalid(f"{option} {text!a}: {refused}") from refused


def plan(arguments: argparse.Namespace, table: Table) -> int:
    """What a script changes, and what forbids to write it."""
    with read_script(arguments.script) as script:
        if arguments.target is not None:
            with _volume(arguments.target, arguments) as volume:
                made = _planned(script, volume, arguments, table)
            return _written(table, "planned", f"{plural(len(made.steps), 'node')} would be written", made, {})
        count = 0
        for change in script.changes():
            count += 1
            table.row("change", {"path": spelled(change.path), "before": change.before, "after": change.after})
        about = Coverage(count, script.gaps_of_changes(()))
    return answered(table, "planned", f"{plural(count, 'node')} of the script would change", {"nodes": count}, about)


def _planned(script: Script, volume: Volume, arguments: argparse.Namespace, table: Table) -> Plan:
    if not volume.attribute.is_written:
        raise Invalid(f"{volume.name}: a share that is mounted by cifs is read alone: 'estate icacls' writes a file for it")
    made = Plan(script, volume, table, Leave(arguments.replace_differing, arguments.leave_unread))
    made.make()
    if made.stops:
        raise Stopped(f"{plural(made.stops, 'node')} can't be written safely: nothing is written")
    return made


def write(arguments: argparse.Namespace, table: Table) -> int:
    """A script's changes to a volume."""
    name = arguments.journal or f"{arguments.script}.journal"
    with read_script(arguments.script) as script, _volume(arguments.target, arguments) as volume:
        made = _planned(script, volume, arguments, table)
        journal = Journal(os.path.abspath(arguments.target), volume.attribute, made.steps)
        check_target(volume, journal)
        if not journal.steps:
            return _written(table, "written", "no node changes: nothing is written", made, {})
        write_journal(name, journal)
        with locked_journal(name):
            written = apply(volume, forward(journal.steps), table, False)
    text = f"{plural(written, 'node')} written; 'estate undo {name}' restores what they had"
    return _written(table, "written", text, made, {"journal": name})


def _written(table: Table, what: str, text: str, made: Plan, cells: dict[str, str]) -> int:
    """The end of a write, or of its plan, and the status."""
    left = f"; left out: {plural(made.left, 'node')}" if made.left else ""
    table.end(what, text + left, {"nodes": len(made.steps), "left": made.left, **cells})
    return LEFT_OUT if made.left else 0


def icacls(arguments: argparse.Namespace, table: Table) -> int:
    """A script's changes as a file for icacls."""
    with read_script(arguments.script) as script:
        count = icacls_file.write_icacls(script, arguments.file, arguments.folder, arguments.old, table)
    table.end("written", f"{plural(count, 'node')} in {arguments.file}", {"nodes": count})
    return 0


def resume(arguments: argparse.Namespace, table: Table) -> int:
    """The rest of a write."""
    return _by_journal(arguments, table, forward, "written")


def undo(arguments: argparse.Namespace, table: Table) -> int:
    """A write, undone."""
    return _by_journal(arguments, table, backward, "restored")


def _by_journal(
    arguments: argparse.Namespace, table: Table, moves_of: Callable[[Iterable[Step]], list[Move]], done: str
) -> int:
    with locked_journal(arguments.journal) as journal:
        with Volume(arguments.target or journal.target, journal.attribute) as volume:
            check_target(volume, journal)
            written = apply(volume, moves_of(journal.steps), table, arguments.leave_changed)
    table.end(done, f"{plural(written, 'node')} {done}", {"nodes": written})
    return 0


def lint(arguments: argparse.Namespace, table: Table) -> int:
    """Findings about the lists of a script's nodes."""
    with read_script(arguments.script) as script:
        count = questions.lint(script, table)
        about = script.covered(())
    return answered(table, "linted", plural(count, "finding"), {"findings": count}, about, 1 if count else 0)


def why(arguments: argparse.Namespace, table: Table) -> int:
    """Whether a node of a volume grants a user rights, by the descriptor that the disk has, and for which reasons; and
    the share."""
    share = share_of(arguments)
    with _volume(arguments.folder, arguments) as volume:
        text = questions.text_on(volume, arguments.path)
    with people_in(arguments.accounts) as people:
        words = asking_as(arguments.user, arguments.mask, arguments.words, people, arguments.only_given, table)
    is_granted = is_granted_by_share(share, words, table)
    is_granted = questions.why(text, arguments.path, words, table) and is_granted
    text = "granted" if is_granted else "denied"
    return answered(table, "answered", text, {"granted": int(is_granted)}, Coverage(1, []), 0 if is_granted else 1)


def review(arguments: argparse.Namespace, table: Table) -> int:
    """What a script's changes grant and take away, of all possible users, and of those of a file of accounts."""
    if arguments.accounts is not None:
        require_own_groups(arguments.words, False)
    with read_script(arguments.script) as script, people_in(arguments.accounts) as people:
        path = questions.node_of(script, arguments.path)
        changed = sum(change.path[: len(path)] == path for change in script.changes())
        about = Coverage(changed, script.gaps_of_changes(path))
        count = questions.review(script, arguments.path, arguments.words, table)
        users = None if people is None else people_of.review(script, path, people, table)
    text = f"{plural(count, 'node')} where somebody gains or loses rights{of_users(users)}"
    return answered(table, "reviewed", text, counts_of(users, nodes=count), about, 1 if count or users else 0)


def report(arguments: argparse.Namespace, table: Table) -> int:
    """The nodes of a script as a page, and what users of a file of accounts are granted as CSV or a workbook."""
    _check_files(arguments)
    accounts_too = [] if arguments.accounts is None else [arguments.accounts]
    names, title = read_names(arguments.names + accounts_too), arguments.title or arguments.script
    with read_script(arguments.script) as script, people_in(arguments.accounts) as people:
        matrix = None if people is None else Matrix(script, people)
        about = script.covered(())
        count = Report(script, names, matrix).write(arguments.file, title, arguments.script)
        text, cells = f"{plural(count, 'node')} in {arguments.file}", counts_of(None, nodes=count)
        if matrix is not None and arguments.matrix is not None:
            rows = matrix.write(arguments.matrix, about.gaps)
            text, cells = f"{text}, {plural(rows, 'node')} in {arguments.matrix}", cells | {"rows": rows}
    if matrix is not None:
        about = Coverage(about.nodes, about.gaps + matrix.cut)
    return answered(table, "written", text, cells, about)


def _check_files(arguments: argparse.Namespace) -> None:
    """Invalid if a file would replace another one of the command, or nothing says which users there are."""
    if arguments.accounts is None:
        if arguments.matrix is not None:
            raise Invalid("--matrix: it is about the users of --accounts FILE, which is missing")
        return
    read = {os.path.realpath(each) for each in (arguments.script, arguments.accounts, *arguments.names)}
    written = [os.path.realpath(each) for each in (arguments.file, arguments.matrix) if each is not None]
    if len(read.union(written)) < len(read) + len(written):
        raise Invalid("FILE and that of --matrix are two files, and none that is read: name others")
    if arguments.matrix is not None and is_workbook(arguments.matrix):
        require_workbooks()


def accounts(arguments: argparse.Namespace, table: Table) -> int:
    """Users, groups and memberships of directories and Unix systems as a file."""
    joined = accounts_file.write_accounts(arguments.sources, arguments.file, arguments.domain, table)
    table.end("written", accounts_file.summed_up(joined), joined.counts())
    return 1 if joined.skipped or joined.unknown else 0


def lines(arguments: argparse.Namespace, table: Table) -> int:
    """The descriptors of exports as a file."""
    columns = [column.strip().lower() for column in arguments.columns.split(",")]
    if len(columns) != 2:
        raise Invalid(f"--columns: two names with a comma between them are expected, and not {arguments.columns!a}")
    written, left = exports.write_lines(arguments.sources, arguments.file, (columns[0], columns[1]), table)
    text = f"{plural(written, 'descriptor')} in {arguments.file}; left out: {left:,}"
    table.end("written", text, {"written": written, "left": left})
    return LEFT_OUT if left else 0


def schema(arguments: argparse.Namespace, table: Table) -> int:
    """The names of object types of directories as a file."""
    table.end("written", schema_file.write_schema(arguments.sources, arguments.file), {})
    return 0
