"""The commands of estate."""

import argparse
import os
import sys
from collections.abc import Callable, Sequence

import asking
import commands
import diffing
from errors import EstateError
from names import read_names, shown_by
from table import Table, say

_DESCRIPTION = "Reads the descriptors of file systems into scripts for sdstore, and writes changes back."
_END = """\
statuses: 0 done, and an answer leaves nothing out; 1 a node is skipped by read, has a finding, gains or loses rights,
denies them, or forbids the write, or an account may be missing; 2 invalid arguments or input; 3 a read or write failed;
4 the answer, or the write, leaves nodes out, which rows name; of ask that of the worst answer; of diff 1 if somebody
gains rights. The table is on standard output, messages are on standard error."""


def main(words: Sequence[str] | None = None) -> int:
    """Carries out a command, and returns the status."""
    arguments = _parser().parse_args(words)
    work: Callable[[argparse.Namespace, Table], int] = arguments.work
    try:
        status = work(arguments, Table(arguments.json, shown_by(read_names(arguments.names))))
        sys.stdout.flush()
        return status
    except BrokenPipeError:
        os.dup2(os.open(os.devnull, os.O_WRONLY), sys.stdout.fileno())
        return 3
    except EstateError as error:
        say(str(error))
        return error.status
    except (MemoryError, KeyboardInterrupt) as error:
        say("out of memory" if isinstance(error, MemoryError) else "interrupted")
        return 3


def _parser() -> argparse.ArgumentParser:
    parser = argparse.ArgumentParser(prog="estate", description=_DESCRIPTION, epilog=_END, allow_abbrev=False)
    commands_of = parser.add_subparsers(required=True, metavar="COMMAND")

    def command(name: str, work: Callable[[argparse.Namespace, Table], int], text: str) -> argparse.ArgumentParser:
        made = commands_of.add_parser(name, help=text, description=text, allow_abbrev=False)
        made.set_defaults(work=work)
        made.add_argument("--json", action="store_true", help="print each row as a JSON object on a line")
        made.add_argument(
            "--names",
            action="append",
            default=[],
            metavar="FILE",
            help="show SIDs by the names of FILE: see docs/ESTATES.md",
        )
        return made

    _add_read(command("read", commands.read, "write a script of the nodes of a volume, a share or a text file"))
    _add_plan(
        command("plan", commands.plan, "print which nodes a script changes; with TARGET test that it can be written")
    )
    _add_write(command("write", commands.write, "write what a script changes to a volume or a share"))
    _add_icacls(command("icacls", commands.icacls, "write what a script changes as a file for icacls /restore"))
    _add_journal(command("resume", commands.resume, "write what a write that ended early left"))
    _add_journal(command("undo", commands.undo, "restore what a write replaced"))
    lint = command("lint", commands.lint, "print what is doubtful in the lists of a script's nodes")
    lint.add_argument("script", metavar="SCRIPT")
    _add_who(command("who", asking.who, "print whom a node grants rights, of all possible users"))
    _add_find(command("find", asking.find, "print the nodes at and below a path that grant a user rights"))
    ask = command("ask", asking.ask, "answer each line of standard input, a question as who and find take it")
    ask.add_argument("script", metavar="SCRIPT")
    _add_only_given(ask)
    _add_people(ask)
    _add_share(ask)
    _add_why(command("why", commands.why, "print whether a node of a volume grants a user rights, by all that it has"))
    _add_review(command("review", commands.review, "print what a script's changes grant and take away, node by node"))
    _add_diff(command("diff", diffing.diff, "print what changed between two scripts, and who gains and loses by it"))
    report = command("report", commands.report, "write a page of a script's folders, as they are after its changes")
    report.add_argument("script", metavar="SCRIPT")
    report.add_argument("file", metavar="FILE", help="the HTML file to write")
    report.add_argument("--title", metavar="TEXT", help="SCRIPT unless given")
    _add_people(report)
    report.add_argument(
        "--matrix", metavar="FILE", help="write a line for each user and node where its rights change: CSV, or .xlsx"
    )
    _add_accounts(command("accounts", commands.accounts, "write which groups users are in, for sdstore --accounts"))
    _add_schema(command("schema", commands.schema, "write which names object types have, for sdstore --schema"))
    _add_lines(command("lines", commands.lines, "write the descriptors of exports, for sdstore each --key"))
    return parser


def _add_read(read: argparse.ArgumentParser) -> None:
    read.add_argument(
        "source", metavar="SOURCE", help="a mounted folder, a CSV of PowerShell, or a file of icacls /save"
    )
    read.add_argument("script", metavar="SCRIPT", help="the file to write")
    read.add_argument(
        "--folders", action="store_true", help="leave out files that have just what their folder passes down"
    )
    read.add_argument(
        "--exclude",
        action="append",
        default=[],
        metavar="PATTERN",
        help="leave out nodes whose paths below the root match, as '*.tmp', with all below them; may be repeated",
    )
    read.add_argument(
        "--progress", action="store_true", help="print how many nodes are read also where there is no terminal"
    )
    read.add_argument("--root", metavar="SDDL", help="the descriptor of the folder itself, where the source has none")
    _add_attribute(read)
    read.add_argument("--form", choices=("csv", "icacls"), help="of a text file; by its first line unless given")
    read.add_argument("--owner", metavar="SID", help="of nodes of a text file without an owner")
    read.add_argument("--group", metavar="SID", help="of nodes of a text file without a group")
    read.add_argument("--domain", metavar="SID", help="whose accounts and groups a text file's aliases are, as DA")


def _add_attribute(parser: argparse.ArgumentParser) -> None:
    parser.add_argument(
        "--attribute",
        choices=commands.ATTRIBUTES,
        help="which extended attribute has descriptors; by the folder's own unless given",
    )


def _add_plan(plan: argparse.ArgumentParser) -> None:
    plan.add_argument("script", metavar="SCRIPT")
    plan.add_argument("target", metavar="TARGET", nargs="?")
    _add_leave(plan)


def _add_leave(parser: argparse.ArgumentParser) -> None:
    _add_attribute(parser)
    parser.add_argument("--replace-differing", action="store_true", help="replace lists that differed from the tree's")
    parser.add_argument("--leave-unread", action="store_true", help="leave nodes without a line as they are")


def _add_write(write: argparse.ArgumentParser) -> None:
    write.add_argument("script", metavar="SCRIPT")
    write.add_argument("target", metavar="TARGET", help="the folder that was read")
    write.add_argument(
        "--journal", metavar="FILE", help="a new file for what each node had: SCRIPT.journal unless given"
    )
    _add_leave(write)


def _add_icacls(write: argparse.ArgumentParser) -> None:
    write.add_argument("script", metavar="SCRIPT")
    write.add_argument("file", metavar="FILE")
    write.add_argument(
        "--folder", metavar="NAME", required=True, help="the root's path in FILE, as icacls /save has it"
    )
    write.add_argument(
        "--old", action="store_true", help="write the lists that were read: such a file undoes the other"
    )


def _add_who(who: argparse.ArgumentParser) -> None:
    who.add_argument("script", metavar="SCRIPT")
    who.add_argument("path", metavar="PATH", help="a node, as SCRIPT spells it")
    who.add_argument("mask", metavar="MASK", help="rights, as sdstore takes them: FR, 0x2")
    who.add_argument("words", metavar="ARG", nargs="*", help="groups that all users have, as sdstore who takes them")
    who.set_defaults(share=None, samba_share=None)
    _add_only_given(who)
    _add_people(who)


def _add_people(parser: argparse.ArgumentParser) -> None:
    parser.add_argument(
        "--accounts", metavar="FILE", help="users of FILE, which estate accounts writes, have the groups that it says"
    )


def _add_only_given(parser: argparse.ArgumentParser) -> None:
    parser.add_argument(
        "--only-given", action="store_true", help="don't assume that users are in Everyone and Authenticated Users"
    )


def _add_share(parser: argparse.ArgumentParser) -> None:
    share = parser.add_mutually_exclusive_group()
    share.add_argument(
        "--share",
        metavar="SDDL",
        help="the descriptor of the share by which the user comes: only what it grants too is granted",
    )
    share.add_argument("--samba-share", metavar="NAME", help="the same of a share of this machine's Samba, by sharesec")


def _add_user(parser: argparse.ArgumentParser) -> None:
    parser.add_argument("user", metavar="USER", help="the user's SID, or with --accounts its name")
    _add_people(parser)


def _add_find(find: argparse.ArgumentParser) -> None:
    find.add_argument("script", metavar="SCRIPT")
    find.add_argument("path", metavar="PATH", help="a node, as SCRIPT spells it: it and all below it are searched")
    _add_user(find)
    find.add_argument("mask", metavar="MASK", help="rights, as sdstore takes them: FR, 0x2")
    find.add_argument("words", metavar="ARG", nargs="*", help="groups and privileges, as sdstore verdict takes them")
    _add_only_given(find)
    _add_share(find)


def _add_why(why: argparse.ArgumentParser) -> None:
    why.add_argument("folder", metavar="FOLDER", help="the mounted folder")
    why.add_argument("path", metavar="PATH", help="a node of it, as a script spells it: /, /plans/a%%20b")
    _add_user(why)
    why.add_argument("mask", metavar="MASK", help="rights, as sdstore takes them: FR, 0x2")
    why.add_argument(
        "words", metavar="ARG", nargs="*", help="groups, claims and a level, as sdstore --whole why takes them"
    )
    _add_attribute(why)
    _add_only_given(why)
    _add_share(why)


def _add_review(review: argparse.ArgumentParser) -> None:
    review.add_argument("script", metavar="SCRIPT")
    review.add_argument("path", metavar="PATH", nargs="?", default="/", help="a node, with all below it")
    review.add_argument("words", metavar="ARG", nargs="*", help="groups that all users have, as sdstore who takes them")
    _add_people(review)


def _add_diff(diff: argparse.ArgumentParser) -> None:
    diff.add_argument("before", metavar="BEFORE", help="a script that estate read wrote")
    diff.add_argument("after", metavar="AFTER", help="another one, of the same source")
    diff.add_argument("--totals", action="store_true", help="leave out the rows of single nodes")
    _add_people(diff)


def _add_journal(parser: argparse.ArgumentParser) -> None:
    parser.add_argument("journal", metavar="JOURNAL")
    parser.add_argument(
        "target", metavar="TARGET", nargs="?", help="where the volume is mounted, if elsewhere than before"
    )
    parser.add_argument("--leave-changed", action="store_true", help="leave nodes that somebody changed since")


def _add_accounts(accounts: argparse.ArgumentParser) -> None:
    accounts.add_argument(
        "sources",
        metavar="SOURCE",
        nargs="+",
        help="LDIF, a CSV of PowerShell, a hive SAM, or what getent, wbinfo, pdbedit or net prints",
    )
    accounts.add_argument("file", metavar="FILE", help="the file to write")
    accounts.add_argument("--domain", metavar="NAME", help="the domain's NetBIOS name: that of the LDIF unless given")


def _add_lines(lines: argparse.ArgumentParser) -> None:
    lines.add_argument(
        "sources",
        metavar="SOURCE",
        nargs="+",
        help="a file of icacls /save, reg export, LDIF, CSV, or SDDL, as of sc sdshow",
    )
    lines.add_argument("file", metavar="FILE", help="the file to write")
    lines.add_argument(
        "--columns", metavar="KEY,SDDL", default="Path,Sddl", help="the columns of a CSV; Path,Sddl unless given"
    )


def _add_schema(schema: argparse.ArgumentParser) -> None:
    schema.add_argument("sources", metavar="SOURCE", nargs="+", help="LDIF of a directory's schema and its rights")
    schema.add_argument("file", metavar="FILE", help="the file to write")
