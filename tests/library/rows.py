"""Asks the worked rows of the pages and of tests/ through the shared library, and compares each answer with the program's.

    rows.py PROGRAM USER FILE ..

Of a page, rows of tables are known by their heads, and lines `$ ./sdstore ..` of console blocks by their command; of a file
of rows each command without options and escapes is asked, and each line of its `each`. The last line is 'N passed, M
failed'."""

import os
import re
import shlex
import subprocess
import sys
from pathlib import Path
from typing import NamedTuple

TOP = Path(__file__).resolve().parents[2]
sys.path[:0] = [str(TOP / "tests"), str(TOP / "bindings/python")]

import hudarin  # noqa: E402
import tally  # noqa: E402

PROGRAM, USER, FILES = sys.argv[1], sys.argv[2], sys.argv[3:]
COMMANDS = ("verdict", "why", "who", "lint", "compare", "print", "tobin", "frombin")
STATES = {"deny": hudarin.DENY_ONLY, "off": hudarin.DISABLED}
PRIVILEGES = {"+security": hudarin.SECURITY, "+take": hudarin.TAKE_OWNERSHIP}


def fault(reading, kind):
    """The reading, or the program's line for what refuses it."""
    try:
        return reading(), None
    except hudarin.Refused as e:
        if kind == "sddl":
            return None, f"fault sddl {e.fault} {e.name} at {e.place}"
        if kind == "wire":
            return None, f"fault wire {e.fault} {e.name}"
        return None, f"fault {kind}"


class Question(NamedTuple):
    """What `verdict` and `why` are asked of."""

    descriptor: hudarin.Descriptor
    user: hudarin.Sid
    asked: int
    groups: list
    restricting: list
    privileges: int
    deny_only_user: bool

    def request(self):
        return {"asked": self.asked, **self.parts()}

    def parts(self):
        """What of the token stands beside its user and groups."""
        return {name: getattr(self, name) for name in ("privileges", "restricting", "deny_only_user")}


def token_words(words):
    """The groups, the restricting SIDs, the privileges, and whether the user counts for denies alone, as the words say;
    or the line that refuses one."""
    groups, restricting, privileges, deny_only_user = [], [], 0, False
    for word in words:
        if word == "user=deny":
            deny_only_user = True
            continue
        name, _, state = word.partition("=")
        if word in PRIVILEGES:
            privileges |= PRIVILEGES[word]
            continue
        group, refused = fault(lambda: hudarin.Sid.from_text(name), "token")
        if refused or ("=" in word and state not in STATES and state != "restrict"):
            return None, "fault token"
        if state == "restrict":
            restricting.append(group)
            continue
        groups.append((group, STATES.get(state, hudarin.ENABLED)))
    return (groups, restricting, privileges, deny_only_user), None


def rights(asked):
    """The mask of a rights field of SDDL, which is all that the program takes without --names."""
    return hudarin.Descriptor.from_sddl(f"D:(A;;{asked};;;WD)").entries[0].mask


def question(sddl, user, asked, *words):
    """The question, or the line that refuses it."""
    descriptor, refused = fault(lambda: hudarin.Descriptor.from_sddl(sddl), "sddl")
    sid, refused = (None, refused) if refused else fault(lambda: hudarin.Sid.from_text(user), "sid")
    mask, refused = (None, refused) if refused else fault(lambda: rights(asked), "mask")
    token, refused = (None, refused) if refused else token_words(words)
    return (None, refused) if refused else (Question(descriptor, sid, mask, *token), None)


def verdict(*words):
    asked, refused = question(*words)
    if refused:
        return refused
    answer = asked.descriptor.check(asked.user, asked.groups, **asked.request())
    with hudarin.Token(asked.user, asked.groups, **asked.parts()) as token:
        over = asked.descriptor.check_by(token, asked.asked)
        with hudarin.KeptDescriptor(asked.descriptor) as kept:
            by = kept.check(token, asked.asked)
    return str(answer) if answer == over == by else f"{answer}, and over the bytes {over}, and by what is kept {by}"


def why(*words):
    asked, refused = question(*words)
    if refused:
        return refused
    told = asked.descriptor.explain(asked.user, asked.groups, **asked.request())
    with hudarin.Token(asked.user, asked.groups, **asked.parts()) as token:
        with hudarin.KeptDescriptor(asked.descriptor) as kept:
            by = kept.explain(token, asked.asked)
    return str(told) if told == by else f"{told}\nand by what is kept {by}"


def base_words(words):
    """The groups of a base, or the line that refuses one: restricting SIDs and privileges are no groups."""
    token, refused = token_words(words)
    if not refused and any(token[1:]):
        refused = "fault token"
    return (None, refused) if refused else (token[0], None)


def who(sddl, asked, *words):
    descriptor, refused = fault(lambda: hudarin.Descriptor.from_sddl(sddl), "sddl")
    mask, refused = (None, refused) if refused else fault(lambda: rights(asked), "mask")
    base, refused = (None, refused) if refused else base_words(words)
    return refused or (str(descriptor.who(mask, base)) if mask else "fault mask")


def lint(sddl, *words):
    descriptor, refused = fault(lambda: hudarin.Descriptor.from_sddl(sddl), "sddl")
    base, refused = (None, refused) if refused else base_words(words)
    return refused or "\n".join(map(str, descriptor.lint(base))) or "clean"


def shows(change, granting, denying):
    """The change's token is granted all of its bits by the one descriptor, and none of them by the other."""
    with change.token() as token:
        verdicts = granting.check_by(token, change.mask), denying.check_by(token, change.mask)
    return verdicts == (("granted", change.mask), ("denied", change.mask))


def compare(old_sddl, new_sddl, *words):
    old, refused = fault(lambda: hudarin.Descriptor.from_sddl(old_sddl), "sddl")
    new, refused = (None, refused) if refused else fault(lambda: hudarin.Descriptor.from_sddl(new_sddl), "sddl")
    base, refused = (None, refused) if refused else base_words(words)
    if refused:
        return refused
    comparison = old.compare(new, base)
    unshown = [change for change in comparison.gained if not shows(change, new, old)]
    unshown += [change for change in comparison.lost if not shows(change, old, new)]
    return "\n".join(map(str, [comparison, *unshown]))


def answer(command, *words):
    """The lines that the library's answer would be printed as."""
    if words and words[0] == "--":
        words = words[1:]
    if command in QUESTIONS:
        return QUESTIONS[command](*words)
    if command == "frombin":
        if not re.fullmatch("([0-9a-fA-F]{2})*", words[0]):
            return "fault hex"
        read, refused = fault(lambda: hudarin.Descriptor(bytes.fromhex(words[0])), "wire")
        return refused or str(read)
    read, refused = fault(lambda: hudarin.Descriptor.from_sddl(words[0]), "sddl")
    return refused or (str(read) if command == "print" else bytes(read).hex())


QUESTIONS = {"verdict": verdict, "why": why, "who": who, "lint": lint, "compare": compare}


def ask(place, *words):
    """The library answers as the program does."""
    run = subprocess.run([PROGRAM, *words], stdin=subprocess.DEVNULL, stdout=subprocess.PIPE, check=False)
    if run.returncode == 2:
        # (an invalid command line, which asks for nothing)
        return
    said = run.stdout.decode()
    here = answer(*words) + "\n"
    text = f"{words!r}: the library says {here!r}, and the program {said!r}"
    tally.holds(place, here == said, text[:300])


def span(cell):
    """The cell's code spans in a row, each as often as the words before it say."""
    parts, text = cell.split("`"), ""
    for before, part in zip(parts[::2], parts[1::2]):
        times = re.search(r"([0-9,]+) times $", before)
        text += part * (int(times[1].replace(",", "")) if times else 1)
    return text


def pairs(cells):
    return [pair for pair in zip(cells[::2], cells[1::2]) if pair[0]]


def check_row(place, command, owner, dacl, words, asked):
    full = lambda text: text.replace(";U)", f";{USER})")
    owned = "" if owner == "*none*" else "O:" + (USER if owner == "U" else owner)
    ask(place, command, f"{owned}G:SY{full(dacl)}", USER, asked, *(re.sub("^U=", f"{USER}=", word) for word in words.split()))


class Table:
    """A table of a page, row by row; `bytes` are those of the last table of bytes."""

    bytes = ""

    def __init__(self, heads):
        self.heads = "|".join(heads)
        if self.heads.startswith("Place|Bytes of "):
            Table.bytes = ""

    def row(self, place, cells):
        one, heads = span(cells[0]), self.heads
        two = span(cells[1]) if len(cells) > 1 else ""
        if heads in ("Text|Printed", "Text|Fault", "Text|Fault|Why", "Text|Fault|Write instead"):
            ask(place, "print", one)
            ask(place, "tobin", one)
        elif heads == "Text|Bytes":
            ask(place, "tobin", one)
            ask(place, "frombin", two)
        elif heads.startswith("Place|Bytes of "):
            Table.bytes += two
        elif heads == "Cut to|Fault":
            for part in cells[0].split(","):
                first, _, last = part.partition(" to ")
                for length in range(int(first), int(last or first) + 1):
                    ask(place, "frombin", Table.bytes[: 2 * length])
        elif heads == "Place|Instead|Answer":
            at = 2 * int(cells[0])
            ask(place, "frombin", Table.bytes[:at] + two + Table.bytes[at + len(two) :])
        elif heads == "Rights|Mask|Printed":
            ask(place, "print", f"D:(A;;{one};;;WD)")
            ask(place, "verdict", "D:NO_ACCESS_CONTROL", USER, one)
        elif heads.startswith(("Alias|SID|", "Domain alias|")):
            for alias, sid in pairs(cells):
                ask(place, "print", f"O:{alias}")
                ask(place, "verdict", "D:", alias, "0x1")
                if sid.startswith("S-1-"):
                    ask(place, "tobin", f"O:{sid}")
        elif heads.startswith("Name|Bits|"):
            for name, _ in pairs(cells):
                ask(place, "verdict", "D:", USER, name)
        elif heads == "SDDL|MASK|Base|Lines":
            ask(place, "who", one, cells[1], *cells[2].split())
        elif heads == "Text|Finds":
            ask(place, "lint", one)
        elif heads == "OLD|NEW|Base|Lines":
            ask(place, "compare", one, two, *cells[2].split())
        elif heads == "DACL|Words|Asked|Verdict":
            check_row(place, "verdict", "BA", one, cells[1], cells[2])
        elif heads == "Owner|DACL|Words|Asked|Verdict":
            check_row(place, "verdict", cells[0], two, cells[2], cells[3])
        elif heads == "DACL|Words|Asked|Verdict|Why":
            check_row(place, "why", "BA", one, cells[1], cells[2])
        elif heads == "Owner|DACL|Words|Asked|Verdict|Why":
            check_row(place, "why", cells[0], two, cells[2], cells[3])
        else:
            return False
        return True


def console(place, line):
    """A line of a console block that asks for an answer, and no more."""
    words = shlex.split(line[2:]) if " | " not in line and '"$' not in line else []
    if words[:1] == ["./sdstore"] and words[1:2] and words[1] in COMMANDS:
        if "help" not in line.replace("-- --help", "") and len(words) > 2:
            ask(place, *words[1:])


def tests(name, lines):
    """A file of rows; `each` is what the lines of its standard input are asked."""
    each = []
    for number, line in enumerate(lines, 1):
        place, line = f"{name}:{number}", line.rstrip("\n")
        if line.startswith("$"):
            words = shlex.split(line[2:]) if line.startswith("$ ") else []
            each = words[2:] if words[1:2] == ["each"] and words[2] in COMMANDS else []
            if words[1:2] and words[1] in COMMANDS:
                ask(place, *words[1:])
        elif each and line.startswith("| "):
            ask(place, each[0], line[2:].partition(" => ")[0], *each[1:])


def page(name, lines):
    table, language = None, None
    for number, line in enumerate(lines, 1):
        place, line = f"{name}:{number}", line.rstrip("\n")
        if line.startswith("```"):
            language = None if language else line[3:] or "text"
        elif language == "console" and line.startswith("$ "):
            console(place, line)
        elif language is None and line.startswith("|"):
            cells = [cell.strip() for cell in line.strip("|").split("|")]
            if table is None:
                table = Table(cells)
            elif not line.startswith("|--"):
                table.row(place, cells)
        elif language is None:
            table = None


for path in FILES:
    before, base = tally.passed + tally.failed, os.path.basename(path)
    with open(path, encoding="utf-8") as text:
        (page if base.endswith(".md") else tests)(base, text)
    if tally.passed + tally.failed == before:
        tally.holds(base, False, "no row of it was asked")
sys.exit(tally.close())
