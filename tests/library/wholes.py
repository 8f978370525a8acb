"""Asks the rows of whole descriptors through the module of Python, and compares each verdict with what the row says:

    wholes.py FILE TYPES

Of `why` the verdict alone is compared. TYPES has rows of `types`. Then what `Client` and `WholeDescriptor.check`
refuse. The last line is 'N passed, M failed'."""

import itertools
import re
import shlex
import sys
import uuid
from pathlib import Path
from typing import Any, Dict, List, Optional, Tuple

TOP = Path(__file__).resolve().parents[2]
sys.path[:0] = [str(TOP / "tests"), str(TOP / "bindings/python")]

from hudarin import FILES, Client, Refused, Sid, Token, WholeDescriptor, mask  # noqa: E402
from objects import refused  # noqa: E402
from tally import close, gives, holds, raises  # noqa: E402

USER = Sid.from_text("S-1-5-21-1-2-3-1001")
DOMAIN = Sid.from_text("S-1-5-21-1-2-3")
PROPERTY = "bf967a49-0de6-11d0-a285-00aa003049e2"
OF_PROPERTY = WholeDescriptor.from_sddl(f"D:(OA;;RP;{PROPERTY};;BU)")
OPEN = WholeDescriptor.from_sddl("D:(A;;FA;;;WD)")


def answered(options: Dict[str, List[str]], text: str, user: str, asked: str, *words: str) -> str:
    """The program's line for the verdict, by the module."""
    principal_self = [Sid.from_text(sid) for sid in options.get("--self", [])]
    masks = [tuple(mask(one) for one in given.split(",")) for given in options.get("--mapping", [])]
    descriptor = WholeDescriptor.from_sddl(text)
    try:
        client = Client(Sid.from_text(user), words)
    except Refused as e:
        return "fault token" if (e.status, e.argument) == ("word", "words") else str(e)
    with client:
        try:
            chain = options.get("--type", [])
            given = (principal_self or [None])[0], (masks or [FILES])[0]
            return str(descriptor.check(client, asked, chain, *given))
        except Refused as e:
            if e.status != "undecided" or e.argument != "descriptor":
                return str(e)
            return "fault dacl 6 TooLarge" if e.name == "TooLarge" else f"fault entry {e.place + 1} {e.name}"


def on_nodes(principal_self: Optional[str], text: str, tree: str, user: str, asked: str, *words: str) -> List[str]:
    """The program's lines for the verdicts on the nodes of a tree, by the module."""
    sid = None if principal_self is None else Sid.from_text(principal_self)
    nodes = [(int(level), guid) for level, _, guid in (node.partition(":") for node in tree.split(",") if node)]
    with Client(Sid.from_text(user), words) as client:
        try:
            verdicts = WholeDescriptor.from_sddl(text).check_types(client, asked, nodes, sid)
        except Refused as e:
            return [f"fault {e.status} {e.fault} {e.name}"]
    return [f"{verdict} at {level}:{guid.lower()}" for verdict, (level, guid) in zip(verdicts, nodes)]


#: A row of `types` that is asked, and an answer of one: the program takes other options, and texts that are no nodes.
NODES = re.compile(r"\$ sdstore --whole (?:--self (\S+) )?types (.*)")
NODES_ANSWER = re.compile(r"> (?:granted|denied|reserved|empty|fault tree [1-5]) ")
LEFT_OUT = "of the DACL and the label alone: the rest of the SACL is left out"


def trees(path: str) -> None:
    """The verdicts on trees of object types. What the rest of a SACL may deny has none."""
    name, asked = Path(path).name, 0
    lines = Path(path).read_text(encoding="utf-8").splitlines()
    for number, line in enumerate(lines, 1):
        row = NODES.fullmatch(line)
        if row and NODES_ANSWER.match(lines[number]):
            asked += 1
            wanted = [each[2:] for each in itertools.takewhile(lambda each: each.startswith("> "), lines[number:])]
            if wanted[-1] == LEFT_OUT:
                wanted = ["fault undecided 7 MayBeDenied"]
            gives(f"{name}:{number}", wanted, lambda: on_nodes(row[1], *shlex.split(row[2])))
    holds(name, asked > 35, f"{asked} rows are asked")


def command(line: str) -> Optional[Tuple[Dict[str, List[str]], List[str]]]:
    """The options and the arguments of a row's command, if it asks for a verdict or why."""
    again = re.sub(r"\\\{([0-9]+)\*([^}]*)\}", lambda found: int(found[1]) * found[2], line)
    words = shlex.split(again.partition(" ")[2])
    options: Dict[str, List[str]] = {}
    rest = words[1:]
    while rest and rest[0].startswith("--"):
        values = 0 if rest[0] == "--whole" else 1
        options.setdefault(rest[0], []).extend(rest[1 : 1 + values])
        rest = rest[1 + values :]
    return (options, rest[1:]) if rest[:1] in (["verdict"], ["why"]) else None


def rows(path: str) -> None:
    name, asked = Path(path).name, 0
    lines = Path(path).read_text(encoding="utf-8").splitlines()
    for number, line in enumerate(lines, 1):
        given = command(line) if line.startswith("$") else None
        if given is not None:
            options, words = given
            asked += 1
            gives(f"{name}:{number}", lines[number].partition(" ")[2], lambda: answered(options, *words))
    holds(name, asked > 140, f"{asked} rows are asked")


def clients() -> None:
    """What is no client, and what one is."""
    gives("a word", ("word", 0, None, 1, "words"), lambda: refused(lambda: Client(USER, ["BU", "level=middle"])))
    gives("an empty word", ("word", 0, None, 0, "words"), lambda: refused(lambda: Client(USER, [""])))
    gives("no UTF-8", ("utf8", 0, None, 3, "words"), lambda: refused(lambda: Client(USER, ["BU", "\udc80"])))
    gives("no domain", ("domain", 0, None, 0, "domain"), lambda: refused(lambda: Client(USER, [], USER)))
    gives("an alias", ("word", 0, None, 0, "words"), lambda: refused(lambda: Client(USER, ["DA"])))
    raises("a word with a zero byte", ValueError, lambda: Client(USER, ["BU\0WD"]))
    raises("one word", TypeError, lambda: Client(USER, "BU"))
    raises("a word that is none", TypeError, lambda: Client(USER, [USER]))  # type: ignore[list-item]
    raises("a user's text", TypeError, lambda: Client("BU"))  # type: ignore[arg-type]
    with Client(USER, ["DA"], domain=DOMAIN) as client, client.share() as other:
        client.close()
        admins = WholeDescriptor.from_sddl("D:(A;;FR;;;S-1-5-21-1-2-3-512)")
        gives("a share", "granted 0x1", lambda: str(admins.check(other, 0x1)))
        gives("a closed client", ("handle", 0, None, 0, "client"), lambda: refused(lambda: admins.check(client, 0x1)))
        gives("no share of it", ("handle", 0, None, 0, "client"), lambda: refused(client.share))


def questions() -> None:
    """What is no question about a descriptor."""
    with Client(USER, ["BU", "WD"]) as client, Token(USER) as token:
        for kind in (PROPERTY, PROPERTY.upper(), uuid.UUID(PROPERTY)):
            gives(f"the type {kind!r}", "granted 0x10", lambda: str(OF_PROPERTY.check(client, 0x10, [kind])))
        gives("five types", "granted 0x10", lambda: str(OF_PROPERTY.check(client, "RP", 5 * [PROPERTY])))
        six = ("types", 0, None, 0, "types")
        gives("six types", six, lambda: refused(lambda: OF_PROPERTY.check(client, 0x10, 6 * [PROPERTY])))
        for spelled in ("{" + PROPERTY + "}", PROPERTY.replace("-", ""), "urn:uuid:" + PROPERTY, "", "BU"):
            raises(f"the type {spelled!r}", ValueError, lambda: OF_PROPERTY.check(client, 0x10, [spelled]))
        raises("one type", TypeError, lambda: OF_PROPERTY.check(client, 0x10, PROPERTY))
        raises("a type's bytes", TypeError, lambda: OPEN.check(client, 0x1, [bytes(16)]))  # type: ignore[list-item]
        raises("a token", TypeError, lambda: OPEN.check(token, 0x1))  # type: ignore[arg-type]
        raises("a SID's text", TypeError, lambda: OPEN.check(client, 0x1, principal_self="BU"))  # type: ignore[arg-type]
        for entry in ("(SP;;;;;S-1-17-1)", "(TL;;0x2;;;S-1-19-512-4096)", "(FL;;0x2;;;WD;(a))"):
            limited = WholeDescriptor.from_sddl(f"D:(A;;FR;;;BU)S:{entry}")
            unsure = ("undecided", 7, "MayBeDenied", 0, "descriptor")
            gives(f"a grant by {entry}", unsure, lambda: refused(lambda: limited.check(client, "FR")))
            gives(f"a denial by {entry}", "denied 0x2", lambda: str(limited.check(client, 0x2)))
        tree = [(0, "bf967aba-0de6-11d0-a285-00aa003049e2"), (1, uuid.UUID(PROPERTY)), (1, str(uuid.UUID(int=1)))]
        nodes = ["denied 0x10", "granted 0x10", "denied 0x10"]
        gives("a tree", nodes, lambda: list(map(str, OF_PROPERTY.check_types(client, "RP", iter(tree)))))
        for wrong, fault in (
            ([], (1, "NoClass", 0)),
            (tree[1:], (2, "LevelLeftOut", 0)),
            (tree + tree[:1], (3, "SecondClass", 3)),
            (tree[:2] + tree[1:], (5, "Repeated", 2)),
        ):
            no_tree = ("tree", *fault, "tree")
            gives(f"the tree {wrong}", no_tree, lambda: refused(lambda: OPEN.check_types(client, 0x1, wrong)))
        raises("a level of 33 bits", ValueError, lambda: OPEN.check_types(client, 0x1, [(1 << 32, PROPERTY)]))
        wrongs: List[Any] = [PROPERTY, (0,), (0, PROPERTY, 0), ("0", PROPERTY), (True, PROPERTY), (0, bytes(16))]
        for node in wrongs:
            raises(f"the node {node!r}", TypeError, lambda: OPEN.check_types(client, 0x1, [node]))
        raises("a token for a tree", TypeError, lambda: OPEN.check_types(token, 0x1, tree))  # type: ignore[arg-type]
        wide = ("mapping", 0, None, 0, "mapping")
        gives("a mapping", wide, lambda: refused(lambda: OPEN.check(client, 0x1, mapping=(0, 0, 0, 1 << 21))))


if __name__ == "__main__":
    rows(sys.argv[1])
    trees(sys.argv[2])
    clients()
    questions()
    sys.exit(close())
