"""`estate accounts`: the accounts of a Windows machine, of a hive that libhivex makes here. Its values are laid out as
tools for offline hives document them: F of a user has its number at 0x30, that of its primary group at 0x34 and
UserAccountControl at 0x38; C of a local group has a header of 0x34 bytes, which says where its name and members are."""

import json
import struct
import subprocess
import sys

from rig import HERE, python_with, sid_bytes
from sources import BASE, Accounts, entry

MACHINE = "S-1-5-21-1-2-3"
THEIRS = (5, (21, 7, 8, 9, 512))
Values = list[tuple[str, int, str]]


def own(number: int) -> tuple[int, tuple[int, ...]]:
    return 5, (21, 1, 2, 3, number)


def user(number: int, control: int, primary: int = 513) -> Values:
    """F: a version, five times, three numbers, and 20 bytes about its language and its logons."""
    fixed = struct.pack("<IIQQQQQIII", 3, 0, 1, 0, 2, 0x7FFFFFFFFFFFFFFF, 0, number, primary, control) + bytes(20)
    return [("F", 3, fixed.hex()), ("V", 3, "00")]


def group(number: int, name: str, *members: tuple[int, tuple[int, ...]]) -> Values:
    """C: where the descriptor, the name, the comment and the members are, and then these. Here a descriptor of 8 bytes
    is before the name, and a comment after it, which are aligned."""
    named, comment, sids = name.encode("utf-16-le"), "x".encode("utf-16-le"), b"".join(map(sid_bytes, members))
    comment_at = 8 + (len(named) + 3) // 4 * 4
    head = (number, 0, 8, 0, 8, len(named), 0, comment_at, len(comment), 0, comment_at + 4, len(sids), len(members))
    parts = struct.pack("<13I", *head), bytes(8), named.ljust(comment_at - 8, b"\0"), comment + b"\0\0", sids
    return [("C", 3, b"".join(parts).hex())]


def named(*names: tuple[str, int]) -> dict[str, Values]:
    return {name: [("", number, "")] for name, number in names}


def keys() -> dict[str, Values]:
    """The keys of a machine with three users, and groups of its own and of BUILTIN."""
    domain, builtin = "SAM/Domains/Account", "SAM/Domains/Builtin/Aliases"
    made: dict[str, Values] = {
        domain: [("F", 3, "00"), ("V", 3, ("11" * 40) + sid_bytes((5, (21, 1, 2, 3))).hex())],
        f"{domain}/Users/000001F4": user(500, 0x210),
        f"{domain}/Users/000001F5": user(501, 0x215),
        f"{domain}/Users/000003E8": user(1000, 0x210),
        f"{domain}/Groups/00000201": [("C", 3, "00")],
        f"{domain}/Aliases/000003E9": group(1001, "Editors", own(1000), THEIRS),
        f"{domain}/Aliases/Members/{MACHINE}/000003E8": [("", 1, "e9030000")],
        f"{builtin}/00000220": group(544, "Administrators", own(500), THEIRS),
        f"{builtin}/00000221": group(545, "Users", (5, (4,)), (5, (11,)), own(1000)),
        f"{builtin}/00000222": group(546, "Guests"),
    }
    users = named(("Administrator", 500), ("Guest", 501), ("\u00c4nne", 1000))
    made |= {f"{domain}/Users/Names/{name}": values for name, values in users.items()}
    made |= {f"{domain}/Groups/Names/{name}": values for name, values in named(("None", 513)).items()}
    made |= {f"{domain}/Aliases/Names/{name}": values for name, values in named(("Editors", 1001)).items()}
    aliases = named(("Administrators", 544), ("Users", 545), ("Guests", 546))
    return made | {f"{builtin}/Names/{name}": values for name, values in aliases.items()}


LINES = [
    f"user {MACHINE}-500 Administrator", f"user {MACHINE}-501 Guest", f"user {MACHINE}-1000 \u00c4nne",
    f"group {MACHINE}-513 None", f"group {MACHINE}-1001 Editors", "group S-1-5-32-544 BUILTIN\\Administrators",
    "group S-1-5-32-545 BUILTIN\\Users", "group S-1-5-32-546 BUILTIN\\Guests", f"member {MACHINE}-1001 {MACHINE}-1000",
    f"member {MACHINE}-1001 S-1-5-21-7-8-9-512", f"member S-1-5-32-544 {MACHINE}-500",
    "member S-1-5-32-544 S-1-5-21-7-8-9-512", "member S-1-5-32-545 S-1-5-4", "member S-1-5-32-545 S-1-5-11",
    f"member S-1-5-32-545 {MACHINE}-1000", f"primary {MACHINE}-500 {MACHINE}-513",
    f"primary {MACHINE}-501 {MACHINE}-513", f"primary {MACHINE}-1000 {MACHINE}-513", f"disabled {MACHINE}-501",
]  # fmt: skip


class Hive(Accounts):
    def setUp(self) -> None:
        super().setUp()
        found = python_with("hivex")
        if found is None:
            self.skipTest("the package python3-hivex is required")
        self.python = found

    def hive(self, made: dict[str, Values]) -> bytes:
        name = self.room / "hive"
        subprocess.run([self.python, HERE / "hives.py", name], input=json.dumps(made), text=True, check=True)
        return name.read_bytes()

    def test_a_machine(self) -> None:
        says = "3 users, 5 groups, 7 members, 1 disabled"
        self.assertEqual(self.accounts(self.hive(keys()), says=says), LINES)
        lines = self.accounts(self.hive(keys()), words=("--domain", "DESK"))
        self.assertEqual(lines[0], f"user {MACHINE}-500 DESK\\Administrator")

    def test_a_machine_of_a_domain(self) -> None:
        """The domain's users are in the machine's groups by theirs; the directory's groups of BUILTIN count nowhere."""
        theirs = entry(f"CN=dora,{BASE}", "objectClass: user", "objectSid: S-1-5-21-7-8-9-1105", "sAMAccountName: dora")
        theirs += entry(
            f"CN=Users,CN=Builtin,{BASE}", "objectClass: group", "objectSid: S-1-5-32-545", f"member: CN=dora,{BASE}"
        )
        admins = entry(
            f"CN=Admins,{BASE}", "objectClass: group", "objectSid: S-1-5-21-7-8-9-512", "sAMAccountName: Admins",
            "groupType: -2147483646", f"member: CN=dora,{BASE}",
        )  # fmt: skip
        lines = self.accounts(self.hive(keys()), theirs + admins, says="left out: 1 member in or of no security group")
        more = {
            "user S-1-5-21-7-8-9-1105 dora", "group S-1-5-21-7-8-9-512 Admins",
            "member S-1-5-21-7-8-9-512 S-1-5-21-7-8-9-1105",
        }  # fmt: skip
        self.assertEqual(set(lines), {*LINES, *more})

    def test_other_global_groups(self) -> None:
        made = keys() | {"SAM/Domains/Account/Groups/Names/Odd": [("", 520, "")]}
        made["SAM/Domains/Account/Groups/00000208"] = [("C", 3, "00")]
        self.assertEqual(self.accounts(self.hive(made), status=1)[4], f"group {MACHINE}-520 Odd")
        self.assertEqual(self.rows, [f"unknown\t{MACHINE}-520\tits members, which aren't taken from a hive"])

    def test_hives_that_are_invalid(self) -> None:
        users, aliases = "SAM/Domains/Account/Users", "SAM/Domains/Builtin/Aliases"
        short = group(544, "Administrators", own(500))[0][2]
        rows: tuple[tuple[dict[str, Values], str], ...] = (
            ({"SAM/Domains/Account": [("V", 3, "00" * 64)]}, "Account\\V doesn't end in the SID of a machine"),
            ({f"{users}/000001F4": user(501, 0x210)}, "the user 500 has the number 501 too"),
            ({f"{users}/000001F4": [("F", 3, "00")]}, "unpack_from requires a buffer of at least"),
            ({f"{users}/000001F4": [("V", 3, "00")]}, "the key '000001F4' has no value 'F'"),
            ({f"{users}/000003EA": user(1002, 0)}, "the account 1002 has no name"),
            ({f"{users}/Names/x": [("", 1002, "")]}, "the account 1002 has a name alone"),
            ({f"{users}/Names/x": [("", 500, "")]}, "the account 500 has two names"),
            ({f"{users}/Names/x": [("x", 500, "")]}, "the key 'x' has no value ''"),
            ({f"{users}/more": []}, "an unknown key 'more'"),
            ({f"{aliases}/00000220": group(545, "Administrators")}, "the group 544 isn't laid out as a group"),
            ({f"{aliases}/00000220": group(544, "Users")}, "the group 544 isn't laid out as a group named"),
            ({f"{aliases}/00000220": [("C", 3, short[:-2])]}, "the group 544 isn't laid out as a group named"),
            ({f"{aliases}/00000220": [("C", 3, count(short, 2))]}, "the group 544 has a member without a SID"),
            ({f"{aliases}/00000220": [("C", 3, count(short, 0))]}, "the group 544 has more members than it counts"),
        )
        self.refuses(*((self.hive(keys() | made), f"source: no hive SAM: {says}") for made, says in rows))
        whole = self.hive(keys())
        self.refuses(
            (self.hive({"SAM/Domains": []}), "source: no hive SAM: the key Account is missing"),
            (whole[:4] + b"\x09" + whole[5:], "source: changes of it are in its logs alone: 'reg save"),
            (whole[:64], "source: "),
            (whole[:5000], "source: no hive SAM: "),
        )
        self.write("other", whole)
        self.refuses((whole, "the accounts of one machine are expected, and other has some too"), others=("other",))


def count(value: str, number: int) -> str:
    """C with another count of members, which is at 0x30."""
    return value[:0x60] + struct.pack("<I", number).hex() + value[0x68:]
