"""`estate accounts` of CSV and of lines of Unix systems, and the file that it writes. What that has to hold is written
here by hand."""

import io
import os
import random

import rig  # noqa: F401 (the modules of estate are in its folders)
from account_sources import read_sources
from errors import EstateError
from joining import Joining
from sources import (
    BASE,
    CROSS_REF,
    DOMAIN,
    GROUP,
    HEAD,
    LDAPSEARCH,
    OTHER,
    SECOND,
    SECURITY,
    THIRD,
    USER,
    Accounts,
    entry,
    group,
)
from table import Table


class Csv(Accounts):
    USERS = (
        '"DistinguishedName","Enabled","MemberOf","Name","ObjectClass","primaryGroupID","SamAccountName","SID",'
        '"UserPrincipalName"\r\n'
        f'"CN=Smith\\, John,{BASE}","False","CN=a\\;b,{BASE};CN=g,{BASE}","x","user","513","john","{USER}","john@x"\r\n'
        f'"CN=PC,{BASE}","True","","x","computer","515","PC$","{OTHER}",""\r\n'
    )
    GROUPS = (
        '#TYPE Microsoft.ActiveDirectory.Management.ADGroup\n'
        '"sid","SAMACCOUNTNAME","GroupCategory","DistinguishedName"\n'
        f'"{GROUP}","g","Security","CN=g,{BASE}"\n"{SECOND}","a;b","1","CN=A\\3BB,{BASE}"\n'
        f'"{THIRD}","mail","Distribution","CN=m,{BASE}"\n'
    )
    NAMES = [
        f"user {USER} john", f"user {USER} john@x", f"user {OTHER} PC$", f"group {GROUP} g", f"group {SECOND} a;b",
    ]  # fmt: skip
    LINES = [
        *NAMES, f"member {GROUP} {USER}", f"member {SECOND} {USER}", f"primary {USER} {DOMAIN}-513",
        f"primary {OTHER} {DOMAIN}-515", f"disabled {USER}",
    ]  # fmt: skip

    def test_exports(self) -> None:
        """Of Get-ADUser, Get-ADComputer and Get-ADGroup, with any delimiter, in any encoding."""
        says = "2 users, 2 groups, 2 members, 1 disabled; left out: 1 distribution group"
        self.assertEqual(self.accounts(self.USERS, self.GROUPS, says=says), self.LINES)
        self.assertEqual(self.accounts(self.GROUPS.encode("utf-16"), self.USERS.encode("utf-8-sig")), self.LINES)
        others = self.USERS.replace('","', '";"'), self.GROUPS.replace('","', '"\t"')
        self.assertEqual(self.accounts(*others), self.LINES)

    def test_primary_groups(self) -> None:
        """PrimaryGroup is a DN."""
        users = f"SID,SamAccountName,PrimaryGroup\n{USER},u,\"cn=G,{BASE}\"\n{OTHER},v,CN=none\n"
        lines = self.accounts(self.GROUPS, users, status=1)
        self.assertEqual(lines[-1], f"primary {USER} {GROUP}")
        self.assertEqual(self.rows, [f"unknown\tCN=none\t{OTHER}"])

    def test_members(self) -> None:
        """Rows of Get-ADGroupMember beside the group's SID, its DN, or a name that one group has."""
        rows = "objectClass,SamAccountName,SID\n"
        for column, value in (
            ("GroupSid", GROUP), ("Group", GROUP), ("Group", f'"cn=G,{BASE}"'), ("Group", "G"), ("group", "e\\g"),
        ):  # fmt: skip
            with self.subTest(value):
                text = f"{column},{rows}{value},user,john,{USER}\n{value},foreignSecurityPrincipal,,S-1-5-11\n"
                lines = self.accounts(text, self.GROUPS, words=("--domain", "E"))
                self.assertEqual(lines[0], f"user {USER} E\\john")
                self.assertEqual(lines[-2:], [f"member {GROUP} S-1-5-11", f"member {GROUP} {USER}"])
        self.write("groups", self.GROUPS + f'"{DOMAIN}-1300","H","Security",""\n"{DOMAIN}-1301","h","Security",""\n')
        self.refuses(
            (f"Group,{rows}none,user,john,{USER}\n", "source: line 2: 0 groups of the sources have the name 'none'"),
            (f"Group,{rows}h,user,john,{USER}\n", "source: line 2: 2 groups of the sources have the name 'h'"),
            (f"Group,{rows},user,john,{USER}\n", "source: line 2: the group is empty"),
            (f"GroupSid,{rows}g,user,john,{USER}\n", "source: line 2: groupsid isn't a SID: 'g'"),
            others=("groups",),
        )

    def test_rows_that_are_invalid(self) -> None:
        collection = "Microsoft.ActiveDirectory.Management.ADPropertyValueCollection"
        self.refuses(
            ("SID,SID\n", "line 1: the column 'sid' twice"),
            (f"SID,Name\n{USER}\n", "line 2: it has 1 cells, and the header 2"),
            ("SID,Name\nEXAMPLE\\x,x\n", "line 2: sid isn't a SID: 'EXAMPLE\\\\x'"),
            ("SID,Name\n,x\n", "line 2: it has neither a SID nor a DistinguishedName"),
            (f"SID,Enabled\n{USER},Yes\n", "line 2: enabled has an unknown value: 'yes'"),
            (f"SID,MemberOf\n{USER},{collection}\n", "line 2: memberof is the name of a type: join its values by ';'"),
            (f"SID,MemberOf\n{USER},Sales\n", "line 2: invalid DN: 'Sales'"),
            (f"SID,MemberOf\n{USER},CN=a;CN=b\\\n", "line 2: invalid DN: 'CN=b\\\\'"),
            (f"SID,SIDHistory\n{USER},x\n", "line 2: sidhistory isn't SIDs with ';' between them: 'x'"),
            (f"SID,GroupCategory\n{USER},Both\n", "line 2: groupcategory has an unknown value: 'both'"),
            (f'SID,Name\n{USER},"x\n', "line 2: unexpected end of data"),
        )
        self.accounts(f"SID,ObjectClass\n{USER},thing\n", status=1, says="1 skipped")
        self.assertEqual(self.rows, [f"skipped\t{USER}\tno source says whether it is a user or a group"])


class Unix(Accounts):
    PASSWD = "root:x:0:0:root:/root:/bin/bash\nann:*:1000:1000:Ann, x:/home/ann:/bin/sh\nbob::1001:100::/:\n"
    GROUP = "root:x:0:\nann:x:1000:\nstaff:x:50:ann,bob\n"
    LINES = [
        "user S-1-22-1-0 root", "user S-1-22-1-1000 ann", "user S-1-22-1-1001 bob", "group S-1-22-2-0 root",
        "group S-1-22-2-50 staff", "group S-1-22-2-1000 ann", "member S-1-22-2-50 S-1-22-1-1000",
        "member S-1-22-2-50 S-1-22-1-1001", "primary S-1-22-1-0 S-1-22-2-0", "primary S-1-22-1-1000 S-1-22-2-1000",
        "primary S-1-22-1-1001 S-1-22-2-100",
    ]  # fmt: skip

    def test_getent(self) -> None:
        """In one file or in two; a user and a group may have the same name."""
        self.assertEqual(self.accounts(self.PASSWD, self.GROUP), self.LINES)
        self.assertEqual(self.accounts(self.GROUP + self.PASSWD, says="3 users, 3 groups, 2 members"), self.LINES)

    def test_members_of_a_directory(self) -> None:
        """By a name with the domain's; others are unknown, also if a directory has such a user."""
        groups = "wheel:x:10:EXAMPLE\\Alice,alice\n"
        lines = self.accounts(LDAPSEARCH, groups, status=1, words=("--domain", "EXAMPLE"))
        self.assertIn(f"member S-1-22-2-10 {USER}", lines)
        self.assertEqual(self.rows, ["unknown\tS-1-22-2-10\talice"])

    def test_wbinfo(self) -> None:
        """Names alone, of users and of groups by their numbers, or of an account that another source has."""
        text = f"{USER} -> EXAMPLE\\alice 1\nS-1-5-32-544 -> BUILTIN\\Administrators 4\n{GROUP} EXAMPLE\\All staff 7\n"
        text += f"{OTHER} -> \\ 8\n"
        lines = self.accounts(text, status=1)
        self.assertEqual(lines, [f"user {USER} EXAMPLE\\alice", "group S-1-5-32-544 BUILTIN\\Administrators"])
        why = "no source says whether it is a user or a group"
        self.assertEqual(self.rows, [f"skipped\t{OTHER}\t{why}", f"skipped\t{GROUP}\t{why}"])
        text = text.splitlines()[2] + "\n"
        lines = self.accounts(text, group("s", GROUP))
        self.assertEqual(lines, [f"group {GROUP} s", f"group {GROUP} EXAMPLE\\All staff 7"])

    def test_lines_that_are_invalid(self) -> None:
        self.refuses(
            (self.PASSWD + "+::::::\n", "line 4: a line of getent or wbinfo is expected, and not '+::::::'"),
            ("a:x:4294967296:\n", "line 1: a line of getent or wbinfo is expected"),
            ("a:x:1:1x::/:\nb:x:1:y:::\n", "line 1: the number of a group is expected"),
            ("S-1-5-99999999999 x\n", "line 1: a line of getent or wbinfo is expected"),
        )


class File(Accounts):
    def test_the_order_of_sources(self) -> None:
        """The bytes don't depend on it."""
        sources = [LDAPSEARCH, CROSS_REF, Csv.GROUPS, Unix.PASSWD, Unix.GROUP]
        lines = self.accounts(*sources)
        self.assertGreater(len(lines), 15)
        self.assertEqual(self.accounts(*reversed(sources)), lines)

    def test_files_that_are_not_replaced(self) -> None:
        """A source that was given in the place of the file, and what is no regular file. Accounts are replaced."""
        self.write("source", LDAPSEARCH)
        self.runs(1, "accounts", "source", "source", says="source: it is no file of accounts, and isn't replaced")
        self.assertEqual((self.room / "source").read_text(), LDAPSEARCH)
        for _ in range(2):
            self.runs(0, "accounts", "source", "out")
        self.write("bad", "dn: x\n")
        self.runs(2, "accounts", "bad", "out", says="bad: line 1: invalid DN")
        self.assertTrue((self.room / "out").read_text().endswith(f"disabled {USER}\n"))
        self.runs(3, "accounts", "none", "new", says="none: No such file")
        self.runs(3, "accounts", "source", "none/new", says="nothing is written")
        self.runs(2, "accounts", "source", says="the following arguments are required: FILE")
        os.mkfifo(self.room / "pipe")
        self.runs(3, "accounts", "source", "pipe", says="it is no regular file, and isn't replaced")
        self.runs(3, "accounts", "pipe", "new", says="pipe: it is no regular file")

    def test_names_of_files(self) -> None:
        """None is an option after --."""
        self.write("--domain", LDAPSEARCH)
        self.runs(0, "accounts", "--", "--domain", "--json")
        self.assertTrue((self.room / "--json").read_text().startswith(HEAD))

    def test_json(self) -> None:
        self.write("source", LDAPSEARCH)
        rows = self.runs(0, "accounts", "--json", "source", "out")
        self.assertIn('{"what": "written", "users": 1, "groups": 1, "members": 1, "disabled": 1, ', rows[0])

    def test_broken_sources(self) -> None:
        """Bytes that are changed, taken out or doubled are read as they stand, or refused."""
        pick, refused = random.Random(1), 0
        forms = [text.encode() for text in (LDAPSEARCH + CROSS_REF, Csv.USERS, Csv.GROUPS, Unix.PASSWD, Unix.GROUP)]
        for number in range(1500):
            data = bytearray(pick.choice(forms))
            for _ in range(pick.choice((1, 1, 3, 10))):
                at = pick.randrange(len(data) + 1)
                some = bytes(data[at : at + pick.randrange(60)])
                new = pick.choice((some * 2, b"", bytes([pick.randrange(256)]), pick.choice(b'\n :;,\\"#=-<').to_bytes()))
                data[at : at + len(some)] = new
            name = self.write("broken", bytes(data))
            with self.subTest(number):
                try:
                    Joining(read_sources([str(name)]), None, Table(False, str, io.StringIO())).run()
                except EstateError as error:
                    self.assertIn("broken: ", str(error))
                    refused += 1
        self.assertGreater(refused, 300)
        self.assertLess(refused, 1400)

    def test_a_large_source(self) -> None:
        """A million lines, in a group with itself and everybody in it."""
        numbers = range(1000, 201_000)
        users = (entry(f"CN=u{each}", f"objectSid: {DOMAIN}-{each}", "primaryGroupID: 513") for each in numbers)
        members = "".join(f"member: CN=u{each}\n" for each in numbers)
        text = "".join(users) + f"dn: CN=g\nobjectSid: {DOMAIN}-513\n{SECURITY}\nmember: CN=g\n{members}"
        self.assertGreater(text.count("\n"), 1_000_000)
        lines = self.accounts(text, says="200,000 users, 1 group, 200,001 members")
        self.assertEqual(lines[-1], f"primary {DOMAIN}-200999 {DOMAIN}-513")
