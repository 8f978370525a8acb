"""What the tests of `estate accounts` share: accounts of a directory as LDIF, what ldapsearch prints, and the lines
that a file has to have."""

import base64
from collections.abc import Sequence

from rig import Case, sid_bytes

DOMAIN = "S-1-5-21-1-2-3"
USER, OTHER, GROUP, SECOND, THIRD = (f"{DOMAIN}-{number}" for number in (1105, 1106, 1200, 1201, 1202))
HEAD = "# Accounts by estate: users, groups, members, primary groups, disabled users."
BASE = "DC=example,DC=test"


def binary(number: int) -> str:
    """A SID of the domain, as LDIF has it."""
    return base64.b64encode(sid_bytes((5, (21, 1, 2, 3, number)))).decode()


def encoded(text: str | bytes) -> str:
    return base64.b64encode(text if isinstance(text, bytes) else text.encode()).decode()


def entry(dn: str, *lines: str) -> str:
    return "\n".join((f"dn: {dn}", *lines, "", ""))


def user(name: str, sid: str, *lines: str) -> str:
    return entry(f"CN={name},{BASE}", "objectClass: user", f"objectSid: {sid}", f"sAMAccountName: {name}", *lines)


def group(name: str, sid: str, *lines: str) -> str:
    return entry(f"CN={name},{BASE}", "objectClass: group", f"objectSid: {sid}", f"sAMAccountName: {name}", *lines)


SECURITY, DISTRIBUTION = "groupType: -2147483646", "groupType: 2"
CROSS_REF = entry(
    f"CN=E,CN=Partitions,CN=Configuration,{BASE}", "objectClass: crossRef", f"nCName: {BASE}", "nETBIOSName: EXAMPLE"
)
#: As ldapsearch prints: folded lines, also of a comment and of base64; a reference; how the search ended.
LDAPSEARCH = f"""\
# extended LDIF
#
# LDAPv3
# base <dc=example,dc=test> with scope subtree, and a line that is long enough to
  be folded
#

# Alice A., Users, example.test
dn: CN=Alice A.,CN=Users,DC=exam
 ple,DC=test
objectClass: top
objectClass: person
objectClass: user
memberOf: CN=Sales,CN=Users,DC=example,DC=test
userAccountControl: 514
primaryGroupID: 513
objectSid:: {binary(1105)[:20]}
 {binary(1105)[20:]}
sAMAccountName: alice
userPrincipalName:: {encoded("ali" + chr(233) + "@example.test")}

# Sales, Users, example.test
dn: CN=Sales,CN=Users,DC=example,DC=test
objectClass: top
objectClass: group
member: CN=Alice A.,CN=Users,DC=example,DC=test
objectSid:: {binary(1200)}
sAMAccountName: Sales
groupType: -2147483646

# search reference
ref: ldap://example.test/CN=Configuration,DC=example,DC=test

# search result
search: 2
result: 0 Success

# numResponses: 4
# numEntries: 2
# numReferences: 1
"""
#: The lines of both entries, without a name of the domain.
LINES = [
    f"user {USER} alice",
    f"user {USER} ali\u00e9@example.test",
    f"group {GROUP} Sales",
    f"member {GROUP} {USER}",
    f"primary {USER} {DOMAIN}-513",
    f"disabled {USER}",
]


class Accounts(Case):
    def accounts(
        self, *sources: str | bytes, status: int = 0, says: str = "", words: Sequence[str] = ()
    ) -> list[str]:
        """The lines of the file for sources of these texts, but the first, and its rows in `self.rows`."""
        names = [self.write(f"source{number}", text).name for number, text in enumerate(sources)]
        self.rows = self.runs(status, "accounts", *words, *names, "out", says=says)
        head, *lines = (self.room / "out").read_text(encoding="utf-8").removesuffix("\n").split("\n")
        self.assertEqual(head, HEAD)
        if self.rows:
            self.assertRegex(lines.pop(0), r"^incomplete [0-9]+ skipped, [0-9]+ unknown$")
        return lines

    def refuses(self, *rows: tuple[str | bytes, str], others: tuple[str, ...] = ()) -> None:
        """Each source is invalid as a whole, for this reason, and nothing is written."""
        for text, says in rows:
            with self.subTest(text[-60:]):
                self.write("source", text)
                self.runs(2, "accounts", *others, "source", "new", says=says)
                self.assertEqual([path for path in self.room.iterdir() if path.name.startswith(("new", "."))], [])
