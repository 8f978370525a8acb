"""`estate accounts` of LDIF, as RFC 2849 and the attributes of Active Directory have it, and files that nobody should
trust. What each file of accounts has to hold is written here by hand."""

from sources import (
    BASE,
    CROSS_REF,
    DISTRIBUTION,
    DOMAIN,
    GROUP,
    LDAPSEARCH,
    LINES,
    OTHER,
    SECOND,
    SECURITY,
    USER,
    Accounts,
    binary,
    encoded,
    entry,
    group,
    user,
)


class Ldif(Accounts):
    def test_ldapsearch(self) -> None:
        self.assertEqual(self.accounts(LDAPSEARCH, says="estate: 1 user, 1 group, 1 member, 1 disabled\n"), LINES)

    def test_other_programs(self) -> None:
        """ldbsearch prints SIDs as texts, and ldifde its entries as changes, in UTF-16 too."""
        ldbsearch = LDAPSEARCH.replace(f":: {binary(1105)[:20]}\n {binary(1105)[20:]}", f": {USER}")
        ldbsearch = ldbsearch.replace("# search reference\n", "# Referral\n").split("# search result")[0]
        ldifde = LDAPSEARCH.split("# search reference")[0].replace("\nobjectClass: top", "\nchangetype: add")
        ldifde = ldifde.replace("\n", "\r\n")
        headed = ["version: 1\n" + ldbsearch, "version: 1\n\n" + ldbsearch]
        for text in ("# record 1\n" + ldbsearch, ldifde, ldifde.encode("utf-16"), *headed):
            with self.subTest(text[:20]):
                self.assertEqual(self.accounts(text), LINES)

    def test_names_of_domains(self) -> None:
        """By --domain, by a crossRef, and of groups that each machine has; without one the names stand alone."""
        named = [line.replace(" alice", " EXAMPLE\\alice").replace(" Sales", " EXAMPLE\\Sales") for line in LINES]
        self.assertEqual(self.accounts(LDAPSEARCH, words=("--domain", "EXAMPLE")), named)
        self.assertEqual(self.accounts(LDAPSEARCH, CROSS_REF, says="left out: 1 other object"), named)
        builtin = entry(
            f"CN=Users,CN=Builtin,{BASE}", "objectClass: group", "objectSid: S-1-5-32-545", "sAMAccountName: Users",
            "groupType: -2147483643",
        )  # fmt: skip
        self.assertEqual(self.accounts(builtin, CROSS_REF), ["group S-1-5-32-545 BUILTIN\\Users"])
        child = entry(
            f"CN=C,CN=Partitions,CN=Configuration,{BASE}", "objectClass: crossRef", f"nCName: DC=child,{BASE}",
            "nETBIOSName: CHILD",
        )  # fmt: skip
        theirs = entry(
            f"CN=alice,DC=child,{BASE}", "objectClass: user", "objectSid: S-1-5-21-4-5-6-1105", "sAMAccountName: alice"
        )
        both = [f"user {USER} EXAMPLE\\alice", "user S-1-5-21-4-5-6-1105 CHILD\\alice"]
        self.assertEqual(self.accounts(user("alice", USER), theirs, child, CROSS_REF), both)
        self.write("two", user("alice", USER) + theirs)
        says = "'E' names one domain, and the accounts that it would name are of S-1-5-21-1-2-3, S-1-5-21-4-5-6"
        self.runs(2, "accounts", "--domain", "E", "two", "new", says=says)
        self.runs(2, "accounts", "--domain", "A\\B", "two", "new", says="a name without a backslash is expected")
        self.runs(2, "accounts", "--domain", "A\nB", "two", "new", says="the name has a control character")

    def test_distinguished_names(self) -> None:
        """They are the same in any case and with any escapes (RFC 4514)."""
        pairs = (
            ("CN=Smith\\, John", "cn=SMITH\\2C john"),
            ("CN=a\\+b\\=c\\;\\<\\>\\\"\\\\", "CN=A\\2bB=c\\3B\\3c\\3e\\22\\5c"),
            ("CN=\\#1", "CN=\\231"),
            ("CN=\\ a\\ ", "CN=\\20a\\20"),
            ("CN=\u00c9\u03a3", "CN=\\C3\\A9\\cf\\83"),
            ("CN=a b", "CN = a b "),
            ("CN=a\\,CN\\=b", "CN=a\\2cCN\\3db"),
            ("CN=a\\0ADEL:1", "CN=a\\0adel:1"),
            ("CN=x", "<GUID=0>;<SID=S-1-5-18>;CN=x"),
        )
        for dn, member in pairs:
            with self.subTest(dn):
                text = entry(dn, "objectClass: user", f"objectSid: {USER}", "sAMAccountName: a")
                text = text.replace(f"dn: {dn}", f"dn:: {encoded(dn)}")
                text += group("g", GROUP, SECURITY, f"member:: {encoded(member)}")
                self.assertIn(f"member {GROUP} {USER}", self.accounts(text))
        for dn, member in (("CN=a\\,CN=b", "CN=a,CN=b"), ("CN=a\\2c", "CN=a"), ("CN=stra\u00dfe", "CN=strasse")):
            with self.subTest(dn):
                text = entry("x", "objectClass: user", f"objectSid: {USER}").replace("dn: x", f"dn:: {encoded(dn)}")
                self.accounts(text + group("g", GROUP, SECURITY, f"member:: {encoded(member)}"), status=1)
                self.assertIn("unknown", self.rows[-1])

    def test_nested_groups(self) -> None:
        """In each other, in themselves, and by either attribute."""
        text = group("a", GROUP, SECURITY, f"member: CN=b,{BASE}", f"member: CN=a,{BASE}")
        text += group("b", SECOND, SECURITY, f"member: CN=a,{BASE}", f"memberOf: CN=a,{BASE}")
        lines = [f"group {GROUP} a", f"group {SECOND} b", f"member {GROUP} {GROUP}", f"member {GROUP} {SECOND}"]
        self.assertEqual(self.accounts(text), [*lines, f"member {SECOND} {GROUP}"])

    def test_distribution_groups(self) -> None:
        """No token has them, nor groups that one is in only by them."""
        text = user("u", USER) + group("d", GROUP, DISTRIBUTION, f"member: CN=u,{BASE}", "member: CN=gone")
        text += group("s", SECOND, SECURITY, f"member: CN=d,{BASE}")
        said = "estate: 1 user, 1 group, 0 members, 0 disabled; left out: 1 distribution group, 3 members in or of no"
        self.assertEqual(self.accounts(text, says=said), [f"user {USER} u", f"group {SECOND} s"])

    def test_foreign_members(self) -> None:
        """By objectSid, by the name that the object has, and where the object is in no source."""
        foreign = [f"CN=S-1-5-21-7-8-9-{number},CN=ForeignSecurityPrincipals,{BASE}" for number in (1, 2, 3)]
        text = group("g", GROUP, SECURITY, *(f"member: {dn}" for dn in foreign), f"member: CN=moved,{BASE}")
        text += entry(foreign[0], "objectClass: top", "objectClass: foreignSecurityPrincipal")
        text += entry(foreign[1], "objectClass: foreignSecurityPrincipal", "objectSid: S-1-5-21-7-8-9-2")
        text += entry(f"CN=moved,{BASE}", "objectClass: foreignSecurityPrincipal", "objectSid: S-1-5-11")
        members = [f"member {GROUP} {sid}" for sid in ("S-1-5-11", *(f"S-1-5-21-7-8-9-{each}" for each in (1, 2, 3)))]
        self.assertEqual(self.accounts(text), [f"group {GROUP} g", *members])

    def test_former_sids(self) -> None:
        """A token has them as groups."""
        text = user("u", USER, "sIDHistory: S-1-5-21-4-5-6-70", "sIDHistory:: " + binary(9))
        self.assertEqual(
            self.accounts(text),
            [f"user {USER} u", f"member {DOMAIN}-9 {USER}", f"member S-1-5-21-4-5-6-70 {USER}"],
        )

    def test_members_that_are_missing(self) -> None:
        """Who isn't in the sources, in any group; and the rest of a list that the directory returned in part."""
        text = group("g", GROUP, SECURITY, "member: CN=gone,DC=x", "member;range=0-1: CN=gone,DC=x")
        text += user("u", USER, "memberOf: CN=none,DC=x")
        lines = [f"user {USER} u", f"group {GROUP} g"]
        self.assertEqual(self.accounts(text, status=1, says="left out: 3 unknown"), lines)
        rows = [f"CN=none,DC=x\t{USER}", f"{GROUP}\tCN=gone,DC=x", f"{GROUP}\tmember;range=2-*"]
        self.assertEqual(self.rows, [f"unknown\t{row}" for row in rows])
        text = user("u", USER) + user("v", OTHER) + group("g", GROUP, f"member;range=0-0: CN=u,{BASE}")
        rest = entry(f"CN=g,{BASE}", f"member;range=1-*: CN=v,{BASE}")
        members = [f"member {GROUP} {USER}", f"member {GROUP} {OTHER}"]
        self.assertEqual(self.accounts(text, rest, says="1 group assumed to be for security")[-2:], members)

    def test_objects_that_are_no_accounts(self) -> None:
        """Contacts, containers and deleted users are counted; what should have a SID, or a kind, has a row."""
        contact = entry(f"CN=c,{BASE}", "objectClass: contact", f"memberOf: CN=g,{BASE}")
        text = group("g", GROUP, SECURITY, f"member: CN=c,{BASE}") + contact + "dn: \nobjectClass: top\n\n"
        text += entry(BASE, "objectClass: domainDNS", f"objectSid: {DOMAIN}") + user("u", USER, "isDeleted: TRUE")
        says = "1 group, 0 members, 0 disabled; left out: 1 member in or of no security group, 3 other objects"
        self.assertEqual(self.accounts(text, says=says), [f"group {GROUP} g"])
        text = entry("CN=u,DC=x", "objectClass: user") + entry("CN=w,DC=x", f"objectSid: {USER}")
        self.assertEqual(self.accounts(text, status=1, says="2 skipped"), [])
        why = "no source says whether it is a user or a group"
        self.assertEqual(self.rows, ["skipped\tCN=u,DC=x\ta user without a SID", f"skipped\t{USER}\t{why}"])

    def test_classes(self) -> None:
        """Which classes users have; and attributes that show a kind without a class."""
        shown = ("computer", "inetOrgPerson", "msDS-GroupManagedServiceAccount", "msDS-ManagedServiceAccount")
        for each in (*(f"objectClass: {name}" for name in shown), "userAccountControl: 4096", "primaryGroupID: 515"):
            text = entry("CN=m,DC=x", each, f"objectSid: {USER}", "sAMAccountName: M$")
            self.assertEqual(self.accounts(text)[0], f"user {USER} M$")
        text = entry("CN=g,DC=x", f"objectSid: {GROUP}", "sAMAccountName: g", SECURITY)
        self.assertEqual(self.accounts(text), [f"group {GROUP} g"])

    def test_odd_names(self) -> None:
        """All but control characters are kept; a name that two users have is of neither."""
        odd = (" lead", "trail ", "a=b;c", '"q"', "# x", "\u00e9\u4e2d", "--names", "../x", "a\\b")
        for name in odd:
            with self.subTest(name):
                text = entry("CN=u", "objectClass: user", f"objectSid: {USER}", f"sAMAccountName:: {encoded(name)}")
                self.assertEqual(self.accounts(text), [f"user {USER} {name}"])
        for data, why in (
            (b"a\nuser S-1-5-18 x", "the name has a control character\ta\\nuser S-1-5-18 x"),
            (b"a\xc2\x85", "the name has a control character\ta\\x85"),
            (b"a\xff", "the name isn't UTF-8\ta\\udcff"),
            (b"", "the name is empty\t"),
        ):
            with self.subTest(data):
                text = entry("CN=u", "objectClass: user", f"objectSid: {USER}", f"sAMAccountName:: {encoded(data)}")
                self.assertEqual(self.accounts(text, status=1, says="1 skipped"), [f"user {USER} {USER}"])
                self.assertEqual(self.rows, [f"skipped\t{USER}\t{why}"])
        text = user("x", USER, "userPrincipalName: Both@x") + user("y", OTHER, "userPrincipalName: both@X")
        self.assertEqual(self.accounts(text, status=1, says="2 skipped"), [f"user {USER} x", f"user {OTHER} y"])
        self.assertEqual(self.rows[0], f"skipped\t{USER}\tanother account has the name too\tBoth@x")

    def test_files_that_are_invalid(self) -> None:
        good = user("u", USER)
        self.refuses(
            ("", "source: it has no line with an account"),
            ("# nothing\n\n", "source: it has no line with an account"),
            ("hello\n", "line 1: LDIF, a CSV with a column SID, a hive, or what getent, wbinfo, pdbedit or net prints"),
            (good + "cn: x\n", "line 6: 'dn: ..' is expected, and not 'cn'"),
            (good.rstrip() + "\n" + good, "line 5: a blank line is expected before the next entry"),
            (good.rstrip() + "\n-\n", "line 5: 'attribute: value' is expected, and not '-'"),
            (good + " x\n", "line 6: it continues no line"),
            (good + "dn: x\nchangetype: delete\n", "line 7: changes aren't supported: changetype 'delete'"),
            (good + "result: 4 Size limit exceeded\n", "line 6: the search ended early, so entries are missing: '4 "),
            (user("u", "S-1-5"), "line 3: objectsid isn't a SID: 'S-1-5'"),
            (user("u", "BA"), "line 3: objectsid isn't a SID: 'BA'"),
            (user("u", "S-1-5-4294967296"), "line 3: objectsid isn't a SID"),
            (user("u", "S-1-5-1" + "0" * 5000), "line 3: objectsid isn't a SID"),
            (good.replace(f": {USER}", ":: AQU="), "line 3: objectsid isn't a SID: 'AQU='"),
            (good.replace(f": {USER}", ":: AQU"), "line 3: objectsid: invalid base64"),
            (good.replace(f": {USER}", ":< file:///etc/passwd"), "line 3: objectsid is in another file"),
            (user("u", USER, f"objectSid: {OTHER}"), "line 5: a second value of objectsid"),
            (user("u", USER, "userAccountControl: 0x202"), "line 5: useraccountcontrol is a number of 32 bits"),
            (user("u", USER, "primaryGroupID: 99999999999"), "line 5: primarygroupid is a number of 32 bits"),
            (group("g", GROUP, "member: x"), "line 5: invalid DN: 'x'"),
            (group("g", GROUP, "member: CN=a\\"), "line 5: invalid DN"),
            (group("g", GROUP, "member: CN=a,"), "line 5: invalid DN"),
            (good + user("U", OTHER), f"source: line 6: {USER}: {OTHER} here, and {USER} in source: line 1"),
            (good + group("g", USER), f"source: line 6: {USER}: a group here, and a user in source: line 1"),
            (CROSS_REF + CROSS_REF.replace("EXAMPLE", "OTHER"), "line 9: the domain has another name before"),
            (good.encode() + b"cn: \xff\n", f"invalid UTF-8 at byte {len(good) + 4}"),
        )
