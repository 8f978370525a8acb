"""`estate schema`: names of object types of LDIF. The GUIDs are those of [MS-ADTS] and [MS-ADSC], and each file is written
here by hand."""

import base64
import uuid

from rig import Case

HEAD = "# Object types by estate: classes, attributes, property sets, rights."
USER, MEMBER, RESET, PERSONAL = (
    "bf967aba-0de6-11d0-a285-00aa003049e2", "bf9679c0-0de6-11d0-a285-00aa003049e2",
    "00299570-246d-11d0-a768-00aa006e0529", "77b5b886-944a-11d1-aebd-0000f80367c1",
)  # fmt: skip


def binary(guid: str) -> str:
    return base64.b64encode(uuid.UUID(guid).bytes_le).decode()


#: As ldapsearch prints classes and attributes, with GUIDs in base64, and ldbsearch the rights.
SCHEMA = f"""\
dn: CN=User,CN=Schema,CN=Configuration,DC=example,DC=test
objectClass: top
objectClass: classSchema
lDAPDisplayName: user
schemaIDGUID:: {binary(USER)}

dn: CN=Member,CN=Schema,CN=Configuration,DC=example,DC=test
objectClass: attributeSchema
schemaIDGUID:: {binary(MEMBER)}
lDAPDisplayName: member

dn: CN=Schema,CN=Configuration,DC=example,DC=test
objectClass: dMD
cn: Schema

# search result
search: 2
result: 0 Success
"""
RIGHTS = f"""\
# record 1
dn: CN=User-Force-Change-Password,CN=Extended-Rights,CN=Configuration,DC=example,DC=test
objectClass: controlAccessRight
cn: User-Force-Change-Password
displayName: Reset Password
rightsGuid: {RESET.upper()}
validAccesses: 256

# record 2
dn: CN=Personal-Information,CN=Extended-Rights,CN=Configuration,DC=example,DC=test
objectClass: controlAccessRight
cn: Personal-Information
displayName: Personal-Information
rightsGuid: {PERSONAL}
validAccesses: 48
"""
LINES = [
    HEAD, f"class {USER} user", f"attribute {MEMBER} member", f"set {PERSONAL} Personal-Information",
    f"right {RESET} Reset Password", f"right {RESET} User-Force-Change-Password",
]  # fmt: skip


class Schema(Case):
    def schema(self, *sources: str, says: str = "") -> list[str]:
        names = [self.write(f"source{number}", text).name for number, text in enumerate(sources)]
        self.assertEqual(self.runs(0, "schema", *names, "out", says=says), [])
        return (self.room / "out").read_text(encoding="utf-8").removesuffix("\n").split("\n")

    def test_directory(self) -> None:
        """In any order, and again over the file that it wrote."""
        says = "estate: 1 class, 1 attribute, 1 property set, 1 right\n"
        self.assertEqual(self.schema(SCHEMA, RIGHTS, says=says), LINES)
        self.assertEqual(self.schema(RIGHTS, SCHEMA, RIGHTS, says=says), LINES)

    def test_refused(self) -> None:
        for text, says in (
            (SCHEMA.replace(binary(USER), "AAAA"), "line 5: schemaidguid isn't a GUID: 'AAAA'"),
            (RIGHTS.replace(PERSONAL, "77b5"), "rightsguid isn't a GUID: '77b5'"),
            (RIGHTS.replace("Reset Password", "Reset\tPassword"), "displayname: the name has a control character"),
            (SCHEMA.replace("result: 0", "result: 4"), "the search ended early, so entries are missing"),
            ("dn: CN=x\nobjectClass: classSchema\n", "it has no class, attribute or right with a GUID and a name"),
        ):
            with self.subTest(says):
                self.write("source", text)
                self.runs(2, "schema", "source", "new", says=says)
                self.assertFalse((self.room / "new").exists())

    def test_another_file_stays(self) -> None:
        self.write("source", SCHEMA)
        self.write("other", "group:x\n")
        self.runs(1, "schema", "source", "other", says="other: it is no schema file, and isn't replaced")
        self.assertEqual((self.room / "other").read_text(), "group:x\n")
