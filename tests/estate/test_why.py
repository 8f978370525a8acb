"""Whether a node of a folder grants rights, by all that its descriptor has: a condition, and a label. The bytes are laid
out by hand after [MS-DTYP] 2.4.4, and the answers are those of 2.5.3."""

import json
import os
import struct

from rig import Case, acl_bytes, form, needs_program, sid_bytes

ALICE = "S-1-5-21-1-2-3-1001"
BA, SY, WD, HIGH = (5, (32, 544)), (5, (18,)), (1, (0,)), (16, (12288,))
ALL, READ = 0x1F01FF, 0x120089
#: (@User.Level >= 3), as 2.4.4.17 has it: an attribute of the user, an integer of 64 bits, greater or equal.
CONDITION = b"artx\xf9" + struct.pack("<I", 10) + "Level".encode("utf-16-le") + b"\x04" + struct.pack("<q", 3) + b"\3\2\x85"


def entry(kind: int, mask: int, sid: tuple[int, tuple[int, ...]], data: bytes = b"") -> bytes:
    body = struct.pack("<I", mask) + sid_bytes(sid) + data + bytes(-len(data) % 4)
    return struct.pack("<BBH", kind, 0, 4 + len(body)) + body


#: Who has the claim reads, administrators have all, and nobody below High writes.
DESCRIPTOR = form(
    sid_bytes(BA),
    sid_bytes(SY),
    acl_bytes([entry(0x09, READ, WD, CONDITION), entry(0x00, ALL, BA)]),
    0x0004,
    acl_bytes([entry(0x11, 0x1, HIGH)]),
)


@needs_program
class Why(Case):
    def setUp(self) -> None:
        super().setUp()
        self.share = self.room / "share"
        (self.share / "plans").mkdir(parents=True)
        (self.share / "none").mkdir()
        try:
            for place in (self.share, self.share / "plans"):
                os.setxattr(place, "security.NTACL", self.ntacl(DESCRIPTOR))
        except OSError as error:
            self.skipTest(f"security.NTACL can't be written here: {error}")

    @staticmethod
    def ntacl(descriptor: bytes) -> bytes:
        """The first version, in which nothing but the descriptor is kept, 8 bytes behind what its offsets count from."""
        offsets = (each + 8 if each else 0 for each in struct.unpack_from("<4I", descriptor, 4))
        return struct.pack("<HHI", 1, 1, 1) + descriptor[:4] + struct.pack("<4I", *offsets) + descriptor[20:]

    def why(self, status: int, *words: str, says: str = "") -> list[str]:
        return self.runs(status, "why", self.share, *words, says=says)

    def test_a_condition(self) -> None:
        rows = self.why(0, "/plans", ALICE, "0x1", "@User.Level=3", says="granted")
        self.assertEqual(rows[:2], ["assumed\tS-1-1-0 S-1-5-11", "why\t/plans\tgranted 0x1"])
        self.assertIn("by entry 1", rows[2])
        self.assertEqual(self.why(1, "/plans", ALICE, "0x1", "@User.Level=2", says="denied")[1], "why\t/plans\tdenied 0x1")
        self.assertEqual(self.why(1, "/plans", ALICE, "0x1", says="denied")[1], "why\t/plans\tdenied 0x1")

    def test_a_group_of_the_device_is_none_of_the_user(self) -> None:
        rows = self.why(0, "/plans", ALICE, "0x1", "S-1-1-0=device", "@User.Level=3")
        self.assertEqual(rows[0], "assumed\tS-1-1-0 S-1-5-11")

    def test_a_label(self) -> None:
        rows = self.why(1, "/", ALICE, "0x2", "S-1-5-32-544", says="denied")
        self.assertEqual(rows[1:], ["why\t/\tdenied 0x2", "why\t/\tdenied 0x2 by the label"])
        self.assertEqual(self.why(0, "/", ALICE, "0x2", "S-1-5-32-544", "level=high")[1], "why\t/\tgranted 0x2")

    def test_a_user_of_a_file_of_accounts(self) -> None:
        """alice is an operator, and operators are administrators: nothing is assumed, and claims and a level count."""
        group = "S-1-5-21-1-2-3-1200"
        lines = (f"user {ALICE} EXAMPLE\\alice", f"member {group} {ALICE}", f"member BA {group}")
        self.write("accounts", "\n".join([*lines, "user S-1-5-21-1-2-3-1002 bob", "disabled S-1-5-21-1-2-3-1002", ""]))
        by = ("--accounts", "accounts")
        verdict, reason = self.why(0, "/", "alice", "0x1", *by, says="granted")
        self.assertEqual(verdict, "why\t/\tgranted 0x1")
        self.assertTrue(reason.startswith("why\t/\tgranted 0x1 by entry 2 "), reason)
        self.assertTrue(reason.endswith(" as S-1-5-32-544"), reason)
        claimed = self.why(0, "/", r"EXAMPLE\alice", "0x1", "@User.Level=3", *by)
        self.assertTrue(claimed[1].endswith(" as S-1-1-0"), claimed)
        self.assertEqual(self.why(1, "/", "alice", "0x2", *by)[1], "why\t/\tdenied 0x2 by the label")
        self.assertEqual(self.why(0, "/", "alice", "0x2", "level=high", *by)[0], "why\t/\tgranted 0x2")
        self.assertEqual(self.why(2, "/", "bob", "0x1", *by, says="bob: its account is disabled by accounts"), [])
        self.assertEqual(self.why(2, "/", "alice", "0x1", "BU=device", *by, says="BU=device: by --accounts"), [])

    def test_json(self) -> None:
        rows = list(map(json.loads, self.why(1, "--json", "/", ALICE, "0x1", "--only-given")))
        self.assertEqual(rows[0], {"what": "assumed", "groups": "none"})
        self.assertEqual(rows[1], {"what": "why", "path": "/", "reason": "denied 0x1"})
        self.assertEqual(rows[-1], {"what": "answered", "granted": 0, "of": 1, "answered": 1, "left_out": 0})

    def test_refusals(self) -> None:
        self.why(2, "plans", ALICE, "0x1", says="plans: a path begins with '/'")
        self.why(3, "/else", ALICE, "0x1", says="/else: No such file or directory")
        self.why(3, "/none", ALICE, "0x1", says="/none: No data available")
        self.why(2, "/", "alice", "0x1", says="sdstore why: fault sid")
        self.why(2, "/", ALICE, "XX", says="sdstore why: fault mask")
        self.why(2, "/", ALICE, "0x1", "--", "--help", says="sdstore why: fault token")
        os.setxattr(self.share / "none", "security.NTACL", b"\1\0\1\0\0\0\0\0\1")
        self.why(2, "/none", ALICE, "0x1", says="/none: its descriptor isn't supported")
