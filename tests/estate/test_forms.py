"""What is written into an attribute: the parts that change, and all else as it was."""

import importlib.util
import struct
import sys
import unittest
from types import ModuleType

from rig import AI, MANAGER, PRESENT, PROTECTED, TOOL, acl_bytes, entry_bytes, form, sid_bytes
from second import Entry

SYSTEM, ADMINISTRATORS, EVERYONE = (5, (18,)), (5, (32, 544)), (1, (0,))
OWNER, GROUP = sid_bytes(SYSTEM), sid_bytes(ADMINISTRATORS)
DACL = acl_bytes([entry_bytes(Entry("A", 3, 0x1F01FF, EVERYONE))])
#: An audit of a class of objects, and an entry of a reserved type.
OBJECT_AUDIT = struct.pack("<BBHII16s", 7, 0x40, 40, 1, 1, bytes(range(16))) + sid_bytes(EVERYONE)
SACL = acl_bytes([OBJECT_AUDIT, struct.pack("<BBHI", 16, 0, 8, 7)], 4)
#: Owner and group are defaults; the SACL is protected and was inherited.
OTHER_BITS = 0x1 | 0x2 | 0x2000 | 0x800
TEXT = "O:SYG:BAD:AI(A;OICI;FA;;;WD)"


def tool_module(name: str) -> ModuleType:
    """A module of the tool. (tests/ has one of the same name.)"""
    spec = importlib.util.spec_from_file_location(f"estate_{name}", TOOL / f"{name}.py")
    assert spec is not None and spec.loader is not None
    made = sys.modules[spec.name] = importlib.util.module_from_spec(spec)
    spec.loader.exec_module(made)
    return made


forms = tool_module("forms")


def control_of(blob: bytes) -> int:
    return int(struct.unpack_from("<H", blob, 2)[0])


class Replaced(unittest.TestCase):
    def setUp(self) -> None:
        blob = bytearray(form(OWNER, GROUP, DACL, PRESENT | AI | MANAGER | OTHER_BITS, SACL))
        blob[1] = 9
        self.blob = bytes(blob)

    def replaced(self, after: str) -> bytes:
        made = forms.replaced(forms.Attribute.NTFS, self.blob, TEXT, after)
        self.assertEqual(made[1], 9)
        (at,) = struct.unpack_from("<I", made, 12)
        self.assertEqual(made[at : at + len(SACL)], SACL)
        return made

    def test_a_list(self) -> None:
        made = self.replaced("O:SYG:BAD:PAI(A;;FR;;;BA)")
        self.assertEqual(control_of(made), control_of(self.blob) | PROTECTED)
        self.assertEqual(forms.kept_in(forms.Attribute.NTFS, made).text, "O:SYG:BAD:PAI(A;;FR;;;BA)")

    def test_an_owner(self) -> None:
        """It is no default then, and the group stays one."""
        made = self.replaced("O:BAG:BAD:AI(A;OICI;FA;;;WD)")
        self.assertEqual(control_of(made), control_of(self.blob) & ~0x1)
        self.assertEqual(forms.kept_in(forms.Attribute.NTFS, made).text, "O:BAG:BAD:AI(A;OICI;FA;;;WD)")

    def test_nothing(self) -> None:
        self.assertEqual(control_of(self.replaced(TEXT)), control_of(self.blob))

    def test_a_list_that_is_too_large(self) -> None:
        """Beside an entry of a reserved type: its list keeps its AclRevision, and has 65,535 bytes at most."""
        reserved = struct.pack("<BBH", 16, 0, 65_000) + bytes(64_996)
        blob = form(OWNER, GROUP, acl_bytes([DACL[8:], reserved], 4), PRESENT | AI)
        few, many = ("".join(f"(A;;FR;;;S-1-5-21-1-2-3-{at})" for at in range(count)) for count in (14, 15))
        made = forms.replaced(forms.Attribute.NTFS, blob, TEXT, f"O:SYG:BAD:AI{few}")
        (at,) = struct.unpack_from("<I", made, 16)
        self.assertEqual(struct.unpack_from("<BBHHH", made, at), (4, 0, 8 + 65_000 + 14 * 36, 15, 0))
        with self.assertRaisesRegex(ValueError, "^its DACL would have more than 65,535 bytes$"):
            forms.replaced(forms.Attribute.NTFS, blob, TEXT, f"O:SYG:BAD:AI{many}")

    def test_a_list_that_is_not_plain(self) -> None:
        """It is kept without the other entries, of which the first is named, and whole: here it has no text."""
        entries = entry_bytes(Entry("A", 0, 0x1, EVERYONE)), struct.pack("<BBHI", 9, 0, 20, 1) + sid_bytes(EVERYONE)
        blob = form(OWNER, GROUP, acl_bytes(list(entries)), PRESENT, SACL)
        kept = forms.kept_in(forms.Attribute.NTFS, blob)
        self.assertEqual((kept.text, kept.has_sacl), ("O:SYG:BAD:(A;;0x1;;;WD)", True))
        self.assertEqual(kept.first, "DACL not plain 2 ConditionalAce at 1")
        head = struct.pack("<BBHIIII", 1, 0, 0x8000 | PRESENT, 20, 20 + len(OWNER), 0, 20 + len(OWNER + GROUP))
        self.assertEqual(kept.whole, f"0x{(head + OWNER + GROUP + acl_bytes(list(entries))).hex()}")


if __name__ == "__main__":
    unittest.main()
