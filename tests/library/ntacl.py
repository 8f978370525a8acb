"""Descriptors out of blobs that Samba made, ntacl.txt: the plain part of each is the one that its text spells, and its SACL is what is left
out. The last line is 'N passed, M failed'."""

import sys
from pathlib import Path

TOP = Path(__file__).resolve().parents[2]
sys.path[:0] = [str(TOP / "tests"), str(TOP / "bindings/python")]

from hudarin import Descriptor, Refused, WholeDescriptor  # noqa: E402
from tally import close, gives  # noqa: E402

SACL = "S:(AU;SA;FA;;;WD)"
WANTED = Descriptor.from_sddl("O:BAG:SYD:(D;;0x2;;;WD)(A;;0x1f01ff;;;S-1-5-21-1-2-3-1001)")


def answer(blob, place):
    """The plain part of the descriptor that the blob holds and what was left out, or what refuses it."""
    try:
        return WholeDescriptor.from_blob(blob, place).plain()
    except Refused as e:
        return e.status, e.name


lines = Path(__file__).with_name("ntacl.txt").read_text(encoding="ascii").splitlines()
rows = [line.split() for line in lines if not line.startswith("#")]
for version, has_sacl, place, digits in rows:
    blob, place, has_sacl = bytes.fromhex(digits), int(place), has_sacl == "1"
    name = f"version {version}, {'with' if has_sacl else 'without'} a SACL"
    gives(name, (WANTED, int(has_sacl)), lambda: answer(blob, place))
    gives(name + ", with more behind", (WANTED, int(has_sacl)), lambda: answer(blob + b"more", place))
    gives(name + ", whole", SACL * has_sacl, lambda: str(WholeDescriptor.from_blob(blob, place))[len(str(WANTED)) :])
    # Its resource manager's byte: RM is 0x4000 of the control bits.
    managed = bytearray(blob)
    managed[place + 1], managed[place + 3] = 7, managed[place + 3] | 0x40
    gives(name + ", with a manager's byte", (WANTED, 6 + int(has_sacl)), lambda: answer(managed, place))
    gives(name + ", cut", ("wire", "Short"), lambda: answer(blob[: place + 19], place))
    gives(name + ", far beyond", ("wire", "Short"), lambda: answer(blob, (1 << 64) - 1))
    gives(name + ", elsewhere", ("wire", "Revision"), lambda: answer(b"\2" + blob[1:], 0))
gives("all versions", 8, lambda: len(rows))
sys.exit(close())
