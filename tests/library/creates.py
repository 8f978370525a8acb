"""WholeDescriptor.create: each argument, and what it refuses. What it makes is compared with a second model by
tests/whole/creates. The last line is 'N passed, M failed'."""

import sys
import uuid
from pathlib import Path

TOP = Path(__file__).resolve().parents[2]
sys.path[:0] = [str(TOP / "tests"), str(TOP / "bindings/python")]

import hudarin  # noqa: E402
from hudarin import Descriptor, Refused, Sid, WholeDescriptor  # noqa: E402
from tally import close, gives, raises  # noqa: E402

CLASS = "bf967aba-0de6-11d0-a285-00aa003049e2"
FOLDER = WholeDescriptor.from_sddl(f"O:BAG:SYD:(A;CI;GR;;;CO)(OA;CI;FW;;{CLASS};WD)S:(AU;CISA;FR;;;WD)")
DEFAULTS = WholeDescriptor.from_sddl("O:LSG:NSD:(A;;GA;;;LS)")
OF_SYSTEM = WholeDescriptor.from_sddl("O:SY")
SYSTEM = Sid.from_text("SY")


def made(*arguments, **named):
    """The text of the descriptor without the bits that have none."""
    return WholeDescriptor.create(*arguments, **named).without_bits()[0]


def refused(*arguments, **named):
    """What a refusal says."""
    try:
        return made(*arguments, **named)
    except Refused as why:
        return why.status, why.name, why.place, why.argument


inherited = "O:LSG:NSD:AI(A;ID;FR;;;LS)(A;CIIOID;GR;;;CO)"
both = hudarin.DACL_AUTO_INHERIT | hudarin.SACL_AUTO_INHERIT
gives("nothing is given", "O:LSG:NSD:(A;;FA;;;LS)", lambda: made(None, None, DEFAULTS))
# (SR, and DP, OD, GD and DD)
gives("its bits", 0x800F, lambda: int.from_bytes(bytes(WholeDescriptor.create(None, None, DEFAULTS))[2:4], "little"))
for types in ([CLASS], [uuid.UUID(CLASS)], [str(uuid.UUID(int=0))] * 6 + [CLASS]):
    gives(f"a container of {types}", f"{inherited}(OA;CIID;FW;;{CLASS};WD)S:AI(AU;CIIDSA;FR;;;WD)",
          lambda: made(FOLDER, None, DEFAULTS, container=True, types=types, flags=both))
gives("an object", "O:LSG:NSD:AIS:AI", lambda: made(FOLDER, None, DEFAULTS, types=[CLASS], flags=both))
gives("other rights", "O:LSG:NSD:(A;;KA;;;LS)", lambda: made(None, None, DEFAULTS, mapping=hudarin.KEYS))
gives("plain descriptors", "O:LSG:NSD:(A;ID;FR;;;WD)",
      lambda: made(Descriptor.from_sddl("D:(A;OI;FR;;;WD)"), Descriptor.from_sddl("G:NS"), Descriptor.from_sddl("O:LSG:BA")))
gives("the parent's", "O:BAG:SYD:(A;;FA;;;LS)",
      lambda: made(WholeDescriptor.from_sddl("O:BAG:SY"), None, DEFAULTS,
                   flags=hudarin.DEFAULT_OWNER_FROM_PARENT | hudarin.DEFAULT_GROUP_FROM_PARENT))
gives("an owner", ("not created", "Owner", 0, None), lambda: refused(FOLDER, OF_SYSTEM, DEFAULTS, [Sid.from_text("BA")]))
for way in ({"owners": [Sid.from_text("BA"), SYSTEM]}, {"restores": True}, {"flags": hudarin.AVOID_OWNER_CHECK}):
    gives(f"an owner by {way}", "O:SYG:NSD:(A;;FA;;;LS)", lambda: made(None, OF_SYSTEM, DEFAULTS, **way))
gives("no owner", ("not created", "NoOwner", 0, None),
      lambda: refused(None, None, DEFAULTS, flags=hudarin.DEFAULT_OWNER_FROM_PARENT))
gives("no group", ("not created", "NoGroup", 0, None),
      lambda: refused(OF_SYSTEM, None, DEFAULTS, flags=hudarin.DEFAULT_GROUP_FROM_PARENT))
gives("defaults without a group", ("parts", None, 0, "defaults"), lambda: refused(None, None, OF_SYSTEM))
gives("a mapping", ("mapping", None, 0, "mapping"), lambda: refused(None, None, DEFAULTS, mapping=(0, 0, 0, 0x200000)))
long = hudarin.WholeEntry(0, 3, 0x80000000, None, None, Sid.from_text("CO"), b"")
wide = FOLDER.with_entries([long] * 2000)
gives("a large list", ("not created", "TooLarge", 0, None), lambda: refused(wide, None, DEFAULTS, container=True))
gives("the faults", ("Owner", "NoOwner", "NoGroup", "TooLarge"), lambda: hudarin.FAULTS["not created"])

for name, arguments in (
    ("parent", (bytes(FOLDER), None, DEFAULTS)),
    ("creator", (None, "O:SY", DEFAULTS)),
    ("defaults", (None, None, None)),
    ("owners", (None, None, DEFAULTS, ["SY"])),
):
    raises(f"no {name}", TypeError, lambda: WholeDescriptor.create(*arguments))
for named, kind in (
    ({"container": 1}, TypeError),
    ({"restores": None}, TypeError),
    ({"flags": True}, TypeError),
    ({"flags": 1 << 32}, ValueError),
    ({"types": CLASS}, TypeError),
    ({"types": ["user"]}, ValueError),
    ({"mapping": (1, 2, 3)}, ValueError),
):
    raises(f"{named}", kind, lambda: WholeDescriptor.create(None, None, DEFAULTS, **named))
sys.exit(close())
