"""Worked verdicts: what a reader of [MS-DTYP] asks first. Each row has a descriptor and the token's groups and
privileges; the user is USER. Each is asked for each request of EACH. What is expected comes from Samba."""

from typing import Iterator

from cases import FILES, KEYS, PRIVILEGES, PROCESSES, SERVICES, USER, Case, parts_of, verdict_case
from hudarin import Descriptor, Sid

WORDS = {"+security": PRIVILEGES[0], "+take": PRIVILEGES[1], "+backup": PRIVILEGES[2], "+restore": PRIVILEGES[3]}
MAXIMUM = (0x02000000, 0x02000001, 0x03000000)
EACH = (0x1, 0x2, 0x3, 0x10000, 0x20000, 0x60000, 0x80000, 0x01000000, 0x01000001, 0x80000000, 0x10000000, 0, *MAXIMUM)
U = USER
ROWS = (
    # Order, and what isn't named.
    ("O:BAG:SYD:(A;;FR;;;BU)(D;;FA;;;BU)", "BU"),
    ("O:BAG:SYD:(D;;FA;;;BU)(A;;FR;;;BU)", "BU"),
    ("O:BAG:SYD:(D;;0x1;;;WD)(A;;0x3;;;BU)(A;;0x1;;;WD)", "BU WD"),
    ("O:BAG:SYD:(A;;0x1;;;BU)(A;;0x2;;;WD)", "BU WD"),
    ("O:BAG:SYD:(A;;FA;;;WD)", ""),
    ("O:BAG:SYD:(A;;FA;;;WD)", "WD"),
    ("O:BAG:SYD:(A;;0x0;;;WD)", "WD"),
    # No list, a null one, an empty one.
    ("O:BAG:SY", "BU"),
    (f"O:{U}G:SY", "+security +take"),
    ("O:BAG:SYD:NO_ACCESS_CONTROL", "BU"),
    (f"O:{U}G:SYD:NO_ACCESS_CONTROL", "+security"),
    ("O:BAG:SYD:", "BU"),
    (f"O:{U}G:SYD:", ""),
    # The owner, by the user and by a group.
    (f"O:{U}G:SYD:(D;;FA;;;{U})", ""),
    ("O:BUG:SYD:(D;;FA;;;BU)", "BU"),
    ("O:BUG:SYD:", ""),
    ("G:SYD:(A;;FR;;;OW)", "BU"),
    # OWNER RIGHTS.
    (f"O:{U}G:SYD:(A;;0x0;;;OW)", ""),
    (f"O:{U}G:SYD:(A;;FR;;;OW)", ""),
    (f"O:{U}G:SYD:(D;;0x20000;;;OW)(A;;FA;;;{U})", ""),
    (f"O:{U}G:SYD:(A;IO;0x0;;;OW)", ""),
    (f"O:{U}G:SYD:(A;;FA;;;BU)(A;;0x1;;;OW)", "BU"),
    ("O:BAG:SYD:(A;;FA;;;OW)", "BU"),
    ("O:BAG:SYD:(A;;FA;;;OW)", "OW"),
    # Entries that are for children alone.
    ("O:BAG:SYD:(A;OICIIO;FA;;;BU)(A;OICI;FR;;;BU)", "BU"),
    ("O:BAG:SYD:(D;IO;FA;;;BU)(A;ID;FR;;;BU)", "BU"),
    # Privileges.
    ("O:BAG:SYD:(D;;FA;;;BU)", "BU +take"),
    ("O:BAG:SYD:(D;;0x1080000;;;BU)(A;;FR;;;BU)", "BU +security +take"),
    ("O:BAG:SYD:(A;;0x1000000;;;BU)", "BU"),
    ("O:BAG:SYD:", "+backup +restore"),
    ("O:BAG:SYD:(A;;FR;;;BU)", "BU +backup +restore"),
    # Generic bits, and SIDs that stand for themselves.
    ("O:BAG:SYD:(A;;GR;;;BU)(A;;GX;;;WD)", "BU WD"),
    ("O:BAG:SYD:(D;;GW;;;BU)(A;;GA;;;BU)", "BU"),
    (f"O:{U}G:SYD:(A;;FA;;;CO)(A;;FA;;;CG)(A;;FA;;;PS)", "SY"),
)


def worked() -> Iterator[Case]:
    """Each row with each request, by the mapping of files; those with generic bits by the others too."""
    for number, (text, words) in enumerate(ROWS):
        parts = parts_of(bytes(Descriptor.from_sddl(text)))
        groups = [[Sid.from_text(word).full, "on"] for word in words.split() if word not in WORDS]
        token = {"user": U, "groups": groups, "privileges": [WORDS[word] for word in words.split() if word in WORDS]}
        for mapping in (FILES, KEYS, SERVICES, PROCESSES):
            for asked in EACH if mapping == FILES else (0x80000000, 0x40000000, 0x20000000, 0x10000000, 0x02000000):
                yield verdict_case(f"r{number}.{mapping[0]:x}.{asked:x}", parts, token, mapping, ("worked", asked))
