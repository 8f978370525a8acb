"""The numbers of hudarin.h and of [MS-DTYP] by their names."""

#: The statuses of the library by number. The number 4 is a text with a fault: "sddl" here, and of a SID's text "sid",
#: of a mask's text "mask".
STATUSES = {
    1: "memory",
    2: "room",
    3: "utf8",
    4: "sddl",
    5: "wire",
    6: "sid",
    7: "behind groups",
    8: "state",
    9: "privileges",
    10: "mapping",
    11: "handle",
    12: "edit",
    13: "path",
    14: "parts",
    15: "refused",
    16: "no node",
    17: "domain",
    18: "no part",
    19: "limits",
    20: "no text",
    21: "not plain",
    22: "word",
    23: "unended",
    24: "types",
    25: "undecided",
    26: "row",
    27: "account",
    28: "kind",
    29: "tree",
    30: "not created",
}
VERDICTS = {1: "granted", 2: "denied", 3: "reserved", 4: "empty"}
ARGUMENTS = {
    1: "descriptor",
    2: "user",
    3: "groups",
    4: "states",
    5: "restricting",
    6: "privileges",
    7: "mapping",
    8: "token",
    9: "store",
    10: "view",
    11: "edit",
    12: "path",
    13: "value",
    14: "new descriptor",
    15: "nodes",
    16: "edits",
    17: "lines",
    18: "domain",
    19: "words",
    20: "types",
    21: "principal self",
    22: "client",
    23: "kept",
    24: "offer",
    25: "tree",
    26: "verdicts",
    27: "parent",
    28: "creator",
    29: "defaults",
    30: "owners",
}

CAUSES = {
    1: "without a list",
    3: "to the owner",
    4: "by SeTakeOwnershipPrivilege",
    5: "by SeSecurityPrivilege",
    6: "without SeSecurityPrivilege",
    7: "beyond GENERIC_ALL",
    8: "as reserved",
    9: "by the label",
}

#: The states of a group.
DISABLED, ENABLED, DENY_ONLY = 0x0, 0x4, 0x10
#: The privileges, joined by |.
SECURITY, TAKE_OWNERSHIP = 0x1, 0x2
#: No privilege, but passed to the library as one: the user counts for denies alone.
_DENY_ONLY_USER = 0x4
#: The flags of an entry, by their names in SDDL.
FLAGS = {"OI": 0x1, "CI": 0x2, "NP": 0x4, "IO": 0x8, "ID": 0x10, "SA": 0x40, "FA": 0x80}
_ALL_FLAGS = sum(FLAGS.values())
#: The generic mappings of files, registry keys, services and processes: the masks of GENERIC_READ, GENERIC_WRITE,
#: GENERIC_EXECUTE and GENERIC_ALL.
FILES = (0x120089, 0x120116, 0x1200A0, 0x1F01FF)
KEYS = (0x20019, 0x20006, 0x20019, 0xF003F)
SERVICES = (0x2008D, 0x20002, 0x20170, 0xF01FF)
PROCESSES = (0x20410, 0x20BEA, 0x121001, 0x1FFFFF)
#: The same by the kind of object, and of other kinds; `mask` and `mask_names` have their names.
MAPPINGS = {
    "file": FILES,
    "folder": FILES,
    "share": FILES,
    "ds": (0x20094, 0x20028, 0x20004, 0xF01FF),
    "key": KEYS,
    "service": SERVICES,
    "scm": (0x20014, 0x20022, 0x20009, 0xF003F),
    "printer": (0x20008, 0x20008, 0x20008, 0xF000C),
    "process": PROCESSES,
    "section": (0x20005, 0x20002, 0x20008, 0xF001F),
    "token": (0x20008, 0x200E0, 0x20000, 0xF01FF),
}

#: The parts of a whole descriptor, joined by |.
OF_OWNER, OF_GROUP, OF_DACL, OF_SACL = 0x1, 0x2, 0x4, 0x8
#: How a new object gets its descriptor, joined by |: AutoInheritFlags ([MS-DTYP] 2.5.3.4.1).
DACL_AUTO_INHERIT, SACL_AUTO_INHERIT, DEFAULT_DESCRIPTOR_FOR_OBJECT = 0x1, 0x2, 0x4
AVOID_OWNER_CHECK, DEFAULT_OWNER_FROM_PARENT, DEFAULT_GROUP_FROM_PARENT = 0x10, 0x20, 0x40

_MAXIMUM_ALLOWED = 0x02000000
_MEMORY, _ROOM, _TEXT, _SID, _HANDLE, _NO_NODE, _DOMAIN, _NO_PART = 1, 2, 4, 6, 11, 16, 17, 18
