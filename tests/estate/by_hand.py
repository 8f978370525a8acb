"""A file of accounts and a tree, of which tests work out by hand who may do what; and the token of a user by a closure
over members."""

import rig  # noqa: F401 (tests/second is in its folders)
from second import Token

DOMAIN = "S-1-5-21-1-2-3"
ALICE, BOB, CAROL, DAVE, EVE, GUEST = (f"{DOMAIN}-{number}" for number in (1104, 1105, 1106, 1107, 1108, 501))
OTHER = "S-1-5-21-9-9-9-1001"
USERS, STAFF, INTERNS, EDITORS = (f"{DOMAIN}-{number}" for number in (513, 1200, 1201, 1202))
#: alice is an intern, interns are editors, editors are staff, and staff are editors. dave and the other bob are in
#: nothing. Guests aren't in Authenticated Users.
ACCOUNTS = f"""\
user {ALICE} EXAMPLE\\alice
user {ALICE} alice@example.test
user {BOB} EXAMPLE\\bob
user {CAROL} EXAMPLE\\carol
user {DAVE} EXAMPLE\\dave
user {EVE} EXAMPLE\\eve
user {GUEST} EXAMPLE\\Guest
user {OTHER} OTHER\\bob
group {STAFF} EXAMPLE\\staff
primary {ALICE} {USERS}
primary {BOB} {USERS}
member BU {USERS}
member {INTERNS} {ALICE}
member {EDITORS} {INTERNS}
member {STAFF} {EDITORS}
member {EDITORS} {STAFF}
member {STAFF} {CAROL}
disabled {CAROL}
"""
NAMES = {
    "alice": (r"EXAMPLE\alice", ALICE), "bob": (r"EXAMPLE\bob", BOB), "dave": (r"EXAMPLE\dave", DAVE),
    "eve": (r"EXAMPLE\eve", EVE), "guest": (r"EXAMPLE\Guest", GUEST), "other": (r"OTHER\bob", OTHER),
    "anonymous": (r"NT AUTHORITY\ANONYMOUS LOGON", "S-1-5-7"), "system": (r"NT AUTHORITY\SYSTEM", "S-1-5-18"),
    "local": (r"NT AUTHORITY\LOCAL SERVICE", "S-1-5-19"), "network": (r"NT AUTHORITY\NETWORK SERVICE", "S-1-5-20"),
}  # fmt: skip
#: In the order of the rows; those of a logon are in Authenticated Users.
ALL = tuple(NAMES)
LOGGED_ON = tuple(name for name in ALL if name not in ("guest", "anonymous"))

TREE = f"""\
open 1 O:BAG:SYD:P(A;OICI;FA;;;BA)(A;OICI;FR;;;BU)
import container /a%20b O:BAG:SYD:(A;OICIID;FA;;;BA)(A;OICIID;FR;;;BU)
import object /a%20b/c O:{DAVE}G:SYD:(D;;0x1;;;{STAFF})(A;ID;FA;;;BA)(A;ID;FR;;;BU)
import object /d O:BAG:SYD:P(A;;FA;;;{INTERNS})
# rows	0
publish
"""


def token_of(user: tuple[int, tuple[int, ...]], pairs: set[tuple[object, object]]) -> Token:
    """The user with all groups that follow from the pairs of a group and a member, and those of a logon."""
    found = {user, (1, (0,)), (5, (11,))}
    while new := {group for group, member in pairs if member in found} - found:
        found |= new
    return Token(user, [(group, "") for group in found if group != user])
