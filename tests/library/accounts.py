"""Accounts in Python: the SIDs of a user's token and the users that may log on, worked by hand, and refusals. The
last line is 'N passed, M failed'."""

import sys
import threading
from pathlib import Path

TOP = Path(__file__).resolve().parents[2]
sys.path[:0] = [str(TOP / "tests"), str(TOP / "bindings/python")]

from hudarin import FAULTS, Accounts, Descriptor, KeptDescriptor, Refused, Sid, Token  # noqa: E402
from tally import close, gives, raises  # noqa: E402

EXAMPLE = (TOP / "examples/example.accounts").read_text()
DOMAIN = Sid.from_text("S-1-5-21-1-2-3")
SYSTEMS = {7: "ANONYMOUS LOGON", 18: "SYSTEM", 19: "LOCAL SERVICE", 20: "NETWORK SERVICE"}
OF_SYSTEMS = [(f"S-1-5-{number}", "NT AUTHORITY\\" + name) for number, name in SYSTEMS.items()]
STAFF = Descriptor.from_sddl("O:BAG:SYD:(A;;FR;;;S-1-5-21-1-2-3-1200)")


def of(*numbers):
    """SIDs of the example's domain, in full."""
    return [f"S-1-5-21-1-2-3-{number}" for number in numbers]


def refusal(call):
    """What a refusal says."""
    try:
        return call()
    except Refused as e:
        return e.status, e.fault, e.name, e.place, e.argument


def token_of(accounts, user, domain=None):
    """The user's own SID, the SIDs of its logon, and the others in order."""
    sids = [sid.full for sid in accounts.sids(user, domain)]
    logon = [sid for sid in sids[1:3] if sid in ("S-1-1-0", "S-1-5-11")]
    return sids[0], logon, sorted(sids[1 + len(logon) :])


def asked(alice, bob):
    """Whether alice has a token, and what two tokens are granted."""
    return isinstance(alice, Token), str(STAFF.check_by(alice, 0x1)), str(STAFF.check_by(bob, 0x1))


# alice: her primary group 513, which is in BUILTIN\Users; interns, of whom editors are made, who are staff, who are
# editors.
LOGON = ["S-1-1-0", "S-1-5-11"]
ALICE = (of(1104)[0], LOGON, [*of(1200, 1201, 1202, 513), "S-1-5-32-545"])
BOB = (of(1105)[0], LOGON, [*of(513), "S-1-5-32-545"])
USERS = [
    ("EXAMPLE\\alice", ALICE),
    ("example\\ALICE", ALICE),
    ("alice@example.test", ALICE),
    ("alice", ALICE),
    (of(1104)[0], ALICE),
    ("EXAMPLE\\bob", BOB),
    ("OTHER\\bob", ("S-1-5-21-9-9-9-1001", LOGON, [])),
    ("Guest", (of(501)[0], ["S-1-1-0"], [])),
    ("SYSTEM", ("S-1-5-18", LOGON, ["S-1-5-32-544"])),
    ("AN", ("S-1-5-7", [], [])),
]
NOBODY = [
    ("dave", 1, "Unknown"),
    ("", 1, "Unknown"),
    ("EXAMPLE\\", 1, "Unknown"),
    ("LG", 1, "Unknown"),
    ("bob", 2, "Ambiguous"),
    ("staff", 3, "NoUser"),
    ("Everyone", 3, "NoUser"),
    (of(9999)[0], 3, "NoUser"),
    ("carol", 4, "Disabled"),
    (of(1106)[0], 4, "Disabled"),
]
with Accounts(EXAMPLE) as accounts:
    for user, wanted in USERS:
        gives(f"the SIDs of {user}", wanted, lambda: token_of(accounts, user))
    for user, fault, name in NOBODY:
        gives(f"no SIDs of {user}", ("account", fault, name, 0, "user"), lambda: refusal(lambda: accounts.sids(user)))
        gives(f"no token of {user}", ("account", fault, name, 0, "user"), lambda: refusal(lambda: accounts.token(user)))
    gives("an alias in a domain", (of(501)[0], ["S-1-1-0"], []), lambda: token_of(accounts, "LG", DOMAIN))
    alias = ("account", 3, "NoUser", 0, "user")
    gives("one that is no user's", alias, lambda: refusal(lambda: accounts.sids("DA", DOMAIN)))
    user_sid = Sid.from_text(of(1104)[0])
    no_domain = ("domain", 0, None, 0, "domain")
    gives("a SID of no domain", no_domain, lambda: refusal(lambda: accounts.sids("LG", user_sid)))
    gives("no text", ("utf8", 0, None, 2, "user"), lambda: refusal(lambda: accounts.sids("al\ud800")))
    listed = [(of(1104)[0], "EXAMPLE\\alice"), (of(1105)[0], "EXAMPLE\\bob"), (of(501)[0], "EXAMPLE\\Guest")]
    listed += [("S-1-5-21-9-9-9-1001", "OTHER\\bob"), *OF_SYSTEMS]
    gives("the users", listed, lambda: [(sid.full, name) for sid, name in accounts.users()])

    # A check by a name: staff may read, and only alice is one.
    with accounts.token("alice") as alice, accounts.token("EXAMPLE\\bob") as bob, KeptDescriptor(STAFF) as kept:
        gives("a token", (True, "granted 0x1", "denied 0x1"), lambda: asked(alice, bob))
        gives("a token, kept", "granted 0x120089", lambda: str(kept.check(alice, "FR")))
    with accounts.token("alice", privileges=2) as alice:
        gives("a privilege", "granted 0x80000", lambda: str(STAFF.check_by(alice, "WO")))
    with accounts.token("alice", restricting=[Sid.from_text("WD")]) as alice:
        gives("a restricted token", "denied 0x1", lambda: str(STAFF.check_by(alice, 0x1)))

    # Threads take turns at them, and a share is closed by itself.
    wrong = []

    def turns():
        for _ in range(300):
            if token_of(accounts, "alice") != ALICE:
                wrong.append(1)

    threads = [threading.Thread(target=turns) for _ in range(4)]
    for thread in threads:
        thread.start()
    for thread in threads:
        thread.join()
    gives("threads at accounts", [], lambda: wrong)
    other = accounts.share()
    handle = ("handle", 0, None, 0, "accounts")
    raises("accounts, again", RuntimeError, lambda: accounts.__init__(""))
    for wrong_type in (b"alice", 5, None, user_sid):
        raises(f"the user {wrong_type!r}", TypeError, lambda: accounts.sids(wrong_type))
    raises("a domain that is no Sid", TypeError, lambda: accounts.sids("alice", "S-1-5-21-1-2-3"))
gives("a share", ALICE, lambda: token_of(other, "alice"))
other.close()
for call in (lambda: other.sids("alice"), lambda: other.token("alice"), other.users, other.share):
    gives("accounts that were closed", handle, lambda: refusal(call))
gives("accounts that are closed twice", None, other.close)


# Without a file there are the accounts that Windows has everywhere.
with Accounts("") as accounts:
    gives("no file", ("S-1-5-18", LOGON, ["S-1-5-32-544"]), lambda: token_of(accounts, "NT AUTHORITY\\SYSTEM"))
    gives("no file's users", OF_SYSTEMS, lambda: [(sid.full, name) for sid, name in accounts.users()])
# A name may have any character but those of control, also one that ends a line for Python.
with Accounts("user S-1-5-21-1-2-3-1 a\u2028b \u0085 c\n") as accounts:
    gives("a name with other ends of lines", "a\u2028b \u0085 c", lambda: accounts.users()[0][1])

FAULTY = [
    ("user S-1-1-0 x\nusers S-1-1-0 x", 1, "Keyword", 2),
    ("user alice S-1-1-0", 2, "Sid", 1),
    ("# a\n\nuser S-1-1-0", 3, "Name", 3),
    ("user S-1-1-0 a\x7f", 3, "Name", 1),
    ("disabled S-1-1-0 x", 4, "Surplus", 1),
    ("user S-1-1-0 x\nincomplete\n", 5, "Incomplete", 2),
]
for text, fault, name, line in FAULTY:
    gives(f"{text!r}", ("row", fault, name, line, "accounts"), lambda: refusal(lambda: Accounts(text)))
gives("faults of lines", ("Keyword", "Sid", "Name", "Surplus", "Incomplete"), lambda: FAULTS["row"])
gives("faults of users", ("Unknown", "Ambiguous", "NoUser", "Disabled"), lambda: FAULTS["account"])
gives("a text that isn't UTF-8", ("utf8", 0, None, 2, "accounts"), lambda: refusal(lambda: Accounts("# \udcff")))
for wrong_type in (b"", 5, None, ["user"]):
    raises(f"accounts of {wrong_type!r}", TypeError, lambda: Accounts(wrong_type))

sys.exit(close())
