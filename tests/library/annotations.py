"""Uses of hudarin for mypy alone: it reports a fault on just the lines that ignore one. Nothing here is run."""

from pathlib import PurePosixPath
from typing import Iterator, List, Optional, Tuple
from uuid import UUID

from hudarin import (
    AVOID_OWNER_CHECK,
    DACL_AUTO_INHERIT,
    DENY_ONLY,
    FILES,
    OF_DACL,
    OF_GROUP,
    OF_OWNER,
    OF_SACL,
    Access,
    Accesses,
    Accounts,
    Change,
    Client,
    Closed,
    Comparison,
    Descriptor,
    Entry,
    Explanation,
    Finding,
    KeptDescriptor,
    NoList,
    Node,
    ObjectType,
    Refused,
    Reviewed,
    Sid,
    Store,
    Stored,
    Token,
    Verdict,
    View,
    WholeDescriptor,
    WholeEntry,
    check_all,
    mask,
    who_all,
)

user: Sid = Sid.from_text("SY")
groups = [user, (user, DENY_ONLY)]
descriptor: Descriptor = Descriptor.from_sddl("D:", domain=user)
verdict: Verdict = descriptor.check(user, [user, (user, DENY_ONLY)], asked="FR", mapping=FILES, restricting=[user])
why: Explanation = descriptor.explain(user, asked=0x1, mapping=("FR", "FW", 0, "FA"))
kind: str = verdict.kind
accesses: Accesses = descriptor.who("FR", [user, (user, DENY_ONLY)], mapping=FILES)
each_access: Tuple[Access, ...] = accesses
holders: Tuple[Optional[Sid], ...] = tuple(access.sid for access in descriptor.who())
of_many: List[Accesses] = who_all([descriptor], "FR", [user])
findings: Tuple[Finding, ...] = descriptor.lint([user, (user, DENY_ONLY)], mapping=FILES)
numbers: Tuple[Optional[int], ...] = tuple(finding.entry for finding in descriptor.lint())
comparison: Comparison = descriptor.compare(descriptor, [user])
changes: Tuple[Change, ...] = comparison.gained + comparison.lost
tokens: Tuple[Token, ...] = tuple(change.token() for change in changes)
again: Tuple[Verdict, ...] = tuple(
    descriptor.check(change.user, change.groups, asked=change.mask, restricting=change.restricting) for change in changes
)
bits: int = mask("FR") | verdict.mask
owner: Optional[Sid] = descriptor.owner
entries: Tuple[Entry, ...] = descriptor.entries
subjects: Tuple[Optional[Sid], ...] = tuple(descriptor.subject(entry) for entry in entries)
built: Descriptor = Descriptor.of([Entry.allow("FR", user, "OICI"), *entries], owner=user, is_protected=True)
ordered: List[Sid] = sorted([user, max(user, user)])
rid, domain, column = user.rid, user.domain, f"{user:>10}"
which: str = descriptor.dacl_kind
full: str = user.full if descriptor.is_protected else str(user)
whole: WholeDescriptor = WholeDescriptor.from_sddl("S:", user)
blob: WholeDescriptor = WholeDescriptor.from_blob(memoryview(b""), 0)
plain: Tuple[Descriptor, int] = whole.plain()
printed: Tuple[str, int] = whole.without_bits()
joined: WholeDescriptor = whole.with_parts(descriptor, OF_OWNER | OF_GROUP).with_parts(blob, OF_DACL | OF_SACL)
created: WholeDescriptor = WholeDescriptor.create(
    whole, descriptor, blob, iter([user]), container=True, types=["", UUID(int=1)],
    flags=DACL_AUTO_INHERIT | AVOID_OWNER_CHECK, restores=True, mapping=FILES)
listed: WholeDescriptor = joined.with_entries(joined.dacl, 4).with_entries(iter(joined.sacl or ()), sacl=True)
revisions: Tuple[Optional[int], ...] = (listed.dacl_revision, listed.sacl_revision)
audits: Optional[Tuple[WholeEntry, ...]] = whole.sacl
types: Tuple[Optional[UUID], ...] = tuple(entry.object_type for entry in joined.dacl)
data: Tuple[bytes, ...] = tuple(entry.data + bytes(entry) for entry in audits or () if entry.sid == whole.owner)
trustees: Tuple[Optional[Sid], ...] = (whole.owner, whole.group)
with Client(user, ["BU", "level=low"], domain=user) as client:
    tree: List[Tuple[int, ObjectType]] = [(0, UUID(int=0)), (1, "")]
    each: List[Verdict] = whole.check_types(client, "FR", tree, principal_self=user, mapping=FILES)
    whole_verdict: Verdict = whole.check(client.share(), "FR", [UUID(int=0), ""], principal_self=user, mapping=FILES)
with Accounts("") as accounts, accounts.share() as same:
    known: Tuple[Sid, ...] = accounts.sids("SYSTEM", domain=user)
    named: Tuple[Tuple[Sid, str], ...] = same.users()
    logged_on: Token = accounts.token("SYSTEM", user, privileges=1, restricting=[user], deny_only_user=True)
copied: Descriptor = Descriptor(descriptor)
small: Store = Store(descriptor, FILES, nodes=2, edits=3)

with Token(user, [user], restricting=[user]) as token, KeptDescriptor(descriptor) as kept, Store(descriptor) as store:
    by: Verdict = kept.check(token.share(), "FR") if descriptor.check_by(token, 0x1) else kept.share().check(token, 0)
    opened: Verdict = descriptor.check_open(descriptor, token, "FR") and descriptor.check_open(None, token, 0x1, FILES)
    with store.publish() as view, view.share() as other:
        seen: View = other
        nodes: Iterator[Node] = view.nodes()
        paths: Iterator[str] = iter(view)
        verdicts: List[Optional[Verdict]] = view.check_all(view, token, "FR") if PurePosixPath("/a") in view else []
        every: List[Verdict] = check_all([descriptor], token, asked="FR")
        had: Optional[Stored] = view.stored("/a")
        store.add_object("/f", descriptor, kept=descriptor, offer=descriptor)
        count: int = view.edits + store.edits
        store.judge.move("/a", PurePosixPath("/b"))
        reviewed: Iterator[Reviewed] = store.review()
        moved: Tuple[Optional[str], ...] = tuple(node.before for node in reviewed)

try:
    mask("")
except Closed as gone:
    argument: Optional[str] = gone.argument
except NoList as none:
    instead: str = none.kind
except Refused as e:
    said: Tuple[str, int, Optional[str], int, Optional[str]] = (e.status, e.fault, e.name, e.place, e.argument)

Sid.from_text(b"SY")  # type: ignore
Sid("SY")  # type: ignore
Descriptor.from_sddl("D:", domain="SY")  # type: ignore
descriptor.check("SY")  # type: ignore
descriptor.check(user, ["WD"])  # type: ignore
descriptor.check(user, asked=1.0)  # type: ignore
descriptor.check(user, asked="FR", deny_only_user=1)  # type: ignore
whole.check_types(client, "FR", [""])  # type: ignore
descriptor.check_by(user, 0x1)  # type: ignore
descriptor.check(user)  # type: ignore
descriptor.check(user, [user], 0x1)  # type: ignore
descriptor.check_by(token)  # type: ignore
descriptor.check_open(token, 0x1)  # type: ignore
check_all([descriptor], token)  # type: ignore
check_all(["D:"], token, 0x1)  # type: ignore
who_all("D:")  # type: ignore
Descriptor.of(None)  # type: ignore
Descriptor.of(["(A;;FR;;;BU)"])  # type: ignore
Entry.allow("FR", "BU")  # type: ignore
user < "SY"  # type: ignore
len(store), len(view)  # type: ignore
view.check(b"/a", token, 0x1)  # type: ignore
descriptor.who(1.0)  # type: ignore
descriptor.lint(1.0)  # type: ignore
descriptor.compare("D:")  # type: ignore
sid: Sid = descriptor.owner  # type: ignore
copied.owner = user  # type: ignore
mask(1)  # type: ignore
store.add_object("/a", "D:")  # type: ignore
Store(descriptor, nodes=2.0)  # type: ignore
store.add_object("/a", descriptor, kept="D:", offer=descriptor)  # type: ignore
store.revert(token)  # type: ignore
store.review("/")  # type: ignore
view.check("/a", user, 0x1)  # type: ignore
verdict.missing  # type: ignore
WholeDescriptor.from_sddl("S:").with_parts("S:", OF_SACL)  # type: ignore
whole.with_entries(["(A;;FA;;;WD)"])  # type: ignore
whole.with_entries(descriptor.entries)  # type: ignore
whole.with_entries((), "2")  # type: ignore
WholeDescriptor.create(None, None, None)  # type: ignore
WholeDescriptor.create(None, b"", whole)  # type: ignore
number: int = whole.dacl_revision  # type: ignore
Client(user, [user])  # type: ignore
Accounts(b"")  # type: ignore
accounts.sids(user)  # type: ignore
accounts.token("SYSTEM", "S-1-5-21-1-2-3")  # type: ignore
whole.check(client)  # type: ignore
whole.check(token, 0x1)  # type: ignore
whole.check(client, 0x1, types=[b""])  # type: ignore
whole.sacl[0].text.lower()  # type: ignore
