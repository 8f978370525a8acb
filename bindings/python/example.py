"""Who may do what with a file, the parts of its descriptor, and what a refusal says."""

from hudarin import DENY_ONLY, Closed, Descriptor, Entry, NoList, Refused, Sid, Store, Token, check_all, mask

descriptor = Descriptor.from_sddl("o:bag:syd:(d;;fw;;;s-1-5-21-1-2-3-1001)(a;;fa;;;bu)")
user = Sid.from_text("S-1-5-21-1-2-3-1001")
groups = [Sid.from_text("BU"), (Sid.from_text("BA"), DENY_ONLY)]

print(len(bytes(descriptor)), "bytes:", descriptor)
print("owner:", descriptor.owner, "group:", descriptor.group)
for entry in descriptor.entries:
    print(entry.kind, hex(entry.mask), entry.sid)
print("built:", Descriptor.of([Entry.deny("FW", user), Entry.allow("FA", groups[0])], owner=descriptor.owner))

# A descriptor without a list grants access to everyone: it isn't one without entries.
try:
    print(Descriptor.from_sddl("D:NO_ACCESS_CONTROL").entries)
except NoList as e:
    print("no list:", e.kind)

# A verdict is true if all that was asked for is granted.
print("may read" if descriptor.check(user, groups, asked=0x1) else "may not read")
print("may write" if descriptor.check(user, groups, asked="FW") else "may not write")
print("read:", descriptor.check(user, groups, asked=0x1))
print("write:", descriptor.check(user, groups, asked=0x2))
print("all that is granted:", descriptor.check(user, groups, asked=0x02000000))
print("GR, without groups:", descriptor.check(user, asked=mask("GR")))

# Of many descriptors at once, by a token, until that is closed.
with Token(user, groups) as token:
    print("may read:", *check_all([descriptor, Descriptor.from_sddl("D:")], token, 0x1))
try:
    descriptor.check_by(token, 0x1)
except Closed as e:
    print("closed:", e.argument)

# Of all users, not of one; and what a change grants them, with a token that shows it.
print("write:", *descriptor.who(0x2))
for change in descriptor.compare(Descriptor.from_sddl("O:BAG:SYD:(A;;FA;;;BU)")).gained:
    print(change)

# What is doubtful in a descriptor.
for finding in Descriptor.from_sddl("D:(A;;FR;;;BU)(A;;FR;;;BU)").lint():
    print(finding.entry, finding.kind)

# What a publish would change, of the nodes of a tree.
with Store(Descriptor.from_sddl("O:BAG:SYD:(A;OICI;FR;;;BU)")) as store:
    store.add_object("/report", Descriptor.from_sddl("O:BAG:SYD:"))
    with store.publish() as view:
        print(*view, "/report" in view)
    store.set_dacl("/", Descriptor.from_sddl("D:(A;OICI;FA;;;BU)"))
    print(*store.review(), sep="\n")

# Bytes after a descriptor or a SID are ignored.
print(bytes(Descriptor(bytes(descriptor) + b"more")) == bytes(descriptor))
print(repr(Sid(bytes(user) + b"more")), Sid(bytes(user) + b"more") == user)

for refused in (
    lambda: Descriptor.from_sddl("D:(A;;FA;;;DA)"),
    lambda: Descriptor(bytes(descriptor)[:-1]),
    lambda: Sid.from_text("S-1-5"),
    lambda: Sid(b"\x01\x00\x00\x00\x00\x00\x00\x05"),
    lambda: mask("FA\udcff"),
    lambda: descriptor.check(user, [(user, 0x14)], asked=0x1),
    lambda: descriptor.check(user, mapping=(0, 0, 0, 0x200000), asked=0x1),
):
    try:
        refused()
    except Refused as e:
        print("refused:", e.status, e.fault, e.place, e.argument)
