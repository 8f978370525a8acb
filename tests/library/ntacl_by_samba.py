"""Prints ntacl.txt by Samba's own library (Debian's python3-samba): for each version of security.NTACL blobs a line with the version,
whether a SACL stands in it, the place of the descriptor's header, and the blob. Run by hand: /usr/bin/python3 ntacl_by_samba.py."""

from samba import version
from samba.dcerpc import security, xattr
from samba.ndr import ndr_pack

DOMAIN = security.dom_sid("S-1-5-21-1-2-3")
TEXT = "O:BAG:SYD:(D;;0x2;;;WD)(A;;0x1f01ff;;;S-1-5-21-1-2-3-1001)"
HASHES = {2: xattr.security_descriptor_hash_v2, 3: xattr.security_descriptor_hash_v3, 4: xattr.security_descriptor_hash_v4}


def blob(text, number):
    descriptor = security.descriptor.from_sddl(text, DOMAIN)
    acl = xattr.NTACL()
    acl.version = number
    if number == 1:
        acl.info = descriptor
        return ndr_pack(acl), ndr_pack(descriptor)
    acl.info = HASHES[number]()
    acl.info.sd = descriptor
    acl.info.hash = [7] * (16 if number == 2 else 64)
    if number > 2:
        acl.info.hash_type = 1
    if number == 4:
        acl.info.description = "posix_acl"
        acl.info.sys_acl_hash = [9] * 64
    return ndr_pack(acl), ndr_pack(descriptor)


print(f"# By ntacl_by_samba.py over Samba {version}: {TEXT}, alone and with S:(AU;SA;0x1f01ff;;;WD).")
for number in (1, 2, 3, 4):
    for has_sacl in (0, 1):
        packed, alone = blob(TEXT + "S:(AU;SA;0x1f01ff;;;WD)" * has_sacl, number)
        print(number, has_sacl, packed.rfind(alone[:4]), packed.hex())
