"""Writes and reads security.NTACL by Samba's own module, of Debian's python3-samba, in a process of its own.

    by_samba.py write < LINES     each `VERSION PATH FORM`: the path and the descriptor's bytes are hexadecimal
    by_samba.py read < LINES      each a path: prints the descriptor's bytes, and a digest of all else that is kept
"""

import hashlib
import os
import sys

from samba.dcerpc import security, xattr
from samba.ndr import ndr_pack, ndr_unpack

NAME = "security.NTACL"
HASHES = {
    2: xattr.security_descriptor_hash_v2,
    3: xattr.security_descriptor_hash_v3,
    4: xattr.security_descriptor_hash_v4,
}


def blob_of(version: int, path: bytes, form: bytes) -> bytes:
    descriptor = ndr_unpack(security.descriptor, form)
    made = xattr.NTACL()
    made.version = version
    made.info = descriptor if version == 1 else HASHES[version]()
    if version > 1:
        made.info.sd = descriptor
        made.info.hash = list(hashlib.sha512(path).digest())[: 16 if version == 2 else 64]
    if version > 2:
        made.info.hash_type = 1
    if version == 4:
        made.info.description = "posix_acl" + "x" * (len(path) % 5)
        made.info.time = 132_000_000_000_000_000
        made.info.sys_acl_hash = list(hashlib.sha512(path + b"!").digest())
    return ndr_pack(made)


def kept_at(path: bytes) -> str:
    kept = ndr_unpack(xattr.NTACL, os.getxattr(path, NAME))
    descriptor = kept.info if kept.version == 1 else kept.info.sd
    rest = [kept.version]
    if kept.version > 1:
        rest.append(kept.info.hash)
    if kept.version > 2:
        rest.append(kept.info.hash_type)
    if kept.version == 4:
        rest += [kept.info.description, kept.info.time, kept.info.sys_acl_hash]
    return f"{ndr_pack(descriptor).hex()} {hashlib.sha256(repr(rest).encode()).hexdigest()}"


for line in sys.stdin:
    if sys.argv[1] == "write":
        version, name, form = line.split()
        path = bytes.fromhex(name)
        os.setxattr(path, NAME, blob_of(int(version), path, bytes.fromhex(form)))
    else:
        print(kept_at(bytes.fromhex(line.strip())))
