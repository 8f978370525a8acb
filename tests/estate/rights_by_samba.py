"""Which rights Samba's own module grants users, by bytes of a disk; it runs by the Python that has the module.

    rights_by_samba.py < LINES    the first is a list of tokens in JSON, each a list of SIDs; each other one is the
                                  bytes of a descriptor in hexadecimal: it prints the mask that each token is granted

Each right is asked for by itself. Generic rights of entries are mapped before, as a server does it when it stores them.
Where Samba can't read the bytes, the line is empty. The first line that it prints is Samba's version.
"""

import json
import sys

from samba import NTSTATUSError, security as checks, version
from samba.dcerpc import security
from samba.ndr import ndr_unpack

RIGHTS = 21
GENERIC = {0x80000000: 0x120089, 0x40000000: 0x120116, 0x20000000: 0x1200A0, 0x10000000: 0x1F01FF}


def token_of(sids):
    token = security.token()
    token.sids, token.num_sids = [security.dom_sid(sid) for sid in sids], len(sids)
    return token


def mapped(mask):
    for bit, stands_for in GENERIC.items():
        if mask & bit:
            mask = mask & ~bit | stands_for
    return mask


def descriptor_of(digits):
    descriptor = ndr_unpack(security.descriptor, bytes.fromhex(digits), allow_remaining=True)
    if descriptor.dacl is not None:
        entries = descriptor.dacl.aces
        for entry in entries:
            entry.access_mask = mapped(entry.access_mask)
        descriptor.dacl.aces = entries
    return descriptor


def granted(descriptor, token):
    mask = 0
    for bit in range(RIGHTS):
        try:
            checks.access_check(descriptor, token, 1 << bit)
            mask |= 1 << bit
        except NTSTATUSError:
            pass
    return mask


print(version, flush=True)
tokens = [token_of(sids) for sids in json.loads(sys.stdin.readline())]
for line in sys.stdin:
    try:
        read = descriptor_of(line.strip())
    except RuntimeError:
        print(flush=True)
        continue
    print(*(granted(read, token) for token in tokens), flush=True)
