"""Access checks by Samba's own library, for by_samba.py: of descriptors with conditions by its module for Python, and
of object types by sec_access_check_ds_implicit_owner of its shared library, which no module has."""

import ctypes
import functools
import glob
import os
import sys
import uuid
from pathlib import Path

from samba import NTSTATUSError, security as checks
from samba.dcerpc import security
from samba.ndr import ndr_unpack

sys.path.insert(0, str(Path(__file__).resolve().parents[1] / "peers"))
from inheritance_by_samba import folders, found  # noqa: E402

#: Of the enumeration implicit_owner_rights: the owner has READ_CONTROL and WRITE_DAC. The default is the first alone.
OWNER_CHANGES_THE_DACL = 1
POINTER, PLACE = ctypes.c_void_p, ctypes.POINTER(ctypes.c_void_p)


class Library:
    """The calls of the shared library, with the types of their arguments."""

    def __init__(self):
        library, self.talloc = ctypes.CDLL(found()), ctypes.CDLL("libtalloc.so.2")
        above = [os.path.dirname(folder) for folder in folders()]
        util = [path for folder in above for path in glob.glob(folder + "/libpytalloc-util*.so.2")]
        self.pointer = ctypes.PyDLL(util[0])._pytalloc_get_ptr
        self.pointer.argtypes, self.pointer.restype = [ctypes.py_object], POINTER
        self.check, self.insert = library.sec_access_check_ds_implicit_owner, library.insert_in_object_tree
        masks = ctypes.POINTER(ctypes.c_uint32)
        self.check.argtypes = [POINTER, POINTER, ctypes.c_uint32, masks, POINTER, POINTER, ctypes.c_int]
        self.check.restype = ctypes.c_uint32
        self.insert.argtypes = [POINTER, ctypes.c_char_p, ctypes.c_uint32, POINTER, PLACE]
        self.insert.restype = ctypes.c_bool
        self.talloc.talloc_named_const.argtypes = [POINTER, ctypes.c_size_t, ctypes.c_char_p]
        self.talloc.talloc_named_const.restype = POINTER
        self.talloc._talloc_free.argtypes = [POINTER, ctypes.c_char_p]

    def tree(self, room, types, asked):
        """The tree in which each type is the child of the one before it; None without types."""
        root, node = None, POINTER()
        for guid in types:
            made = POINTER()
            if not self.insert(room, uuid.UUID(guid).bytes_le, asked, node, made):
                raise MemoryError
            root, node = root or made, made
        return root

    def grants(self, descriptor, token, asked, types, principal_self):
        room, mask = self.talloc.talloc_named_const(None, 1, b"check"), ctypes.c_uint32()
        try:
            named = principal_self and self.pointer(principal_self)
            root = self.tree(room, types, asked)
            objects = self.pointer(descriptor), self.pointer(token)
            return self.check(*objects, asked, mask, root, named, OWNER_CHANGES_THE_DACL) == 0
        finally:
            self.talloc._talloc_free(room, b"check")


@functools.lru_cache(maxsize=None)
def the_library():
    return Library()


def claims_of(digits):
    """The claims of the SACL of a descriptor."""
    sacl = ndr_unpack(security.descriptor, bytes.fromhex(digits)).sacl
    return [] if sacl is None else [entry.coda for entry in sacl.aces]


def token_of(case):
    token, sids = security.token(), [case["user"], *case["groups"]]
    token.sids = [security.dom_sid(sid) for sid in sids]
    # (the count says how long the list is that the token returns)
    token.num_sids = len(sids)
    token.device_sids = [security.dom_sid(sid) for sid in case["device"]]
    token.num_device_sids = len(case["device"])
    for scope, digits in case["claims"].items():
        claims = claims_of(digits)
        setattr(token, scope + "_claims", claims)
        setattr(token, f"num_{scope}_claims", len(claims))
    token.evaluate_claims = security.CLAIMS_EVALUATION_ALWAYS
    return token


def granted(descriptor, token, asked):
    """What the file server's check grants; None where it denies."""
    try:
        return checks.access_check(descriptor, token, asked) & 0xFFFFFFFF
    except NTSTATUSError:
        return None


def check(case):
    """For each mask what is granted, by the check of a file server."""
    descriptor, token = ndr_unpack(security.descriptor, bytes.fromhex(case["sd"])), token_of(case)
    return {"granted": [granted(descriptor, token, asked) for asked in case["asked"]]}


def check_types(case):
    """For each mask whether it is granted, by the check of a directory, on a chain of object types."""
    descriptor, token = ndr_unpack(security.descriptor, bytes.fromhex(case["sd"])), token_of(case)
    named = security.dom_sid(case["self"]) if case["self"] else None
    found_each = [the_library().grants(descriptor, token, asked, case["types"], named) for asked in case["asked"]]
    return {"granted": [asked if is_granted else None for asked, is_granted in zip(case["asked"], found_each)]}
