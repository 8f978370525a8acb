"""Windows security descriptors, and access checks on them by [MS-DTYP], by the proved library libhudarin.

    >>> from hudarin import Descriptor, Sid
    >>> readers = Descriptor.from_sddl("O:BAG:SYD:(A;;FR;;;BU)")
    >>> verdict = readers.check(Sid.from_text("S-1-5-21-1-2-3-1001"), [Sid.from_text("BU")], asked="FR")
    >>> bool(verdict), str(verdict)
    (True, 'granted 0x120089')

A ``Sid``, a ``Descriptor`` and a ``WholeDescriptor`` are values: they never change, and are compared, copied and
pickled by their bytes. A ``Token``, a ``Client``, ``Accounts``, a ``KeptDescriptor``, a ``Store`` and a ``View`` hold
memory of the library until they are closed, and can't be copied. Any number of threads may use this module.

A value of the wrong type is a TypeError. A number out of range is a ValueError. What the library rejects is a
``Refused``, which is a ValueError too; of these ``Closed`` says that an object is closed. Out of memory is a
MemoryError.

The shared library is the one that the environment variable HUDARIN_LIBRARY names. Without it: of a checkout the one
that bindings/build made, of an installation the one of the same prefix, and else the one that the system's loader
finds.
"""

from ._accounts import Accounts
from ._analysis import Access, Accesses, Change, Comparison, Finding
from ._arguments import Data, NodePath
from ._descriptors import Descriptor, KeptDescriptor, check_all, who_all
from ._entries import Entry
from ._library import __version__ as __version__
from ._masks import Kind, Mask, map_mask, mask, mask_names
from ._numbers import (
    ARGUMENTS,
    AVOID_OWNER_CHECK,
    CAUSES,
    DACL_AUTO_INHERIT,
    DEFAULT_DESCRIPTOR_FOR_OBJECT,
    DEFAULT_GROUP_FROM_PARENT,
    DEFAULT_OWNER_FROM_PARENT,
    DENY_ONLY,
    DISABLED,
    ENABLED,
    FILES,
    FLAGS,
    KEYS,
    MAPPINGS,
    OF_DACL,
    OF_GROUP,
    OF_OWNER,
    OF_SACL,
    PROCESSES,
    SACL_AUTO_INHERIT,
    SECURITY,
    SERVICES,
    STATUSES,
    TAKE_OWNERSHIP,
    VERDICTS,
)
from ._refused import FAULTS, Closed, NoList, Refused
from ._sids import Group, Sid
from ._stores import Judge, Reviewed, Store
from ._tokens import Client, Token
from ._verdicts import Explanation, Part, Verdict
from ._views import Node, Stored, View
from ._wholes import ObjectType as ObjectType
from ._wholes import WholeDescriptor, WholeEntry

__all__ = [
    "ARGUMENTS",
    "AVOID_OWNER_CHECK",
    "Access",
    "Accesses",
    "Accounts",
    "CAUSES",
    "Change",
    "Client",
    "Closed",
    "Comparison",
    "DACL_AUTO_INHERIT",
    "DEFAULT_DESCRIPTOR_FOR_OBJECT",
    "DEFAULT_GROUP_FROM_PARENT",
    "DEFAULT_OWNER_FROM_PARENT",
    "DENY_ONLY",
    "DISABLED",
    "Data",
    "Descriptor",
    "ENABLED",
    "Entry",
    "Explanation",
    "FAULTS",
    "FILES",
    "FLAGS",
    "Finding",
    "Group",
    "Judge",
    "KEYS",
    "KeptDescriptor",
    "Kind",
    "MAPPINGS",
    "Mask",
    "NoList",
    "Node",
    "NodePath",
    "OF_DACL",
    "OF_GROUP",
    "OF_OWNER",
    "OF_SACL",
    "PROCESSES",
    "Part",
    "Refused",
    "Reviewed",
    "SACL_AUTO_INHERIT",
    "SECURITY",
    "SERVICES",
    "STATUSES",
    "Sid",
    "Store",
    "Stored",
    "TAKE_OWNERSHIP",
    "Token",
    "VERDICTS",
    "Verdict",
    "View",
    "WholeDescriptor",
    "WholeEntry",
    "check_all",
    "map_mask",
    "mask",
    "mask_names",
    "who_all",
]

# Messages and pickles name a class by where it is imported from, whatever file it stands in.
for _class in [value for name, value in globals().items() if name in __all__ and isinstance(value, type)]:
    _class.__module__ = __name__
