"""The edits of a tree."""

from typing import Optional

from ._arguments import NodePath, _of_type, _path
from ._descriptors import Descriptor
from ._sids import Sid

_ADD_CONTAINER, _ADD_OBJECT, _SET_OWNER, _SET_GROUP, _SET_DACL, _REMOVE, _PROTECT_KEEPING, _MOVE = range(1, 9)


class _Edits:
    """The edits of a tree. One that the tree refuses is ``Refused``, and changes nothing."""

    __slots__ = ()

    def _edit(self, edit: int, path: NodePath, value: bytes = b"") -> None:
        raise NotImplementedError

    def _add_stored(self, kind: int, path: NodePath, *forms: bytes) -> None:
        raise NotImplementedError

    def _add(
        self, edit: int, path: NodePath, descriptor: Descriptor, kept: Optional[Descriptor], offer: Optional[Descriptor]
    ) -> None:
        own = bytes(_of_type(descriptor, Descriptor, "descriptor"))
        if kept is None and offer is None:
            self._edit(edit, path, own)
        else:
            lists = (_of_type(each, Descriptor, name) for each, name in ((kept, "kept"), (offer, "offer")))
            self._add_stored(edit, path, own, *map(bytes, lists))

    def add_container(
        self,
        path: NodePath,
        descriptor: Descriptor,
        *,
        kept: Optional[Descriptor] = None,
        offer: Optional[Descriptor] = None,
    ) -> None:
        """Adds a container with the descriptor's owner, group and own DACL. With ``kept`` and ``offer``, each a
        descriptor with neither owner nor group, it keeps what it had inherited elsewhere while its container passes
        down what was passed down there, the offer; otherwise it inherits as any other node."""
        self._add(_ADD_CONTAINER, path, descriptor, kept, offer)

    def add_object(
        self,
        path: NodePath,
        descriptor: Descriptor,
        *,
        kept: Optional[Descriptor] = None,
        offer: Optional[Descriptor] = None,
    ) -> None:
        """Adds an object, as ``add_container`` adds a container."""
        self._add(_ADD_OBJECT, path, descriptor, kept, offer)

    def set_owner(self, path: NodePath, owner: Sid) -> None:
        """Sets the node's owner."""
        self._edit(_SET_OWNER, path, bytes(_of_type(owner, Sid, "owner")))

    def set_group(self, path: NodePath, group: Sid) -> None:
        """Sets the node's group."""
        self._edit(_SET_GROUP, path, bytes(_of_type(group, Sid, "group")))

    def set_dacl(self, path: NodePath, descriptor: Descriptor) -> None:
        """Sets the node's own DACL to the descriptor's. The descriptor must have neither owner nor group."""
        self._edit(_SET_DACL, path, bytes(_of_type(descriptor, Descriptor, "descriptor")))

    def remove(self, path: NodePath) -> None:
        """Removes a node without children."""
        self._edit(_REMOVE, path)

    def protect_keeping(self, path: NodePath) -> None:
        """Protects the node from inheritance. The entries that it inherited become its own."""
        self._edit(_PROTECT_KEEPING, path)

    def move(self, source: NodePath, target: NodePath) -> None:
        """Moves the node and all below it to the target, a path without a node."""
        self._edit(_MOVE, source, _path(target))
