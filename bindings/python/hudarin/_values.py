"""Values that are their bytes."""

from typing import Any, Tuple, Type, TypeVar

_S = TypeVar("_S", bound="_Bytes")


class _Bytes:
    """A value that is its bytes."""

    __slots__ = ("_bytes",)

    _bytes: bytes

    @classmethod
    def _of(cls: Type[_S], data: bytes) -> _S:
        """The value of these bytes, which the library has tested or written."""
        made = object.__new__(cls)
        made._bytes = data
        return made

    def __bytes__(self) -> bytes:
        return self._bytes

    def __hash__(self) -> int:
        return hash(self._bytes)

    def __copy__(self: _S) -> _S:
        return self

    def __deepcopy__(self: _S, memo: object) -> _S:
        return self

    def __reduce__(self) -> Tuple[Any, ...]:
        return type(self), (self._bytes,)
