"""Objects that hold memory of the library until they are closed."""

import threading
from typing import Any, Callable, ContextManager, NoReturn, Optional, Tuple, Type, TypeVar

from ._answers import _checked, _filled
from ._calls import _Kept
from ._library import _library
from ._numbers import _DOMAIN, _HANDLE, _SID

_H = TypeVar("_H", bound="_Held")


class _Held:
    """Memory of the library, until ``close`` or the end of a ``with``. Threads may use one object at once: they take
    turns."""

    __slots__ = ("_kept", "_turn")

    #: What the library calls such an argument.
    _argument = ""
    #: Why it can't be copied, and what to do instead.
    _uncopied = "it holds memory of the library"

    _kept: _Kept
    _turn: ContextManager[Any]

    def __new__(cls: Type[_H], *_arguments: object, **_named: object) -> _H:
        held = object.__new__(cls)
        held._kept, held._turn = _Kept(), threading.RLock()
        return held

    def close(self) -> None:
        """Frees the memory. A second call does nothing."""
        with self._turn:
            _library.hudarin_release(self._kept)

    def _keep(self, call: Callable[..., Any], *given: Any) -> None:
        """Keeps what the call makes of what it is given."""
        with self._turn:
            if self._kept.is_there:
                raise RuntimeError(f"{self._argument}: it is made already")
            _checked(call(*given, self._kept), argument=self._argument)

    def _written(self, call: Callable[..., Any], *given: Any, argument: Optional[str] = None) -> Tuple[bytes, Any]:
        """What the call writes about what is kept, and its answer. Other faults than these are of the argument."""
        named = {_HANDLE: self._argument, _SID: "domain", _DOMAIN: "domain"}
        with self._turn:
            return _filled(
                lambda *buffer: call(self._kept, *given, *buffer),
                argument=lambda written: named.get(written.status, argument),
            )

    def __enter__(self: _H) -> _H:
        return self

    def __exit__(self, *_: object) -> None:
        self.close()

    def __del__(self) -> None:
        if hasattr(self, "_turn"):
            self.close()

    def __reduce__(self) -> NoReturn:
        raise TypeError(f"a {type(self).__name__} can't be copied or pickled: {self._uncopied}")


class _Shared(_Held):
    """Memory of the library that several objects may hold."""

    __slots__ = ()

    _uncopied = "share makes another"

    def share(self: _H) -> _H:
        """Another object that holds the same, and is closed by itself."""
        other = type(self).__new__(type(self))
        with self._turn:
            _checked(_library.hudarin_share(self._kept, other._kept), argument=self._argument)
        return other
