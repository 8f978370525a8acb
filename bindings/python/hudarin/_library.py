"""The library: found, tested for its version, and loaded."""

import ctypes
import os
from typing import Any, Callable, cast

from ._calls import _CALLS, _Version

__version__ = "0.3.0"


def _named_library() -> str:
    """The library's path, if this package is in a checkout or an installation, else its soname for the system's loader.
    (Beside a copy of this package anybody may have put a library.)"""
    name = "libhudarin.so." + __version__.rpartition(".")[0]
    folder, path = os.path.dirname(os.path.dirname(os.path.abspath(__file__))), name
    if folder.endswith(os.path.join(os.sep, "bindings", "python")):
        path = os.path.join(os.path.dirname(folder), "out", name)
    elif os.path.basename(folder) in ("dist-packages", "site-packages"):
        path = os.path.join(os.path.dirname(os.path.dirname(folder)), name)
    return path if os.path.exists(path) else name


def _found_library() -> ctypes.CDLL:
    """The library, if it has the calls of this module. While the major version is 0 another minor one may change what
    exists."""
    named = os.environ.get("HUDARIN_LIBRARY") or _named_library()
    try:
        library = ctypes.CDLL(named)
        library.hudarin_version.argtypes, library.hudarin_version.restype = [], _Version
    except (OSError, AttributeError) as e:
        made = "HUDARIN_LIBRARY names another library, and bindings/build makes one"
        raise ImportError(f"{named}: {e}; {made}") from e
    found = library.hudarin_version()
    major, minor, _ = (int(number) for number in __version__.split("."))
    if (found.major, found.minor) != (major, minor):
        version = f"{found.major}.{found.minor}.{found.patch}"
        raise ImportError(f"{named}: it is version {version}, and {__version__} is required")
    return library


def _load() -> ctypes.CDLL:
    library = _found_library()
    for name, (arguments, result) in _CALLS.items():
        call = getattr(library, "hudarin_" + name)
        call.argtypes, call.restype = arguments, result
    return library


_library = _load()
_short_calls = ctypes.PyDLL(_library._name, handle=_library._handle)


def _short(name: str) -> Callable[..., Any]:
    """A short call of the library. It is made without leaving Python's lock: to leave that, and to wait for the next
    turn, takes longer."""
    call, same = getattr(_short_calls, name), getattr(_library, name)
    call.argtypes, call.restype = same.argtypes, same.restype
    return cast(Callable[..., Any], call)


_check_bytes = _short("hudarin_check_bytes")
_view_check = _short("hudarin_view_check")
_lines_count = _short("hudarin_lines_count")
_line_print = _short("hudarin_line_print")
_line_value = _short("hudarin_line_value")
