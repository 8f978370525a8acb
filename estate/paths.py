"""Paths of nodes, as docs/TREE.md has them, and their texts in scripts, as docs/SCRIPT.md has them with --percent."""

import re
import urllib.parse

#: The names of a path, from the root down. The root has none.
Path = tuple[bytes, ...]

#: The limits of a path, by docs/TREE.md.
MAX_NAME_BYTES = 255
MAX_NAMES = 64

_ENCODED = re.compile(rb"[^!-$&-~]")


def spelled(path: Path) -> str:
    """The path's text: control characters, spaces, `%` and all bytes outside ASCII are percent-encoded."""
    return "/" + "/".join(_spelled_name(name) for name in path)


def _spelled_name(name: bytes) -> str:
    return _ENCODED.sub(lambda found: b"%%%02X" % found[0][0], name).decode("ascii")


def names_in(text: str) -> Path:
    """The names that the text of a path spells, of which a tree may have none, or a ValueError."""
    if text == "/":
        return ()
    if not text.startswith("/"):
        raise ValueError("a path begins with '/'")
    return tuple(urllib.parse.unquote_to_bytes(name) for name in text[1:].split("/"))


def parsed(text: str) -> Path:
    """The path that the text spells, or a ValueError."""
    path = names_in(text)
    for name in path:
        fault = fault_of_name(name)
        if fault is not None:
            raise ValueError(fault)
    if len(path) > MAX_NAMES:
        raise ValueError(f"it has {len(path)} names, and {MAX_NAMES} fit")
    return path


def fault_of_name(name: bytes) -> str | None:
    """Why no node of a tree has this name, or None."""
    if not name:
        return "the name is empty"
    if b"/" in name or b"\0" in name:
        return "the name has a '/' or a zero byte"
    if len(name) > MAX_NAME_BYTES:
        return f"the name has {len(name)} bytes, and {MAX_NAME_BYTES} fit"
    try:
        name.decode()
    except UnicodeDecodeError:
        return "the name isn't UTF-8"
    return None


def fault_of(path: Path) -> str | None:
    """Why a tree has no node of this path, below a parent that it has, or None."""
    if len(path) > MAX_NAMES:
        return f"too deep: its path has {len(path)} names, and {MAX_NAMES} fit; read its folder by itself"
    return fault_of_name(path[-1]) if path else None
