"""Which paths a line is about, by its first word: so a role may count at and below a path alone.

Paths are compared as the library compares them: by their bytes, name by name, and `.` and `..` are ordinary names."""

from collections.abc import Callable, Sequence

from errors import Fault
from spelling import number_of, path_of

#: What is asked of the whole store, of no path, and of a word that spells no path, which nobody's role reaches.
_WHOLE, _NONE, _NOWHERE = ("/",), (), ("",)


def is_within(top: str, path: str) -> bool:
    """Whether the path is at or below the other one."""
    return top == "/" or path == top or path.startswith(top + "/")


def _at(*places: int) -> Callable[[Sequence[str]], Sequence[str]]:
    """Those of the words at these places. (A line without one of them isn't carried out.)"""
    return lambda words: [path_of(words[place]) for place in places if place < len(words)]


def _top(words: Sequence[str]) -> Sequence[str]:
    return [path_of(words[1])] if words[1:] else _WHOLE


def _checked(words: Sequence[str]) -> Sequence[str]:
    count = number_of(words[2]) if words[2:] else 0
    return [path_of(word) for word in words[3 : 3 + count]]


def _deleted(words: Sequence[str]) -> Sequence[str]:
    """That of the parent, by whose descriptor a node may be deleted too."""
    return [path.rpartition("/")[0] or path[:1] for path in _at(2)(words)]


#: By the first word of a line. A word that isn't here is about the whole store.
_PATHS: dict[str, Callable[[Sequence[str]], Sequence[str]]] = {
    **dict.fromkeys(("tell", "learn", "status", "watch", "publish"), lambda words: _NONE),
    **dict.fromkeys(("check", "why", "show", "find"), _at(2)),
    **dict.fromkeys(("who", "compare", "addc", "addo", "owner", "group", "dacl", "remove", "protect"), _at(1)),
    **dict.fromkeys(("list", "review"), _top),
    "checks": _checked,
    "delete": _deleted,
    "move": _at(1, 2),
}


def paths_of(words: Sequence[str]) -> Sequence[str]:
    """The paths at and below which a line asks or edits. What a publish publishes isn't in its line."""
    if words[0] == "once":
        words = words[2:] or [""]
    try:
        return _PATHS.get(words[0], lambda _: _WHOLE)(words)
    except Fault:
        return _NOWHERE
