"""The edits of a script, by one table: their arguments, and the call of the library that makes each."""

from collections.abc import Callable, Sequence
from typing import Any, NamedTuple

from hudarin import Refused, Store, View

from answers import Result
from errors import Fault
from spelling import descriptor_of, fault_of, path_of, printed, sid_of, spelled


class Edit(NamedTuple):
    """An edit: its name, its arguments, and the words that spell them."""

    name: str
    arguments: tuple[Any, ...]
    words: Sequence[str]

    def make(self, store: Store) -> Result | None:
        """Makes it, or says why the library refuses it, and then the store is as it was."""
        try:
            _EDITS[self.name][1](store, *self.arguments)
        except Refused as refused:
            return fault_of(refused)
        return None

    def line(self) -> str:
        """The one line that spells it: parsed again it is the same edit."""
        spellings = zip(_EDITS[self.name][0], self.arguments, self.words)
        return " ".join([self.name, *[show(argument, word) for (_, show), argument, word in spellings]])


_Argument = tuple[Callable[[str], Any], Callable[[Any, str], str]]
#: What a word is parsed to, and how that is printed again.
_PATH: _Argument = (path_of, lambda path, word: spelled(path))
_SDDL: _Argument = (descriptor_of, printed)
_SID: _Argument = (sid_of, lambda sid, word: str(sid))
#: The arguments of each edit, and its call.
_EDITS: dict[str, tuple[tuple[_Argument, ...], Callable[..., None]]] = {
    "addc": ((_PATH, _SDDL), Store.add_container),
    "addo": ((_PATH, _SDDL), Store.add_object),
    "owner": ((_PATH, _SID), Store.set_owner),
    "group": ((_PATH, _SID), Store.set_group),
    "dacl": ((_PATH, _SDDL), Store.set_dacl),
    "remove": ((_PATH,), Store.remove),
    "protect": ((_PATH,), Store.protect_keeping),
    "move": ((_PATH, _PATH), Store.move),
}
NAMES = frozenset(_EDITS)
#: The line that publishes the pending edits, and the word after it of a client that publishes those of others too.
PUBLISH, ALL = "publish", "all"


def edit_of(words: Sequence[str], view: View) -> Edit:
    """The edit of a line's words. Fault: its first fault, arguments from the left; `view` only tests paths."""
    name, *given = words
    parsers = _EDITS[name][0]
    if len(given) != len(parsers):
        raise Fault.of("words")
    arguments: list[Any] = []
    try:
        for (parse, _), word in zip(parsers, given):
            arguments.append(parse(word))
    except Fault:
        require_paths(view, [each for each in arguments if isinstance(each, str)])
        raise
    return Edit(name, tuple(arguments), given)


def is_same(made: str, line: str, view: View) -> bool:
    """Whether two lines are one edit: an earlier version may have spelled the first otherwise."""
    if made == line or PUBLISH in (made, line):
        return made == line
    try:
        return edit_of(made.split(" "), view).line() == line
    except (Fault, KeyError):
        return False


def require_paths(view: View, paths: Sequence[str]) -> None:
    """Fault: the library takes one of these for no path."""
    for path in paths:
        try:
            view.own(path)
        except Refused as refused:
            if refused.status != "no node":
                raise Fault(fault_of(refused)) from None
