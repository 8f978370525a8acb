"""The JSON object of a request: each value is tested before it becomes a word of a line."""

import json
from collections.abc import Sequence
from typing import Any

from errors import Fault
from spelling import number_of, spelled


#: The marks of a body, each of which may be that of a value: the most edits, or checks and groups, have far fewer. More
#: would take long to parse, and nobody is answered meanwhile.
_MARKS, _MOST_MARKS = (b",", b"[", b"{"), 50_000


class Given:
    """An object's values by their names. Fault: a value isn't what is asked for; its name is that of the fault."""

    def __init__(self, value: Any, name: str) -> None:
        if not isinstance(value, dict):
            raise Fault.of(name)
        self._values = value

    @classmethod
    def of_body(cls, kind: str, body: bytes) -> "Given":
        """The object of a body of this content type, in which no name is there twice."""
        if kind.partition(";")[0].strip().lower() != "application/json":
            raise Fault.of("content-type")
        if sum(map(body.count, _MARKS)) > _MOST_MARKS:
            raise Fault.of("values")
        try:
            value = json.loads(body.decode(), object_pairs_hook=_once, parse_constant=_no_number)
        except (ValueError, RecursionError):
            raise Fault.of("json") from None
        return cls(value, "json")

    @classmethod
    def of_query(cls, query: str, *numbers: str) -> "Given":
        """The values of a target's query, which are texts but for these numbers."""
        values: dict[str, Any] = {}
        for name, _, value in (part.partition("=") for part in query.split("&")):
            if name in values:
                raise Fault.of("query")
            values[name] = number_of(value) if name in numbers else value
        return cls(values, "query")

    def know(self, *names: str) -> None:
        """Fault: there is a name besides these."""
        if not self._values.keys() <= set(names):
            raise Fault.of(ascii(min(self._values.keys() - set(names))))

    def has(self, name: str) -> bool:
        """Whether there is a value of this name."""
        return name in self._values

    def text(self, name: str, default: str | None = None) -> str:
        """One word of a line."""
        return _word(self._values.get(name, default), name)

    def texts(self, name: str, most: int) -> list[str]:
        """Words of a line, so many at most, or none."""
        return [_word(each, name) for each in self.list(name, most, [])]

    def path(self, name: str, default: str | None = None) -> str:
        """A path, spelled as one word."""
        value = self._values.get(name, default)
        if not isinstance(value, str) or not value:
            raise Fault.of(name)
        return spelled(_encodable(value))

    def list(self, name: str, most: int, default: list[Any] | None = None) -> list[Any]:
        """Values of any kind, so many at most."""
        value = self._values.get(name, default)
        if not isinstance(value, list) or len(value) > most:
            raise Fault.of(name)
        return value

    def number(self, name: str, default: int) -> int:
        """A whole number of at least 0."""
        value = self._values.get(name, default)
        if type(value) is not int or value < 0:
            raise Fault.of(name)
        return value

    def flag(self, name: str) -> bool:
        """Whether the value is `true`; without one it isn't."""
        value = self._values.get(name, False)
        if type(value) is not bool:
            raise Fault.of(name)
        return value


def _once(pairs: Sequence[tuple[str, Any]]) -> dict[str, Any]:
    made = dict(pairs)
    if len(made) != len(pairs):
        raise ValueError("a name is there twice")
    return made


def _no_number(text: str) -> None:
    raise ValueError(f"{text} is no number of JSON")


def _word(value: Any, name: str) -> str:
    """The value, if it is a text without what would make it two words of a line, or none."""
    if not isinstance(value, str) or not value or any(each in value for each in " \r\n"):
        raise Fault.of(name)
    return _encodable(value)


def _encodable(value: str) -> str:
    """The text, if it is one of Unicode: JSON has halves of surrogate pairs too."""
    try:
        value.encode()
    except UnicodeEncodeError:
        raise Fault.of("utf8") from None
    return value
