"""What a request is called by whoever sent it, as records of the log have it."""

import re
from collections.abc import Mapping
from typing import NamedTuple

from logs import in_json

#: An id is of so many characters at most, each printable ASCII but the space.
_ID = re.compile("[!-~]{1,100}")
#: A `traceparent` of W3C's Trace Context (2.2 of the recommendation): of a later version its first fields count. An id
#: of zeros alone is none, and `ff` is no version.
_TRACE = re.compile(
    "(?!ff)(?P<parent>[0-9a-f]{2}-(?!0{32})[0-9a-f]{32}-(?!0{16})[0-9a-f]{16}-[0-9a-f]{2})(?P<more>-.*)?"
)


class Origin(NamedTuple):
    """The id of a line, or of a request over HTTP, and the span that this has in a trace."""

    request: str = ""
    trace: str = ""

    def members(self) -> dict[str, str]:
        """Those that are there."""
        named = {"request": self.request, "traceparent": self.trace}
        return {name: value for name, value in named.items() if value}

    def text(self) -> str:
        """The same, after other members of an object of JSON."""
        return "".join(f', "{name}": {in_json(value)}' for name, value in self.members().items())


#: Nobody says what it is called.
UNNAMED = Origin()


def origin_of(fields: Mapping[str, str]) -> Origin:
    """That of the fields of a head: what isn't valid in them is left out."""
    request, trace = fields.get("x-request-id", ""), _TRACE.fullmatch(fields.get("traceparent", ""))
    if trace is not None and trace["more"] and trace["parent"].startswith("00"):
        trace = None
    return Origin(request if _ID.fullmatch(request) else "", "" if trace is None else trace["parent"])
