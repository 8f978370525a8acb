"""What questions are answered by: the published tree, and how far the journal goes."""

from typing import NamedTuple

from hudarin import View

from entry import Place


class Shown(NamedTuple):
    """What readers see."""

    view: View
    length: int
    place: Place
    epoch: int
    #: The last line on disk, and when it was accepted, in milliseconds since 1970.
    last: Place
    time: int
    takes_edits: bool
    #: No answer is given after that, by the clock of `clock.now`: a replica knows no more of its source.
    fresh_until: float
