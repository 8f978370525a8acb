"""What a source has of each node."""

from dataclasses import dataclass

from others import Kept
from paths import Path


@dataclass(frozen=True, slots=True)
class Found:
    """A node of a source. Sources return them with each folder before what is in it, and everything in a folder before
    what comes after it."""

    path: Path
    is_container: bool
    #: What is kept of its descriptor; or None, and `why` says why there is none.
    kept: Kept | None
    why: str | None = None
    #: Why what is in the folder couldn't be listed, or None.
    unlisted: str | None = None
    #: Of a file that was found by another path before: that path.
    first_name: Path | None = None
    #: Whether it has no descriptor here since --exclude leaves it out, with all below it.
    is_excluded: bool = False
