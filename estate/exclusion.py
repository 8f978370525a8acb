"""Which nodes `estate read --exclude` leaves out, each with all below it."""

import fnmatch
import os
import re

from paths import Path


class Exclusion:
    """Patterns as of a shell, of paths below the root: `*` stands for any characters, `/` too, and case counts."""

    def __init__(self, patterns: list[str]) -> None:
        self._patterns = [(pattern, re.compile(fnmatch.translate(pattern))) for pattern in patterns]
        #: Those that no node matched.
        self.unmatched = dict.fromkeys(patterns)

    def why(self, path: Path) -> str | None:
        """Why a node is left out, or None: the root, which has no name, never is."""
        text = os.fsdecode(b"/".join(path))
        pattern = next((each for each, shape in self._patterns if path and shape.match(text)), None)
        if pattern is None:
            return None
        self.unmatched.pop(pattern, None)
        return f"--exclude {pattern}"
