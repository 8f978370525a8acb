"""A line on standard error that says how many nodes are done, while there are more."""

import sys
import time

from table import plural

#: On a terminal so often the line is replaced; elsewhere there is another one.
_SECONDS, _SECONDS_ELSEWHERE = 0.1, 1.0


class Progress:
    """Counts nodes: `with Progress(total) as progress: ..`. Nothing is printed unless standard error is a terminal, or
    it is asked for."""

    def __init__(self, total: int, is_of_all: bool = False, is_asked: bool = False) -> None:
        """The total is 0 if it isn't known. If it `is_of_all` nodes of a file system, these are some of them."""
        self.count = 0
        self._total, self._is_of_all = total, is_of_all
        self._is_terminal = sys.stderr.isatty()
        self._is_shown = self._is_terminal or is_asked
        self._began = self._next = time.monotonic()

    def __enter__(self) -> "Progress":
        return self

    def __exit__(self, *_: object) -> None:
        if self._is_terminal:
            sys.stderr.write("\r\033[K")
            sys.stderr.flush()

    def step(self) -> None:
        self.count += 1
        if self._is_shown and time.monotonic() >= self._next:
            line = self._line(time.monotonic() - self._began)
            sys.stderr.write(f"\r{line}\033[K" if self._is_terminal else f"estate: {line}\n")
            sys.stderr.flush()
            self._next = time.monotonic() + (_SECONDS if self._is_terminal else _SECONDS_ELSEWHERE)

    def _line(self, seconds: float) -> str:
        # (a file system may count fewer than it has)
        is_known = self._total >= self.count
        of = f"{self.count:,} of {self._total:,} nodes"
        line = of if is_known and not self._is_of_all else plural(self.count, "node")
        if seconds >= _SECONDS:
            line += f", {self.count / seconds:,.0f} a second"
        return f"{line}; the whole file system has {self._total:,}" if is_known and self._is_of_all else line
