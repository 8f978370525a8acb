"""Warnings that would fill the log: one that comes again and again is there once a minute."""

import threading
from collections.abc import Callable

import clock

_SECONDS = 60.0
#: The texts that are known at once.
_MOST_TEXTS = 64


class Rarely:
    """Passes a text to the log, and again after a minute at the earliest, with how often it came meanwhile. Threads may
    call it."""

    def __init__(self, log: Callable[[str], None]) -> None:
        self._log = log
        self._turn = threading.Lock()
        #: When each was passed last, and how often it wasn't since.
        self._known: dict[str, tuple[float, int]] = {}

    def __call__(self, text: str) -> None:
        now = clock.now()
        with self._turn:
            passed, count = self._known.pop(text, (now - _SECONDS, 0))
            is_due = now - passed >= _SECONDS
            self._known[text] = (now, 0) if is_due else (passed, count + 1)
            if len(self._known) > _MOST_TEXTS:
                del self._known[next(iter(self._known))]
        if is_due:
            self._log(f"{text} (and {count} times before)" if count else text)
