"""Counts tests: each failure is a line of its own, and the last line is 'N passed, M failed'."""

from typing import Any, Callable, Type

passed = failed = 0


def holds(place: str, is_so: bool, text: str) -> None:
    """Counts a test, whose failure prints the text."""
    global passed, failed
    if is_so:
        passed += 1
    else:
        failed += 1
        print(f"{place}: {text}")


def raises(place: str, expected: Type[BaseException], call: Callable[[], Any]) -> None:
    """The call raises just this class, and no subclass."""
    try:
        got = call()
    except Exception as e:  # noqa: BLE001
        got = e
    holds(place, type(got) is expected, f"expected {expected.__name__}, not {got!r}")


def gives(place: str, expected: Any, call: Callable[[], Any]) -> None:
    """The call returns what is expected."""
    try:
        got = call()
    except Exception as e:  # noqa: BLE001
        got = e
    holds(place, not isinstance(got, Exception) and got == expected, f"expected {expected!r}, not {got!r}")


def close() -> int:
    """Prints the last line, and returns the status of the program."""
    print(f"{passed} passed, {failed} failed")
    return 0 if failed == 0 and passed > 0 else 1
