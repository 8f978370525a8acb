"""The clocks: how old knowledge is, by one that goes on while the machine is suspended; when a line was accepted."""

import time


def now() -> float:
    """The seconds since the machine started, with those in which it was suspended."""
    return time.clock_gettime(time.CLOCK_BOOTTIME)


def milliseconds() -> int:
    """The milliseconds since 1970, as lines have them: 0 where the clock is before it."""
    return max(0, time.time_ns() // 1_000_000)
