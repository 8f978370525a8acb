"""Why a command ends early: each has the status with which the program ends."""


class EstateError(Exception):
    """A text for standard error, and the status."""

    status = 3


class Stopped(EstateError):
    """Nothing was done, since it isn't safe to."""

    status = 1


class Invalid(EstateError):
    """Invalid arguments or an invalid input: nothing was done."""

    status = 2


class Failed(EstateError):
    """A read or a write failed."""

    status = 3
