"""Why a command ends early: each has the status with which the program ends. And why a line isn't carried out."""

from answers import Result


class ServiceError(Exception):
    """A text for standard error, and the status."""

    status = 3


class Mismatch(ServiceError):
    """The journal isn't the one that was acknowledged: nothing is served."""

    status = 1


class Invalid(ServiceError):
    """Invalid arguments, an invalid configuration or an invalid input: nothing was done."""

    status = 2


class Failed(ServiceError):
    """A read or a write failed."""

    status = 3


class Fault(Exception):
    """A line that isn't carried out, with its answer."""

    def __init__(self, answer: Result) -> None:
        super().__init__(answer.line())
        self.answer = answer

    @classmethod
    def of(cls, why: str) -> "Fault":
        """That of the answer `fault WHY`."""
        return cls(Result("fault", why))
