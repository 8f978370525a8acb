"""Numbers for values."""

from dataclasses import dataclass, field
from typing import Any


@dataclass(slots=True)
class Numbers:
    """Values by the order in which they were first seen."""

    numbers: dict[Any, int] = field(default_factory=dict)

    def of(self, value: Any) -> int:
        return self.numbers.setdefault(value, len(self.numbers))
