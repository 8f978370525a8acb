"""What /metrics shows, in Prometheus' text format."""

import time
from bisect import bisect_left
from collections import Counter
from dataclasses import dataclass, field

from answers import NO_ROLE, VERDICTS, Checked, CheckedAll, Result

#: The upper bounds of a latency's counts, in seconds.
_BOUNDS = (0.000_025, 0.000_1, 0.000_5, 0.001, 0.005, 0.02, 0.1, 0.5, 2.5)


_HELP = {
    "accounts_age_seconds": "How long ago the accounts were read that users have their groups by.",
    "checks_total": "Checks by verdict.",
    "edits_total": "Edits by answer: ok, the name of a refusal, fault or unavailable.",
    "rejected_total": "Connections that were closed or not admitted, by reason.",
    "publishes_total": "Publishes.",
    "check_seconds": "How long the checks of a request took.",
    "edit_seconds": "How long edits and publishes took until they were on disk.",
    "connections": "Open connections.",
    "edits_in_progress": "Edits that aren't answered yet.",
    "epoch": "The epoch of the store.",
    "held_bytes": "What connections hold: requests that aren't whole, answers in the making or not taken.",
    "journal_age_seconds": "The age of the journal's last line.",
    "journal_bytes": "The size of the journal on disk.",
    "log_lost_total": "Events that the log didn't take; records of edits aren't among them.",
    "log_waiting_bytes": "What the log's stream hasn't taken.",
    "published_length": "The length of the published journal.",
    "published_line": "The number of the line that published it.",
    "replica_age_seconds": "How long ago the replica had all lines of its source.",
    "replica_lag_lines": "The lines of its source that the replica lacks, as far as it knows.",
    "takes_edits": "Whether edits are taken: not after a failed commit, nor without a log, nor by a replica.",
}


def _head(name: str, kind: str) -> list[str]:
    return [f"# HELP sdstored_{name} {_HELP[name]}", f"# TYPE sdstored_{name} {kind}"]


@dataclass
class Histogram:
    counts: list[int] = field(default_factory=lambda: [0] * (len(_BOUNDS) + 1))
    sum: float = 0.0

    def add(self, seconds: float) -> None:
        self.counts[bisect_left(_BOUNDS, seconds)] += 1
        self.sum += seconds

    def lines(self, name: str) -> list[str]:
        lines, total = _head(name, "histogram"), 0
        for bound, count in zip((*map(str, _BOUNDS), "+Inf"), self.counts):
            total += count
            lines.append(f'sdstored_{name}_bucket{{le="{bound}"}} {total}')
        return [*lines, f"sdstored_{name}_sum {self.sum:.6f}", f"sdstored_{name}_count {total}"]


@dataclass
class Metrics:
    """Counts since the start."""

    checks: Counter[str] = field(default_factory=Counter)
    edits: Counter[str] = field(default_factory=Counter)
    publishes: int = 0
    rejected: Counter[str] = field(default_factory=Counter)
    check_seconds: Histogram = field(default_factory=Histogram)
    edit_seconds: Histogram = field(default_factory=Histogram)

    def count_checks(self, answer: Checked | CheckedAll, seconds: float) -> None:
        """Checks that are answered; where several were asked at once each kind of verdict has a count, 0 too."""
        if isinstance(answer, Checked):
            self.checks[answer.kind] += 1
        else:
            for kind in VERDICTS:
                self.checks.setdefault(kind, 0)
            for text in set(answer.texts):
                self.checks[text.partition(" ")[0]] += answer.texts.count(text)
        self.check_seconds.add(seconds)

    def count_edit(self, is_publish: bool, answer: Result, seconds: float) -> None:
        """An edit or a publish that is answered; one that is refused by the role didn't get to the writer."""
        if answer != NO_ROLE:
            self.edit_seconds.add(seconds)
        if not is_publish:
            self.edits[answer.name if answer.kind == "refused" else answer.kind] += 1
        elif answer.is_made:
            self.publishes += 1

    def text(self, gauges: dict[str, float], log_lost: int) -> str:
        """All lines; `gauges` has what is measured now."""
        lines: list[str] = []
        for name, label, counts in (
            ("checks_total", "verdict", self.checks),
            ("edits_total", "answer", self.edits),
            ("rejected_total", "reason", self.rejected),
        ):
            lines += _head(name, "counter")
            lines += (f'sdstored_{name}{{{label}="{value}"}} {count}' for value, count in sorted(counts.items()))
        for name, count in (("publishes_total", self.publishes), ("log_lost_total", log_lost)):
            lines += [*_head(name, "counter"), f"sdstored_{name} {count}"]
        for name, value in sorted(gauges.items()):
            lines += [*_head(name, "gauge"), f"sdstored_{name} {value}"]
        lines += self.check_seconds.lines("check_seconds") + self.edit_seconds.lines("edit_seconds")
        return "\n".join(lines) + "\n"


def seconds_since(milliseconds: int) -> float:
    """The seconds since a time in milliseconds since 1970."""
    return max(0.0, time.time() - milliseconds / 1000)
