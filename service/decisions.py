"""The log of decisions: what clients were answered where they asked whether access is granted."""

from collections.abc import Sequence

from answers import Answer, Checked, CheckedAll, Explained, Result
from logs import Log
from origin import Origin

#: The verdicts that are logged where those that are denied are.
_DENIED = ("denied", "reserved")
#: Paths, the words of the user, the mask and the rest of the token, and a verdict on each path.
_Decided = tuple[Sequence[str], Sequence[str], Sequence[str]]


class Decisions:
    """Those that a configuration has logged: `none`, `denied` or `all`."""

    def __init__(self, which: str, log: Log) -> None:
        self.are_logged = which != "none"
        self._all, self._log = which == "all", log

    def log(self, words: Sequence[str], said: Answer, who: str, origin: Origin) -> bool:
        """Logs what an answer decides, if it decides anything. False: the log doesn't take it."""
        decided = _decided(words, said)
        if decided is None:
            return True
        paths, (user, mask, *others), verdicts = decided
        if not self._all:
            at = [place for place, verdict in enumerate(verdicts) if verdict.partition(" ")[0] in _DENIED]
            if not at:
                return True
            paths, verdicts = [paths[place] for place in at], [verdicts[place] for place in at]
        return self._log.event(
            "decision", who=who, asked=words[0], user=user, words=others, mask=mask, paths=paths, answers=verdicts,
            seen=_seen(said), **origin.members())


def _decided(words: Sequence[str], said: Answer) -> _Decided | None:
    if isinstance(said, CheckedAll):
        count = len(said.texts)
        return words[3 : 3 + count], words[3 + count :], said.texts
    if isinstance(said, Explained):
        said = said.checked
    if isinstance(said, Checked):
        return words[2:3], words[3:], [said.text.split(" ", 2)[2]]
    if words[0] == "delete" and isinstance(said, Result):
        return words[2:3], [words[3], "SD", *words[4:]], [f"{said.kind} {said.why}".strip()]
    return None


def _seen(said: Answer) -> int | None:
    return said.checked.seen if isinstance(said, Explained) else getattr(said, "seen", None)
