"""What values of answers are as lines and as JSON, and what they count as."""

import unittest

import rig

from answers import Checked, CheckedAll, Described, Explained, Result, Reviewed, Text
from hudarin import Part, Verdict
from metrics import Metrics

GRANTED, DENIED, EMPTY = Verdict("granted", 0x120089), Verdict("denied", 0x2), Verdict("empty", 0)
#: Each value with its line and its JSON.
VALUES = (
    (Result("fault", "words"), "fault words", {"fault": "words"}),
    (Result("unavailable", "busy"), "unavailable busy", {"unavailable": "busy"}),
    (Result("nonotice"), "nonotice", {"fault": "nonotice"}),
    (Result("nonode", seen=0), "seen 0 nonode", {"fault": "nonode"}),
    (Checked(3, None), "seen 3 nonode", {"verdict": "nonode"}),
    (Checked(3, EMPTY), "seen 3 empty", {"verdict": "empty"}),
    (CheckedAll(3, [GRANTED, None]), "seen 3 granted 0x120089, nonode",
     [{"verdict": "granted", "mask": "0x120089"}, {"verdict": "nonode"}]),
    (Explained(Checked(3, DENIED), [Part(False, 2, None, None, "by no entry")]),
     "seen 3 denied 0x2\ndenied 0x2 by no entry",
     {"verdict": "denied", "mask": "0x2", "reasons": ["denied 0x2 by no entry"]}),
    (Described(3, "O:BAG:SYD:"), "seen 3 shown O:BAG:SYD:", {"descriptor": "O:BAG:SYD:"}),
    (Text(f"lost 0x2 by {rig.USER}"), f"lost 0x2 by {rig.USER}", f"lost 0x2 by {rig.USER}"),
    (Reviewed(3, 5), "reviewed 3 5", {"seen": 3, "pending": 5}),
)
#: What becomes of edits: the line, whether it is made, and its label in the metrics.
EDITS = (
    (Result("ok"), "ok", True, "ok"),
    (Result("refused", "NoNode", 4), "refused 4 NoNode", False, "NoNode"),
    (Result("fault", "sid"), "fault sid", False, "fault"),
    (Result("unavailable", "journal"), "unavailable journal", False, "unavailable"),
    (Result("unmade"), "unmade", False, "unmade"),
)


class Answers(unittest.TestCase):
    def test_lines_and_json(self) -> None:
        for value, line, json in VALUES:
            with self.subTest(line):
                self.assertEqual((value.line(), value.json()), (line, json))

    def test_edits(self) -> None:
        metrics = Metrics()
        for answer, line, is_made, label in EDITS:
            with self.subTest(line):
                metrics.count_edit(False, answer, 0)
                self.assertEqual((answer.line(), answer.is_made, metrics.edits[label]), (line, is_made, 1))
        for answer in (Result("published", number=0), Result("fault", "key")):
            metrics.count_edit(True, answer, 0)
        self.assertEqual((metrics.publishes, len(metrics.edits)), (1, len(EDITS)))

    def test_counts_of_checks(self) -> None:
        """Of several at once each kind of verdict has a count."""
        metrics = Metrics()
        metrics.count_checks(Checked(3, None), 0)
        self.assertEqual(metrics.checks, {"nonode": 1})
        metrics.count_checks(CheckedAll(3, [GRANTED, None, GRANTED]), 0)
        self.assertEqual(dict(metrics.checks), {"nonode": 2, "granted": 2, "denied": 0, "reserved": 0, "empty": 0})


if __name__ == "__main__":
    unittest.main()
