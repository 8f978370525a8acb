"""Roles for a path: what is asked and edited there, and that nothing of other paths shows."""

import json
import os
import signal
import unittest
from collections.abc import Sequence

import rig

from caller import Caller
from config import Grant, read_config
from edits import NAMES, edit_of
from errors import Fault, Invalid
from reach import _PATHS, is_within, paths_of
from script import _LONG_QUESTIONS, _QUESTIONS, OF_WRITER, REVIEW, WATCH
from tree import built

TOP = "/shares/finance"
#: Words of a path that aren't at or below TOP, though some look so.
OUTSIDE = (
    "/", "/shares", "/shares/hr", "/shares/finance2", "/shares/finance%202", "/shares/Finance", "/SHARES/FINANCE",
    "/shares/financ", "/shares/finance%2f..", "/shares%2ffinance", "/shares/./finance", "/shares/x/../finance",
    "//shares/finance", "shares/finance", "/shares//finance", "/shares/ﬁnance", "/shares/finance%00", "%", "x", "%ff",
    "/shares/financ%C3%A9", "/shares/finance%EF%BC%8F", "/shares/finance%", "/shares/finance%zz", ".", "..",
)
#: The same of those that are: `..` is a name as any other one, and spelled by `%` a path is the same one.
INSIDE = (
    TOP, f"{TOP}/", f"{TOP}/a", f"{TOP}/..", f"{TOP}/../hr", f"{TOP}//", "/shares/%66inance/a", f"{TOP}/%", f"{TOP}/A",
)
ROLES = '{{"uid:{}" = {}}}'
#: The nodes of a tree, but for those that aren't at or below TOP.
OTHERS = (
    ("addc /shares/hr O:BAG:SYD:(A;;FA;;;BU)", "addo /shares/hr/plan O:BAG:SYD:", "addo /shares/finance2 O:BAG:SYD:"),
    ("addc /secret O:BAG:SYD:", "addo /secret/x O:SYG:SYD:(D;;FR;;;WD)", "addo /shares/financ O:BAG:SYD:"),
)
PENDING = (
    ("move /shares/hr/plan /shares/finance/in", "move /shares/finance/out /shares/hr/out", "remove /shares/finance2"),
    ("move /secret/x /shares/finance/in", "move /shares/finance/out /secret/y", "remove /shares/financ"),
)


class Paths(unittest.TestCase):
    def test_within(self) -> None:
        for word in OUTSIDE:
            for line in (f"show 0 {word}", f"addo {word} D:", f"move {TOP} {word}", f"move {word} {TOP}",
                         f"checks 0 2 {TOP} {word} BU FR", f"once k remove {word}", f"list {word}",
                         f"delete 0 {word} BU"):
                with self.subTest(line):
                    self.assertFalse(all(is_within(TOP, path) for path in paths_of(line.split(" "))))
        for word in INSIDE:
            for line in (f"show 0 {word}", f"move {TOP} {word}", f"checks 0 1 {word} / FR", f"once k remove {word}"):
                with self.subTest(line):
                    self.assertTrue(all(is_within(TOP, path) for path in paths_of(line.split(" "))))
        self.assertFalse(is_within(TOP, *paths_of(["delete", "0", TOP, "BU"])))
        for line in ("list", "review", "dump", "frob", "once", "once k", "open 1 D:", "lines 1", "snapshot", ""):
            with self.subTest(line):
                self.assertEqual(paths_of(line.split(" ")), ("/",))
        for line in ("checks 0 18446744073709551616 /x BU FR", "checks 0 x /x BU FR", "checks 0 \u00b2 /x BU FR"):
            with self.subTest(line):
                self.assertFalse(all(is_within(TOP, path) for path in paths_of(line.split(" "))))

    def test_what_is_carried_out(self) -> None:
        """Each command has its paths, and what an edit of the library names is what was looked at."""
        known = {*_QUESTIONS, *_LONG_QUESTIONS, *OF_WRITER, REVIEW, WATCH} - {"once", "open", "dump"}
        self.assertEqual(set(_PATHS), known)
        view = built(["open 1 O:BAG:SYD:", "publish"], "file").view
        for word in (*OUTSIDE, *INSIDE):
            for line in (f"remove {word}", f"protect {word}", f"move {word} {TOP}", f"move {TOP} {word}"):
                try:
                    found = edit_of(line.split(" "), view).arguments
                except Fault:
                    continue
                self.assertEqual(tuple(paths_of(line.split(" "))), found)
        self.assertLess(NAMES, set(_PATHS))

    def test_roles(self) -> None:
        """A client may do what one of its roles allows at each path."""
        grants = (Grant("check", "/a"), Grant("edit", "/a/b"), Grant("check", "/c"))
        caller = Caller("cn:x", grants)
        self.assertEqual((caller.role, caller.may("check"), caller.may("watch"), caller.may("follow")),
                         ("edit", False, True, False))
        for role, path, may in (("check", "/a", True), ("edit", "/a", False), ("edit", "/a/b/c", True),
                                ("edit", "/a/bc", False), ("check", "/c/d", True), ("check", "/", False),
                                ("check", "", False)):
            self.assertEqual(caller.may(role, (path,)), may)
        self.assertTrue(caller.may("check", ("/a", "/c")))
        self.assertFalse(caller.may("edit", ("/a/b", "/c")))
        self.assertFalse(Caller("cn:x", (Grant("check", "/a"),)).may("edit", ()))
        for other, may in ((("check", "/a/b"), True), (("edit", "/a"), False), (("check", "/"), False),
                           (("watch", "/"), True)):
            self.assertEqual(caller.may_all_of(Caller("cn:x", (Grant(*other),))), may)


class Configs(rig.Case):
    def test_forms(self) -> None:
        for text, found in (
            ('"check"', (Grant("check"),)),
            ('{ role = "edit", below = "/a b/é" }', (Grant("edit", "/a b/é"),)),
            ('["check", { role = "edit", below = "/a" }]', (Grant("check"), Grant("edit", "/a"))),
            ('{ role = "follow" }', (Grant("follow"),)),
        ):
            self.configure(allow=ROLES.format(0, text))
            self.assertEqual(read_config(self.config).listen[0].allow, {"uid:0": found})
        for text, why in (
            ("[]", "'uid:0' has no role"), ("{}", "role: a value of the type str"),
            ("1", "role: a value of the type str"), ('{ role = "edit", path = "/a" }', "'path' is unknown"),
            ('{ role = "all", below = "/a" }', "'all' is none of"),
            ('{ role = "follow", below = "/a" }', "'follow' is for the whole store"),
            ('{ role = "watch", below = "/a" }', "'watch' is for the whole store"),
            *((f'{{ role = "edit", below = "{path}" }}', "is no path") for path in ("", "a", "/a/", "//", "/a//b")),
            ('{ role = "edit", below = ["/a"] }', "below: a value of the type str"),
        ):
            with self.subTest(text), self.assertRaises(Invalid) as rejected:
                self.configure(allow=ROLES.format(0, text))
                read_config(self.config)
            self.assertIn(why, str(rejected.exception))


class Served(rig.Case):
    def serve(self, roles: str, others: Sequence[str] = ()) -> None:
        """A service with these nodes, and at `scoped` and `scoped-http` the roles for whoever asks here."""
        here = ("addc /shares O:BAG:SYD:", f"addc {TOP} O:BAG:SYD:(A;OICI;FR;;;BU)", f"addo {TOP}/a O:BAG:SYD:",
                f"addo {TOP}/out O:BAG:SYD:(A;;FW;;;BU)")
        dump = "\n".join(["open 1 O:BAG:SYD:(A;OICI;FR;;;BU)", *here, *others, "publish", ""])
        self.make(dump)
        self.scoped, self.scoped_http = self.room / "scoped", self.room / "scoped-http"
        allow = ROLES.format(os.getuid(), roles)
        self.start(more="".join(
            f'[[listen]]\nunix = "{where}"\nprotocol = "{protocol}"\nallow = {allow}\n'
            for where, protocol in ((self.scoped, "lines"), (self.scoped_http, "http"))
        ))

    def asked(self, line: str) -> list[str]:
        """All that is answered to a line by the role for a path."""
        with rig.Lines(self.scoped) as asked:
            asked.send(f"x {line}\ny tell\n".encode())
            lines = []
            while not (said := asked.read().decode()).startswith("y "):
                lines.append(said)
            return lines

    def test_lines(self) -> None:
        self.serve('{ role = "edit", below = "/shares/finance" }', OTHERS[0])
        for line, said in (
            (f"check 0 {TOP}/a {rig.USER} FR BU", "seen 7 granted 0x120089"),
            (f"checks 0 2 {TOP} {TOP}/x {rig.USER} FR BU", "seen 7 granted 0x120089, nonode"),
            (f"checks 0 2 {TOP} /shares/hr {rig.USER} FR BU", "fault role"),
            ("check 0 /shares/hr BU FR", "fault role"), ("check 0 /none BU FR", "fault role"),
            ("check 0 x", "fault role"),
            (f"delete 0 {TOP} BU", "fault role"), (f"delete 0 {TOP}/a {rig.USER}", "seen 7 denied"),
            ("show 0 /", "fault role"), ("dump", "fault role"), ("list", "fault role"), ("list /", "fault role"),
            ("review", "fault role"), ("who /shares 0x1", "fault role"), ("compare /shares D:", "fault role"),
            ("find 0 / BU FR", "fault role"), ("snapshot", "fault role"), ("lines 0", "fault role"),
            ("frob", "fault role"),
            (f"move {TOP}/a /shares/b", "fault role"), (f"move /shares/hr {TOP}/hr", "fault role"),
            ("once k remove /shares/hr", "fault role"), ("remove /none", "fault role"), ("once k", "fault role"),
            ("addo /shares/finance2 O:BAG:SYD:", "fault role"), ("dacl / D:", "fault role"),
            (f"remove {TOP}/none", "refused 4 NoNode"), (f"move {TOP}/a {TOP}/b", "ok"), (f"dacl {TOP} D:", "ok"),
            ("publish", "published 9"), ("tell", "told 9"),
        ):
            with self.subTest(line):
                self.assertEqual(self.asked(line)[0], f"x {said}\n")
        self.assertEqual(self.asked(f"find 0 {TOP} {rig.USER} FW BU"), ["x seen 9 found\n", f"x {TOP}/out\n", "x \n"])
        listed = [line.split(" ")[2] for line in self.asked(f"list {TOP}")[:-1]]
        self.assertEqual(listed, [TOP, f"{TOP}/b", f"{TOP}/out"])
        records = [each for each in self.events() if each["event"] == "edit" and each["answer"] == "fault role"]
        self.assertEqual(records[0]["line"], f"move {TOP}/a /shares/b")

    def test_several_roles(self) -> None:
        """Questions everywhere, edits at one path."""
        self.serve('["check", { role = "edit", below = "/shares/finance" }]', OTHERS[0])
        self.assertEqual(self.asked("show 0 /shares/hr/plan")[0], "x seen 7 shown O:BAG:SYD:AI(A;ID;FR;;;BU)\n")
        self.assertEqual(self.asked("remove /shares/hr/plan"), ["x fault role\n"])
        self.assertEqual(self.asked(f"remove {TOP}/a"), ["x ok\n"])
        self.assertEqual(self.asked("remove /shares/hr")[0], "x fault role\n")
        self.assertEqual(self.asked("status")[0], f"x {self.said('status')[0]}\n")

    def test_a_role_that_is_narrowed(self) -> None:
        """SIGHUP narrows it for connections that are there; and an answer in the making, to who may do less, is none."""
        self.serve('"edit"', OTHERS[0])
        narrow = self.config.read_text().replace('= "edit"}\n', '= { role = "edit", below = "/shares/finance" }}\n')
        with rig.Lines(self.scoped) as asked, rig.Lines(self.scoped) as waiting:
            self.assertEqual(asked.ask("remove /shares/hr/plan"), "ok")
            waiting.send(b"x watch 7\n")
            self.assertEqual(asked.ask("tell"), "told 7")
            self.config.write_text(narrow)
            self.process.send_signal(signal.SIGHUP)
            self.wait_for(lambda: any(each["event"] == "reloaded" for each in self.events()))
            self.assertEqual(asked.ask("show 0 /shares/hr"), "fault role")
            self.assertEqual(asked.ask(f"remove {TOP}/a"), "ok")
            self.assertEqual(asked.ask("publish all"), "fault role")
            self.assertEqual(waiting.rest(), b"")

    def test_publish(self) -> None:
        """It publishes nothing of other paths, though the client made that while it might."""
        self.serve('{ role = "edit", below = "/shares/finance" }', OTHERS[0])
        self.assertEqual(self.said("remove /shares/hr/plan"), ["ok"])
        self.assertEqual(self.asked(f"remove {TOP}/a") + self.asked("publish"), ["x ok\n", "x fault role\n"])
        edits = {"edits": [{"edit": "remove", "path": f"{TOP}/out"}], "publish": True}
        self.assertEqual(self.post("edit", edits, where=self.scoped_http), (403, {"fault": "role"}))
        self.assertEqual(self.post("publish", {}, where=self.scoped_http), (403, {"fault": "role"}))
        self.assertEqual(self.said("tell", "publish"), ["told 7", "published 9"])
        self.assertEqual(self.asked(f"remove {TOP}/out") + self.asked("publish"), ["x ok\n", "x published 10\n"])

    def test_http(self) -> None:
        self.serve('{ role = "check", below = "/shares/finance" }', OTHERS[0])
        user = {"user": rig.USER, "groups": ["BU"]}
        for name, body, status in (
            ("check", {**user, "checks": [{"path": f"{TOP}/a", "mask": "FR"}]}, 200),
            ("check", {**user, "checks": [{"path": f"{TOP}/a", "mask": "FR"}, {"path": "/shares", "mask": "FW"}]}, 403),
            ("show", {"path": "/shares/Finance"}, 403), ("show", {"path": TOP + "%2f.."}, 403),
            ("why", {**user, "path": "/", "mask": "FR"}, 403), ("find", {**user, "mask": "FR"}, 403),
            ("find", {**user, "path": TOP, "mask": "FR"}, 200), ("list", {}, 403), ("list", {"path": TOP}, 200),
            ("who", {"path": "/shares/hr"}, 403), ("who", {"path": TOP}, 200),
            ("compare", {"path": "/", "descriptor": "D:"}, 403), ("review", {}, 403), ("review", {"path": TOP}, 200),
            ("edit", {"edits": [{"edit": "remove", "path": f"{TOP}/a"}]}, 403), ("publish", {}, 403),
        ):
            with self.subTest(name, body=body):
                said = self.post(name, body, where=self.scoped_http)
                self.assertEqual(said[0], status)
                if status == 403:
                    self.assertEqual(said[1], {"fault": "role"})

    def test_nothing_of_other_paths_shows(self) -> None:
        """Whatever is there: all answers are the same, byte for byte, but for the store's id."""
        user = f"{rig.USER} FR BU"
        lines = [
            "status", "tell", "dump", "list", f"list {TOP}", "review", f"review {TOP}", f"find 0 {TOP} {user}",
            f"who {TOP}", "watch 0",
            f"compare {TOP} O:BAG:SYD:(A;;FA;;;BU)", f"why 0 {TOP}/a {user}", f"delete 0 {TOP} {user}", "lines 0",
            f"delete 0 {TOP}/a {user}",
            *(f"{name} {path}" for path in ("/shares/hr", "/secret", "/shares/hr/plan", "/secret/x")
              for name in ("show 0", "list", "review", "remove", "who", "protect")),
            *(f"show 0 {path}" for path in OUTSIDE), *(f"check 0 {path} {user}" for path in INSIDE),
            *(f"move {TOP}/a {path}" for path in ("/shares/hr", "/secret", "/shares/finance2", "/none/x")),
            f"addo {TOP}/in O:BAG:SYD:", f"remove {TOP}/out", "publish",
        ]
        answers = []
        for others, pending in zip(OTHERS, PENDING):
            self.serve('{ role = "edit", below = "/shares/finance" }', others)
            self.assertEqual(self.said(*pending), ["ok"] * 3)
            answers.append([[line, *self.asked(line)] for line in lines])
            store = json.loads(self.get("/v1/status")[1])["store"]
            with rig.Lines(self.scoped_http) as asked:
                asked.send(b"GET /v1/status HTTP/1.1\r\nHost: x\r\nConnection: close\r\n\r\n")
                answers[-1].append([asked.rest().decode()])
            answers[-1] = json.loads(json.dumps(answers[-1]).replace(store, "STORE"))
            self.kill()
            self.doCleanups()
            self.setUp()
        self.assertEqual(*answers)
        [said] = [each[1:] for each in answers[0] if each[0] == f"review {TOP}"]
        self.assertEqual(said, [f"x new {TOP}/in\n", f"x gone {TOP}/out\n", "x reviewed 7 10\n", "x \n"])


if __name__ == "__main__":
    unittest.main()
