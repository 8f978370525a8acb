"""A service whose users have their groups by a file: what its clients may say of a user, and SIGHUP.

The accounts are those of examples/example.accounts, and one more. What each user may do follows by hand from its lines:
alice is an intern, interns are editors, editors are staff, and all users of the domain are in BUILTIN\\Users."""

import json
import os
import re
import signal
import threading
import unittest

import rig
from test_accounts import ALICE, FILE, WORDS

import script
from api import ROUTES
from client import Client, Rejected

LINES = FILE.count("\n")
#: Interns are denied FR below /staff, where staff has FW.
DUMP = """open 1 O:BAG:SYD:(A;OICI;FR;;;BU)
addo /staff O:BAG:SYD:(D;;FR;;;S-1-5-21-1-2-3-1201)(A;;FW;;;S-1-5-21-1-2-3-1200)
addo /admins O:BAG:SYD:P(A;;FA;;;BA)
publish
"""
#: The questions about a user, by the first words of their lines, and all others.
OF_USER = {
    "check": "check 0 /admins {} FA",
    "checks": "checks 0 2 /admins / {} FA",
    "why": "why 0 /admins {} FA",
    "find": "find 0 / {} FA",
    "delete": "delete 0 /admins {}",
}
OF_NONE = {"open", "tell", "learn", "show", "status", "list", "dump", "who", "compare", "review", "snapshot", "lines"}
#: The same over HTTP, but for the user and the groups.
REQUESTS_OF_USER: dict[str, dict[str, object]] = {
    "/v1/check": {"checks": [{"path": "/admins", "mask": "FA"}, {"path": "/", "mask": "FR"}]},
    "/v1/why": {"path": "/admins", "mask": "FA"},
    "/v1/find": {"mask": "FA"},
}


class Service(rig.Case):
    """A service with accounts."""

    def setUp(self) -> None:
        super().setUp()
        self.file = self.room / "accounts"
        self.file.write_text(FILE)
        self.table = f'[accounts]\nfile = "{self.file}"\n'
        self.make(DUMP)

    def answer(self, asked: rig.Lines, line: str) -> list[str]:
        """The lines of an answer."""
        lines = [asked.ask(line)]
        while line.split(" ")[0] in script.OF_LINES and lines[-1]:
            said = asked.read()
            self.assertTrue(said.startswith(b"x "), said)
            lines.append(said[2:-1].decode())
        return lines

    def post(self, target: str, given: object) -> tuple[int, dict[str, object]]:
        """The status and the answer of a request."""
        body = json.dumps(given).encode()
        head = f"POST {target} HTTP/1.1\r\nHost: x\r\nContent-Type: application/json\r\nContent-Length: {len(body)}\r\n"
        with rig.Lines(self.http) as asked:
            asked.send(head.encode() + b"Connection: close\r\n\r\n" + body)
            first, _, said = asked.rest().partition(b"\r\n\r\n")
        return int(first.split(b" ")[1]), json.loads(said)

    def count(self, event: str) -> int:
        return [each["event"] for each in self.events()].count(event)

    def hang_up(self, event: str = "accounts") -> None:
        """Has all read again, and returns once there is one more such event."""
        before = self.count(event)
        self.process.send_signal(signal.SIGHUP)
        self.wait_for(lambda: self.count(event) > before)

    def write(self, text: str) -> None:
        """Replaces the file as `estate accounts` does."""
        new = self.room / "new"
        new.write_text(text)
        os.replace(new, self.file)

    def warnings(self) -> list[str]:
        return [str(each["text"]) for each in self.events() if each["event"] == "warning"]

    # What a client may say

    def test_each_line_and_each_request(self) -> None:
        """A word about a user has a fault, wherever it can stand: a new question has to be among those of here."""
        self.assertEqual(OF_USER.keys() | OF_NONE, script._QUESTIONS.keys() | script.LONG)
        schemas = json.loads((rig.SERVICE / "openapi.json").read_text())["components"]["schemas"]
        with_user = {f"/v1/{name.lower()}" for name, each in schemas.items() if "user" in each.get("properties", ())}
        self.assertEqual(with_user, REQUESTS_OF_USER.keys())
        self.assertLessEqual(with_user, ROUTES.keys())
        self.start(more=self.table)
        with self.connect() as asked:
            for line in OF_USER.values():
                for user in ("EXAMPLE\\Jane%20Doe", "alice", ALICE):
                    line_of_user = line.format(user)
                    self.assertNotIn("fault", self.answer(asked, line_of_user)[0])
                    for word in WORDS:
                        with self.subTest(line_of_user, word=word):
                            self.assertEqual(self.answer(asked, f"{line_of_user} {word}")[0], "fault groups")
                    many = " ".join(["BA"] * 3000)
                    self.assertEqual(self.answer(asked, f"{line_of_user} {many}")[0], "fault groups")
            # Of which nothing is left.
            self.assertEqual(self.answer(asked, OF_USER["check"].format("alice")), ["seen 2 denied 0x1f01ff"])
        for target, request in REQUESTS_OF_USER.items():
            for user in ("EXAMPLE\\Jane Doe", "alice", ALICE):
                for groups in ({}, {"groups": []}):
                    self.assertEqual(self.post(target, request | {"user": user} | groups)[0], 200)
                for word in WORDS:
                    with self.subTest(target, user=user, word=word):
                        self.assertEqual(self.post(target, request | {"user": user, "groups": [word]}),
                                         (400, {"fault": "groups"}))
                self.assertEqual(self.post(target, request | {"user": user, "groups": ["BA"] * 2000}),
                                 (400, {"fault": "groups"}))

    def test_answers(self) -> None:
        """By the groups of the file, and no others."""
        self.start(more=self.table)
        name = "EXAMPLE\\alice"
        with self.connect() as asked:
            for user in (name, "example\\ALICE", "alice", "alice@example.test", ALICE, "EXAMPLE%5Calice"):
                with self.subTest(user):
                    self.assertEqual(self.answer(asked, f"checks 0 4 / /staff /admins /x {user} FR"),
                                     ["seen 2 granted 0x120089, denied 0x120089, denied 0x120089, nonode"])
            self.assertEqual(self.answer(asked, f"check 0 /staff {name} 0x2"), ["seen 2 granted 0x2"])
            self.assertEqual(self.answer(asked, "check 0 /staff EXAMPLE\\bob FR"), ["seen 2 granted 0x120089"])
            self.assertEqual(self.answer(asked, "check 0 / OTHER\\bob FR"), ["seen 2 denied 0x120089"])
            self.assertEqual(self.answer(asked, f"why 0 /staff {name} FW")[1:], [
                "granted 0x116 by entry 2 (A;;FW;;;S-1-5-21-1-2-3-1200) as S-1-5-21-1-2-3-1200",
                "denied 0x120000 by entry 1 (D;;FR;;;S-1-5-21-1-2-3-1201) as S-1-5-21-1-2-3-1201", ""])
            self.assertEqual(self.answer(asked, "find 0 / EXAMPLE\\Jane%20Doe FA"), ["seen 2 found", "/admins", ""])
            self.assertEqual(self.answer(asked, f"find 0 / {name} FA"), ["seen 2 found", ""])
            self.assertEqual(self.answer(asked, f"delete 0 /admins {name}"), ["seen 2 denied"])
            self.assertEqual(self.answer(asked, "delete 0 /admins EXAMPLE\\Jane%20Doe"), ["seen 2 granted by node"])
        said = self.post("/v1/check", REQUESTS_OF_USER["/v1/check"] | {"user": "EXAMPLE\\Jane Doe"})[1]
        # (administrators own the root, and so may read its descriptor)
        self.assertEqual(said["answers"], [{"verdict": "granted", "mask": "0x1f01ff"},
                                           {"verdict": "denied", "mask": "0x100089"}])
        with Client(str(self.lines), timeout=rig.PATIENCE) as client:
            self.assertTrue(client.check("/admins", "EXAMPLE\\Jane Doe", "FA"))
            self.assertEqual(client.find("/", "EXAMPLE\\Jane Doe", "FA"), ["/admins"])
            self.assertEqual(client.why("/", "alice", "FR")[0].kind, "granted")
            self.assertRaises(Rejected, client.check, "/admins", "alice", "FA", ["BA"])

    def test_users(self) -> None:
        """Who is none is answered by name, whatever the text is."""
        self.start(more=self.table)
        unknown, no_user = "fault user 1 Unknown", "fault user 3 NoUser"
        users = (("bob", "fault user 2 Ambiguous"), ("carol", "fault user 4 Disabled"), ("EXAMPLE\\staff", no_user),
                 ("S-1-5-21-1-2-3-1106", "fault user 4 Disabled"), (rig.USER, no_user), ("BA", no_user),
                 ("SYSTEM", no_user), ("S-1-5-18", no_user), ("Everyone", no_user), ("nobody", unknown),
                 ("alice%20", unknown), ("alice%0A", unknown), ("alice%00", unknown), ("%7F", unknown), ("%", unknown),
                 ("--accounts", unknown), ("-h", unknown), ("+take", unknown), ("BA=deny", unknown), ("é", unknown),
                 ("EXAMPLE\\", unknown), ("\\alice", unknown), ("*", unknown), ("alice%FF", "fault user"),
                 ("x" * 500_000, unknown), ("%C3%A9" * 50_000, unknown), ("S-1-5-" + "9" * 100_000, unknown))
        with self.connect() as asked:
            for user, said in users:
                for line in OF_USER.values():
                    with self.subTest(user[:50], line=line):
                        self.assertEqual(self.answer(asked, line.format(user))[0], said)
            # An argument before it comes first, and the mask after it.
            ambiguous = "fault user 2 Ambiguous"
            for line, said in (("check x / bob QQ BA", "fault number"), ("check 0 x bob QQ BA", "fault path"),
                               ("check 0 / bob QQ BA", ambiguous), ("check 0 / alice QQ BA", "fault mask"),
                               ("check 1 / alice FR BA", "fault groups"), ("check 1 / alice FR", "noreader"),
                               ("checks 0 0 bob FR", ambiguous), ("checks 0 0 alice FR BA", "fault groups"),
                               ("check 0 / alice", "fault words"), ("check 0 /  FR", "fault words")):
                with self.subTest(line):
                    self.assertEqual(self.answer(asked, line)[0], said)
            asked.send(b"x check 0 / alice\xff FR\n")
            self.assertEqual(asked.read(), b"x fault utf8\n")
        for user, said in (("bob", "user 2 Ambiguous"), ("carol", "user 4 Disabled"), ("alice\n", "user 1 Unknown"),
                           ("alice\0", "user 1 Unknown"), ("alice%00", "user 1 Unknown"), ("%C3%A9", "user 1 Unknown"),
                           (" alice", "user 1 Unknown"), ("EXAMPLE\\staff", "user 3 NoUser"), ("", "user"), (7, "user"),
                           (None, "user"), (["alice"], "user"), ("\ud800", "utf8"), ("x\r\npublish", "user 1 Unknown")):
            for target, request in REQUESTS_OF_USER.items():
                with self.subTest(user, target=target):
                    self.assertEqual(self.post(target, request | {"user": user}), (400, {"fault": said}))
        with self.connect() as asked:
            asked.send(b"x check 0 / " + b"y" * (1 << 20) + b" FR\n")
            self.assertEqual(asked.read(), b"")

    def test_questions_about_all_tokens(self) -> None:
        """They say about which tokens is asked: as without accounts. So are edits."""
        questions = ("who / FR", "who / FR BU=deny", f"compare / O:BAG:SYD: BU {ALICE}", "show 0 /", "list", "dump",
                     "who / FR BA=restrict", "who / FR EXAMPLE\\staff")
        found = []
        for more in ("", self.table):
            self.start(more=more)
            with self.connect() as asked:
                found.append([self.answer(asked, line) for line in questions])
                self.assertEqual(asked.ask("owner /staff EXAMPLE\\alice"), "fault sid")
                self.assertEqual(asked.ask(f"owner /staff {rig.USER}"), "ok")
            self.stop()
        self.assertEqual(found[0], found[1])
        self.assertEqual(found[0][-2:], [["fault token", ""]] * 2)

    def test_who_may_not_ask(self) -> None:
        """They don't learn who is a user."""
        self.start(more=self.table, allow=f'{{"uid:{os.getuid()}" = "watch"}}')
        for line in OF_USER.values():
            for user in ("alice", "nobody"):
                self.assertEqual(self.said(line.format(user)), ["fault role"])

    def test_without_the_table(self) -> None:
        """Clients say which groups a user has, and a name is no user."""
        self.start()
        lines = (f"check 0 /admins {rig.USER} FA BA", "check 0 / alice FR", "check 0 / EXAMPLE%5Calice FR")
        self.assertEqual(self.said(*lines), ["seen 2 granted 0x1f01ff", "fault sid", "fault sid"])
        for user, said in (("a b", "user"), ("alice", "sid")):
            self.assertEqual(self.post("/v1/check", REQUESTS_OF_USER["/v1/check"] | {"user": user}),
                             (400, {"fault": said}))
        self.assertNotIn("sdstored_accounts_age_seconds", self.metrics())
        self.assertEqual(self.count("accounts"), 0)

    # A file that is read again

    def test_other_accounts(self) -> None:
        """They are those of all later questions, also of connections and tokens of before; and the file may be another
        one."""
        self.start(more=self.table)
        without = re.sub(f"member S-1-5-21-1-2-3-1201 {ALICE}\n", "", FILE)
        self.assertNotEqual(without, FILE)
        lines = ("check 0 /staff alice FR", "checks 0 1 /staff alice FR", "find 0 /staff alice FR",
                 "why 0 /staff alice 0x1")
        with self.connect() as asked:
            for text, granted in ((FILE, False), (without, True), (FILE, False), ("", None), (FILE, False)):
                self.write(text)
                self.hang_up()
                said = [self.answer(asked, line) for line in lines]
                if granted is None:
                    self.assertEqual([each[0] for each in said], ["fault user 1 Unknown"] * 4)
                else:
                    verdict = "granted" if granted else "denied"
                    self.assertEqual(said[:2], [[f"seen 2 {verdict} 0x120089"]] * 2)
                    self.assertEqual(said[2], ["seen 2 found", *["/staff"] * granted, ""])
                    self.assertEqual(said[3][0], f"seen 2 {verdict} 0x1")
            other = self.room / "other"
            other.write_text(without)
            self.configure(more=f'[accounts]\nfile = "{other}"\n')
            self.hang_up()
            self.assertEqual(asked.ask(lines[0]), "seen 2 granted 0x120089")
        self.assertEqual(self.warnings(), [])

    def test_a_fault(self) -> None:
        """The accounts before stay, the log names file, line and fault, and the metric grows."""
        self.start(more=self.table)
        first = self.metrics()["sdstored_accounts_age_seconds"]
        for text, said in ((f"{FILE}frob\n", f"line {LINES + 1}: 1 Keyword"),
                           (f"incomplete 1 skipped\n{FILE}", "line 1: 5 Incomplete"),
                           (None, "No such file or directory")):
            with self.subTest(said):
                if text is None:
                    self.file.unlink()
                else:
                    self.write(text)
                self.hang_up("warning")
                self.assertEqual(self.warnings()[-1], f"the accounts aren't taken: {self.file}: {said}")
                self.assertEqual(self.said("check 0 /staff alice FW", "check 0 / alice FR"),
                                 ["seen 2 denied 0x120000", "seen 2 granted 0x120089"])
        age = self.metrics()["sdstored_accounts_age_seconds"]
        self.assertGreater(age, first)
        self.write(FILE)
        self.hang_up()
        self.assertLess(self.metrics()["sdstored_accounts_age_seconds"], age)

    def test_a_table_that_comes_or_goes(self) -> None:
        """Whom a service trusts isn't changed by a SIGHUP: nothing of such a configuration is taken."""
        said = "the configuration isn't taken: accounts: a table is added, or removed, by a restart"
        for first, then, line, answer in (
            (self.table, "", f"check 0 /admins {ALICE} FA BA", "fault groups"),
            ("", self.table, f"check 0 /admins {ALICE} FA BA", "seen 2 granted 0x1f01ff"),
        ):
            self.start(more=first)
            self.configure(more=then, allow='{"uid:99999" = "edit"}')
            self.hang_up("warning")
            self.assertEqual((self.warnings(), self.said(line)), ([said], [answer]))
            self.stop()

    def test_a_fault_keeps_no_client_in(self) -> None:
        """Of the configuration that names the file certificates and `allow` are taken."""
        self.start(more=self.table)
        self.write("frob\n")
        with self.connect() as asked:
            self.assertEqual(asked.ask("tell"), "told 2")
            self.configure(more=self.table, allow='{"uid:99999" = "edit"}')
            self.hang_up("warning")
            self.assertEqual(asked.rest(), b"")
        self.assertEqual(self.count("reloaded"), 1)

    def test_no_gap(self) -> None:
        """While a large file is read again and again each question has an answer, by one of the two, and after the
        event none by the old one."""
        noise = "".join(f"user S-1-5-21-4-5-6-{at} N\\n{at}\nmember S-1-5-21-4-5-7-{at % 99} S-1-5-21-4-5-6-{at}\n"
                        for at in range(20_000))
        texts = [f"{text}{noise}" for text in (FILE, FILE.replace(f"member S-1-5-21-1-2-3-1201 {ALICE}\n", ""))]
        self.write(texts[0])
        self.start(more=self.table)
        ends, said = threading.Event(), list[str]()

        def ask() -> None:
            with self.connect() as asked:
                while not ends.is_set():
                    said.extend(self.answer(asked, "find 0 /staff alice FR")[1:-1] or ["none"])
                    said.append(asked.ask("check 0 /staff alice FR"))

        threads = [threading.Thread(target=ask) for _ in range(2)]
        for each in threads:
            each.start()
        try:
            with self.connect() as asked:
                for at in range(1, 11):
                    self.write(texts[at % 2])
                    self.hang_up()
                    wanted = "granted" if at % 2 else "denied"
                    self.assertEqual(asked.ask("check 0 /staff alice FR"), f"seen 2 {wanted} 0x120089")
        finally:
            ends.set()
            for each in threads:
                each.join()
        self.assertEqual(set(said), {"seen 2 granted 0x120089", "seen 2 denied 0x120089", "/staff", "none"})
        self.assertEqual(self.warnings(), [])

    # A start

    def test_a_start(self) -> None:
        """A file with a fault, or none, ends it: nothing is served."""
        for text, status, said in ((f"\n{FILE}x", 2, f"line {LINES + 2}: 1 Keyword"),
                                   ("incomplete\n", 2, "line 1: 5 Incomplete"), (None, 3, "No such file or directory")):
            with self.subTest(said):
                self.file.unlink(missing_ok=True)
                if text is not None:
                    self.file.write_text(text)
                self.configure(more=self.table)
                done = rig.run("run", self.config, status=status)
                self.assertEqual(done.stderr, f"sdstored: {self.file}: {said}\n")
                self.assertFalse(self.lines.exists())


if __name__ == "__main__":
    unittest.main()
