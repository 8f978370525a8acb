"""What an operator sees: the records of the log, what systemd is sent, and when a service is ready."""

import os
import signal
import socket
import time
import unittest
from unittest import mock

import rig

from rarely import Rarely

WHO = f"uid:{os.getuid()}"


class Operation(rig.Case):
    def records(self, what: str) -> list[dict[str, object]]:
        """The events of this name, without it and their times."""
        return [{name: value for name, value in each.items() if name not in ("time", "event")}
                for each in self.events() if each["event"] == what]

    def test_an_edit_has_a_record_before_its_answer(self) -> None:
        self.make()
        self.start()
        with self.connect() as asked:
            for at, (line, key, answer, number) in enumerate((
                ("addo /a O:BAG:SYD:", "", "ok", 1),
                ("addo /a O:BAG:SYD:", "k", "refused 3 Exists", 0),
                ("addo /%0A\" O:BAG:SYD:", "k2", "ok", 2),
                ("publish", "", "published 2", 3),
                ("publish", "", "published 2", 0),
            )):
                self.assertEqual(asked.ask(f"once {key} {line}" if key else line), answer)
                record = {"who": WHO, "key": key, "line": line, "answer": answer, "number": number, "request": "x"}
                self.assertEqual(self.records("edit")[at:], [record])
            # What isn't an edit has none, and no check that is denied has one unless that is asked for.
            self.assertEqual(asked.ask("addo /b X"), "fault sddl 1 Syntax at 0")
            self.assertEqual(asked.ask(f"check 0 / {rig.USER} FW"), "seen 2 denied 0x120116")
        self.assertEqual((len(self.records("edit")), self.records("decision")), (5, []))

    def test_an_edit_of_who_may_not_edit(self) -> None:
        """It has a record before its answer, of either protocol; so many at most that they fill no disk."""
        self.make()
        self.start(allow=f'{{"{WHO}" = "check"}}')
        record = {"who": WHO, "key": "", "answer": "fault role", "number": 0, "request": "x"}
        with self.connect() as asked:
            for at, line in enumerate(("addo /a O:BAG:SYD:", "publish", f"once k remove /{'x' * 2000}")):
                self.assertEqual(asked.ask(line), "fault role")
                self.assertEqual(self.records("edit")[at:], [record | {"line": line[:1000]}])
            with rig.Lines(self.http) as http:
                http.send(b"POST /v1/edit HTTP/1.1\r\nHost: x\r\nContent-Length: 2\r\n\r\n{}")
                self.assertEqual(http.read(), b"HTTP/1.1 403 Forbidden\r\n")
                del record["request"]
                self.assertEqual(self.records("edit")[3:], [record | {"line": "POST /v1/edit"}])
            # (more than two minutes' records, as a minute may end meanwhile)
            asked.send(b"x publish\n" * 1500)
            said = [asked.read() for _ in range(1500)]
        self.assertEqual(set(said), {b"x fault role\n", b"x unavailable busy\n"})
        self.assertEqual(len(self.records("edit")), 4 + said.count(b"x fault role\n"))
        self.assertLess(len(self.records("edit")), 1201)

    def test_decisions(self) -> None:
        """Those that are denied, or all: each answer with a verdict, whoever makes it, and no other."""
        self.make()
        many = " ".join(f"S-1-5-21-1-2-3-{at}" for at in range(300))
        asked = [
            (f"check 0 / {rig.USER} FR BU", ["BU"], "FR", ["/"], ["granted 0x120089"]),
            (f"check 0 / {rig.USER} FW BU", ["BU"], "FW", ["/"], ["denied 0x116"]),
            (f"checks 0 3 / /%20x / {rig.USER} FW", [], "FW", ["/", "/%20x", "/"],
             ["denied 0x120116", "nonode", "denied 0x120116"]),
            (f"check 0 /x {rig.USER} FW", [], "FW", ["/x"], ["nonode"]),
            (f"why 0 / {rig.USER} FW", [], "FW", ["/"], ["denied 0x120116"]),
            (f"delete 0 / {rig.USER}", [], "SD", ["/"], ["denied"]),
            (f"check 0 / {rig.USER} FW {many}", many.split(" "), "FW", ["/"], ["denied 0x120116"]),
            (f"check 0 / {rig.USER} 0", [], "0", ["/"], ["empty"]),
        ]
        for which in ("denied", "all"):
            self.start(more=f'[log]\ndecisions = "{which}"')
            wanted = []
            with self.connect() as lines:
                for line, words, mask, paths, answers in asked:
                    lines.send(f"x {line}\nx tell\n".encode())
                    while lines.read() != b"x told 0\n":
                        pass
                    at = [place for place, each in enumerate(answers) if which == "all" or each.startswith("denied")]
                    if at:
                        wanted.append({
                            "who": WHO, "asked": line.split(" ")[0], "user": rig.USER, "words": words, "mask": mask,
                            "seen": 0, "paths": [paths[place] for place in at],
                            "answers": [answers[place] for place in at], "request": "x"})
                for line in ("show 0 /", "status", "check 0 x BU FR", f"find 0 / {rig.USER} FW"):
                    lines.send(f"x {line}\n".encode())
                self.wait_for(lambda: self.records("decision")[len(wanted) - 1 :] != [])
            self.assertEqual(self.records("decision"), wanted)
            self.kill()

    def test_what_requests_are_called(self) -> None:
        """By the fields of a head, where these are valid; nobody writes a line of the log or a member by them."""
        self.make()
        self.start(more='[log]\ndecisions = "all"')
        trace = "00-4bf92f3577b34da6a3ce929d0e0e4736-00f067aa0ba902b7-01"
        check = {"user": rig.USER, "checks": [{"path": "/", "mask": "FR"}]}
        edit = {"edits": [{"edit": "remove", "path": "/none"}]}
        for request, parent, named in (
            ("a-1", trace, {"request": "a-1", "traceparent": trace}), ("x" * 100, "", {"request": "x" * 100}),
            ("x" * 101, trace + "-more", {}), ("a b", trace.upper(), {}), ("a\tb", "", {}),
            ("", trace + " ", {"traceparent": trace}),
            ('","who":"cn:root"}', "ff" + trace[2:], {"request": '","who":"cn:root"}'}),
            ("\\u000a", "01" + trace[2:] + "-more", {"request": "\\u000a", "traceparent": "01" + trace[2:]}),
            ("1", f"00-{'0' * 32}-00f067aa0ba902b7-01", {"request": "1"}), ("1", trace[:-3], {"request": "1"}),
            ("1", f"00-{'4' * 32}-{'0' * 16}-01", {"request": "1"}), ("1", "01" + trace[2:] + "x", {"request": "1"}),
        ):
            head = f"X-Request-Id: {request}\r\nTraceParent: {parent}\r\n"
            for name, body, event in (("check", check, "decision"), ("edit", edit, "edit")):
                before = len(self.records(event))
                self.assertIn(self.post(name, body, head)[0], (200, 409))
                self.wait_for(lambda: len(self.records(event)) > before)
                [record] = self.records(event)[before:]
                with self.subTest(head, event=event):
                    found = {each: record[each] for each in record if each in ("request", "traceparent")}
                    self.assertEqual(found, named)
                    self.assertEqual(record["who"], WHO)
        for head in ("X-Request-Id: é\r\n", "X-Request-Id: a\r\nx-request-id: b\r\n", "Traceparent: a\nb\r\n",
                     "X-Request-Id: a\0\r\n"):
            self.assertEqual(self.post("check", check, head)[0], 400)

    def test_a_warning_that_comes_again(self) -> None:
        """It is there once a minute, with how often it came."""
        said: list[str] = []
        warn = Rarely(said.append)
        for at in (0, 1, 59.9, 60, 61, 180):
            with mock.patch("clock.now", return_value=1000 + at):
                warn("no disk")
        warn("no source")
        self.assertEqual(said, ["no disk", "no disk (and 2 times before)", "no disk (and 1 times before)", "no source"])

    def test_what_systemd_is_sent(self) -> None:
        self.make()
        with socket.socket(socket.AF_UNIX, socket.SOCK_DGRAM) as systemd:
            systemd.bind(str(self.room / "notify"))
            systemd.settimeout(rig.PATIENCE)
            with mock.patch.dict(os.environ, NOTIFY_SOCKET=str(self.room / "notify")):
                self.start()
            self.assertEqual(systemd.recv(100), b"READY=1")
            self.assertEqual(self.said("tell"), ["told 0"])
            self.stop()
            self.assertEqual(systemd.recv(100), b"STOPPING=1")

    def test_statuses(self) -> None:
        """Invalid arguments, a store that isn't there, and an invalid configuration: nothing is made."""
        rig.run("frob", status=2)
        rig.run("verify", status=2)
        rig.run("init", self.store, "--mapping", "disk", status=2)
        for words in (("verify", self.room / "none"), ("backup", self.room / "none", self.room / "copy"),
                      ("restore", self.room / "none", self.store)):
            with self.subTest(words):
                self.assertIn("none", rig.run(*words, status=3).stderr)
        self.assertEqual([each.name for each in self.room.iterdir()], [])
        self.configure()
        rig.run("run", self.config, status=3)
        self.assertIn("neither the store nor the places to listen were looked at", rig.run("check", self.config).stdout)
        for more, status, says in (('[accounts]\nfile = "none"', 3, "none: No such file"), ("[more]", 2, "'more' is unknown"),
                                   ('[leader]\ntcp = "[::1]:1"\ncertificate = "a"\nkey = "b"\nauthority = "none"', 3,
                                    "the source's certificates")):
            with self.subTest(more):
                self.configure(more=more)
                self.assertIn(says, rig.run("check", self.config, status=status).stderr)
        self.config.write_text("folder = 7")
        for command in ("run", "check"):
            self.assertIn("listen: a value of the type list", rig.run(command, self.config, status=2).stderr)

    def test_a_stop_beside_a_source_that_does_not_answer(self) -> None:
        """It ends a service soon, though its leader is gone, or is connected to and silent, or its Redis is."""
        self.make()
        where = self.room / "source"
        for source, is_there in (("leader", False), ("leader", True), ("redis", True)):
            with self.subTest(source=source, is_there=is_there), socket.socket(socket.AF_UNIX) as listening:
                where.unlink(missing_ok=True)
                if is_there:
                    listening.bind(str(where))
                    listening.listen()
                self.start(more=f'[{source}]\nunix = "{where}"\nmax_age_seconds = 60')
                asked = self.asked_over(listening) if is_there else None
                began = time.monotonic()
                self.stop()
                self.assertLess(time.monotonic() - began, 30)
                if asked is not None:
                    asked.close()

    def asked_over(self, listening: socket.socket) -> socket.socket:
        """A connection over which something is asked."""
        listening.settimeout(rig.PATIENCE)
        asked, _ = listening.accept()
        asked.settimeout(rig.PATIENCE)
        self.assertNotEqual(asked.recv(1), b"")
        return asked

    def test_interrupts(self) -> None:
        """SIGINT ends it as SIGTERM does."""
        self.make()
        self.start()
        self.assertEqual(self.said("addo /a O:BAG:SYD:"), ["ok"])
        self.process.send_signal(signal.SIGINT)
        self.assertEqual(self.process.wait(rig.PATIENCE), 0)
        self.assertEqual(rig.run("verify", self.store).stdout, "epoch 1, line 1, published 0\n")


if __name__ == "__main__":
    unittest.main()
