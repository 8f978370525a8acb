"""Pending edits of two clients: whose a publish is of, over both protocols, after a kill and where replicas lead."""

import os
import subprocess
import sys
import unittest

import rig

from client import Client, Rejected

OTHER = 65_534
#: Asks lines over a connection, each after the answer to the one before.
ASK = """
import os, socket, sys
os.setgroups([])
os.setgid(int(sys.argv[1]))
os.setuid(int(sys.argv[1]))
asked = socket.socket(socket.AF_UNIX)
asked.connect(sys.argv[2])
lines = asked.makefile("rw")
for line in sys.argv[3:]:
    print("x", line, file=lines, flush=True)
    print(lines.readline()[2:-1])
"""


class Pending(rig.Case):
    def setUp(self) -> None:
        super().setUp()
        if os.geteuid() != 0:
            self.skipTest("root is required for a process of another user")
        self.room.chmod(0o711)
        self.allow = f'{{"uid:0" = "edit", "uid:{OTHER}" = "edit"}}'

    def other_said(self, *lines: str) -> list[str]:
        """The answers to these lines of another client."""
        command = [sys.executable, "-c", ASK, str(OTHER), str(self.lines), *lines]
        done = subprocess.run(command, capture_output=True, text=True, timeout=rig.PATIENCE, check=True)
        return done.stdout.splitlines()

    def posted(self, name: str, body: object) -> tuple[int, object]:
        """The status of a request, and its answers, or its fault."""
        status, found = self.post(name, body)
        return status, [each["answer"] for each in found["answers"]] if "answers" in found else found

    def test_two_clients(self) -> None:
        self.make()
        self.start(allow=self.allow)
        self.assertEqual(self.said("addo /a O:BAG:SYD:", "addo /b O:BAG:SYD:"), ["ok"] * 2)
        self.assertEqual(self.other_said("publish", "publish everything", "publish all all", "tell"),
                         ["fault pending 2", "fault words", "fault words", "told 0"])
        self.assertEqual(self.other_said("addo /c O:BAG:SYD:", "publish", "once k publish"),
                         ["ok", *["fault pending 2"] * 2])
        self.kill()
        self.launch()
        self.wait_until_ready()
        self.assertEqual(self.said("publish", "tell"), ["fault pending 1", "told 0"])
        edits = {"edits": [{"edit": "addo", "path": "/d", "descriptor": "O:BAG:SYD:"}], "publish": True}
        self.assertEqual(self.posted("edit", edits), (409, ["unmade", "fault pending 1"]))
        self.assertEqual(self.posted("publish", {}), (409, ["fault pending 1"]))
        for name, body in (("edit", {"edits": [], "all": True}), ("publish", {"all": 1}),
                           ("edit", edits | {"all": "a"})):
            self.assertEqual(self.posted(name, body), (400, {"fault": "all"}))
        with Client(str(self.lines)) as client, self.assertRaises(Rejected) as rejected:
            client.publish()
        self.assertEqual(str(rejected.exception), "fault pending 1")
        self.assertEqual(self.posted("edit", edits | {"all": True}), (200, ["ok", "published 4"]))
        self.assertEqual(self.other_said("addo /e O:BAG:SYD:", "once k publish", "once k publish all"),
                         ["ok", "published 5", "published 5"])
        self.assertEqual(self.other_said("addo /f O:BAG:SYD:"), ["ok"])
        with Client(str(self.lines)) as client:
            self.assertEqual(client.publish(of_all=True), 6)
        records = [(each["line"], each["answer"]) for each in self.events() if each["event"] == "edit"]
        self.assertIn(("publish", "fault pending 1"), records)

    def test_a_replica_that_leads(self) -> None:
        """It knows whose the pending edits are, and so does a store made of a copy."""
        self.make()
        self.start(allow=self.allow)
        self.assertEqual(self.said("addo /a O:BAG:SYD:"), ["ok"])
        self.assertEqual(self.other_said("addo /b O:BAG:SYD:"), ["ok"])
        leader, lines = self.process, self.lines
        self.addCleanup(leader.wait)
        self.addCleanup(leader.kill)
        copy, replica = self.room / "copy", self.room / "replica"
        rig.run("backup", self.store, copy)
        self.store, self.lines, self.http = replica, self.room / "lines2", self.room / "http2"
        self.start(allow=self.allow, more=f'[leader]\nunix = "{lines}"\n')
        self.wait_for(lambda: self.said("review")[0] == "new /a")
        self.kill()
        self.start(allow=self.allow)
        self.assertEqual(self.other_said("publish"), ["fault pending 1"])
        self.assertEqual(self.said("publish", "publish all"), ["fault pending 1", "published 2"])
        self.kill()
        self.store = self.room / "restored"
        rig.run("restore", copy, self.store)
        self.start(allow=self.allow)
        self.assertEqual(self.other_said("publish", "publish all"), ["fault pending 1", "published 2"])


if __name__ == "__main__":
    unittest.main()
