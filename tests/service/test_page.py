"""docs/SERVICE.md from two installations to a replicated, monitored service: the commands of the page, as they are there.

What a machine is to each of the two is a folder here: paths, addresses and the user are replaced in the commands, and
systemctl and runuser by what they would start."""

import json
import os
import re
import shlex
import shutil
import subprocess
import time
import unittest
import urllib.error
import urllib.request
from collections.abc import Callable
from pathlib import Path

import rig

PAGE = rig.TOP / "docs/SERVICE.md"
TOOLS = ("curl", "openssl")
#: What stands for programs of the system: the service starts as its unit has it, and is ready at the return.
STAND_INS = {
    "systemctl": """
        [ "$1" = enable ] || exit 0
        sdstored run "$MACHINE/etc/sdstored.toml" >"$MACHINE/out" 2>"$MACHINE/log" &
        echo $! >>"$MACHINE/../started"
        until grep -q '"ready"' "$MACHINE/log"; do kill -0 $! || exit 1; sleep 0.05; done""",
    "runuser": 'shift 3; exec "$@"',
    "sdstored": f"exec {shlex.join(rig.PROGRAM)} \"$@\"",
}


def blocks(kind: str) -> list[str]:
    """The blocks of this kind about a replicated, monitored service."""
    text = PAGE.read_text().partition("\n## A replicated, monitored service\n")[2].partition("\n## ")[0]
    return re.findall(rf"^```{kind}\n(.*?)^```$", text, re.MULTILINE | re.DOTALL)


class Machine:
    """A folder for a machine, and the ports of its services."""

    def __init__(self, room: Path, name: str, leader_port: int) -> None:
        self.room, self.watch, self._leader_port = room / name, rig.free_port(), leader_port
        for each in ("", "etc", "lib", "run"):
            (self.room / each).mkdir()
        sample = self.here((rig.SERVICE / "sdstored.toml").read_text())
        (self.room / "etc/sdstored.toml").write_text(sample.replace("uid:0", f"uid:{os.getuid()}"))

    def here(self, text: str) -> str:
        """The text with what this machine has."""
        for one, other in (
            ("/etc/sdstored", f"{self.room}/etc"), ("/var/lib/sdstored", f"{self.room}/lib"),
            ("/run/sdstored", f"{self.room}/run"),
            ("192.0.2.1", "127.0.0.1"), (":7390", f":{self.watch}"), (":7391", f":{self._leader_port}"),
        ):
            text = text.replace(one, other)
        return text

    def run(self, commands: str) -> str:
        """What the commands print."""
        path = f"{self.room.parent / 'bin'}:{os.environ['PATH']}"
        done = subprocess.run(["bash", "-euc", self.here(commands)], cwd=self.room.parent, capture_output=True,
                              text=True, env={**os.environ, "PATH": path, "MACHINE": str(self.room)}, check=False)
        if done.returncode != 0:
            raise AssertionError(f"{commands}: status {done.returncode}: {done.stderr}")
        return done.stdout

    def asked(self, target: str, given: object) -> dict[str, object]:
        """The answer over HTTP."""
        return json.loads(self.run(f"curl -s --unix-socket /run/sdstored/http -H 'Content-Type: application/json' "
                                   f"http://localhost{target} -d '{json.dumps(given)}'"))


class Page(rig.Case):
    def setUp(self) -> None:
        super().setUp()
        for tool in TOOLS:
            if shutil.which(tool) is None:
                self.skipTest(f"the command {tool} is required")
        self.addCleanup(self.end)
        (self.room / "bin").mkdir()
        for name, text in STAND_INS.items():
            (self.room / "bin" / name).write_text(f"#!/bin/sh\n{text}\n")
            (self.room / "bin" / name).chmod(0o755)

    def end(self) -> None:
        """Ends the services that the commands started."""
        started = self.room / "started"
        for number in started.read_text().split() if started.exists() else []:
            os.kill(int(number), 9)

    def test_a_replicated_monitored_service(self) -> None:
        certificates, leads, follows = blocks("bash")
        port = rig.free_port()
        leader, replica = (Machine(self.room, name, port) for name in ("leader", "replica"))
        leader.run(certificates)
        for machine, name in ((leader, "leader"), (replica, "replica")):
            for file in (f"{name}.pem", f"{name}.key", "authority.pem"):
                shutil.copy(self.room / file, machine.room / "etc")
        (self.room / "dump.txt").write_text(rig.DUMP)
        self.assertEqual(leader.run(leads), "published 0\nready\n")
        edit = {"edit": "addo", "path": "/report", "descriptor": "O:BAG:SYD:"}
        leader.asked("/v1/edit", {"edits": [edit], "publish": True})
        self.assertIn(replica.run(follows), ("ready\n", "not ready\n"))
        self.wait_until(lambda: replica.run("curl -s http://127.0.0.1:7390/readyz") == "ready\n")
        for machine in (leader, replica):
            self.assertEqual(machine.asked("/v1/show", {"path": "/report"})["descriptor"],
                             "O:BAG:SYD:AI(A;ID;FR;;;BU)")
        self.watch([leader, replica])

    def wait_until(self, is_so: Callable[[], bool]) -> None:
        end = time.monotonic() + rig.PATIENCE
        while not is_so():
            self.assertLess(time.monotonic(), end)
            time.sleep(0.1)

    def watch(self, machines: list[Machine]) -> None:
        """Prometheus takes the page's configuration and rules, and finds both services up."""
        if shutil.which("prometheus") is None:
            self.skipTest("the command prometheus is required for the rules")
        configuration, rules = blocks("yaml")
        targets = ", ".join(f"'127.0.0.1:{each.watch}'" for each in machines)
        configuration = configuration.replace("'127.0.0.1:7390'", targets)
        (self.room / "prometheus.yml").write_text(f"global: {{scrape_interval: 1s}}\n{configuration}")
        (self.room / "sdstored.yml").write_text(rules)
        port = rig.free_port()
        command = ["prometheus", f"--config.file={self.room}/prometheus.yml", f"--storage.tsdb.path={self.room}/tsdb",
                   f"--web.listen-address=127.0.0.1:{port}"]
        with open(self.room / "prometheus.log", "wb") as log:
            self.process = subprocess.Popen(command, stderr=log)

        def asked(target: str) -> dict[str, list[dict[str, object]]]:
            try:
                with urllib.request.urlopen(f"http://127.0.0.1:{port}/api/v1/{target}", timeout=10) as answer:
                    return json.load(answer)["data"]
            except (urllib.error.URLError, ConnectionError):
                return {"result": []}

        def values(query: str) -> list[str]:
            return [each["value"][1] for each in asked(f"query?query={query}")["result"]]

        self.wait_until(lambda: values("up%7Bjob=%22sdstored%22%7D") == ["1", "1"])
        self.wait_until(lambda: values("sdstored_takes_edits==1") == ["1"])
        groups = asked("rules")["groups"]
        self.wait_until(lambda: all(each["health"] == "ok" for each in asked("rules")["groups"][0]["rules"]))
        self.assertEqual([each["name"] for each in groups[0]["rules"]],
                         ["SdstoredIsDown", "SdstoredTakesNoEdits", "SdstoredReplicaIsLate", "SdstoredHasOldAccounts"])
        self.assertEqual(asked("alerts")["alerts"], [])


if __name__ == "__main__":
    unittest.main()
