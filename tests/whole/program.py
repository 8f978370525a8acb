"""The program and Samba, asked many questions in a run each."""

import json
import subprocess
from pathlib import Path
from typing import Any, Dict, List, Optional

DOMAIN = "S-1-5-21-1-2-3"
#: A user, MAXIMUM_ALLOWED, and groups that descriptors of a directory have.
TOKEN = ["S-1-5-21-1-2-3-1001", "0x02000000", "WD", "AU", "BU", "S-1-5-21-1-2-3-512=deny"]
WORKER = Path(__file__).resolve().parent / "by_samba.py"
#: Far more seconds than any run takes.
PATIENCE = 1800


class Stopped(Exception):
    """A process that ended before it answered all."""


class Program:
    """The program sdstore."""

    def __init__(self, path: str):
        self.path = path

    def each(self, command: str, lines: List[str]) -> List[str]:
        """What `--whole` and this command print of each line, in one run; none of the lines is empty."""
        return self.run(["--whole"] if command == "frombin" else ["--whole", "--domain", DOMAIN], [command], lines)

    def verdicts(self, options: List[str], lines: List[str]) -> List[str]:
        """The most that each line grants to one token, under these options."""
        return self.run(options, ["verdict", *TOKEN], lines) if lines else []

    def run(self, options: List[str], command: List[str], lines: List[str]) -> List[str]:
        given = "".join(line + "\n" for line in lines).encode()
        done = subprocess.run([self.path, *options, "each", *command], input=given, capture_output=True,
                              timeout=PATIENCE, check=False)
        answers = done.stdout.decode().split("\n")[:-1]
        if done.returncode not in (0, 1) or len(answers) != len(lines):
            why = done.stderr.decode(errors="replace")[-300:]
            raise Stopped(f"{self.path}: status {done.returncode} after {len(answers)} of {len(lines)} lines: {why}")
        return answers


class Samba:
    """The module samba of a Python, in a process of its own, which starts again where a case ends it."""

    def __init__(self, python: str):
        self.python = python
        self.process: Any = None
        self.version = self.start()["version"]

    def start(self) -> Dict[str, Any]:
        self.process = subprocess.Popen([self.python, "-B", str(WORKER)], stdin=subprocess.PIPE, stdout=subprocess.PIPE,
                                        stderr=subprocess.DEVNULL, text=True)
        said = self.line()
        if said is None:
            raise Stopped(f"{self.python} has no module samba, of the package python3-samba")
        return said

    def line(self) -> Optional[Dict[str, Any]]:
        said = self.process.stdout.readline()
        return json.loads(said) if said.endswith("\n") else None

    def ask(self, case: Dict[str, Any]) -> Dict[str, Any]:
        """Its answer; where its process ends instead, `ended` is how."""
        try:
            self.process.stdin.write(json.dumps(case) + "\n")
            self.process.stdin.flush()
            answer = self.line()
        except BrokenPipeError:
            answer = None
        if answer is None:
            status = self.process.wait()
            self.start()
            return {"hex": None, "text": None, "ended": status}
        return answer

    def write(self, data: bytes) -> Dict[str, Any]:
        """Its text of bytes."""
        return self.ask({"kind": "write", "sd": data.hex()})

    def parse(self, text: str) -> Dict[str, Any]:
        """Its bytes of a text."""
        return self.ask({"kind": "parse", "text": text, "domain": DOMAIN})

    def is_old(self) -> bool:
        """Whether it is the version without conditions."""
        return self.version.startswith("4.17")

    def close(self) -> None:
        self.process.stdin.close()
        self.process.wait()
        self.process.stdout.close()
