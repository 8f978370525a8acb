"""A log that takes nothing: edits are refused by name, all else goes on; none is acknowledged without its record."""

import contextlib
import json
import os
import shlex
import subprocess
import threading
import time
import unittest

import rig

from logs import RECORD_SECONDS, Log

NO_RECORD = "unavailable log"


class Logs(rig.Case):
    """The log itself, over a pipe or a file."""

    def log_to_pipe(self) -> tuple[Log, int]:
        """A log, and where it can be read. At the end of the test nothing of it is left."""
        out, into = os.pipe()
        log = Log(into)

        def end() -> None:
            reader = threading.Thread(target=lambda: (log.flush(rig.PATIENCE), os.close(into)))
            reader.start()
            while os.read(out, 1 << 16):
                pass
            reader.join()
            os.close(out)

        self.addCleanup(end)
        return log, out

    def test_a_stream_that_takes_nothing(self) -> None:
        """Nobody waits for it for long; what it takes later is whole lines, in their order."""
        log, out = self.log_to_pipe()
        told: list[tuple[int, bool]] = []
        for at in range(400):
            def then(is_written: bool, at: int = at) -> None:
                told.append((at, is_written))

            if log.records("edit", [f'"at": {at}, "text": "{"x" * 300}"'], then):
                then(True)
        end = time.monotonic() + 10 * RECORD_SECONDS
        while log.takes_records or len(told) < 400:
            self.assertLess(time.monotonic(), end)
            time.sleep(0.01)
            log.expire()
        self.assertEqual({is_written for at, is_written in told if at > 300}, {False})
        with open(out, "rb", closefd=False) as lines:
            found = [json.loads(lines.readline())["at"] for _ in range(400)]
        self.assertEqual(found, list(range(400)))
        log.flush(rig.PATIENCE)
        self.assertTrue(log.takes_records)
        self.assertEqual(len(told), 400)

    def test_events_that_are_too_many(self) -> None:
        log, _ = self.log_to_pipe()
        taken = sum(log.event("decision", text="x" * 1000) for _ in range(3000))
        self.assertEqual(taken + log.lost, 3000)
        self.assertGreater(log.lost, 1000)
        # (what records of edits have is beyond that)
        self.assertLess(log.waiting_bytes, 3 << 18)

    def test_few(self) -> None:
        """What anybody can cause is written up to a number, and the next one says how many weren't."""
        with open(self.room / "log", "wb") as out:
            log = Log(out.fileno())
            for _ in range(1000):
                log.few("rejected")
            log._few["rejected"] = (-1, *log._few["rejected"][1:])
            log.few("rejected")
            log.flush(rig.PATIENCE)
        lines = (self.room / "log").read_text().splitlines()
        self.assertEqual((len(lines), json.loads(lines[-1])["left_out"]), (601, 400))


class Services(rig.Case):
    def start_into(self, log: int, more: str = "") -> None:
        """Starts the service with its log there."""
        self.configure(more=more)
        self.launch(log)
        self.wait_for(self.lines.exists)
        self.wait_for(self.http.exists)

    def edits(self, count: int) -> list[str]:
        """The answers to so many edits, one after the other, up to one that isn't taken."""
        answers: list[str] = []
        with self.connect() as asked:
            for at in range(count):
                answers.append(asked.ask(f"addo /n{self.made + at} O:BAG:SYD:(A;;FR;;;{rig.USER})"))
                if answers[-1] != "ok":
                    break
        self.made += len(answers)
        return answers

    made = 0

    def assert_others_go_on(self) -> None:
        """Checks and watchers don't wait for the log, and learn that no edits are taken."""
        rounds, began = 40, time.monotonic()
        for _ in range(rounds):
            self.assertEqual(self.said(f"check 0 / {rig.USER} FR BU", "addo /x O:BAG:SYD:", "publish"),
                             ["seen 0 granted 0x120089", NO_RECORD, NO_RECORD])
            self.assertEqual(self.get("/readyz")[0], 503)
        metrics = self.metrics()
        self.assertEqual(metrics["sdstored_takes_edits"], 0)
        self.assertGreater(metrics["sdstored_log_waiting_bytes"], 0)
        # (an answer that waits for a record waits for so long)
        self.assertLess(time.monotonic() - began, rounds * RECORD_SECONDS)

    def assert_recorded(self, answers: list[str], text: str) -> None:
        """Each edit that was acknowledged has its record; so has each that was made."""
        records = [json.loads(line) for line in text.splitlines() if '"edit"' in line]
        numbers = [each["number"] for each in records if each["answer"] == "ok"]
        self.assertEqual(numbers, list(range(1, len(records) + 1)))
        self.assertGreaterEqual(len(records), answers.count("ok"))

    def test_a_pipe_that_nobody_reads(self) -> None:
        self.make()
        out, into = os.pipe()
        with open(out, "rb") as log, contextlib.closing(os.fdopen(into, "wb")) as end:
            self.start_into(end.fileno())
            answers = self.edits(2000)
            self.assertEqual(answers[-1], NO_RECORD)
            self.assertGreater(answers.count("ok"), 100)
            self.assert_others_go_on()
            text: list[bytes] = []
            reader = threading.Thread(target=lambda: text.extend(iter(log.readline, b"")))
            reader.start()
            self.wait_for(lambda: self.get("/readyz")[0] == 200)
            answers += self.edits(3)
            self.assertEqual(answers[-3:], ["ok"] * 3)
            self.stop()
            end.close()
            reader.join()
        self.assert_recorded(answers, b"".join(text).decode())

    def test_denials(self) -> None:
        """A check that is to be logged, and can't be, has no answer; one that isn't has."""
        self.make()
        out, into = os.pipe()
        with open(out, "rb"), open(into, "wb") as end:
            self.start_into(end.fileno(), '[log]\ndecisions = "denied"')
            with self.connect() as asked:
                said: list[bytes] = []
                for _ in range(40):
                    asked.send(f"x check 0 / {rig.USER} FW\n".encode() * 500)
                    said += (asked.read() for _ in range(500))
                self.assertEqual(asked.ask(f"check 0 / {rig.USER} FR BU"), "seen 0 granted 0x120089")
            self.assertEqual(set(said), {b"x seen 0 denied 0x120116\n", f"x {NO_RECORD}\n".encode()})
            self.assertGreater(self.metrics()["sdstored_log_lost_total"], 0)

    def test_a_stop_with_a_pipe_that_nobody_reads(self) -> None:
        self.make()
        out, into = os.pipe()
        with open(out, "rb"), open(into, "wb") as end:
            self.start_into(end.fileno())
            self.assertEqual(self.edits(2000)[-1], NO_RECORD)
            began = time.monotonic()
            self.stop()
            self.assertLess(time.monotonic() - began, 60)

    def test_a_full_disk(self) -> None:
        """The disk of the log alone is full."""
        small = self.mount_small()
        self.make()
        with open(small / "log", "ab") as log:
            (small / "filler").write_bytes(b"x" * 950_000)
            self.start_into(log.fileno())
            answers = self.edits(2000)
            self.assertEqual(answers[-1], NO_RECORD)
            self.assertGreater(answers.count("ok"), 100)
            self.assert_others_go_on()
            self.assertGreaterEqual((small / "log").read_bytes().count(b'"edit"'), answers.count("ok"))
            (small / "filler").unlink()
            self.wait_for(lambda: self.get("/readyz")[0] == 200)
            answers += self.edits(3)
            self.assertEqual(answers[-3:], ["ok"] * 3)
            self.stop()
        self.assert_recorded(answers, (small / "log").read_text())

    def test_a_closed_standard_error(self) -> None:
        """Another file would get the log: nothing is served."""
        self.make()
        self.configure()
        command = f"exec {shlex.join([*rig.PROGRAM, 'run', str(self.config)])} 2>&-"
        self.assertEqual(subprocess.run(["sh", "-c", command], timeout=rig.PATIENCE, check=False).returncode, 3)


if __name__ == "__main__":
    unittest.main()
