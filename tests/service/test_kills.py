"""kill -9 at random moments, with a model that only knows what was acknowledged.

    test_kills.py [KILLS [STORES]]

kills services so often in all, some stores at once, each some dozen times; it prints what was done so far."""

import random
import subprocess
import sys
import threading
import time
from collections import Counter
from concurrent.futures import ProcessPoolExecutor
from pathlib import Path

import rig

#: The moments of a test of the gate.
KILLS = 12
#: Small epochs, so that most kills are near one.
LIMITS = "lines_in_epoch = 40"
CLIENTS = 4
#: A kill comes after fewer answers than these.
ANSWERS = 80


class Client:
    """Edits its own folder, and knows of each node what it may have: an owner for a node, None for no node. Where an
    edit wasn't answered both are possible."""

    def __init__(self, name: str, seed: int) -> None:
        self.folder = f"/{name}"
        self.chance = random.Random(seed)
        self.nodes: dict[str, set[str | None]] = {self.folder: {None}}
        #: The published length that was acknowledged last, and the acknowledged answers in all.
        self.length, self.answers = 0, 0
        self.faults: list[str] = []

    def run(self, where: Path) -> None:
        """Asks until the connection ends."""
        try:
            with rig.Lines(where) as asked:
                while True:
                    self._step(asked)
        except (OSError, EOFError):
            pass
        except AssertionError as error:
            self.faults.append(str(error))

    def _step(self, asked: rig.Lines) -> None:
        kind = self.chance.random()
        if kind < 0.15:
            self._publish(asked)
        elif self.nodes[self.folder] == {None}:
            self._edit(asked, "addc", self.folder)
        else:
            path = f"{self.folder}/n{self.chance.randrange(12)}"
            known = self.nodes.setdefault(path, {None})
            self._edit(asked, self.chance.choice(("owner", "remove")) if known != {None} else "addo", path)

    def _edit(self, asked: rig.Lines, command: str, path: str) -> None:
        owner = f"S-1-5-21-1-2-3-{self.chance.randrange(1000, 9999)}"
        words = {"addc": [f"O:{owner}G:SYD:"], "addo": [f"O:{owner}G:SYD:"], "owner": [owner], "remove": []}[command]
        after = None if command == "remove" else owner
        before = self.nodes[path]
        self.nodes[path] = before | {after}
        said = asked.ask(" ".join([command, path, *words]))
        self.answers += 1
        if said == "ok":
            self.nodes[path] = {after}
        elif said.startswith(("refused 3", "refused 4", "refused 1")) and len(before) > 1:
            self.nodes[path] = before
        elif said.startswith("unavailable"):
            pass
        else:
            raise AssertionError(f"{command} {path}, of {before}, is answered {said}")

    def _publish(self, asked: rig.Lines) -> None:
        length = int(asked.ask("publish").split(" ")[1])
        self.answers += 1
        if length < self.length:
            raise AssertionError(f"{length} edits are published, after {self.length}")
        self.length = length
        for path, known in self.nodes.items():
            if len(known) == 1:
                self._compare(path, known, asked.ask(f"show 0 {path}"))

    def _compare(self, path: str, known: set[str | None], said: str) -> None:
        found = said.split(" ", 2)[2]
        owner = found.removeprefix("shown O:").partition("G:")[0] if found != "nonode" else None
        if owner not in known:
            raise AssertionError(f"{path} has {owner}, and {known} was acknowledged")

    def settle(self, asked: rig.Lines) -> None:
        """After a start: what is acknowledged is there, and what is there is known from here on."""
        for path, known in self.nodes.items():
            said = asked.ask(f"show 0 {path}")
            self._compare(path, known, said)
            found = said.split(" ", 2)[2]
            self.nodes[path] = {found.removeprefix("shown O:").partition("G:")[0] if found != "nonode" else None}


class Kills(rig.Case):
    def test_kills(self) -> None:
        self.run_kills(KILLS, 1)

    def run_kills(self, kills: int, seed: int) -> Counter[str]:
        """Kills the service so often, and returns what was done."""
        chance = random.Random(seed)
        self.done: Counter[str] = Counter()
        self.make()
        clients = [Client(f"c{number}", seed * 100 + number) for number in range(CLIENTS)]
        for turn in range(kills):
            self.done["kills"] += 1
            if chance.random() < 0.15:
                self.kill_start(chance)
                continue
            self.start(LIMITS)
            self.settle(clients)
            threads = [threading.Thread(target=each.run, args=(self.lines,)) for each in clients]
            for thread in threads:
                thread.start()
            copy = self.copy(turn) if chance.random() < 0.3 else None
            self.wait_for_answers(clients, chance.randrange(ANSWERS))
            time.sleep(chance.random() * 0.02)
            self.kill()
            for thread in threads:
                thread.join()
            if copy is not None:
                self.kill_or_use(copy, turn, chance)
            self.assertEqual([fault for each in clients for fault in each.faults], [])
            self.assertEqual([each for each in self.events() if each["event"] in ("warning", "error")], [])
        self.start(LIMITS)
        self.settle(clients)
        self.done["new epochs"] = int(self.said("status")[0].split(" ")[2]) - 1
        self.done["answers"] = sum(each.answers for each in clients)
        self.stop()
        rig.run("verify", self.store)
        return self.done

    def wait_for_answers(self, clients: list[Client], count: int) -> None:
        """Until the clients have had so many more, however busy the machine is."""
        before = sum(each.answers for each in clients)
        self.wait_for(lambda: sum(each.answers for each in clients) >= before + count
                      or any(each.faults for each in clients))

    def kill_start(self, chance: random.Random) -> None:
        """Kills the service before it is ready, more often than not."""
        self.configure(LIMITS)
        self.launch()
        time.sleep(chance.random() * 0.5)
        self.done["starts killed"] += not any(each["event"] == "ready" for each in self.events())
        self.kill()

    def settle(self, clients: list[Client]) -> None:
        """What was published is served before any edit; then all that was acknowledged is there."""
        with self.connect() as asked:
            told = int(asked.ask("tell").split(" ")[1])
            self.assertGreaterEqual(told, max(each.length for each in clients))
            asked.ask("publish")
            for each in clients:
                each.settle(asked)

    def copy(self, turn: int) -> "subprocess.Popen[bytes]":
        command = [*rig.PROGRAM, "backup", str(self.store), str(self.room / f"copy{turn}")]
        return subprocess.Popen(command, stdout=subprocess.DEVNULL, stderr=subprocess.DEVNULL)

    def kill_or_use(self, copy: "subprocess.Popen[bytes]", turn: int, chance: random.Random) -> None:
        """A backup that is killed leaves no file of its name; one that ends makes a store again, unless that is killed,
        which leaves no folder of its name."""
        file, folder = self.room / f"copy{turn}", self.room / f"restored{turn}"
        if chance.random() < 0.5:
            copy.kill()
        if copy.wait(rig.PATIENCE) == 0:
            command = [*rig.PROGRAM, "restore", str(file), str(folder)]
            restore = subprocess.Popen(command, stdout=subprocess.DEVNULL, stderr=subprocess.DEVNULL)
            time.sleep(chance.random() * 0.4)
            restore.kill()
            self.done["restores killed"] += restore.wait(rig.PATIENCE) != 0
            if folder.exists():
                rig.run("verify", folder)
        else:
            self.done["backups killed"] += 1
            if file.exists():
                rig.run("verify", file)


def run_store(kills: int, seed: int) -> Counter[str]:
    case = Kills()
    case.setUp()
    try:
        return case.run_kills(kills, seed)
    finally:
        case.doCleanups()


def main(kills: int = 1000, stores: int = 1) -> None:
    rig.PATIENCE = 600
    shares = [min(KILLS, kills - before) for before in range(0, kills, KILLS)]
    done: Counter[str] = Counter()
    with ProcessPoolExecutor(stores) as pool:
        for more in pool.map(run_store, shares, range(len(shares))):
            done += more
            print(f"{', '.join(f'{count:,} {what}' for what, count in sorted(done.items()))}; none lost", flush=True)


if __name__ == "__main__":
    main(*map(int, sys.argv[1:]))
