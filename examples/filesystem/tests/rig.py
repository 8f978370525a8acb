"""What the tests share: a mount of its own, processes of other users, and a count of what holds."""

import ctypes
import errno
import json
import os
import shutil
import signal
import subprocess
import sys
import tempfile
import time

HERE = os.path.dirname(os.path.abspath(__file__))
OUT = os.path.join(os.path.dirname(HERE), "out")
PROGRAM = os.path.join(OUT, "hudarinfs-sanitized")
PLAIN = os.path.join(OUT, "hudarinfs")
UNCHECKED = os.path.join(OUT, "hudarinfs-unchecked")


def keeps_attributes() -> bool:
    """Whether the file system of the tests' folders keeps extended attributes: else what stands in them isn't tried."""
    with tempfile.NamedTemporaryFile(prefix="hudarinfs.") as file:
        try:
            os.setxattr(file.name, "user.hudarin.own", b"x")
        except OSError:
            print("left out: attributes, which the file system of %s doesn't keep" % tempfile.gettempdir(), flush=True)
            return False
    return True


# Whether descriptors are kept in a file beside the folder: each way that can be tried here.
WAYS_TO_KEEP = [False, True] if keeps_attributes() else [True]


# How long an event may take on a machine whose other work leaves little to the tests, in seconds.
LONGEST = 300


def until(is_so) -> bool:
    """Whether it came to be so."""
    end = time.monotonic() + LONGEST
    while time.monotonic() < end:
        if is_so():
            return True
        time.sleep(0.01)
    return False


def read_number(path: str) -> int:
    with open(path, encoding="ascii") as file:
        return int(file.read())


class Tally:
    """How many tests held; what didn't hold is told in a line of its own, for the first twenty."""

    def __init__(self) -> None:
        self.passed = 0
        self.failed = 0

    def holds(self, is_so: bool, place: str, found: object = "") -> bool:
        if is_so:
            self.passed += 1
        else:
            self.failed += 1
            if self.failed <= 20:
                print("%s: %s" % (place, found), flush=True)
        return is_so

    def same(self, place: str, found: object, wanted: object) -> bool:
        return self.holds(found == wanted, place, "got %.300r, where %.300r was wanted" % (found, wanted))

    def close(self) -> int:
        print("%d passed, %d failed" % (self.passed, self.failed))
        return 0 if self.failed == 0 and self.passed > 0 else 1


class User:
    """Who a process is to be, and how `sdstore` is told of it: as the server's README says that it makes tokens."""

    def __init__(self, name: str, uid: int, gid: int, groups: list) -> None:
        self.name, self.uid, self.gid, self.groups = name, uid, gid, groups
        self.sid = "S-1-22-1-%d" % uid
        self.group_sid = "S-1-22-2-%d" % gid
        words = ["S-1-22-2-%d" % group for group in [gid] + groups] + ["S-1-1-0", "S-1-5-11"]
        if uid == 0:
            words += ["+take", "+security"]
        self.words = " ".join([self.sid, "%s", *words])


ROOT = User("root", 0, 0, [])
ALICE = User("alice", 62001, 63001, [63010])
BOB = User("bob", 62002, 63001, [63010, 63020])
CAROL = User("carol", 62003, 63002, [])
USERS = [ROOT, ALICE, BOB, CAROL]


def outcome(call, *arguments):
    """`ok`, or the name of the error."""
    try:
        call(*arguments)
    except OSError as error:
        return errno.errorcode.get(error.errno, str(error.errno))
    return "ok"


def become(user: User) -> None:
    """This process is the user's from now on, and dies with the one that made it."""
    ctypes.CDLL(None).prctl(1, signal.SIGKILL)
    os.setgroups(user.groups)
    os.setresgid(user.gid, user.gid, user.gid)
    os.setresuid(user.uid, user.uid, user.uid)


class Caller:
    """A process of a user, which makes the calls that it is asked for: by name, with words."""

    def __init__(self, user: User, calls: dict) -> None:
        self.user = user
        ours, theirs = os.pipe(), os.pipe()
        self._pid = os.fork()
        if self._pid == 0:
            os.close(ours[1])
            os.close(theirs[0])
            self._serve(user, calls, os.fdopen(ours[0]), os.fdopen(theirs[1], "w"))
        os.close(ours[0])
        os.close(theirs[1])
        self._asks = os.fdopen(ours[1], "w")
        self._answers = os.fdopen(theirs[0])

    @staticmethod
    def _serve(user, calls, asked, answers) -> None:
        try:
            become(user)
            for line in asked:
                name, *arguments = json.loads(line)
                found = []
                said = outcome(lambda: found.append(calls[name](*arguments)))
                answers.write(json.dumps([said, found[0] if found else None]) + "\n")
                answers.flush()
        finally:
            os._exit(0)

    def call(self, *words):
        """(`ok` or the name of the error, what the call gave)"""
        self._asks.write(json.dumps(words) + "\n")
        self._asks.flush()
        return tuple(json.loads(self._answers.readline()))

    def close(self) -> None:
        self._asks.close()
        self._answers.close()
        os.kill(self._pid, signal.SIGKILL)
        os.waitpid(self._pid, 0)


class Mount:
    """A folder, and a server that shows it and keeps descriptors in attributes of the folder's own files, or in a file
    beside it."""

    def __init__(self, program: str = PROGRAM, in_file: bool = WAYS_TO_KEEP[0]) -> None:
        self.program = program
        self.in_file = in_file
        self.room = tempfile.mkdtemp(prefix="hudarinfs.")
        os.chmod(self.room, 0o755)
        self.folder = os.path.join(self.room, "folder")
        self.at = os.path.join(self.room, "mount")
        self.kept = self.folder + ".hudarin"
        self.log = os.path.join(self.room, "log")
        self._connections = os.path.join(self.room, "connections")
        os.mkdir(self.folder, 0o700)
        os.mkdir(self.at)
        os.mkdir(self._connections)
        self._server = None

    def path(self, path: str) -> str:
        return self.at + (path if path != "/" else "")

    def said(self) -> str:
        with open(self.log, encoding="utf-8", errors="replace") as file:
            return file.read()

    def start(self, *words: str, options: tuple = (), step: int = 0, wait: int = 0, before=None, prefix: tuple = (),
              is_seen: bool = True) -> bool:
        """Whether it serves. It ends at a step of its edits, if one is given, or waits so many microseconds when FOLDER
        has changed and the view hasn't, and before each close. `before` runs in its process, `prefix` is a command that
        runs it, and `is_seen` says whether its mount is in this mount namespace."""
        # (where there are no attributes a file is kept without being asked for)
        asked = ["-f"] if self.in_file and len(WAYS_TO_KEEP) > 1 else []
        command = [*prefix, self.program, *asked, *options, self.folder, self.at, *words]
        settings = {**os.environ, "HUDARINFS_STEP": str(step), "HUDARINFS_WAIT": str(wait)}
        with open(self.log, "wb") as log:
            self._server = subprocess.Popen(command, stderr=log, stdout=log, env=settings, preexec_fn=before)
        end = time.monotonic() + LONGEST
        while time.monotonic() < end and self._server.poll() is None:
            if "ready" in self.said() and (not is_seen or os.path.ismount(self.at)):
                return True
            time.sleep(0.002)
        return False

    def signal(self, number: int) -> None:
        self._server.send_signal(number)

    def ignores(self, number: int) -> bool:
        with open("/proc/%d/status" % self._server.pid, encoding="utf-8") as file:
            words = dict(line.split(":", 1) for line in file)
        return int(words["SigIgn"], 16) >> (number - 1) & 1 == 1

    def is_running(self) -> bool:
        return self._server.poll() is None

    def children(self) -> list:
        """The processes that the server's prefix has made."""
        with open("/proc/%d/task/%d/children" % (self._server.pid, self._server.pid), encoding="utf-8") as file:
            return [int(word) for word in file.read().split()]

    def ended(self) -> int:
        return self._server.wait(timeout=LONGEST)

    def _is_idle(self) -> bool:
        """Whether the server has answered all calls: Linux closes a file, and a folder, behind its process's back."""
        with open("/proc/self/mountinfo", encoding="utf-8") as file:
            devices = [words[2].split(":")[1] for words in (line.split() for line in file) if words[4] == self.at]
        waiting = [os.path.join(self._connections, device, "waiting") for device in devices]
        return all(read_number(path) == 0 for path in waiting if os.path.exists(path))

    def _wait_for_closes(self) -> None:
        """An unmount aborts what the server hasn't read, and libfuse frees an open folder by its close alone: what it
        didn't free would be a leak to the sanitizers. (Where a container may not mount fusectl this doesn't wait.)"""
        if subprocess.run(["mount", "-t", "fusectl", "fusectl", self._connections], check=False,
                          stderr=subprocess.DEVNULL).returncode == 0:
            until(lambda: self._is_idle() or not self.is_running())
            subprocess.run(["umount", self._connections], check=True)

    def stop(self) -> int:
        """Unmounts; the status of the server, whose sanitizers have found nothing where it is 0."""
        # (a call that has just ended may keep the mount busy for a moment)
        until(lambda: subprocess.run(["umount", self.at], check=False, stderr=subprocess.DEVNULL).returncode == 0
              or not self.is_running())
        return self.ended()

    def end(self, tally: Tally, place: str = "the status, and the sanitizers", waits: bool = True) -> None:
        """Unmounts: the status is 0, or else what the server said is told. `waits`: its calls are answered first."""
        if waits:
            self._wait_for_closes()
        status = self.stop()
        tally.holds(status == 0, place, "got %d, where 0 was wanted, of %r" % (status, self.said()[-4000:]))

    def kill(self) -> None:
        """What it leaves at its mount is for the next start to unmount."""
        self._server.kill()
        self._server.wait()

    def close(self) -> None:
        if self._server is not None and self._server.poll() is None:
            self._server.kill()
            self._server.wait()
        if os.path.ismount(self.at) or "ready" in (self.said() if os.path.exists(self.log) else ""):
            subprocess.run(["umount", "-l", self.at], check=False, stderr=subprocess.DEVNULL)
        shutil.rmtree(self.room, ignore_errors=True)


def fail(text: str) -> None:
    sys.exit("the test itself: " + text)
