#!/usr/bin/env python3
"""Asks `sdstore serve` from Python: a line, its answer, the next line.

    examples/serve/ask.py PROGRAM [CHECKS]

Opens a store, adds some files, and asks so many checks, each after the answer to the one before. Each answer is
compared with what the file's entry grants; at the end it prints how many were asked, and their time.
"""

import contextlib
import itertools
import subprocess
import sys
import time

#: The commands whose answers have several lines, and an empty one after them.
SEVERAL = ("why", "find", "list", "dump", "who", "review")


def line_of(*words: str) -> str:
    """The line of these words, which may be untrusted. ValueError: one of them isn't exactly one word of a line."""
    for word in words:
        if not word or any(mark in word for mark in " \n\r"):
            raise ValueError("not one word: %r" % word)
    return " ".join(words)


class Server:
    """A store in another process. Lines are those of a script.

    Each line is sent with an id of its own, and each line of its answer comes with that id. Anything else ends the
    store: what an exception left unread of an answer, or unwritten of a line, never becomes the answer to another line.
    """

    def __init__(self, program: str, *options: str) -> None:
        """Starts `sdstore serve --ids` with these options before `serve`."""
        words = [program, *options, "serve", "--ids"]
        self._process = subprocess.Popen(words, stdin=subprocess.PIPE, stdout=subprocess.PIPE)
        self._ids = itertools.count(1)

    def __enter__(self) -> "Server":
        return self

    def __exit__(self, kind: object, *_: object) -> None:
        if kind:
            self._process.kill()
        self.close()

    def ask(self, line: str) -> str:
        """The answer to one line, without an empty line after it. ValueError: it isn't one line that is answered.
        EOFError: the server has ended."""
        if not line or line[0] == "#" or "\n" in line or line[-1] == "\r":
            raise ValueError("not one line that is answered: %r" % line)
        tag = b"%d " % next(self._ids)
        given = tag + line.encode() + b"\n"
        if self._process.stdin.closed:
            raise EOFError("the server has ended")
        try:
            self._process.stdin.write(given)
            self._process.stdin.flush()
        except BrokenPipeError:
            raise EOFError("the server has ended") from None
        lines = [self._line(tag)]
        if line.split(" ", 1)[0] in SEVERAL:
            lines += iter(lambda: self._line(tag), "")
        return "\n".join(lines)

    def _line(self, tag: bytes) -> str:
        """The next line that comes, which belongs to the answer with this tag."""
        line = self._process.stdout.readline()
        if line.startswith(tag) and line.endswith(b"\n"):
            return line[len(tag):-1].decode()
        self._process.kill()
        self.close()
        raise EOFError("not the answer to this line: %r" % line if line else "the server has ended")

    def has_ended(self) -> bool:
        return self._process.poll() is not None

    def close(self) -> int:
        """Ends the server, and returns its status."""
        with contextlib.suppress(OSError):
            self._process.stdin.close()
        self._process.stdout.close()
        return self._process.wait()


def expect(answer: str, wanted: str) -> None:
    if answer != wanted:
        sys.exit("answered %r, expected %r" % (answer, wanted))


def main(program: str, checks: int) -> None:
    files, user = 16, "S-1-5-21-1-2-3-1001"
    with Server(program) as server:
        expect(server.ask("open 1 O:BAG:SYD:"), "opened 1")
        for number in range(files):
            expect(server.ask("addo /file%d O:BAG:SYD:(A;;0x%x;;;BU)" % (number, 1 << number)), "ok")
        expect(server.ask("publish"), "published %d" % files)
        began = time.monotonic()
        for turn in range(checks):
            number, bit = turn % files, turn // files % files
            verdict = "granted" if number == bit else "denied"
            answer = server.ask("check 0 /file%d %s 0x%x BU" % (number, user, 1 << bit))
            expect(answer, "seen %d %s 0x%x" % (files, verdict, 1 << bit))
        seconds = time.monotonic() - began
        if server.close() != 0:
            sys.exit("the server ended with an error")
    print("%d checks, each answered before the next was asked: %.2f s" % (checks, seconds))


if __name__ == "__main__":
    words = sys.argv[1:]
    if len(words) not in (1, 2) or not all(word.isdecimal() for word in words[1:]):
        sys.exit(__doc__)
    main(words[0], int(words[1]) if words[1:] else 10000)
