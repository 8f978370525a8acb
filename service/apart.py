"""Whom a descriptor grants what, of all tokens: of a long list that takes many seconds.

No call of the library can be ended, so it is made in a process of its own then, which can."""

import contextlib
import math
import os
import pickle
import resource
import subprocess
import sys
from collections.abc import Sequence

from hudarin import Descriptor, Group

from deadline import Deadline
from tree import Mapping

#: A descriptor and groups of so many bytes in all are asked about here: that takes a part of a second, as the start of
#: a process does.
_BYTES = 16_384
#: Whether somebody waits yet is asked after so many seconds.
_LOOK_SECONDS = 0.1
#: The status of a process that is out of memory.
_NO_MEMORY = 3
#: The niceness of one whose answer gives way to others: it has what these leave of the processors.
_NICENESS = 19


def granted(
    descriptor: Descriptor, asked: int, base: Sequence[Group], mapping: Mapping, deadline: Deadline
) -> list[str]:
    """Whom the descriptor grants which of the rights, of all tokens that have the base. Fault: it takes too long."""
    sids = [group[0] if isinstance(group, tuple) else group for group in base]
    if sum(len(bytes(each)) for each in (descriptor, *sids)) <= _BYTES:
        return _lines(descriptor, asked, base, mapping)
    seconds = max(1, math.ceil(deadline.seconds))
    niceness = _NICENESS if deadline.gives_way else 0
    given: bytes | None = pickle.dumps((niceness, seconds, (descriptor, asked, base, mapping)))
    modules = os.pathsep.join(each for each in sys.path if each)
    with subprocess.Popen(
        [sys.executable, __file__], stdin=subprocess.PIPE, stdout=subprocess.PIPE, stderr=subprocess.DEVNULL,
        env={**os.environ, "PYTHONPATH": modules},
    ) as process:
        try:
            while True:
                deadline.require()
                with contextlib.suppress(subprocess.TimeoutExpired):
                    said, _ = process.communicate(given, _LOOK_SECONDS)
                    break
                given = None
        finally:
            process.kill()
    if process.returncode == _NO_MEMORY:
        raise MemoryError
    if process.returncode != 0:
        raise RuntimeError(f"the process for it ended with status {process.returncode}")
    return said.decode().splitlines()


def _lines(descriptor: Descriptor, asked: int, base: Sequence[Group], mapping: Mapping) -> list[str]:
    return [str(each) for each in descriptor.who(asked, base, mapping)] if asked else []


def _main() -> None:
    """Of the process: prints the lines. If nobody is left who would end it, it ends in that time too."""
    niceness, seconds, arguments = pickle.load(sys.stdin.buffer)
    os.nice(niceness)
    resource.setrlimit(resource.RLIMIT_CPU, (seconds, seconds))
    try:
        sys.stdout.write("\n".join(_lines(*arguments)))
    except MemoryError:
        sys.exit(_NO_MEMORY)


if __name__ == "__main__":
    _main()
