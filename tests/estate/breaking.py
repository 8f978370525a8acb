"""Runs estate, and sends a signal right after its COUNTth read or write of an attribute: to itself, for the PROCESS 0.

    breaking.py read|write COUNT SIGNAL PROCESS WORD ..
"""

import os
import runpy
import signal
import sys
from pathlib import Path
from typing import Any

FOLDER = str(Path(__file__).resolve().parents[2] / "estate")
call, count, number, process, *words = sys.argv[1:]
sys.path.insert(0, FOLDER)
import attributes  # noqa: E402 (it is in that folder)

whole = getattr(attributes, call)
left = int(count)


def broken(*arguments: Any) -> Any:
    """The call, and after the last one that is left the signal."""
    global left
    answer = whole(*arguments)
    left -= 1
    if left == 0:
        os.kill(int(process) or os.getpid(), int(number))
    return answer


setattr(attributes, call, broken)
# (a shell has what is in its background ignore it)
signal.signal(signal.SIGINT, signal.default_int_handler)
sys.argv = [FOLDER, *words]
runpy.run_path(FOLDER, run_name="__main__")
