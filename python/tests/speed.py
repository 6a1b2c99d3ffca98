"""The time of a run from Python against that of the program `report`, on one history: `speed.py REPORT HISTORY`.

Processor time, the least of nine turns each, taken one after the other. What the whole command takes, with the start of Python, is shown
beside it. It is for reading: no time fails it. It ends with status 1 where the lines differ.
"""

from __future__ import annotations

import os
import resource
import subprocess
import sys
import time
from pathlib import Path

sys.path.insert(0, str(Path(__file__).resolve().parent.parent))

import huwekapo
from huwekapo.record import RECORD

TURNS = 9


def child(command: list[str], history: str) -> tuple[float, str]:
    """The processor time of a command that reads a history from standard input, and what it prints."""
    before = resource.getrusage(resource.RUSAGE_CHILDREN)
    with open(history, "rb") as file:
        line = subprocess.run(command, stdin=file, stdout=subprocess.PIPE, text=True, check=True).stdout
    after = resource.getrusage(resource.RUSAGE_CHILDREN)
    return after.ru_utime + after.ru_stime - before.ru_utime - before.ru_stime, line


def here(history: str) -> tuple[float, str]:
    """The processor time of a run in this process, and its line."""
    before = time.process_time()
    line = huwekapo.run(history).line()
    return time.process_time() - before, line


def main() -> int:
    report, history = sys.argv[1:]
    os.environ["PYTHONPATH"] = sys.path[0]
    command = [sys.executable, "-m", "huwekapo", "report", "--line", "-"]
    turns = [[child([report], history), here(history), child(command, history)] for _ in range(TURNS)]
    program, run, whole = [min(turn[k][0] for turn in turns) for k in range(3)]
    lines = {line for turn in turns for _, line in turn}
    if len(lines) != 1:
        print(f"different lines: {sorted(lines)}")
        return 1
    print(f"{os.path.getsize(history) // RECORD:,} records: report {program:.3f} s; from Python {run:.3f} s, ratio {run / program:.2f}", end="")
    print(f"; the whole command {whole:.3f} s, ratio {whole / program:.2f}")
    return 0


if __name__ == "__main__":
    sys.exit(main())
