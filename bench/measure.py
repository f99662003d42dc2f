"""Runs the built program and tells what it took."""

import os
import subprocess
import sys
from pathlib import Path

TOP = Path(__file__).resolve().parent.parent
RUNS = 3


def program(crate):
    """The program that is measured: the one named on the command line, or that of this crate as built."""
    return sys.argv[1] if len(sys.argv) > 1 else str(TOP / "crates" / crate / "out" / crate)


def best(words, stream=os.devnull, status=0, crate="lps_prog"):
    """The least processor seconds and the greatest peak memory, in MiB, of a few runs on these words and this stream.

    Each run has to end with this status, and what it prints is thrown away."""
    runs = []
    for _ in range(RUNS):
        with open(stream) as source, open(os.devnull, "w") as sink:
            process = subprocess.Popen([program(crate), *words], stdin=source, stdout=sink, stderr=sink)
            _, ended, used = os.wait4(process.pid, 0)
        if os.waitstatus_to_exitcode(ended) != status:
            sys.exit(f"the program ended with status {os.waitstatus_to_exitcode(ended)}")
        runs.append((used.ru_utime + used.ru_stime, used.ru_maxrss / 1024))
    return min(seconds for seconds, _ in runs), max(memory for _, memory in runs)
