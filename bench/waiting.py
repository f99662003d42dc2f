#!/usr/bin/env python3
"""Measures what waits for an antecedent: so many instances, of which each cycle concerns one.

Usage: bench/waiting.py [PROGRAM]    the program as built, by default that of crates/lps_prog

The first cycles begin so many instances, and each cycle after them has one event, which makes a goal of one of them and an action for
it. A line is the best of three runs, without the run that ends before these cycles. This is no test: nothing is compared with a bar.
"""

import os
import tempfile
from pathlib import Path

from measure import best

TEXT = """event begin/1, end/1.
action act/1.
if begin(X) from T1 to T2, end(X) from T3 to T4 then act(X) from T4 to T5.
"""
BATCH = 1_000
CYCLES = 1_000


def stream(waiting, cycles):
    """The lines of the cycles that begin so many instances, and of so many more."""
    cycle = 1
    for first in range(0, waiting, BATCH):
        yield f"{cycle}: {', '.join(f'begin(k{number})' for number in range(first, min(first + BATCH, waiting)))}.\n"
        cycle += 1
    for each in range(cycles):
        yield f"{cycle + each}: end(k{each % waiting}).\n"


def main():
    with tempfile.TemporaryDirectory() as folder:
        path, events = os.path.join(folder, "text"), os.path.join(folder, "stream")
        Path(path).write_text(TEXT)
        print("waiting  us/cycle  peak MiB")
        for waiting in (10, 1_000, 100_000):
            took = []
            for cycles in (0, CYCLES):
                Path(events).write_text("".join(stream(waiting, cycles)))
                # the goal of the last event has no cycle left to act in
                took.append(best(["run", path], events, 1 if cycles else 0))
            (without, _), (seconds, memory) = took
            print(f"{waiting:<8} {(seconds - without) / CYCLES * 1e6:<9.1f} {memory:.1f}")


main()
