#!/usr/bin/env python3
"""Measures cycles over states of several sizes, with laws under conditions and denials over both states.

Usage: bench/states.py [PROGRAM]    the program as built, by default that of crates/lps_prog

A text keeps a count for each of so many cells. Each cycle brings three events for one cell: a step that is admitted, one that a
denial over the state before rejects, and one that a denial over both states rejects. Each line is the best of three runs, the start of the
program and the reading of the text included. This is no test: nothing is compared with a bar.
"""

import os
import tempfile
from pathlib import Path

from measure import best


def text(cells):
    """Cells with a count from 0 to 9 each, of which every tenth is shut."""
    shut = ", ".join(f"shut(c{n})" for n in range(0, cells, 10))
    counts = ", ".join(f"count(c{n}, 0)" for n in range(cells - (cells + 9) // 10))
    return (
        "fluent count/2, shut/1. event step/2.\n"
        f"initially {counts}, {shut}.\n"
        "step(C, K) initiates count(C, M) if count(C, N), M is (N + K) mod 10.\n"
        "step(C, K) terminates count(C, N) if count(C, N).\n"
        "false step(C, K) from T1 to T2, shut(C) at T1.\n"
        "false step(C, K) from T1 to T2, count(C, N) at T1, count(C, M) at T2, M < N - 9.\n"
        "false step(C, K) from T1 to T2, count(C, N) at T1, count(C, N) at T2.\n"
    )


def stream(cells, cycles):
    """A step in an open cell, one in a shut cell, and one that leaves the count as it is."""
    lines = []
    open_cells = [n for n in range(cells - (cells + 9) // 10) if n % 10]
    for cycle in range(1, cycles + 1):
        cell = open_cells[cycle % len(open_cells)]
        other = open_cells[(cycle + 1) % len(open_cells)]
        lines.append(f"{cycle}: step(c{cell}, {1 + cycle % 9}), step(c{cycle % cells // 10 * 10}, 1), step(c{other}, 10).\n")
    return "".join(lines)


def main():
    with tempfile.TemporaryDirectory() as folder:
        path = os.path.join(folder, "text")
        events = os.path.join(folder, "stream")
        print("facts  cycles   seconds  cycles/s  us/cycle  peak MiB")
        for facts in (10, 100, 1_000):
            Path(path).write_text(text(facts))
            for cycles in (1_000, 10_000, 100_000):
                Path(events).write_text(stream(facts, cycles))
                seconds, memory = best(["run", path], events)
                print(f"{facts:<6} {cycles:<8} {seconds:<8.3f} {cycles / seconds:<9.0f} {seconds / cycles * 1e6:<9.2f} {memory:.1f}")


main()
