#!/usr/bin/env python3
"""Measures the built program: cycles per second and peak memory over streams, events of batches, and the time to read texts.

Usage: bench/run.py [PROGRAM]    the program as built, by default that of crates/lps_prog

The texts and streams are made here. Each line of the table is the best of three runs of the program on a stream from
a file, with its report thrown away; the processor time of the program and its peak memory are those that the system
counts. This is no test: nothing is compared with a bar.
"""

import os
import random
import tempfile
from pathlib import Path

from measure import best

# How many events the batches of a stream have together.
EVENTS = 100_000


def text_of(names):
    """A text of so many declared names: half of them fluents, half events, and two laws for each event."""
    half = names // 2
    lines = [f"fluent f{i}/0." for i in range(half)]
    lines += [f"event e{i}/0." for i in range(half)]
    lines += [f"initially f{i}." for i in range(0, half, 1000)]
    for i in range(half):
        # Only some fluents are ever initiated, so that the state and with it the block stay small.
        lines.append(f"e{i} initiates f{i % 5}.")
        lines.append(f"e{i} terminates f{(i + 1) % half}.")
    return "\n".join(lines) + "\n"


def write_stream(path, cycles, names, size=None):
    """A stream of so many cycles, each with so many events, or with 0 to 5 where no size is given."""
    draw = random.Random(cycles)
    half = names // 2
    with open(path, "w") as out:
        for cycle in range(1, cycles + 1):
            count = draw.randrange(6) if size is None else size
            events = ", ".join(f"e{draw.randrange(half)}" for _ in range(count))
            out.write(f"{cycle}: {events}.\n")


def main():
    with tempfile.TemporaryDirectory() as folder:
        text, stream = os.path.join(folder, "text"), os.path.join(folder, "stream")
        print("names    cycles     seconds  cycles/s  us/cycle  peak MiB")
        for names in (10, 10_000):
            Path(text).write_text(text_of(names))
            write_stream(stream, 0, names)
            start, _ = best(["run", text], stream)
            for cycles in (1_000, 10_000, 100_000):
                write_stream(stream, cycles, names)
                seconds, memory = best(["run", text], stream)
                per_cycle = max(seconds - start, 1e-6) / cycles
                print(f"{names:<8} {cycles:<10} {seconds:<8.3f} {1 / per_cycle:<9.0f} {per_cycle * 1e6:<9.2f} {memory:.1f}")
        print()
        print("names    events a batch  us/event")
        for names in (10, 10_000):
            Path(text).write_text(text_of(names))
            write_stream(stream, 0, names)
            start, _ = best(["run", text], stream)
            for size in (10, 100, 1_000):
                write_stream(stream, EVENTS // size, names, size)
                seconds, _ = best(["run", text], stream)
                print(f"{names:<8} {size:<15} {max(seconds - start, 1e-6) / EVENTS * 1e6:.2f}")
        print()
        print("declared names    seconds to read    us/name")
        write_stream(stream, 0, 2)
        for names in (1_000, 4_000, 10_000, 14_000):
            Path(text).write_text(text_of(names))
            seconds, _ = best(["run", text], stream)
            print(f"{names:<17} {seconds:<18.4f} {seconds / names * 1e6:.2f}")


main()
