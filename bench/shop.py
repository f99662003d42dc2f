#!/usr/bin/env python3
"""Measures a shop: orders that are shipped while there is stock, noted, or dropped when they are late.

Usage: bench/shop.py [PROGRAM] [--beside "NAME: COMMAND"]..
           the program as built, by default that of crates/lps_prog, and beside it others that do the same: each is given a seed and
           a number of cycles as last words, and prints in its last line `goals N`, `solved N`, `failed N` and `picks N` among others
       bench/shop.py --stream SEED CYCLES    prints the stream that is drawn from this seed, and runs nothing
       bench/shop.py --text    prints the text

A cycle brings 0 to 3 events: one in four supplies an item, each other one is a customer's order of an item. Orders wait for stock, and
for each other, so that a dozen goals or more are pursued at once. Each line is the best of three runs, the start of a program and the
reading of the text included. Where a run ends, the goals that its report has as solved, failed and still open are counted once, and
where another program counts others, this is told. This is no test: nothing is compared with a bar.
"""

import argparse
import os
import re
import shlex
import subprocess
import sys
import tempfile
from collections import Counter
from pathlib import Path

from measure import RUNS, TOP

ITEMS = 8
CUSTOMERS = 1_000
COUNTS = {"goals": "goal", "picks": "do", "solved": "solved", "failed": "failed"}


def text():
    stock = ", ".join(f"stock(i{item}, 5)" for item in range(ITEMS))
    return (
        "fluent stock/2.\n"
        "event order/2, supply/1.\n"
        "action ship/2, note/1, drop/1.\n"
        f"initially {stock}.\n"
        "ship(C, I) initiates stock(I, M) if stock(I, N), M is N - 1.\n"
        "ship(C, I) terminates stock(I, N) if stock(I, N).\n"
        "supply(I) initiates stock(I, M) if stock(I, N), N < 9, M is N + 3.\n"
        "supply(I) terminates stock(I, N) if stock(I, N), N < 9.\n"
        "false ship(C, I) from T1 to T2, supply(I) from T1 to T2.\n"
        "false ship(C, I) from T1 to T2, ship(D, I) from T1 to T2, C \\= D.\n"
        "false ship(C, I) from T1 to T2, stock(I, 0) at T1.\n"
        "if order(C, I) from T1 to T2 then ship(C, I) from T3 to T4, T4 =< T2 + 6, note(C) from T5 to T6 "
        "or drop(C) from T7 to T8, T7 >= T2 + 6, T8 =< T2 + 9.\n"
    )


class Draws:
    """Numbers drawn from a seed by a linear congruence of 64 bits, whose high bits are taken."""

    def __init__(self, seed):
        self.state = seed

    def below(self, bound):
        self.state = (self.state * 6364136223846793005 + 1442695040888963407) % 2**64
        return (self.state >> 33) % bound


def stream(seed, cycles):
    draws = Draws(seed)
    for cycle in range(1, cycles + 1):
        events = []
        for _ in range(draws.below(4)):
            if draws.below(4) == 0:
                events.append(f"supply(i{draws.below(ITEMS)})")
            else:
                customer = draws.below(CUSTOMERS)
                events.append(f"order(c{customer}, i{draws.below(ITEMS)})")
        yield f"{cycle}: {', '.join(events)}.\n"


def counted_in_report(out):
    words = Counter(line.split()[0] for line in out)
    return {name: words[word] for name, word in COUNTS.items()}


def counted_in_summary(out):
    last = out.read().rstrip().rsplit("\n", 1)[-1]
    return {name: int(number) for name, number in re.findall(r"(\w+) (\d+)", last) if name in COUNTS}


def run(words, source, count):
    """What a run prints, counted; and in other runs its processor seconds and its peak memory in MiB."""
    with open(source) as events:
        process = subprocess.Popen(words, stdin=events, stdout=subprocess.PIPE, stderr=subprocess.DEVNULL, text=True)
        counts = count(process.stdout)
        process.wait()
    took = []
    for _ in range(RUNS):
        with open(source) as events:
            process = subprocess.Popen(words, stdin=events, stdout=subprocess.DEVNULL, stderr=subprocess.DEVNULL)
            _, _, used = os.wait4(process.pid, 0)
        took.append((used.ru_utime + used.ru_stime, used.ru_maxrss / 1024))
    return counts, min(seconds for seconds, _ in took), max(memory for _, memory in took)


def show(name, seed, cycles, counts, seconds, memory):
    numbers = "".join(f"{counts.get(count, '?'):<8}" for count in COUNTS)
    print(f"{name:<12} {seed:<5} {cycles:<8} {seconds:<8.3f} {seconds / cycles * 1e6:<9.2f} {memory:<9.1f} {numbers}".rstrip(), flush=True)


def measure(program, others, sizes):
    with tempfile.TemporaryDirectory() as folder:
        path, events = os.path.join(folder, "text"), os.path.join(folder, "stream")
        Path(path).write_text(text())
        print("program      seed  cycles   seconds  us/cycle  peak MiB  goals   picks   solved  failed")
        for seed, cycles in sizes:
            with open(events, "w") as out:
                out.writelines(stream(seed, cycles))
            ours, *took = run([program, "run", path], events, counted_in_report)
            show("lps", seed, cycles, ours, *took)
            for name, command in others:
                counts, *took = run([*command, str(seed), str(cycles)], os.devnull, counted_in_summary)
                show(name, seed, cycles, counts, *took)
                if counts != ours:
                    print(f"{name} counts otherwise than lps")


def main():
    if sys.argv[1:] == ["--text"]:
        print(text(), end="")
        return
    if sys.argv[1:2] == ["--stream"]:
        sys.stdout.writelines(stream(int(sys.argv[2]), int(sys.argv[3])))
        return
    words = argparse.ArgumentParser(usage=__doc__.split("\n\n")[1])
    words.add_argument("program", nargs="?", default=str(TOP / "crates/lps_prog/out/lps_prog"))
    words.add_argument("--beside", action="append", default=[])
    asked = words.parse_args()
    others = [(name, shlex.split(command)) for name, command in (each.split(":", 1) for each in asked.beside)]
    measure(asked.program, others, [(0, 1_000), (0, 10_000), (0, 100_000), (1, 1_000)])


main()
