#!/usr/bin/env python3
"""Runs the built program where a run grows large: up to each limit and one cycle past it, and with a thousand goals that run out at
once; and compares how it ends with what is written here.

Usage: checks/large.py [PROGRAM]    the program as built, by default that of crates/lps_prog
"""

import subprocess
import sys
import tempfile
from pathlib import Path

TOP = Path(__file__).resolve().parent.parent
PROGRAM = sys.argv[1] if len(sys.argv) > 1 else str(TOP / "crates/lps_prog/out/lps_prog")


def value(number, symbols):
    """A value of so many symbols that has this number in it."""
    depth = symbols - 3
    return f"t({number}, {'s(' * depth}z{')' * depth})"


def batches(*groups):
    """The lines of these batches, by number from 1."""
    return "".join(f"{cycle}: {', '.join(events)}.\n" for cycle, events in enumerate(groups, 1))


# ---- the limits

LAWS = 1_000


def full_state():
    """Four events, each of which begins a thousand facts of a thousand symbols; then one of one symbol begins."""
    text = (
        f"event e/1, f/0. fluent g/0, {', '.join(f'p{law}/1' for law in range(LAWS))}.\n"
        + "".join(f"e(X) initiates p{law}(X).\n" for law in range(LAWS))
        + "f initiates g.\n"
    )
    return text, batches(*([f"e({value(number, 999)})"] for number in range(4)), ["f"])


WAITING = "event e/1, f/0. action a/1.\nif e(X) from T1 to T2, f from T3 to T4 then a(X) from T5 to T6.\n"


def full_kept():
    """What waits at first has 9 symbols, and 4 more than its value once an event was there: 9 + 973 * 1,027 + 720 symbols; then 5 more."""
    events = [f"e({value(number, 1023)})" for number in range(973)]
    groups = [events[first : first + 21] for first in range(0, len(events), 21)]
    return WAITING, batches(*groups, [f"e({value(973, 716)})"], ["e(z)"])


def full_log():
    """A cycle of 20 events with 1,024 symbols each has 20,481: 781 of them, one of 4,339, and then an empty one."""
    groups = [[f"e({value(number, 1023)})" for number in range(20)]] * 781
    last = [f"e({value(number, 1023)})" for number in range(4)] + [f"e({value(4, 241)})"]
    return "event e/1.\n", batches(*groups, last, [])


LIMITS = [
    ("state", full_state, "state full at cycle 5 with 4000001 symbols"),
    ("kept", full_kept, "kept full at cycle 49 with 1000005 symbols"),
    ("log", full_log, "log full at cycle 783 with 16000001 symbols"),
]

# ---- many goals

GOALS = 1_000

# What is forbidden is wanted for each of a thousand events, within three cycles of them.
EXPIRING = """event e/1. action a/1. fluent shut/0. initially shut.
false a(X) from T1 to T2, shut at T1.
if e(X) from T1 to T2 then a(X) from T3 to T4, T4 =< T2 + 3.
"""


def run(text, stream):
    with tempfile.TemporaryDirectory() as folder:
        path = Path(folder) / "text"
        path.write_text(text)
        return subprocess.run([PROGRAM, "run", str(path)], input=stream.encode(), capture_output=True)


def blocks(report):
    """The lines of a report, block by block."""
    lines = report.decode().splitlines()
    starts = [place for place, line in enumerate(lines) if line.startswith("cycle ")] + [len(lines)]
    return [lines[first:last] for first, last in zip(starts, starts[1:])]


def is_full(make, said):
    """Whether a run ends at its limit so, and prints the blocks of the cycles before it and nothing behind them."""
    ended = run(*make())
    tried = int(said.split()[4])
    printed = blocks(ended.stdout)
    return (
        (ended.returncode, ended.stderr.decode()) == (6, f"lps: {said}\n")
        and [block[0] for block in printed] == [f"cycle {cycle}" for cycle in range(tried)]
        and not printed[-1][-1].startswith("open ")
    )


def expire_together():
    """Whether the goals fail in the cycle that ends three after that of their events, and in no other."""
    ended = run(EXPIRING, batches([f"e({number})" for number in range(GOALS)], [], [], [], []))
    failed = [[line for line in block if line.startswith("failed ")] for block in blocks(ended.stdout)]
    every = [f"failed {number}" for number in range(1, GOALS + 1)]
    return (
        (ended.returncode, ended.stderr) == (1, b"")
        and failed == [[], [], [], [], every, []]
        and ended.stdout.endswith(f"open 0 failed {GOALS} cut 0\n".encode())
    )


def main():
    found = [(f"{name} full", is_full(make, said)) for name, make, said in LIMITS]
    found.append(("goals that run out at once", expire_together()))
    bad = [name for name, good in found if not good]
    for name in bad:
        print(f"{name}: not as it is to be")
    print(f"large: {len(found) - len(bad)} passed, {len(bad)} failed")
    sys.exit(1 if bad else 0)


if __name__ == "__main__":
    main()
