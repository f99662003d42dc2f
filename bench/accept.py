#!/usr/bin/env python3
"""Measures how long the built program takes to judge texts of many declarations and clauses.

Usage: bench/accept.py [PROGRAM]    the program as built, by default that of crates/lps_prog

Each text declares so many predicates and has as many clauses; it is read, judged and printed by `check`. To fit 100,000 of
each into a text, names have three bytes, and in the texts of calls every third clause has one. Two shapes are
refused: one cycle of all calls, and a chain behind which one clause calls itself. Each line is the best
of three runs. This is no test: nothing is compared with a bar.
"""

import itertools
import os
import tempfile
from pathlib import Path

from measure import best

FIRST = "abcdefghijklmnopqrstuvwxyz"
REST = "0123456789abcdefghijklmnopqrstuvwxyzABCDEFGHIJKLMNOPQRSTUVWXYZ_"
WORDS = {"div", "mod", "not"}


def names_of(count):
    """So many names of three bytes, none of them a word of the language."""
    spelled = ("".join(letters) for letters in itertools.product(FIRST, REST, REST))
    return list(itertools.islice((name for name in spelled if name not in WORDS), count))


def text_of(count, target):
    """A text of so many predicates with a clause each; every third one calls that of the target of its number, if any."""
    names = names_of(count)
    clauses = []
    for n, name in enumerate(names):
        to = target(n) if n % 3 == 0 else None
        clauses.append(f"{name}." if to is None else f"{name} if {names[to]}.")
    return "derived " + ",".join(names) + ".\n" + "".join(clauses) + "\n"


def facts(count):
    """No calls."""
    return text_of(count, lambda n: None)


def chain(count):
    """Each calling predicate calls the one before it: as many levels as calls."""
    return text_of(count, lambda n: n - 3 if n else None)


def fan(count):
    """All call one predicate."""
    return text_of(count, lambda n: 1)


def ring(count):
    """The calling predicates call one another round: refused, with all of them in the cycle."""
    return text_of(count, lambda n: n + 3 if n + 3 < count else 0)


def late(count):
    """A chain, and a last clause that calls itself: refused for this clause."""
    name = names_of(count)[1]
    return chain(count) + f"{name} if {name}.\n"


def main():
    shapes = [("facts", facts, 0), ("chain", chain, 0), ("fan", fan, 0), ("ring", ring, 3), ("late", late, 3)]
    with tempfile.TemporaryDirectory() as folder:
        text, stream = os.path.join(folder, "text"), os.path.join(folder, "stream")
        Path(stream).write_text("")
        print("calls    declarations  bytes    seconds  us/declaration  peak MiB")
        for label, shape, status in shapes:
            for count in (1_000, 10_000, 100_000):
                Path(text).write_text(shape(count))
                size = os.path.getsize(text)
                seconds, memory = best(["check", text], stream, status)
                print(f"{label:<8} {count:<13} {size:<8} {seconds:<8.4f} {seconds / count * 1e6:<15.2f} {memory:.1f}")


main()
