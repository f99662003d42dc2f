#!/usr/bin/env python3
"""Measures the search for answers by the program of crates/lps_bench: walks over chains of facts, pairs of facts, and many clauses of one name.

Usage: bench/answers.py [PROGRAM]    the program as built, by default that of crates/lps_bench

Each text is read, judged and asked for the conditions of its last clause. Each line is the best of three runs, the start of the
program and the reading of the text included. This is no test: nothing is compared with a bar.
"""

import os
import tempfile
from pathlib import Path

from measure import best


def steps(count):
    """So many facts, each the next step of a walk from 0."""
    return ", ".join(f"next({n}, {n + 1})" for n in range(count))


def chain(count):
    """So many facts, each the next step of a walk from 0, and a walk over all of them."""
    return (
        "fluent next/2. derived far(*, +, -), query.\n"
        f"initially {steps(count)}.\n"
        "far(z, X, X).\nfar(s(N), X, Z) if next(X, Y), far(N, Y, Z).\n"
        f"query if far({'s(' * count}z{')' * count}, 0, Z).\n"
    )


def pairs(count):
    """So many facts in a chain, and the pairs of two that follow each other, each found by its first argument."""
    return (
        "fluent next/2. derived two(-, -), query.\n"
        f"initially {steps(count)}.\n"
        "two(X, Z) if next(X, Y), next(Y, Z).\n"
        "query if two(X, Z).\n"
    )


def choice(count):
    """So many clauses of one name, each with a fact of its own."""
    names = [f"c{n}" for n in range(count)]
    return (
        f"fluent {', '.join(name + '/1' for name in names)}. derived pick(-), query.\n"
        f"initially {', '.join(f'{name}(a{n})' for n, name in enumerate(names))}.\n"
        + "".join(f"pick(X) if {name}(X).\n" for name in names)
        + "query if pick(X).\n"
    )


def main():
    with tempfile.TemporaryDirectory() as folder:
        path = os.path.join(folder, "text")
        print("text     size   seconds  peak MiB")
        for label, shape, counts in (("chain", chain, (10, 100, 1_000)), ("pairs", pairs, (10, 100, 1_000, 10_000)), ("choice", choice, (10, 100, 1_000))):
            for count in counts:
                Path(path).write_text(shape(count))
                seconds, memory = best(["answers", "1048576"], path, crate="lps_bench")
                print(f"{label:<8} {count:<6} {seconds:<8.4f} {memory:.1f}")


main()
