#!/usr/bin/env python3
"""Measures unification by the program of crates/lps_bench: large terms, and lists whose solution is exponential.

Usage: bench/unify.py [PROGRAM]    the program as built, by default that of crates/lps_bench

Each line is the best of three runs, the start of the program included. This is no test: nothing is compared with a bar.
"""

from measure import best


def main():
    print("two terms of 1,024 symbols")
    print("times    seconds  us/unification  peak MiB")
    for count in (1_000, 10_000, 100_000):
        seconds, memory = best(["large", str(count)], crate="lps_bench")
        print(f"{count:<8} {seconds:<8.3f} {seconds / count * 1e6:<15.2f} {memory:.1f}")
    print()
    print("X1, X2, .., Xn with f(X2, X2), f(X3, X3), ..")
    print("n        seconds  peak MiB")
    for count in (10, 20, 40, 80, 1_000, 2_000, 4_000):
        seconds, memory = best(["doubling", str(count)], crate="lps_bench")
        print(f"{count:<8} {seconds:<8.4f} {memory:.1f}")


main()
