#!/usr/bin/env python3
"""Measures how long the built program takes to read, judge and print texts of several shapes and sizes, and its peak memory.

Usage: bench/texts.py [PROGRAM]    the program as built, by default that of crates/lps_prog

Each figure is the best of three runs of `lps check` on a text that is made here, with what it prints thrown away; the
processor time of the program and its peak memory are those that the system counts. This is no test: nothing is compared
with a bar.
"""

import os
import tempfile
from pathlib import Path

from measure import best

SIZES = (65_536, 262_144, 1_048_576)


def filled(head, statement, size):
    """A text of this size at most: a head, and a statement as often as it fits."""
    return head + statement * ((size - len(head)) // len(statement))


def one_statement(size):
    """One statement of many initial facts."""
    head = "fluent p/1.\ninitially p(a)"
    return filled(head, ", p(a)", size - 2) + ".\n"


def statements(size):
    """Many short statements, at the greatest size a hundred thousand of them."""
    head = "derived " + ", ".join(f"q{i:03}(-)" for i in range(1000)) + ".\n"
    return head + "".join(f"q{i % 1000:03}(a).\n" for i in range((size - len(head)) // 10))


def comment(size):
    """One comment that does not end."""
    return "%" * size


def parentheses(size):
    """Statements with an expression in a thousand parentheses."""
    return filled("derived q.\n", "q if " + "(" * 1000 + "1" + ")" * 1000 + " < 3.\n", size)


def long_names(size):
    """Statements of one name and variables of 64 bytes each."""
    name = "n" * 64
    head = f"derived {name}({', '.join('+' * 8)}).\n"
    return filled(head, f"{name}({', '.join('V' + str(i).zfill(63) for i in range(8))}).\n", size)


def main():
    with tempfile.TemporaryDirectory() as folder:
        path = os.path.join(folder, "text")
        print("text            bytes      seconds  us/byte  peak MiB  times its size")
        for shape in (one_statement, statements, comment, parentheses, long_names):
            for size in SIZES:
                text = shape(size)
                Path(path).write_text(text)
                seconds, memory = best(["check", path])
                name = shape.__name__.replace("_", " ")
                times = memory * 1_048_576 / len(text)
                print(f"{name:<15} {len(text):<10} {seconds:<8.3f} {seconds / len(text) * 1e6:<8.3f} {memory:<9.1f} {times:.0f}")


main()
