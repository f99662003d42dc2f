#!/usr/bin/env python3
"""Runs the program where its outside is odd, and compares how it ends with what the README says.

Usage: checks/edge.py [SCRIPT]    the script that starts the program, by default `lps` at the top
"""

import os
import resource
import subprocess
import sys
import tempfile
from pathlib import Path

TOP = Path(__file__).resolve().parent.parent
SCRIPT = sys.argv[1] if len(sys.argv) > 1 else str(TOP / "lps")

SWITCH = "fluent on/0.\nevent press/0.\npress initiates on.\n"
CHAIN = 10_000
STEPS = 10


def deep():
    """A text in which a condition nests a hundred thousand clauses deep: a chain of names, each with a recursion."""
    term = "s(" * (STEPS - 1) + "z" + ")" * (STEPS - 1)
    names = ", ".join(f"p{i}(*)" for i in range(CHAIN + 1))
    clauses = "".join(f"p{i}(s(X)) if p{i}(X).\np{i}(z) if p{i + 1}({term}).\n" for i in range(CHAIN))
    return f"derived {names}.\nfluent on/0.\nevent press/0.\n{clauses}p{CHAIN}(X).\npress initiates on if p0({term}).\n"


def start(words, stream=b"", **how):
    """The program on these words, with this stream in a file."""
    source = tempfile.TemporaryFile()
    source.write(stream)
    source.seek(0)
    return subprocess.Popen([SCRIPT, *words], stdin=source, **how)


def ended(words, stream=b"", **how):
    """How a run ends, and what it says on standard error."""
    process = start(words, stream, stdout=subprocess.DEVNULL, stderr=subprocess.PIPE, **how)
    _, said = process.communicate(timeout=600)
    return process.returncode, said


def reader_that_leaves(text):
    """How a run ends whose output nobody reads behind its first line."""
    stream = "".join(f"{cycle}: press.\n" for cycle in range(1, 100_001)).encode()
    process = start(["run", text], stream, stdout=subprocess.PIPE, stderr=subprocess.PIPE)
    process.stdout.readline()
    process.stdout.close()
    said = process.stderr.read()
    return process.wait(), said


def main():
    with tempfile.TemporaryDirectory() as folder:
        switch, nested = os.path.join(folder, "switch.lps"), os.path.join(folder, "deep.lps")
        Path(switch).write_text(SWITCH)
        Path(nested).write_text(deep())
        found = [
            ("a word that is no UTF-8", ended([b"run", b"\xff"]), [(2, b"lps: usage\n")]),
            ("a text that is not there", ended(["run", os.path.join(folder, "none")]), [(7, b"lps: text fault\n")]),
            ("a folder as a text", ended(["run", folder]), [(7, b"lps: text fault\n")]),
            ("a standard error that is closed", ended(["help"], preexec_fn=lambda: os.close(2)), [(2, b"")]),
            ("an output that nobody reads", reader_that_leaves(switch), [(7, b"lps: print fault\n")]),
        ]
        if resource.getrlimit(resource.RLIMIT_STACK)[1] == resource.RLIM_INFINITY:
            how = ended(["run", nested], b"1: press.\n")
            found.append(("conditions that nest deep", how, [(0, b""), (8, b"lps: no memory\n")]))
        else:
            print("edge: conditions that nest deep are left out: the stack has a limit here that cannot be raised")
    bad = [(name, how, wanted) for name, how, wanted in found if how not in wanted]
    for name, how, wanted in bad:
        print(f"{name}: ended with {how}, and not with {' or '.join(map(str, wanted))}")
    print(f"edge: {len(found) - len(bad)} passed, {len(bad)} failed")
    sys.exit(1 if bad else 0)


if __name__ == "__main__":
    main()
