#!/usr/bin/env python3
"""Runs the built program on texts and streams at the edge of each limit, and on each mistake in the first, a middle and the
last line, and compares what it answers with what is written here.

Usage: checks/refusals.py [PROGRAM]    the program as built, by default that of crates/lps_prog
"""

import subprocess
import sys
import tempfile
from pathlib import Path

TOP = Path(__file__).resolve().parent.parent
PROGRAM = sys.argv[1] if len(sys.argv) > 1 else str(TOP / "crates/lps_prog/out/lps_prog")

SWITCH = "fluent p/0.\nevent e/0, g/2.\n"


def name(length):
    return "n" * length


def nested(symbols):
    """A term of so many symbols, one in the other."""
    return "s(" * (symbols - 1) + "z" + ")" * (symbols - 1)


def variables(count):
    """A head with so many different variables, in terms of at most 64 arguments."""
    groups = [range(first, min(first + 64, count)) for first in range(0, count, 64)]
    return f"four({', '.join('f(' + ', '.join(f'X{i}' for i in group) + ')' for group in groups)})"


# What the statements of the texts below speak of, in one line, and a line that says nothing new.
DECLARED = (
    "fluent p/0, q/1, two/2, wide/64, s/1. event e/0. action a/0. macro m. "
    "derived d, i, g(-), r(+), four(+, +, +, +), all(" + ", ".join("+" * 64) + ").\n"
)
SAID = "initially p.\n"


# What stands in one line, and how a text is refused for it; None where it is read.
TEXTS = [
    ("initially q!.", "bad byte"),
    ("fluent " + name(64) + "/0.", None),
    ("fluent " + name(65) + "/0.", "name too long"),
    ("r(X" + "x" * 63 + ").", None),
    ("r(X" + "x" * 64 + ").", "name too long"),
    ("initially two(9223372036854775807, -9223372036854775808).", None),
    ("initially q(9223372036854775808).", "bad syntax"),
    ("initially q(-9223372036854775809).", "number too large"),
    ("initially q(9223372036854775809).", "number too large"),
    ("fluent most/64.", None),
    ("fluent most/65.", "bad syntax"),
    ("initially wide(" + ", ".join("a" * 64) + ").", None),
    ("initially wide(" + ", ".join("a" * 65) + ").", "bad syntax"),
    ("timeless marked(*, -, +).", None),
    ("timeless marked(*, *).", "bad syntax"),
    ("d :- p.", "bad syntax"),
    ("d if (X) = 3.", "bad syntax"),
    (variables(255) + ".", None),
    (variables(256) + ".", "too many variables"),
    ("all(" + ", ".join("_" * 64) + ").", None),
    ("initially " + nested(1024) + ".", None),
    ("initially " + nested(1025) + ".", "term too large"),
    ("d if " + "(" * 1023 + "1" + ")" * 1023 + " < 3.", None),
    ("d if " + "(" * 1024 + "1" + ")" * 1024 + " < 3.", "term too large"),
    ("if p at T then p at T1, T1 =< T + 1000000.", None),
    ("if p at T then p at T1, T1 =< T + 1000001.", "bad syntax"),
    ("false e from T1 to T2, T1 < T2.", "bad syntax"),
]

# Why a text that is read is not accepted, in the order in which the reasons count.
NOT_ACCEPTED = [
    ("initially x.", "undeclared x"),
    ("fluent y/0, y/1.", "declared twice y"),
    ("initially p(a).", "wrong arity p"),
    ("initially e.", "wrong kind e"),
    ("initially q(X).", "not ground"),
    ("false p at T.", "no event"),
    ("if e from T1 to T2 then p at T1.", "out of order"),
    ("if p at T then e from T1 to T2, a from T1 to T2.", "mixed group"),
    ("m from T1 to T3 if a from T1 to T2.", "bad head times"),
    ("g(X) if p.", "unknown X"),
    ("d if i. i if not d.", "unlevelled d, i"),
]

# Texts that are accepted, of each form at its edges: all kinds of statements, an alternative that begins where the antecedent
# ends, a macro clause that begins and ends at one time, negation under levels, descent on the marked argument, recursion
# that is guarded, and recursion over several names.
ACCEPTED = [
    "if e from T1 to T2 then a from T2 to T3 or p at T2, a from T4 to T5.",
    "if e from T1 to T2, X = b then q(X) at T2, T2 =< T1 + 1.",
    "m from T1 to T1 if p at T1.",
    "m from T1 to T2 if a from T1 to T2, a from T1 to T2, 1 < 2.",
    "false e from T1 to T2, a from T1 to T2, p at T1, not q(b) at T2, 1 < 2.",
    "e initiates two(X, Y) if two(Y, X), not q(X), Y is X + 1. a terminates p.",
    "d if not i. i.",
    "timeless len(*, -). len(nil, z). len(c(X, L), s(N)) if len(L, N).",
    "timeless even(*), odd(*). even(z). even(s(X)) if odd(X). odd(s(X)) if even(X).",
    "macro go(*). go(s(X)) from T1 to T3 if a from T1 to T2, go(X) from T2 to T3. go(z) from T1 to T2 if a from T1 to T2.",
    "macro n. m from T1 to T3 if a from T1 to T2, n from T2 to T3. n from T1 to T3 if e from T1 to T2, m from T2 to T3.",
    "derived j, k. j if not k, i. k if i. i if p.",
]

# Statements of accepted texts that are not run so far.
NOT_BUILT = [
    "m from T1 to T2 if a from T1 to T2.",
    "if e from T1 to T2 then m from T2 to T3.",
    "if e from T1 to T2 then a from T2 to T3 or a from T3 to T4, m from T4 to T5.",
]

# Statements that are run, and the status at the end of an empty stream where `p` holds.
RUN = [
    ("macro n.", 0),
    ("if e from T1 to T2 then a from T2 to T3 or p at T3.", 0),
    ("if p at T then p at T.", 0),
    ("if p at T then a from T to T1.", 1),
]

# What stands in the line of cycle 1, and how the stream is refused for it; None where the cycle is made.
LINES = [
    ("1: e.", None),
    (" 1 : e , g( a,-3 ) . % two", None),
    (" 1 : e , g . % two", "wrong arity"),
    ("001: .", None),
    ("1: e", "bad line"),
    ("1: e. 2", "bad line"),
    ("1: g(X, a).", "bad line"),
    ("1: % none", "bad line"),
    ("1: e!.", "bad line"),
    ("1: g(" + name(64) + ", a).", None),
    ("1: g(" + name(65) + ", a).", "bad line"),
    ("1: g(9223372036854775808, a).", "bad line"),
    ("9223372036854775808: .", "expected 1, got 9223372036854775808"),
    ("9223372036854775809: .", "bad line"),
    ("1: g(" + nested(1022) + ", a).", None),
    ("1: g(" + nested(1023) + ", a).", "term too large"),
    ("1: g(" + nested(1021) + ", -5).", None),
    ("1: g(" + nested(1022) + ", -5).", None),
    ("1: g(" + nested(1023) + ", -a).", "term too large"),
    ("1: " + ", ".join("e" for _ in range(1000)) + ".", None),
    ("1: " + ", ".join("e" for _ in range(1001)) + ".", "too many events"),
    ("1: " + ", ".join("e" for _ in range(1000)) + ", 3.", "bad line"),
    ("1: e." + " " * 65531, None),
    ("1: e." + " " * 65532, "line too long"),
    ("%" * 65537, "line too long"),
    ("1: x.", "undeclared"),
    ("1: e(a).", "wrong arity"),
    ("1: e, g(a).", "wrong arity"),
    ("1: p.", "not external"),
    ("3: p.", "not external"),
    ("2: e.", "expected 1, got 2"),
]


def answer(words, stream):
    """The status and the line on standard error."""
    done = subprocess.run([PROGRAM, *words], input=stream.encode(), stdout=subprocess.DEVNULL, stderr=subprocess.PIPE)
    return done.returncode, done.stderr.decode().rstrip("\n")


def expected(code, what, line, refusal):
    if refusal is None:
        return 0, ""
    if refusal.startswith("unlevelled"):
        return code, f"lps: {refusal}"
    return code, f"lps: {what} line {line}: {refusal}"


def around(statement):
    """The statement in the first, a middle and the last line of a text, each with the number of its line."""
    lines = [DECLARED, SAID]
    for before in range(3):
        yield before + 1, "".join([*lines[:before], statement + "\n", *lines[before:]])


def text_cases():
    for statement, refusal in [*TEXTS, *NOT_ACCEPTED]:
        for line, text in around(statement):
            yield f"text, line {line}: {statement[:40]}", text, expected(3, "text", line, refusal)
    for statements in ACCEPTED:
        for line, text in around(statements):
            yield f"text, line {line}: {statements[:40]}", text, (0, "")
    for number, (statement, refusal) in enumerate(NOT_ACCEPTED):
        for later, _ in NOT_ACCEPTED[number + 1 :]:
            text = f"{later}\n{DECLARED}{statement}\n"
            yield f"text, for the first of two reasons: {refusal}", text, expected(3, "text", 3, refusal)
    yield "an unended statement", "p.\nq.\nr(\n\n", (3, "lps: text line 3: bad syntax")
    yield "the longest text", "%" * 1_048_576, (0, "")
    yield "a text that is too long", "%" * 1_048_577, (3, "lps: text too long")


def run_cases():
    for statement in NOT_BUILT:
        for line, text in around(statement):
            yield f"run, line {line}: {statement[:40]}", text, expected(3, "text", line, "not built")
    for statement, status in RUN:
        for line, text in around(statement):
            yield f"run, line {line}: {statement[:40]}", text, (status, "")


def stream_cases():
    for line, refusal in LINES:
        for before in (0, 1, 3):
            skipped = "% passed over\n" * before
            wanted = expected(4, "batch", before + 1, refusal)
            yield f"stream, line {before + 1}: {line[:40]}", skipped + line + "\n", wanted
            yield f"stream, last line {before + 1}: {line[:40]}", skipped + line, wanted


def limit_case():
    batches = "".join(f"{cycle}: .\n" for cycle in range(1, 1_000_002))
    return "one batch more than cycles", batches, (6, "lps: cycle limit")


def main():
    failed = passed = 0
    with tempfile.TemporaryDirectory() as folder:
        path = Path(folder) / "text"

        def check(what, words, stream, wanted):
            nonlocal failed, passed
            found = answer(words, stream)
            if found == wanted:
                passed += 1
            else:
                failed += 1
                print(f"{what}: answered {found}, and not {wanted}")

        for what, text, wanted in text_cases():
            path.write_text(text)
            check(what, ["check", str(path)], "", wanted)
        for what, text, wanted in run_cases():
            path.write_text(text)
            check(what, ["run", str(path)], "", wanted)
        path.write_text(SWITCH)
        for what, stream, wanted in [*stream_cases(), limit_case()]:
            check(what, ["run", str(path)], stream, wanted)
    print(f"refusals: {passed} passed, {failed} failed")
    return failed > 0


sys.exit(main())
