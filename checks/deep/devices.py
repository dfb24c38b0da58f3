#!/usr/bin/env python3
"""Has the built program's reads and writes fail in turn, and come in small pieces.

usage: devices.py PROGRAM

A formula on an input that gives a byte a read, each read failing in turn: status 3 and an empty output. A script on one
that gives 16 bytes a read: status 3, and on the output a front of the replies. A verdict, a circuit and replies to an
output that takes a byte a write, each write failing in turn: status 4 and a front of the answer. And a malformed text
where each write to the error output fails: status 2.

This needs a C compiler and the GNU C library; without a compiler a line says that all was skipped, and the status is 0.
It is no part of the gate. Prints a line a case and ends with status 1 if one failed.
"""

import itertools
import subprocess
import sys

sys.dont_write_bytecode = True
from memory import DIFFERS, text
from refusing import Refusing, compiler
from rules import TRUE, Fault, require

FRAMES = text("p qscript 1 / scope e / var 1 1 / clause 1 0 / solve / push / clause -1 0 / solve / pop / solve")
REPLIES = text("SAT / UNSAT / SAT")
CIRCUIT = text("aag 1 1 0 1 0 / 2 / 3 / i0 1 / o0 2 / c / skolem")


def rows():
    """Each row: its name, the words, the text, status and output, the kind of what fails, and the size of a piece."""
    yield "verdict_of_a_failing_input", ["solve"], DIFFERS, TRUE, text("SAT"), "read", 1
    yield "replies_to_a_failing_input", ["script"], FRAMES, 0, REPLIES, "read", 16
    yield "verdict_to_a_failing_output", ["solve"], DIFFERS, TRUE, text("SAT"), "write", 1
    yield "circuit_to_a_failing_output", ["cert"], DIFFERS, TRUE, CIRCUIT, "write", 1
    yield "replies_to_a_failing_output", ["script"], FRAMES, 0, REPLIES, "write", 1


def check(program, words, text, status, out, kind, piece):
    """Answers how many calls failed in turn."""
    ended, said = (3, "qbf: read fault\n") if kind == "read" else (4, "qbf: write fault\n")
    asked = {f"refuse_{kind}": True, f"{kind}_piece": piece}
    for number, run in program.in_turn(words, text, itertools.count(1), **asked):
        if not run.told:
            require((run.status, run.out, run.err) == (status, out, ""), f"{run} where no {kind} failed")
            break
        require((run.status, run.err) == (ended, said), f"{run} where {kind} {number} failed")
        front = out[: number - 1] if kind == "write" else "" if words == ["solve"] else out[: len(run.out)]
        require(run.out == front, f"{run} where {kind} {number} failed")
    least = len(text if kind == "read" else out) // piece
    require(number > least, f"{number - 1} calls were seen, where there are at least {least}")
    return f"{number - 1} calls failed in turn"


def check_error_output(program):
    run = program.run(["solve"], text("p cnf 1 2 / 1 0"), refuse_error=1)
    require((run.status, run.out, run.err) == (2, "", "") and "e" in run.told, f"{run} with a failing error output")
    return "nothing was said"


def main():
    if len(sys.argv) != 2:
        print("usage: devices.py PROGRAM", file=sys.stderr)
        sys.exit(2)
    if not compiler():
        print("skipped: there is no C compiler, by which reads and writes fail")
        return
    program = Refusing(sys.argv[1])
    cases = [(name, check, row) for name, *row in rows()] + [("failing_error_output", check_error_output, [])]
    failed = 0
    for name, case, row in cases:
        try:
            told = case(program, *row)
        except (Fault, OSError, UnicodeDecodeError, subprocess.TimeoutExpired) as why:
            print(f"FAILED {name}: {why}")
            failed += 1
        else:
            print(f"ok {name}: {told}")
    sys.exit(1 if failed else 0)


if __name__ == "__main__":
    main()
