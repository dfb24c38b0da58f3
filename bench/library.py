#!/usr/bin/env python3
"""Measures the library from C and from Python: clause calls, refused calls, and a long solve beside the program.

usage: library.py [PROGRAM]     bin/qbf without that word; lib/ has the libraries, by `make lib`

Prints a table, in seconds of the processor. Status 1 if 100,000 clause calls take more than 0.2 s from C or 0.4 s from
Python, a refused call more than 20 ns, or 16 million steps a tenth more than in the program.
"""

import os
import resource
import subprocess
import sys
import tempfile
from itertools import combinations
from pathlib import Path

ROOT = Path(__file__).resolve().parent.parent
STEPS = 16_000_000
CLAUSES, VARS = 100_000, 50_000

PYTHON = f"""
import sys, time
sys.path.insert(0, {str(ROOT / 'python')!r})
import qbf
solver = qbf.Solver()
solver.exists(*range(1, {VARS} + 1))
clauses = [[i * 7 % {VARS} + 1, -(i * 13 % {VARS}) - 1, i * 29 % {VARS} + 1] for i in range({CLAUSES})]
began = time.process_time()
for clause in clauses:
    solver.add_clause(clause)
print(time.process_time() - began)
"""


def pigeons(count):
    """So many pigeons and one hole less, in QDIMACS: more than 16 million steps from 12 pigeons on."""
    holes = range(count - 1)
    place = [[pigeon * (count - 1) + hole + 1 for hole in holes] for pigeon in range(count)]
    rows = [row for row in place]
    rows += [[-one[hole], -other[hole]] for one, other in combinations(place, 2) for hole in holes]
    head = f"p cnf {count * (count - 1)} {len(rows)}\ne {' '.join(map(str, range(1, count * (count - 1) + 1)))} 0\n"
    return head + "".join(" ".join(map(str, [*row, 0])) + "\n" for row in rows)


def output(words, text=""):
    """What a command writes, and how many seconds of the processor it takes."""
    before = resource.getrusage(resource.RUSAGE_CHILDREN)
    found = {**os.environ, "QBF_LIBRARY": str(ROOT / "lib" / "libqbf.so.1")}
    done = subprocess.run(list(map(str, words)), input=text, capture_output=True, text=True, env=found)
    after = resource.getrusage(resource.RUSAGE_CHILDREN)
    seconds = after.ru_utime + after.ru_stime - before.ru_utime - before.ru_stime
    return done.stdout.split(), seconds


def main():
    program = sys.argv[1] if len(sys.argv) > 1 else ROOT / "bin" / "qbf"
    slow = 0

    def line(what, measured, limit, unit):
        nonlocal slow
        slow |= measured > limit
        print(f"| {what} | {measured:.2f} {unit} | {limit:.2f} {unit} |")

    with tempfile.TemporaryDirectory() as folder:
        binary = f"{folder}/library"
        words = ["cc", "-O2", "-I", ROOT / "include", ROOT / "bench/library.c", ROOT / "lib/libqbf.a", "-o", binary]
        subprocess.run(list(map(str, words)), check=True)
        print("| | Measured | Limit |\n|---|---|---|")
        line("100,000 clause calls from C", float(output([binary, "clauses"])[0][0]), 0.2, "s")
        line("100,000 clause calls from Python", float(output([sys.executable, "-c", PYTHON])[0][0]), 0.4, "s")
        line("a refused call", float(output([binary, "refused"])[0][0]), 20, "ns")
        text = pigeons(12)
        (_, steps, code), library = output([binary, "steps", STEPS], text)
        said, whole = output([program, "solve", "--budget", STEPS], text)
        print(f"steps of the library: {steps}, code {code}; the program says {' '.join(said)}", file=sys.stderr)
        line("16 million steps", library, 1.1 * whole, "s")
    sys.exit(slow)


if __name__ == "__main__":
    main()
