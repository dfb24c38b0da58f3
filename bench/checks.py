#!/usr/bin/env python3
"""Times check formulas of up to a million clauses.

usage: checks.py PROGRAM

PROGRAM is a built qbf. Each formula has existential variables alone and clauses of three literals, which are easily
true; its check formula has a selector for each clause and three clauses for each. Prints, for each size, the clauses
of the check formula, the seconds of `PROGRAM solve`, of `PROGRAM cert` and of `PROGRAM check`, and the bytes written;
the best of three runs each. A check formula of a million clauses is to be written within three seconds: the last column
is what `check` takes beyond `solve`.
"""

import subprocess
import sys
import time

RUNS = 3


def formula(clauses):
    """Clauses of three neighbouring variables each, signs by turns, so that propagation has little to do."""
    lines = [f"p cnf {clauses + 2} {clauses}", " ".join(["e", *map(str, range(1, clauses + 3)), "0"])]
    lines += [f"{v} -{v + 1} {v + 2} 0" for v in range(1, clauses + 1)]
    return "\n".join(lines) + "\n"


def timed(program, command, text):
    """The best time of some runs, and the last output."""
    best, out = None, b""
    for _ in range(RUNS):
        before = time.perf_counter()
        done = subprocess.run([program, command], input=text, capture_output=True, check=False)
        seconds = time.perf_counter() - before
        if done.returncode != 10:
            sys.exit(f"{command} ends with {done.returncode}: {done.stderr!r}")
        best, out = min(seconds, best or seconds), done.stdout
    return best, out


def main():
    if len(sys.argv) != 2:
        sys.exit("usage: checks.py PROGRAM")
    program = sys.argv[1]
    print("clauses     solve    cert   check       bytes  beyond solve")
    for count in (10_000, 100_000, 333_333):
        text = formula(count).encode()
        solve, _ = timed(program, "solve", text)
        cert, _ = timed(program, "cert", text)
        check, out = timed(program, "check", text)
        clauses = out.split(b"\n", 1)[0].split()[3].decode()
        print(f"{clauses:>9} {solve:7.2f} {cert:7.2f} {check:7.2f} {len(out):11} {check - solve:13.2f}")


if __name__ == "__main__":
    main()
