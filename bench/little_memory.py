#!/usr/bin/env python3
"""Runs qbf on a clause of three million literals with little memory, and prints how each run ends and its seconds.

Want of memory is to end a run, and not to make it hang: a run that lacks memory is to take no longer than one that has
enough. The clause stands in a script, with a bound of 36,000 to 44,000 by `ulimit -v`, and in a formula, with one of
12,000 to 28,000, and then with none; once with one literal that is repeated, and once with those of a thousand
variables, mixed. A run that takes more than twenty seconds is ended, and the line says so.

usage: little_memory.py [LITERALS]    QBF=PROGRAM in the environment: another program than bin/qbf
"""

import os
import random
import resource
import subprocess
import sys
import tempfile
import time
from pathlib import Path

SECONDS = 20
# A thousand of `ulimit -v`, in bytes.
THOUSAND = 1000 * 1024
BOUNDS = {"script": range(36, 45, 2), "solve": range(12, 29, 4)}
VARIABLES = 1000


def literals(kind, count):
    """The literals of a clause as a text."""
    if kind == "one":
        return "1 " * count
    draw = random.Random(1)
    return " ".join(map(str, draw.choices(range(1, VARIABLES + 1), k=count))) + " "


def texts(count):
    """Each with its command."""
    for kind in "one", "mixed":
        clause = literals(kind, count)
        scope = "scope e\n" + "".join(f"var {v} 1\n" for v in range(1, VARIABLES + 1))
        yield "script", kind, f"p qscript 1\n{scope}clause {clause}0\nsolve\n"
        yield "solve", kind, f"p cnf {VARIABLES} 1\n{clause}0\n"


def run(program, command, path, thousands):
    """The status, what was said, and the seconds of the processor and of the clock. None is no bound."""

    def bound():
        resource.setrlimit(resource.RLIMIT_CPU, (SECONDS, SECONDS + 1))
        if thousands is not None:
            resource.setrlimit(resource.RLIMIT_AS, (thousands * THOUSAND, thousands * THOUSAND))

    before = resource.getrusage(resource.RUSAGE_CHILDREN)
    start = time.monotonic()
    done = subprocess.run([program, command, path], capture_output=True, preexec_fn=bound)
    clock = time.monotonic() - start
    after = resource.getrusage(resource.RUSAGE_CHILDREN)
    seconds = after.ru_utime + after.ru_stime - before.ru_utime - before.ru_stime
    said = " ".join((done.stdout + done.stderr).decode("ascii", "replace").split())
    return done.returncode, said if done.returncode >= 0 else f"ended after {SECONDS} seconds", seconds, clock


def main():
    count = int(sys.argv[1]) if len(sys.argv) > 1 else 3_000_000
    root = Path(__file__).resolve().parent.parent
    program = os.environ.get("QBF", f"{root}/bin/qbf")
    with tempfile.TemporaryDirectory() as folder:
        path = Path(folder) / "text"
        for command, kind, text in texts(count):
            path.write_text(text)
            for thousands in [*BOUNDS[command], None]:
                status, said, seconds, clock = run(program, command, str(path), thousands)
                bound = f"-v {thousands}000" if thousands is not None else "no bound"
                print(f"{command:6} {kind:5} {bound:8} status {status:3} {seconds:6.2f} s, {clock:6.2f} s by the clock:"
                      f" {said}", flush=True)


if __name__ == "__main__":
    main()
