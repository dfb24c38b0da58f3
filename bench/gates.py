#!/usr/bin/env python3
"""Runs qbf on a false formula whose circuit has about a million gates, and prints, for the verdict alone, the trace and
the four forms of the circuit, the seconds, the memory and what was written; of the circuits also the gates and the
bytes of memory a gate beyond what the verdict took. Where strace is installed, also the calls that wrote it.

The formula has the outermost existential variables y0 to yK and x1 to xM, and behind them the universal u1 to uK. Its
clauses are y0; each x negated; for each k from 1 on -y(k-1), yk, all x and uk; and -yK. All of it follows by
propagation. Each u is removed from its clause once, so that its decision list has a conjunction of the M + 2 other
literals of that clause, which hardly shares a gate with another one.

usage: gates.py [K [M]]    QBF=PROGRAM in the environment: another program than bin/qbf
"""

import os
import shutil
import subprocess
import sys
import tempfile
import time
from pathlib import Path

FORMS = [
    ("verdict", ["solve"]),
    ("trace", ["trace"]),
    ("ASCII", ["cert"]),
    ("binary", ["cert", "--binary"]),
    ("ASCII, trimmed", ["cert", "--trim"]),
    ("binary, trimmed", ["cert", "--binary", "--trim"]),
]


def formula(levels, width):
    """The formula as QDIMACS."""
    y = [str(v) for v in range(1, levels + 2)]
    x = [str(v) for v in range(levels + 2, levels + width + 2)]
    u = [str(v) for v in range(levels + width + 2, 2 * levels + width + 2)]
    row = " ".join(x)
    clauses = [f"{y[0]} 0", *(f"-{v} 0" for v in x)]
    clauses += [f"-{y[k]} {y[k + 1]} {row} {u[k]} 0" for k in range(levels)]
    clauses.append(f"-{y[levels]} 0")
    head = [f"p cnf {2 * levels + width + 1} {len(clauses)}", f"e {' '.join(y)} {row} 0", f"a {' '.join(u)} 0"]
    return "\n".join([*head, *clauses, ""])


def run(program, words, path, out):
    """The seconds of the processor and of the clock, the greatest memory in bytes, and the status."""
    with open(out, "wb") as file:
        started = time.monotonic()
        child = subprocess.Popen([program, *words, path], stdout=file)
        _, status, used = os.wait4(child.pid, 0)
        clock = time.monotonic() - started
        child.returncode = os.waitstatus_to_exitcode(status)
    return used.ru_utime + used.ru_stime, clock, used.ru_maxrss * 1024, child.returncode


def writes(program, words, path):
    """How many calls write to the output, or None without strace."""
    if not shutil.which("strace"):
        return None
    with tempfile.NamedTemporaryFile() as told:
        command = ["strace", "-o", told.name, "-e", "trace=write", program, *words, path]
        subprocess.run(command, stdout=subprocess.DEVNULL, check=False)
        return sum(line.startswith(b"write(1,") for line in open(told.name, "rb"))


def main():
    words = [int(word) for word in sys.argv[1:]]
    levels, width = (words + [1000, 1000][len(words) :])[:2]
    root = Path(__file__).resolve().parent.parent
    program = os.environ.get("QBF", f"{root}/bin/qbf")
    plain = 0
    print("| Form | Seconds | by the clock | MB | Bytes written | Gates | Memory a gate | Calls |")
    print("|---|---|---|---|---|---|---|---|")
    with tempfile.TemporaryDirectory() as folder:
        path = f"{folder}/formula"
        Path(path).write_text(formula(levels, width))
        for name, command in FORMS:
            out = f"{folder}/out"
            seconds, clock, memory, status = run(program, command, path, out)
            assert status == 20, status
            if name == "verdict":
                plain = memory
            gates, share = "", ""
            if command[0] == "cert":
                with open(out, "rb") as file:
                    gates = int(file.readline().split()[5])
                share = f"{(memory - plain) / max(gates, 1):.0f}"
            calls = writes(program, command, path)
            size = os.path.getsize(out)
            line = f"{name} | {seconds:.2f} | {clock:.2f} | {memory / 1e6:.0f} | {size} | {gates} | {share}"
            print(f"| {line} | {'' if calls is None else calls} |", flush=True)


if __name__ == "__main__":
    main()
