#!/usr/bin/env python3
"""Runs qbf on a drawn circuit of 150,000 gates, as QCIR and as the same formula in QDIMACS, with a budget of no step,
and prints the seconds, the memory and the size of each text. What it takes is reading, the translation of the circuit,
and what the engine makes of the formula; the budget is spent before the first step.

The circuit has 1,000 quantified variables in four scopes and gates of three inputs each, of the variables and of the
gates before.

usage: circuits.py [GATES]    QBF=PROGRAM in the environment: another program than bin/qbf
"""

import os
import random
import subprocess
import sys
import tempfile
import time
from pathlib import Path

sys.dont_write_bytecode = True
sys.path.insert(0, str(Path(__file__).resolve().parent.parent / "checks" / "deep"))
from quantified import Circuit, formula

SCOPES, VARIABLES, INPUTS, RUNS = 4, 250, 3, 5


def drawn(gates):
    """A circuit of so many gates."""
    draw = random.Random(gates)
    scopes, known = [], []
    for place in range(SCOPES):
        variables = list(range(place * VARIABLES + 1, (place + 1) * VARIABLES + 1))
        scopes.append(("forall" if place % 2 == 0 else "exists", variables))
        known += variables
    rows = []
    for _ in range(gates):
        inputs = [draw.choice([1, -1]) * draw.randint(1, len(known)) for _ in range(INPUTS)]
        known.append(len(known) + 1)
        rows.append((known[-1], draw.choice(["and", "or"]), inputs))
    return Circuit(scopes, rows, known[-1])


def plain_text(circuit):
    """The circuit as QCIR-14, a statement a line."""
    listed = lambda numbers: ", ".join(map(str, numbers))
    lines = ["#QCIR-14", *(f"{quantifier}({listed(variables)})" for quantifier, variables in circuit.scopes)]
    lines.append(f"output({circuit.output})")
    lines += [f"{name} = {kind}({listed(inputs)})" for name, kind, inputs in circuit.gates]
    return "\n".join(lines) + "\n"


def run(words):
    """The seconds of the clock, the greatest memory in bytes, and the status."""
    started = time.monotonic()
    child = subprocess.Popen(words, stdout=subprocess.DEVNULL)
    _, status, used = os.wait4(child.pid, 0)
    child.returncode = os.waitstatus_to_exitcode(status)
    return time.monotonic() - started, used.ru_maxrss * 1024, child.returncode


def main():
    gates = int(sys.argv[1]) if len(sys.argv) > 1 else 150_000
    program = os.environ.get("QBF", "bin/qbf")
    circuit = drawn(gates)
    with tempfile.TemporaryDirectory() as folder:
        for name, options, text in [("QCIR", ["--qcir"], plain_text(circuit)), ("QDIMACS", [], formula(circuit))]:
            path = Path(folder) / name
            path.write_text(text)
            runs = [run([program, "solve", "--budget", "0", *options, str(path)]) for _ in range(RUNS)]
            seconds, memory = min(r[0] for r in runs), max(r[1] for r in runs)
            size = path.stat().st_size
            print(f"{name}: {gates} gates, {size / 1e6:.1f} MB, {seconds:.2f} s, {memory / 1e6:.0f} MB of memory, "
                  f"status {runs[0][2]}")
    return 0


if __name__ == "__main__":
    sys.exit(main())
