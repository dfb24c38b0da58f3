#!/usr/bin/env python3
"""Prints, as a table, the steps and seconds that qbf takes on single formulas, beside the seconds of DepQBF.

usage: steps.py [SECONDS [NAME..]]        QBF=COMMAND in the environment: another command than bin/qbf solve

Steps are the least budget that gives a verdict, found by bisection: the same on each machine. Seconds are of one run
without a budget, at most SECONDS of them, 20 without that word; a dash stands where they didn't suffice. DepQBF runs
where it is installed, with the calculus of qbf and at its default. `before` has the steps of the version whose rows
waited in a stack, as they were measured once. With names only these formulas are run. Ends with status 1 where two
verdicts differ.
"""

import os
import shutil
import subprocess
import sys
import tempfile
from pathlib import Path

import families
from compare import DEPQBF, run

FORMULAS = {
    "pigeons, 4 holes": lambda: families.pigeons(4),
    "pigeons, 5 holes": lambda: families.pigeons(5),
    "pigeons, 6 holes": lambda: families.pigeons(6),
    "random 3-SAT, 60 variables, ratio 4.26": lambda: families.random_3sat(0, 60, 4.26),
    "random 3-SAT, 100 variables, ratio 4.26": lambda: families.random_3sat(0, 100, 4.26),
    "random 3-SAT, 150 variables, ratio 4.26": lambda: families.random_3sat(0, 150, 4.26),
    "random 3-SAT, 5,000 variables, ratio 3": lambda: families.random_3sat(0, 5000, 3.0),
    "adders, 4 bits": lambda: families.adders(4),
    "adders, 6 bits": lambda: families.adders(6),
    "a product of two primes of 4 bits": lambda: families.factoring(0, 4, True),
    "a prime of 8 bits": lambda: families.factoring(0, 4, False),
    "conformant plan, 8 states, 6 steps": lambda: families.conformant(1, 3, 6),
    "conformant plan, 8 states, 9 steps": lambda: families.conformant(0, 3, 9),
    "counter of 3 bits, reached": lambda: families.counter(3, 7, 0),
    "counter of 3 bits, missed": lambda: families.counter(3, 6, 0),
    "drawn, 2 scopes of 40, ratio 2.2": lambda: families.drawn(3, 2, 40, 2.2),
    "drawn, 3 scopes of 30, ratio 2.2": lambda: families.drawn(3, 3, 30, 2.2),
    "chain of 100,000 variables": lambda: families.chain(100_000, False),
    "chain of 100,000 variables, ended": lambda: families.chain(100_000, True),
}

BEFORE = {"pigeons, 4 holes": 586, "pigeons, 5 holes": 3491}


def decides(command, path, budget, limit):
    """Whether a budget suffices; none where the seconds didn't."""
    try:
        done = subprocess.run([*command, "--budget", str(budget), str(path)], capture_output=True, timeout=limit)
    except subprocess.TimeoutExpired:
        return None
    return done.returncode in (10, 20)


def least_budget(command, path, limit):
    """The least budget that gives a verdict; none where the seconds didn't suffice for it."""
    low, high = 0, 64
    while not (enough := decides(command, path, high, limit)):
        if enough is None:
            return None
        low, high = high, 2 * high
    while high - low > 1:
        middle = (low + high) // 2
        enough = decides(command, path, middle, limit)
        if enough is None:
            return None
        if enough:
            high = middle
        else:
            low = middle
    return high


def cell(value, form):
    return "-" if value is None else format(value, form)


def main():
    limit = float(sys.argv[1]) if len(sys.argv) > 1 else 20.0
    names = sys.argv[2:] or list(FORMULAS)
    root = Path(__file__).resolve().parent.parent
    qbf = os.environ.get("QBF", f"{root}/bin/qbf solve").split()
    timed = {"qbf": qbf}
    if shutil.which("depqbf"):
        timed |= {"depqbf, same calculus": DEPQBF.split(), "depqbf, default": ["depqbf"]}
    differ = []
    print("| Formula | Verdict | steps before | steps | " + " | ".join(f"{name}, s" for name in timed) + " |")
    print("|---" * (4 + len(timed)) + "|", flush=True)
    with tempfile.TemporaryDirectory() as folder:
        path = Path(folder) / "formula.qdimacs"
        for name in names:
            path.write_text(FORMULAS[name]().text())
            runs = [run(command, path, limit) for command in timed.values()]
            verdicts = {verdict for verdict, _ in runs if verdict is not None}
            differ += [name] if len(verdicts) > 1 else []
            said = {(True,): "true", (False,): "false"}.get(tuple(verdicts), "-")
            steps = least_budget(qbf, path, limit) if runs[0][0] is not None else None
            cells = [name, said, cell(BEFORE.get(name), ","), cell(steps, ",")]
            cells += [cell(None if verdict is None else spent, ".2f") for verdict, spent in runs]
            print("| " + " | ".join(cells) + " |", flush=True)
    for name in differ:
        print(f"verdicts differ: {name}")
    sys.exit(1 if differ else 0)


if __name__ == "__main__":
    main()
