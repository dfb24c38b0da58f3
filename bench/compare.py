#!/usr/bin/env python3
"""Runs qbf, and DepQBF where it is installed, on a folder of formulas, and prints solved formulas and processor seconds
a family. DepQBF runs twice, with the calculus of qbf and at its default.

Ends with status 1 where two verdicts differ.

usage: compare.py [--csv FILE] FOLDER [SECONDS]     QBF=COMMAND in the environment: another command than bin/qbf solve

With --csv the file gets a line for each run: the formula, the solver, true, false or nothing, and the seconds.
`bench/plot.py` draws it.
"""

import csv
import math
import os
import resource
import shutil
import subprocess
import sys
from collections import defaultdict
from pathlib import Path

DEPQBF = "depqbf --dep-man=simple --traditional-qcdcl --no-qbce-dynamic --no-pure-literals"


def processor_seconds():
    """What the processes that ended took so far."""
    used = resource.getrusage(resource.RUSAGE_CHILDREN)
    return used.ru_utime + used.ru_stime


def run(command, path, limit):
    """The verdict, or None, and the processor seconds that it took; the limit where it didn't end within it."""
    started = processor_seconds()
    cap = lambda: resource.setrlimit(resource.RLIMIT_CPU, (math.ceil(limit), math.ceil(limit) + 1))
    done = subprocess.run([*command, str(path)], capture_output=True, text=True, preexec_fn=cap)
    spent = processor_seconds() - started
    if done.returncode < 0 or spent > limit:
        return None, limit
    return {10: True, 20: False}.get(done.returncode), spent


def open_csv(words):
    """Takes `--csv FILE` out of the words, and answers a writer of such a file; of none where it wasn't there."""
    if "--csv" not in words:
        return csv.writer(open(os.devnull, "w"))
    place = words.index("--csv")
    file = open(words[place + 1], "w", newline="", buffering=1)
    del words[place : place + 2]
    writer = csv.writer(file, lineterminator="\n")
    writer.writerow(["formula", "solver", "verdict", "seconds"])
    return writer


def main():
    words = sys.argv[1:]
    times = open_csv(words)
    folder = Path(words[0])
    limit = float(words[1]) if len(words) > 1 else 20.0
    root = Path(__file__).resolve().parent.parent
    solvers = {"qbf": os.environ.get("QBF", f"{root}/bin/qbf solve").split()}
    if shutil.which("depqbf"):
        solvers["depqbf, same calculus"] = DEPQBF.split()
        solvers["depqbf"] = ["depqbf"]
    counts = defaultdict(int)
    solved = defaultdict(int)
    seconds = defaultdict(float)
    differ = []
    for path in sorted(folder.glob("*.qdimacs")):
        family = path.stem.rsplit("-", 1)[0]
        counts[family] += 1
        verdicts = {}
        for name, command in solvers.items():
            verdict, spent = run(command, path, limit)
            seconds[family, name] += spent
            times.writerow([path.stem, name, {True: "true", False: "false"}.get(verdict, ""), f"{spent:.3f}"])
            if verdict is not None:
                solved[family, name] += 1
                verdicts[name] = verdict
        if len(set(verdicts.values())) > 1:
            differ.append(path.name)
    print("| Family | Formulas | " + " | ".join(f"{n} solved | {n} seconds" for n in solvers) + " |")
    print("|---" * (2 + 2 * len(solvers)) + "|")
    for family, count in counts.items():
        cells = [f"{solved[family, n]} | {seconds[family, n]:.2f}" for n in solvers]
        print(f"| {family} | {count} | " + " | ".join(cells) + " |")
    cells = [f"{sum(solved[f, n] for f in counts)} | {sum(seconds[f, n] for f in counts):.2f}" for n in solvers]
    print(f"| all | {sum(counts.values())} | " + " | ".join(cells) + " |")
    for name in differ:
        print(f"verdicts differ: {name}")
    sys.exit(1 if differ else 0)


if __name__ == "__main__":
    main()
