#!/usr/bin/env python3
"""Prints the conflicts and solutions of qbf on a folder of formulas, a line each, and beside them DepQBF's.

usage: conflicts.py FOLDER [BUDGET [NAME..]]     QBF=PROGRAM in the environment: another program than bin/qbf
                                                  DEPQBF=COMMAND: a DepQBF that prints statistics

gdb counts the calls of `Search::learn`, one for each conflict and each solution; a call costs it some 20 microseconds.
A run ends at BUDGET steps, 4,000,000 without that word, and a `>` stands before the number then. DepQBF's own number of
backtracks stands beside it where DEPQBF names a build with statistics (`COMPUTE_STATS` of its source), with the options
for the same calculus in the command; a dash where there is none. The last line has the geometric mean of ours over
DepQBF's, over the formulas that both decide with more than 100 of DepQBF's. With names only formulas whose names begin
with one of them are run.
"""

import math
import os
import re
import subprocess
import sys
from pathlib import Path

LEARN = "search::search::Search::learn"
HITS = re.compile(r"already hit (\d+) time")
ENDED = re.compile(r"exited with code (\d+)")
STATISTICS = re.compile(r"backtracks:?\s+(\d+)", re.IGNORECASE)
TIME = 30


def ours(program, path, budget):
    """Conflicts and solutions of the program, and whether it decided."""
    asks = [f"break {LEARN}", "ignore 1 1000000000", "run", "info breakpoints"]
    words = ["gdb", "-batch", *(word for ask in asks for word in ("-ex", ask))]
    words += ["--args", program, "solve", "--budget", str(budget), str(path)]
    told = subprocess.run(words, capture_output=True, text=True, errors="replace").stdout
    hits, ended = HITS.search(told), ENDED.search(told)
    # gdb tells statuses in octal.
    return int(hits[1]) if hits else 0, bool(ended) and int(ended[1], 8) in (10, 20)


def theirs(command, path):
    """DepQBF's backtracks, where it decides within half a minute and tells them."""
    if not command:
        return None
    try:
        done = subprocess.run([*command, str(path)], capture_output=True, text=True, timeout=TIME)
    except subprocess.TimeoutExpired:
        return None
    found = STATISTICS.search(done.stdout + done.stderr)
    return int(found[1]) if found and done.returncode in (10, 20) else None


def main():
    words = sys.argv[1:]
    root = Path(__file__).resolve().parent.parent
    program = os.environ.get("QBF", f"{root}/bin/qbf")
    command = os.environ.get("DEPQBF", "").split()
    budget = int(words[1]) if len(words) > 1 else 4_000_000
    ratios = []
    print("| Formula | qbf | DepQBF |\n|---|---|---|")
    for path in sorted(Path(words[0]).glob("*.qdimacs")):
        if words[2:] and not path.stem.startswith(tuple(words[2:])):
            continue
        count, is_decided = ours(program, path, budget)
        other = theirs(command, path)
        print(f"| {path.stem} | {'' if is_decided else '> '}{count} | {'-' if other is None else other} |", flush=True)
        if is_decided and other and other > 100:
            ratios.append(math.log(max(count, 1) / other))
    if ratios:
        print(f"mean of {len(ratios)}: {math.exp(sum(ratios) / len(ratios)):.2f}")


if __name__ == "__main__":
    main()
