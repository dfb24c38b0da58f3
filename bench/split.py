#!/usr/bin/env python3
"""Prints, as a table, the seconds that qbf takes on formulas as a whole, and in parts by tools/split.

usage: split.py JOBS [SECONDS [NAME..]]        QBF=PROGRAM in the environment: another one than bin/qbf

Columns: the formula with its first quantifier and its verdict; the seconds for the whole; how many parts there are;
the seconds of all parts, one after another and each to its end, and of the longest; and the seconds with JOBS parts
at a time, from the first part begun until one decides or all have ended, with the whole's in relation to it.
Splitting and joining come on top, and aren't counted. A dash stands where SECONDS, 60 without that word, didn't
suffice. With names only these formulas are run. Ends with status 1 where tools/join differs from the whole.
"""

import os
import subprocess
import sys
import tempfile
import time
from concurrent.futures import ThreadPoolExecutor
from pathlib import Path

import families
from compare import run

ROOT = Path(__file__).resolve().parent.parent
TOOLS = ROOT / "tools"
FORMULAS = {
    "pigeons, 7 holes": (3, lambda: families.pigeons(7)),
    "random 3-SAT, 175 variables, seed 0": (3, lambda: families.random_3sat(0, 175, 4.26)),
    "random 3-SAT, 175 variables, seed 1": (3, lambda: families.random_3sat(1, 175, 4.26)),
    "random 3-SAT, 175 variables, seed 2": (3, lambda: families.random_3sat(2, 175, 4.26)),
    "a product of two primes of 8 bits": (3, lambda: families.factoring(0, 8, True)),
    "a prime of 16 bits": (3, lambda: families.factoring(0, 8, False)),
    "adders, 8 bits": (3, lambda: families.adders(8)),
    "equality, 14": (3, lambda: families.equality(14)),
    "parity, 14": (3, lambda: families.parity(14)),
    "Kleine Büning, 14 rounds": (1, lambda: families.kleine_buening(14)),
    "counter of 5 bits, reached": (3, lambda: families.counter(5, 31, 0)),
    "counter of 5 bits, missed": (3, lambda: families.counter(5, 30, 0)),
    "conformant plan, 16 states, 12 steps": (3, lambda: families.conformant(0, 4, 12)),
    "drawn, 2 scopes of 160": (3, lambda: families.drawn(0, 2, 160, 2.0)),
}
STATUS = {True: 10, False: 20}


class Parts:
    """The parts of a formula in a folder, to be run so many at a time."""

    def __init__(self, folder, program, limit):
        self.scripts = sorted(folder.glob("*.qscript"), key=lambda path: int(path.stem.split("-")[1]))
        self.folder, self.program, self.limit = folder, program, limit
        self.running, self.decided = set(), False

    def run_one(self, script):
        """The seconds that a part took; none where the limit didn't suffice. One that decides stops the others."""
        if self.decided:
            return 0.0
        started = time.monotonic()
        command = [TOOLS / "part", script, self.program]
        part = subprocess.Popen(command, start_new_session=True, stderr=subprocess.DEVNULL)
        self.running.add(part)
        try:
            status = part.wait(self.limit)
        except subprocess.TimeoutExpired:
            stop(part)
            return None
        finally:
            self.running.discard(part)
        if status == 0:
            self.decided = True
            for other in list(self.running):
                stop(other)
        return time.monotonic() - started

    def one_after_another(self):
        """The seconds of each part, to its end."""
        spent = []
        for script in self.scripts:
            self.decided = False
            spent.append(self.run_one(script))
        return spent

    def together(self, jobs):
        """The seconds until one part decides or all have ended; none where the limit didn't suffice."""
        for path in self.folder.glob("*.status"):
            path.unlink()
        self.decided = False
        started = time.monotonic()
        with ThreadPoolExecutor(jobs) as pool:
            spent = list(pool.map(self.run_one, self.scripts))
        return None if None in spent and not self.decided else time.monotonic() - started


def stop(part):
    """Stops a part with what it runs, where it hasn't ended."""
    try:
        os.killpg(part.pid, 15)
    except ProcessLookupError:
        pass
    part.wait()


def cell(seconds):
    return "-" if seconds is None else f"{seconds:.2f}"


def row(name, jobs, program, limit, folder):
    """The cells of a formula, and whether the parts' verdict is that of the whole."""
    count, make = FORMULAS[name]
    formula = make()
    path, parts = folder / "formula.qdimacs", folder / "parts"
    path.write_text(formula.text())
    verdict, whole = run([program, "solve"], path, limit)
    subprocess.run([TOOLS / "split", "--most", str(count), path, parts], check=True)
    found = Parts(parts, program, limit)
    alone = found.one_after_another()
    every = None if None in alone else sum(alone)
    spent = found.together(jobs)
    joined = subprocess.run([TOOLS / "join", parts], capture_output=True).returncode
    agrees = verdict is None or spent is None or joined == STATUS[verdict]
    said = {10: "true", 20: "false"}.get(STATUS.get(verdict, joined), "-")
    gain = "-" if verdict is None or not spent else f"{whole / spent:.1f}"
    longest = None if None in alone else max(alone)
    kind = {"e": "existential", "a": "universal"}[formula.scopes[0][0]]
    times = [cell(None if verdict is None else whole), str(1 << count), cell(every), cell(longest), cell(spent), gain]
    return [name, f"{kind}, {said}", *times], agrees


def main():
    jobs = int(sys.argv[1])
    limit = float(sys.argv[2]) if len(sys.argv) > 2 else 60.0
    names = sys.argv[3:] or list(FORMULAS)
    program = os.environ.get("QBF", f"{ROOT}/bin/qbf")
    print(f"| Formula | First scope, verdict | whole | parts | all parts | the longest | {jobs} at a time | gain |")
    print("|---" * 8 + "|", flush=True)
    differ = []
    for name in names:
        with tempfile.TemporaryDirectory() as folder:
            cells, agrees = row(name, jobs, program, limit, Path(folder))
        print("| " + " | ".join(cells) + " |", flush=True)
        differ += [] if agrees else [name]
    for name in differ:
        print(f"verdicts differ: {name}")
    sys.exit(1 if differ else 0)


if __name__ == "__main__":
    main()
