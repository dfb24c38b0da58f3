#!/usr/bin/env python3
"""Prints the functions whose proofs take longest, as a table: seconds, crate and function.

usage: proof_times.py [--rows N] [CRATE..]        from the top of the repository; all crates without a name

Each crate is checked by one process of `rt check --jobs 1` in its folder. `rt` tells when it has ended with a function;
the seconds are those since it had ended with the one before it in the same crate, so they include lemmas that are
cited there first. What `out/` keeps from earlier runs costs nothing and has no row: in a fresh clone, with crates in the
order of `crates.txt`, all have one. Libraries are built in front of a crate's check, so name them too. At the end stand
the seconds of each crate from its first function to its last.
"""

import argparse
import re
import subprocess
import sys
import time
from pathlib import Path

TOP = Path(__file__).resolve().parent.parent
# How rt tells that it has ended with a function.
ENDED = re.compile(r"^checked (\S+), \d+ of \d+")
BEGUN = re.compile(r"^so far: ")


def crates():
    """The crates in the order in which they are listed."""
    lines = (TOP / "crates.txt").read_text().splitlines()
    return [line.split(":")[0].split()[0] for line in lines if line.strip() and not line.startswith("#")]


def times(crate):
    """The seconds of each function of a crate, in the order in which they ended, and whether all were proved."""
    words = ["rt", "check", "--jobs", "1"]
    folder = TOP / "crates" / crate
    rows, last = [], time.monotonic()
    with subprocess.Popen(words, cwd=folder, stdout=subprocess.PIPE, stderr=subprocess.STDOUT, text=True) as child:
        for line in child.stdout:
            now = time.monotonic()
            if BEGUN.match(line):
                last = now
            if ended := ENDED.match(line):
                rows.append((now - last, crate, ended[1]))
                last = now
    return rows, child.returncode == 0


def main():
    parser = argparse.ArgumentParser(description="Prints the functions whose proofs take longest.")
    parser.add_argument("--rows", type=int, default=60)
    parser.add_argument("crates", nargs="*")
    asked = parser.parse_args()
    rows, totals, failed = [], [], []
    for crate in asked.crates or crates():
        found, is_proved = times(crate)
        rows += found
        totals.append((sum(seconds for seconds, _, _ in found), crate, len(found)))
        failed += [] if is_proved else [crate]
    print("| Seconds | Crate | Function |\n|---|---|---|")
    for seconds, crate, name in sorted(rows, reverse=True)[: asked.rows]:
        print(f"| {seconds:.1f} | `{crate}` | `{name}` |")
    print("\n| Seconds | Crate | Functions |\n|---|---|---|")
    for seconds, crate, count in sorted(totals, reverse=True):
        print(f"| {seconds:.0f} | `{crate}` | {count} |")
    if failed:
        print(f"not proved: {' '.join(failed)}")
    return 1 if failed else 0


if __name__ == "__main__":
    sys.exit(main())
