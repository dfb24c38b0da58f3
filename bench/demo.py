#!/usr/bin/env python3
"""Runs `qbf demo 0 COUNT` for counts that grow tenfold, and prints the seconds of each, the least of three runs.

Ends with status 1 where a thousand formulas took more than a second.

usage: demo.py [PROGRAM]        bin/qbf without one
"""

import subprocess
import sys
import time
from pathlib import Path


def seconds(program, count):
    """The least time of three runs."""
    best = float("inf")
    for _ in range(3):
        started = time.monotonic()
        subprocess.run([program, "demo", "0", str(count)], check=True, stdout=subprocess.DEVNULL)
        best = min(best, time.monotonic() - started)
    return best


def main():
    root = Path(__file__).resolve().parent.parent
    program = sys.argv[1] if len(sys.argv) > 1 else f"{root}/bin/qbf"
    times = {count: seconds(program, count) for count in (10, 100, 1000, 10000)}
    for count, spent in times.items():
        print(f"{count:>6} formulas {spent:8.3f} s")
    sys.exit(times[1000] > 1)


main()
