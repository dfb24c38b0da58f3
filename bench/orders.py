#!/usr/bin/env python3
"""Runs qbf on scripts whose lines come in one order or another, and prints processor seconds, microseconds a line, how
many times the seconds of half as many lines that is, and memory.

No command is to cost more by the order in which the lines come: twice the lines are to take about twice the time. What
is timed are the lines of one command behind others that prepare for them, whose own time, of a run without those lines,
is taken off:

  var       variables that join one scope
  assume    literals of a first scope with as many variables
  scope     scopes, put in behind all others, in front of them, or anywhere; and the same with a variable in each
  value     questions after a verdict over as many variables
  pop       frames, each with a clause, that are opened and dropped again; each in the one order that there is

`ascending`, `descending` and `mixed` are the orders of the numbers of variables, or of the places of scopes. Nothing is
solved but for `value`. A command whose lines take more than a minute isn't run with more lines.

usage: orders.py [LARGEST [LEAST]]    from LEAST lines, 16,384, doubled up to LARGEST, 1,048,576; of scopes and frames
                                      at most 65,536
                                      QBF=COMMAND in the environment: another command than bin/qbf script
"""

import os
import random
import sys
import tempfile
from pathlib import Path

from scripts import cost

MINUTE = 60
MOST = 65_536
ORDERS = ("ascending", "descending", "mixed")


def in_order(order, count):
    """The numbers from 1 in this order."""
    numbers = list(range(1, count + 1))
    if order == "mixed":
        random.Random(1).shuffle(numbers)
    return reversed(numbers) if order == "descending" else numbers


def variables(count, scope=1):
    return [f"var {v} {scope}" for v in range(1, count + 1)]


def var(order, count):
    return ["scope e"], [f"var {v} 1" for v in in_order(order, count)]


def assume(order, count):
    signs = random.Random(2)
    return ["scope e", *variables(count)], [f"assume {signs.choice((v, -v))}" for v in in_order(order, count)]


def places(order, count):
    """Where each of so many scopes is put in."""
    draw = random.Random(3)
    behind = {"ascending": lambda n: n, "descending": lambda n: 1, "mixed": lambda n: draw.randint(1, n)}
    return [behind[order](n) for n in range(1, count + 1)]


def scope(order, count):
    return [], [f"scope {'ea'[n % 2]} {place}" for n, place in enumerate(places(order, count))]


def scope_with_variable(order, count):
    lines = []
    for n, place in enumerate(places(order, count), 1):
        lines += [f"scope {'ea'[n % 2]} {place}", f"var {n} {place}"]
    return [], lines


def value(order, count):
    return ["scope e", *variables(count), "solve"], [f"value {v}" for v in in_order(order, count)]


def pop(_, count):
    return ["scope e", "var 1 1"], count * ["push", "clause 1 0"] + count * ["pop"]


# The commands, each with its orders and the most lines.
KINDS = {
    "var": (var, ORDERS, None),
    "assume": (assume, ORDERS, None),
    "scope": (scope, ORDERS, MOST),
    "scope with a variable": (scope_with_variable, ORDERS, MOST),
    "value": (value, ORDERS, None),
    "pop": (pop, ("as opened",), MOST),
}


def measure(command, path, lines):
    path.write_text("".join(f"{line}\n" for line in ["p qscript 1", *lines]))
    return cost([*command, str(path)])


def measure_kind(command, path, name, order, sizes):
    """Prints a line for each size, up to the first that takes more than a minute."""
    make, before = KINDS[name][0], None
    for count in sizes:
        prepared, timed = make(order, count)
        base, _ = measure(command, path, prepared)
        whole, megabytes = measure(command, path, prepared + timed)
        seconds = max(whole - base, 0.0)
        ratio = f"{seconds / before:5.1f} times" if before else " " * 11
        print(f"{name:21} {order:10} {count:9,} {seconds:7.2f} s {1e6 * seconds / count:8.2f} us {ratio}"
              f" {megabytes:5} MB", flush=True)
        if seconds > MINUTE:
            return
        before = seconds


def main():
    largest, least = [*map(int, sys.argv[1:]), *(1_048_576, 16_384)[len(sys.argv) - 1 :]]
    root = Path(__file__).resolve().parent.parent
    command = os.environ.get("QBF", f"{root}/bin/qbf script").split()
    with tempfile.TemporaryDirectory() as folder:
        for name, (_, orders, most) in KINDS.items():
            sizes = [least << n for n in range(32) if least << n <= min(largest, most or largest)]
            for order in orders:
                measure_kind(command, Path(folder) / "script", name, order, sizes)


if __name__ == "__main__":
    main()
