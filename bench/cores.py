#!/usr/bin/env python3
"""Runs qbf on scripts with clause groups, and prints processor seconds of a core beside those of as many solves.

A formula of 10,000 clauses over 2,000 variables in three scopes stands in so many groups, a few of which contradict
each other. One script asks for the core; the other leaves out each group in turn, decides, and takes it in again. Then
formulas that grow, five clauses for each variable and each clause a group, are asked for their cores.

usage: cores.py        QBF=COMMAND in the environment: another command than bin/qbf script
"""

import os
import random
import tempfile
from pathlib import Path

from scripts import cost

CLAUSES, VARIABLES = 10_000, 2_000
# So many clauses for each variable, and so many groups of one clause.
DENSITY, GROWING = 5, (16_000, 32_000, 64_000)
# So many of the groups contradict each other.
CHAIN = 8


def literal(draw, variable):
    return variable if draw.random() < 0.5 else -variable


def clauses(draw, count, variables):
    """Clauses that are true for all existential variables true: each has an innermost one that is positive."""
    third = variables // 3
    for _ in range(count):
        inner = draw.randint(2 * third + 1, variables)
        others = draw.sample(range(CHAIN + 1, 2 * third + 1), 2)
        yield sorted([inner, *(literal(draw, v) for v in others)], key=abs)


def script(groups, asked, count=CLAUSES, variables=VARIABLES):
    """The groups with their clauses, the implications of a chain in every few of them, and what is asked."""
    draw = random.Random(1)
    lines = ["p qscript 3", "scope e", "scope a", "scope e"]
    third = variables // 3
    lines += [f"var {v} {1 if v <= third else 2 if v <= 2 * third else 3}" for v in range(1, variables + 1)]
    all_clauses = list(clauses(draw, count, variables))
    size = count // groups
    chain = draw.sample(range(1, groups + 1), CHAIN)
    links = [[1], *([-n, n + 1] for n in range(1, CHAIN - 1)), [1 - CHAIN]]
    for group in range(1, groups + 1):
        lines.append(f"open {group}")
        for clause in all_clauses[(group - 1) * size : group * size]:
            lines.append("clause " + " ".join(map(str, clause)) + " 0")
        if group in chain:
            lines.append("clause " + " ".join(map(str, links[chain.index(group)])) + " 0")
        lines.append("close")
    return "\n".join([*lines, "solve", *asked, ""])


def one_by_one(groups):
    for group in range(1, groups + 1):
        yield from (f"deactivate {group}", "solve", f"activate {group}")


def cases():
    """A name, how many groups, and a script."""
    for groups in (64, 1_000):
        for name, asked in ("solve", []), ("core", ["core"]), ("solves", one_by_one(groups)):
            yield name, groups, script(groups, asked)
    for groups in GROWING:
        yield "core", groups, script(groups, ["core"], groups, groups // DENSITY)


def main():
    root = Path(__file__).resolve().parent.parent
    command = os.environ.get("QBF", f"{root}/bin/qbf script").split()
    with tempfile.TemporaryDirectory() as folder:
        path = Path(folder) / "script"
        for name, groups, text in cases():
            path.write_text(text)
            seconds, megabytes = cost([*command, str(path)])
            print(f"{groups:6} groups {name:7} {seconds:7.2f} s {megabytes:5} MB")


if __name__ == "__main__":
    main()
