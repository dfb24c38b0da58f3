#!/usr/bin/env python3
"""A guess and a counterexample in turn, with a solver at the other end of a pipe.

usage: guess.py PROGRAM parity | two

A circuit of three tables: the first sees the inputs a and b, the second c and d, and the third what these two give. Are
there tables with which it tells, for all inputs, whether an odd number of them is set (parity), or whether at least two
are (two)? Tables are guessed that do it for the inputs tried so far; then an input is asked for at which the guess is
wrong, and is tried from then on. Each question depends on the last reply. The tables that are left are walked through
in the end.
"""

import itertools
import sys

from scripts import Dialogue

GOALS = {"parity": lambda bits: sum(bits) % 2, "two": lambda bits: sum(bits) >= 2}
INPUTS = list(itertools.product((0, 1), repeat=4))
# The variables: each table's values at 00, 01, 10 and 11, then the inputs, and what the tables give.
TABLES = [[1, 2, 3, 4], [5, 6, 7, 8], [9, 10, 11, 12]]
A, B, C, D = BITS = [13, 14, 15, 16]
GIVEN = [17, 18, 19]
# The groups of clauses: what is asked of a guess, and what of a counterexample.
TRIED, WRONG = 1, 2


def literal(variable, value):
    return variable if value else -variable


def entries(table, left, right):
    """What a table gives at two variables: where they have these values (two literals are false), its entry."""
    for place, (one, other) in enumerate(itertools.product((0, 1), repeat=2)):
        yield literal(left, not one), literal(right, not other), table[place]


def write_wrong(solver, goal):
    """The circuit of any tables, and that its last value isn't the goal's."""
    first, second, last = GIVEN
    solver.tell(f"open {WRONG}")
    for table, left, right, out in zip(TABLES, (A, C, first), (B, D, second), GIVEN):
        for one, other, entry in entries(table, left, right):
            solver.clause(one, other, -entry, out)
            solver.clause(one, other, entry, -out)
    for bits in INPUTS:
        solver.clause(*(literal(v, not bit) for v, bit in zip(BITS, bits)), literal(last, not goal(bits)))
    solver.tell("close")


def add_tried(solver, bits, goal):
    """At this input the tables are to give what the goal does."""
    a, b, c, d = bits
    solver.tell(f"open {TRIED}")
    for one, other, entry in entries(TABLES[2], TABLES[0][2 * a + b], TABLES[1][2 * c + d]):
        solver.clause(one, other, literal(entry, goal(bits)))
    solver.tell("close")


def guess(solver):
    """Tables that do it for the inputs tried, as literals; None where there are none."""
    solver.tell(f"activate {TRIED}", f"deactivate {WRONG}")
    return solver.values(sum(TABLES, [])) if solver.ask("solve") == ["SAT"] else None


def counterexample(solver, tables):
    """An input at which these tables are wrong; None where there is none."""
    solver.tell(f"deactivate {TRIED}", f"activate {WRONG}", *(f"assume {value}" for value in tables))
    if solver.ask("solve") != ["SAT"]:
        return None
    return [int(value > 0) for value in solver.values(BITS)]


def search(solver, goal):
    """The tables that do it for all inputs, or None."""
    solver.tell("p qscript 3", "scope e", *(f"var {variable} 1" for variable in sum(TABLES, []) + BITS + GIVEN))
    solver.tell(f"open {TRIED}", "close")
    write_wrong(solver, goal)
    while tables := guess(solver):
        bits = counterexample(solver, tables)
        if bits is None:
            return tables
        add_tried(solver, bits, goal)
    return None


def walk(tables, bits):
    """What the circuit gives."""
    a, b, c, d = bits
    left, right = tables[2 * a + b] > 0, tables[4 + 2 * c + d] > 0
    return tables[8 + 2 * left + right] > 0


def main(program, name):
    goal = GOALS[name]
    with Dialogue(program) as solver:
        tables = search(solver, goal)
    if tables is None:
        print("no tables do it")
    else:
        wrong = sum(walk(tables, bits) != goal(bits) for bits in INPUTS)
        print(f"tables found, {len(INPUTS)} inputs tried, {wrong} wrong")


if __name__ == "__main__":
    if len(sys.argv) != 3 or sys.argv[2] not in GOALS:
        sys.exit(__doc__)
    main(*sys.argv[1:])
