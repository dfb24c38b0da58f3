#!/usr/bin/env python3
"""A robot in the dark: a plan that leads it home wherever it stands.

usage: robot.py write > SCRIPT
       qbf script SCRIPT | robot.py read

The robot stands on one of the free cells below and doesn't know on which. A step takes it to the next cell in one of
four directions, or leaves it where it is, if there is no cell or a pillar. The plan is made in advance: it is to end at
the cell 0 from each cell. The script asks for a plan of one step, of two, and so on. What is read are its replies: the
first plan is written and walked from each cell.
"""

import sys

from scripts import Script, verdicts

# The numbers of the free cells; # is a pillar.
CELLS = ["0123", "45#6"]
DIRECTIONS = {"north": (-1, 0), "west": (0, -1), "south": (1, 0), "east": (0, 1)}
NAMES = list(DIRECTIONS)
PLACES = {int(cell): (row, column) for row, line in enumerate(CELLS) for column, cell in enumerate(line) if cell != "#"}
MOST = 4


def after(cell, direction):
    """The cell on which a step in a direction ends."""
    row, column = PLACES[cell]
    down, right = DIRECTIONS[direction]
    there = {place: number for number, place in PLACES.items()}
    return there.get((row + down, column + right), cell)


def other_than(variables, number):
    """Literals of which one is true exactly where the variables, the low bit first, aren't the number."""
    return [-v if number >> bit & 1 else v for bit, v in enumerate(variables)]


def write():
    """The plan is chosen first (scope 1), then the start (2); the cells then reached follow (3)."""
    script = Script("e", "a", "e")
    start = script.variables(2, 3)
    now = script.variables(3, len(PLACES))
    for cell in PLACES:
        script.clause(*other_than(start, cell), now[cell])
    plan = []
    for _ in range(MOST):
        step = script.variables(1, 2)
        then = script.variables(3, len(PLACES))
        for number, direction in enumerate(NAMES):
            for cell in PLACES:
                script.clause(-now[cell], *other_than(step, number), then[after(cell, direction)])
        plan, now = plan + step, then
        script.ask("push")
        for cell in range(1, len(PLACES)):
            script.clause(-now[cell])
        script.ask("solve", *(f"value {variable}" for variable in plan), "pop")
    print(script)


def steps_of(values):
    """The directions of a plan, two values each, in the order of their variables."""
    bits = [values[variable] for variable in sorted(values)]
    return [NAMES[low + 2 * high] for low, high in zip(bits[::2], bits[1::2])]


def read(replies):
    for verdict, values in verdicts(replies):
        if verdict == "SAT":
            plan = steps_of(values)
            print(f"a plan of {len(plan)} steps:", *plan)
            break
    else:
        sys.exit("no plan")
    lost = 0
    for cell in PLACES:
        way = [cell]
        for direction in plan:
            way.append(after(way[-1], direction))
        print(f"from {cell}:", *way[1:])
        lost += way[-1] != 0
    print(f"{len(PLACES)} cells, {lost} from which the plan doesn't lead home")
    return 1 if lost else 0


if __name__ == "__main__":
    if sys.argv[1:] == ["write"]:
        write()
    elif sys.argv[1:] == ["read"]:
        sys.exit(read(sys.stdin.read().splitlines()))
    else:
        sys.exit(__doc__)
