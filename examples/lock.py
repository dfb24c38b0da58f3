#!/usr/bin/env python3
"""Two processes and a lock: is one alone in the critical section, in whatever order they run?

usage: lock.py write > SCRIPT             the lock is looked at in one step and taken in the next
       lock.py write mended > SCRIPT      it is looked at and taken in one step
       qbf script SCRIPT | lock.py read   the first run on which both are in the critical section

At the start the lock is free, and both processes are outside. Each step one of them moves, by a schedule that isn't
known. The script asks, for one step, for two, and so on: on each schedule, are the states that follow good ones? Where
that is false, the values that are told are those of a schedule on which they aren't.
"""

import sys

from scripts import Script, verdicts

STEPS = {"": 4, "mended": 6}


def moves(script, mover, now, then):
    """A process that has seen the lock free enters and takes it; one inside leaves; one outside looks at it."""
    (saw, inside, lock), (saw_then, inside_then, lock_then) = now, then
    for literals in ([-saw], [-inside], [-lock]):
        script.clause(-mover, -saw_then, *literals)
    script.clause(-mover, saw_then, saw, inside, lock)
    script.clause(-mover, -inside_then, saw)
    script.clause(-mover, inside_then, -saw)
    script.clause(-mover, lock_then, -saw)
    script.clause(-mover, -lock_then, saw, lock)
    script.clause(-mover, -lock_then, saw, -inside)
    script.clause(-mover, lock_then, saw, inside, -lock)


def moves_at_once(script, mover, now, then):
    """A process outside enters and takes the lock where it is free; one inside leaves."""
    (_, inside, lock), (saw_then, inside_then, lock_then) = now, then
    script.clause(-mover, -saw_then)
    script.clause(-mover, -inside_then, -inside)
    script.clause(-mover, -inside_then, -lock)
    script.clause(-mover, inside_then, inside, lock)
    script.clause(-mover, -lock_then, -inside)
    script.clause(-mover, lock_then, inside)


def stays(script, mover, now, then):
    """The process that doesn't move stays as it is."""
    for was, is_then in zip(now[:2], then[:2]):
        script.clause(-mover, -was, is_then)
        script.clause(-mover, was, -is_then)


def write(kind):
    """The schedule is given (scope 1), and the states follow (2): of each process what it saw and where it is."""
    script = Script("a", "e")
    now = script.variables(2, 5)
    for variable in now:
        script.clause(-variable)
    schedule = []
    move = moves_at_once if kind else moves
    for _ in range(STEPS[kind]):
        schedule += script.variables(1, 1)
        then = script.variables(2, 5)
        for first, second, mover in ((0, 2, schedule[-1]), (2, 0, -schedule[-1])):
            move(script, mover, now[first : first + 2] + now[4:], then[first : first + 2] + then[4:])
            stays(script, mover, now[second : second + 2], then[second : second + 2])
        script.clause(-then[1], -then[3])
        now = then
        script.ask("solve", *(f"value {variable}" for variable in schedule))
    print(script)


def run(schedule):
    """Plays a schedule of the lock that isn't mended: what happens in each step, and who is inside at the end."""
    lock, saw, inside = False, set(), set()
    for process in schedule:
        if process in saw:
            saw.remove(process)
            inside.add(process)
            lock = True
            yield f"{process} takes the lock and enters", inside
        elif process in inside:
            inside.remove(process)
            lock = False
            yield f"{process} frees the lock and leaves", inside
        else:
            saw |= set() if lock else {process}
            yield f"{process} sees that the lock is {'taken' if lock else 'free'}", inside


def read(replies):
    for steps, (verdict, values) in enumerate(verdicts(replies), 1):
        print(f"{steps} steps: {verdict}")
        if verdict == "UNSAT":
            for text, inside in run(["A" if values[variable] else "B" for variable in sorted(values)]):
                print(text)
            print("inside:", *sorted(inside))
            return 0 if len(inside) == 2 else 1
    return 0


if __name__ == "__main__":
    if sys.argv[1:2] == ["write"] and "".join(sys.argv[2:]) in STEPS:
        write("".join(sys.argv[2:]))
    elif sys.argv[1:] == ["read"]:
        sys.exit(read(sys.stdin.read().splitlines()))
    else:
        sys.exit(__doc__)
