#!/usr/bin/env python3
"""Refuses each request for memory of the tests in crates/test_memory in turn: none of them may fail.

usage: engine_memory.py TESTS    TESTS as `rt test` leaves them: crates/test_memory/out/test_memory_tests

Where a call of the engine wants memory, these tests ask what can be asked without memory, and make the call again, or
drop the frames. Each request is refused alone, from the first one until a run meets no refusal.

This needs a C compiler and the GNU C library; without a compiler a line says that all was skipped, and the status is 0.
It is no part of the gate. Prints a line a test and ends with status 1 if one failed.
"""

import itertools
import subprocess
import sys

sys.dont_write_bytecode = True
from refusing import Refusing, compiler
from rules import SECONDS, Fault, require

# As few requests as neither test makes; fewer mean that the library has not seen them.
FEWEST = 100


def names(tests):
    """The names of the tests, each of which is run by itself."""
    done = subprocess.run([tests, "--list"], capture_output=True, text=True, timeout=SECONDS)
    require(done.returncode == 0 and ": test\n" in done.stdout, f"{tests} lists no tests")
    return [line.removesuffix(": test") for line in done.stdout.splitlines() if line.endswith(": test")]


def check(program, name):
    """Answers how many requests a test makes."""
    ample = program.run([name], "")
    require((ample.status, ample.told) == (0, ""), f"{ample} where all is granted")
    for number, run in program.in_turn([name], "", itertools.count(1), refuse_memory=True):
        require((run.status, run.out, run.err) == (0, ample.out, ample.err), f"without request {number}: {run}")
    require(number > FEWEST, f"{number - 1} requests were seen")
    return number - 1


def main():
    if len(sys.argv) != 2:
        print("usage: engine_memory.py TESTS", file=sys.stderr)
        sys.exit(2)
    if not compiler():
        print("skipped: there is no C compiler, by which requests for memory are refused")
        return
    program = Refusing(sys.argv[1])
    failed = 0
    for name in names(sys.argv[1]):
        try:
            requests = check(program, name)
        except (Fault, OSError, UnicodeDecodeError, subprocess.TimeoutExpired) as why:
            print(f"FAILED {name}: {why}")
            failed += 1
        else:
            print(f"ok {name}: {requests} requests refused in turn")
    sys.exit(1 if failed else 0)


if __name__ == "__main__":
    main()
