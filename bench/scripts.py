#!/usr/bin/env python3
"""Runs qbf on scripts that grow, and prints processor seconds, microseconds a command, and memory.

Each script opens a frame, puts ten clauses into it, solves and drops the frame, again and again: `small` over an empty
formula, `base` over one of so many clauses that stay, and `leave` with ten variables of its own in version 2, which
leave with the frame; `same` puts one clause of one literal into it, the same each time. The time is to be linear in the
number of commands; a round over a base decides its variables.

usage: scripts.py        QBF=COMMAND in the environment: another command than bin/qbf script
"""

import os
import random
import tempfile
from pathlib import Path


def clause(draw, variables):
    """Three literals over different variables, as a line."""
    chosen = sorted(draw.sample(range(1, variables + 1), 3))
    return "clause " + " ".join(str(v if draw.random() < 0.5 else -v) for v in chosen) + " 0\n"


def script(commands, variables, base):
    """A script of so many commands, thirteen a round."""
    draw = random.Random(1)
    lines = ["p qscript 1\n", "scope e\n", "scope a\n", "scope e\n"]
    third = variables // 3
    for v in range(1, variables + 1):
        lines.append(f"var {v} {1 if v <= third else 2 if v <= 2 * third else 3}\n")
    lines += [f"clause {2 * third + 1 + i % third} {1 + i % third} 0\n" for i in range(base)]
    for _ in range(commands // 13):
        lines.append("push\n")
        lines += [clause(draw, variables) for _ in range(10)]
        lines += ["solve\n", "pop\n"]
    return "".join(lines)


def leaving(commands):
    """A script of version 2 of so many commands, 23 a round: ten variables come and leave, with ten clauses."""
    draw = random.Random(1)
    lines = ["p qscript 2\n", "scope e\n", "scope a\n", "scope e\n"]
    for _ in range(commands // 23):
        lines.append("push\n")
        lines += [f"var {v} {1 + v % 3}\n" for v in range(1, 11)]
        lines += [clause(draw, 10) for _ in range(10)]
        lines += ["solve\n", "pop\n"]
    return "".join(lines)


def again(commands):
    """A script of so many commands, four a round: a frame with the same unit clause each time."""
    return "p qscript 1\nscope e\nvar 1 1\n" + "push\nclause 1 0\nsolve\npop\n" * (commands // 4)


def scripts(commands):
    """Scripts of so many commands, by their names."""
    yield "small", script(commands, 30, 0)
    yield "base", script(commands, 300, 1000)
    yield "leave", leaving(commands)
    yield "same", again(commands)


def cost(command):
    """The processor seconds that a command took, and its greatest memory in megabytes."""
    child = os.fork()
    if child == 0:
        os.dup2(os.open(os.devnull, os.O_WRONLY), 1)
        os.execvp(command[0], command)
    _, status, usage = os.wait4(child, 0)
    assert os.waitstatus_to_exitcode(status) == 0, command
    return usage.ru_utime + usage.ru_stime, usage.ru_maxrss // 1024


def main():
    root = Path(__file__).resolve().parent.parent
    command = os.environ.get("QBF", f"{root}/bin/qbf script").split()
    with tempfile.TemporaryDirectory() as folder:
        path = Path(folder) / "script"
        for commands in [12_500, 25_000, 50_000, 100_000, 200_000, 400_000]:
            for name, text in scripts(commands):
                path.write_text(text)
                seconds, megabytes = cost([*command, str(path)])
                print(f"{name:6} {commands:7} commands {seconds:6.2f} s {1e6 * seconds / commands:6.1f} us a command"
                      f" {megabytes:4} MB")


if __name__ == "__main__":
    main()
