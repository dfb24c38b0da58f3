#!/usr/bin/env python3
"""Drives `qbf script` over pipes, a command at a time, and waits for each reply before it writes the next command.

usage: dialogue.py PROGRAM

A thousand drawn commands of each version, written whole lines at a time, a byte at a time, and with blanks, empty lines
and comments between; each reply is to come while the input stays open and nothing stands behind the command, within a
second, or more where the machine is busy, and is to be the one that the same script has from a file. A reply that is
greater than a pipe's buffer; a last line that only the end of the input ends; and lines that are refused where they
end. Prints a line a case and ends with status 1 if one failed.
"""

import os
import select
import subprocess
import sys
import time
from functools import partial

sys.dont_write_bytecode = True
from rules import Fault, Lines, require, run
from sessions import Model, drawn_commands, grouped_commands, leaving_commands, line_of, script_of

COMMANDS = 1000
# What a pipe holds where nobody reads it, at most.
PIPE = 2**20
# Variables of a formula whose circuit is a text beyond that.
MANY = 80_000


def patience():
    """Seconds within which a reply is to come: one, and more by as many as want each processor."""
    return max(1, 10 * os.getloadavg()[0] / os.cpu_count())


class Dialogue:
    """The program at the other end of two pipes."""

    def __init__(self, program):
        self.solver = subprocess.Popen([program, "script"], stdin=subprocess.PIPE, stdout=subprocess.PIPE,
                                       stderr=subprocess.PIPE, bufsize=0)

    def __enter__(self):
        return self

    def __exit__(self, *_):
        self.solver.kill()
        for pipe in (self.solver.stdin, self.solver.stdout, self.solver.stderr):
            pipe.close()
        self.solver.wait()

    def write(self, *pieces):
        for piece in pieces:
            os.write(self.solver.stdin.fileno(), piece)

    def hear(self, wanted, what):
        """Waits for these bytes of output."""
        heard, end = b"", time.monotonic() + patience()
        while len(heard) < len(wanted):
            left = end - time.monotonic()
            require(left > 0 and select.select([self.solver.stdout], [], [], left)[0],
                    f"{what}: no reply in time, or {heard[:80]!r} of {wanted[:80]!r}")
            some = os.read(self.solver.stdout.fileno(), len(wanted) - len(heard))
            require(some, f"{what}: the output ended")
            heard += some
        require(heard == wanted, f"{what}: {heard[:80]!r} and not {wanted[:80]!r}")

    def end(self, status, err=b""):
        """Waits for the program's end, with nothing more on its output."""
        self.solver.wait(patience())
        require(self.solver.returncode == status, f"status {self.solver.returncode} and not {status}")
        require(self.solver.stdout.read() == b"", "replies behind the last one")
        found = self.solver.stderr.read()
        require(found == err, f"{found!r} and not {err!r} on the error output")

    def close(self):
        self.solver.stdin.close()
        self.end(0)


def replies(program, commands, version):
    """The reply to each command from a file, which is to be right."""
    status, out = run(program, "script", script_of(commands, version))
    require(status == 0, f"status {status} from a file")
    model, lines = Model(None, version), Lines(out)
    for word, rest in commands:
        place = lines.place
        model.reply(lines, word, rest)
        yield "".join(f"{line}\n" for line in lines.lines[place:lines.place]).encode()
    lines.end()


def whole(number, line):
    yield line + b"\n"


def bytewise(number, line):
    yield from (bytes([byte]) for byte in line + b"\n")


# What stands in front of a command, and what behind it on its line.
FRONTS = b"", b"\n", b" \t\n", b"c\n", b"c solve \xff\n", b"\r\n\v\f", b"\nc 1\n\n"
BEHINDS = b"", b" ", b"\r", b"\t \r"


def spaced(number, line):
    yield FRONTS[number % len(FRONTS)]
    yield line.replace(b" ", b" \t ") + BEHINDS[number % len(BEHINDS)] + b"\n"


def thousand(program, pieces, commands, version):
    """Commands one by one, each with its reply."""
    commands = commands[:COMMANDS]
    require(len(commands) == COMMANDS, f"{len(commands)} commands")
    with Dialogue(program) as dialogue:
        dialogue.write(*pieces(0, b"p qscript %d" % version))
        wanted = replies(program, commands, version)
        for number, (command, reply) in enumerate(zip(commands, wanted), 1):
            line = line_of(*command)
            dialogue.write(*filter(None, pieces(number, line.encode())))
            dialogue.hear(reply, f"command {number}, {line!r}")
        dialogue.close()


def great_reply(program):
    """A reply beyond a pipe's buffer, and one behind it."""
    commands = [("scope", ["e"]), *(("var", [variable, 1]) for variable in range(1, MANY + 1)), ("solve", [])]
    script = script_of([*commands, ("cert", []), ("value", [MANY])], 1)
    status, out = run(program, "script", script)
    require(status == 0, f"status {status} from a file")
    lines = out.encode().splitlines(keepends=True)
    text = b"".join(lines[1:-1])
    require(len(text) > PIPE, f"a text of {len(text)} bytes")
    with Dialogue(program) as dialogue:
        dialogue.write(script_of(commands, 1).encode())
        dialogue.hear(lines[0], "solve")
        dialogue.write(b"cert\n")
        dialogue.hear(text, "cert")
        dialogue.write(b"value %d\n" % MANY)
        dialogue.hear(lines[-1], "value")
        dialogue.close()


def no_line_end(program):
    """The end of the input ends a line."""
    with Dialogue(program) as dialogue:
        dialogue.write(b"p qscript 1\nsolve\n")
        dialogue.hear(b"SAT\n", "solve")
        dialogue.write(b"value 1")
        dialogue.solver.stdin.close()
        dialogue.hear(b"refused 51\n", "value")
        dialogue.end(0)


def malformed(program, front, line, number):
    """A line is refused where it ends, with the input open, behind the replies to those before it."""
    with Dialogue(program) as dialogue:
        dialogue.write(front, line)
        dialogue.hear(b"SAT\n" * front.count(b"solve"), "solve")
        dialogue.end(2, b"qbf: line %d: refused %d\n" % (front.count(b"\n") + 1, number))


def cases(program):
    made = {
        1: list(drawn_commands(0, COMMANDS, COMMANDS)),
        2: leaving_commands(1, COMMANDS),
        3: grouped_commands(2, COMMANDS),
    }
    for version, commands in made.items():
        for pieces in whole, bytewise, spaced:
            yield f"dialogue_version_{version}_{pieces.__name__}", partial(thousand, program, pieces, commands, version)
    yield "dialogue_great_reply", partial(great_reply, program)
    yield "dialogue_no_line_end", partial(no_line_end, program)
    head = b"p qscript 1\nscope e\nvar 1 1\nsolve\n"
    for name, front, line, number in (
        ("header", b"", b"p qscript\n", 30),
        ("command", head, b"jump\n", 31),
        ("clause", head, b"clause 1\n", 32),
        ("variable", head, b"var 2 \n", 32),
        ("literal", head, b"assume\r\n", 32),
        ("many_words", head, b"solve 1\n", 32),
    ):
        yield f"dialogue_malformed_{name}", partial(malformed, program, front, line, number)


def main():
    if len(sys.argv) != 2:
        print("usage: dialogue.py PROGRAM", file=sys.stderr)
        sys.exit(2)
    failed = 0
    for name, case in cases(sys.argv[1]):
        try:
            case()
        except (Fault, OSError, subprocess.TimeoutExpired) as why:
            print(f"FAILED {name}: {why}")
            failed += 1
        else:
            print(f"ok {name}")
    sys.exit(1 if failed else 0)


if __name__ == "__main__":
    main()
