#!/usr/bin/env python3
"""Runs the built program on malformed texts and words: the rows of checks/gate/malformed.txt, whose head says what a
row is.

usage: malformed.py PROGRAM

Each run is to end with the row's status, with its output and its error output, to the letter. What a row says of a text
is also compared with the readers of checks/gate/reading.py, which stand on nothing of the program. Prints a line a case
and ends with status 1 if one failed.
"""

import re
import subprocess
import sys
from pathlib import Path

sys.dont_write_bytecode = True
from reading import Refused, read_circuit, read_formula, read_script
from rules import SECONDS, Fault, require

JOBS = ("solve", "solve --qdo", "trace", "cert")
VERDICTS = (0, 10, 20)


def text_of(field):
    """The bytes of a text as a row writes it."""
    text = field.removesuffix("~").rstrip() if field.endswith("~") else f"{field} /"
    text = re.sub(r" ?(?<!\S)/(?!\S) ?", "\n", text)
    return text.encode().decode("unicode_escape").encode("latin-1")


def rows():
    """Each row as its six fields."""
    for line in Path(__file__).with_suffix(".txt").read_text().splitlines():
        if line and not line.startswith("#"):
            fields = [field.strip() for field in line.split("|")]
            require(len(fields) == 6, f"no row: {line}")
            yield fields


def agrees(words, text, status, error):
    """Compares what a row says of a text with the readers."""
    why = None
    try:
        if words[0] == "script":
            _, _, why = read_script(text)
        elif "--qcir" in words:
            read_circuit(text)
        else:
            read_formula(text)
    except Refused as found:
        why = found
    if why:
        require((status, error) == (why.status, str(why)), f"the reader finds {str(why)!r}")
    else:
        require(status in VERDICTS, "the reader finds nothing malformed")


def case(program, words, text, status, output, error):
    done = subprocess.run([program, *words], input=text, capture_output=True, timeout=SECONDS)
    require(done.returncode == status, f"status {done.returncode}, not {status}, with {done.stdout!r} {done.stderr!r}")
    require(done.stdout == output, f"output {done.stdout!r}, not {output!r}")
    if error == b"*\n":
        require(done.stderr, "no error output")
    else:
        require(done.stderr == error, f"error output {done.stderr!r}, not {error!r}")


def main():
    if len(sys.argv) != 2:
        print("usage: malformed.py PROGRAM", file=sys.stderr)
        sys.exit(2)
    failed = 0
    for name, command, text, status, output, error in rows():
        text, status = text_of(text), int(status)
        output, error = (text_of(field) if field else b"" for field in (output, error))
        for job in JOBS if command == "formula" else [command]:
            words = job.split()
            try:
                if status not in (3, 7):
                    agrees(words, text, status, error.decode())
                case(sys.argv[1], words, text, status, output, error)
            except (Fault, OSError, subprocess.TimeoutExpired) as why:
                print(f"FAILED {name} ({job}): {why}")
                failed += 1
            else:
                print(f"ok {name} ({job})")
    sys.exit(1 if failed else 0)


if __name__ == "__main__":
    main()
