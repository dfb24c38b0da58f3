#!/usr/bin/env python3
"""Writes a circuit of `qbf cert` in the binary form of AIGER 1.9, which abc reads.

usage: binary.py CIRCUIT > BINARY

CIRCUIT is the text that `qbf cert` has written. Its variables count the inputs and then the gates, and a gate's line
has the greater edge first, as the binary form asks. The symbols stay, and the comment.
"""

import sys
from pathlib import Path


def number(n):
    """A number in groups of seven bits, the lowest first, each but the last with the eighth bit set."""
    while n > 127:
        yield n & 127 | 128
        n >>= 7
    yield n


def binary(lines):
    """The bytes of the binary form."""
    _, greatest, inputs, latches, outputs, gates = lines[0].split()
    if latches != "0":
        sys.exit("a circuit with latches is none of qbf cert")
    first = 1 + int(inputs)
    last = first + int(outputs) + int(gates)
    yield "\n".join([f"aig {greatest} {inputs} 0 {outputs} {gates}", *lines[first : last - int(gates)], ""]).encode()
    for line in lines[last - int(gates) : last]:
        gate, left, right = map(int, line.split())
        yield bytes([*number(gate - left), *number(left - right)])
    yield "\n".join([*lines[last:], ""]).encode()


def main(words):
    lines = Path(words[0]).read_text(encoding="ascii").splitlines()
    if not lines or not lines[0].startswith("aag "):
        sys.exit(f"no circuit, but {' '.join(lines[:1]) or 'nothing'}")
    sys.stdout.buffer.writelines(binary(lines))


if __name__ == "__main__":
    if len(sys.argv) != 2:
        sys.exit(__doc__)
    main(sys.argv[1:])
