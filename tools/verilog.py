#!/usr/bin/env python3
"""Writes a circuit of `qbf cert` as a module in Verilog.

usage: verilog.py CIRCUIT FORMULA > MODULE

CIRCUIT is the text that `qbf cert FORMULA` has written. The module has the name of the file CIRCUIT, an input for each
input of the circuit and an output for each output. The formula's comment line `c names`, where there is one, has the
names of the variables 1, 2 and so on; an output of the name - stands for a part of the question, and is left out with
all that it alone rests on. A variable without a name is v with its number.
"""

import sys
import textwrap
from pathlib import Path


class Circuit:
    """The literals of inputs and outputs with the formula's variables, and the edges of each gate."""

    def __init__(self, text):
        lines = text.splitlines()
        if not lines or not lines[0].startswith("aag "):
            sys.exit(f"no circuit, but {' '.join(lines[:1]) or 'nothing'}")
        _, inputs, latches, outputs, gates = map(int, lines[0].split()[1:])
        if latches:
            sys.exit("a circuit with latches is none of qbf cert")
        self.inputs = [int(line) for line in lines[1 : 1 + inputs]]
        self.outputs = [int(line) for line in lines[1 + inputs : 1 + inputs + outputs]]
        rows = [list(map(int, line.split())) for line in lines[1 + inputs + outputs :][:gates]]
        self.gates = {row[0]: row[1:] for row in rows}
        symbols = dict(line.split() for line in lines[1 + inputs + outputs + gates :] if line[0] in "io")
        self.input_variables = [int(symbols[f"i{place}"]) for place in range(inputs)]
        self.output_variables = [int(symbols[f"o{place}"]) for place in range(outputs)]

    def needed(self, literals):
        """The gates that these literals rest on, ascending."""
        found, waiting = set(), [literal & ~1 for literal in literals]
        while waiting:
            gate = waiting.pop()
            if gate in self.gates and gate not in found:
                found.add(gate)
                waiting += [edge & ~1 for edge in self.gates[gate]]
        return sorted(found)


def names_of(formula):
    """The names of the variables by number, of a formula's line `c names`."""
    for words in (line.split() for line in formula.splitlines()):
        if words[:2] == ["c", "names"]:
            return dict(enumerate(words[2:], 1))
    return {}


def declaration(front, names, end):
    return textwrap.fill(front + ", ".join(names) + end, 100, subsequent_indent="    ")


def module(name, circuit, names):
    """The lines of the module."""
    name_of = lambda variable: names.get(variable, f"v{variable}")
    inputs = [name_of(variable) for variable in circuit.input_variables]
    outputs = dict(zip(map(name_of, circuit.output_variables), circuit.outputs))
    outputs.pop("-", None)
    gates = circuit.needed(outputs.values())
    wire = dict(zip(circuit.inputs, inputs)) | {gate: f"n{gate}" for gate in gates}
    edge = lambda literal: f"1'b{literal}" if literal < 2 else "~" * (literal & 1) + wire[literal & ~1]

    yield declaration(f"module {name}(", [*inputs, *outputs], ");")
    for kind, found in ("input", inputs), ("output", list(outputs)), ("wire", [wire[gate] for gate in gates]):
        if found:
            yield declaration(f"  {kind} ", found, ";")
    for gate in gates:
        yield f"  assign {wire[gate]} = {' & '.join(map(edge, circuit.gates[gate]))};"
    for output, literal in outputs.items():
        yield f"  assign {output} = {edge(literal)};"
    yield "endmodule"


def main():
    path, formula = map(Path, sys.argv[1:])
    print(*module(path.stem, Circuit(path.read_text()), names_of(formula.read_text())), sep="\n")


if __name__ == "__main__":
    if len(sys.argv) != 3:
        sys.exit(__doc__)
    main()
