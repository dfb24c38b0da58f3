#!/usr/bin/env python3
"""Simulates a module against a truth table, or writes a test bench that does.

usage: simulate.py TABLE MODULE
       simulate.py --bench TABLE NAME > BENCH

TABLE is a file as table.py reads it, and MODULE one of Verilog as verilog.py and abc write it: ports, wires, and
assignments of expressions over ~, &, ^ and |. Each line of the table is tried at all inputs that it stands for. Ends
with status 1 where an output isn't as the table has it, and says where. The test bench does the same to module NAME.
"""

import itertools
import re
import sys

from table import read_table


def assignments(path):
    """The expression of each wire and output of a module."""
    with open(path, encoding="ascii") as file:
        text = re.sub(r"//.*", "", file.read())
    return {name: value for name, value in re.findall(r"assign\s+(\w+)\s*=([^;]*);", text)}


def value_of(name, values, found):
    """The value of a wire. Those that it rests on are worked out first and kept in `values`."""
    waiting, begun = [name], set()
    while waiting:
        expression = found.get(waiting[-1], "")
        missing = [word for word in re.findall(r"(?<![\w'])[A-Za-z_]\w*", expression) if word not in values]
        if missing and waiting[-1] in begun:
            sys.exit(f"{waiting[-1]} rests on itself")
        if missing:
            begun.add(waiting[-1])
            waiting += missing
            continue
        wire = waiting.pop()
        if not re.fullmatch(r"([\w\s~&^|()]|1'b[01])+", expression):
            sys.exit(f"{wire} has no value: {expression.strip() or 'nothing is assigned'}")
        values[wire] = eval(expression.replace("1'b", ""), {}, values) & 1
    return values[name]


def points(given):
    """All values of the inputs that a line of the table stands for."""
    return itertools.product(*("01" if value == "-" else value for value in given))


def wrong_outputs(table, found):
    """The inputs and the output of each place where the module isn't as the table has it."""
    inputs, outputs, lines = table
    for given, wanted in lines:
        for point in points(given):
            values = dict(zip(inputs, map(int, point)))
            for name, value in zip(outputs, wanted):
                if value != "-" and value_of(name, values, found) != int(value):
                    yield "".join(point), name, value


def bench(table, name):
    """The lines of a test bench, which writes what is wrong and then `done`."""
    inputs, outputs, lines = table
    ports = ", ".join(f".{port}({port})" for port in inputs + outputs)
    yield "module bench;"
    yield f"  reg {', '.join(inputs)};"
    yield f"  wire {', '.join(outputs)};"
    yield f"  {name} it({ports});"
    yield "  initial begin"
    for given, wanted in lines:
        for point in points(given):
            asked = [f"{output} !== 1'b{value}" for output, value in zip(outputs, wanted) if value != "-"]
            yield f"    {{{', '.join(inputs)}}} = {len(inputs)}'b{''.join(point)}; #1;"
            if asked:
                yield f"    if ({' || '.join(asked)}) $display(\"wrong at {''.join(point)}\");"
    yield '    $display("done");'
    yield "  end"
    yield "endmodule"


def main(words):
    if words[0] == "--bench":
        print(*bench(read_table(words[1]), words[2]), sep="\n")
        return 0
    table = read_table(words[0])
    wrong = list(wrong_outputs(table, assignments(words[1])))
    for point, name, value in wrong:
        print(f"at {point} {name} isn't {value}")
    tried = sum(len(list(points(given))) for given, _ in table[2])
    print(f"{tried} inputs tried, {len(wrong)} outputs wrong")
    return 1 if wrong else 0


if __name__ == "__main__":
    if len(sys.argv) != 3 + (sys.argv[1:2] == ["--bench"]):
        sys.exit(__doc__)
    sys.exit(main(sys.argv[1:]))
