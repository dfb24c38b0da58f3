#!/usr/bin/env python3
"""Writes a truth table as a question: for all inputs there are outputs that agree with each line of the table.

usage: table.py TABLE > FORMULA

TABLE is a file in the PLA format of espresso: `.i` and `.o` count inputs and outputs, `.ilb` and `.ob` name them, and a
line of the table has a 0, 1 or - for each input, and behind a blank a 0, 1 or - for each output. An output - leaves the
choice open, and so do inputs that no line has (`.type fr`). FORMULA is QDIMACS: the inputs are the variables from 1 on,
the outputs follow, and its line `c names` has their names in this order.
"""

import sys


def settings_and_lines(text):
    """The words behind each setting, and the lines of the table, each the values of the inputs and of the outputs."""
    settings, lines = {}, []
    for words in (line.split("#")[0].split() for line in text.splitlines()):
        if words and words[0].startswith("."):
            settings[words[0]] = words[1:]
        elif words:
            lines.append(tuple(words))
    return settings, lines


def read_table(path):
    """The names of the inputs and of the outputs, and the lines, of a file."""
    with open(path, encoding="ascii") as file:
        settings, lines = settings_and_lines(file.read())
    if settings.get(".type") != ["fr"]:
        sys.exit(f"{path}: a table of .type fr is wanted, in which an output 0 is asked for as an output 1 is")
    inputs, outputs = settings[".ilb"], settings[".ob"]
    if [settings[".i"], settings[".o"]] != [[str(len(inputs))], [str(len(outputs))]]:
        sys.exit(f"{path}: .i and .o don't count the names of .ilb and .ob")
    for line in lines:
        if [len(word) for word in line] != [len(inputs), len(outputs)] or set("".join(line)) - set("01-"):
            sys.exit(f"{path}: {' '.join(line)} is no line of this table")
    return inputs, outputs, lines


def clauses(inputs, lines):
    """For each line and each output that it asks for: where the inputs are the line's, the output is."""
    for given, wanted in lines:
        differs = [-v if value == "1" else v for v, value in enumerate(given, 1) if value != "-"]
        for v, value in enumerate(wanted, len(inputs) + 1):
            if value != "-":
                yield [*differs, v if value == "1" else -v]


def main():
    inputs, outputs, lines = read_table(sys.argv[1])
    rows = list(clauses(inputs, lines))
    last = len(inputs) + len(outputs)
    print("c names", *inputs, *outputs)
    print("p cnf", last, len(rows))
    print("a", *range(1, len(inputs) + 1), 0)
    print("e", *range(len(inputs) + 1, last + 1), 0)
    for row in rows:
        print(*row, 0)


if __name__ == "__main__":
    if len(sys.argv) != 2:
        sys.exit(__doc__)
    main()
