#!/usr/bin/env python3
"""Checks verdicts on quantified circuits of a built program, against their truth tables and with DepQBF.

usage: quantified.py PROGRAM

PROGRAM is a built qbf, such as bin/qbf. 300 circuits are drawn from fixed seeds: prenex, with up to eight quantified
variables in up to five scopes and up to twelve gates, some without inputs and some with opposite ones. Each is written
as QCIR-14, its statements cut anywhere and with comments among them, and given to `PROGRAM solve --qcir` on standard
input. The verdict is to be the circuit's truth, by all values of its quantified variables.

The same circuits are then translated here, by the clauses that docs/QCIR.md has: `PROGRAM solve` and, where it is
installed, DepQBF are to find the same verdict of the formula. DepQBF is the command depqbf of Debian's package of this
name; without it all else is checked, and a line says so.

Prints a line that counts, one a case that failed, and ends with status 1 if a case failed. It takes some seconds.
"""

import random
import shutil
import subprocess
import sys

CIRCUITS = 300
TRUE, FALSE = 10, 20


class Circuit:
    """Scopes of a quantifier and variables, gates of a variable, a kind and inputs, and an output's literal."""

    def __init__(self, scopes, gates, output):
        self.scopes, self.gates, self.output = scopes, gates, output


def drawn(seed):
    """A circuit."""
    draw = random.Random(seed)
    names = draw.sample(range(1, 60), 20)
    scopes = []
    for _ in range(draw.randint(1, 5)):
        scopes.append((draw.choice(["exists", "forall"]), [names.pop() for _ in range(draw.randint(0, 2))]))
    known = [v for _, variables in scopes for v in variables]
    gates = []
    for _ in range(draw.randint(0 if known else 1, 12)):
        if len(names) < 2:
            break
        inputs = [draw.choice([1, -1]) * draw.choice(known) for _ in range(draw.randint(0, 4))] if known else []
        gates.append((names.pop(), draw.choice(["and", "or"]), inputs))
        known.append(gates[-1][0])
    # Mostly the last gate, so that much of the circuit matters.
    last = known[-1] if draw.random() < 0.8 else draw.choice(known)
    return Circuit(scopes, gates, draw.choice([1, -1]) * last)


def text_of(circuit, seed):
    """The circuit as QCIR-14."""
    draw = random.Random(seed)
    listed = lambda numbers: ["("] + [word for n in numbers for word in (",", str(n))][1:] + [")"]
    words = []
    for quantifier, variables in circuit.scopes:
        words += [quantifier, *listed(variables)]
    words += ["output", *listed([circuit.output])]
    for name, kind, inputs in circuit.gates:
        words += [str(name), "=", kind, *listed(inputs)]
    gaps = [" ", "\n", "  ", "\t", " # a comment, with = and (\n"]
    return "#QCIR-14\n" + "".join(word + draw.choice(gaps) for word in words)


def value(circuit, values):
    """The value of the output under these of the quantified variables."""
    values = dict(values)
    holds = lambda literal: values[abs(literal)] == (literal > 0)
    for name, kind, inputs in circuit.gates:
        values[name] = (all if kind == "and" else any)(holds(literal) for literal in inputs)
    return holds(circuit.output)


def truth(circuit):
    """The circuit's truth, by the recursion over its quantified variables."""
    order = [(quantifier, v) for quantifier, variables in circuit.scopes for v in variables]

    def under(values, place):
        if place == len(order):
            return value(circuit, values)
        quantifier, v = order[place]
        both = (under({**values, v: bit}, place + 1) for bit in (False, True))
        return any(both) if quantifier == "exists" else all(both)

    return under({}, 0)


def formula(circuit):
    """Its formula, as QDIMACS: the gates are innermost and existential, and their clauses say what they are."""
    clauses = []
    for name, kind, inputs in circuit.gates:
        g = name if kind == "and" else -name
        signed = [x if kind == "and" else -x for x in inputs]
        clauses += [[-g, x] for x in signed]
        clauses.append([g, *(-x for x in signed)])
    clauses.append([circuit.output])
    scopes = [("e" if quantifier == "exists" else "a", variables) for quantifier, variables in circuit.scopes]
    scopes.append(("e", [name for name, _, _ in circuit.gates]))
    # Empty scopes are left out, and neighbours of one quantifier are one.
    merged = []
    for quantifier, variables in scopes:
        if not variables:
            continue
        if merged and merged[-1][0] == quantifier:
            merged[-1][1].extend(variables)
        else:
            merged.append((quantifier, list(variables)))
    greatest = max((v for _, variables in merged for v in variables), default=0)
    lines = [f"p cnf {greatest} {len(clauses)}"]
    lines += [" ".join([quantifier, *map(str, variables), "0"]) for quantifier, variables in merged]
    lines += [" ".join([*map(str, clause), "0"]) for clause in clauses]
    return "\n".join(lines) + "\n"


def status(words, text):
    """The exit status of a program on this text."""
    return subprocess.run(words, input=text.encode(), stdout=subprocess.DEVNULL, check=False).returncode


def main():
    if len(sys.argv) != 2:
        print("usage: quantified.py PROGRAM", file=sys.stderr)
        return 2
    program = sys.argv[1]
    depqbf = shutil.which("depqbf")
    if not depqbf:
        print("without depqbf, which isn't installed")
    failed, true = 0, 0
    for seed in range(CIRCUITS):
        circuit = drawn(seed)
        wanted = TRUE if truth(circuit) else FALSE
        true += wanted == TRUE
        translated = formula(circuit)
        asked = [("solve --qcir", [program, "solve", "--qcir"], text_of(circuit, seed)),
                 ("solve", [program, "solve"], translated)]
        if depqbf:
            asked.append(("depqbf", [depqbf], translated))
        for name, words, text in asked:
            found = status(words, text)
            if found != wanted:
                failed += 1
                print(f"circuit {seed}: {name} ends with {found}, and not with {wanted}")
    print(f"{CIRCUITS} circuits, {true} of them true; {failed} answers failed")
    return 1 if failed else 0


if __name__ == "__main__":
    sys.exit(main())
