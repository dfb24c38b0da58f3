#!/usr/bin/env python3
"""Has solvers of others check the certificates of a built program.

usage: checkers.py PROGRAM

PROGRAM is a built qbf, such as bin/qbf. Of 300 formulas that are drawn at random from fixed seeds, of those that
checks/gate/circuits.py has by hand and of small members of the families of bench/families.py, `PROGRAM cert` is asked
for the circuit and `PROGRAM check` for the formula that says that the circuit loses. This is to be the one that is
written here by docs/CHECKING.md from the circuit's text, line by line; `PROGRAM check --decide` is to write WINS; and
every solver is to find the formula unsatisfiable.

Then one literal of the circuit is negated, of a gate or of an output, and the formula is written here for that
circuit. Every solver is to find it satisfiable exactly where the circuit loses, by simulation of all inputs.

Of the smallest formula of each family that bench/ measures the circuit is asked for too, and the solvers alone find
that the check formula is unsatisfiable. Last, check formulas of as many variables as there may be, and of one more.

This needs Python 3 alone. The solvers are the commands picosat, cadical and depqbf of Debian's packages of these
names; without one of them the others are asked, and a line says so. It takes some minutes. Prints a line a case and
one that counts them, and ends with status 1 if a case failed.
"""

import itertools
import random
import shutil
import subprocess
import sys
from functools import partial
from pathlib import Path

sys.dont_write_bytecode = True
TOP = Path(__file__).resolve().parents[2]
sys.path[:0] = [str(TOP / "bench"), str(TOP / "checks" / "gate")]
import families
from circuits import at_random, by_hand, of_families, with_gates, with_guesses
from rules import FALSE, TRUE, Circuit, Fault, Formula, lines_of, matrix_table, require, run, text_of, whole

SOLVERS = {"picosat": ["picosat"], "cadical": ["cadical", "-q"], "depqbf": ["depqbf"]}
SECONDS = 60


# The check formula of a circuit, by docs/CHECKING.md.


def literal_of(number):
    """A literal of AIGER as one of DIMACS: variables are the same, and the constants are False and True."""
    return bool(number) if number < 2 else (-1) ** (number % 2) * (number // 2)


def negated(literal):
    return not literal if isinstance(literal, bool) else -literal


def row_of(literals):
    """A clause without its false literals, repeats and order; None where it always holds."""
    if any(literal is True for literal in literals):
        return None
    row = {literal for literal in literals if not isinstance(literal, bool)}
    return None if any(-literal in row for literal in row) else sorted(row, key=abs)


def check_text(formula, circuit):
    """The text of the check formula of a circuit."""
    names = {name: 2 * place + 2 for place, name in enumerate(circuit.inputs)}
    names.update(zip(circuit.names, circuit.outputs))
    matrix = [[literal_of(names[abs(x)] ^ (x < 0)) for x in clause] for clause in formula.clauses]
    clauses = []
    for gate, one, other in circuit.gates:
        out, a, b = map(literal_of, (gate, one, other))
        clauses += [[-out, a], [-out, b], [out, -a, -b]]
    first = len(circuit.inputs) + len(circuit.gates) + 1
    if circuit.kind == "skolem":
        selectors = list(range(first, first + len(matrix)))
        clauses += [[-s, negated(x)] for s, clause in zip(selectors, matrix) for x in clause]
    else:
        selectors = [first]
        clauses += [[-first, *clause] for clause in matrix]
    rows = [row for row in map(row_of, [*clauses, selectors]) if row is not None]
    last = first - 1 + len(selectors)
    lines = [f"p cnf {last} {len(rows)}"]
    if last:
        lines.append(" ".join(map(str, ["e", *range(1, last + 1), 0])))
    return lines_of(lines + [" ".join(map(str, [*row, 0])) for row in rows])


# Asking.


def ask(tool, text, status):
    """Has a solver decide a check formula. Solvers of DIMACS know no line of a scope."""
    lines = text.splitlines(keepends=True)
    given = text if tool == "depqbf" else "".join(line for line in lines if not line.startswith("e"))
    done = subprocess.run(SOLVERS[tool], input=given.encode(), capture_output=True, timeout=SECONDS)
    require(done.returncode == status, f"{tool} ends with {done.returncode}: {done.stdout[:80]!r} {done.stderr!r}")


def asked(program, text):
    """The verdict of a formula, its circuit and the check formula that the program writes."""
    status, circuit = run(program, "cert", text)
    require(status in (TRUE, FALSE), f"status {status}")
    other, written = run(program, "check", text)
    require(other == status, f"status {other} of check, {status} of cert")
    return status, whole(Circuit, circuit), written


def check(program, tools, text):
    status, circuit, written = asked(program, text)
    require(written == check_text(Formula.read(text), circuit), "another check formula than that of the circuit")
    decided = run(program, "check", text, "--decide")
    require(decided == (status, "WINS\n"), f"{decided} with --decide")
    for tool in tools:
        ask(tool, written, FALSE)


def check_large(program, tools, text):
    _, _, written = asked(program, text)
    for tool in tools:
        ask(tool, written, FALSE)


def changed(draw, circuit):
    """Negates a literal of one gate, or of an output where there is no gate."""
    if circuit.gates:
        place = draw.randrange(len(circuit.gates))
        gate, one, other = circuit.gates[place]
        circuit.gates[place] = (gate, one ^ 1, other) if draw.random() < 0.5 else (gate, one, other ^ 1)
    else:
        place = draw.randrange(len(circuit.outputs))
        circuit.outputs[place] ^= 1


def wins(formula, circuit):
    """Whether the circuit wins, by simulation of all inputs at once."""
    tables, ones = circuit.tables()
    return matrix_table(formula, tables, ones) == (ones if circuit.kind == "skolem" else 0)


def check_changed(program, tools, text, seed, counts):
    formula, circuit = Formula.read(text), asked(program, text)[1]
    if not circuit.outputs:
        return
    changed(random.Random(seed), circuit)
    lost = not wins(formula, circuit)
    counts[lost] += 1
    for tool in tools:
        ask(tool, check_text(formula, circuit), TRUE if lost else FALSE)


def beyond(program, *options):
    """A selector for each clause of a true formula, where there may be no more variables; as many aren't decided."""
    for more, wanted in (0, (TRUE, b"")), (1, (6, b"qbf: limit variables\n")):
        if options and not more:
            continue
        count = 1_048_576 + more
        text = f"p cnf 1 {count}\ne 1 0\n" + count * "1 0\n"
        given = [program, "check", *options]
        done = subprocess.run(given, input=text.encode(), capture_output=True, timeout=SECONDS)
        found = done.returncode, done.stderr
        require(found == wanted, f"{found} for {count} clauses")
        circuit = b"aag 0 0 0 1 0\n1\no0 1\nc\nskolem\n"
        require(not more or done.stdout == circuit, f"{done.stdout[:80]!r} in the circuit's place")


# The cases.


def small_formulas():
    for name, _, scopes, clauses in by_hand():
        yield name, text_of(scopes, clauses)
    yield from ((name, formula.text()) for name, formula in of_families())
    for kind, seed in itertools.product((at_random, with_gates, with_guesses), range(2000, 2100)):
        yield f"{kind.__name__}_{seed}", kind(seed)


def of_each_family():
    found = {}
    for name, size, formula in families.small():
        found.setdefault(name, (size, formula))
    yield from ((f"{name}_{size}", formula.text()) for name, (size, formula) in found.items())


def cases(program, tools, counts):
    for place, (name, text) in enumerate(small_formulas()):
        yield f"{name}.check", partial(check, program, tools, text)
        yield f"{name}.changed", partial(check_changed, program, tools, text, place, counts)
    for name, text in of_each_family():
        yield f"{name}.check", partial(check_large, program, tools, text)
    yield "limit.check", partial(beyond, program)
    yield "limit.check_decide", partial(beyond, program, "--decide")


def main():
    if len(sys.argv) != 2:
        print("usage: checkers.py PROGRAM", file=sys.stderr)
        sys.exit(2)
    tools = [tool for tool in SOLVERS if shutil.which(tool)]
    for tool in SOLVERS:
        if tool not in tools:
            print(f"no {tool}: the command of Debian's package of that name isn't there; the others are asked")
    passed = failed = 0
    counts = {True: 0, False: 0}
    for name, case in cases(sys.argv[1], tools, counts):
        try:
            case()
        except (Fault, OSError, UnicodeDecodeError, subprocess.TimeoutExpired) as why:
            print(f"FAILED {name}: {why}")
            failed += 1
        else:
            print(f"ok {name}")
            passed += 1
    print(f"of the changed circuits {counts[True]} lose and {counts[False]} still win")
    print(f"{passed} passed, {failed} failed")
    sys.exit(1 if failed else 0)


if __name__ == "__main__":
    main()
