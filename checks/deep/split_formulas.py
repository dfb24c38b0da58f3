#!/usr/bin/env python3
"""Draws the formulas of checks/deep/split.sh, and checks what was joined.

usage: split_formulas.py write FOLDER    writes FOLDER/drawn_0.qdimacs and so on, each with words for tools/split
       split_formulas.py check FOLDER    checks FOLDER/drawn_0.joined and so on, which tools/join wrote
"""

import sys
from collections import Counter
from pathlib import Path

sys.dont_write_bytecode = True
TOP = Path(__file__).resolve().parents[2]
sys.path[:0] = [str(TOP / "bench"), str(TOP / "checks" / "gate")]
import families
from rules import Circuit, Fault, Formula, check_circuit, require, whole

FORMULAS = 100
SHAPES = ((2, 5, 4.2), (3, 4, 5.0), (4, 3, 4.5), (5, 2, 5.0))


def drawn(seed):
    """A formula's text with the words for tools/split; in some an existential first scope has no set, and is free."""
    scopes, size, ratio = SHAPES[seed % len(SHAPES)]
    formula = families.drawn(seed, scopes, size, ratio * (0.7 + 0.1 * (seed // 4 % 5)))
    quantifier, first = formula.scopes[0]
    if quantifier == "e" and seed % 3 == 0:
        del formula.scopes[0]
        clauses = {abs(literal) for clause in formula.clauses for literal in clause}
        first = [variable for variable in first if variable in clauses]
    count = min(len(first), 1 + seed % 2)
    named = seed % 5 == 0
    words = ["--over", ",".join(map(str, first[-count:]))] if named else ["--most", str(count)]
    return formula.text(), words + ["--cert"] * (seed % 4 < 3)


def write(folder):
    for seed in range(FORMULAS):
        text, words = drawn(seed)
        (folder / f"drawn_{seed}.qdimacs").write_text(text)
        (folder / f"drawn_{seed}.words").write_text(" ".join(words) + "\n")


def check_one(folder, name):
    """The kind of a formula: its first quantifier, its verdict, and whether a circuit came, which is to win."""
    formula = Formula.read((folder / f"{name}.qdimacs").read_text())
    verdict = (folder / f"{name}.whole").read_text().split()[0]
    quantifier = formula.scopes[0][0]
    alone = verdict == ("SAT" if quantifier == "e" else "UNSAT")
    text = (folder / f"{name}.joined").read_text()
    if alone and "--cert" in (folder / f"{name}.words").read_text():
        circuit = whole(Circuit, text)
        require(circuit.kind == ("skolem" if verdict == "SAT" else "herbrand"), f"{circuit.kind} with {verdict}")
        check_circuit(formula, circuit)
    else:
        require(text == f"{verdict}\n", f"{text!r} in place of the verdict")
    return quantifier, verdict


def check(folder):
    kinds, failed = Counter(), False
    for seed in range(FORMULAS):
        try:
            kinds[check_one(folder, f"drawn_{seed}")] += 1
        except (Fault, OSError, UnicodeDecodeError) as why:
            print(f"FAILED joined_{seed}: {why}")
            failed = True
    if not failed:
        print("ok joined")
    if len(kinds) == 4 and min(kinds.values()) >= 5:
        print("ok kinds")
    else:
        print(f"FAILED kinds: {dict(kinds)}")
        failed = True
    return failed


if __name__ == "__main__":
    sys.exit({"write": write, "check": check}[sys.argv[1]](Path(sys.argv[2])))
