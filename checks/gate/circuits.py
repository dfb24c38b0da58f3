#!/usr/bin/env python3
"""Checks circuits, traces and replies of a built program, with readers and rules of its own.

usage: circuits.py PROGRAM

PROGRAM is a built qbf, such as bin/qbf; each formula is given to `PROGRAM cert` and `PROGRAM trace` on standard input.
The formulas are some by hand, some of bench/families.py, and some drawn at random from fixed seeds; two over which a
search learns long enough to begin anew, which are decided with restarts and without, and with few rows to keep and
many; and one over which it forgets more than three thousand learned rows, as a debugger counts them.

A circuit is read as strictly as docs/CERTIFICATES.md has it. Its inputs are to be the loser's variables and its outputs
the winner's, in prefix order. All inputs are simulated: each output depends on inputs of earlier scopes alone, and the
matrix is true behind a Skolem circuit and false behind a Herbrand circuit. Then abc is to find the same of the matrix:
it reads the circuit as binary AIGER and writes it as BLIF, and the network of that and the clauses is compared with a
constant. A circuit without outputs is nothing that abc can hold, so for these there is the simulation alone.

Of 300 more formulas that are drawn the circuit is asked for in its four forms, in ASCII and binary, whole and trimmed.
The binary forms are read byte by byte, by AIGER 1.9, and are to be those of the same circuits as the texts. A trimmed
circuit has the same names and the same outputs for all inputs, no more gates, and each of these is reached from an
output. For every tenth formula abc reads the trimmed one in its binary form.

A trace is checked step by step, by docs/CIRCUITS.md and docs/CALCULUS.md: inputs, reductions, resolvents, the empty
last step, inputs first, and each step used. Then DepQBF is to find the same verdict.

Scripts are drawn too, and given to `PROGRAM script`. Each reply is checked against a model of the commands so far: the
refusals, the truth of each verdict, by the whole table of the open formula under its assumptions, and what is told of
it; traces and circuits by the same rules, over that formula and under these assumptions.

This needs Python 3 alone. abc and DepQBF are the commands berkeley-abc and depqbf of Debian's packages of these names;
without one of them all else is checked, and a line says so. It takes some forty seconds. Prints a line a case and one
that counts them, and ends with status 1 if a case failed.
"""

import itertools
import random
import shutil
import subprocess
import sys
from functools import partial
from pathlib import Path

sys.dont_write_bytecode = True
sys.path.insert(0, str(Path(__file__).resolve().parents[2] / "bench"))
import families
from rules import ABC, DEPQBF, FALSE, TRUE, Circuit, Fault, Formula, Trace
from rules import ask_abc, ask_depqbf, check_circuit, check_trace, in_ascii, require, run, run_bytes, text_of, whole
from sessions import check_script, scripts


# The formulas.


def by_hand():
    """Formulas whose verdicts are known: name, status, scopes and clauses."""
    a, e = "a", "e"
    yield "no_variable_no_clause", TRUE, [], []
    yield "empty_clause", FALSE, [], [[]]
    yield "empty_clause_behind_scopes", FALSE, [(a, [1]), (e, [2])], [[1, 2], []]
    yield "no_clause", TRUE, [(a, [1]), (e, [2])], []
    yield "universal_without_clause", TRUE, [(a, [1, 2])], []
    yield "tautologies", TRUE, [(a, [1]), (e, [2])], [[1, -1], [2, 1, -2]]
    yield "existential_unit", TRUE, [(e, [1])], [[1]]
    yield "existential_contradiction", FALSE, [(e, [1])], [[1], [-1]]
    yield "universal_unit", FALSE, [(a, [1])], [[1]]
    yield "universal_clause", FALSE, [(a, [1, 2, 3])], [[1, -2, 3]]
    yield "free_variable", TRUE, [(a, [2])], [[1, 2], [1, -2]]
    yield "free_variable_differs", FALSE, [(a, [2]), (e, [3])], [[1, 2], [-1, -2], [3, 1]]
    yield "neighbouring_sets", TRUE, [(a, [3]), (a, [1]), (e, []), (e, [4]), (e, [2])], [[1, 2], [-1, -2], [3, 4]]
    yield "innermost_universal", TRUE, [(e, [1]), (a, [2])], [[1, 2], [1, -2]]
    yield "innermost_universal_false", FALSE, [(e, [1]), (a, [2])], [[1, 2], [-1, -2]]
    yield "repeated_literals", TRUE, [(a, [1]), (e, [2])], [[1, 2, 1], [-1, -2, -2, -1]]
    yield "differs", TRUE, [(a, [1]), (e, [2])], [[1, 2], [-1, -2]]
    yield "differs_blindly", FALSE, [(e, [2]), (a, [1])], [[1, 2], [-1, -2]]
    yield "conjunction", TRUE, [(a, [1, 2]), (e, [3])], [[-3, 1], [-3, 2], [3, -1, -2]]
    exclusive = [[-1, -2, -3], [1, 2, -3], [1, -2, 3], [-1, 2, 3]]
    yield "exclusive_or", TRUE, [(a, [1, 2]), (e, [3])], exclusive
    yield "exclusive_or_blindly", FALSE, [(a, [1]), (e, [3]), (a, [2])], exclusive
    yield "names_out_of_order", TRUE, [(a, [7]), (e, [3]), (a, [5]), (e, [2])], [[7, 3], [-7, -3], [5, -2, 7], [-5, 2]]
    yield "first_decides", TRUE, [(e, [1, 2]), (a, [3])], [[1, 3], [-1, 2, -3]]
    yield "first_decides_false", FALSE, [(e, [1, 2]), (a, [3])], [[1, 3], [-1, 2, -3], [-2]]
    long = [[-1, -2], [1, 3, -4, -5], [2, -3, -4, -5], [4, 6, -7, -8], [5, -6, -7, -8]]
    ends = [[3, 7], [-3, 7], [6, 8], [-6, 8]]
    yield "two_rounds", FALSE, [(e, [1, 2]), (a, [3]), (e, [4, 5]), (a, [6]), (e, [7, 8])], long + ends
    yield "arbiter", TRUE, [(a, [1, 2, 3]), (e, [4, 5, 6])], arbiter()
    yield "arbiter_of_all", FALSE, [(a, [1, 2, 3]), (e, [4, 5, 6])], arbiter() + [[-1, 4], [-2, 5]]


def arbiter():
    """Grants 4, 5 and 6 for requests 1, 2 and 3."""
    asked = [[-4, 1], [-5, 2], [-6, 3]]
    alone = [[-4, -5], [-4, -6], [-5, -6]]
    return asked + alone + [[-request, 4, 5, 6] for request in (1, 2, 3)]


def of_families():
    """Small members of the families of the benchmark."""
    yield from ((f"pigeons_{n}", families.pigeons(n)) for n in (1, 2, 3))
    yield from ((f"kleine_buening_{n}", families.kleine_buening(n)) for n in (1, 2, 3, 4))
    yield from ((f"equality_{n}", families.equality(n)) for n in (1, 2, 3, 4))
    yield from ((f"parity_{n}", families.parity(n)) for n in (1, 2, 3, 5, 7))
    sizes = ((2, 7, 2.0), (2, 7, 3.0), (3, 4, 2.5), (3, 4, 3.0), (4, 3, 4.0), (4, 3, 6.0), (6, 2, 5.0), (6, 2, 7.0))
    for (scopes, size, ratio), seed in itertools.product(sizes, range(2)):
        yield f"drawn_{scopes}_scopes_{int(10 * ratio)}_{seed}", families.drawn(seed, scopes, size, ratio)
    tasks = {"parity": lambda values: sum(values) % 2 == 1, "both": all, "never": lambda values: False}
    for (name, wanted), (inputs, gates) in itertools.product(tasks.items(), ((2, 1), (2, 2), (3, 1))):
        yield f"synthesis_{name}_{inputs}_{gates}", families.synthesis(inputs, gates, wanted)
    for bits, depth, target in ((1, 1, 0), (1, 1, 1), (1, 2, 1), (2, 1, 2), (2, 1, 3)):
        yield f"squaring_{bits}_{depth}_{target}", families.squaring(bits, depth, target)
    yield from ((f"pursuit_2_1_{apart}", families.pursuit(2, 1, apart)) for apart in (0, 1))


def any_literals(draw, variables, count):
    return [v if draw.random() < 0.5 else -v for v in draw.sample(variables, count)]


def any_gate(draw, out, variables):
    """Clauses by which out is the conjunction, or the exclusive or, of two of these variables, negated or not."""
    a, b = any_literals(draw, variables, 2)
    if draw.random() < 0.5:
        return [[-out, a], [-out, b], [out, -a, -b]]
    return [[-out, a, b], [-out, -a, -b], [out, -a, b], [out, a, -b]]


def any_scopes(draw, count):
    """Scopes of one to three of so many variables, which don't ascend along the prefix."""
    left = draw.sample(range(1, count + 1), count)
    quantifier, scopes = draw.choice("ae"), []
    while left:
        size = draw.randint(1, 3)
        scopes.append((quantifier, left[:size]))
        quantifier, left = "e" if quantifier == "a" else "a", left[size:]
    return scopes


def at_random(seed):
    """Clauses of one to four literals, one of them existential, about where true and false meet."""
    draw = random.Random(seed)
    count = draw.randint(5, 12)
    scopes = any_scopes(draw, count)
    existential = [v for quantifier, variables in scopes if quantifier == "e" for v in variables]
    clauses = []
    for _ in range(int(draw.uniform(1.5, 3.5) * len(existential)) + 1):
        literals = any_literals(draw, range(1, count + 1), draw.randint(1, 3))
        clauses.append(literals + any_literals(draw, existential or range(1, count + 1), 1))
    return text_of(scopes, clauses)


def with_gates(seed):
    """Existential variables are gates of earlier variables, and a clause or two may ask for more."""
    draw = random.Random(seed)
    scopes = any_scopes(draw, draw.randint(8, 14))
    before, clauses = [], []
    for quantifier, variables in scopes:
        for variable in variables if quantifier == "e" and len(before) > 1 else []:
            clauses += any_gate(draw, variable, before)
        before += variables
    clauses += [any_literals(draw, before, 3) for _ in range(draw.randint(0, 2))]
    return text_of(scopes, clauses)


def with_guesses(seed):
    """Some universal variable is to differ from a gate of earlier variables: false, as each may equal its gate."""
    draw = random.Random(seed)
    numbers = itertools.count(1)
    before, scopes, clauses, inner = [], [], [], []
    for _ in range(draw.randint(1, 3)):
        chosen = [next(numbers) for _ in range(1 if before else 2)]
        guess, gate, differs = next(numbers), next(numbers), next(numbers)
        before += chosen
        clauses += any_gate(draw, gate, before) + [[-differs, guess, gate], [-differs, -guess, -gate]]
        scopes += [("e", chosen), ("a", [guess])]
        before.append(guess)
        inner += [gate, differs]
    return text_of([*scopes, ("e", inner)], [*clauses, inner[1::2]])


def with_few_universal(seed, universal, existential, clauses):
    """Clauses of three existential literals, half of them with a universal one, about where true and false meet."""
    draw = random.Random(seed)
    outer, inner = range(1, universal + 1), range(universal + 1, universal + existential + 1)
    drawn = [any_literals(draw, inner, 3) + any_literals(draw, outer, draw.randint(0, 1)) for _ in range(clauses)]
    return text_of([("a", list(outer)), ("e", list(inner))], drawn)


def formulas():
    """Each with its name, and its status where that is known."""
    for name, status, scopes, clauses in by_hand():
        yield name, status, text_of(scopes, clauses)
    for name, formula in of_families():
        yield name, None, formula.text()
    yield from ((f"at_random_{seed}", None, at_random(seed)) for seed in range(25))
    yield from ((f"with_gates_{seed}", None, with_gates(seed)) for seed in range(25))
    yield from ((f"with_guesses_{seed}", FALSE, with_guesses(seed)) for seed in range(10))


# The cases.


def cert(program, tools, text, wanted, *options):
    status, out = run(program, "cert", text, *options)
    require(status == wanted if wanted else status in (TRUE, FALSE), f"status {status}")
    formula, circuit = Formula.read(text), whole(Circuit, out)
    require(circuit.kind == ("skolem" if status == TRUE else "herbrand"), f"{circuit.kind} with status {status}")
    check_circuit(formula, circuit)
    if ABC in tools and circuit.outputs:
        ask_abc(formula, circuit)


def forms(program, tools, text):
    """The four forms of one circuit. `tools` has abc where it is to read the last."""
    whole_status, plain = run(program, "cert", text)
    trim_status, trimmed = run(program, "cert", text, "--trim")
    binary_status, plain_bytes = run_bytes(program, "cert", text, "--binary")
    both_status, trimmed_bytes = run_bytes(program, "cert", text, "--binary", "--trim")
    statuses = {whole_status, trim_status, binary_status, both_status}
    require(len(statuses) == 1 and statuses <= {TRUE, FALSE}, f"statuses {statuses}")
    require(in_ascii(plain_bytes) == plain, "the binary form is of another circuit")
    require(in_ascii(trimmed_bytes) == trimmed, "the trimmed binary form is of another circuit")
    formula, one, other = Formula.read(text), whole(Circuit, plain), whole(Circuit, trimmed)
    require(one.kind == other.kind == ("skolem" if whole_status == TRUE else "herbrand"), f"{one.kind}, {other.kind}")
    check_circuit(formula, other)
    require((one.inputs, one.names) == (other.inputs, other.names), "trimming changes a name")
    require(one.tables() == other.tables(), "trimming changes an output")
    require(len(other.gates) <= len(one.gates), f"{len(other.gates)} gates trimmed from {len(one.gates)}")
    require(not other.unreached(), f"gates that no output comes from: {other.unreached()}")
    if ABC in tools and other.outputs:
        ask_abc(formula, other, trimmed_bytes)


def trace(program, tools, text, wanted, *options):
    status, out = run(program, "trace", text, *options)
    require(status == wanted if wanted else status in (TRUE, FALSE), f"status {status}")
    formula, found = Formula.read(text), whole(Trace, out)
    require(found.verdict == ("SAT" if status == TRUE else "UNSAT"), f"{found.verdict} with status {status}")
    check_trace(formula, found)
    if DEPQBF in tools:
        ask_depqbf(formula, status)


def unknown(program, command, text):
    status, out = run(program, command, text, "--budget", "0")
    require((status, out) == (0, "UNKNOWN\n"), f"status {status} and {out!r} without a step")


def long_cases(program, tools):
    """Searches that learn enough to begin anew or to forget. A circuit over pigeons has too many inputs."""
    restarts = ("--restarts", "16")
    yield "pigeons_4.trace", partial(trace, program, tools, families.pigeons(4).text(), FALSE)
    forgetful = with_few_universal(3, 6, 240, 1104)
    yield "forgetful.trace", partial(trace, program, tools, forgetful, TRUE)
    yield "forgetful.cert", partial(cert, program, tools, forgetful, TRUE)
    pigeons, equality = families.pigeons(7).text(), families.equality(7).text()
    few, many = ("--keep", "16"), ("--keep", "100000")
    for name, options in ("at_once", ()), ("with_restarts", restarts), ("with_few_rows", few), ("with_many_rows", many):
        yield f"pigeons_7_{name}.trace", partial(trace, program, tools, pigeons, FALSE, *options)
        yield f"equality_7_{name}.trace", partial(trace, program, tools, equality, FALSE, *options)
        yield f"equality_7_{name}.cert", partial(cert, program, tools, equality, FALSE, *options)


def form_cases(program, tools):
    """The forms of the circuits of drawn formulas, of a hundred seeds each."""
    for kind, seed in itertools.product((at_random, with_gates, with_guesses), range(1000, 1100)):
        asked = tools if seed % 10 == 0 else []
        yield f"{kind.__name__}_{seed}.forms", partial(forms, program, asked, kind(seed))


def cases(program, tools):
    """Each case with its name."""
    for name, wanted, text in formulas():
        yield f"{name}.cert", partial(cert, program, tools, text, wanted)
        yield f"{name}.trace", partial(trace, program, tools, text, wanted)
    yield from form_cases(program, tools)
    yield from long_cases(program, tools)
    differs = text_of([("a", [1]), ("e", [2])], [[1, 2], [-1, -2]])
    for command in ("cert", "trace"):
        yield f"no_budget.{command}", partial(unknown, program, command, differs)
    for name, commands, budget, version in scripts():
        yield name, partial(check_script, program, commands, budget, version)


def main():
    if len(sys.argv) != 2:
        print("usage: circuits.py PROGRAM", file=sys.stderr)
        sys.exit(2)
    program = sys.argv[1]
    tools = [tool for tool in (ABC, DEPQBF) if shutil.which(tool)]
    for tool in {ABC, DEPQBF} - {*tools}:
        print(f"no {tool}: the command of Debian's package of that name isn't there; all but its part is checked")
    passed = failed = 0
    for name, case in cases(program, tools):
        try:
            case()
        except (Fault, OSError, UnicodeDecodeError, subprocess.TimeoutExpired) as why:
            print(f"FAILED {name}: {why}")
            failed += 1
        else:
            print(f"ok {name}")
            passed += 1
    print(f"{passed} passed, {failed} failed")
    sys.exit(1 if failed else 0)


if __name__ == "__main__":
    main()
