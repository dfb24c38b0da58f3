#!/usr/bin/env python3
"""Refuses each of the built program's requests for memory in turn.

usage: memory.py PROGRAM

Each row is run with the first of its requests for memory refused, then with the second, and so on, until a run meets no
refusal: once with that request alone, and once with all behind it. Each refused run is to end with status 5, with
`qbf: no memory` on the error output, and on the output with a front of what the row says; the last one as the row does.
Behind the first 3,000 requests each number is twice the one before. An end row that is kept and a lesson that is
shortened may be left out: a refused request for one of these leaves the verdict, with the same output or with another
trace or circuit, which is checked. No more than half of a row's requests may be so.

This needs a C compiler and the GNU C library; without a compiler a line says that all was skipped, and the status is 0.
It is no part of the gate. Prints a line a case and ends with status 1 if one failed.
"""

import itertools
import subprocess
import sys
from pathlib import Path

sys.dont_write_bytecode = True
TOP = Path(__file__).resolve().parents[2]
sys.path[:0] = [str(TOP / "bench"), str(TOP / "checks" / "gate")]
import families
from refusing import Refusing, compiler
from rules import FALSE, TRUE, Circuit, Fault, Formula, Trace, check_circuit, check_trace, lines_of, require, whole

EXAMPLES = TOP / "examples"
EACH = 3000
# As few requests of the program as no row makes; fewer mean that the library has not seen them.
FEWEST = 5


def text(lines):
    """The text of lines that slashes part."""
    return lines_of(lines.split(" / "))


DIFFERS = text("p cnf 2 2 / a 1 0 / e 2 0 / 1 2 0 / -1 -2 0")
BLINDLY = text("p cnf 2 2 / e 2 0 / a 1 0 / 1 2 0 / -1 -2 0")
CONJUNCTION = text("p cnf 3 3 / a 1 2 0 / e 3 0 / -3 1 0 / -3 2 0 / 3 -1 -2 0")
TRACE = "p qrp 2 5 / e 2 0 / a 1 0 / 1 1 2 0 0 / 2 -1 -2 0 0 / 3 2 0 1 0 / 4 -2 0 2 0 / 5 0 3 4 0 / r UNSAT"
TWO_SCOPES = "p qscript 1 / scope a / var 1 1 / scope e / var 2 2 / clause 1 2 0"


def rows():
    """Each row: its name, the words, the text, and the status and the output that are right, where they are known."""
    yield "trace", ["trace"], BLINDLY, FALSE, text(TRACE)
    assumed = f"{TWO_SCOPES} / clause 1 -2 0 / solve / assume 1 / solve / solve"
    yield "script_with_an_assumption", ["script"], text(assumed), 0, text("UNSAT / SAT / UNSAT")
    put_in = f"{TWO_SCOPES} / clause -1 -2 0 / solve / scope e 1 / var 3 1 / clause 3 0 / assume -3 / solve"
    yield "script_with_a_scope_put_in", ["script"], text(put_in), 0, text("SAT / UNSAT")
    yield "cert", ["cert"], CONJUNCTION, TRUE, None
    yield "solve", ["solve"], DIFFERS, TRUE, text("SAT")
    yield "result_lines", ["solve", "--qdo"], BLINDLY, FALSE, text("s cnf 0 2 2")
    yield "spent", ["solve", "--budget", "0"], DIFFERS, 0, text("UNKNOWN")
    for path in sorted(EXAMPLES.glob("*.qscript")):
        words = ["script", "--budget", "0"] if path.stem == "no_step" else ["script"]
        yield path.stem, words, path.read_text(), 0, path.with_suffix(".out").read_text()
    yield "gen", ["gen", "0", "3", "1"], "", 0, text("p cnf 3 1 / e 1 0 / a 2 0 / e 3 0 / -1 2 -3 0")
    yield "demo", ["demo", "0", "6"], "", 0, None
    yield "trace_of_pigeons", ["trace"], families.pigeons(3).text(), FALSE, None
    yield "cert_of_parity", ["cert"], families.parity(4).text(), FALSE, None
    yield "solve_of_pigeons", ["solve", "--restarts", "2"], families.pigeons(5).text(), FALSE, text("UNSAT")
    yield "solve_that_keeps_few_rows", ["solve", "--keep", "16"], families.pigeons(5).text(), FALSE, text("UNSAT")


def doubled(number):
    while True:
        yield number
        number *= 2


def check_answer(words, text, out):
    """Checks a trace or a circuit."""
    if words == ["trace"]:
        check_trace(Formula.read(text), whole(Trace, out))
    elif words == ["cert"]:
        check_circuit(Formula.read(text), whole(Circuit, out))
    else:
        raise Fault(f"another output: {out!r}")


def answers(words, text, ample, run):
    """Whether a run with a refused request ends with a right answer all the same; raises where it is a wrong one."""
    if (run.status, run.err) == (5, "qbf: no memory\n") and ample.out.startswith(run.out):
        return False
    require((run.status, run.err) == (ample.status, ""), str(run))
    if run.out != ample.out:
        check_answer(words, text, run.out)
    return True


def check_in_turn(program, words, text, ample, behind):
    """Answers how many requests there are, all or where those are many the first ones and some behind them, and how
    many of them may be left out.
    """
    wrong = []
    left_out = 0
    numbers = itertools.chain(range(1, EACH + 1), doubled(2 * EACH))
    for number, run in program.in_turn(words, text, numbers, refuse_memory=True, refuse_all=behind):
        try:
            left_out += bool(run.told) and answers(words, text, ample, run)
        except Fault as why:
            wrong.append(f"without request {number}{' and all behind it' if behind else ''}: {why}")
    require((run.status, run.out, run.err) == (ample.status, ample.out, ""), f"{run} where nothing was refused")
    require(number > FEWEST, f"{number - 1} requests were seen")
    require(2 * left_out <= number, f"{left_out} requests of {number - 1} may be left out")
    require(not wrong, "; ".join([*wrong[:5], *(["and others"] if wrong[5:] else [])]))
    some = f"{number - 1}" if number <= EACH + 1 else f"the first {EACH} and some up to {number // 2}"
    return f"{some} requests refused in turn, {left_out} of which may be left out"


def check(program, words, text, status, out):
    ample = program.run(words, text)
    require(status is None or ample.status == status, f"{ample} where all is granted")
    require(out is None or ample.out == out, f"{ample} where all is granted")
    require(ample.err == "" and ample.told == "", f"{ample} where all is granted")
    if words in (["trace"], ["cert"]):
        check_answer(words, text, ample.out)
    check_in_turn(program, words, text, ample, 1)
    return check_in_turn(program, words, text, ample, 0)


def main():
    if len(sys.argv) != 2:
        print("usage: memory.py PROGRAM", file=sys.stderr)
        sys.exit(2)
    if not compiler():
        print("skipped: there is no C compiler, by which requests for memory are refused")
        return
    program = Refusing(sys.argv[1])
    failed = 0
    for name, *row in rows():
        try:
            told = check(program, *row)
        except (Fault, OSError, UnicodeDecodeError, subprocess.TimeoutExpired) as why:
            print(f"FAILED {name}: {why}")
            failed += 1
        else:
            print(f"ok {name}: {told}")
    sys.exit(1 if failed else 0)


if __name__ == "__main__":
    main()
