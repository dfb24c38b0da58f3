#!/usr/bin/env python3
"""What the Python package adds to the library: exceptions, slices with a time limit and a callback, circuits that are
evaluated, files, threads, and the names of PySAT.

usage: package.py PROGRAM

Ends with status 1 where a test fails.
"""

import doctest
import itertools
import pickle
import subprocess
import sys
import tempfile
import threading
import time
import traceback
from pathlib import Path

ROOT = Path(__file__).resolve().parents[3]
sys.path.insert(0, str(ROOT / "checks" / "gate"))
import qbf
from rules import Formula

PROGRAM = sys.argv[1]


def refused(number, call, *given, **named):
    """The call is refused with this number."""
    try:
        answer = call(*given, **named)
    except qbf.Refusal as why:
        assert (why.number, why.name) == (number, qbf.Code(number).name), why
        return why
    raise AssertionError(f"{answer} where {number} is wanted")


def differing():
    """For each value of 1 there is one of 2 that differs from it."""
    solver = qbf.Solver()
    solver.forall(1)
    solver.exists(2)
    solver.append_formula([[1, 2], [-1, -2]])
    return solver


def pigeons(count):
    """So many pigeons and one hole less."""
    solver = qbf.Solver()
    holes = range(count - 1)
    solver.exists(*range(1, count * (count - 1) + 1))
    place = [[pigeon * (count - 1) + hole + 1 for hole in holes] for pigeon in range(count)]
    solver.append_formula(place)
    for one, other in itertools.combinations(place, 2):
        solver.append_formula([-one[hole], -other[hole]] for hole in holes)
    return solver


def test_first_example():
    assert doctest.testmod(qbf).failed == 0


def test_refusals():
    solver = differing()
    refused(1, solver.exists, 2)
    for variable in (0, -1, 2**20 + 1, 2**64 + 3, -(2**70)):
        refused(2, solver.var, variable, 1)
    for scope in (0, 3, -1, 2**64 + 1):
        refused(3, solver.var, 3, scope)
    refused(3, solver.scope, True, at=-1)
    for literal in (0, 3, 2**63, -(2**63), 2**64 + 1, -(2**70)):
        refused(41, solver.add_clause, [literal])
        refused(41, solver.assume, literal)
    refused(40, solver.pop)
    refused(42, solver.solve, [2])
    refused(43, solver.solve, [1, -1])
    refused(50, solver.relevant)
    refused(50, solver.model)
    refused(64, qbf.Solver, 0)
    refused(64, qbf.Solver, 4)
    refused(65, solver.set_kept_rows, 2**40)
    assert solver.solve() is True and solver.depth == 0
    solver.delete()
    refused(61, solver.push)


def test_other_errors():
    solver = differing()
    for call, error in (
        (lambda: solver.add_clause(["1"]), TypeError),
        (lambda: solver.add_clause([1.5]), TypeError),
        (lambda: solver.var(1.0, 1), TypeError),
        (lambda: solver.solve(budget=-1), ValueError),
        (lambda: solver.set_restarts(-1), ValueError),
        (lambda: solver.solve().evaluate, AttributeError),
    ):
        try:
            call()
        except error:
            continue
        raise AssertionError(error)


def test_refusal_as_value():
    why = refused(112, qbf.Solver.of_qdimacs, "p cnf 1 1\n2 0\n")
    assert why.line == 2 and "line 2" in str(why)
    again = pickle.loads(pickle.dumps(why))
    assert (again.code, again.line, str(again)) == (why.code, why.line, str(why))


def test_prefix():
    solver = qbf.Solver()
    assert solver.exists(3) == 1 and solver.exists(1) == 1 and solver.forall(2) == 2
    assert solver.scope(True, [5], at=1) == 1 and solver.scope_of(2) == 3
    assert solver.prefix() == [(True, [5]), (False, [1, 3]), (True, [2])]
    assert solver.prefix()[1].variables == [1, 3] and solver.nof_vars() == 4
    solver.add_clause([])
    solver.add_clause(iter((5, -2)))
    assert solver.qdimacs() == "p cnf 5 2\na 5 0\ne 1 3 0\na 2 0\n0\n-2 5 0\n"


def test_frames_and_groups():
    solver = differing()
    with solver.frame():
        solver.add_clause([2])
        assert solver.solve() is False and solver.depth == 1
    assert solver.solve() is True
    with solver.group(7):
        solver.add_clause([2])
    with solver.group(3):
        solver.add_clause([1, 2])
    assert solver.solve() is False and solver.core() == [7]
    refused(63, solver.core, budget=0)
    solver.deactivate(7)
    assert solver.solve() is True
    refused(53, solver.core)


def test_assumptions():
    solver = qbf.Solver()
    solver.exists(*range(1, 41))
    solver.forall(41)
    solver.add_clause([-1, 41])
    solver.add_clause([-2, -3])
    assert solver.solve(assumptions=[1, *range(2, 41)]) is False
    assert len(solver.relevant()) in (1, 2) and solver.get_core() == solver.relevant()
    solver.assume(1)
    refused(43, solver.solve, [-1])
    assert solver.solve() is True and solver.get_core() is None
    solver.assume(1)
    assert solver.solve([4]) is False and solver.solve() is True
    solver.assume(1)
    assert solver.solve(budget=0) is None and solver.verdict is None and solver.solve() is True


def test_model():
    solver = differing()
    assert solver.get_model() is None and solver.get_status() is None
    assert solver.solve() and solver.model() is None and solver.get_model() is None
    refused(52, solver.value, 1)
    refused(51, solver.value, 2)
    solver.add_clause([2])
    assert solver.solve() is False and solver.model() == [1] and solver.value(1) is True and solver.verdict is False


def test_slices():
    solver = pigeons(8)
    told = []
    assert solver.solve(progress=told.append) is False
    assert told == sorted(told) and solver.spent() >= sum(told[-1:])
    solver = pigeons(11)
    began = time.monotonic()
    assert solver.solve(timeout=0.3) is None
    assert 0.2 < time.monotonic() - began < 30
    told = []
    assert solver.solve(progress=lambda steps: told.append(steps) or len(told) < 3) is None and len(told) == 3
    assert solver.solve(budget=100_000, timeout=60) is None and solver.spent() == 100_000
    assert solver.solve(budget=1000) is None and solver.spent() == 1000


def test_circuits():
    text = (ROOT / "examples/arbiter.qdimacs").read_text()
    solver, formula = qbf.Solver.of_qdimacs(text), Formula.read(text)
    solver.solve()
    for trim in (False, True):
        circuit = solver.certificate(trim)
        words = ["cert", "--trim"] if trim else ["cert"]
        whole = subprocess.run([PROGRAM, *words, ROOT / "examples/arbiter.qdimacs"], capture_output=True)
        assert circuit.aag().encode() == whole.stdout
        whole = subprocess.run([PROGRAM, *words, "--binary", ROOT / "examples/arbiter.qdimacs"], capture_output=True)
        assert circuit.aig() == whole.stdout
        assert circuit.truth and circuit.inputs == [1, 2, 3] and circuit.outputs == [4, 5, 6]
        for values in itertools.product((False, True), repeat=3):
            played = {**dict(zip(circuit.inputs, values)), **circuit(dict(zip(circuit.inputs, values)))}
            for clause in formula.clauses:
                assert any(played[abs(literal)] == (literal > 0) for literal in clause)
    assert solver.trace().endswith("r SAT\n") and solver.check_formula().startswith("p cnf ")


def test_files():
    with tempfile.TemporaryDirectory() as folder:
        path = Path(folder) / "f.qdimacs"
        qbf.write_qdimacs(differing(), path)
        assert path.read_text() == "p cnf 2 2\na 1 0\ne 2 0\n1 2 0\n-1 -2 0\n"
        assert qbf.read_qdimacs(str(path)).qdimacs() == path.read_text()
        assert qbf.solve_file(path) is True and qbf.solve_file(path, budget=0) is None
        assert qbf.solve_file(ROOT / "examples/early_grant.qdimacs", timeout=60) is False


def test_run():
    text = (ROOT / "examples/arbiter.qdimacs").read_text()
    whole = subprocess.run([PROGRAM, "trace"], input=text.encode(), capture_output=True)
    assert qbf.run("trace", text) == (10, whole.stdout, b"")
    assert qbf.run("trace", text, room=10).status == 4
    made = subprocess.run([PROGRAM, "gen", "1", "3000", "9000"], capture_output=True).stdout
    assert qbf.run("gen 1 3000 9000") == (0, made, b"") and len(made) > 1 << 16
    status, output, error = qbf.run("solve", "p cnf 1 1\n2 0\n")
    assert (status, output, error) == (2, b"", b"qbf: line 2: refused 12\n")
    assert qbf.run("").status == 7


def test_threads():
    """Calls of several threads come one after the other, and so does the work of a handle that goes through them."""
    solver = qbf.Solver()
    solver.exists(*range(1, 2001))

    def work(first):
        for variable in range(first, 2000, 8):
            solver.add_clause([-variable, variable + 1])
            if variable % 200 == 0:
                assert solver.solve() is True

    threads = [threading.Thread(target=work, args=(first,)) for first in range(1, 9)]
    for thread in threads:
        thread.start()
    for thread in threads:
        thread.join()
    assert solver.solve([1, -2000]) is False and set(solver.relevant()) == {1, -2000}


def main():
    failed = 0
    for name, test in sorted(globals().items()):
        if name.startswith("test_"):
            try:
                test()
            except Exception:
                failed = 1
                print(name)
                traceback.print_exc(file=sys.stdout)
    sys.exit(failed)


if __name__ == "__main__":
    main()
