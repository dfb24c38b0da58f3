"""An arbiter for three clients: a formula, demands that are tried one by one, and a circuit that is evaluated.

docs/PYTHON.md reads it.
"""

from itertools import combinations, product

import qbf

REQUESTS = 1, 2, 3
GRANTS = 4, 5, 6
DEMANDS = {
    "client 1 at once": [-1, 4],
    "client 2 at once": [-2, 5],
    "client 2 unless client 1 requests": [-2, 1, 5],
}


def said(truth):
    return "yes" if truth else "no"


with qbf.Solver() as solver:
    # For all requests there are grants: at most one, only of a request, and one where there is a request.
    solver.forall(*REQUESTS)
    solver.exists(*GRANTS)
    for request, grant in zip(REQUESTS, GRANTS):
        solver.append_formula([[request, -grant], [-request, *GRANTS]])
    for one, other in combinations(GRANTS, 2):
        solver.add_clause([-one, -other])
    print("an arbiter:", said(solver.solve()))

    # A demand is added in a frame of its own, and dropped where no arbiter meets it.
    for text, clause in DEMANDS.items():
        solver.push()
        solver.add_clause(clause)
        met = solver.solve()
        if not met:
            solver.pop()
        print(f"{text}: {said(met)}")

    solver.solve()
    circuit = solver.certificate(trim=True)
    for values in product((False, True), repeat=3):
        grants = circuit.evaluate(dict(zip(REQUESTS, values)))
        print(*map(int, values), "->", *(int(grants[grant]) for grant in GRANTS))
