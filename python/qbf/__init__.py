"""qbf: an incremental solver of quantified Boolean formulas whose answers are proved.

    >>> import qbf
    >>> with qbf.Solver() as solver:
    ...     _ = solver.forall(1), solver.exists(2)
    ...     solver.append_formula([[1, 2], [-1, -2]])
    ...     solver.solve(), solver.certificate().evaluate({1: True})
    (True, {2: False})

docs/PYTHON.md leads from a formula to a circuit in five minutes. The proofs are of the library; this package over it is
tested.
"""

from .circuit import Circuit
from .files import Run, read_qdimacs, run, solve_file, write_qdimacs
from .refusal import Code, Refusal
from .solver import Scope, Solver

__all__ = [
    "Circuit",
    "Code",
    "Refusal",
    "Run",
    "Scope",
    "Solver",
    "read_qdimacs",
    "run",
    "solve_file",
    "write_qdimacs",
]
