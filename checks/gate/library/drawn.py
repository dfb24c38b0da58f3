#!/usr/bin/env python3
"""Carries out drawn scripts by calls of the Python package, and checks the replies as checks/gate/circuits.py does.

usage: drawn.py

The scripts are those of checks/gate/sessions.py, of all three versions, with frames, groups, assumptions and questions.
Verdicts, values and cores are compared with brute force, traces and circuits by the rules of checks/gate/rules.py. Where a
script has no budget, its solves are made by turns without one, with a great one, and in slices. Ends with status 1 at
the first script that fails.
"""

import sys
from pathlib import Path

sys.path.insert(0, str(Path(__file__).resolve().parents[2] / "gate"))
import qbf
from sessions import check_replies, scripts

# More steps than any of these solves takes.
MUCH = 1 << 40


class Session:
    """A solver, and the replies that `qbf script` would write."""

    def __init__(self, version, budget):
        self.solver = qbf.Solver(version)
        self.budget = budget
        self.solves = 0
        self.held = []
        self.replies = []

    def solve(self):
        """A solve. Without a verdict the assumptions of a script stand, and those of the package don't."""
        truth = self.decide()
        if truth is None:
            self.solver.assume(*self.held)
        else:
            self.held = []
        return truth

    def decide(self):
        self.solves += 1
        if self.budget is not None:
            return self.solver.solve(budget=self.budget)
        if self.solves % 3 == 0:
            return self.solver.solve(timeout=60, progress=lambda steps: None)
        if self.solves % 3 == 1:
            return self.solver.solve(budget=MUCH)
        return self.solver.solve()

    def answer(self, word, rest):
        """The reply to a command, or None where it has none."""
        solver = self.solver
        if word == "scope":
            solver.scope(rest[0] == "a", at=self.place(rest))
        elif word == "clause":
            solver.add_clause(rest)
        elif word in ("var", "push", "activate", "deactivate"):
            getattr(solver, word)(*rest)
        elif word == "pop":
            solver.pop()
            left = {variable for scope in solver.prefix() for variable in scope.variables}
            self.held = [literal for literal in self.held if abs(literal) in left]
        elif word == "assume":
            solver.assume(*rest)
            self.held += rest
        elif word == "open":
            solver.open_group(*rest)
        elif word == "close":
            solver.close_group()
        elif word == "solve":
            return {True: "SAT", False: "UNSAT", None: "UNKNOWN"}[self.solve()]
        elif word == "value":
            return f"value {rest[0] if solver.value(*rest) else -rest[0]}"
        elif word == "relevant":
            return " ".join(map(str, ["relevant", *solver.relevant(), 0]))
        elif word == "core":
            return " ".join(map(str, ["core", *solver.core(self.budget), 0]))
        else:
            return (solver.trace() if word == "trace" else solver.certificate().aag()).removesuffix("\n")
        return None

    def place(self, rest):
        """A scope's place: 0 of a script is none, and that of the package is behind all others."""
        return 0 if len(rest) == 1 else rest[1] or -1

    def reply(self, word, rest):
        try:
            said = self.answer(word, rest)
        except qbf.Refusal as why:
            said = "UNKNOWN" if why.number == qbf.Code.SPENT else f"refused {why.number}"
        if said is not None:
            self.replies.append(said)


def main():
    for name, commands, budget, version in scripts():
        session = Session(version, budget)
        for word, rest in commands:
            session.reply(word, rest)
        try:
            check_replies(commands, budget, version, "\n".join([*session.replies, ""]))
        except Exception as why:
            print(f"{name}: {why}")
            sys.exit(1)


if __name__ == "__main__":
    main()
