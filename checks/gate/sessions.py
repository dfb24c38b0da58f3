"""Drawn scripts, and a plain model of what their commands come to: what checks/gate/circuits.py checks `qbf script` by.

The model keeps scopes, frames of clauses with the variables that leave with them, groups of clauses, assumptions and
the last verdict, by docs/SCRIPTS.md and docs/FRAMES.md.
Truth is found by the whole table of the open formula; traces and circuits are checked by the rules of
checks/gate/rules.py.
"""

import random

from rules import Circuit, Formula, Lines, Trace, check_circuit, check_trace, lines_of, require, run

GREATEST = 1_048_576
QUESTIONS = ("value", "relevant", "trace", "cert")
MOST_GROUPS = 65_536


class Verdict:
    """A verdict: of which formula, under which assumptions, and what was told of it."""

    def __init__(self, formula, assumed, truth):
        self.formula = formula
        self.assumed = assumed
        self.truth = truth
        self.values = {}
        self.last = None

    @property
    def winner(self):
        return "e" if self.truth else "a"

    def owns_first(self):
        """Whether the first scope is the winner's."""
        return bool(self.formula.scopes) and self.formula.scopes[0][0] == self.winner

    def tell_value(self, literal):
        """A value belongs to those told before, and to the assumptions; with all of them the truth is the same."""
        told = self.values.setdefault(abs(literal), literal)
        require(told == literal, f"value {literal} where it was {told}")
        require(-literal not in self.assumed, f"value {literal} against an assumption")
        told = {*self.values.values(), *self.assumed}
        require(self.formula.truth(told) == self.truth, f"another truth under the values {sorted(told)}")

    def tell_last(self, variables):
        """The variables of the proof's last row are those told before."""
        self.last = variables if self.last is None else self.last
        require(variables == self.last, f"the last row is over {variables} where it was over {self.last}")


class Model:
    """What commands come to, from the start on."""

    def __init__(self, budget, version):
        self.budget = budget
        self.version = version
        self.scopes = []
        self.frames = [([], [])]
        self.groups = {}
        self.active = set()
        self.open = None
        self.assumed = []
        self.verdict = None

    def scope_of(self, variable):
        """The number of its scope, from 1, or none."""
        return next((n for n, (_, variables) in enumerate(self.scopes, 1) if variable in variables), None)

    def is_unknown(self, literals):
        return any(self.scope_of(abs(literal)) is None for literal in literals)

    def refusals(self, word, rest):
        """The numbers by which a command may be refused, in order, each with whether it is."""
        if word == "scope":
            yield 44, bool(self.assumed)
            yield 3, len(rest) > 1 and not 1 <= rest[1] <= len(self.scopes) + 1
        elif word == "var":
            yield 44, bool(self.assumed)
            yield 2, not 1 <= rest[0] <= GREATEST
            yield 1, self.scope_of(rest[0]) is not None
            yield 3, not 1 <= rest[1] <= len(self.scopes)
        elif word == "clause":
            yield 41, self.is_unknown(rest)
        elif word == "push":
            yield 46, self.open is not None
        elif word == "pop":
            yield 40, len(self.frames) == 1
        elif word == "open":
            yield 47, not 1 <= rest[0] <= MOST_GROUPS
            yield 46, self.open is not None
            yield 49, len(self.frames) > 1
        elif word == "close":
            yield 48, self.open is None
        elif word in ("activate", "deactivate"):
            yield 47, not 1 <= rest[0] <= MOST_GROUPS
            yield 48, rest[0] not in self.groups
            yield 46, self.open is not None
        elif word == "core":
            yield 50, self.verdict is None
            yield 53, self.verdict.truth
        elif word == "assume":
            yield 41, self.is_unknown(rest)
            yield 42, self.scope_of(abs(rest[0])) != 1
            yield 43, -rest[0] in self.assumed
        elif word in QUESTIONS:
            yield 50, self.verdict is None
            if word == "value":
                yield 51, self.scope_of(rest[0]) != 1
                yield 52, not self.verdict.owns_first()

    def refusal(self, word, rest):
        for number, holds in self.refusals(word, rest):
            if holds:
                return number
        return None

    def change(self, word, rest):
        """Carries out an accepted change."""
        self.verdict = None
        if word == "scope":
            place = rest[1] - 1 if len(rest) > 1 else len(self.scopes)
            self.scopes.insert(place, (rest[0], []))
        elif word == "var":
            self.scopes[rest[1] - 1][1].append(rest[0])
            if self.version >= 2 and len(self.frames) > 1:
                self.frames[-1][1].append(rest[0])
        elif word == "clause":
            (self.frames[-1][0] if self.open is None else self.groups[self.open]).append(rest)
        elif word == "push":
            self.frames.append(([], []))
        elif word == "pop":
            self.leave(self.frames.pop()[1])
        elif word == "assume" and rest[0] not in self.assumed:
            self.assumed.append(rest[0])
        else:
            self.change_group(word, rest)

    def change_group(self, word, rest):
        if word == "open":
            self.open = rest[0]
            if rest[0] not in self.groups:
                self.groups[rest[0]] = []
                self.active.add(rest[0])
        elif word == "close":
            self.open = None
        elif word == "activate":
            self.active.add(rest[0])
        elif word == "deactivate":
            self.active.discard(rest[0])

    def formula(self, groups):
        """The clauses of all frames, and those of some groups."""
        clauses = [clause for clauses, _ in self.frames for clause in clauses]
        return Formula(self.scopes, clauses + [clause for group in sorted(groups) for clause in self.groups[group]])

    def leave(self, variables):
        """Takes variables out of their scopes, with the assumptions over them."""
        self.scopes = [(quantifier, [v for v in of if v not in variables]) for quantifier, of in self.scopes]
        self.assumed = [literal for literal in self.assumed if abs(literal) not in variables]

    def solve(self, lines):
        """A verdict is the truth and empties the assumptions; UNKNOWN comes under a low budget, and keeps them."""
        formula = self.formula(self.active)
        [said] = lines.take("(SAT|UNSAT|UNKNOWN)", "reply of solve")
        self.verdict = None
        if said == "UNKNOWN":
            self.may_stop()
            return
        truth = formula.truth(self.assumed)
        require((said == "SAT") == truth, f"{said} of a formula that is {truth}, assumed {self.assumed}")
        self.verdict = Verdict(formula, self.assumed, truth)
        self.assumed = []

    def may_stop(self):
        n = sum(len(variables) for _, variables in self.scopes)
        require(self.budget is not None and self.budget < (8 * n + 8) * 2 ** (n + 1), "UNKNOWN without need")

    def core(self):
        """Each active group in turn is left out where the formula is false without it, and without those left out."""
        kept = set(self.active)
        for group in sorted(self.active):
            if not self.formula(kept - {group}).truth(self.verdict.assumed):
                kept.remove(group)
        return sorted(kept)

    def ask_core(self, lines):
        """The core, or UNKNOWN under a low budget; the verdict stays."""
        [said] = lines.take("(UNKNOWN|core (?:[1-9][0-9]* )*0)", "reply of core")
        if said == "UNKNOWN":
            self.may_stop()
        else:
            require(said == " ".join(map(str, ["core", *self.core(), 0])), f"{said}, where {self.core()} is right")

    def ask(self, lines, word, rest):
        """The reply to an accepted question."""
        verdict = self.verdict
        if word == "value":
            verdict.tell_value(lines.numbers(f"value (-?{rest[0]})", "reply of value")[0])
        elif word == "relevant":
            [said] = lines.take("relevant ((?:-?[1-9][0-9]* )*)0", "reply of relevant")
            told = [int(literal) for literal in said.split()]
            require(told == sorted(set(told), key=abs), f"relevant {told}")
            require(set(told) <= set(verdict.assumed), f"relevant {told} of {verdict.assumed}")
            require(verdict.formula.truth(told) == verdict.truth, f"another truth under {told} alone")
            verdict.tell_last([abs(literal) for literal in told])
        elif word == "trace":
            trace = Trace(lines)
            require((trace.verdict == "SAT") == verdict.truth, f"a trace of {trace.verdict}")
            check_trace(verdict.formula, trace, verdict.assumed)
            verdict.tell_last([abs(literal) for literal in trace.steps[-1][0]])
        elif word == "core":
            self.ask_core(lines)
        else:
            self.ask_circuit(lines)

    def ask_circuit(self, lines):
        """The circuit wins, and has the values that were told of the first scope, or are told later."""
        circuit, verdict = Circuit(lines), self.verdict
        require((circuit.kind == "skolem") == verdict.truth, f"a {circuit.kind} circuit")
        check_circuit(verdict.formula, circuit, verdict.assumed)
        if verdict.owns_first():
            tables, _ = circuit.tables()
            for variable in verdict.formula.scopes[0][1]:
                verdict.tell_value(variable if tables[variable] else -variable)

    def reply(self, lines, word, rest):
        """Takes the reply to a command, and carries it out."""
        number = self.refusal(word, rest)
        if number is not None:
            lines.take(f"refused {number}", f"reply of {word}")
        elif word == "solve":
            self.solve(lines)
        elif word in (*QUESTIONS, "core"):
            self.ask(lines, word, rest)
        else:
            self.change(word, rest)


def line_of(word, rest):
    return " ".join(map(str, [word, *rest, *([0] if word == "clause" else [])]))


def check_replies(commands, budget, version, out):
    """Checks the replies to commands of this version, each solve having had this budget."""
    model = Model(budget, version)
    lines = Lines(out) if out else Lines("\n")
    for number, (word, rest) in enumerate(commands, 1):
        try:
            model.reply(lines, word, rest)
        except Exception as why:
            raise type(why)(f"command {number} of the script, {line_of(word, rest)!r}: {why}") from None
    require(not out or lines.at_end(), "replies behind the last one")


def script_of(commands, version):
    return lines_of([f"p qscript {version}", *(line_of(word, rest) for word, rest in commands)])


def check_script(program, commands, budget, version):
    """Has the program reply to commands of this version, and checks each reply."""
    options = [] if budget is None else ["--budget", str(budget)]
    status, out = run(program, "script", script_of(commands, version), *options)
    require(status == 0, f"status {status}")
    check_replies(commands, budget, version, out)


def some_literals(draw, variables, count):
    return [draw.choice((v, -v)) for v in draw.choices(variables, k=count)]


def drawn_commands(seed, least=30, most=60):
    """A prefix of up to eight variables, and then commands of each kind, some of them refused."""
    draw = random.Random(seed)
    quantifier = draw.choice("ae")
    count, variables = draw.randint(1, 4), list(range(1, draw.randint(3, 8)))
    for place in range(count):
        yield "scope", ["ae"[(place + (quantifier == "e")) % 2]]
    for variable in variables:
        yield "var", [variable, draw.choice((draw.randint(1, count), count))]
    kinds = {drawn_clause: 36, drawn_frame: 20, drawn_questions: 24, drawn_assumption: 14, drawn_growth: 6}
    for kind in draw.choices(list(kinds), list(kinds.values()), k=draw.randint(least, most)):
        yield from kind(draw, variables)


def drawn_clause(draw, variables):
    """A clause, now and then an empty one, or over a variable that no scope has; repeated literals and tautologies."""
    size = draw.choices((0, 1, 2, 3, 4), (1, 8, 40, 40, 11))[0]
    literals = some_literals(draw, variables, size)
    yield "clause", literals + ([99] if draw.random() < 0.03 else [])


def drawn_frame(draw, _):
    yield draw.choice(("push", "pop")), []


def drawn_assumption(draw, variables):
    yield "assume", some_literals(draw, [*variables, 99] if draw.random() < 0.05 else variables, 1)


def drawn_growth(draw, variables):
    """A scope, put in or last, or a variable, the next one or any."""
    if draw.random() < 0.3:
        yield "scope", [draw.choice("ae"), *([draw.randint(0, 6)] if draw.random() < 0.7 else [])]
    elif draw.random() < 0.6 and len(variables) < 9:
        variable = len(variables) + 1
        variables.append(variable)
        yield "var", [variable, draw.randint(1, 2)]
    else:
        yield "var", [draw.choice((0, 1, 2, GREATEST + 1)), draw.randint(0, 6)]


def drawn_questions(draw, variables):
    """A verdict, mostly, and questions in any order."""
    if draw.random() < 0.9:
        yield "solve", []
    for word in draw.choices(QUESTIONS, k=draw.randint(0, 6)):
        yield word, [draw.choice(variables)] if word == "value" else []


def leaving_commands(seed, count=200):
    """So many commands over few variables that are added in frames, leave with these, and are added again."""
    draw = random.Random(seed)
    scopes, variables = draw.randint(1, 4), list(range(1, draw.randint(3, 8)))
    commands = [("scope", ["ae"[(place + seed) % 2]]) for place in range(scopes)]
    kinds = {drawn_clause: 34, drawn_frame: 22, drawn_questions: 12, drawn_assumption: 10}
    while len(commands) < count:
        if draw.random() < 0.35:
            commands.append(("var", [draw.choice(variables), draw.randint(1, scopes)]))
        else:
            commands += draw.choices(list(kinds), list(kinds.values()))[0](draw, variables)
    return commands[:count]


def drawn_group(draw, _):
    """A group opened, closed, or made active or not, mostly a small one."""
    word = draw.choices(("open", "close", "activate", "deactivate"), (4, 10, 26, 60))[0]
    yield word, [] if word == "close" else [draw.choice((*range(1, 13), 0, MOST_GROUPS, MOST_GROUPS + 1))]


def drawn_block(draw, variables):
    """A group of one to twelve opened, a clause or two of it, and closed."""
    yield "open", [draw.randint(1, 12)]
    for _ in range(draw.randint(1, 2)):
        yield "clause", some_literals(draw, variables, draw.choice((1, 2, 2, 2, 3, 3)))
    yield "close", []


def drawn_pop(draw, _):
    yield draw.choice(("push", "pop", "pop", "pop")), []


def drawn_core(draw, _):
    yield "solve", []
    yield "core", []


def grouped_commands(seed, count=200):
    """So many commands over few variables, with groups that are filled, made active or not, and cores."""
    draw = random.Random(seed)
    scopes, variables = draw.randint(1, 3), list(range(1, draw.randint(4, 8)))
    commands = [("scope", ["ea"[(place + seed) % 2]]) for place in range(scopes)]
    commands += [("var", [variable, draw.randint(1, scopes)]) for variable in variables]
    kinds = {drawn_block: 30, drawn_clause: 2, drawn_group: 24, drawn_core: 24, drawn_pop: 6, drawn_questions: 2}
    kinds[drawn_assumption] = 6
    while len(commands) < count:
        commands += draw.choices(list(kinds), list(kinds.values()))[0](draw, variables)
    return commands[:count]


def scripts():
    """Each with its name, its commands, the budget of its verdicts, and its version."""
    for seed in range(120):
        yield f"script_{seed}", list(drawn_commands(seed)), None, 1
    for seed in range(120, 150):
        yield f"script_with_budget_{seed}", list(drawn_commands(seed)), seed % 10, 1
    for seed in range(150, 190):
        yield f"script_whose_variables_leave_{seed}", list(drawn_commands(seed)), None, 2
    for seed in range(190, 240):
        yield f"script_whose_variables_come_again_{seed}", leaving_commands(seed), None, 2
    for seed in range(240, 300):
        yield f"script_with_groups_{seed}", grouped_commands(seed), None, 3
    for seed in range(300, 320):
        yield f"script_with_groups_and_budget_{seed}", grouped_commands(seed), seed % 20, 3
