"""Readers of the program's texts, and the rules of circuits and traces: what checks/gate/circuits.py checks by.

The texts are read as strictly as docs/CERTIFICATES.md has them, formulas by docs/QDIMACS.md. The rules of circuits and
traces are those of docs/CIRCUITS.md and docs/CALCULUS.md, over a formula, under assumptions of its first scope.
"""

import itertools
import re
import subprocess
import tempfile
from pathlib import Path

ABC = "berkeley-abc"
DEPQBF = "depqbf"
SECONDS = 60
NUMBER = "(0|[1-9][0-9]*)"
TRUE, FALSE = 10, 20


class Fault(Exception):
    """What is wrong with a text."""


def require(holds, why):
    if not holds:
        raise Fault(why)


# Formulas.


def row_of(literals):
    """The literals once each, ascending by variable."""
    return tuple(sorted(set(literals), key=lambda literal: (abs(literal), literal)))


def is_tautology(row):
    return any(-literal in row for literal in row)


class Formula:
    """Scopes, outermost first, each a quantifier with its variables, and clauses. Tautologies are left out."""

    def __init__(self, scopes, clauses):
        self.scopes = [(quantifier, sorted(variables)) for quantifier, variables in scopes]
        self.clauses = [row for row in map(row_of, clauses) if not is_tautology(row)]
        self.level = {v: level for level, (_, variables) in enumerate(self.scopes) for v in variables}
        self.quantifier = {v: quantifier for quantifier, variables in self.scopes for v in variables}

    @classmethod
    def read(cls, text):
        """The formula of a QDIMACS text, by the rules of docs/QDIMACS.md."""
        lines = [line for line in text.splitlines() if not line.startswith("c")]
        words = iter(" ".join(lines[1:]).split())
        sets, clauses = [], []
        for word in words:
            rest = [] if word == "0" else [int(w) for w in itertools.takewhile(lambda w: w != "0", words)]
            if word in ("a", "e"):
                sets.append((word, rest))
            else:
                clauses.append(rest if word == "0" else [int(word), *rest])
        bound = {variable for _, variables in sets for variable in variables}
        free = {abs(literal) for clause in clauses for literal in clause} - bound
        scopes = []
        for quantifier, variables in [("e", free), *sets]:
            if variables and scopes and scopes[-1][0] == quantifier:
                scopes[-1] = quantifier, [*scopes[-1][1], *variables]
            elif variables:
                scopes.append((quantifier, list(variables)))
        return cls(scopes, clauses)

    def variables_of(self, quantifier):
        """Its variables in prefix order."""
        return [v for q, variables in self.scopes if q == quantifier for v in variables]

    def text(self):
        """A QDIMACS text of it."""
        return text_of([scope for scope in self.scopes if scope[1]], self.clauses)

    def truth(self, assumed):
        """Its truth under these literals of the first scope: by the table of the matrix, quantifier by quantifier."""
        order = [v for _, variables in self.scopes for v in variables]
        size = 1 << len(order)
        ones = (1 << size) - 1
        tables = {v: pattern(place, size) for place, v in enumerate(order)}
        tables.update((abs(literal), ones if literal > 0 else 0) for literal in assumed)
        table = matrix_table(self, tables, ones)
        for place, variable in reversed(list(enumerate(order))):
            high = table & pattern(place, size)
            low = table & ~pattern(place, size) & ones
            low, high = low | low << (1 << place), high | high >> (1 << place)
            table = low | high if self.quantifier[variable] == "e" else low & high
        return table & 1 == 1


def pattern(place, size):
    """The table of the variable at a place over so many entries: bit i is bit `place` of i."""
    block = 1 << place
    return ((1 << size) - 1) // ((1 << block) + 1) << block


def matrix_table(formula, tables, ones):
    """The table of the clauses, of those of the variables."""
    matrix = ones
    for clause in formula.clauses:
        holds = 0
        for literal in clause:
            holds |= tables[abs(literal)] ^ (ones if literal < 0 else 0)
        matrix &= holds
    return matrix


def lines_of(lines):
    return "".join(f"{line}\n" for line in lines)


def text_of(scopes, clauses):
    """A QDIMACS text."""
    numbers = [abs(n) for _, vs in scopes for n in vs] + [abs(n) for clause in clauses for n in clause]
    lines = [f"p cnf {max(numbers, default=0)} {len(clauses)}"]
    lines += [" ".join(map(str, [quantifier, *variables, 0])) for quantifier, variables in scopes]
    return lines_of(lines + [" ".join(map(str, [*clause, 0])) for clause in clauses])


# Reading the program's texts.


class Lines:
    """The lines of a text, taken one after another."""

    def __init__(self, text):
        require(text.endswith("\n"), "the last line doesn't end")
        self.lines = text[:-1].split("\n")
        self.place = 0

    def take(self, pattern, what):
        """The parts of the next line, which is to have this form."""
        line = self.lines[self.place] if self.place < len(self.lines) else "the end of the text"
        parts = re.fullmatch(pattern, line)
        require(parts, f"line {self.place + 1}, {what}: {line!r}")
        self.place += 1
        return parts.groups()

    def numbers(self, pattern, what):
        return [int(part) for part in self.take(pattern, what)]

    def begins(self, *fronts):
        return self.place < len(self.lines) and self.lines[self.place].startswith(fronts)

    def at_end(self):
        return self.place == len(self.lines)

    def end(self):
        require(self.at_end(), f"line {self.place + 1}: lines behind the last one")


def whole(kind, text):
    """The circuit or trace that is all of a text."""
    lines = Lines(text)
    found = kind(lines)
    lines.end()
    return found


class Circuit:
    """A circuit as its AIGER text gives it: variables of its inputs, and literals and variables of its outputs."""

    def __init__(self, lines):
        top, inputs, latches, outputs, gates = lines.numbers("aag" + 5 * f" {NUMBER}", "header")
        require(latches == 0, "latches in the header")
        require(top == inputs + gates, f"greatest variable {top} with {inputs} inputs and {gates} gates")
        for place in range(inputs):
            require(lines.numbers(NUMBER, "input") == [2 * place + 2], f"literal of input {place}")
        self.outputs = [lines.numbers(NUMBER, "output")[0] for _ in range(outputs)]
        require(all(literal <= 2 * top + 1 for literal in self.outputs), "an output that is no edge")
        self.gates, pairs = [], set()
        for place in range(gates):
            gate, first, second = lines.numbers(f"{NUMBER} {NUMBER} {NUMBER}", "gate")
            require(gate == 2 * (inputs + place + 1), f"literal {gate} of gate {place}")
            require(gate > first >= second, f"order of the literals of gate {gate}")
            require(second > 1, f"a constant edge in gate {gate}")
            require(first // 2 != second // 2, f"equal or opposite edges in gate {gate}")
            require((first, second) not in pairs, f"gate {gate} stands twice")
            pairs.add((first, second))
            self.gates.append((gate, first, second))
        self.inputs = [lines.numbers(f"i{place} {NUMBER}", "symbol")[0] for place in range(inputs)]
        self.names = [lines.numbers(f"o{place} {NUMBER}", "symbol")[0] for place in range(outputs)]
        lines.take("c", "comment")
        [self.kind] = lines.take("(skolem|herbrand)", "comment")

    def binary(self):
        """The circuit in AIGER's binary form: for each gate two differences, in groups of 7 bits, the low one first."""
        counts = len(self.inputs) + len(self.gates), len(self.inputs), 0, len(self.outputs), len(self.gates)
        head = [" ".join(map(str, ["aig", *counts])), *map(str, self.outputs)]
        body = bytearray()
        for gate, first, second in self.gates:
            for difference in (gate - first, first - second):
                while difference >= 128:
                    body.append(difference % 128 + 128)
                    difference //= 128
                body.append(difference)
        tail = [f"i{place} {name}" for place, name in enumerate(self.inputs)]
        tail += [f"o{place} {name}" for place, name in enumerate(self.names)]
        return lines_of(head).encode() + bytes(body) + lines_of([*tail, "c", self.kind]).encode()

    def unreached(self):
        """The gates that no output comes from, neither through other gates."""
        reached = {literal // 2 for literal in self.outputs}
        for gate, first, second in reversed(self.gates):
            if gate // 2 in reached:
                reached |= {first // 2, second // 2}
        return [gate for gate, _, _ in self.gates if gate // 2 not in reached]

    def tables(self):
        """For each variable of the formula its truth table over the inputs: bit i is its value where those are i."""
        size = 1 << len(self.inputs)
        ones = (1 << size) - 1
        nodes = [0]
        nodes += [pattern(place, size) for place in range(len(self.inputs))]

        def value(literal):
            return nodes[literal // 2] ^ (ones if literal % 2 else 0)

        for _, first, second in self.gates:
            nodes.append(value(first) & value(second))
        found = dict(zip(self.inputs, nodes[1:]))
        found.update((name, value(literal)) for name, literal in zip(self.names, self.outputs))
        return found, ones


def number_at(data, place):
    """The number that the binary form has at a place, in groups of 7 bits, and the place behind it."""
    number = shift = 0
    for at in range(place, len(data)):
        number += data[at] % 128 << shift
        if data[at] < 128:
            require(data[at] or at == place, "a number with a needless group")
            return number, at + 1
        shift += 7
    raise Fault("a number without an end")


def in_ascii(data):
    """The text in ASCII of a circuit whose binary form this is, as AIGER 1.9 has both."""
    head, *rest = data.split(b"\n", 1)
    words = head.decode("ascii").split(" ")
    require(len(words) == 6 and words[0] == "aig" and rest, f"no header of the binary form: {head!r}")
    _, inputs, _, outputs, gates = map(int, words[1:])
    lines = [" ".join(["aag", *words[1:]]), *(str(2 * place + 2) for place in range(inputs))]
    *found, rest = rest[0].split(b"\n", outputs)
    require(len(found) == outputs, "too few outputs")
    lines += [line.decode("ascii") for line in found]
    place = 0
    for gate in range(2 * inputs + 2, 2 * (inputs + gates) + 2, 2):
        first, place = number_at(rest, place)
        second, place = number_at(rest, place)
        lines.append(f"{gate} {gate - first} {gate - first - second}")
    return lines_of(lines) + rest[place:].decode("ascii")


class Trace:
    """A trace as its QRP text gives it: steps by their numbers, from 1, each a row with what it rests on."""

    def __init__(self, lines):
        self.greatest, count = lines.numbers(f"p qrp {NUMBER} {NUMBER}", "header")
        self.scopes = []
        while lines.begins("a ", "e "):
            quantifier, variables = lines.take("([ae]) ((?:[1-9][0-9]* )+)0", "scope")
            self.scopes.append((quantifier, [int(variable) for variable in variables.split()]))
        self.steps = []
        for number in range(1, count + 1):
            row, rests = lines.take(f"{number} ((?:-?[1-9][0-9]* )*)0 ((?:[1-9][0-9]* )*)0", "step")
            self.steps.append((tuple(map(int, row.split())), list(map(int, rests.split()))))
        [self.verdict] = lines.take("r (SAT|UNSAT)", "verdict")


# Checking a circuit.


def check_circuit(formula, circuit, assumed=()):
    """Names, what each output depends on, and the matrix, by simulation of all inputs at once."""
    winner, loser = ("e", "a") if circuit.kind == "skolem" else ("a", "e")
    require(circuit.inputs == formula.variables_of(loser), f"inputs {circuit.inputs}")
    require(circuit.names == formula.variables_of(winner), f"outputs {circuit.names}")
    tables, ones = circuit.tables()
    for output in circuit.names:
        for place, name in enumerate(circuit.inputs):
            differs = (tables[output] ^ tables[output] >> (1 << place)) & ~tables[name] & ones
            earlier = formula.level[name] < formula.level[output]
            require(earlier or not differs, f"output {output} depends on {name}, which comes later")
    allowed = ones
    for literal in assumed:
        holds = tables[abs(literal)] ^ (ones if literal < 0 else 0)
        require(abs(literal) in circuit.inputs or holds == ones, f"the assumed output {literal} differs")
        allowed &= holds
    matrix = matrix_table(formula, tables, ones)
    require(matrix & allowed == (allowed if winner == "e" else 0), f"the {circuit.kind} circuit loses by simulation")


def matrix_network(formula, circuit, written):
    """A BLIF network with the circuit that abc has written, and the clauses over its inputs and outputs."""
    clauses = [f"clause{place}" for place in range(len(formula.clauses))]
    ports = [f"{name}={name}" for name in circuit.inputs + circuit.names]
    network = head_of_network(circuit) + [" ".join([".subckt circuit", *ports])]
    for name, clause in zip(clauses, formula.clauses):
        network.append(" ".join([".names", *(str(abs(literal)) for literal in clause), name]))
        network.append("".join("0" if literal > 0 else "1" for literal in clause) + " 0")
    network.append(" ".join([".names", *clauses, "matrix"]))
    network += ["1" * len(clauses) + " 1", ".end"]
    return lines_of(network) + re.sub(r"(?m)^\.model .*$", ".model circuit", written)


def constant_network(circuit, value):
    return lines_of([*head_of_network(circuit), ".names matrix", f" {value}", ".end"])


def head_of_network(circuit):
    return [".model check", " ".join([".inputs", *map(str, circuit.inputs)]), ".outputs matrix"]


def ask_abc(formula, circuit, data=None):
    """Has abc read the circuit, or these bytes of it, and show that the matrix behind it is constant."""
    value = int(circuit.kind == "skolem")
    with tempfile.TemporaryDirectory() as name:
        folder = Path(name)
        (folder / "circuit.aig").write_bytes(data or circuit.binary())
        said = abc(folder, "read_aiger circuit.aig; write_blif circuit.blif")
        require((folder / "circuit.blif").exists(), f"abc doesn't read the circuit: {said}")
        written = (folder / "circuit.blif").read_text()
        (folder / "matrix.blif").write_text(matrix_network(formula, circuit, written))
        (folder / "constant.blif").write_text(constant_network(circuit, value))
        said = abc(folder, "cec matrix.blif constant.blif")
        require("Networks are equivalent" in said, f"abc finds the {circuit.kind} circuit losing: {said}")


def abc(folder, commands):
    done = subprocess.run([ABC, "-q", commands], cwd=folder, capture_output=True, text=True, timeout=SECONDS)
    return " ".join((done.stdout + done.stderr).split())


# Checking a trace.


class Rules:
    """The rules of one side: the pivot quantifier is e for clauses and a for cubes."""

    def __init__(self, formula, pivot, assumed):
        self.formula = formula
        self.pivot = pivot
        self.bad = {-literal if pivot == "e" else literal for literal in assumed}
        self.assumed = {abs(literal) for literal in assumed}

    def is_pivot(self, literal):
        return self.formula.quantifier[abs(literal)] == self.pivot

    def is_row(self, row):
        variables = [abs(literal) for literal in row]
        return variables == sorted(set(variables)) and all(v in self.formula.level for v in variables)

    def is_input(self, row):
        if self.pivot == "e":
            return row in self.formula.clauses
        return all(set(row) & set(clause) for clause in self.formula.clauses)

    def reduction(self, row):
        """The literals that are pivot-type or blocked by one of a later scope; a row without pivot-type ones stays."""
        pivots = [self.formula.level[abs(literal)] for literal in row if self.is_pivot(literal)]
        if not pivots:
            return row
        return tuple(x for x in row if self.is_pivot(x) or self.formula.level[abs(x)] < max(pivots))

    def finish(self, row):
        """What the last removal leaves: of a row whose pivot-type literals are all assumed, its assumed literals."""
        kept = tuple(literal for literal in row if abs(literal) in self.assumed)
        return self.reduction(row) if any(self.is_pivot(literal) for literal in row if literal not in kept) else kept

    def is_decided(self, row):
        """Whether each literal is bad by the assumptions: none, where there are none."""
        return all(literal in self.bad for literal in row)

    def resolvent(self, one, other):
        """The literals of both, but for the one pivot-type variable that stands in them with opposite signs."""
        opposed = [literal for literal in one if -literal in other]
        require(len(opposed) == 1, f"{len(opposed)} variables to resolve on")
        [pivot] = opposed
        require(self.is_pivot(pivot), f"resolved on {abs(pivot)}, which is no pivot")
        return row_of(x for x in one + other if abs(x) != abs(pivot))


def check_step(rules, trace, number, row, rests):
    require(rules.is_row(row), "no ascending row over the prefix")
    require(rests == sorted(set(rests)) and all(rest < number for rest in rests), f"rests on {rests}")
    rows = [trace.steps[rest - 1][0] for rest in rests]
    if not rests:
        require(rules.is_input(row), f"{row} is no input")
        before = trace.steps[: number - 1]
        require(not any(others for _, others in before), "an input behind another step")
    elif len(rests) == 1:
        results = {rules.reduction(*rows)} | ({rules.finish(*rows)} if number == len(trace.steps) else set())
        require(row in results, f"{row} for the reduction {results}")
        require(row != rows[0], "a reduction that removes nothing")
    else:
        require(len(rests) == 2, f"rests on {rests}")
        result = rules.resolvent(*rows)
        require(row == result, f"{row} for the resolvent {result}")


def check_trace(formula, trace, assumed=()):
    require(trace.greatest == max(formula.level, default=0), f"greatest variable {trace.greatest}")
    require(trace.scopes == [scope for scope in formula.scopes if scope[1]], f"scopes {trace.scopes}")
    rules = Rules(formula, "e" if trace.verdict == "UNSAT" else "a", assumed)
    for number, (row, rests) in enumerate(trace.steps, 1):
        try:
            check_step(rules, trace, number, row, rests)
        except Fault as fault:
            raise Fault(f"step {number}: {fault}") from None
    require(trace.steps and rules.is_decided(trace.steps[-1][0]), "the last row isn't decided by the assumptions")
    used = {rest for _, rests in trace.steps for rest in rests}
    unused = [number for number in range(1, len(trace.steps)) if number not in used]
    require(not unused, f"nothing rests on the steps {unused}")


# Running programs.


def run_bytes(program, command, text, *options):
    """The status and the output of the program, which is to say nothing else."""
    done = subprocess.run([program, command, *options], input=text.encode(), capture_output=True, timeout=SECONDS)
    require(not done.stderr, f"error output {done.stderr!r}")
    return done.returncode, done.stdout


def run(program, command, text, *options):
    """The same where the output is a text."""
    status, out = run_bytes(program, command, text, *options)
    return status, out.decode("ascii")


def ask_depqbf(formula, status):
    """Has DepQBF decide a formula."""
    done = subprocess.run([DEPQBF], input=formula.text().encode(), capture_output=True, timeout=SECONDS)
    require(done.returncode == status, f"DepQBF ends with {done.returncode}: {done.stdout!r} {done.stderr!r}")
