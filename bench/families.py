#!/usr/bin/env python3
"""Writes families of quantified Boolean formulas as QDIMACS 1.1, each file named FAMILY-SIZE.qdimacs.

usage: families.py FOLDER [KIND]

KIND is small, which it is without one: twelve families of formulas that take a second or so; or large: families of
larger formulas, some of which no solver here decides within a minute. The same formulas come each time: what is drawn
is drawn from seeds.
"""

import itertools
import random
import sys
from pathlib import Path


class Formula:
    """Scopes from the outermost in, and clauses."""

    def __init__(self):
        self.variables = 0
        self.scopes = []
        self.clauses = []

    def scope(self, quantifier, count):
        """Puts in so many new variables, and answers them."""
        first = self.variables + 1
        self.variables += count
        new = list(range(first, self.variables + 1))
        if count and self.scopes and self.scopes[-1][0] == quantifier:
            self.scopes[-1][1].extend(new)
        elif count:
            self.scopes.append((quantifier, list(new)))
        return new

    def add(self, *literals):
        self.clauses.append(literals)

    def equal(self, a, b, *unless):
        """a and b have one value, unless one of these literals is true."""
        self.add(*unless, -a, b)
        self.add(*unless, a, -b)

    def exclusive(self, out, a, b):
        """out is true where exactly one of a and b is."""
        for p, q in itertools.product((1, -1), repeat=2):
            self.add(-p * a, -q * b, out if p != q else -out)

    def both(self, out, a, b):
        """out is true where a and b are."""
        self.add(-out, a)
        self.add(-out, b)
        self.add(out, -a, -b)

    def most(self, out, a, b, c):
        """out has the value that at least two of a, b and c have."""
        for p, q in itertools.combinations((a, b, c), 2):
            self.add(out, -p, -q)
            self.add(-out, p, q)

    def text(self):
        lines = [f"p cnf {self.variables} {len(self.clauses)}"]
        lines += [" ".join([q, *map(str, vs), "0"]) for q, vs in self.scopes]
        lines += [" ".join([*map(str, c), "0"]) for c in self.clauses]
        return "\n".join(lines) + "\n"


def pigeons(holes):
    """One pigeon more than there are holes: false, without universal variables."""
    f = Formula()
    at = [f.scope("e", holes) for _ in range(holes + 1)]
    for row in at:
        f.add(*row)
    for hole in range(holes):
        for one, other in itertools.combinations(at, 2):
            f.add(-one[hole], -other[hole])
    return f


def kleine_buening(t):
    """The formulas of Kleine Büning, Karpinski and Flögel: false, with long proofs."""
    f = Formula()
    rounds = [(f.scope("e", 2), f.scope("a", 1)[0]) for _ in range(t)]
    last = f.scope("e", t)
    (d, e), _ = rounds[0]
    f.add(-d, -e)
    for i, ((d, e), x) in enumerate(rounds):
        then = rounds[i + 1][0] if i + 1 < t else last
        f.add(d, x, *[-v for v in then])
        f.add(e, -x, *[-v for v in then])
    for (_, x), y in zip(rounds, last):
        f.add(x, y)
        f.add(-x, y)
    return f


def equality(n):
    """Existential variables that would have to equal universal ones behind them: false."""
    f = Formula()
    xs, us, ts = f.scope("e", n), f.scope("a", n), f.scope("e", n)
    for x, u, t in zip(xs, us, ts):
        f.add(x, u, -t)
        f.add(-x, -u, -t)
    f.add(*ts)
    return f


def parity(n):
    """A universal variable that would have to be the parity of those before it: false."""
    f = Formula()
    xs, [z], ts = f.scope("e", n), f.scope("a", 1), f.scope("e", n - 1)
    before = xs[0]
    for x, t in zip(xs[1:], ts):
        f.exclusive(t, before, x)
        before = t
    f.add(z, before)
    f.add(-z, -before)
    return f


def drawn(seed, scopes, size, ratio):
    """Clauses of one universal and two to three existential literals, about where true and false meet."""
    draw = random.Random(seed)
    f = Formula()
    kinds = ["e" if (scopes - i) % 2 else "a" for i in range(scopes)]
    groups = [f.scope(q, size) for q in kinds]
    universal = [v for q, g in zip(kinds, groups) if q == "a" for v in g]
    existential = [v for q, g in zip(kinds, groups) if q == "e" for v in g]
    for _ in range(int(ratio * len(existential))):
        chosen = draw.sample(existential, 2 + (draw.random() < 0.6)) + draw.sample(universal, 1)
        f.add(*[v if draw.random() < 0.5 else -v for v in chosen])
    return f


def synthesis(inputs, gates, wanted):
    """Tables of two-input gates in a chain such that the last one computes a function of the inputs."""
    f = Formula()
    tables = [f.scope("e", 4) for _ in range(gates)]
    xs = f.scope("a", inputs)
    outs = f.scope("e", gates)
    for i, (table, out) in enumerate(zip(tables, outs)):
        a = xs[0] if i == 0 else outs[i - 1]
        b = xs[(i + 1) % inputs]
        for entry, (p, q) in zip(table, itertools.product((1, -1), repeat=2)):
            f.equal(out, entry, -p * a, -q * b)
    for values in itertools.product((False, True), repeat=inputs):
        differs = [-x if v else x for x, v in zip(xs, values)]
        f.add(*differs, outs[-1] if wanted(values) else -outs[-1])
    return f


def squaring(bits, depth, target):
    """Whether a counter of so many bits comes from 0 to the target in at most 2 ^ depth steps, by iterated squaring."""
    f = Formula()
    start, end = f.scope("e", bits), f.scope("e", bits)
    for i in range(bits):
        f.add(-start[i])
        f.add(end[i] if target >> i & 1 else -end[i])
    for _ in range(depth):
        middle = f.scope("e", bits)
        [first] = f.scope("a", 1)
        s, t = f.scope("e", bits), f.scope("e", bits)
        for i in range(bits):
            f.equal(s[i], start[i], -first)
            f.equal(t[i], middle[i], -first)
            f.equal(s[i], middle[i], first)
            f.equal(t[i], end[i], first)
        start, end = s, t
    [stays] = f.scope("e", 1)
    carries = f.scope("e", bits)
    for i in range(bits):
        f.equal(end[i], start[i], -stays)
        if i == 0:
            f.add(carries[0])
        else:
            f.add(-carries[i], carries[i - 1])
            f.add(-carries[i], start[i - 1])
            f.add(carries[i], -carries[i - 1], -start[i - 1])
        for p, q in itertools.product((1, -1), repeat=2):
            f.add(stays, -p * start[i], -q * carries[i], end[i] if p != q else -end[i])
    return f


def pursuit(nodes, rounds, apart):
    """Whether one who steps left, right or stays on a circle meets another one who steps left or right."""
    f = Formula()
    hunter, hare = f.scope("e", nodes), f.scope("e", nodes)
    for i in range(nodes):
        f.add(hunter[i] if i == 0 else -hunter[i])
        f.add(hare[i] if i == apart else -hare[i])
    met = []
    for _ in range(rounds):
        left, right = f.scope("e", 2)
        f.add(-left, -right)
        now = f.scope("e", nodes)
        for i in range(nodes):
            f.equal(now[(i - 1) % nodes], hunter[i], -left)
            f.equal(now[(i + 1) % nodes], hunter[i], -right)
            f.equal(now[i], hunter[i], left, right)
        [side] = f.scope("a", 1)
        then = f.scope("e", nodes)
        [here] = f.scope("e", 1)
        for i in range(nodes):
            f.equal(then[(i - 1) % nodes], hare[i], -side)
            f.equal(then[(i + 1) % nodes], hare[i], side)
            f.add(-here, -now[i], then[i])
        met.append(here)
        hunter, hare = now, then
    f.add(*met)
    return f


def random_3sat(seed, variables, ratio):
    """Clauses of three existential literals: about 4.26 a variable is where true and false meet."""
    draw = random.Random(seed)
    f = Formula()
    all_of_them = f.scope("e", variables)
    for _ in range(int(ratio * variables)):
        f.add(*[v if draw.random() < 0.5 else -v for v in draw.sample(all_of_them, 3)])
    return f


def chain(length, ends):
    """Variables each of which implies the next, and the first one: false where the last one is excluded."""
    f = Formula()
    links = f.scope("e", length)
    f.add(links[0])
    for one, other in zip(links, links[1:]):
        f.add(-one, other)
    if ends:
        f.add(-links[-1])
    return f


def full_adder(f, a, b, c):
    """The sum and the carry of three bits."""
    half, total, carry = f.scope("e", 3)
    f.exclusive(half, a, b)
    f.exclusive(total, half, c)
    f.most(carry, a, b, c)
    return total, carry


def half_adder(f, a, b):
    """The sum and the carry of two bits."""
    total, carry = f.scope("e", 2)
    f.exclusive(total, a, b)
    f.both(carry, a, b)
    return total, carry


def ripple_sum(f, xs, ys):
    """The bits of a sum, from the lowest on, with a carry from each bit to the next."""
    total, carry = half_adder(f, xs[0], ys[0])
    bits = [total]
    for x, y in zip(xs[1:], ys[1:]):
        total, carry = full_adder(f, x, y, carry)
        bits.append(total)
    return [*bits, carry]


def prefix_sum(f, xs, ys):
    """The same bits, with carries of twice as many bits in each layer."""
    halves = [half_adder(f, x, y) for x, y in zip(xs, ys)]
    made = [carry for _, carry in halves]
    passed = [half for half, _ in halves]
    step = 1
    while step < len(xs):
        made_before, passed_before = list(made), list(passed)
        for i in range(step, len(xs)):
            comes, made[i], passed[i] = f.scope("e", 3)
            f.both(comes, passed_before[i], made_before[i - step])
            f.both(-made[i], -made_before[i], -comes)
            f.both(passed[i], passed_before[i], passed_before[i - step])
        step *= 2
    bits = [halves[0][0]]
    for (half, _), carry in zip(halves[1:], made):
        [total] = f.scope("e", 1)
        f.exclusive(total, half, carry)
        bits.append(total)
    return [*bits, made[-1]]


def adders(width):
    """Whether two circuits that add numbers of so many bits ever differ: false."""
    f = Formula()
    xs, ys = f.scope("e", width), f.scope("e", width)
    one, other = ripple_sum(f, xs, ys), prefix_sum(f, xs, ys)
    differs = f.scope("e", width + 1)
    for out, a, b in zip(differs, one, other):
        f.exclusive(out, a, b)
    f.add(*differs)
    return f


def prime(draw, bits):
    """A drawn prime of so many bits."""
    while True:
        n = draw.randrange(1 << (bits - 1), 1 << bits)
        if all(n % d for d in range(2, int(n**0.5) + 1)):
            return n


def factoring(seed, bits, splits):
    """Whether a number has two factors of so many bits above 1: a drawn product of two primes, or a drawn prime."""
    draw = random.Random(seed)
    product = prime(draw, bits) * prime(draw, bits) if splits else prime(draw, 2 * bits)
    f = Formula()
    xs, ys = f.scope("e", bits), f.scope("e", bits)
    f.add(*xs[1:])
    f.add(*ys[1:])
    columns = [[] for _ in range(2 * bits + 1)]
    for (i, x), (j, y) in itertools.product(enumerate(xs), enumerate(ys)):
        [part] = f.scope("e", 1)
        f.both(part, x, y)
        columns[i + j].append(part)
    for place in range(2 * bits):
        column = columns[place]
        while len(column) > 1:
            adder = full_adder if len(column) > 2 else half_adder
            total, carry = adder(f, *[column.pop() for _ in range(min(len(column), 3))])
            column.insert(0, total)
            columns[place + 1].append(carry)
        for bit in column:
            f.add(bit if product >> place & 1 else -bit)
    for bit in columns[2 * bits]:
        f.add(-bit)
    return f


def conformant(seed, bits, steps):
    """Whether some plan of two actions leads a drawn machine from each of its 2 ^ bits states to state 0."""
    draw = random.Random(seed)
    states = range(1 << bits)
    moves = [[draw.randrange(len(states)) for _ in states] for _ in range(2)]
    f = Formula()
    plan, start = f.scope("e", steps), f.scope("a", bits)
    now = f.scope("e", len(states))
    for state in states:
        f.add(now[state], *[-v if state >> i & 1 else v for i, v in enumerate(start)])
    for action in plan:
        then = f.scope("e", len(states))
        for state in states:
            f.add(-now[state], action, then[moves[0][state]])
            f.add(-now[state], -action, then[moves[1][state]])
        now = then
    for state in states[1:]:
        f.add(-now[state])
    return f


def counter(bits, steps, target):
    """Whether inputs lead a counter of so many bits from each state to the target in so many steps, each up or not."""
    f = Formula()
    now, ups = f.scope("a", bits), f.scope("e", steps)
    for up in ups:
        then, carry = f.scope("e", bits), up
        for i in range(bits):
            f.exclusive(then[i], now[i], carry)
            if i + 1 < bits:
                [more] = f.scope("e", 1)
                f.both(more, now[i], carry)
                carry = more
        now = then
    for i in range(bits):
        f.add(now[i] if target >> i & 1 else -now[i])
    return f


def small():
    for n in range(4, 10):
        yield "pigeons", n, pigeons(n)
    for t in range(4, 16, 2):
        yield "kleine_buening", t, kleine_buening(t)
    for n in range(4, 16, 2):
        yield "equality", n, equality(n)
    for n in range(6, 18, 2):
        yield "parity", n, parity(n)
    for scopes in (2, 3, 4, 6):
        for seed in range(8):
            size = {2: 40, 3: 30, 4: 24, 6: 16}[scopes]
            yield f"drawn_{scopes}_scopes", seed, drawn(seed, scopes, size, 1.6 + 0.2 * (seed % 4))
    for inputs in (3, 4, 5):
        for gates in (inputs - 1, inputs):
            yield "synthesis_parity", 10 * inputs + gates, synthesis(inputs, gates, lambda v: sum(v) % 2 == 1)
            yield "synthesis_majority", 10 * inputs + gates, synthesis(inputs, gates, lambda v: 2 * sum(v) > len(v))
    for bits, depth in ((3, 2), (3, 3), (4, 3), (4, 4), (5, 4)):
        for target in ((1 << depth) - 1, (1 << depth) + 1):
            yield "squaring", 1000 * bits + 100 * depth + target, squaring(bits, depth, target % (1 << bits))
    for nodes, rounds in ((5, 2), (6, 3), (7, 4), (8, 5), (9, 6)):
        for apart in (1, 2, nodes // 2):
            yield "pursuit", 100 * nodes + 10 * rounds + apart, pursuit(nodes, rounds, apart)


def large():
    for variables, seed in itertools.product((150, 175, 200, 225, 250), range(4)):
        yield "random_3sat_at_threshold", 10 * variables + seed, random_3sat(seed, variables, 4.26)
    for seed in range(4):
        yield "random_3sat_below", seed, random_3sat(seed, 5000, 3.0)
    for width in (4, 6, 8, 12, 16):
        yield "adders", width, adders(width)
    for bits, seed in itertools.product((6, 8, 10), range(2)):
        yield "factoring", 10 * bits + seed, factoring(seed, bits, True)
        yield "factoring_prime", 10 * bits + seed, factoring(seed, bits, False)
    for bits, steps, seed in itertools.product((3, 4), (2, 3), range(3)):
        yield "conformant", 100 * bits + 10 * steps + seed, conformant(seed, bits, steps * bits)
    for bits in (3, 4, 5, 6):
        yield "counter_reached", bits, counter(bits, (1 << bits) - 1, 0)
        yield "counter_missed", bits, counter(bits, (1 << bits) - 2, 0)
    for scopes, size, ratio in ((2, 80, 2.0), (2, 160, 2.0), (3, 60, 2.0), (3, 120, 2.0)):
        for seed in range(4):
            yield f"drawn_{scopes}_scopes_larger", 10 * size + seed, drawn(seed, scopes, size, ratio)
    yield "chain", 100_000, chain(100_000, False)
    yield "chain_ended", 100_000, chain(100_000, True)


KINDS = {"small": small, "large": large}


def main():
    folder = Path(sys.argv[1])
    folder.mkdir(parents=True, exist_ok=True)
    for family, size, formula in KINDS[sys.argv[2] if len(sys.argv) > 2 else "small"]():
        (folder / f"{family}-{size}.qdimacs").write_text(formula.text())


if __name__ == "__main__":
    main()
