#!/usr/bin/env python3
"""Feeds the built program with mutated formulas and scripts.

usage: mutants.py PROGRAM [--count N] [--seed S] [--show K]

The texts are those of examples/ and small ones that are drawn. Each mutant is one of them with one to four changes: a
byte, a piece cut out, lines doubled, left out or exchanged, words exchanged, a number replaced by one at some edge,
other white space, a long or strange word, the tail of another text. It is given to `solve`, `solve --qdo`, `trace`,
`cert` or `script`, now and then with few steps, with restarts, with few rows to keep, or to a command for the other
kind of text.

What is to come of it is found by the readers of checks/gate/reading.py. A malformed text ends with its status, its line
on the error output, and on the output nothing, or the replies to the commands in front of the malformed line. Any other
ends with the status and the output of its answer, and an empty error output: its truth is that of the whole table,
where this is small; its trace is checked step by step, its circuit by simulation; and UNKNOWN comes only with few
steps. No run is ended by a signal, and none takes a second of the processor.

N mutants are run, 20,000 where no number is given, several at a time; S is the seed of the draws. --show K writes the
text of mutant K to the output, and the program's words to the error output. Prints a line for each hundred mutants and
one for each that failed, and ends with status 1 if one did.
"""

import argparse
import collections
import os
import random
import re
import resource
import subprocess
import sys
from concurrent.futures import ThreadPoolExecutor
from pathlib import Path

sys.dont_write_bytecode = True
from circuits import at_random, by_hand, with_gates, with_guesses
from reading import Refused, read_formula, read_script
from rules import SECONDS, TRUE, FALSE, Circuit, Trace, check_circuit, check_trace, require, text_of, whole
from sessions import check_replies, drawn_commands, grouped_commands, leaving_commands, script_of

EXAMPLES = Path(__file__).resolve().parents[2] / "examples"
JOBS = ("solve", "solve --qdo", "trace", "cert")
# The most variables of a whole table, and inputs of a simulated circuit.
TABLE = 12
HUNDRED = 100

EDGES = [0, 1, 2, 9, 255, 65_535, 65_536, 65_537, 1_048_575, 1_048_576, 1_048_577, 2_000_000, 16_777_216, 16_777_217]
EDGES += [2**power + more for power in (28, 30, 31, 32, 63, 64) for more in (-1, 0, 1)]
NUMBERS = [str(number) for number in EDGES] + [str(-number) for number in EDGES]
NUMBERS += ["-0", "00", "-00", "+1", "01", "-01", "1e3", "0x1", "1.0", "--1", "1-", "-", "9" * 20, "0" * 20 + "1"]
STRANGE = ["c", "cx", "p", "cnf", "e", "a", "d", "qscript", "%", "#", "\x1f\x8b", "\x00", "\x7f", "\xff"]
STRANGE += "scope var clause push pop assume solve value relevant trace cert open close core quit 0 1 -1".split()
LONG = ["x" * 16, "x" * 17, "c" * 5000, "e" * 4096, "x" * 70_000]
LONG += ["1" * 19, "1" * 5000, "0" * 4095 + "1", "-" + "0" * 70_000]
BLANKS = [b" ", b"\t", b"\v", b"\f", b"\r", b"\n", b"\r\n", b"  ", b"\n\n", b"", b"\x00", b"\xa0"]


# A number that isn't 0, with another word of its line behind it.
SMALL = rb"(?<=[ \n])-?[1-9][0-9]*(?= )"


# The texts.


def formulas():
    yield from (path.read_bytes() for path in sorted(EXAMPLES.glob("*.qdimacs")))
    yield from (text_of(scopes, clauses).encode() for _, _, scopes, clauses in by_hand())
    yield from (kind(seed).encode() for kind in (at_random, with_gates, with_guesses) for seed in range(10))


def scripts():
    yield from (path.read_bytes() for path in sorted(EXAMPLES.glob("*.qscript")))
    yield from (script_of(drawn_commands(seed), 1 + seed % 2).encode() for seed in range(40))
    yield from (script_of(leaving_commands(seed, 40), 2).encode() for seed in range(20))
    yield from (script_of(grouped_commands(seed, 40), 3).encode() for seed in range(20))


# The changes. Each makes another text of a text, by draws; `other` is a text of the same kind.


def change_byte(draw, text, other):
    place = draw.randint(0, len(text))
    new = bytes([draw.randrange(256)] if draw.random() < 0.7 else [])
    return text[:place] + new + text[place + draw.randint(0, 1) :]


def cut(draw, text, other):
    """A few bytes are left out, or now and then all in front of a place or behind it."""
    first = draw.randint(0, len(text))
    if draw.random() < 0.2:
        return draw.choice((text[:first], text[first:]))
    return text[:first] + text[first + draw.randint(1, 12) :]


def move_lines(draw, text, other):
    """A line is doubled, left out, or put elsewhere."""
    lines = text.split(b"\n")
    line = draw.choice(lines)
    if draw.random() < 0.6:
        lines.remove(line)
    for _ in range(draw.randint(0, 2)):
        lines.insert(draw.randint(0, len(lines)), line)
    return b"\n".join(lines)


def some_word(draw, text, pattern=rb"[^\t-\r ]+"):
    """Where a word of this form begins and ends, or the end of the text."""
    places = [found.span() for found in re.finditer(pattern, text)]
    return draw.choice(places) if places else (len(text), len(text))


def exchange_words(draw, text, other):
    """Two words change places, mostly two numbers."""
    words = [some_word(draw, text, SMALL) if draw.random() < 0.8 else some_word(draw, text) for _ in range(2)]
    (a, b), (c, d) = sorted(words)
    return text if c < b else text[:a] + text[c:d] + text[b:c] + text[a:b] + text[d:]


def change_number(draw, text, other):
    """A number that isn't 0 becomes another such one, or any number one at some edge."""
    is_small = draw.random() < 0.7
    first, behind = some_word(draw, text, SMALL if is_small else rb"-?[0-9]+")
    number = str(draw.choice((1, 1, -1)) * draw.randint(1, 5)) if is_small else draw.choice(NUMBERS)
    return text[:first] + number.encode() + text[behind:]


def change_blank(draw, text, other):
    first, behind = some_word(draw, text, rb"[\t-\r ]+")
    return text[:first] + draw.choice(BLANKS) + text[behind:]


def put_word(draw, text, other):
    """A strange word, or a long one, in front of a word, or in its place, or joined to it."""
    first, behind = some_word(draw, text)
    word = draw.choice(STRANGE if draw.random() < 0.8 else LONG).encode("latin-1")
    return text[:first] + word + draw.choice((b" ", b"\n", b"")) + text[draw.choice((first, behind)) :]


def join_other(draw, text, other):
    return text[: draw.randint(0, len(text))] + other[draw.randint(0, len(other)) :]


def count_clauses(text):
    """The header's number of clauses is set to that of the lines of clauses."""
    clauses = sum(re.match(rb"(-?[1-9][0-9]* )*0$", line) is not None for line in text.split(b"\n"))
    return re.sub(rb"^(p cnf [0-9]+) [0-9]+$", lambda head: head[1] + b" %d" % clauses, text, count=1, flags=re.M)


# Of the first kind many a text is one of its form still.
MILD = [move_lines, exchange_words, change_number]
ROUGH = [change_byte, cut, change_blank, put_word, join_other]


class Mutant:
    """The text of a number, and the words by which the program is given it."""

    def __init__(self, seed, number, kinds):
        draw = random.Random(f"{seed} {number}")
        is_script = draw.random() < 0.5
        texts = kinds[is_script]
        self.text = draw.choice(texts)
        changes = MILD if draw.random() < 0.5 else MILD + ROUGH
        for _ in range(draw.choice((1, 1, 1, 2, 2, 4))):
            self.text = draw.choice(changes)(draw, self.text, draw.choice(texts))
        if draw.random() < 0.7:
            self.text = count_clauses(self.text)
        if draw.random() < 0.03:
            is_script = not is_script
        self.job = "script" if is_script else draw.choice(JOBS)
        self.budget = draw.choice((0, 1, 2, 5, 20, 100)) if draw.random() < 0.2 else None
        self.restarts = draw.choice((0, 1, 3, 1_000_000)) if draw.random() < 0.2 and not is_script else None
        self.kept = draw.choice((16, 17, 100, 16_777_216)) if draw.random() < 0.2 and not is_script else None

    def words(self):
        words = self.job.split()
        for option, value in ("--budget", self.budget), ("--restarts", self.restarts), ("--keep", self.kept):
            words += [] if value is None else [option, str(value)]
        return words

    def may_stop(self, variables):
        """Whether the budget is below the number of steps that always suffices."""
        always = ((self.restarts or 0) + 1) * (8 * variables + 8) * 2 ** (variables + 1)
        return self.budget is not None and self.budget < always


# What comes of them.


def run(program, mutant):
    """The status, the output and the error output, of a run of less than a second of the processor."""
    pipes = {"stdin": subprocess.PIPE, "stdout": subprocess.PIPE, "stderr": subprocess.PIPE}
    with subprocess.Popen([program, *mutant.words()], **pipes) as child:
        try:
            resource.prlimit(child.pid, resource.RLIMIT_CPU, (1, 2))
        except ProcessLookupError:
            pass
        try:
            out, err = child.communicate(mutant.text, timeout=SECONDS)
        except subprocess.TimeoutExpired:
            child.kill()
            raise
    require(child.returncode >= 0, f"ended by signal {-child.returncode}, which is 24 after a second")
    return child.returncode, out.decode("ascii"), err.decode("ascii")


def check_formula(mutant, status, out, err):
    """Answers what kind of text it is."""
    try:
        formula, header = read_formula(mutant.text)
    except Refused as why:
        found = status, out, err
        require(found == (why.status, "", str(why)), f"{found} where {why.status} and {str(why)!r} are right")
        return "malformed"
    require(err == "", f"error output {err!r}")
    if status == 0:
        require(mutant.may_stop(len(formula.level)), "stopped without need")
        wanted = "s cnf -1 {} {}\n".format(*header) if "--qdo" in mutant.job else "UNKNOWN\n"
        require(out == wanted, f"output {out!r}")
        return "stopped"
    require(status in (TRUE, FALSE), f"status {status} of a formula, with {out!r}")
    if len(formula.level) <= TABLE:
        require(formula.truth(()) == (status == TRUE), f"status {status} is not the formula's truth")
    check_answer(mutant.job, formula, header, status, out)
    return "decided"


def check_answer(job, formula, header, status, out):
    word = "SAT" if status == TRUE else "UNSAT"
    if job == "solve":
        require(out == f"{word}\n", f"output {out!r} with status {status}")
    elif job == "trace":
        trace = whole(Trace, out)
        require(trace.verdict == word, f"a trace of {trace.verdict} with status {status}")
        check_trace(formula, trace)
    elif job == "cert":
        circuit = whole(Circuit, out)
        require(circuit.kind == ("skolem" if status == TRUE else "herbrand"), f"{circuit.kind} with status {status}")
        if len(circuit.inputs) <= TABLE:
            check_circuit(formula, circuit)
    else:
        check_result(formula, header, status, out)


def check_result(formula, header, status, out):
    """The lines of QDIMACS's output format: the values of the first scope, where it is the winner's, keep the truth."""
    first, *lines = out.removesuffix("\n").split("\n")
    require(first == "s cnf {} {} {}".format(int(status == TRUE), *header), f"output {out!r}")
    told = [int(re.fullmatch(r"V (-?[1-9][0-9]*) 0", line)[1]) for line in lines]
    winner = "e" if status == TRUE else "a"
    is_winners = bool(formula.scopes) and formula.scopes[0][0] == winner
    require([abs(value) for value in told] == (formula.scopes[0][1] if is_winners else []), f"values {told}")
    if len(formula.level) <= TABLE:
        require(formula.truth(told) == (status == TRUE), f"another truth under the values {told}")


def check_script(mutant, status, out, err):
    version, commands, why = read_script(mutant.text)
    wanted = (why.status, str(why)) if why else (0, "")
    require((status, err) == wanted, f"{status}, {out!r} and {err!r} where {wanted} is right")
    variables = {rest[0] for word, rest in commands if word == "var"}
    if version is None:
        require(out == "", f"output {out!r} without a header")
    elif len(variables) <= TABLE:
        check_replies(commands, mutant.budget, version, out)
    return "malformed" if why else "answered"


def check(program, mutant):
    """What kind of text it is, or why it failed."""
    try:
        checked = check_script if mutant.job == "script" else check_formula
        return checked(mutant, *run(program, mutant)), None
    except Exception as why:
        return "failed", f"{type(why).__name__}: {why}; words {mutant.words()}, text {mutant.text[:400]!r}"


# All of them.


def arguments():
    parser = argparse.ArgumentParser(description="Feeds the built program with mutated formulas and scripts.")
    parser.add_argument("program")
    parser.add_argument("--count", type=int, default=20_000)
    parser.add_argument("--seed", type=int, default=1)
    parser.add_argument("--show", type=int)
    return parser.parse_args()


def main():
    given = arguments()
    kinds = list(formulas()), list(scripts())
    if given.show is not None:
        mutant = Mutant(given.seed, given.show, kinds)
        print(*mutant.words(), file=sys.stderr)
        sys.stdout.buffer.write(mutant.text)
        return
    failed = 0
    with ThreadPoolExecutor(os.cpu_count()) as pool:
        for first in range(0, given.count, HUNDRED):
            numbers = range(first, min(first + HUNDRED, given.count))
            results = list(pool.map(lambda k: check(given.program, Mutant(given.seed, k, kinds)), numbers))
            found = collections.Counter(kind for kind, _ in results)
            for number, (_, why) in zip(numbers, results):
                if why:
                    print(f"FAILED mutant_{number}: {why}")
            failed += found["failed"]
            if not found["failed"]:
                told = ", ".join(f"{count} {kind}" for kind, count in sorted(found.items()))
                print(f"ok mutants_{first}_to_{numbers[-1]}: {told}")
    sys.exit(1 if failed else 0)


if __name__ == "__main__":
    main()
