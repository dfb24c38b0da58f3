#!/usr/bin/env python3
"""Meets the limits of the built program exactly, and goes one beyond.

usage: limits.py PROGRAM [--heavy]

Scopes, frames, variables and sets at their number and one beyond it; words of 16 MiB; 400,000 clauses of a formula and
of a script, which are taken within 20 seconds of the processor; two million clauses, a circuit of 100,000 gates, and a
certificate of a million. An input in messages of 4,096 bytes, each taken by one read. Rounds of a frame over clauses
that stay, a long trail, decisions in all scopes, and a core among many groups, where more of them take more time in
proportion, and not with the square: what is compared is times of the processor, one right behind the other. Budgets
that a core and a check formula spend, where the verdict doesn't. And 300 drawn formulas of one to four variables, each
in a scope of its own, with no step, with one, with as many as always suffice and with one less, and with as many where
a search may begin anew twice: each verdict is that of the whole table, and none is left open with enough steps. With
--heavy also all variables, clauses, literals and bytes that a text may have, and one more, which takes a minute of the
processor and is no part of the gate. Prints a line a case and ends with status 1 if one failed.
"""

import itertools
import os
import random
import resource
import socket
import subprocess
import sys
import tempfile
from concurrent.futures import ThreadPoolExecutor
from pathlib import Path

sys.dont_write_bytecode = True
sys.path.insert(0, str(Path(__file__).resolve().parents[2] / "bench"))
import gates
from rules import FALSE, TRUE, Fault, Formula, require

SCOPES = FRAMES = 65_536
VARIABLES = 1_048_576
CLAUSES = 2**24
LITERALS = 2**28
BYTES = 2**30
LONG = 2**24
MIB = 2**20
# Seconds of the processor, and bytes of memory, of one run.
MOST_SECONDS, MOST_MEMORY = 300, 6 * 2**30
# Many clauses, and the seconds within which they are taken: a pass over all of them for each one would take minutes.
MANY, FEW_SECONDS = 400_000, 20
# Seconds that a run may take beside five times the seconds of the runs that it is compared with.
MORE_SECONDS = 0.5
# Bytes that are read at once.
PIECE = 4096
# Bytes: what 350,000 more commands may leave that drop what they made, and what numbers of variables may take.
DROPPED, NUMBERS = 2 * MIB, 80 * MIB


def lines(*some):
    return "".join(f"{line}\n" for line in some).encode()


def times(count, piece):
    """A piece of a text so many times, a great many at a time."""
    many = max(1, MIB // len(piece))
    yield from itertools.repeat(piece * many, count // many)
    yield piece * (count % many)


def refused(line, number):
    return f"qbf: line {line}: refused {number}\n"


def limit(line, quantity):
    return f"qbf: line {line}: limit {quantity}\n"


# Each row: its name, the words, the pieces of the text, status, output and error output.


def script(name, replies, *pieces):
    return name, ["script"], [lines("p qscript 1"), *pieces], 0, "".join(f"{reply}\n" for reply in replies), ""


def formula(name, status, said, *pieces):
    """A formula that is decided, or refused with what is said."""
    out, err = ("", said) if status in (2, 6) else (f"{said}\n", "")
    return name, ["solve"], pieces, status, out, err


def sets(count, first):
    """So many sets of one variable each, in turn existential and universal."""
    other = "a" if first == "e" else "e"
    return lines(*(f"{first if v % 2 else other} {v} 0" for v in range(1, count + 1)))


def rows_of_prefixes():
    scopes = lines("scope e", "scope a") * (SCOPES // 2)
    yield script("most_scopes", ["refused 4", "refused 4", "SAT"], scopes, lines("scope e", "scope e 1", "solve"))
    late = lines("scope e 65537", "scope e 65536", "var 1 65536", "var 2 65537")
    yield script("last_scope", ["refused 3", "refused 3"], scopes[: -len(lines("scope a"))], late)
    pushes, pops = lines("push") * FRAMES, lines("pop") * FRAMES
    end = lines("pop", "solve")
    yield script("most_frames", ["refused 45", "refused 40", "SAT"], pushes, lines("push"), pops, end)
    ends = lines("scope e", "var 1048576 1", "var 1048577 1", "clause 1048576 0", "clause 1048577 0", "solve")
    yield script("greatest_variable", ["refused 2", "refused 41", "SAT"], ends)
    yield formula("greatest_number", TRUE, "SAT", lines("p cnf 1048576 1", "1048576 0"))
    for first, said in ("a", "universal"), ("e", "existential"):
        most = lines(f"p cnf {SCOPES} 0"), sets(SCOPES, first)
        yield formula(f"most_sets_from_{said}", TRUE, "SAT", *most)
        more = lines(f"p cnf {SCOPES + 1} 0"), sets(SCOPES + 1, first)
        yield formula(f"one_set_more_from_{said}", 6, limit(SCOPES + 2, "scopes"), *more)
    free = lines(f"{SCOPES + 1} 0")
    head = lines(f"p cnf {SCOPES + 1} 1")
    yield formula("free_in_a_scope_too_many", 6, limit(SCOPES + 3, "scopes"), head, sets(SCOPES, "a"), free)
    yield formula("free_in_the_first_scope", TRUE, "SAT", head, sets(SCOPES, "e"), free)


def rows_of_words():
    head, end = lines("p cnf 1 1"), lines(" 0")
    letters, zeros, nines = b"x" * LONG, b"0" * LONG, b"9" * LONG
    yield formula("zeros_in_front", TRUE, "SAT", head, zeros, b"1", end)
    yield formula("zeros_alone", FALSE, "UNSAT", head, zeros, lines(""))
    yield formula("zeros_negated", 2, refused(2, 18), head, b"-", zeros, end)
    yield formula("great_number", 2, refused(2, 8), head, nines, end)
    yield formula("great_negative_number", 2, refused(2, 8), head, b"-", nines, end)
    yield formula("long_word", 2, refused(2, 18), head, letters, end)
    yield formula("bad_byte_of_a_long_word", 2, refused(2, 7), head, letters, b"\xff", end)
    yield formula("number_that_ends_in_letters", 2, refused(2, 18), head, nines, letters, end)
    yield formula("long_comment", TRUE, "SAT", b"c", letters, b"\xff\n", head, b"1", end)
    yield formula("white_space", TRUE, "SAT", head, b" \t\r\v\f" * (LONG // 5), b"1", b"\n" * LONG, end)
    yield formula("line_behind_line_ends", 2, refused(LONG + 2, 12), head, b"\n" * LONG, b"2", end)
    yield formula("literals_on_a_line", TRUE, "SAT", head, b"1 " * (LONG // 2), end)
    yield formula("no_last_zero", 2, refused(2, 15), head, b"1 " * (LONG // 2))
    yield script("comment_in_a_script", ["SAT"], b"c ", letters, lines("", "solve"))
    long = lines("scope e", "var 1 1") + b"clause " + b"1 " * (LONG // 2) + lines("0", "solve")
    yield script("clause_on_a_line", ["SAT"], long)
    text = [lines("p qscript 1", "solve"), letters, lines("")]
    yield "command_of_letters", ["script"], text, 2, "SAT\n", refused(3, 31)
    text = [lines("p qscript 1", "solve"), b"clause " + b"1 " * (LONG // 2), lines("", "\xff")]
    yield "clause_without_its_zero", ["script"], text, 2, "SAT\n", refused(3, 32)


def rows_of_many_clauses():
    """Clauses of three literals over a quarter as many variables, fed and attached, but for the first step."""
    draw = random.Random(1)
    size = MANY // 4
    some = [
        " ".join(str(v if draw.random() < 0.5 else -v) for v in sorted(draw.sample(range(1, size + 1), 3)))
        for _ in range(MANY)
    ]
    text = lines(f"p cnf {size} {MANY}"), lines(*(f"{clause} 0" for clause in some))
    yield "many_clauses", ["solve", "--budget=0"], text, 0, "UNKNOWN\n", "", FEW_SECONDS
    text = lines("p qscript 1", "scope e", *(f"var {v} 1" for v in range(1, size + 1)))
    clauses = lines(*(f"clause {clause} 0" for clause in some), "solve")
    yield "many_clauses_of_a_script", ["script", "--budget=0"], [text, clauses], 0, "UNKNOWN\n", "", FEW_SECONDS


def rows_that_are_large():
    """Two million clauses, and 100,000 gates: more than a refusal for want of memory may hide behind."""
    some = lines(*(f"{v} {v + 1000} {v + 2000} 0" for v in range(1, 1001)))
    yield formula("two_million_clauses", TRUE, "SAT", lines("p cnf 3000 2000000"), *times(2000, some))
    last = 100_002
    head = lines("#QCIR-14", "exists(1)", "forall(2)", f"output({last})", "3 = or(1, 2)")
    chain = lines(*(f"{gate} = and({gate - 1}, 1)" for gate in range(4, last + 1)))
    yield "a_hundred_thousand_gates", ["solve", "--qcir"], [head, chain], TRUE, "SAT\n", ""


def pigeons(count):
    """Clauses by which so many pigeons sit in one hole less, and no two in the same. Each of them is needed, so that
    they are refuted by no fewer resolutions than they are but one.
    """
    holes = range(1, count)
    at = [[(count - 1) * pigeon + hole for hole in holes] for pigeon in range(count)]
    yield from (" ".join(map(str, row)) for row in at)
    for one, other in itertools.combinations(at, 2):
        yield from (f"-{x} -{y}" for x, y in zip(one, other))


def rows_of_budgets():
    """The budget suffices for the verdict, and not for what is asked then: a trial without group 1 is to refute 45
    clauses, and a check formula has a clause for each of 50 selectors.
    """
    declared = lines("p qscript 3", "scope e", *(f"var {v} 1" for v in range(1, 22)))
    one = lines("open 1", "clause 21 0", "clause -21 0", "close")
    two = lines("open 2", *(f"clause {row} 0" for row in pigeons(5)), "close", "solve", "core")
    for budget, said in (2, "UNKNOWN"), (40, "UNKNOWN"), (100_000, "core 2 0"):
        words = ["script", f"--budget={budget}"]
        yield f"core_with_a_budget_of_{budget}", words, [declared, one, two], 0, f"UNSAT\n{said}\n", ""
    text = [lines("p cnf 1 50", "e 1 0"), *times(50, lines("1 0"))]
    for budget, status, said in (1, 0, "UNDECIDED"), (40, 0, "UNDECIDED"), (100_000, TRUE, "WINS"):
        words = ["check", "--decide", f"--budget={budget}"]
        yield f"check_with_a_budget_of_{budget}", words, text, status, f"{said}\n", ""


def rows_that_are_heavy():
    every = range(1, VARIABLES + 1)
    set_of_all = lines(f"p cnf {VARIABLES} 1", " ".join(map(str, ["e", *every, 0])), f"{VARIABLES} 0")
    yield formula("set_of_all_variables", TRUE, "SAT", set_of_all)
    end = lines("var 1048577 1", "clause 1 -2 1048576 0", "assume 1", "assume -1", "assume 1048576", "solve")
    declared = lines("scope e", *(f"var {v} 1" for v in every))
    yield script("all_variables", ["refused 2", "refused 43", "SAT"], declared, end)
    head = lines(f"p cnf 1 {CLAUSES}")
    yield formula("most_clauses", TRUE, "SAT", head, *times(CLAUSES, b"1 -1 0\n"))
    more = *times(CLAUSES, b"1 -1 0\n"), b"1 0\n"
    yield formula("one_clause_more", 2, refused(CLAUSES + 2, 17), head, *more)
    clause = [*times(LITERALS // 256, b"1 "), b"0\n"]
    most = [lines("p cnf 1 257"), *(256 * clause)]
    yield formula("most_literals", FALSE, "UNSAT", *most, b"0\n")
    yield formula("one_literal_more", 6, limit(258, "literals"), *most, b"1 0\n")
    yield from rows_of_bytes()


def filled(count):
    """So many bytes: lines of a MiB that are comments, and the front of one."""
    comment = b"c " + b"x" * (MIB - 3) + b"\n"
    yield from itertools.repeat(comment, count // MIB)
    yield comment[: count % MIB]


def rows_of_bytes():
    head = lines("p cnf 1 1", "1 0")
    left = BYTES - len(head)
    last = 3 + left // MIB
    yield formula("most_bytes", TRUE, "SAT", head, *filled(left))
    yield formula("one_byte_more", 6, limit(last, "bytes"), head, *filled(left + 1))
    yield formula("one_blank_more", 6, limit(last + 1, "bytes"), head, *filled(left - 1), b"\n ")
    solved = lines("p qscript 1", "solve", "solve")
    left = BYTES - len(solved)
    yield script("most_bytes_of_a_script", ["SAT", "SAT"], lines("solve", "solve"), *filled(left))
    text = [solved, *filled(left + 1)]
    yield "one_byte_more_in_a_script", ["script"], text, 6, "SAT\nSAT\n", limit(4 + left // MIB, "bytes")


# Runs.


def bound(seconds):
    resource.setrlimit(resource.RLIMIT_CPU, (seconds, seconds + 1))
    resource.setrlimit(resource.RLIMIT_AS, (MOST_MEMORY, MOST_MEMORY))


def feed(to, pieces):
    """Writes a text to a program, which may end before it has read all of it."""
    try:
        for piece in pieces:
            left = memoryview(piece)
            while left:
                left = left[os.write(to, left) :]
    except BrokenPipeError:
        pass


def check(program, words, pieces, status, out, err, seconds=MOST_SECONDS):
    with tempfile.TemporaryFile() as output, tempfile.TemporaryFile() as errors:
        pipes = {"stdin": subprocess.PIPE, "stdout": output, "stderr": errors}
        with subprocess.Popen([program, *words], bufsize=0, preexec_fn=lambda: bound(seconds), **pipes) as child:
            feed(child.stdin.fileno(), pieces)
        output.seek(0)
        errors.seek(0)
        found = child.returncode, output.read(4096).decode("ascii"), errors.read(4096).decode("ascii")
    require(found == (status, out, err), f"{found} where {(status, out, err)} is right")


def check_pieces(program):
    """Each message of a socket is lost where a read doesn't take the whole of it."""
    text = lines("p cnf 4000 3999", *(f"{v} -{v + 1} 0" for v in range(1, 4000)))
    ours, theirs = socket.socketpair(socket.AF_UNIX, socket.SOCK_SEQPACKET)
    with ours, subprocess.Popen([program, "solve"], stdin=theirs, stdout=subprocess.PIPE) as child:
        theirs.close()
        for place in range(0, len(text), PIECE):
            ours.send(text[place : place + PIECE])
        ours.close()
        out, _ = child.communicate(timeout=60)
    require((child.returncode, out) == (TRUE, b"SAT\n"), f"{child.returncode} and {out!r} of messages of {PIECE} bytes")


def check_gates(program):
    """A certificate with a line for each of 1,001,000 gates, 2,001 inputs and 1,000 outputs."""
    levels = width = 1000
    inputs, outputs, count = levels + width + 1, levels, levels * (width + 1)
    text = gates.formula(levels, width).encode()
    run = subprocess.run([program, "cert"], input=text, capture_output=True, timeout=MOST_SECONDS)
    require((run.returncode, run.stderr) == (FALSE, b""), f"status {run.returncode} and {run.stderr!r}")
    head, end = run.stdout.split(b"\n", 1)[0].decode("ascii"), run.stdout[-len(b"c\nherbrand\n") :]
    require(head == f"aag {inputs + count} {inputs} 0 {outputs} {count}", f"the header {head!r}")
    wanted = 1 + 2 * (inputs + outputs) + count + 2
    require(run.stdout.count(b"\n") == wanted, f"{run.stdout.count(10)} lines where {wanted} are right")
    require(end == b"c\nherbrand\n", f"{end!r} at the end")


# Costs.


def seconds_of(program, words, right, pieces):
    """The seconds of the processor that a run takes, which ends with this status and writes this output."""
    with tempfile.TemporaryFile() as text, tempfile.TemporaryFile() as output:
        text.writelines(pieces)
        text.seek(0)
        pipes = {"stdin": text, "stdout": output}
        child = subprocess.Popen([program, *words], preexec_fn=lambda: bound(MOST_SECONDS), **pipes)
        _, status, usage = os.wait4(child.pid, 0)
        child.returncode = os.waitstatus_to_exitcode(status)
        output.seek(0)
        found = child.returncode, output.read().decode("ascii")
    require(found == right, f"status {found[0]} and {len(found[1])} bytes, with {words}")
    return usage.ru_utime + usage.ru_stime


def check_cost(program, large, *small):
    """A large run takes little more than five times what the small ones together take. Each is the words, what is right
    and the pieces of a text.
    """
    least = sum(seconds_of(program, *run) for run in small)
    most = 5 * least + MORE_SECONDS
    used = seconds_of(program, *large)
    require(used <= most, f"{used:.2f} seconds where the smaller ones took {least:.2f}")


def rounds_over(clauses, count, *commands):
    """Rounds of commands over so many drawn clauses, which are true together: a solve, and then one a round that has
    one. A new variable is the one behind those of the clauses.
    """
    draw = random.Random(1)
    size = max(8, clauses // 4)
    standing = (
        f"clause {draw.randrange(1, size + 1)} {draw.randrange(1, size + 1)} -{draw.randrange(1, size + 1)} 0"
        for _ in range(clauses)
    )
    declared = lines("p qscript 2", "scope e", *(f"var {v} 1" for v in range(1, size + 1)))
    one = lines(*commands).replace(b"NEW", str(size + 1).encode())
    replies = "SAT\n" + "UNSAT\n" * (count * commands.count("solve"))
    return ["script"], (0, replies), [declared, lines(*standing, "solve"), *times(count, one)]


def check_rounds(program, *commands):
    """What 20,000 rounds take over 100,000 clauses, beside these rounds over few and none over as many."""
    few, many, count = 1000, 100_000, 20_000
    alone = rounds_over(few, count, *commands), rounds_over(many, 0, *commands)
    check_cost(program, rounds_over(many, count, *commands), *alone)


def falling(count):
    """A trail of so many literals, each of which the one before it implies. All stand in one clause too, of which the
    last is left.
    """
    chain = ["-1 0", *(f"{v} -{v + 1} 0" for v in range(1, count - 1))]
    every = " ".join(map(str, range(1, count + 1)))
    return ["solve"], (TRUE, "SAT\n"), [lines(f"p cnf {count} {count}", *chain, f"{every} 0")]


def in_all_scopes(count):
    """A decision in each scope: of a variable and of the one behind it one is false."""
    rows = lines(*(f"{v} -{v + 1} 0" for v in range(1, count, 2)))
    return ["solve"], (TRUE, "SAT\n"), [lines(f"p cnf {count} {count // 2}"), sets(count, "e"), rows]


def core_among(count):
    """The core of so many groups of a clause: eight of them contradict each other, and the others are true together."""
    chain = {count // 8 * place: place for place in range(1, 9)}
    links = ["1", *(f"-{n} {n + 1}" for n in range(1, 7)), "-7"]
    rows = (links[chain[g] - 1] if g in chain else f"{g + 7} -{g + 8}" for g in range(1, count + 1))
    groups = (lines(f"open {g}", f"clause {row} 0", "close") for g, row in enumerate(rows, 1))
    declared = lines("p qscript 3", "scope e", *(f"var {v} 1" for v in range(1, count + 9)))
    replies = f"UNSAT\ncore {' '.join(map(str, sorted(chain)))} 0\n"
    return ["script"], (0, replies), [declared, *groups, lines("solve", "core")]


def costs():
    one = "push", "var NEW 1", "clause 1 NEW 0", "clause -NEW 0", "clause -1 0", "solve", "pop"
    yield "cost_of_frames_that_are_solved", check_rounds, one
    yield "cost_of_frames_without_clauses", check_rounds, ("push", "pop")
    yield "cost_of_a_long_trail", check_cost, (falling(100_000), falling(25_000))
    yield "cost_of_decisions_in_all_scopes", check_cost, (in_all_scopes(SCOPES), in_all_scopes(SCOPES // 4))
    yield "cost_of_a_core_among_many_groups", check_cost, (core_among(8_000), core_among(2_000))


# Memory.


def peak(program, words, pieces):
    """The greatest memory of a run that ends well, in bytes."""
    with tempfile.TemporaryFile() as text:
        text.writelines(pieces)
        text.seek(0)
        pipes = {"stdin": text, "stdout": subprocess.DEVNULL}
        child = subprocess.Popen([program, *words], preexec_fn=lambda: bound(MOST_SECONDS), **pipes)
        _, status, usage = os.wait4(child.pid, 0)
        child.returncode = os.waitstatus_to_exitcode(status)
    require(child.returncode in (0, TRUE, FALSE), f"it ends with status {child.returncode}")
    return usage.ru_maxrss * 1024


def drawn_clauses(draw, count):
    """Lines of so many clauses of three literals over thirty variables."""
    for _ in range(count):
        literals = (draw.choice((-1, 1)) * v for v in sorted(draw.sample(range(1, 31), 3)))
        yield "clause " + " ".join(map(str, literals)) + " 0"


def rounds(commands, standing):
    """A script of so many commands that opens a frame of ten drawn clauses, solves and drops it, again and again, over
    so many clauses that stay.
    """
    draw = random.Random(1)
    yield lines("p qscript 1", "scope e", "scope a", "scope e", *(f"var {v} {(v + 9) // 10}" for v in range(1, 31)))
    yield lines(*drawn_clauses(draw, standing))
    for _ in range(commands // 13):
        yield lines("push", *drawn_clauses(draw, 10), "solve", "pop")


def check_dropped(program, standing):
    """A script that comes back to the same clauses again and again keeps nothing of what it dropped but a byte for each
    id.
    """
    few, many = (peak(program, ["script"], rounds(commands, standing)) for commands in (50_000, 400_000))
    require(many - few <= DROPPED, f"{many} bytes for 400,000 commands, {few} for 50,000")


def check_number(program):
    """What the greatest number of a variable costs, where but two have one."""
    text = lines("p cnf 1048576 1", "e 1 1048576 0", "1 1048576 0")
    used = peak(program, ["solve"], [text])
    require(used <= NUMBERS, f"{used} bytes for two variables, one of them 1,048,576")


# Budgets.


def drawn(n, quantifiers, seed):
    """2n clauses over n variables, each in a scope of its own, universal where its bit is 1: absent, plain or negated
    by a draw of the generator.
    """
    state = seed
    clauses = []
    for _ in range(2 * n):
        clause = []
        for variable in range(1, n + 1):
            state = (state * 1_103_515_245 + 12_345) % 2**31
            sign = state // 65_536 % 3
            clause += [] if sign == 0 else [variable if sign == 1 else -variable]
        clauses.append(clause)
    scopes = [("a" if quantifiers >> (v - 1) & 1 else "e", [v]) for v in range(1, n + 1)]
    text = lines(f"p cnf {n} {len(clauses)}", *(f"{quantifier} {v[0]} 0" for quantifier, v in scopes))
    return text + lines(*(" ".join(map(str, [*clause, 0])) for clause in clauses)), Formula(scopes, clauses)


def check_budgets(program, n, quantifiers, seed):
    text, whole = drawn(n, quantifiers, seed)
    truth = whole.truth(())
    always = (8 * n + 8) * 2 ** (n + 1)
    right = (TRUE, b"SAT\n", b"") if truth else (FALSE, b"UNSAT\n", b"")
    for budget, restarts in (0, 0), (1, 0), (always - 1, 0), (always, 0), (3 * always - 1, 2), (3 * always, 2):
        words = ["solve", f"--budget={budget}", f"--restarts={restarts}"]
        done = subprocess.run([program, *words], input=text, capture_output=True, timeout=60)
        found = done.returncode, done.stdout, done.stderr
        stopped = budget < (restarts + 1) * always and found == (0, b"UNKNOWN\n", b"")
        require(found == right or stopped, f"{found} with {words}, of {text!r}, which is {truth}")


def all_budgets(program):
    """Every formula, several at a time."""
    drawings = [(n, q, seed) for n in range(1, 5) for q in range(2**n) for seed in range(10)]
    with ThreadPoolExecutor(os.cpu_count()) as pool:
        list(pool.map(lambda drawing: check_budgets(program, *drawing), drawings))


def cases(program, is_heavy):
    rows = [rows_of_prefixes(), rows_of_words(), rows_of_many_clauses(), rows_that_are_large(), rows_of_budgets()]
    for name, *row in itertools.chain(*rows, rows_that_are_heavy() if is_heavy else []):
        yield name, check, row
    yield "a_million_gates_of_a_certificate", check_gates, []
    yield "pieces_of_an_input", check_pieces, []
    yield from costs()
    yield "memory_of_what_was_dropped", check_dropped, [0]
    yield "memory_of_what_was_dropped_over_clauses_that_stay", check_dropped, [20]
    yield "memory_of_a_great_number", check_number, []
    yield "budgets", all_budgets, []


def main():
    heavy = sys.argv[2:] == ["--heavy"]
    if len(sys.argv) < 2 or (sys.argv[2:] and not heavy):
        print("usage: limits.py PROGRAM [--heavy]", file=sys.stderr)
        sys.exit(2)
    failed = 0
    for name, case, row in cases(sys.argv[1], heavy):
        try:
            case(sys.argv[1], *row)
        except (Fault, OSError, ValueError, subprocess.TimeoutExpired) as why:
            print(f"FAILED {name}: {why}")
            failed += 1
        else:
            print(f"ok {name}")
    sys.exit(1 if failed else 0)


if __name__ == "__main__":
    main()
