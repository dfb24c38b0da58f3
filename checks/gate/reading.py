"""Readers of the texts that the program is given, malformed ones too, by docs/QDIMACS.md, docs/SCRIPTS.md and
docs/QCIR.md: what a text says, or where and why it is refused. checks/gate/malformed.py and checks/gate/mutants.py
compare the program with them.

They stand on nothing of the program. What they leave out are the limits of literals and of bytes, which only long texts
pass.
"""

import itertools
import re

from rules import Formula

NUMBER = re.compile(rb"-?[0-9]+")
GREATEST = 2**63 - 1
VARIABLES, SCOPES, CLAUSES = 1_048_576, 65_536, 2**24
QUANTIFIERS = {b"e": "e", b"a": "a"}

# The versions of scripts, each with its commands.
FIRST = "scope var clause push pop assume solve value relevant trace cert".split()
COMMANDS = {1: FIRST, 2: FIRST, 3: FIRST + "open close activate deactivate core".split()}
GROUPS = ("open", "activate", "deactivate")


class Refused(Exception):
    """Why a text is refused, with the status of a run on it and its line on the error output."""

    def __init__(self, line, why):
        super().__init__(f"qbf: line {line}: {why}\n")
        self.status = 6 if why.startswith("limit") else 2


def refused(line, number):
    return Refused(line, f"refused {number}")


def limit(line, quantity):
    return Refused(line, f"limit {quantity}")


# Words.


def words_by_line(text, is_comment):
    """Each line that has a word and is no comment: its number, from 1, and its words."""
    for number, line in enumerate(text.split(b"\n"), 1):
        words = line.split()
        if words and not is_comment(words[0]):
            yield number, words


def end_of(text):
    return 1 + text.count(b"\n")


def read_word(line, word):
    """A number, or another word as it stands. 7 and 8 come before what the word's place asks of it."""
    if any(not 33 <= byte <= 126 for byte in word):
        raise refused(line, 7)
    if not NUMBER.fullmatch(word):
        return word
    digits = word.lstrip(b"-").lstrip(b"0")
    if not digits:
        return word if word.startswith(b"-") else 0
    if len(digits) > 19 or int(digits) > GREATEST:
        raise refused(line, 8)
    return -int(digits) if word.startswith(b"-") else int(digits)


def is_number(word):
    return isinstance(word, int)


def is_natural(word):
    return is_number(word) and word >= 0


# Formulas.


def read_header(words, end):
    """The line of the header and its two numbers."""
    head, first = next(words, (end, None))
    if first != b"p":
        raise refused(head, 10)
    numbers = []
    for wanted in (lambda word: word == b"cnf", is_natural, is_natural):
        line, word = next(words, (None, None))
        if line != head or not wanted(word):
            raise refused(head, 11)
        numbers.append(word)
    return head, numbers[1:]


class Body:
    """Sets and clauses behind the header."""

    def __init__(self, variables, clauses):
        self.variables = variables
        self.wanted = clauses
        self.scopes = []
        self.bound = set()
        self.clauses = []
        self.quantifier = None
        self.literals = None

    def take(self, line, word):
        if self.quantifier is None and self.literals is None:
            self.take_between(line, word)
        elif word in QUANTIFIERS:
            raise refused(line, 15)
        elif not is_number(word):
            raise refused(line, 18)
        elif self.quantifier is not None:
            self.take_in_set(line, word)
        else:
            self.take_in_clause(line, word)

    def take_between(self, line, word):
        if is_number(word):
            if len(self.clauses) == self.wanted:
                raise refused(line, 17)
            self.literals = []
            self.take_in_clause(line, word)
        elif word not in QUANTIFIERS:
            raise refused(line, 18)
        elif self.clauses:
            raise refused(line, 14)
        else:
            self.quantifier = QUANTIFIERS[word]

    def take_in_set(self, line, number):
        if number == 0:
            self.quantifier = None
            return
        if not 0 < number <= self.variables:
            raise refused(line, 12)
        if number in self.bound:
            raise refused(line, 13)
        if not self.scopes or self.scopes[-1][0] != self.quantifier:
            if len(self.scopes) == SCOPES:
                raise limit(line, "scopes")
            self.scopes.append((self.quantifier, []))
        self.bound.add(number)
        self.scopes[-1][1].append(number)

    def take_in_clause(self, line, number):
        if number == 0:
            self.clauses.append(self.literals)
            self.literals = None
            return
        if abs(number) > self.variables:
            raise refused(line, 12)
        self.literals.append(number)

    def close(self, line):
        """The formula, where the text ends on this line."""
        if self.quantifier is not None or self.literals is not None:
            raise refused(line, 15)
        if len(self.clauses) < self.wanted:
            raise refused(line, 16)
        free = sorted({abs(literal) for clause in self.clauses for literal in clause} - self.bound)
        if free and self.scopes and self.scopes[0][0] == "e":
            self.scopes[0][1].extend(free)
        elif free:
            self.scopes.insert(0, ("e", free))
        if len(self.scopes) > SCOPES:
            raise limit(line, "scopes")
        return Formula(self.scopes, self.clauses)


def read_formula(text):
    """The formula of a QDIMACS text with the two numbers of its header, or Refused."""
    end = end_of(text)
    lines = words_by_line(text, lambda word: word.startswith(b"c"))
    words = ((line, read_word(line, word)) for line, words in lines for word in words)
    head, (variables, clauses) = read_header(words, end)
    behind = next(words, None)
    if behind and behind[0] == head:
        raise refused(head, 11)
    if variables > VARIABLES:
        raise limit(head, "variables")
    if clauses > CLAUSES:
        raise limit(head, "clauses")
    body = Body(variables, clauses)
    for line, word in itertools.chain([behind] if behind else [], words):
        body.take(line, word)
    return body.close(end), (variables, clauses)


# Scripts.


def may_follow(command, before, word):
    """Whether a word may stand behind these words of a command."""
    place = len(before)
    if command == "scope":
        return word in QUANTIFIERS if place == 0 else place == 1 and is_natural(word)
    if command == "var":
        return place < 2 and is_natural(word)
    if command == "clause":
        return is_number(word) and 0 not in before
    if command == "assume":
        return place == 0 and is_number(word) and word != 0
    return command in ("value", *GROUPS) and place == 0 and is_natural(word)


def is_whole(command, rest):
    """Whether a command may end behind these words."""
    if command == "clause":
        return bool(rest) and rest[-1] == 0
    many = {"scope": (1, 2), "var": (2,), "assume": (1,), "value": (1,), **dict.fromkeys(GROUPS, (1,))}
    return len(rest) in many.get(command, (0,))


def read_script_header(line, words):
    """The version of a script, by its first line."""
    version = None
    for place, word in enumerate(words):
        word = read_word(line, word)
        if place == 2 and is_number(word) and word in COMMANDS:
            version = word
        elif place > 1 or word != (b"p", b"qscript")[place]:
            raise refused(line, 30)
    if version is None:
        raise refused(line, 30)
    return version


def read_command(line, words, version):
    first = read_word(line, words[0])
    command = None if is_number(first) else first.decode()
    if command not in COMMANDS[version]:
        raise refused(line, 31)
    rest = []
    for word in words[1:]:
        word = read_word(line, word)
        if not may_follow(command, rest, word):
            raise refused(line, 32)
        rest.append(word)
    if not is_whole(command, rest):
        raise refused(line, 32)
    return command, [QUANTIFIERS.get(word, word) for word in (rest[:-1] if command == "clause" else rest)]


def read_script(text):
    """The version of a script, its commands up to the first malformed line, and what refuses that, or None.

    Where the header is refused there is no version, and no command.
    """
    version, commands = None, []
    lines = words_by_line(text, lambda word: word == b"c")
    try:
        head = next(lines, None)
        if head is None:
            raise refused(end_of(text), 30)
        version = read_script_header(*head)
        for line, words in lines:
            commands.append(read_command(line, words, version))
    except Refused as why:
        return version, commands, why
    return version, commands, None


# Circuits.

PIECE = re.compile(rb"[(),=]|[^\s(),=]+")
SET_WORDS = (b"exists", b"forall")
LEFT_OUT = (b"xor", b"ite", b"free")


def circuit_words(text):
    """Each word of a circuit with its line. Brackets, commas and `=` are words, and a `#` hides the rest of a line."""
    for number, line in enumerate(text.split(b"\n"), 1):
        for word in PIECE.findall(line.split(b"#")[0]):
            yield number, read_word(number, word)


class CircuitReader:
    """What has been read of a circuit."""

    def __init__(self, text):
        self.words, self.end = circuit_words(text), end_of(text)
        self.quantifiers, self.known, self.amount = [], set(), 1

    def next(self, is_allowed, left_out=LEFT_OUT):
        line, word = next(self.words, (self.end, None))
        if word in left_out:
            raise refused(line, 72)
        if word is None or not is_allowed(word):
            raise refused(line, 70)
        return line, word

    def listed(self, take):
        """A list of numbers in brackets."""
        self.next(lambda word: word == b"(")
        line, word = self.next(lambda word: word == b")" or is_number(word))
        while word != b")":
            take(line, word)
            if self.next(lambda word: word in (b",", b")"))[1] == b")":
                return
            line, word = self.next(is_number)

    def define(self, line, name):
        if not 0 < name <= VARIABLES:
            raise refused(line, 71)
        if name in self.known:
            raise refused(line, 73)

    def begin_scope(self, line, quantifier):
        if not self.quantifiers or self.quantifiers[-1] != quantifier:
            if len(self.quantifiers) == SCOPES:
                raise limit(line, "scopes")
            self.quantifiers.append(quantifier)

    def quantify(self, quantifier, line, name):
        self.define(line, name)
        self.begin_scope(line, quantifier)
        self.known.add(name)

    def count(self, line):
        if self.amount >= CLAUSES:
            raise limit(line, "clauses")
        self.amount += 1

    def literal(self, line, number):
        if not 0 < abs(number) <= VARIABLES:
            raise refused(line, 71)

    def input(self, line, number):
        self.literal(line, number)
        if abs(number) not in self.known:
            raise refused(line, 74)
        self.count(line)

    def gate(self, line, name):
        self.define(line, name)
        self.begin_scope(line, b"exists")
        self.count(line)
        self.next(lambda word: word == b"=")
        self.next(lambda word: word in (b"and", b"or"), LEFT_OUT + SET_WORDS)
        self.listed(self.input)
        self.known.add(name)


def read_circuit(text):
    """Reads a circuit by docs/QCIR.md: prenex, with and/or gates and numbers as names."""
    reader = CircuitReader(text)
    while (word := reader.next(lambda word: word in (*SET_WORDS, b"output"))[1]) != b"output":
        reader.listed(lambda line, name, quantifier=word: reader.quantify(quantifier, line, name))
    reader.next(lambda word: word == b"(")
    output, literal = reader.next(is_number)
    reader.literal(output, literal)
    reader.next(lambda word: word == b")")
    for line, word in reader.words:
        if word in LEFT_OUT:
            raise refused(line, 72)
        if not is_number(word):
            raise refused(line, 70)
        reader.gate(line, word)
    if abs(literal) not in reader.known:
        raise refused(output, 74)
