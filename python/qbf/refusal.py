"""What the library answers where it does not do what it is asked."""

from __future__ import annotations

from enum import IntEnum


class Code(IntEnum):
    """The codes of include/qbf.h, without their first word."""

    OK = 0
    VAR_TWICE = 1
    VAR_RANGE = 2
    SCOPE_RANGE = 3
    SCOPE_LIMIT = 4
    TRUE = 10
    FALSE = 20
    NO_FRAME = 40
    UNKNOWN_VAR = 41
    ASSUME_SCOPE = 42
    ASSUME_CLASH = 43
    ASSUMPTIONS_HELD = 44
    LIMIT = 45
    GROUP_OPEN = 46
    GROUP_RANGE = 47
    NO_GROUP = 48
    GROUP_FRAME = 49
    NO_VERDICT = 50
    NOT_OUTERMOST = 51
    NOT_WINNER = 52
    NOT_FALSE = 53
    NO_MEMORY = 60
    NO_ENGINE = 61
    SHORT = 62
    SPENT = 63
    VERSION = 64
    KEPT_RANGE = 65
    TEXT_BYTE = 107
    TEXT_NUMBER = 108
    TEXT_NO_HEADER = 110
    TEXT_HEADER = 111
    TEXT_UNKNOWN = 112
    TEXT_TWICE = 113
    TEXT_LATE_SET = 114
    TEXT_NO_END = 115
    TEXT_TOO_FEW = 116
    TEXT_TOO_MANY = 117
    TEXT_WORD = 118
    MANY_VARS = 120
    MANY_SCOPES = 121
    MANY_CLAUSES = 122
    MANY_LITERALS = 123
    MANY_BYTES = 124


REASONS = {
    Code.VAR_TWICE: "the variable is in the prefix already",
    Code.VAR_RANGE: "a variable is a number from 1 to 1,048,576",
    Code.SCOPE_RANGE: "there is no scope of that number",
    Code.SCOPE_LIMIT: "there are 65,536 scopes",
    Code.NO_FRAME: "no pushed frame is open",
    Code.UNKNOWN_VAR: "a variable isn't in the prefix",
    Code.ASSUME_SCOPE: "an assumption is over a variable of the first scope",
    Code.ASSUME_CLASH: "the negation is assumed",
    Code.ASSUMPTIONS_HELD: "no scope and no variable is added while an assumption stands",
    Code.LIMIT: "as many frames, clauses or literals stand as may",
    Code.GROUP_OPEN: "a group is open",
    Code.GROUP_RANGE: "a group is a number from 1 to 65,536",
    Code.NO_GROUP: "no group is open, or it was never opened",
    Code.GROUP_FRAME: "a pushed frame is open",
    Code.NO_VERDICT: "there is no verdict, or a change came after it",
    Code.NOT_OUTERMOST: "the variable isn't in the first scope",
    Code.NOT_WINNER: "the first scope isn't of the side that wins",
    Code.NOT_FALSE: "the formula is true",
    Code.NO_ENGINE: "the solver was deleted",
    Code.SPENT: "the budget of a trial is spent",
    Code.VERSION: "a version is 1, 2 or 3",
    Code.KEPT_RANGE: "so many rows can't be kept: 16 to 16,777,216",
    Code.TEXT_BYTE: "a byte of a word is none of 33 to 126",
    Code.TEXT_NUMBER: "a number's magnitude is above 2^63 - 1",
    Code.TEXT_NO_HEADER: "there is no header",
    Code.TEXT_HEADER: "the header is malformed",
    Code.TEXT_UNKNOWN: "a variable isn't declared",
    Code.TEXT_TWICE: "a variable stands in a set already",
    Code.TEXT_LATE_SET: "a set comes behind a clause",
    Code.TEXT_NO_END: "a set or a clause hasn't its 0",
    Code.TEXT_TOO_FEW: "there are fewer clauses than declared",
    Code.TEXT_TOO_MANY: "there are more clauses than declared",
    Code.TEXT_WORD: "a word doesn't belong there",
    Code.MANY_VARS: "more than 1,048,576 variables",
    Code.MANY_SCOPES: "more than 65,536 scopes",
    Code.MANY_CLAUSES: "more than 2^24 clauses",
    Code.MANY_LITERALS: "more than 2^28 literals",
    Code.MANY_BYTES: "more than 2^30 bytes",
}


class Refusal(ValueError):
    """A call that the library refuses, which leaves the solver as it was.

    `name` and `number` are those of include/qbf.h, as NO_FRAME and 40. `line` is that of a text which is refused.
    """

    def __init__(self, code: Code, line: int | None = None) -> None:
        self.code = code
        self.name = code.name
        self.number = int(code)
        self.line = line
        where = "" if line is None else f"line {line}: "
        super().__init__(f"{where}{REASONS[code]} ({self.name}, {self.number})")

    def __reduce__(self) -> tuple[type[Refusal], tuple[Code, int | None]]:
        return Refusal, (self.code, self.line)


def failure(code: int, line: int | None = None) -> Exception:
    """The exception for a code that isn't OK: MemoryError for want of memory, or else a refusal."""
    if code == Code.NO_MEMORY:
        return MemoryError("the solver found no memory, and is as it was")
    return Refusal(Code(code), line)
