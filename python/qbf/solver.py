"""The incremental solver."""

from __future__ import annotations

import threading
import time
from array import array
from collections.abc import Callable, Iterable, Iterator, Sequence
from contextlib import contextmanager
from ctypes import byref, c_int32, c_size_t, c_uint32, c_uint64, create_string_buffer
from operator import index
from typing import Any, NamedTuple, Optional

from .circuit import Circuit
from .library import LIBRARY, Handle
from .refusal import Code, Refusal, failure

#: The greatest budget: 2^64 - 1 steps.
UNLIMITED = 2**64 - 1

# The first slice of a solve with a time limit or a callback has so many steps, and none has fewer. A later one has at
# least this share of the steps before it, so that a search that needs many for one lesson comes to it.
FIRST_SLICE = 1 << 16
SHARE = 4

# The room that is offered first, for numbers and for a text; and for the groups of a core, which are never more.
NUMBERS = 16
BYTES = 1 << 16
GROUPS = 1 << 16

Progress = Callable[[int], Optional[bool]]


class Scope(NamedTuple):
    """A scope of the prefix."""

    forall: bool
    variables: list[int]


class Solver:
    """A formula in prenex conjunctive form, which is changed and decided again and again.

    Variables and literals are numbers as in QDIMACS: 1 to 1,048,576, with a minus for a negation. Scopes are numbered
    from 1, the outermost, on. In version 1 a variable stays; from version 2 on it leaves with the frame that was on top
    when it was added. `restarts` says how often a solve may begin anew.

    A call that isn't carried out raises Refusal or MemoryError, and leaves the solver as it was; of several variables,
    clauses or literals, those before the refused one stay. Calls of several threads come one after the other.
    """

    def __init__(self, version: int = 2, restarts: int = 0, bootstrap_with: Iterable[Iterable[int]] = ()) -> None:
        self._begin()
        self._check(LIBRARY.qbf_new_version(self._handle, _small(version)))
        if restarts:
            self.set_restarts(restarts)
        self.append_formula(bootstrap_with)

    @classmethod
    def of_qdimacs(cls, text: str | bytes) -> Solver:
        """A solver of version 1 that holds the formula of a QDIMACS 1.1 text."""
        content = text.encode("utf-8", "surrogateescape") if isinstance(text, str) else bytes(text)
        solver = cls.__new__(cls)
        solver._begin()
        line = c_uint32()
        code = LIBRARY.qbf_read(solver._handle, content, len(content), line)
        if code:
            raise failure(code, line.value if code >= Code.TEXT_BYTE else None)
        return solver

    def delete(self) -> None:
        """Frees the solver. A later call is refused with NO_ENGINE."""
        with self._lock:
            LIBRARY.qbf_free(self._handle)

    def __del__(self) -> None:
        if hasattr(self, "_handle"):
            LIBRARY.qbf_free(self._handle)

    def __enter__(self) -> Solver:
        return self

    def __exit__(self, *_: object) -> None:
        self.delete()

    # The prefix.

    def exists(self, *variables: int) -> int:
        """Puts existential variables behind all others, and answers the number of their scope: the last one, where it
        is existential, or else a new one."""
        return self._extend(False, variables)

    def forall(self, *variables: int) -> int:
        """The same of universal variables."""
        return self._extend(True, variables)

    def scope(self, forall: bool, variables: Iterable[int] = (), at: int = 0) -> int:
        """Puts in a scope with these variables, as number `at` or, where this is 0, behind all others. It answers the
        number. Scopes from there on move up by one."""
        with self._lock:
            self._check(LIBRARY.qbf_scope(self._handle, bool(forall), _wide(at)))
            number = at or self._count(LIBRARY.qbf_scopes)
            for variable in variables:
                self.var(variable, number)
            return number

    def var(self, variable: int, scope: int) -> None:
        """Puts a variable into a scope."""
        self._ask(LIBRARY.qbf_var, _wide(variable), _wide(scope))

    def prefix(self) -> list[Scope]:
        """The scopes, from the outermost in, each with its variables in ascending order."""
        with self._lock:
            return [self._scope(number) for number in range(1, self._count(LIBRARY.qbf_scopes) + 1)]

    def scope_of(self, variable: int) -> int:
        """The number of a variable's scope."""
        number = c_uint64()
        self._ask(LIBRARY.qbf_scope_of, _wide(variable), number)
        return number.value

    def nof_vars(self) -> int:
        """How many variables the prefix has."""
        return self._count(LIBRARY.qbf_vars)

    # Clauses, frames and groups.

    def add_clause(self, literals: Iterable[int]) -> None:
        """Puts in a clause: into the open group, or else into the top frame."""
        try:
            lits = array("q", literals)
        except OverflowError:
            raise Refusal(Code.UNKNOWN_VAR) from None
        address, length = lits.buffer_info()
        with self._lock:
            code = LIBRARY.qbf_clause(self._handle, address or _NOTHING, length)
        if code:
            raise failure(code)

    def append_formula(self, clauses: Iterable[Iterable[int]]) -> None:
        """Puts in clauses, one after the other."""
        for clause in clauses:
            self.add_clause(clause)

    def push(self) -> None:
        """Opens a frame, which takes the clauses that are added from then on."""
        self._ask(LIBRARY.qbf_push)

    def pop(self) -> None:
        """Drops the top frame with its clauses, and with the variables that leave with it."""
        self._ask(LIBRARY.qbf_pop)

    @contextmanager
    def frame(self) -> Iterator[None]:
        """A frame for the time of a `with`."""
        self.push()
        try:
            yield
        finally:
            self.pop()

    @property
    def depth(self) -> int:
        """How many pushed frames are open."""
        return self._count(LIBRARY.qbf_depth)

    def open_group(self, group: int) -> None:
        """Opens a group, which is made, active, where it is new. Clauses join it until it is closed."""
        self._ask(LIBRARY.qbf_open_group, _wide(group))

    def close_group(self) -> None:
        """Closes the open group."""
        self._ask(LIBRARY.qbf_close_group)

    @contextmanager
    def group(self, group: int) -> Iterator[None]:
        """A group that is open for the time of a `with`."""
        self.open_group(group)
        try:
            yield
        finally:
            self.close_group()

    def activate(self, group: int) -> None:
        """Makes a group active, so that its clauses are in the formula."""
        self._ask(LIBRARY.qbf_activate, _wide(group))

    def deactivate(self, group: int) -> None:
        """Makes a group inactive."""
        self._ask(LIBRARY.qbf_deactivate, _wide(group))

    def qdimacs(self) -> str:
        """The formula that is open, as a text of QDIMACS 1.1. Assumptions aren't in it."""
        return self._text(LIBRARY.qbf_write).decode()

    # Solving.

    def assume(self, *literals: int) -> None:
        """Assumes literals of the first scope for the next solve."""
        for literal in literals:
            self._ask(LIBRARY.qbf_assume, _signed(literal))

    def forget_assumptions(self) -> None:
        """Takes all assumptions back."""
        self._ask(LIBRARY.qbf_forget_assumptions)

    def set_restarts(self, restarts: int) -> None:
        """How often a solve may begin anew."""
        if not 0 <= restarts < 2**32:
            raise ValueError("a solve may begin anew 0 to 4,294,967,295 times")
        self._ask(LIBRARY.qbf_set_restarts, restarts)

    def set_kept_rows(self, rows: int) -> None:
        """How many long learned rows a solve may keep: 16 to 16,777,216, and at first 512."""
        self._ask(LIBRARY.qbf_set_kept_rows, _small(rows))

    def kept_long(self) -> int:
        """How many long learned rows there are."""
        return self._count(LIBRARY.qbf_kept_long)

    def solve(
        self,
        assumptions: Iterable[int] = (),
        budget: int | None = None,
        timeout: float | None = None,
        progress: Progress | None = None,
    ) -> bool | None:
        """Decides the formula under the assumptions, those of `assume` and these. None where it was stopped.

        It is stopped once it has taken `budget` steps or `timeout` seconds, or where `progress` answers False. With a
        time limit or with `progress` it is solved in slices, between which the time is looked at and `progress` is
        called with the number of steps so far. What was learned stays, from slice to slice and from call to call. The
        assumptions end with the call, whatever it comes to.
        """
        with self._lock:
            try:
                self.assume(*assumptions)
                return self._decide(_steps(budget), timeout, progress)
            finally:
                LIBRARY.qbf_forget_assumptions(self._handle)

    def spent(self) -> int:
        """How many steps the last solve took."""
        return self._spent

    # Questions about the last verdict.

    @property
    def verdict(self) -> bool | None:
        """The last verdict, or None where there is none, or where a change came after it."""
        with self._lock:
            code = LIBRARY.qbf_verdict(self._handle)
        return None if code == Code.NO_VERDICT else _truth(code)

    def value(self, variable: int) -> bool:
        """The value by which the winner begins, of a variable of the first scope, where this scope is the winner's."""
        literal = c_int32()
        self._ask(LIBRARY.qbf_value, _wide(variable), literal)
        return literal.value > 0

    def model(self) -> list[int] | None:
        """These values of the whole first scope, as literals; None where there is none, or where it is the loser's."""
        with self._lock:
            truth = self._truth()
            if not self._count(LIBRARY.qbf_scopes):
                return None
            forall, variables = self._scope(1)
            if forall == truth:
                return None
            return [variable if self.value(variable) else -variable for variable in variables]

    def relevant(self) -> list[int]:
        """The assumptions that matter, as literals: they alone give the same verdict."""
        return self._numbers("i", NUMBERS, LIBRARY.qbf_relevant)

    def core(self, budget: int | None = None) -> list[int]:
        """The numbers of the groups of a minimal core of a false formula. Each trial has this budget of steps."""
        return self._numbers("I", GROUPS, LIBRARY.qbf_group_core, _steps(budget))

    def certificate(self, trim: bool = False) -> Circuit:
        """The circuit of the verdict's proof, by which the winner plays; with `trim` without the gates that no output
        needs."""
        with self._lock:
            text, binary = (self._text(LIBRARY.qbf_certificate, form, bool(trim)) for form in (False, True))
        return Circuit(text.decode(), binary)

    def trace(self) -> str:
        """The verdict's proof, in the format QRP."""
        return self._text(LIBRARY.qbf_trace).decode()

    def check_formula(self, trim: bool = False) -> str:
        """A propositional formula in QDIMACS, which is unsatisfiable exactly where the circuit wins."""
        return self._text(LIBRARY.qbf_check_formula, bool(trim)).decode()

    # The names of PySAT for what means the same.

    def get_status(self) -> bool | None:
        """The last verdict, as `verdict`."""
        return self.verdict

    def get_model(self) -> list[int] | None:
        """What `model` answers; None where there is no verdict."""
        return None if self.verdict is None else self.model()

    def get_core(self) -> list[int] | None:
        """What `relevant` answers of a false formula, or else None."""
        return self.relevant() if self.verdict is False else None

    # How the library is called.

    def _begin(self) -> None:
        """A handle that holds nothing yet."""
        self._handle = Handle()
        self._lock = threading.RLock()
        self._spent = 0

    def _check(self, code: int) -> None:
        if code:
            raise failure(code)

    def _ask(self, call: Any, *given: Any) -> None:
        with self._lock:
            code = call(self._handle, *given)
        if code:
            raise failure(code)

    def _count(self, call: Any) -> int:
        number = c_uint64()
        self._ask(call, number)
        return number.value

    def _truth(self) -> bool:
        with self._lock:
            return _truth(LIBRARY.qbf_verdict(self._handle))

    def _numbers(self, kind: str, room: int, call: Any, *given: Any) -> list[int]:
        """A list of numbers, which is fetched once more where it wants more room."""
        with self._lock:
            while True:
                numbers, count = array(kind, bytes(4 * room)), c_size_t()
                code = call(self._handle, *given, numbers.buffer_info()[0], room, count)
                if code != Code.SHORT:
                    break
                room = count.value
        self._check(code)
        return numbers[: count.value].tolist()

    def _text(self, call: Any, *given: Any) -> bytes:
        """A text, the same."""
        with self._lock:
            room = BYTES
            while True:
                text, count = create_string_buffer(room), c_size_t()
                code = call(self._handle, *given, text, room, count)
                if code != Code.SHORT:
                    break
                room = count.value
        self._check(code)
        return text.raw[: count.value]

    def _scope(self, number: int) -> Scope:
        return Scope(self._is_forall(number), self._numbers("I", NUMBERS, LIBRARY.qbf_scope_vars, number))

    def _extend(self, forall: bool, variables: Sequence[int]) -> int:
        with self._lock:
            last = self._count(LIBRARY.qbf_scopes)
            if not last or self._is_forall(last) != forall:
                return self.scope(forall, variables)
            for variable in variables:
                self.var(variable, last)
            return last

    def _is_forall(self, number: int) -> bool:
        forall = c_uint32()
        self._ask(LIBRARY.qbf_is_forall, number, forall)
        return bool(forall.value)

    def _slice(self, budget: int) -> tuple[int, int]:
        """A solve with a budget: its code, and how many steps it took."""
        spent = c_uint64()
        code = LIBRARY.qbf_solve(self._handle, budget, byref(spent))
        if code not in (0, Code.TRUE, Code.FALSE):
            raise failure(code)
        return code, spent.value

    def _decide(self, budget: int, timeout: float | None, progress: Progress | None) -> bool | None:
        began, self._spent = time.monotonic(), 0
        sliced = timeout is not None or progress is not None
        wanted = FIRST_SLICE if sliced else budget
        while True:
            code, spent = self._slice(min(wanted, budget - self._spent))
            self._spent += spent
            if code:
                return _truth(code)
            if self._spent >= budget or not sliced:
                return None
            if progress is not None and progress(self._spent) is False:
                return None
            wanted = max(FIRST_SLICE, self._spent // SHARE)
            if timeout is not None:
                passed = time.monotonic() - began
                if passed >= timeout:
                    return None
                wanted = min(wanted, max(FIRST_SLICE, int(self._spent * (timeout - passed) / max(passed, 1e-6))))


# An address for a list of no literals.
_NOWHERE = array("q", [0])
_NOTHING = _NOWHERE.buffer_info()[0]


def _wide(number: int) -> int:
    """A number for a call that takes one of 64 bits. The library refuses the greatest, which stands for all others."""
    number = index(number)
    return number if 0 <= number <= UNLIMITED else UNLIMITED


def _small(number: int) -> int:
    """The same, of 32 bits."""
    number = index(number)
    return number if 0 <= number < 2**32 else 2**32 - 1


def _signed(number: int) -> int:
    """The same of a literal: 0 stands for what is none."""
    number = index(number)
    return number if -(2**63) <= number < 2**63 else 0


def _steps(budget: int | None) -> int:
    """A budget: without one, that of 2^64 - 1 steps."""
    if budget is None:
        return UNLIMITED
    if budget < 0:
        raise ValueError("a budget isn't negative")
    return min(index(budget), UNLIMITED)


def _truth(code: int) -> bool:
    if code not in (Code.TRUE, Code.FALSE):
        raise failure(code)
    return code == Code.TRUE
