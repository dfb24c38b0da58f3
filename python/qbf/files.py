"""Formulas in files, and the whole program."""

from __future__ import annotations

import os
from ctypes import byref, c_size_t, create_string_buffer
from pathlib import Path
from typing import NamedTuple

from .library import LIBRARY
from .solver import Progress, Solver

# The status of a run whose output doesn't fit into its buffer, the first buffer, and that of the error output.
WRITE_FAULT = 4
FIRST_ROOM = 1 << 16
ERROR_ROOM = 1 << 16


def read_qdimacs(path: str | os.PathLike[str]) -> Solver:
    """A solver, of version 1, that holds the formula of a QDIMACS file."""
    return Solver.of_qdimacs(Path(path).read_bytes())


def write_qdimacs(solver: Solver, path: str | os.PathLike[str]) -> None:
    """Writes the formula that a solver holds into a file."""
    Path(path).write_bytes(solver.qdimacs().encode("ascii"))


def solve_file(
    path: str | os.PathLike[str],
    budget: int | None = None,
    timeout: float | None = None,
    progress: Progress | None = None,
) -> bool | None:
    """Decides the formula of a QDIMACS file, on the terms of `Solver.solve`."""
    with read_qdimacs(path) as solver:
        return solver.solve(budget=budget, timeout=timeout, progress=progress)


class Run(NamedTuple):
    """How a run of the program ended."""

    status: int
    output: bytes
    error: bytes


def run(line: str, text: str | bytes = b"", room: int = 1 << 28) -> Run:
    """Runs the program on a command line, as "cert --trim", with a text as its standard input.

    An output of more than `room` bytes is a write fault, status 4. `docs/COMMANDS.md` has commands and statuses.
    """
    words = line.encode()
    content = text.encode() if isinstance(text, str) else bytes(text)
    size = min(FIRST_ROOM, room)
    while True:
        output, error = create_string_buffer(max(size, 1)), create_string_buffer(ERROR_ROOM)
        written, said = c_size_t(), c_size_t()
        status = LIBRARY.qbf_run(
            words, len(words), content, len(content), output, size, error, ERROR_ROOM, byref(written), byref(said)
        )
        if status != WRITE_FAULT or size == room:
            return Run(status, output.raw[: written.value], error.raw[: said.value])
        size = min(16 * size, room)
