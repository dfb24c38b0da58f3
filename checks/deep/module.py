#!/usr/bin/env python3
"""Looks at the page's module: it has a 32-bit memory, asks for nothing, and gives what call.js uses.

usage: module.py MODULE

Prints a line a case and ends with status 1 if one failed.
"""

import sys
from pathlib import Path

sys.path.append(str(Path(__file__).resolve().parents[2] / "web" / "module"))
sys.dont_write_bytecode = True
from narrow import EXPORTS, IMPORTS, MEMORIES, Reader

KINDS = ["function", "table", "memory", "global"]


def sections(module):
    """The sections by their numbers."""
    reader = Reader(module, 8)
    found = {}
    while reader.at < len(module):
        kind = reader.byte()
        found[kind] = reader.bytes(reader.number())
    return found


def exports(section):
    """The names of what is exported, with its kinds."""
    reader, found = Reader(section), {}
    for _ in range(reader.number()):
        name = reader.bytes(reader.number()).decode()
        found[name] = KINDS[reader.byte()]
        reader.number()
    return found


def main(path):
    found = sections(Path(path).read_bytes())
    given = exports(found[EXPORTS])
    cases = {
        "imports": IMPORTS not in found or Reader(found[IMPORTS]).number() == 0,
        "exports": all(given.get(name) == kind for name, kind in (
            ("memory", "memory"), ("qbf_run", "function"), ("room", "function"))),
        # The flag 4 would be a memory of 64 bits.
        "memory": found[MEMORIES][1] & 4 == 0,
    }
    for name, is_so in cases.items():
        print(f"{'ok' if is_so else 'FAILED'} wasm_{name}{'' if is_so else f': {given}'}")
    return 0 if all(cases.values()) else 1


if __name__ == "__main__":
    sys.exit(main(*sys.argv[1:]))
