#!/usr/bin/env python3
"""Compares include/qbf.h with the exports of crates/qbf_c: names, parameters and codes. And with the Python package.

usage: header.py

Of each call the names and types of its parameters are compared, in their order, and what it answers. Of each code its
number, with the constants of crates/qbf_c/src/code.rt and with the numbers that refusals have. The package's table of
calls and its codes are to be those of the header. Prints a line a case and ends with status 1 if one failed.
"""

import re
import sys
from pathlib import Path

ROOT = Path(__file__).resolve().parents[2]
CRATE = ROOT / "crates" / "qbf_c" / "src"
PACKAGE = ROOT / "python" / "qbf"

# What C has for a parameter of Rattle's type. A slice is a pointer and a length.
TYPES = {
    "&mut Handle": ["qbf *"],
    "bool": ["bool"],
    "u32": ["uint32_t"],
    "u64": ["uint64_t"],
    "i64": ["int64_t"],
    "&mut u32": ["uint32_t *"],
    "&mut u64": ["uint64_t *"],
    "&mut i32": ["int32_t *"],
    "&mut usize": ["size_t *"],
    "&[u8]": ["const uint8_t *", "size_t"],
    "&[i64]": ["const int64_t *", "size_t"],
    "&mut [u8]": ["uint8_t *", "size_t"],
    "&mut [u32]": ["uint32_t *", "size_t"],
    "&mut [i32]": ["int32_t *", "size_t"],
}

# What ctypes has for a type of C. Arrays and texts are given by their addresses.
CTYPES = {
    "qbf *": "HANDLE",
    "bool": "c_bool",
    "uint32_t": "c_uint32",
    "uint64_t": "c_uint64",
    "int64_t": "c_int64",
    "uint32_t *": "POINTER(c_uint32)",
    "uint64_t *": "POINTER(c_uint64)",
    "int32_t *": "POINTER(c_int32)",
    "size_t *": "COUNT",
    "size_t": "c_size_t",
}

# Constants of the crate with another name than in the header; None where the header has no name for it.
NAMES = {
    "ACCEPTED": "OK",
    "UNDECIDED": None,
    "TRIAL_SPENT": "SPENT",
    "BAD_VERSION": "VERSION",
    "BAD_KEPT": "KEPT_RANGE",
    "NOT_UNSAT": "NOT_FALSE",
}

failed = 0


def report(name, ours, theirs):
    """A line for a case: the two are to be equal."""
    global failed
    if ours == theirs:
        print(f"ok {name}")
    else:
        failed = 1
        print(f"FAILED {name}: {ours} in the header, {theirs} otherwise")


def parted(parameters):
    return [part.strip() for part in parameters.split(",") if part.strip()]


def header_calls(text):
    """Of each call of the header what it answers, and its parameters, each with its type and its name."""
    calls = {}
    for answer, name, parameters in re.findall(r"^(uint32_t|void) (qbf_\w+)\(([^)]*)\);", text, re.M | re.S):
        pairs = [re.fullmatch(r"(.*?)(\w+)", " ".join(part.split())).groups() for part in parted(parameters)]
        calls[name] = answer, [(kind.strip(), word) for kind, word in pairs]
    return calls


def exported_calls():
    """The same of the crate's exports, as C sees them."""
    calls = {}
    for path in sorted(CRATE.rglob("*.rt")):
        exports = re.findall(
            r'#\[unsafe\(no_mangle\)\]\s*pub extern "C" fn (qbf_\w+)\(([^)]*)\)(?: -> (\w+))?', path.read_text()
        )
        for name, parameters, answer in exports:
            seen = [tuple(part.split(": ")) for part in parted(parameters)]
            slices = sum(kind.endswith("]") for _, kind in seen)
            given = []
            for word, kind in seen:
                if kind == "Global":
                    continue
                pointer, *length = TYPES[kind]
                given.append((pointer, "q" if kind == "&mut Handle" else word))
                given += [(kind, f"{word}_length" if slices > 1 else "length") for kind in length]
            calls[name] = {"u32": "uint32_t", "": "void"}[answer], given
    return calls


def codes(text):
    return {name: int(number) for name, number in re.findall(r"^ *QBF_(\w+) = (\d+)", text, re.M)}


def crate_codes():
    """The constants of the crate, and the numbers of refusals, each under its name in capitals."""
    found = {}
    for name, number in re.findall(r"const (\w+): u32 = (\d+);", (CRATE / "code.rt").read_text()):
        found[NAMES.get(name, name)] = int(number)
    for path in ("frames/src/refusal.rt", "engine/src/refusal.rt", "engine/src/group_core.rt"):
        refusals = re.findall(r"::(\w+)\)? => Some\((\d+)\)", (ROOT / "crates" / path).read_text())
        for variant, number in refusals:
            name = re.sub(r"(?<!^)([A-Z])", r"_\1", variant).upper()
            found[NAMES.get(name, name)] = int(number)
    found.pop(None, None)
    return found


def package_calls():
    """The table of calls of the Python package."""
    text = (PACKAGE / "library.py").read_text()
    lines = re.findall(r'^    "(qbf_\w+)": \[(.*)\],$', text, re.M)
    return {name: given.replace("TEXT", "c_void_p").split(", ") for name, given in lines}


def package_form(parameters):
    """What that table is to have for these parameters of C."""
    kinds = [kind for kind, _ in parameters] + [""]
    return [
        "c_void_p" if kind.endswith("*") and kind != "size_t *" and behind == "size_t" else CTYPES[kind]
        for kind, behind in zip(kinds, kinds[1:])
    ]


def main():
    header = (ROOT / "include" / "qbf.h").read_text()
    text = re.sub(r"/\*.*?\*/", "", header, flags=re.S)
    ours, theirs = header_calls(text), exported_calls()
    report("header_calls", sorted(ours), sorted(theirs))
    for name in ours:
        report(f"header_{name}", ours[name], theirs.get(name))
    numbers = codes(text)
    for name, number in crate_codes().items():
        report(f"header_code_{name.lower()}", numbers.get(name), number)
    report("header_package_calls", {name: package_form(given) for name, (_, given) in ours.items()}, package_calls())
    named = re.findall(r"^    (\w+) = (\d+)$", (PACKAGE / "refusal.py").read_text(), re.M)
    report("header_package_codes", numbers, {name: int(number) for name, number in named})
    sys.exit(failed)


if __name__ == "__main__":
    main()
