#!/usr/bin/env python3
"""Prints the clauses that pages name and contracts don't have, and nothing where all are there.

usage: clauses.py [PAGE..]      README, CONTRIBUTING and docs/ without one

A page names a clause in brackets, as [`placed`], and behind a colon fields of the record that the clause is. A citation
is of the functions that follow it after "of"; else of those before the colon with which its list item begins, or of
those in its heading. Without any it may be a clause of any function, or a field. A paragraph that begins with crates in
bold, as docs/PROVED.md has them, says whose functions they are, up to the next such one or the next chapter. There the
functions with which an item begins are to be there, too, and a claim without a citation to have a clause without name.
"""

import re
import sys
from collections import defaultdict
from pathlib import Path

ROOT = Path(__file__).resolve().parents[2]
PIECE = re.compile(
    r"^(?:pub )?(?:impl|struct|enum|trait)\b(?:<[^{]*?>)? (?:.* for )?(?P<type>\w+)|\bfn (?P<fn>\w+)"
    r"|\b(?:ensures|requires) (?:(?P<clause>\w+) )?\{",
    re.M,
)
NAMES = r"((?:`[\w:]+`, )*`[\w:]+`)"
BEGINS = re.compile("- " + NAMES + ":")
CRATES = re.compile(r"((?:\*\*`\w+`\*\*, )*\*\*`\w+`\*\*):")
CITED = re.compile(r"\[((?:`\w+`[,:] )*`\w+`)\](?!\()(?: of " + NAMES + ")?")


def contracts():
    """The clauses of each function, by crate and name, where one without a name is empty; and types without any."""
    found = defaultdict(set)
    for file in ROOT.glob("crates/*/src/**/*.rt"):
        crate, owner, function = file.relative_to(ROOT).parts[1], "", ""
        for piece in PIECE.finditer(re.sub(r"//.*", "", file.read_text())):
            if piece["type"]:
                owner = piece["type"]
                found[crate, owner] |= set()
            elif piece["fn"]:
                function = piece["fn"]
            else:
                found[crate, function].add(piece["clause"] or "")
                found[crate, f"{owner}::{function}"].add(piece["clause"] or "")
    return dict(found)


def fields():
    """The fields of records in specifications."""
    files = ROOT.glob("crates/*/specs/**/*.antt")
    return {name for file in files for name in re.findall(r"^ +pub (\w+)", file.read_text(), re.M)}


def items(page):
    """The headings, paragraphs, list items and rows of a page, a line each."""
    return re.sub(r"\n(?![\n|#]| *[-*] | *\d+\. ) *", " ", page.read_text()).splitlines()


def missing(page, known, some):
    """What a page names and isn't there."""
    here, heading, all_names = set(), [], {name for _, name in known}
    for item in map(str.strip, items(page)):
        crates, begins = CRATES.match(item), BEGINS.match(item)
        if crates or item.startswith("## "):
            here = set(re.findall(r"\w+", crates[1])) if crates else set()
        inside = {key: clauses for key, clauses in known.items() if key[0] in here}
        names = {name for _, name in inside}
        if item.startswith("#"):
            heading = [name for name in re.findall(r"`(\w+)`", item) if name in names]
        first = re.findall(r"[\w:]+", begins[1]) if begins else heading
        cited = CITED.findall(item)
        if here and begins:
            yield from (f"no function {name}" for name in first if name not in names)
            if not cited and all(clauses and "" not in clauses for key, clauses in inside.items() if key[1] in first):
                yield f"no clause without a name of {begins[1]}"
        for citation, of in cited:
            functions = re.findall(r"[\w:]+", of) or [name for name in first if name in all_names]
            keys = [key for key in inside if key[1] in functions]
            keys = keys or [key for key in known if key[1] in functions or not functions]
            clauses = set().union(*(known[key] for key in keys), set() if functions else some)
            left, _, right = citation.partition(": ")
            whose = ", ".join(functions) or "any function"
            yield from (f"no clause {name} of {whose}" for name in re.findall(r"\w+", left) if name not in clauses)
            yield from (f"no field {name}" for name in re.findall(r"\w+", right) if name not in some)


def main():
    known, some = contracts(), fields()
    pages = [ROOT / "README.md", ROOT / "CONTRIBUTING.md", *sorted((ROOT / "docs").glob("*.md"))]
    for page in [Path(name) for name in sys.argv[1:]] or pages:
        for what in missing(page, known, some):
            print(f"{page.name}: {what}")


main()
