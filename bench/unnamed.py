#!/usr/bin/env python3
"""Lists the definitions that no worked value and no theorem names, crate by crate.

usage: unnamed.py [CRATE..]

Definitions are the public ones of `crates/*/specs`. Worked values are what files `Worked*` there name, and what the
statements of `crates/*/proofs/Worked*` do. Theorems are what contracts of functions without a body name, with what a
definition that they cite names. Behind a definition that
no named one is made of stands `alone`. This is a list to go through, and no list of faults: most others are parts of
one that is named. The last line counts both.
"""

import re
import sys
from pathlib import Path

CRATES = Path(__file__).resolve().parent.parent / "crates"
HEAD = r"^(?:abbrev |unfoldable )?pub "
DEFINED = re.compile(rf"{HEAD}(?:record |data )?(\S+) [({{:]|{HEAD}(?:record|data) (\S+)", re.M)
LAW = re.compile(r"pub fn \w+\([^)]*\)\n((?:    (?:ensures|requires).*\n(?:        .*\n)*)+)\{\}", re.M)
NAME = re.compile(r"[^\s(){}\[\];,.λ→]+")


def code_of(path):
    """The text of a file without its comments and imports."""
    lines = path.read_text().splitlines(keepends=True)
    return "".join(line for line in lines if not re.match(r"\s*(--|//|use |ghost use )", line))


def names_in(text):
    return set(NAME.findall(text))


def statements(text):
    """The lines of a file of lemmas that say what is proved, without the proofs."""
    said = False
    for line in text.splitlines():
        if re.match(r" *(?:pub )?\S+ : ", line):
            said = True
        elif re.match(r"(?:  )?\S", line):
            said = False
        if said:
            yield line


def definitions(crate):
    """Each file's public definitions: the name and the lines up to the next one."""
    for path in sorted((crate / "specs").glob("*.antt")):
        text = code_of(path)
        found = list(DEFINED.finditer(text))
        for place, match in enumerate(found):
            end = found[place + 1].start() if place + 1 < len(found) else len(text)
            yield path.stem, match.group(1) or match.group(2), text[match.start() : end]


def reached(names, bodies):
    """These names, and those of all that they are made of."""
    found, left = set(names), [name for name in names if name in bodies]
    while left:
        more = (names_in(bodies[left.pop()]) & bodies.keys()) - found
        found |= more
        left += more
    return found


def main():
    crates = [crate for crate in sorted(CRATES.iterdir()) if (crate / "specs").is_dir()]
    named, laws, bodies = set(), set(), {}
    for crate in crates:
        for path in (crate / "specs").glob("Worked*.antt"):
            named |= names_in(code_of(path))
        for path in (crate / "proofs").glob("Worked*.antt"):
            named |= names_in("\n".join(statements(code_of(path))))
        for path in (crate / "src").glob("*.rt"):
            for law in LAW.finditer(code_of(path)):
                laws |= names_in(law.group(1))
        bodies.update((name, text) for _, name, text in definitions(crate))
    named |= laws.union(*(names_in(bodies[name]) for name in laws if name in bodies))
    parts = reached(named, bodies)
    count = alone = 0
    for crate in crates:
        if sys.argv[1:] and crate.name not in sys.argv[1:]:
            continue
        for file, name, _ in definitions(crate):
            if not file.startswith("Worked") and name not in named:
                count += 1
                alone += name not in parts
                print(f"{crate.name}/specs/{file}: {name}{'' if name in parts else ' alone'}")
    print(f"{count} definitions that no worked value and no theorem names, {alone} of which no named one is made of")


if __name__ == "__main__":
    main()
