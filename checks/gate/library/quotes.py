#!/usr/bin/env python3
"""Sees that each piece of code that a page quotes is in one of these files, line for line, however far it is indented.

usage: quotes.py PAGE FILE..

A piece is a run of indented lines of the page; those that begin with a command (make, cc, pip) or with >>> are none.
Prints the pieces that aren't there, and ends with status 1 if there are any.
"""

import sys
from itertools import groupby
from pathlib import Path


def lines_of(text):
    """The lines without what is in front, empty ones left out."""
    return [line.strip() for line in text.splitlines() if line.strip()]


def pieces(page):
    for indented, lines in groupby(page.splitlines(), lambda line: line.startswith("    ") or not line):
        found = lines_of("\n".join(lines))
        if indented and found and found[0].split()[0] not in ("make", "cc", "pip", ">>>"):
            yield found


def has(lines, piece):
    return any(lines[at : at + len(piece)] == piece for at in range(len(lines)))


def main():
    page, *files = (Path(word).read_text() for word in sys.argv[1:])
    missing = [piece for piece in pieces(page) if not any(has(lines_of(text), piece) for text in files)]
    for piece in missing:
        print("\n".join(piece), end="\n\n")
    sys.exit(bool(missing))


if __name__ == "__main__":
    main()
