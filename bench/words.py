#!/usr/bin/env python3
"""Prints, for each page, its words, its sentences, the words a sentence, and how many sentences have more than 40.

usage: words.py [--long] [PAGE..]       README, CONTRIBUTING, CHANGELOG, docs/ and the other folders' README without one

Headings, code blocks, tables and quotations aren't counted. A piece of code in a sentence is one word. A sentence ends
with its full stop, or where its paragraph or list item ends. With --long each sentence of more than 40 words is printed
below the table. Ends with status 1 where a page has one, or more than 22 words a sentence on the average.
"""

import re
import sys
from pathlib import Path

MOST, AVERAGE = 40, 22
BULLET = re.compile(r"\s*[-*] +")
NUMBER = re.compile(r"\s*(\d+)\. +")
END = re.compile(r"(?<=[.!?])[\"')*_]*\s+(?=[\"'(*_`]*[A-Z0-9`])")


def paragraphs(text):
    """The paragraphs and list items of a page, without what isn't prose."""
    found, code, fenced, blank, last = [], False, False, True, 0
    for line in text.splitlines():
        if line.startswith("```"):
            fenced, blank = not fenced, True
            continue
        code = line.startswith("    ") and (blank or code)
        if fenced or code or not line.strip() or line.lstrip().startswith(("#", "|", ">", "![", "<")):
            blank = True
            continue
        item, number = BULLET.match(line), NUMBER.match(line)
        if number and int(number[1]) in (1, last + 1):
            item, last = number, int(number[1])
        if blank or item:
            found.append("")
        found[-1] += " " + line[item.end() if item else 0 :].strip()
        blank = False
    return found


def sentences(text):
    """For each sentence how many words it has, and the sentence."""
    found = []
    for paragraph in paragraphs(text):
        plain = re.sub(r"(`+)(.+?)\1", lambda piece: "`" + re.sub(r"\W+", "_", piece[2]) + "`", paragraph)
        plain = re.sub(r"\]\([^)]*\)", "]", plain)
        for sentence in END.split(plain):
            words = [word for word in sentence.split() if re.search(r"\w", word)]
            if words:
                found.append((len(words), sentence.strip()))
    return found


def pages(root):
    """The pages of the repository."""
    names = ["README.md", "CONTRIBUTING.md", "CHANGELOG.md"]
    files = [root / name for name in names] + sorted((root / "docs").glob("*.md")) + sorted(root.glob("*/README.md"))
    return [file for file in files if file.exists()]


def line(name, counts):
    """A line of the table."""
    mean = sum(counts) / max(len(counts), 1)
    many = sum(count > MOST for count in counts)
    return f"| {name} | {sum(counts):,} | {len(counts):,} | {mean:.1f} | {many} |"


def main():
    root = Path(__file__).resolve().parent.parent
    names = [Path(name) for name in sys.argv[1:] if name != "--long"]
    long, failed, counted = [], False, []
    print("| Page | Words | Sentences | Words a sentence | Over 40 |\n|---|---|---|---|---|")
    for page in names or pages(root):
        name = page.relative_to(root) if not names else page
        found = sentences(page.read_text())
        counts = [count for count, _ in found]
        print(line(name, counts))
        long += [f"{name}, {count} words: {sentence}" for count, sentence in found if count > MOST]
        failed |= max(counts, default=0) > MOST or sum(counts) > AVERAGE * len(counts)
        counted += counts
    print(line("all", counted))
    if "--long" in sys.argv:
        print("\n".join(long))
    sys.exit(1 if failed else 0)


if __name__ == "__main__":
    main()
