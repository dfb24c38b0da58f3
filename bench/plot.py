#!/usr/bin/env python3
"""Draws how many formulas each solver decides within how many seconds, as SVG: a step for each formula.

usage: plot.py TIMES.csv > PICTURE.svg

TIMES.csv is what `bench/compare.py --csv TIMES.csv FOLDER` writes. The seconds are on a logarithmic axis. matplotlib
draws where it is installed; else a few lines of SVG are made here, as they are with PLAIN=1 in the environment.
"""

import csv
import math
import os
import sys
from xml.sax.saxutils import escape

COLOURS = ["#1b6ca8", "#c8553d", "#3a7d44", "#7d4e9f", "#8a6d1f", "#444444"]
LEAST = 0.01
TITLE, ACROSS, UP = "Formulas decided within so many seconds", "seconds for each formula", "formulas"


def read_times(path):
    """For each solver the seconds of the formulas that it decided, ascending; and how many formulas there are."""
    times, formulas = {}, set()
    with open(path, newline="") as file:
        for row in csv.DictReader(file):
            formulas.add(row["formula"])
            found = times.setdefault(row["solver"], [])
            if row["verdict"]:
                found.append(max(float(row["seconds"]), LEAST))
    return {solver: sorted(found) for solver, found in times.items()}, len(formulas)


def last_decade(times):
    """The exponent of the power of ten that no time is beyond."""
    most = max((found[-1] for found in times.values() if found), default=1.0)
    return max(0, math.ceil(math.log10(most)))


def by_matplotlib(times, count, out):
    import matplotlib

    matplotlib.use("svg")
    matplotlib.rcParams["svg.hashsalt"] = "qbf"
    from matplotlib import pyplot

    figure, axes = pyplot.subplots(figsize=(6.4, 4.0))
    end = 10.0 ** last_decade(times)
    for colour, (solver, found) in zip(COLOURS * len(times), times.items()):
        steps = range(1, len(found) + 1)
        axes.step([LEAST, *found, end], [0, *steps, len(found)], where="post", color=colour, label=solver)
    axes.set_xscale("log")
    axes.set(title=TITLE, xlabel=ACROSS, ylabel=UP, xlim=(LEAST, end), ylim=(0, count))
    axes.grid(alpha=0.3)
    axes.legend(loc="lower right")
    figure.savefig(out, format="svg", bbox_inches="tight", metadata={"Date": None})


class Chart:
    """A picture of 640 by 400 with room for the axes, line by line."""

    LEFT, RIGHT, TOP, BOTTOM = 60, 620, 40, 350

    def __init__(self, decades, count):
        self.decades, self.count = decades, max(count, 1)
        self.lines = [
            '<svg xmlns="http://www.w3.org/2000/svg" viewBox="0 0 640 400" font-family="sans-serif" font-size="12">',
            '<rect width="640" height="400" fill="white"/>',
        ]

    def x(self, seconds):
        low = math.log10(LEAST)
        return round(self.LEFT + (math.log10(seconds) - low) / (self.decades - low) * (self.RIGHT - self.LEFT), 1)

    def y(self, formulas):
        return round(self.BOTTOM - formulas / self.count * (self.BOTTOM - self.TOP), 1)

    def text(self, x, y, words, anchor="middle", more=""):
        self.lines.append(f'<text x="{x}" y="{y}" text-anchor="{anchor}"{more}>{escape(words)}</text>')

    def path(self, points, colour, width):
        self.lines.append(f'<path d="{points}" fill="none" stroke="{colour}" stroke-width="{width}"/>')

    def axes(self):
        for exponent in range(round(math.log10(LEAST)), self.decades + 1):
            x = self.x(10.0**exponent)
            self.path(f"M{x} {self.TOP}V{self.BOTTOM}", "#ddd", 1)
            self.text(x, self.BOTTOM + 18, f"{10.0**exponent:g}")
        stride = next(n for k in range(9) for n in (10**k, 2 * 10**k, 5 * 10**k) if 8 * n >= self.count)
        for formulas in range(0, self.count + 1, stride):
            y = self.y(formulas)
            self.path(f"M{self.LEFT} {y}H{self.RIGHT}", "#ddd", 1)
            self.text(self.LEFT - 8, y + 4, str(formulas), "end")
        self.path(f"M{self.LEFT} {self.TOP}V{self.BOTTOM}H{self.RIGHT}", "#333", 1)
        self.text(340, 24, TITLE, more=' font-size="14"')
        self.text(340, 388, ACROSS)
        self.text(18, 195, UP, more=' transform="rotate(-90 18 195)"')

    def line(self, place, solver, found, colour):
        """The steps of a solver, and its name."""
        steps = [f"H{self.x(seconds)}V{self.y(number)}" for number, seconds in enumerate(found, 1)]
        lines = "\n".join("".join(steps[i : i + 8]) for i in range(0, len(steps), 8))
        self.path(f"M{self.LEFT} {self.BOTTOM}\n{lines}\nH{self.RIGHT}", colour, 2)
        y = self.BOTTOM - 14 - 18 * place
        self.path(f"M400 {y - 4}H425", colour, 2)
        self.text(432, y, f"{solver}: {len(found)}", "start")


def by_hand(times, count, out):
    chart = Chart(last_decade(times), count)
    chart.axes()
    for place, (solver, found) in enumerate(times.items()):
        chart.line(place, solver, found, COLOURS[place % len(COLOURS)])
    out.write("\n".join([*chart.lines, "</svg>\n"]))


def has_matplotlib():
    try:
        import matplotlib  # noqa: F401
    except ImportError:
        return False
    return os.environ.get("PLAIN") != "1"


def main():
    if len(sys.argv) != 2 or sys.argv[1].startswith("-"):
        sys.exit("usage: plot.py TIMES.csv > PICTURE.svg")
    times, count = read_times(sys.argv[1])
    draw = by_matplotlib if has_matplotlib() else by_hand
    draw(times, count, sys.stdout)


if __name__ == "__main__":
    main()
