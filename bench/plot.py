#!/usr/bin/env python3
"""Draws the figures of docs/benchmarks.md: from each NAME.csv of docs/figures the NAME.svg beside it.

    bench/plot.py [--check]

The numbers are written by bench/bench.py and bench/lanes.py with --csv. A figure is a row of panels under one legend. Each panel has a line for each run
of the file: across is a column that all panels share, on a scale of powers and with a tick at each of its numbers, and upwards a column
of the panel's own, on a scale of powers of ten or on an even one that begins at 0. A run has the same colour and mark in every figure,
and the colours are those of the reader's light or dark scheme.

With --check nothing is written, and the status is 1 where a drawing is not the one of its numbers.
"""

import argparse
import csv
import math
import sys
from dataclasses import dataclass
from html import escape
from pathlib import Path

FOLDER = Path(__file__).resolve().parent.parent / "docs" / "figures"
WIDTH, HEIGHT = 880, 360
# the places of a panel's corners in its share of the width, and in the height
LEFT, RIGHT, TOP, BOTTOM = 78, 26, 100, 306
LEGEND = 50
MARKS = ("M-4,0a4,4 0 1,0 8,0a4,4 0 1,0 -8,0z", "M-4,-4h8v8h-8z", "M0,-5l5,9h-10z", "M0,-6l5,6l-5,6l-5,-6z")
STYLE = """
text { font: 12px sans-serif; fill: #24292f } .title { font-size: 16px; font-weight: bold } .start { text-anchor: start }
.middle { text-anchor: middle } .end { text-anchor: end } .sheet { fill: #ffffff } .grid { stroke: #d8dee4 } .axis { stroke: #57606a; fill: none }
.line { fill: none; stroke: currentColor; stroke-width: 2 } .mark { fill: currentColor }
.run0 { color: #0072b2 } .run1 { color: #c45500 } .run2 { color: #00805d } .run3 { color: #a04a85 }
@media (prefers-color-scheme: dark) {
text { fill: #e6edf3 } .sheet { fill: #0d1117 } .grid { stroke: #30363d } .axis { stroke: #8b949e }
.run0 { color: #56b4e9 } .run1 { color: #f0883e } .run2 { color: #2fc498 } .run3 { color: #dd94c4 }
}
"""


@dataclass(frozen=True)
class Panel:
    """What stands upwards: a column, and how the reader is told of it."""

    column: str
    title: str
    even: bool = False


@dataclass(frozen=True)
class Figure:
    """A file of numbers, and how it is shown: what stands across, and the units of its ticks, each so many times the one before."""

    name: str
    title: str
    across: str
    unit: str
    times: int
    units: tuple
    panels: tuple


@dataclass(frozen=True)
class Scale:
    """Where the numbers from `low` to `high` stand, between the places `start` and `end`."""

    low: float
    high: float
    start: float
    end: float
    even: bool

    def place(self, value):
        low, high, value = (self.low, self.high, value) if self.even else map(math.log10, (self.low, self.high, value))
        return self.start + (value - low) / (high - low) * (self.end - self.start)


FIGURES = (
    Figure(
        "sizes",
        "Puts and reads a second, by the size of a photo",
        "bytes_each",
        "size of a photo",
        1024,
        (" B", " KiB", " MiB"),
        (Panel("puts_a_second", "puts a second"), Panel("reads_a_second", "reads a second")),
    ),
    Figure(
        "growth",
        "Cost by number of photos",
        "photos",
        "photos",
        1000,
        ("", "k", "M"),
        (
            Panel("microseconds_a_put", "microseconds a put", even=True),
            Panel("microseconds_a_read", "microseconds a read", even=True),
            Panel("peak_mib", "greatest memory, MiB"),
        ),
    ),
    Figure(
        "openings",
        "An opening, by number of photos with an index record",
        "photos",
        "photos",
        1000,
        ("", "k", "M"),
        (Panel("seconds", "seconds of the processor"), Panel("peak_mib", "greatest memory, MiB")),
    ),
    Figure(
        "lanes",
        "Lines of a block a second, by the number of lanes",
        "lanes",
        "lanes",
        1000,
        ("",),
        (Panel("lines_a_second", "lines a second", even=True), Panel("times_one_lane", "times one lane", even=True)),
    ),
)


def rows_of(path):
    with open(path, encoding="utf-8", newline="") as file:
        return list(csv.DictReader(file))


def numbers_of(figure):
    return rows_of(FOLDER / f"{figure.name}.csv")


def styles():
    """The number of each run's colour and mark: one that no run has yet, or else one that no run of the figure has."""
    found = {}
    for figure in FIGURES:
        runs = list(dict.fromkeys(row["run"] for row in numbers_of(figure)))
        if len(runs) > len(MARKS):
            sys.exit(f"{figure.name}: {len(runs)} runs, and no more than {len(MARKS)} colours and marks")
        taken = {found.get(run) for run in runs}
        free = sorted(set(range(len(MARKS))) - taken, key=lambda number: (number in found.values(), number))
        found.update(zip((run for run in runs if run not in found), free))
    return found


def even_ticks(greatest):
    """At most six ticks from 0 on, the last of them not below the greatest number."""
    power = 10 ** math.floor(math.log10(greatest))
    step = next(part * power for part in (0.2, 0.5, 1, 2) if 5 * part * power >= greatest)
    return [number * step for number in range(math.ceil(greatest / step) + 1)]


def power_ticks(least, greatest):
    return [10.0**power for power in range(math.floor(math.log10(least)), math.ceil(math.log10(greatest)) + 1)]


def short(value, figure):
    """A number across in the largest unit that divides it."""
    power = max(power for power in range(len(figure.units)) if value % figure.times**power == 0)
    return f"{value // figure.times**power}{figure.units[power]}"


def text(x, y, words, kind="start"):
    return f'<text x="{x:.1f}" y="{y:.1f}" class="{kind}">{escape(words)}</text>'


def rule(x, y, to_x, to_y):
    return f'<line x1="{x:.1f}" y1="{y:.1f}" x2="{to_x:.1f}" y2="{to_y:.1f}" class="grid"/>'


def mark(x, y, style, said=""):
    return f'<path d="{MARKS[style]}" transform="translate({x:.1f},{y:.1f})" class="mark run{style}"><title>{escape(said)}</title></path>'


def frame(figure, panel, across, upwards, ticks_across, ticks_upwards):
    """The title, the grid, its labels and the axes of a panel."""
    middle = (across.start + across.end) / 2
    parts = [text(middle, TOP - 14, panel.title, "middle"), text(middle, BOTTOM + 40, figure.unit, "middle")]
    for tick in ticks_upwards:
        place = upwards.place(tick)
        parts += [rule(across.start - 8, place, across.end + 8, place), text(across.start - 14, place + 4, f"{tick:,.10g}", "end")]
    for tick in ticks_across:
        place = across.place(tick)
        parts += [rule(place, TOP, place, BOTTOM), text(place, BOTTOM + 20, short(tick, figure), "middle")]
    parts.append(f'<path d="M{across.start - 8:.1f},{TOP}V{BOTTOM}H{across.end + 8:.1f}" class="axis"/>')
    return parts


def line_of(figure, panel, rows, run, style, across, upwards):
    """The line of a run, with a mark at each of its numbers."""
    points = sorted((int(row[figure.across]), float(row[panel.column])) for row in rows if row["run"] == run)
    places = [(across.place(x), upwards.place(y)) for x, y in points]
    joined = "L".join(f"{x:.1f},{y:.1f}" for x, y in places)
    marks = [mark(*place, style, f"{run}, {short(x, figure)}: {y:,.10g} {panel.title}") for place, (x, y) in zip(places, points)]
    return [f'<path d="M{joined}" class="line run{style}"/>', *marks]


def panel_of(figure, panel, rows, number, run_styles):
    """The panel of this number from the left."""
    share = WIDTH / len(figure.panels)
    ticks_across = sorted({int(row[figure.across]) for row in rows})
    values = [float(row[panel.column]) for row in rows]
    ticks = even_ticks(max(values)) if panel.even else power_ticks(min(values), max(values))
    across = Scale(ticks_across[0], ticks_across[-1], number * share + LEFT + 8, (number + 1) * share - RIGHT - 8, False)
    upwards = Scale(ticks[0], ticks[-1], BOTTOM, TOP, panel.even)
    parts = frame(figure, panel, across, upwards, ticks_across, ticks)
    for run in dict.fromkeys(row["run"] for row in rows):
        parts += line_of(figure, panel, rows, run, run_styles[run], across, upwards)
    return parts


def legend_of(rows, run_styles):
    parts, x = [], LEFT
    for run in dict.fromkeys(row["run"] for row in rows):
        style = run_styles[run]
        parts += [f'<path d="M{x},{LEGEND}h28" class="line run{style}"/>', mark(x + 14, LEGEND, style, run), text(x + 36, LEGEND + 4, run)]
        x += 190
    return parts


def drawing_of(figure):
    """The text of the figure's drawing."""
    rows, run_styles = numbers_of(figure), styles()
    parts = [f'<rect width="{WIDTH}" height="{HEIGHT}" rx="6" class="sheet"/>', text(LEFT, 28, figure.title, "title"), *legend_of(rows, run_styles)]
    for number, panel in enumerate(figure.panels):
        parts += panel_of(figure, panel, rows, number, run_styles)
    head = f'<svg xmlns="http://www.w3.org/2000/svg" viewBox="0 0 {WIDTH} {HEIGHT}" width="{WIDTH}" height="{HEIGHT}" role="img">'
    return "\n".join([head, f"<title>{escape(figure.title)}</title>", f"<style>{STYLE}</style>", *parts, "</svg>\n"])


def stale():
    """The drawings that are not those of their numbers."""
    paths = [(FOLDER / f"{figure.name}.svg", drawing_of(figure)) for figure in FIGURES]
    return [path for path, drawing in paths if not path.exists() or path.read_text(encoding="utf-8") != drawing]


def main():
    parser = argparse.ArgumentParser(description=__doc__.splitlines()[0])
    parser.add_argument("--check", action="store_true")
    options = parser.parse_args()
    if options.check:
        for path in stale():
            print(f"{path}: not the drawing of its numbers")
        sys.exit(1 if stale() else 0)
    for figure in FIGURES:
        (FOLDER / f"{figure.name}.svg").write_text(drawing_of(figure), encoding="utf-8")


if __name__ == "__main__":
    main()
