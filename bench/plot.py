#!/usr/bin/env python3
"""plot.py LINES PLOT MEASURED: draws the benchmark's lines (see table.c) as bars, an SVG file. MEASURED is a line for
its head: on which machine, and which code.

Three panels, one above the other: size, time to pack, time to unpack. In each a group of bars for each input.
Sizes have a plain scale, times a logarithmic one. A bar of a time starts at 1, the store's own time at
t = 10: what goes up is slower than the store, what goes down is faster.
"""
import csv
import math
import sys
from html import escape

WORDS = "65536"
WIDTH, LEFT, RIGHT = 1160, 76, 16
TOP, PANEL, GAP = 136, 230, 92
TITLES = {"size": "Size: packed bytes to raw bytes",
          "pack_ns": "Time to pack, to the store's at t = 10",
          "unpack_ns": "Time to unpack, to the store's at t = 10"}
HINTS = {"size": "lower is smaller; the C versions write the store's own bytes",
         "pack_ns": "above 1 is slower than the store, below 1 is faster; log scale",
         "unpack_ns": "above 1 is slower than the store, below 1 is faster; log scale"}
# The store's bars are dark, the C versions of its rules are warm, the general codecs are cool.
COLOURS = {"store, t = 10": "#1b1b1b", "store, t = 16": "#757575", "independent C": "#d1762b",
           "expert C": "#a8322d", "gzip": "#12436d", "bzip2": "#2073bc", "zstd": "#6bacd9",
           "lz4": "#28a197", "blosc": "#0b6b62", "fpzip": "#7a5fb0", "zfp": "#b39ddb"}
SAME_BYTES = ("independent C", "expert C")


def read(path):
    """For each input, for each contender: its row, or what keeps it out. The C versions count at t = 10."""
    inputs = {}
    with open(path, newline="") as file:
        for row in csv.DictReader(file, delimiter="\t"):
            name = row["contender"]
            if row["words"] != WORDS or (name in SAME_BYTES and row["t"] == "16"):
                continue
            if name == "store":
                name = "store, t = " + row["t"]
            inputs.setdefault(row["input"], {})[name] = row
    return inputs


def names_in(inputs):
    """All contenders that were there, in the order of the legend."""
    first = next(iter(inputs.values()))
    return [n for n in COLOURS if n in first and first[n]["standing"] != "missing"]


def value(contenders, name, what):
    """The height of a bar, or None where there is none."""
    row, store = contenders[name], contenders["store, t = 10"]
    if row["standing"] != "exact":
        return None
    if what == "size":
        return float(row["bytes"]) / (8 * float(WORDS))
    return float(row[what]) / float(store[what])


def text(x, y, words, size=12, anchor="start", more=""):
    return (f'<text x="{x:.1f}" y="{y:.1f}" font-size="{size}" text-anchor="{anchor}" {more}>'
            f"{escape(words)}</text>")


def upright(x, y, words, anchor):
    """Small text that runs upwards, beside a bar's end."""
    return text(x, y, words, 9.5, anchor, f'fill="#333" transform="rotate(-90 {x:.1f} {y:.1f})"')


def number(v, what):
    if what == "size":
        return f"{v:.3f}" if v >= 0.001 else "<0.001"
    return f"{v:.0f}" if v >= 99.5 else f"{v:.1f}" if v >= 9.95 else f"{v:.2f}"


def scale(what, values, top):
    """From a value to its height on the page, and the marks in between."""
    if what == "size":
        high = 1.3
        return (lambda v: top + PANEL * (high - v) / high), [0, 0.25, 0.5, 0.75, 1]
    low, high = math.log10(min(values + [0.5])) - 0.45, math.log10(max(values + [2])) + 0.45
    marks = [10.0 ** p for p in range(math.ceil(low), math.floor(high) + 1)]
    return (lambda v: top + PANEL * (high - math.log10(v)) / (high - low)), marks


def axis(place, marks, base):
    parts = []
    for mark in marks:
        y, line = place(mark), "#444" if mark == base else "#ddd"
        parts.append(f'<line x1="{LEFT}" x2="{WIDTH - RIGHT}" y1="{y:.1f}" y2="{y:.1f}" stroke="{line}"/>')
        parts.append(text(LEFT - 8, y + 4, f"{mark:g}", 11, "end"))
    return parts


def bar(x, step, place, base, v, label, colour):
    """A bar from the base to the value, and its label beyond its end."""
    middle, foot = x + step / 2 + 3.5, place(base)
    if v is None:
        return [upright(middle, foot - 4, "not exact", "start")]
    y = place(v)
    beyond = upright(middle, y - 4, label, "start") if v >= base else upright(middle, y + 4, label, "end")
    return [f'<rect x="{x + 0.75:.1f}" y="{min(y, foot):.1f}" width="{step - 1.5:.1f}" '
            f'height="{max(abs(foot - y), 1):.1f}" fill="{colour}"/>', beyond]


def panel(inputs, what, top):
    names = [n for n in names_in(inputs) if what != "size" or n not in SAME_BYTES]
    values = [v for c in inputs.values() for n in names if (v := value(c, n, what)) is not None]
    place, marks = scale(what, values, top)
    base = 0 if what == "size" else 1
    group = (WIDTH - LEFT - RIGHT) / len(inputs)
    step = (group - 26) / len(names)
    middle = top + PANEL / 2
    parts = [text(LEFT, top - 16, TITLES[what], 15, "start", 'font-weight="bold"'),
             text(WIDTH - RIGHT, top - 16, HINTS[what], 12, "end", 'fill="#555"'),
             text(20, middle, "ratio", 12, "middle", f'transform="rotate(-90 20 {middle:.1f})"')]
    parts += axis(place, marks, base)
    for k, (title, contenders) in enumerate(inputs.items()):
        x = LEFT + k * group + 13
        parts.append(text(x + (group - 26) / 2, top + PANEL + 22, title, 13, "middle"))
        for i, name in enumerate(names):
            v = value(contenders, name, what)
            label = "" if v is None else number(v, what)
            parts += bar(x + i * step, step, place, base, v, label, COLOURS[name])
    return parts


def legend(inputs):
    parts, x = [], LEFT
    for name in names_in(inputs):
        parts.append(f'<rect x="{x}" y="70" width="12" height="12" fill="{COLOURS[name]}"/>')
        parts.append(text(x + 17, 81, name, 12))
        x += 36 + int(6.7 * len(name))
    return parts


def main():
    inputs = read(sys.argv[1])
    height = TOP + 3 * PANEL + 2 * GAP + 40
    title = "65,536 words of five kinds: the store, C for the same rules at t = 10, general codecs"
    parts = [f'<svg xmlns="http://www.w3.org/2000/svg" width="{WIDTH}" height="{height}" '
             f'viewBox="0 0 {WIDTH} {height}" font-family="DejaVu Sans, Helvetica, Arial, sans-serif">',
             f'<rect width="{WIDTH}" height="{height}" fill="white"/>',
             text(LEFT, 30, title, 17, "start", 'font-weight="bold"'),
             text(LEFT, 51, sys.argv[3], 12, "start", 'fill="#555"')]
    parts += legend(inputs)
    for k, what in enumerate(TITLES):
        parts += panel(inputs, what, TOP + k * (PANEL + GAP))
    with open(sys.argv[2], "w") as file:
        file.write("\n".join(parts + ["</svg>"]) + "\n")


main()
