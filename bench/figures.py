#!/usr/bin/env python3
"""figures.py LINES TABLES: prints the main figures of a benchmark, from the two files that it wrote (see table.c)."""
import csv
import sys

WORDS, T = "65536", "10"
INPUTS = ("zeros", "coil", "ramps", "noise", "widths")
CODECS = ("gzip", "zstd", "lz4")


def read_lines(path):
    """For each input and contender its row: that of 65,536 words at t = 10, or at no t for a codec."""
    with open(path, newline="") as file:
        return {(row["input"], row["contender"]): row for row in csv.DictReader(file, delimiter="\t")
                if row["words"] == WORDS and row["t"] in (T, "0")}


def read_checks(path):
    """For each input the store's time to check a block, to expert C's."""
    with open(path) as file:
        section = file.read().split("### Checking a block")[1].split("###")[0]
    rows = [line.split("|") for line in section.splitlines() if line.startswith("|")]
    return {row[1].strip(): row[3].strip() for row in rows}


def ratio(rows, what, of, to):
    r = float(rows[of][what]) / float(rows[to][what])
    return f"{r:.2f}" if r < 10 else f"{r:.1f}" if r < 100 else f"{r:.0f}"


def show(name, cells):
    print(f"    {name:8}" + "".join(f"{cell:>9}" for cell in cells))


def main():
    rows, checks = read_lines(sys.argv[1]), read_checks(sys.argv[2])
    print("The store's nanoseconds a word, 65,536 words, t = 10:")
    show("", INPUTS)
    for call in ("pack", "unpack"):
        show(call, [f"{float(rows[i, 'store'][call + '_ns']) / float(WORDS):.2f}" for i in INPUTS])
    print("Its times to those of expert C (bench/expert.c: the same rules in C, written for speed); below 1 is faster:")
    for call in ("pack", "unpack"):
        show(call, [ratio(rows, call + "_ns", (i, "store"), (i, "expert C")) for i in INPUTS])
    show("check", [checks[i] for i in INPUTS])
    print("The coil map: size to the raw bytes; times to the store's, below 1 is faster than the store:")
    show("", ("size", "pack", "unpack"))
    for name in ("store",) + CODECS:
        row, store = rows["coil", name], ("coil", "store")
        if row["standing"] != "exact":
            show(name, ("not here" if row["standing"] == "missing" else row["standing"],))
        else:
            size = float(row["bytes"]) / (8 * float(WORDS))
            show(name, [f"{size:.3f}"] + [ratio(rows, w, ("coil", name), store) for w in ("pack_ns", "unpack_ns")])


main()
