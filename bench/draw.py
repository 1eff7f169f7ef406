#!/usr/bin/env python3
"""Draws the tables of bench/results as pictures: check.svg, readers.svg and commits.svg. Usage: bench/draw.py [RESULTS [PICTURES]]
(bench/results and docs/pictures). A table that isn't there is left out."""

import csv
import math
import os
import sys

HERE = os.path.dirname(os.path.abspath(__file__))
COLOURS = {"qpzone": "#1b6ca8", "NSD": "#8a8a8a", "Knot": "#b0b0b0", "BIND": "#d0d0d0", "LMDB": "#8a8a8a"}
HEAD = (
    '<svg xmlns="http://www.w3.org/2000/svg" width="{0}" height="{1}" viewBox="0 0 {0} {1}" font-family="sans-serif" font-size="13">'
    '<rect width="100%" height="100%" fill="#ffffff"/>'
)


def text(x, y, words, anchor="start", size=13, colour="#222222"):
    return f'<text x="{x:.1f}" y="{y:.1f}" text-anchor="{anchor}" font-size="{size}" fill="{colour}">{words}</text>'


def line(points, colour, dash=""):
    places = " ".join(f"{x:.1f},{y:.1f}" for x, y in points)
    return f'<polyline points="{places}" fill="none" stroke="{colour}" stroke-width="2" stroke-dasharray="{dash}"/>'


def bars(title, rows, left, top, width):
    """One bar a row of a name, a value and the words that stand behind it; the height that they take."""
    out = [text(left, top, title, size=14)]
    most = max(value for _, value, _ in rows)
    for place, (name, value, words) in enumerate(rows):
        y = top + 14 + place * 24
        long = value / most * (width - 150)
        out.append(text(left + 60, y + 14, name, "end"))
        out.append(f'<rect x="{left + 68}" y="{y}" width="{long:.1f}" height="18" fill="{COLOURS[name]}"/>')
        out.append(text(left + 74 + long, y + 14, words))
    return out


def graph(title, lines, xs, ys, left, top, width, height, show):
    """Lines of points over two scales: xs are the places that are named below, ys the greatest value and the step of the rules."""
    most, step = ys
    low, high = math.log(xs[0]), math.log(xs[-1])
    across = lambda x: left + 60 + (math.log(x) - low) / (high - low) * (width - 230)
    up = lambda y: top + height - 30 - y / most * (height - 70)
    out = [text(left, top, title, size=14)]
    for rule in range(int(most / step) + 1):
        y = up(rule * step)
        out.append(f'<line x1="{left + 60}" y1="{y:.1f}" x2="{left + width - 170}" y2="{y:.1f}" stroke="#e4e4e4"/>')
        out.append(text(left + 54, y + 4, show(rule * step), "end", 11, "#666666"))
    for x in xs:
        out.append(text(across(x), top + height - 10, f"{x:,}", "middle", 11, "#666666"))
    for _, colour, dash, points in lines:
        out.append(line([(across(x), up(y)) for x, y in points], colour, dash))
    above = top
    for name, colour, _, points in sorted(lines, key=lambda drawn: -drawn[3][-1][1]):
        x, y = points[-1]
        above = max(above + 13, up(y) + 4)  # a label under the one before it
        out.append(text(across(x) + 8, above, name, size=11, colour=colour))
    return out


def picture(folder, name, width, height, parts):
    with open(os.path.join(folder, name), "w") as file:
        file.write("\n".join([HEAD.format(width, height), *parts, "</svg>", ""]))


def check(rows, folder):
    rows = [row for row in rows if int(row["records"]) > 10]
    records = int(rows[0]["records"])
    seconds = [(row["program"], float(row["seconds"]), f'{float(row["seconds"]):.2f} s') for row in rows]
    memory = [(row["program"], int(row["KiB"]) / 1000, f'{int(row["KiB"]) / 1000:.0f} MB') for row in rows]
    parts = bars(f"Checking a zone of {records:,} records", seconds, 16, 26, 400)
    parts += bars("Memory", memory, 416, 26, 370)
    picture(folder, "check.svg", 800, 50 + 24 * len(rows), parts)


def readers(rows, folder):
    lines = []
    for names, colour in (("100000", "#1b6ca8"), ("500000", "#c46a1b")):
        for writers, dash in (("0", ""), ("1", "5 4")):
            points = [
                (int(row["readers"]), int(row["gets a second"]) / 1e6)
                for row in rows
                if row["names"] == names and row["writers"] == writers
            ]
            if points:
                beside = ", one writes" if writers == "1" else ""
                lines.append((f"{int(names) // 1000},000 names{beside}", colour, dash, points))
    most = max(y for _, _, _, points in lines for _, y in points)
    step = 10 if most > 20 else 5
    parts = graph("Items read in a second, millions, by the number of readers", lines, [1, 2, 4],
                  (math.ceil(most / step) * step, step), 16, 26, 640, 280, lambda y: f"{y:.0f}")
    picture(folder, "readers.svg", 672, 320, parts)


def commit_lines(rows, snapshot):
    lines = []
    for who, dash in (("qpzone", ""), ("LMDB", "5 4")):
        for kind, colour, words in (("four", "#1b6ca8", "four changes"), ("exchange", "#c46a1b", "one item")):
            points = [
                (int(row["names"]), int(row["mean ns"]) / 1000)
                for row in rows
                if row["index"] == who and row["kind"] == kind and row["snapshot"] == snapshot and row["mean ns"]
            ]
            if len(points) > 1:
                lines.append((f"{who}, {words}", colour, dash, points))
    return lines


def commits(rows, folder):
    parts, top = [], 26
    for snapshot, beside in (("none", ""), ("held", ", while a snapshot is held")):
        lines = commit_lines(rows, snapshot)
        if not lines:
            continue
        most = max(y for _, _, _, points in lines for _, y in points)
        step = 10 if most > 20 else 5
        parts += graph(f"Microseconds of a commit{beside}, by the number of names", lines, [10000, 100000, 500000],
                       (math.ceil(most / step) * step, step), 16, top, 640, 280, lambda y: f"{y:.0f}")
        top += 310
    if parts:
        picture(folder, "commits.svg", 672, top - 16, parts)


def main():
    results = sys.argv[1] if len(sys.argv) > 1 else os.path.join(HERE, "results")
    pictures = sys.argv[2] if len(sys.argv) > 2 else os.path.join(HERE, "..", "docs", "pictures")
    os.makedirs(pictures, exist_ok=True)
    for draw in (check, readers, commits):
        table = os.path.join(results, draw.__name__ + ".tsv")
        if os.path.exists(table):
            with open(table, newline="") as file:
                draw(list(csv.DictReader(file, delimiter="\t")), pictures)


main()
