#!/usr/bin/env python3
"""Draws how clauses, conflicts and seconds grow with width and depth, as an SVG file, from rows of `bench/`.

The rows are what `bench/bench.py` and `bench/measure.py` print, tables of a document among them: lines between bars,
the first of which has the names of the columns. Of these it takes the superscalars, `WIDTH x DEPTH`, and the generated
pipelines, `gen DEPTH 0`, whose width is 1; `--mode` says of which mode. Each column that was asked for and is there
(`clauses`, `learned`, `seconds`; `whole` and `s` count as `seconds`) is a picture, with the depth along the bottom, a
line for each width, and powers of ten up the side. Nothing but Python is needed.

usage: plot.py [--mode plain|diverse] [--columns NAME,NAME] OUTPUT.svg [ROWS ..]
"""
import argparse
import html
import math
import re
import sys
from pathlib import Path
from typing import Dict, Iterable, List, NamedTuple, Optional, Sequence, Tuple

COLUMNS = ("clauses", "learned", "seconds")
SAME = {"whole": "seconds", "s": "seconds"}
COLOURS = ("#1b6ca8", "#c1432e", "#3b8f4a", "#8a5aa8", "#b8860b", "#4a4a4a")
WIDTH, HEIGHT, LEFT, RIGHT, TOP, BOTTOM = 430, 300, 78, 92, 36, 44


class Point(NamedTuple):
    """A design's width and depth, and its value."""

    width: int
    depth: int
    value: float


Series = Dict[str, List[Point]]


def cells(line: str) -> List[str]:
    """The cells of a row, without bars."""
    return [cell.strip().strip("`") for cell in line.strip().strip("|").split("|")]


def size(design: str) -> Optional[Tuple[int, int]]:
    """The width and the depth of a design that has them, and no other mark."""
    found = re.fullmatch(r"(\d+) x (\d+)|gen (\d+) 0", design)
    if found is None:
        return None
    return (1, int(found[3])) if found[3] else (int(found[1]), int(found[2]))


def number(cell: str) -> Optional[float]:
    """The number that a cell begins with, if it's no limit that was passed."""
    found = re.match(r"[\d,]+(\.\d+)?", cell)
    return float(found[0].replace(",", "")) if found else None


def read(lines: Iterable[str], mode: str) -> Series:
    """The points of each column of the tables."""
    found: Series = {}
    head: List[str] = []
    for line in lines:
        row = cells(line) if line.lstrip().startswith("|") else []
        if row[:1] and row[0].lower() == "design":
            head = [SAME.get(name.lower(), name.lower()) for name in row]
            head = ["learned" if name == "now" else name for name in head]
        place = size(row[0]) if row and head and len(row) == len(head) else None
        if place is None or ("mode" in head and row[head.index("mode")] != mode):
            continue
        for name, cell in zip(head[1:], row[1:]):
            value = number(cell)
            if value is not None and name in COLUMNS and value > 0:
                found.setdefault(name, []).append(Point(*place, value))
    return found


def scale(values: Sequence[float], low: float, high: float, least: float, most: float) -> List[float]:
    """Where values stand between two places."""
    return [low + (value - least) * (high - low) / ((most - least) or 1) for value in values]


def text(x: float, y: float, words: str, anchor: str = "middle") -> str:
    """A text at a place, as an element of SVG."""
    return f'<text x="{x:.1f}" y="{y:.1f}" text-anchor="{anchor}">{html.escape(words)}</text>'


def axes(depths: Sequence[int], powers: Sequence[int], bottom: float, right: float) -> List[str]:
    """The grid, with its numbers."""
    drawn = []
    for depth, x in zip(depths, scale(depths, LEFT, right, depths[0], depths[-1])):
        drawn += [f'<path d="M{x:.1f} {TOP}V{bottom}" class="grid"/>', text(x, bottom + 16, str(depth))]
    for power, y in zip(powers, scale(powers, bottom, TOP, powers[0], powers[-1])):
        label = f"{10 ** power:,}" if power >= 0 else f"{10 ** power:g}"
        drawn += [f'<path d="M{LEFT} {y:.1f}H{right}" class="grid"/>', text(LEFT - 6, y + 4, label, "end")]
    return drawn


def picture(name: str, points: Sequence[Point], colours: Dict[int, str]) -> str:
    """The picture of a column."""
    bottom, right = HEIGHT - BOTTOM, WIDTH - RIGHT
    logs = [math.log10(point.value) for point in points]
    powers = list(range(math.floor(min(logs)), max(math.ceil(max(logs)), math.floor(min(logs)) + 1) + 1))
    depths = sorted({point.depth for point in points})
    drawn = [text((LEFT + right) / 2, 20, name), text((LEFT + right) / 2, HEIGHT - 8, "depth")]
    drawn += axes(depths, powers, bottom, right)
    for place, width in enumerate(sorted({point.width for point in points})):
        line = sorted(point[1:] for point in points if point.width == width)
        xs = scale([depth for depth, _ in line], LEFT, right, depths[0], depths[-1])
        ys = scale([math.log10(value) for _, value in line], bottom, TOP, powers[0], powers[-1])
        pairs = list(zip(xs, ys))
        colour = colours[width]
        drawn.append(f'<polyline points="{" ".join(f"{x:.1f},{y:.1f}" for x, y in pairs)}" stroke="{colour}"/>')
        drawn += [f'<circle cx="{x:.1f}" cy="{y:.1f}" r="2.5" fill="{colour}"/>' for x, y in pairs]
        drawn.append(f'<g fill="{colour}">{text(right + 12, TOP + 12 + 16 * place, f"width {width}", "start")}</g>')
    return "\n".join(drawn)


def page(series: Series, columns: Sequence[str], mode: str) -> str:
    """The file: the pictures side by side."""
    shown = [name for name in columns if name in series]
    widths = sorted({point.width for name in shown for point in series[name]})
    colours = {width: COLOURS[place % len(COLOURS)] for place, width in enumerate(widths)}
    parts = [f'<g transform="translate({WIDTH * place},0)">\n{picture(name, series[name], colours)}\n</g>'
             for place, name in enumerate(shown)]
    return "\n".join([
        f'<svg xmlns="http://www.w3.org/2000/svg" width="{WIDTH * len(shown)}" height="{HEIGHT}" '
        'font-family="sans-serif" font-size="12">',
        f"<title>{html.escape(', '.join(shown))} by width and depth, {html.escape(mode)}</title>",
        "<style>.grid{stroke:#ddd;fill:none} polyline{fill:none;stroke-width:1.5}</style>",
        '<rect width="100%" height="100%" fill="white"/>', *parts, "</svg>", ""])


def main(words: Optional[Sequence[str]] = None) -> int:
    """Writes the file."""
    parser = argparse.ArgumentParser(description="Draws rows of bench/ as SVG.")
    parser.add_argument("--mode", default="plain", choices=("plain", "diverse"))
    parser.add_argument("--columns", default=",".join(COLUMNS), help="of clauses, learned and seconds")
    parser.add_argument("output", metavar="OUTPUT.svg")
    parser.add_argument("rows", nargs="*", metavar="ROWS", help="files with rows; without one the standard input")
    given = parser.parse_args(words)
    texts = [Path(name).read_text(encoding="utf-8") for name in given.rows] or [sys.stdin.read()]
    series = read("\n".join(texts).splitlines(), given.mode)
    columns = [name for name in given.columns.split(",") if name in series]
    if not columns:
        print("no row has a width, a depth and one of the columns", file=sys.stderr)
        return 1
    Path(given.output).write_text(page(series, columns, given.mode), encoding="utf-8")
    return 0


if __name__ == "__main__":
    sys.exit(main())
