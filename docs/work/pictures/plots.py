#!/usr/bin/env python3
"""Draws the plots of docs/work/benchmarks.md as SVG, from the measured figures.

    docs/work/pictures/plots.py [--figures figures.tsv] [--folder .]      (default: beside this script)

A line of the figures is plot, series, x and y, separated by tabs; one that begins with # is skipped. Each series has its own
marker and dashes, and its name at its end, so a plot can be read without colour.
"""

from __future__ import annotations

import argparse
import dataclasses
import math
import os

HERE = os.path.dirname(os.path.abspath(__file__))
WIDTH, HEIGHT = 760, 430
LEFT, RIGHT, TOP, BOTTOM = 78, 178, 46, 62  # room around the field of the plot
APART = 17  # pixels between the names of two series, at least
DASHES = ("none", "7 3", "2 3", "9 3 2 3", "5 5", "12 4", "1 4")
Points = list[tuple[float, float]]


@dataclasses.dataclass(frozen=True)
class Axis:
    """A scale from a value to pixels, linear or by powers of ten."""
    label: str
    low: float
    high: float
    ticks: tuple[float, ...]
    is_log: bool

    def share(self, value: float) -> float:
        """Returns how far along the axis a value is, from 0 to 1."""
        of = math.log10 if self.is_log else float
        return (of(value) - of(self.low)) / (of(self.high) - of(self.low))


@dataclasses.dataclass(frozen=True)
class Plot:
    name: str
    title: str
    x: Axis
    y: Axis

    def at(self, x: float, y: float) -> tuple[float, float]:
        """Returns the pixels of a point."""
        return (LEFT + self.x.share(x) * (WIDTH - LEFT - RIGHT), HEIGHT - BOTTOM - self.y.share(y) * (HEIGHT - TOP - BOTTOM))


PLOTS = (
    Plot("requests", "Processor time of a request, by accepted requests",
         Axis("accepted requests so far", 800, 130_000, (1_000, 10_000, 100_000), True),
         Axis("median of a request (µs)", 0, 90, (0, 15, 30, 45, 60, 75, 90), False)),
    Plot("finds", "Processor time of a find, by steps held",
         Axis("steps held", 8, 130_000, (10, 100, 1_000, 10_000, 100_000), True),
         Axis("median of a find (µs)", 10, 100_000, (10, 100, 1_000, 10_000, 100_000), True)),
)


def read(path: str) -> dict[str, dict[str, Points]]:
    """Reads the points of each series, by plot."""
    plots: dict[str, dict[str, Points]] = {}
    with open(path, encoding="utf-8") as lines:
        for line in lines:
            if line.strip() and not line.startswith("#"):
                plot, series, x, y = line.rstrip("\n").split("\t")
                plots.setdefault(plot, {}).setdefault(series, []).append((float(x), float(y)))
    return plots


def text(x: float, y: float, words: str, anchor: str = "middle", more: str = "") -> str:
    return f'<text x="{x:.1f}" y="{y:.1f}" text-anchor="{anchor}"{more}>{words}</text>'


def line(x1: float, y1: float, x2: float, y2: float, colour: str) -> str:
    return f'<line x1="{x1:.1f}" y1="{y1:.1f}" x2="{x2:.1f}" y2="{y2:.1f}" stroke="{colour}"/>'


def marker(kind: int, x: float, y: float) -> str:
    """Returns the marker of a series: a circle, a square, a triangle or a diamond, filled for the first four and then open."""
    shapes = (
        f'<circle cx="{x:.1f}" cy="{y:.1f}" r="4.5"',
        f'<rect x="{x - 4:.1f}" y="{y - 4:.1f}" width="8" height="8"',
        f'<path d="M{x:.1f} {y - 5.5:.1f} l5.5 9.5 h-11 z"',
        f'<path d="M{x:.1f} {y - 6:.1f} l6 6 l-6 6 l-6 -6 z"',
    )
    return f'{shapes[kind % 4]} fill="{"black" if kind < 4 else "white"}" stroke="black" stroke-width="1.3"/>'


def field(plot: Plot) -> list[str]:
    """Returns the frame, with its grid, ticks and labels."""
    right, bottom = WIDTH - RIGHT, HEIGHT - BOTTOM
    parts = [text(LEFT, 26, plot.title, "start", ' font-size="16" font-weight="bold"')]
    for tick in plot.x.ticks:
        at, _ = plot.at(tick, plot.y.low)
        parts += [line(at, TOP, at, bottom, "#ddd"), text(at, bottom + 20, f"{tick:,.0f}")]
    for tick in plot.y.ticks:
        _, at = plot.at(plot.x.low, tick)
        parts += [line(LEFT, at, right, at, "#ddd"), text(LEFT - 8, at + 5, f"{tick:,.0f}", "end")]
    parts += [line(LEFT, TOP, LEFT, bottom, "black"), line(LEFT, bottom, right, bottom, "black")]
    middle = (TOP + bottom) / 2
    parts += [text((LEFT + right) / 2, HEIGHT - 16, plot.x.label)]
    parts += [text(18, middle, plot.y.label, more=f' transform="rotate(-90 18 {middle:.1f})"')]
    return parts


def places(ends: list[float]) -> list[float]:
    """Returns the heights of the names of the series: near those of their last points, and apart from each other."""
    order = sorted(range(len(ends)), key=lambda at: ends[at])
    heights = [ends[at] for at in order]
    for _ in range(100):
        for above, below in zip(range(len(heights)), range(1, len(heights))):
            lack = APART - (heights[below] - heights[above])
            if lack > 0:
                heights[above], heights[below] = heights[above] - lack / 2, heights[below] + lack / 2
    found = [0.0] * len(ends)
    for at, height in zip(order, heights):
        found[at] = height
    return found


def curves(plot: Plot, series: dict[str, Points]) -> list[str]:
    """Returns each series with its markers, and its name to the right of its last point."""
    parts: list[str] = []
    drawn = [[plot.at(x, y) for x, y in points] for points in series.values()]
    names = places([points[-1][1] for points in drawn])
    for kind, (name, points) in enumerate(zip(series, drawn)):
        way = " ".join(f"{x:.1f},{y:.1f}" for x, y in points)
        dashes = f'stroke-width="1.4" stroke-dasharray="{DASHES[kind]}"'
        parts.append(f'<polyline points="{way}" fill="none" stroke="black" {dashes}/>')
        parts += [marker(kind, x, y) for x, y in points]
        x, y = points[-1]
        start = WIDTH - RIGHT + 10
        parts += [line(x + 7, y, start, names[kind], "#888"), marker(kind, start + 9, names[kind])]
        parts.append(text(start + 20, names[kind] + 5, name, "start"))
    return parts


def svg(plot: Plot, series: dict[str, Points]) -> str:
    """Returns the whole picture."""
    size = f'viewBox="0 0 {WIDTH} {HEIGHT}" width="{WIDTH}" height="{HEIGHT}"'
    head = f'<svg xmlns="http://www.w3.org/2000/svg" {size} role="img" font-family="Helvetica, Arial, sans-serif" font-size="13">'
    body = [f"<title>{plot.title}</title>", f'<rect width="{WIDTH}" height="{HEIGHT}" fill="white"/>']
    return "\n".join([head, *body, *field(plot), *curves(plot, series), "</svg>"]) + "\n"


def main() -> None:
    about, _, more = (__doc__ or "").partition("\n\n")
    asked = argparse.ArgumentParser(description=about, epilog=more, formatter_class=argparse.RawDescriptionHelpFormatter)
    asked.add_argument("--figures", default=os.path.join(HERE, "figures.tsv"), help="what was measured")
    asked.add_argument("--folder", default=HERE, help="where the plots are laid")
    words = asked.parse_args()
    figures = read(words.figures)
    for plot in PLOTS:
        path = os.path.join(words.folder, f"{plot.name}.svg")
        with open(path, "w", encoding="utf-8") as picture:
            picture.write(svg(plot, figures[plot.name]))
        print(path)


if __name__ == "__main__":
    main()
