"""Tables for people, where standard output is a terminal."""

from __future__ import annotations

import sys
import unicodedata
from typing import Iterable

from ups.faults import printable


def is_for_people() -> bool:
    return sys.stdout.isatty()


def width(text: str) -> int:
    """Returns how many columns of a terminal a text takes."""
    return sum(0 if unicodedata.combining(it) else 2 if unicodedata.east_asian_width(it) in "FW" else 1 for it in text)


def table(heading: list[str], rows: Iterable[list[str]]) -> str:
    """Returns rows as lines with a heading, each column as wide as its longest text."""
    lines = [heading, *([printable(it) for it in row] for row in rows)]
    widths = [max(map(width, column)) for column in zip(*lines)]
    return "\n".join("  ".join(text + " " * (most - width(text)) for text, most in zip(line, widths)).rstrip() for line in lines)
