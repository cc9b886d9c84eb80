#!/usr/bin/env python3
"""Checks that no room of crates, and no Python outside of the client, has more lines than check/sizes.txt allows.

    check/sizes.py              counts the lines of each kind, from the top of the checkout
    check/sizes.py --write      writes a file of limits, each 2 % above today's lines
    check/sizes.py --self-test  lowers limits and drops some, and checks that it is found

A line of the file names a room of crates.txt and the most lines of its code (src), specs and proofs; the last one is that of Python.
It prints what is too long, and then how much there is in all. The status is 1 if anything is too long, or has no limit.
"""

from __future__ import annotations

import argparse
import re
import sys
from collections.abc import Iterable
from pathlib import Path

from rooms import HERE, read, rooms_in

TOP, FILE = Path(HERE), "check/sizes.txt"
KINDS = {"code": "src/**/*.rt", "specs": "specs/**/*.antt", "proofs": "proofs/**/*.antt"}
SCRIPTS = "check", "trials", "bench", "proving", "packaging", "examples"  # where Python is, but for the client
ROOM_FOR = 1.02  # of a limit that is written
Sizes = dict[tuple[str, str], int]  # lines, by room and kind


def lines_in(paths: Iterable[Path]) -> int:
    return sum(it.read_bytes().count(b"\n") for it in paths)


def is_python(path: Path) -> bool:
    """Returns whether a file is in Python, by its name or its first line."""
    return path.suffix == ".py" or not path.suffix and path.is_file() and bool(re.match(rb"#!.*python", path.read_bytes()))


def sizes() -> Sizes:
    """Returns the lines of each room and kind, and of Python."""
    rooms, _ = rooms_in(read("crates.txt"))
    found = {(room, kind): sum(lines_in((TOP / "crates" / it).glob(form)) for it in crates) for room, crates in rooms
             for kind, form in KINDS.items()}
    return {**found, ("python", "code"): lines_in(path for it in SCRIPTS for path in (TOP / it).rglob("*") if is_python(path))}


def limits_in(text: str) -> Sizes:
    """Returns the limits that a file has."""
    found: Sizes = {}
    for room, numbers in re.findall(r"(?m)^([a-z][a-z ]*):((?: \d+)+)$", text):
        found |= {(room, kind): int(number) for kind, number in zip(KINDS, numbers.split())}
    return found


def faults_of(found: Sizes, limits: Sizes) -> list[str]:
    """Returns what is longer than its limit, and what has none."""
    wrong = [f"{room}: {FILE} has no limit for its {kind}" for room, kind in found if (room, kind) not in limits]
    wrong += [f"{room}: {FILE} has a limit for its {kind}, and it has none" for room, kind in limits if (room, kind) not in found]
    for (room, kind), lines in found.items():
        if lines > (most := limits.get((room, kind), lines)):
            wrong.append(f"{room} has {lines} lines of {kind}, and may have {most}: shorten it (`duplicates`, proving/unused.py), "
                         f"or raise the limit in {FILE}, in a commit that says what the lines are for")
    return wrong


def written(found: Sizes) -> str:
    """Returns a file of limits."""
    lines = ["# The most lines of code, specs and proofs of each room (check/sizes.py). Raise one in the commit that needs it, and say there why."]
    for room in dict.fromkeys(room for room, _ in found):
        most = [int(found[room, kind] * ROOM_FOR) + 1 for kind in KINDS if (room, kind) in found]
        lines.append(f"{room}: {' '.join(map(str, most))}")
    return "\n".join([*lines, ""])


def self_test(found: Sizes, limits: Sizes) -> int:
    """Returns how many spoiled limits are not found."""
    spoiled = [{**limits, it: found[it] - 1} for it in found] + [{other: most for other, most in limits.items() if other != it} for it in limits]
    missed = sum(not faults_of(found, it) for it in [*spoiled, {**limits, ("attic", "code"): 1}])
    print(f"{len(spoiled) + 1} spoiled limits, {missed} not found")
    return missed


def main() -> None:
    about, _, more = (__doc__ or "").partition("\n\n")
    asked = argparse.ArgumentParser(description=about, epilog=more, formatter_class=argparse.RawDescriptionHelpFormatter)
    asked.add_argument("--write", action="store_true", help="write the limits anew")
    asked.add_argument("--self-test", action="store_true", help="spoil the limits, and see that it is found")
    given, found = asked.parse_args(), sizes()
    if given.write:
        (TOP / FILE).write_text(written(found), encoding="utf-8")
    limits = limits_in(read(FILE))
    if given.self_test:
        sys.exit(bool(self_test(found, limits)))
    wrong = faults_of(found, limits)
    sums = {kind: sum(lines for (room, of), lines in found.items() if of == kind and room != "python") for kind in KINDS}
    print("\n".join([*wrong, f"{', '.join(f'{lines} lines of {kind}' for kind, lines in sums.items())}, {found['python', 'code']} of Python, "
                             f"{len(wrong)} wrong"]))
    sys.exit(bool(wrong))


if __name__ == "__main__":
    main()
