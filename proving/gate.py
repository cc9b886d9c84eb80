#!/usr/bin/env python3
"""Measures the cost of the gate: the processor seconds of each crate, by phase; prints a table, the costliest crate first.

`rt ci` reports no times. This script runs its phases one after the other on a copy of the tree, each from nothing and with
one job: the proof, the tests, and for a program its builds by both compilers with a run of each. It takes about as long as
`rt ci` on one processor. Linux only.
"""

import argparse
import os
import resource
import shutil
import subprocess
import sys
import tempfile
import time

PHASES = ("proof", "tests", "run")


def crates_in(root):
    """Returns the libraries of the repository that each crate uses, by crates.txt."""
    found = {}
    with open(f"{root}/crates.txt") as lines:
        for line in lines:
            name, _, below = line.partition("#")[0].partition(":")
            if name.strip():
                found[name.split()[0]] = below.split()
    return {name: [it for it in below if it in found] for name, below in found.items()}


def in_order(crates, names):
    """Returns the named crates and all that they depend on, lowest first."""
    order = []

    def add(name):
        for below in crates[name]:
            add(below)
        if name not in order:
            order.append(name)

    for name in names:
        add(name)
    return order


def copied(root, to):
    """Copies what a check reads: the list of crates and their folders, without the output of earlier runs."""
    for name in ("crates.txt", "HANDLES"):
        if os.path.isfile(f"{root}/{name}"):
            shutil.copy(f"{root}/{name}", to)
    shutil.copytree(f"{root}/crates", f"{to}/crates", ignore=shutil.ignore_patterns("out"))


def used():
    """Returns the processor seconds of all commands that have ended."""
    usage = resource.getrusage(resource.RUSAGE_CHILDREN)
    return usage.ru_utime + usage.ru_stime


def seconds_of(folder, *words, stdin=None):
    """Runs rt in a folder, and returns the processor seconds that it took. A failure ends the script."""
    before = used()
    given = open(stdin, "rb") if stdin and os.path.isfile(stdin) else subprocess.DEVNULL
    ran = subprocess.run(["rt", *words], cwd=folder, stdin=given, stdout=subprocess.PIPE, stderr=subprocess.STDOUT, check=False)
    if ran.returncode:
        lines = ran.stdout.decode(errors="replace").splitlines()
        sys.exit("\n".join([f"rt {' '.join(words)} in {folder}: status {ran.returncode}", *lines[-12:]]))
    return used() - before


def forget(folder):
    """Makes the next check begin from nothing. What was built for the crates above stays."""
    shutil.rmtree(f"{folder}/out/incremental", ignore_errors=True)


def has_tests(folder):
    for at, _, files in os.walk(f"{folder}/src"):
        for name in files:
            with open(f"{at}/{name}", encoding="utf-8") as text:
                if "#[test]" in text.read():
                    return True
    return False


def costs(root, name, phases):
    """Returns the processor seconds of a crate by phase. The crate is then built for those above it."""
    folder = f"{root}/crates/{name}"
    is_program = os.path.isfile(f"{folder}/src/main.rt")
    cost = {"proof": seconds_of(folder, "check" if is_program else "lib", "--jobs", "1")}
    if "run" in phases and is_program:
        words = []
        if os.path.isfile(f"{folder}/args"):
            with open(f"{folder}/args") as lines:
                words = ["--", *lines.read().splitlines()]
        cost["run"] = sum(seconds_of(folder, "run", *by, *words, stdin=f"{folder}/stdin") for by in ((), ("--backend", "rattle")))
    if "tests" in phases and has_tests(folder):
        forget(folder)
        cost["tests"] = seconds_of(folder, "test", "--jobs", "1")
    return {it: took for it, took in cost.items() if it in phases}


def row(name, cost):
    cells = [f"{cost[it]:,.0f}" if it in cost else "" for it in PHASES]
    return f"| {name} | {' | '.join(cells)} | {sum(cost.values()):,.0f} | {sum(cost.values()) / 60:.1f} |"


def main():
    about, _, more = __doc__.partition("\n\n")
    asked = argparse.ArgumentParser(description=about, epilog=more)
    asked.add_argument("crates", nargs="*", metavar="CRATE", help="the crates to measure (all of crates.txt)")
    asked.add_argument("--phases", default=",".join(PHASES), help="the phases to measure, with commas between them (%(default)s)")
    asked.add_argument("--tree", default=".", metavar="FOLDER", help="the top of the repository (the current folder)")
    given = asked.parse_args()
    crates, phases = crates_in(given.tree), given.phases.split(",")
    names = given.crates or [*crates]
    for word in [*(set(names) - set(crates)), *(set(phases) - set(PHASES))]:
        asked.error(f"there is no {word}")
    began, costs_of = time.perf_counter(), {}
    with tempfile.TemporaryDirectory(prefix="gate-") as root:
        copied(given.tree, root)
        for name in in_order(crates, names):
            is_named = name in names
            cost = costs(root, name, phases if is_named else ())
            if is_named:
                costs_of[name] = cost
                print(f"{name}: {sum(cost.values()):.0f} s", file=sys.stderr, flush=True)
    print("| crate | " + " | ".join(PHASES) + " | all, seconds | all, minutes |")
    print("|---" * (len(PHASES) + 3) + "|")
    for name in sorted(costs_of, key=lambda it: -sum(costs_of[it].values())):
        print(row(name, costs_of[name]))
    print(row("sum", {it: sum(cost.get(it, 0) for cost in costs_of.values()) for it in PHASES}))
    print(f"({time.perf_counter() - began:,.0f} seconds by the clock)", file=sys.stderr)


if __name__ == "__main__":
    main()
