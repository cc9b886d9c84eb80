#!/usr/bin/env python3
"""Runs the gate, or another command, and reports what it takes: time by the clock, processor time, and peak memory.

    proving/watch_gate.py [--costs FILE] [COMMAND ..]

The command is `.ci/run` unless one is given. A table shows what each crate takes, by phase: `proof`, `tests` (the crate
proved with its tests) and `edits`. Processor time is read from the processes once a second, so the table lacks what each did
in its last second; the sum is what the system counts. What passed in an earlier run on this machine is not run again, except
the edits, so figures for the whole gate need a new machine.

With `--costs`, the table is written to FILE in the form that `proving/plan.py` reads.
"""

import argparse
import collections
import os
import resource
import subprocess
import sys
import time

TICK = os.sysconf("SC_CLK_TCK")
PAGE = os.sysconf("SC_PAGE_SIZE")


def processes():
    """Returns the running processes: by ID, the parent, the processor seconds, the resident bytes and the start."""
    found = {}
    for name in os.listdir("/proc"):
        if name.isdigit():
            try:
                with open(f"/proc/{name}/stat", encoding="utf-8", errors="replace") as stat:
                    fields = stat.read().rpartition(")")[2].split()
            except OSError:
                continue
            found[int(name)] = (int(fields[1]), (int(fields[11]) + int(fields[12])) / TICK, int(fields[21]) * PAGE, fields[19])
    return found


def below(found, root):
    """Returns the IDs of `root` and of the processes below it."""
    children = collections.defaultdict(list)
    for number, (parent, *_) in found.items():
        children[parent].append(number)
    reached, left = [], [root]
    while left:
        number = left.pop()
        reached.append(number)
        left += children[number]
    return reached


def described(number):
    """Returns the words that a process was started with, and its folder."""
    try:
        with open(f"/proc/{number}/cmdline", "rb") as it:
            words = it.read().decode("utf-8", "replace").split("\0")
        return words, os.readlink(f"/proc/{number}/cwd")
    except OSError:
        return [], ""


class Check:
    """A check of a crate: a process of the prover."""

    def __init__(self, words, folder, start, seconds):
        self.crate = words[words.index("--crate-name") + 1]
        self.folder, self.start, self.seconds = folder, int(start), seconds
        # edits are checked in folders of their own
        self.is_edit, self.is_tests = os.path.basename(folder).startswith("rt-edit-"), "--test" in words


def checks_of(seen):
    """Returns the checks among the processes that were seen, in the order in which they began."""
    found = [
        Check(words, folder, start, seconds)
        for (_, start), (seconds, words, folder) in seen.items()
        if len(words) > 2 and words[0].endswith("/rattle") and words[1] in ("build", "check") and "--crate-name" in words
    ]
    return sorted(found, key=lambda it: it.start)


class Costs:
    """The processor seconds of a crate: of its proof, its tests, and its edits."""

    def __init__(self, checks):
        self.proof = sum(it.seconds for it in checks if not it.is_edit and not it.is_tests)
        self.tests = sum(it.seconds for it in checks if not it.is_edit and it.is_tests)
        self.edits = sum(it.seconds for it in checks if it.is_edit)

    def all(self):
        return self.proof + self.tests + self.edits


def lines_of(crate):
    """Returns how many lines of code a crate has."""
    count = 0
    for folder, _, files in os.walk(f"crates/{crate}/src"):
        for file in files:
            with open(f"{folder}/{file}", encoding="utf-8") as text:
                count += sum(1 for _ in text)
    return count


def uses():
    """Returns the crates of crates.txt, each with those of them that it uses."""
    with open("crates.txt", encoding="utf-8") as text:
        pairs = [line.split(":") for line in text if ":" in line and not line.startswith("#")]
    names = [name for name, _ in pairs]
    return {name: [it for it in used.split() if it in names] for name, used in pairs}


def told(costs):
    """Prints a table with a line for each crate."""
    print(f"{'crate':16}{'proof':>8}{'tests':>8}{'edits':>8}{'all':>8}   processor seconds")
    for name, it in costs.items():
        print(f"{name:16}" + "".join(f"{number:8.0f}" for number in (it.proof, it.tests, it.edits, it.all())))


def written(costs, file):
    """Writes the costs as proving/plan.py reads them."""
    with open(file, "w", encoding="utf-8") as out:
        print("# crate lines proof tests edits below..", file=out)
        for name, used in uses().items():
            it = costs.get(name) or Costs([])
            print(name, lines_of(name), f"{it.proof:.0f}", f"{it.tests:.0f}", f"{it.edits:.0f}", *used, file=out)


def watched(command):
    """Runs a command, and returns its status, what its processes took (by ID and start: seconds, words, folder), and the
    peak memory."""
    seen, peak = {}, 0
    run = subprocess.Popen(command)
    while run.poll() is None:
        found = processes()
        mine = [it for it in below(found, run.pid) if it in found]
        peak = max(peak, sum(found[it][2] for it in mine))
        for number in mine:
            _, seconds, _, start = found[number]
            words, folder = described(number)
            known = seen.get((number, start))
            # a process counts as another one after it starts another program
            if known and (not words or words == known[1]):
                known[0] = seconds
            elif words:
                seen[number, start] = [seconds, words, folder]
        time.sleep(1)
    return run.returncode, seen, peak


def main():
    about, _, more = __doc__.partition("\n\n")
    asked = argparse.ArgumentParser(description=about, epilog=more, formatter_class=argparse.RawDescriptionHelpFormatter)
    asked.add_argument("--costs", metavar="FILE", help="write the costs there as proving/plan.py reads them")
    asked.add_argument("command", nargs="*", default=[".ci/run"])
    given = asked.parse_args()
    begun = time.time()
    status, seen, peak = watched(given.command)
    clock = time.time() - begun
    used = resource.getrusage(resource.RUSAGE_CHILDREN)
    checks = collections.defaultdict(list)
    for it in checks_of(seen):
        checks[it.crate].append(it)
    costs = {name: Costs(its) for name, its in checks.items()}
    told(costs)
    if given.costs:
        written(costs, given.costs)
    processor = used.ru_utime + used.ru_stime
    print(f"{clock / 60:.1f} minutes by the clock, {processor / 60:.1f} processor minutes, {peak / 1e9:.1f} GB of memory at most")
    sys.exit(status)


if __name__ == "__main__":
    main()
