#!/usr/bin/env python3
"""Estimates how long the gate takes on a given number of processors, from what each of its tasks takes.

    proving/plan.py COSTS [--processors 2 4] [--tasks]

COSTS is what `proving/watch_gate.py --costs` writes: in each line a crate, its lines of code, the seconds of its proof, of the
proof with its tests and of its edits (0 if it has none), and the crates below it. All seconds are of one processor. The
schedule is that of rt with RT_JOBS: a task waits for the proofs of the crates below, and those with the most lines above them
come first. `check/edits.py` tries the edits behind all of these, crate by crate.
"""

import argparse


def read(file):
    """Returns the crates of a file of costs."""
    crates = []
    with open(file, encoding="utf-8") as costs:
        for line in costs:
            if line.strip() and not line.startswith("#"):
                name, lines, proof, tests, edits, *below = line.split()
                crates.append((name, int(lines), float(proof), float(tests), float(edits), below))
    return crates


def below(name, direct):
    """Returns the crates below one, the lowest first."""
    found = []
    for it in direct[name]:
        found += [one for one in [*below(it, direct), it] if one not in found]
    return found


def tasks_of(crates):
    """Returns the tasks, each with what it waits for, its weight in lines, and its seconds. What it waits for precedes it."""
    tasks, direct = {}, {it[0]: it[5] for it in crates}
    in_order = sorted(crates, key=lambda it: len(below(it[0], direct)))
    for name, lines, proof, tests, _, _ in in_order:
        waits = [(it, "proof") for it in below(name, direct)]
        tasks[name, "proof"] = (waits, lines, proof)
        if tests:
            tasks[name, "tests"] = (waits, lines, tests)
    before = [*tasks]
    for name, _, _, _, edits, _ in in_order:
        if edits:
            tasks[name, "edits"] = (before, 0, edits)
    return tasks


def weights(tasks):
    """Returns the weight of each task with the heaviest chain of those that wait for it, in lines."""
    behind = dict.fromkeys(tasks, 0)
    for key in reversed([*tasks]):
        waits, lines, _ = tasks[key]
        behind[key] += lines
        for it in waits:
            behind[it] = max(behind[it], behind[key])
    return behind


def played(tasks, processors):
    """Returns the spans of the tasks, in the order in which they begin."""
    behind = weights(tasks)
    left = sorted(tasks, key=lambda it: -behind[it])
    now, running, done, spans = 0.0, {}, set(), []
    while left or running:
        for key in [it for it in left if done.issuperset(tasks[it][0])][: processors - len(running)]:
            left.remove(key)
            running[key] = now + tasks[key][2]
            spans.append((now, running[key], key))
        now = min(running.values())
        ended = [it for it, end in running.items() if end <= now]
        done.update(ended)
        for key in ended:
            del running[key]
    return spans


def main():
    about, _, more = __doc__.partition("\n\n")
    asked = argparse.ArgumentParser(description=about, epilog=more, formatter_class=argparse.RawDescriptionHelpFormatter)
    asked.add_argument("costs", help="the costs of the crates")
    asked.add_argument("--processors", type=int, nargs="+", default=[2, 4])
    asked.add_argument("--tasks", action="store_true", help="list when each task runs")
    given = asked.parse_args()
    tasks = tasks_of(read(given.costs))
    used = sum(seconds for _, _, seconds in tasks.values())
    for processors in given.processors:
        spans = played(tasks, processors)
        clock = max(end for _, end, _ in spans)
        print(f"{processors} processors: {clock / 60:.0f} minutes by the clock, {used / 60:.0f} processor minutes")
        if given.tasks:
            for begin, end, key in spans:
                print(f"  {begin / 60:6.1f} to {end / 60:6.1f}  {' '.join(key)}")


if __name__ == "__main__":
    main()
