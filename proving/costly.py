#!/usr/bin/env python3
"""Lists the functions and lemmas whose proofs took longest in the last check of a crate.

    proving/costly.py CRATE [--count N]

A check writes a file for each part of a proof as soon as it is done, below `out/incremental` of the crate, so the time of a part
is that since the file before it. Check the crate from nothing first, with one job, or the times are those of parts side by side:

    cd crates/ups_dimse && rm -rf out/incremental && rt check --jobs 1; cd ../..
    proving/costly.py ups_dimse

With `rt check --test` they are those of the tests. The first part takes what the crates below take to load.
"""

import argparse
import collections
import glob
import os
import sys

TOP = os.path.dirname(os.path.dirname(os.path.abspath(__file__)))
# A pause this long, in seconds, stands between two checks.
PAUSE = 180
# The parts that a check makes of a function.
MADE = set("Answers Carried Code Goals Instances Key Kinds Layout Lts Met Mir Named Proof Reads Statement Symbol Syntax TheLink Tie".split())


def parts(crate):
    """Returns the parts of the crate's proofs in the order of their ends: the name and the time of each."""
    files = glob.glob(os.path.join(glob.escape(TOP), "crates", crate, "out", "incremental", "*", "*.oantt"))
    prefix = f"Rattle-{crate}-"
    named = [(os.path.basename(it)[: -len(".oantt")], os.stat(it).st_mtime_ns / 1e9) for it in files]
    return sorted(((name.removeprefix(prefix), time) for name, time in named), key=lambda it: it[1])


def subject(part):
    """Returns the function or the file of lemmas that a part belongs to: `reading.command_of` for `proofs.reading.command_of.Lts`."""
    words = part.partition("-")[0].removeprefix("proofs.").split(".")
    while len(words) > 1 and words[-1] in MADE:
        words.pop()
    return ".".join(words)


def main():
    asked = argparse.ArgumentParser(description=__doc__, formatter_class=argparse.RawDescriptionHelpFormatter)
    asked.add_argument("crate")
    asked.add_argument("--count", type=int, default=20, help="how many to list (default: %(default)s)")
    given = asked.parse_args()
    found = parts(given.crate)
    if not found:
        sys.exit(f"costly.py: crates/{given.crate}/out/incremental has no proofs: check the crate first")
    spent = collections.Counter()
    for (_, before), (name, time) in zip(found, found[1:]):
        if time - before < PAUSE:
            spent[subject(name)] += time - before
    for name, seconds in spent.most_common(given.count):
        print(f"{seconds:7.1f} s  {name}")
    print(f"{sum(spent.values()):7.1f} s  in all, of {len(found)} parts")


if __name__ == "__main__":
    main()
