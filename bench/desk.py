#!/usr/bin/env python3
"""Measures calls through a desk of 1, 4 and 12 passes, next to the same calls with a std `Mutex` around the same manager:
gets, and finds by patient ID, over 1,000 steps. Prints a table: the calls a second and the processor time of each call, the
best of several runs, each of which makes the same number of calls in all.

The measured program is not a crate of this repository. Its sources are in bench/desk, each file with `.txt` after its name.
It is proved and built in a copy of the libraries that it uses, with what earlier checks kept of them, which takes some
minutes. Linux only.

Usage: bench/desk.py [--runs N] [--build FILE]      builds the program (and keeps it as FILE), and measures it
       bench/desk.py [--runs N] --program FILE      measures one that was built
"""

import argparse
import os
import pathlib
import shutil
import subprocess
import sys
import tempfile

NAME = "desk_bench"
USES = "ups_pdu ups_dataset ups_dimse ups_match ups_cycle ups_life ups_reports ups_service ups_manager ups_turn atomic_table std_heap"

# the requests, and how many calls a run makes in all
ASKED = (("get", 240_000), ("find", 24_000))
PASSES = (1, 4, 12)
WAYS = ("desk", "lock")


def listed(root):
    """Returns the lines of crates.txt for the libraries that the program uses."""
    lines = (root / "crates.txt").read_text().splitlines()
    return [line for line in lines if line.partition(":")[0] in USES.split()]


def laid_out(root, to):
    """Copies the program and the libraries that it uses to a folder."""
    lines = listed(root)
    (to / "crates.txt").write_text("\n".join([*lines, f"{NAME}: {USES}", ""]))
    shutil.copy(root / "HANDLES", to)
    for line in lines:
        name = line.partition(":")[0]
        shutil.copytree(root / "crates" / name, to / "crates" / name, symlinks=True)
    texts = root / "bench" / "desk"
    for text in texts.rglob("*.txt"):
        file = to / "crates" / NAME / text.relative_to(texts).with_suffix("")
        file.parent.mkdir(parents=True, exist_ok=True)
        shutil.copy(text, file)


def built(root, program):
    """Builds the program, with the optimiser."""
    with tempfile.TemporaryDirectory() as folder:
        laid_out(root, pathlib.Path(folder))
        crate = pathlib.Path(folder) / "crates" / NAME
        done = subprocess.run(["rt", "run"], cwd=crate, input="desk get 1 1", capture_output=True, text=True)
        if done.returncode != 0:
            sys.exit(done.stdout + done.stderr)
        shutil.copy(crate / "out" / NAME, program)


def once(program, way, asked, passes, calls):
    """Returns the calls a second and the microseconds of processor time of each call, in one run."""
    line = f"{way} {asked} {passes} {calls // passes}"
    done = subprocess.run([program], input=line, capture_output=True, text=True)
    if done.returncode != 0:
        sys.exit(f"{program}: {line}: {done.stderr}")
    good, time, processor = (int(word) for word in done.stdout.split())
    if good != calls:
        sys.exit(f"{program}: {line}: {good} calls were answered well")
    return calls / (time / 1e9), processor / 1e3 / calls


def measure(program, runs):
    load = os.getloadavg()[0]
    print("| asked | passes | desk, calls a second | lock | desk, processor time of a call | lock | desk / lock |")
    print("|---|---|---|---|---|---|---|")
    for asked, calls in ASKED:
        for passes in PASSES:
            rates, times = {}, {}
            for _ in range(runs):
                for way in WAYS:
                    rate, time = once(program, way, asked, passes, calls)
                    rates[way] = max(rate, rates.get(way, 0))
                    times[way] = min(time, times.get(way, time))
            shown = " | ".join(f"{rates[way]:,.0f}" for way in WAYS)
            took = " | ".join(f"{times[way]:.1f} us" for way in WAYS)
            print(f"| {asked} | {passes} | {shown} | {took} | {times['desk'] / times['lock']:.2f} |", flush=True)
    print(f"\n{runs} runs each, on {os.cpu_count()} processors; load {load:.1f} before and {os.getloadavg()[0]:.1f} after")


def main():
    parser = argparse.ArgumentParser(description=__doc__, formatter_class=argparse.RawDescriptionHelpFormatter)
    parser.add_argument("--runs", type=int, default=7, help="how many runs of each kind (7)")
    parser.add_argument("--build", metavar="FILE", help="keep the built program as this file")
    parser.add_argument("--program", metavar="FILE", help="measure this program")
    asked = parser.parse_args()
    if asked.program:
        measure(os.path.abspath(asked.program), asked.runs)
        return
    root = pathlib.Path(__file__).resolve().parent.parent
    with tempfile.TemporaryDirectory() as folder:
        program = os.path.abspath(asked.build or f"{folder}/{NAME}")
        built(root, program)
        measure(program, asked.runs)


if __name__ == "__main__":
    main()
