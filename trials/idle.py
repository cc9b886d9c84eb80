#!/usr/bin/env python3
"""Measures the share of a processor that `upsd serve` takes while nobody asks anything.

    trials/idle.py [PROGRAM] [--steps 14000] [--watchers 10] [--seconds 60]      (default: crates/upsd/out/upsd)

It starts the server on a free port of this machine with `--watchers` watchers, each of which subscribes to all steps, and
creates `--steps` steps. When each watcher has the report of each step, the server must take less than 0.1 % of a processor
(`--most`) for `--seconds` seconds, by its CPU clock. It prints the share, and ends with status 1 if that is more, or if reports
are missing.
"""

from __future__ import annotations

import os
import sys
import time

sys.path.insert(0, os.path.join(os.path.dirname(os.path.dirname(os.path.abspath(__file__))), "check/lib"))
from dicom import create
from listeners import Watcher
from machine import described, holds, processor, resident, used_by
from peer import GLOBAL, PUSH_ON, Asker, a_step, subscribe
from results import Results
from server import Server

WAIT = 600  # seconds in which all reports come
SETTLE = 5  # seconds after them, before anything is measured


def filled(server: Server, watchers: list[Watcher], steps: int) -> bool:
    """Creates that many steps, and returns whether each watcher has as many reports in time."""
    asker = Asker(server.port)
    for number in range(len(watchers)):
        asker.do(subscribe(GLOBAL, b"W%d" % number, b"FALSE"))
    for number in range(steps):
        asker.do(create(PUSH_ON, 1, b"1.2.0.%d" % number, a_step(b"P%d" % number)))
    asker.release()
    return holds(lambda: all(len(it.arrived) == steps for it in watchers), WAIT)


def dearest(pid: int, before: dict[str, int]) -> str:
    """Returns which three threads ran longest since `before`, which has the nanoseconds that each had run."""
    ran = {task: used_by(pid, int(task)) - then for task, then in before.items()}
    return ", ".join(f"thread {task}: {ran[task] / 1e6:.1f} ms" for task in sorted(ran, key=lambda it: -ran[it])[:3])


def measured(pid: int, seconds: float) -> tuple[float, str]:
    """Returns the share of a processor that a process takes for that many seconds, and which of its threads take most."""
    threads = {task: used_by(pid, int(task)) for task in os.listdir(f"/proc/{pid}/task")}
    before, began = processor(pid), time.monotonic()
    time.sleep(seconds)
    return (processor(pid) - before) / (time.monotonic() - began), dearest(pid, threads)


def main() -> None:
    parser = described(__doc__, "?")
    parser.add_argument("--steps", type=int, default=14_000, help="how many steps are held (default: %(default)s)")
    parser.add_argument("--watchers", type=int, default=10, help="how many watch all of them (default: %(default)s)")
    parser.add_argument("--seconds", type=float, default=60.0, help="for how long it is measured (default: %(default)s)")
    parser.add_argument("--most", type=float, default=0.001, help="the share that it may take (default: %(default)s)")
    given, results = parser.parse_args(), Results(tells_passed=False)
    watchers = [Watcher(f"W{number}") for number in range(given.watchers)]
    with Server([given.program], *(f"W{number}={it.place}" for number, it in enumerate(watchers))) as server:
        has_all = filled(server, watchers, given.steps)
        fewest = min((len(it.arrived) for it in watchers), default=given.steps)
        results.tell("reports", None if has_all else f"a watcher has {fewest} of {given.steps}")
        time.sleep(SETTLE)
        share, threads = measured(server.process.pid, given.seconds)
        results.tell("processor", None if share < given.most else f"it takes {share:.3%} of a processor: {threads}")
        memory = resident(server.process.pid) / 1e6
    results.end(f"{given.steps:,} steps, {given.watchers} watchers, {share:.3%} of a processor, {memory:,.0f} MB ({threads})")


if __name__ == "__main__":
    main()
