#!/usr/bin/env python3
"""Tries whether a watcher waits for another one, gets a report twice or out of order, or has two associations at once.

    trials/pool.py [PROGRAM] [--silent 3] [--mute 0] [--needs 2,2,2] [--quick 1] [--steps 20] [--timeout SECONDS] [--limit 0.3]

It starts `upsd serve` on a free port of this machine with `--silent` watchers that take connections and say nothing, `--mute`
ones that take the association and say nothing more, one for each number of `--needs` that needs that many seconds to take a
report, `--quick` ones that answer at once, and one that refuses the presentation context of events. Each subscribes to all
steps. `--steps` steps are pushed, a second or more apart. It prints the longest time from a push to its report at the quick
watchers, for the first step and the others; for how many steps a watcher that answers got no report, more than one, or one out
of order; the most associations that one watcher had at once; and how often the one that refuses was asked. A trial fails if a quick
one waited longer than `--limit`, a report is missing, came twice or out of order, or a watcher had two associations; in the end
it prints how many passed. The status is 1 if any failed. `--timeout` is the server's `--delivery-timeout`.
"""

import collections
import os
import random
import re
import statistics
import sys
import time

sys.path.insert(0, os.path.join(os.path.dirname(os.path.dirname(os.path.abspath(__file__))), "check/lib"))
from dicom import create
from listeners import Counting, Mute, Refusing, Silent, Slow
from machine import described, holds
from peer import GLOBAL, PUSH_ON, Asker, a_step, subscribe
from results import Results
from server import Server

PATIENCE = 15  # seconds to wait for the quick watchers at each step


def push(asker, quick, count):
    """Pushes that many steps, and returns them and how long the slowest of the quick watchers waited for each."""
    times, steps = [], []
    for number in range(count):
        step = b"1.2.0.%d" % number
        asker.do(create(PUSH_ON, 1, step, a_step(b"P%d" % number)))
        since = time.monotonic()
        holds(lambda: all(step in it.first for it in quick), PATIENCE)
        times.append(max(it.first.get(step, since + PATIENCE) for it in quick) - since)
        steps.append(step)
        time.sleep(random.uniform(1, 2))
    return steps, times


def tell_log(log):
    """Prints how often each word follows each watcher in the log."""
    found = collections.Counter()
    for line in log:
        if told := re.search(r"deliver (W\d+)(?:: (\w+)| (is \w+))", line):
            found[told[1], told[2] or told[3]] += 1
    for (watcher, word), count in sorted(found.items(), key=lambda it: (int(it[0][0][1:]), it[0][1])):
        print(f"    {watcher} {word}: {count}")


def main():
    asked = described(__doc__, "?")
    asked.add_argument("--silent", type=int, default=3)
    asked.add_argument("--mute", type=int, default=0)
    asked.add_argument("--needs", default="2,2,2")
    asked.add_argument("--quick", type=int, default=1)
    asked.add_argument("--steps", type=int, default=20)
    asked.add_argument("--timeout", type=int, default=5)
    asked.add_argument("--limit", type=float, default=0.3, help="seconds (0.3)")
    given = asked.parse_args()
    needs = [float(it) for it in given.needs.split(",") if it]
    quick, slow = [Counting() for _ in range(given.quick)], [Slow(it) for it in needs]
    silent, mute, refusing = [Silent() for _ in range(given.silent)], [Mute() for _ in range(given.mute)], [Refusing()]
    everyone = silent + mute + slow + refusing + quick
    words = [f"W{number}={it.place}" for number, it in enumerate(everyone)]
    with Server([given.program], "--delivery-timeout", str(given.timeout), *words) as server:
        asker = Asker(server.port)
        for number in range(len(everyone)):
            asker.do(subscribe(GLOBAL, b"W%d" % number, b"FALSE"))
        steps, times = push(asker, quick, given.steps)
        asker.release()
        holds(lambda: all(len(it.came) >= len(steps) for it in slow + quick), 2 * max(needs, default=0) * given.steps + 30)
        time.sleep(3)
    missing = sum(step not in it.came for it in slow + quick for step in steps)
    twice = sum(count > 1 for it in slow + quick for count in it.came.values())
    disordered = sum(it.disordered(steps) for it in slow + quick)
    most = max(it.most for it in everyone)
    others = times[1:] or times
    print(f"quick ones: the first report within {times[0]:.2f} s, the others within {max(others):.2f} s (median {statistics.median(others):.3f}); "
          f"{missing} missing, {twice} twice, {disordered} in another order; at most {most} associations of one watcher; "
          f"the one that refuses was asked {refusing[0].asked} times")
    tell_log(server.log)
    results = Results()
    for number, took in enumerate(times):
        results.tell(f"step {number}, at the quick ones", None if took <= given.limit else f"its report takes {took:.2f} s")
    for name, count in (("reports missing", missing), ("reports that came twice", twice), ("reports in another order", disordered)):
        results.tell(name, f"there are {count}" if count else None)
    results.tell("associations of one watcher at once", None if most <= 1 else f"there are {most}")
    results.end()


if __name__ == "__main__":
    main()
