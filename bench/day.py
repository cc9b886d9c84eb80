#!/usr/bin/env python3
"""Measures what a request costs `upsd serve` as the day goes on: a day in fast motion over TCP, with watchers.

    bench/day.py [PROGRAM] [--sizes 1000 10000] [--away] [--keep SECONDS] [--limit SECONDS]

It starts the server on a free port of this machine with ten peers. Three of them watch: one all steps, with a deletion lock
that it ends and takes again in turn; one by a filter that only the steps for timing a report match; one single steps. These
three listen here and take their reports. With `--away` the first of them never listens, so that its reports stay pending all
day. Steps are then created, found, got, claimed, set twice and finished, until as many requests are accepted as a size says;
the server sweeps by itself.

At each size it measures, over 100 requests of each kind, the processor time that the workers of the server take from the
request to its answer, by /proc, as the median and the 99th percentile in microseconds. Meanwhile, and for three more seconds, a
sweep each second removes finished steps, and a round each second reports changes: "sweeping" and "reporting" are what one of
each costs. For ten idle seconds it then measures what a sweep and a round cost, and what part of a processor the server uses in
all; after that the longest time from a change to its report at the second watcher, the steps held, and the resident memory. It
ends by itself, with status 1 if the server doesn't get that far within the limit (default 900 seconds).

The sweeping thread is the first of the process, as `serve` has it. The deliverer is the one of the others that has run most
before the first request.
"""

import os
import statistics
import sys
import time

sys.path.insert(0, os.path.join(os.path.dirname(os.path.dirname(os.path.abspath(__file__))), "check/lib"))
from dicom import act, create, find, get, set_attributes
from listeners import Watcher
from machine import described, resident, used_by
from peer import FILTERED, GLOBAL, PULL_ON, PUSH_ON, Asker, a_step, claim, progress, subscribe, told, unsubscribe
from server import Server

COUNT = 100  # measured requests of each kind
LOCKED = 500  # lives of steps between the beginning and the end of the lock of all steps


def instance(number):
    return b"1.2.0.%d" % number


TRANSACTION = b"2.25.1"
SET = told(0x0008, 0x1195, b"UI", TRANSACTION) + told(0x0074, 0x1204, b"LO", b"CT READ")
PERFORMED = told(0x0008, 0x1195, b"UI", TRANSACTION) + told(0x0074, 0x1000, b"CS", b"CANCELED")


def kinds(number):
    """Yields the requests of a step's life in order, each with its name."""
    step = instance(number)
    asked = told(0x0008, 0x0018, b"UI", b"") + told(0x0010, 0x0020, b"LO", b"P%d" % (number % 10))
    yield "create", create(PUSH_ON, 1, step, a_step(b"P%d" % (number % 10)))
    yield "find", find(PULL_ON, 1, asked + told(0x0074, 0x1000, b"CS", b"COMPLETED"))
    yield "get", get(PUSH_ON, 1, step)
    yield "watch", subscribe(step, b"SINGLE", b"FALSE")
    yield "claim", claim(1, step, TRANSACTION)
    yield "set", progress(1, step, TRANSACTION)
    yield "set again", set_attributes(PULL_ON, 1, step, SET)
    yield "unwatch", unsubscribe(step, b"SINGLE")
    yield "finish", act(PULL_ON, 1, step, 1, PERFORMED)


OTHERS = ["sweeping", "reporting", "sweep", "round", "idle", "lag", "held", "memory"]
ACCEPTED = {"create", "watch", "claim", "set", "set again", "unwatch", "finish"}


class Day:
    def __init__(self, server, away):
        self.server, self.pid = server, server.process.pid
        time.sleep(3)
        others = [task for task in os.listdir(f"/proc/{self.pid}/task") if task != str(self.pid)]
        self.deliverer = max(others, key=lambda task: used_by(self.pid, task))
        self.workers = [task for task in others if task != self.deliverer]
        self.asker, self.number, self.away = Asker(server.port), 0, away

    def used(self):
        """Returns the nanoseconds that the sweeper, the deliverer and the workers have run."""
        return (used_by(self.pid, self.pid), used_by(self.pid, self.deliverer), self.worked())

    def worked(self):
        return sum(used_by(self.pid, task) for task in self.workers)

    def live(self, times=None):
        """Runs the life of one step, and adds what each request took to `times`, if given."""
        self.number += 1
        for name, request in kinds(self.number):
            before = self.worked()
            if name in ACCEPTED:
                self.asker.do(request)
            else:
                self.asker.ask(request)
            if times is not None:
                times.setdefault(name, []).append((self.worked() - before) / 1000)
        if self.number % LOCKED == 0 and not self.away:
            # the lock ends, so that finished steps can be swept, and later begins again
            if self.number // LOCKED % 2:
                self.asker.do(unsubscribe(GLOBAL, b"EVERY"))
            else:
                self.asker.do(subscribe(GLOBAL, b"EVERY", b"TRUE"))

    def settle(self):
        """Waits until the deliverer is idle, for half a minute at most."""
        for _ in range(30):
            before = used_by(self.pid, self.deliverer)
            time.sleep(1)
            if used_by(self.pid, self.deliverer) - before < 1_000_000:
                return

    def measure(self, watcher):
        """Returns what each request took, and the other cells of the line as texts."""
        self.settle()
        times, began, before = {}, time.monotonic(), self.used()
        for _ in range(COUNT):
            self.live(times)
        time.sleep(3)
        seconds = time.monotonic() - began
        busy = [(now - then) / 1000 / seconds for now, then in zip(self.used(), before)]
        time.sleep(5)
        before = self.used()
        time.sleep(10)
        idle = [(now - then) / 1000 / 10 for now, then in zip(self.used(), before)]
        lag, held = self.lag(watcher), self.held()
        return times, [f"{busy[0]:,.0f} us", f"{busy[1]:,.0f} us", f"{idle[0]:,.0f} us", f"{idle[1]:,.0f} us",
                       f"{sum(idle) / 1e6:.2%}", f"{lag:.2f} s", f"{held:,}", f"{resident(self.pid) / 1e6:,.1f} MB"]

    def held(self):
        """Returns how many steps are held: those that a query for all finds."""
        return self.asker.count(find(PULL_ON, 1, told(0x0008, 0x0018, b"UI", b"")))

    def lag(self, watcher):
        """Returns the longest of five times from a change to its report."""
        longest = 0.0
        for _ in range(5):
            self.number += 1
            step = instance(self.number)
            self.asker.do(create(PUSH_ON, 1, step, a_step(b"FILTERED")))
            changed, deadline = time.monotonic(), time.monotonic() + 30
            while step not in watcher.arrived and time.monotonic() < deadline:
                time.sleep(0.01)
            longest = max(longest, watcher.arrived.get(step, deadline) - changed)
        return longest


def main():
    asked = described(__doc__, "?")
    asked.add_argument("--sizes", nargs="+", type=int, default=[1_000, 10_000])
    asked.add_argument("--away", action="store_true", help="the watcher of all steps never listens")
    asked.add_argument("--keep", default="1", help="how long the server keeps a finished step, in seconds (1)")
    asked.add_argument("--limit", type=int, default=900, help="seconds (900)")
    given = asked.parse_args()
    watchers = [Watcher(title) for title in ("EVERY", "FILTER", "SINGLE")]
    places = [it.place for it in watchers]
    if given.away:
        places[0] = "127.0.0.1:1"
    peers = [f"EVERY={places[0]},lock", f"FILTER={places[1]}", f"SINGLE={places[2]}"] + [f"PEER{i}=127.0.0.1:1" for i in range(7)]
    deadline = time.monotonic() + given.limit
    print(f"| accepted | {' | '.join(name for name, _ in kinds(0))} | {' | '.join(OTHERS)} |", flush=True)
    with Server([given.program], "--associations", "4", "--keep", given.keep, *peers) as server:
        day = Day(server, given.away)
        day.asker.do(subscribe(GLOBAL, b"EVERY", b"TRUE"))
        day.asker.do(subscribe(FILTERED, b"FILTER", b"FALSE", told(0x0010, 0x0020, b"LO", b"FILTERED")))
        for size in given.sizes:
            while day.asker.accepted < size:
                day.live()
                if time.monotonic() > deadline:
                    sys.exit(f"only {day.asker.accepted} requests were accepted in time")
            accepted = day.asker.accepted
            times, others = day.measure(watchers[1])
            cells = [f"{statistics.median(it):,.0f}, {sorted(it)[-2]:,.0f} us" for it in times.values()]
            print(f"| {accepted:,} | {' | '.join(cells + others)} |", flush=True)
        day.asker.release()


if __name__ == "__main__":
    main()
