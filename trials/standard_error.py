#!/usr/bin/env python3
"""Tries whether requests to `upsd serve` and reports to its watcher take longer if standard error takes no line.

    trials/standard_error.py [PROGRAM..] [--requests 1000]      (default: crates/upsd/out/upsd)

With --verbose each request has a line. In each trial a peer creates 1,000 steps (`--requests`), one after the other, and a
watcher of all steps takes their reports. Standard error is

    a file             which takes each line: this gives the usual time, before the others and after them
    a terminal         a pseudo terminal in its usual mode, that nobody reads
    a pipe, a socket   that nobody reads
    /dev/full          each write to it fails
    closed             as by `2>&-`

A request must take no longer than with a file: in the median at most half as much again, and at worst 0.5 seconds more. The
last report must come within two seconds of its request, and another association must be served then.

It ends by itself, in a minute if all is well. It prints the times, a line for each trial that fails, and in the end how many
passed. It ends with status 1 if any failed. `trials/ending.py` tries what the log says when standard error is read again.
"""

from __future__ import annotations

import contextlib
import os
import pty
import signal
import statistics
import sys
import tempfile
import time
from collections.abc import Callable, Iterator
from typing import Optional

sys.path.insert(0, os.path.join(os.path.dirname(os.path.dirname(os.path.abspath(__file__))), "check/lib"))
from abuse import FAULTS
from dicom import create
from ending import Launched, close_all, not_served, small_pipe, socket_pair
from listeners import Counting
from machine import described, holds
from peer import GLOBAL, PUSH_ON, Asker, a_step, subscribe
from results import Results

SECONDS = 20  # for one answer
FACTOR = 1.5  # of the median with a file
SLACK = 0.5  # seconds more than the longest time with a file
LAST = 2.0  # seconds within which the last report comes

Opened = contextlib.AbstractContextManager[object]
Prepare = Optional[Callable[[], None]]


@contextlib.contextmanager
def unread(ends: tuple[int, int]) -> Iterator[int]:
    """Gives the write end of a pair whose other end nobody reads."""
    try:
        yield ends[1]
    finally:
        for it in ends:
            os.close(it)


def errors() -> Iterator[tuple[str, Opened, Prepare]]:
    """Yields each standard error: its name, what opens it, and what the process does before the program begins."""
    yield "a file", tempfile.TemporaryFile(), None
    yield "a terminal", unread(pty.openpty()), None
    yield "a pipe", unread(small_pipe()), None
    yield "a socket", unread(socket_pair()), None
    yield "/dev/full", open("/dev/full", "wb"), None
    yield "closed", contextlib.nullcontext(), close_all(2)
    yield "a file again", tempfile.TemporaryFile(), None


class Timed:
    """How long each request took, and what was not done as it should be, if anything."""

    def __init__(self, name: str) -> None:
        self.name, self.fault = name, ""
        self.times: list[float] = []

    def create_steps(self, server: Launched, watcher: Counting, count: int) -> None:
        """Creates that many steps, whose reports the watcher must take."""
        asker = Asker(server.port)
        asker.socket.settimeout(SECONDS)
        asker.do(subscribe(GLOBAL, b"W1", b"FALSE"))
        for number in range(count):
            began = time.monotonic()
            asker.do(create(PUSH_ON, 1, b"1.2.0.%d" % number, a_step(b"P")))
            self.times.append(time.monotonic() - began)
        if not holds(lambda: len(watcher.came) == count, LAST):
            self.fault = f"{len(watcher.came)} of {count} reports have come {LAST} s after the last request"
        asker.release()

    def run(self, program: list[str], error: object, prepare: Prepare, count: int) -> None:
        """Does the same on a server of its own, and asks on another association."""
        watcher = Counting()
        with Launched(program, "--verbose", f"W1={watcher.place}", error=error, prepare=prepare) as server:
            try:
                self.create_steps(server, watcher, count)
                self.fault = self.fault or not_served(server, 1) or ""
            except FAULTS as fault:
                self.fault = f"request {len(self.times) + 1} is not answered: {fault!r}"

    def told(self) -> str:
        median = statistics.median(self.times) * 1000
        return f"{self.name}: {median:.2f} ms a request in the median, {max(self.times):.3f} s at worst"

    def judged_by(self, usual: list[Timed]) -> Optional[str]:
        """Returns why it isn't as usual, or None."""
        if self.fault:
            return self.fault
        median = max(statistics.median(it.times) for it in usual)
        worst = max(max(it.times) for it in usual)
        is_good = statistics.median(self.times) <= FACTOR * median and max(self.times) <= worst + SLACK
        return None if is_good else f"beside a file it takes {median * 1000:.2f} ms and {worst:.3f} s, and here {self.told()}"


def main() -> None:
    parser = described(__doc__, "*")
    parser.add_argument("--requests", type=int, default=1000, help="how many requests there are (default: %(default)s)")
    given = parser.parse_args()
    signal.signal(signal.SIGALRM, lambda *_: sys.exit("standard_error.py: it does not end"))
    signal.alarm(600)
    results, done = Results(tells_passed=False), []
    for name, opened, prepare in errors():
        timed = Timed(name)
        with opened as error:
            timed.run(given.program, error, prepare, given.requests)
        if timed.times:
            print(timed.told(), flush=True)
        done.append(timed)
    usual = [it for it in done if it.name.startswith("a file") and it.times]
    for it in done:
        results.tell(f"standard error, {it.name}", it.judged_by(usual))
    results.end(f"standard error, {given.requests} requests")


if __name__ == "__main__":
    main()
