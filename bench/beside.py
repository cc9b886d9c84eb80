#!/usr/bin/env python3
"""Measures how long N-GETs and N-CREATEs wait beside a compaction of the store, and without one.

    bench/beside.py [PROGRAM] [--held 100000] [--seconds 10] [--rounds 1] [--folder FOLDER]      (default: crates/upsd/out/upsd)

A server begins on an empty store, with the environment that its unit gives it. Steps are created, so many (--held), and stay. Two
associations then ask all the time: one for an N-GET of a step, the other for an N-CREATE, one after the other with a pause of 2 ms.
First this goes on for so many seconds without a compaction, and then until one that begins meanwhile is done. It prints how many
were asked, the median, the 99th and the 99.9th of 100, and the longest, in milliseconds, and what the log says of the compaction. A
machine that does something else delays some request by more than a compaction does: of several rounds (--rounds), each with a new
server, the least of the longest counts. FOLDER is where the store is laid, on the disk to be tried.
"""

from __future__ import annotations

import contextlib
import os
import sys
import tempfile
import threading
import time
from collections.abc import Callable
from typing import Optional

TOP = os.path.dirname(os.path.dirname(os.path.abspath(__file__)))
sys.path.insert(0, os.path.join(TOP, "check/lib"))
from dicom import create, get
from machine import described
from peer import PUSH_ON, a_step
from server import as_service
from stored import Client, Stored

BATCH, PAUSE, PATIENCE = 100, 0.002, 600.0  # creations that are sent at once, seconds between two requests, and for a compaction
STEP = a_step(b"BESIDE")


def uid_of(number: int) -> bytes:
    return b"1.2.200.%d" % (10_000_000 + number)


def fill(port: int, first: int, count: int) -> None:
    """Creates so many steps."""
    client = Client(port, b"FILLS")
    for at in range(first, first + count, BATCH):
        several = range(at, min(at + BATCH, first + count))
        client.socket.sendall(b"".join(create(PUSH_ON, client.next(), uid_of(it), STEP) for it in several))
        statuses = {client.reply().status for _ in several}
        if statuses != {0}:
            sys.exit(f"creations are answered {sorted(statuses)}")
    client.release()


class Asker(threading.Thread):
    """Asks all the time until it is told to end, and keeps how long each answer took."""

    def __init__(self, port: int, title: bytes, spelled: Callable[[int, int], bytes]) -> None:
        super().__init__(daemon=True)
        self.client, self.spelled = Client(port, title), spelled
        self.over, self.took = threading.Event(), list[float]()

    def run(self) -> None:
        count = 0
        while not self.over.is_set():
            message = self.spelled(self.client.next(), count)
            begun = time.monotonic()
            status = self.client.ask(message)
            self.took.append(1000 * (time.monotonic() - begun))
            if status:
                sys.exit(f"a request is answered {status:04X}")
            count += 1
            time.sleep(PAUSE)


def told_of(took: list[float]) -> str:
    took = sorted(took)
    parts = [took[int(part * (len(took) - 1))] for part in (0.5, 0.99, 0.999, 1)]
    return f"{len(took):,} | " + " | ".join(f"{it:.2f}" for it in parts)


def measure(program: str, held: int, seconds: float, within: Optional[str]) -> dict[str, float]:
    """Measures one server, prints a row for each kind of request, and returns the longest time of each."""
    longest = dict[str, float]()
    with contextlib.ExitStack() as ends:
        folder = ends.enter_context(tempfile.TemporaryDirectory(dir=within))
        spare = int(seconds / PAUSE)  # more than are created meanwhile
        words = ["--keep", "1000000", "--compact-at", str(held + spare), "--associations", "8"]
        server = ends.enter_context(Stored(as_service(os.path.abspath(program)), os.path.join(folder, "store"), *words))
        fill(server.port, 0, held)
        base = 2_000_000
        for name, ends_when in (("without", lambda: False), ("beside a compaction", lambda: bool(server.lines("compacted from")))):
            askers = [Asker(server.port, b"GETS", lambda number, count: get(PUSH_ON, number, uid_of(count % held))),
                      Asker(server.port, b"CREATES", lambda number, count, base=base: create(PUSH_ON, number, uid_of(base + count), STEP))]
            if name != "without":
                fill(server.port, 1_000_000, spare)  # now the compaction is due
            for it in askers:
                it.start()
            begun = time.monotonic()
            while not ends_when() and time.monotonic() - begun < (seconds if name == "without" else PATIENCE):
                time.sleep(0.05)
            for it in askers:
                it.over.set()
                it.join()
            base += 1_000_000
            for what, it in zip(("N-GET", "N-CREATE"), askers):
                print(f"| {what} {name} | {told_of(it.took)} |", flush=True)
                longest[f"{what} {name}"] = max(it.took)
        print("\n".join(server.lines("compacted from")), flush=True)
    return longest


def main() -> None:
    asked = described(__doc__, "?")
    asked.add_argument("--held", type=int, default=100_000)
    asked.add_argument("--seconds", type=float, default=10)
    asked.add_argument("--rounds", type=int, default=1)
    asked.add_argument("--folder")
    given = asked.parse_args()
    print("| | asked | median | 99 % | 99.9 % | longest |\n|---|---|---|---|---|---|")
    rounds = [measure(given.program, given.held, given.seconds, given.folder) for _ in range(given.rounds)]
    for name in rounds[0]:
        print(f"| {name}, the least of the longest | {min(it[name] for it in rounds):.2f} |")


if __name__ == "__main__":
    main()
