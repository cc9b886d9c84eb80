#!/usr/bin/env python3
"""Measures how long N-GETs and claims wait beside finds that look at each step, and what several peers find in a second.

    bench/looks.py [PROGRAM] [--held 100000] [--seconds 10] [--finders 3]      (default: crates/upsd/out/upsd)

A server without a store gets so many steps (--held). One association then asks for an N-GET of a step and another claims a step,
each one after the other with a pause of 2 ms: first for so many seconds alone, and then as long beside peers (--finders) that send
one query after the other by a patient name that no step has. No index has this key, so each query looks at each step. It prints
how many were asked, the median, the 99th and the 99.9th of 100, and the longest, in milliseconds. Then the same query is sent by
one peer alone and by four, and it prints how many are answered in a second. The exit status is 1 if the 99th of 100 is more than
2 ms above that alone, the longest is above 10 ms, or four peers find less than three times what one does. On a machine with
fewer than six processors the askers, the finders and the server take them from each other.
"""

from __future__ import annotations

import argparse
import contextlib
import os
import sys
import threading
import time

from beside import STEP, Asker, fill, told_of, uid_of

from dicom import find, get
from peer import PULL_ON, PUSH_ON, claim, told
from server import Server, as_service
from stored import Client

CLAIMED = 2_000_000  # the number of the first step that is claimed
TRANSACTION = b"2.25.7"
MOST_ABOVE, MOST, LEAST = 2.0, 10.0, 3.0  # milliseconds above those alone, milliseconds, finds of four by those of one
NOBODY = told(0x0010, 0x0010, b"PN", b"NOBODY^AT ALL")


class Finder(threading.Thread):
    """Sends one query after the other until it is told to end, and counts them."""

    def __init__(self, port: int, title: bytes) -> None:
        super().__init__(daemon=True)
        self.client, self.over, self.count = Client(port, title), threading.Event(), 0

    def run(self) -> None:
        while not self.over.is_set():
            self.client.socket.sendall(find(PULL_ON, self.client.next(), NOBODY))
            if self.client.matches():
                sys.exit("a query that no step matches has an answer")
            self.count += 1


def asked(port: int, held: int, first: int, seconds: float, finders: int) -> dict[str, list[float]]:
    """Asks and claims for so many seconds beside finders, and returns how long each answer took."""
    askers = {
        "N-GET": Asker(port, b"GETS", lambda number, count: get(PUSH_ON, number, uid_of(count % held))),
        "claim": Asker(port, b"CLAIMS", lambda number, count: claim(number, uid_of(first + count), TRANSACTION)),
    }
    beside = [Finder(port, b"FINDS%d" % it) for it in range(finders)]
    for each in (*beside, *askers.values()):
        each.start()
    time.sleep(seconds)
    for each in (*askers.values(), *beside):
        each.over.set()
        each.join()
    return {name: it.took for name, it in askers.items()}


def found(port: int, seconds: float, finders: int) -> float:
    """Returns how many queries of so many peers are answered in a second."""
    peers = [Finder(port, b"FINDS%d" % it) for it in range(finders)]
    begun = time.monotonic()
    for each in peers:
        each.start()
    time.sleep(seconds)
    for each in peers:
        each.over.set()
    for each in peers:
        each.join()
    return sum(it.count for it in peers) / (time.monotonic() - begun)


def part(took: list[float], of: float) -> float:
    return sorted(took)[int(of * (len(took) - 1))]


def main() -> None:
    about, _, more = (__doc__ or "").partition("\n\n")
    words = argparse.ArgumentParser(description=about, epilog=more, formatter_class=argparse.RawDescriptionHelpFormatter)
    words.add_argument("program", nargs="?", default=os.path.join(os.path.dirname(os.path.dirname(os.path.abspath(__file__))), "crates/upsd/out/upsd"))
    words.add_argument("--held", type=int, default=100_000)
    words.add_argument("--seconds", type=float, default=10)
    words.add_argument("--finders", type=int, default=3)
    given = words.parse_args()
    claims = int(given.seconds * 500)  # the most that are claimed in a phase, by the pause
    with contextlib.ExitStack() as ends:
        server = ends.enter_context(Server(as_service(os.path.abspath(given.program)), "--associations", "16"))
        fill(server.port, 0, given.held)
        fill(server.port, CLAIMED, 2 * claims)
        alone = asked(server.port, given.held, CLAIMED, given.seconds, 0)
        beside = asked(server.port, given.held, CLAIMED + claims, given.seconds, given.finders)
        one, four = (found(server.port, given.seconds, it) for it in (1, 4))
    print("| | asked | median | 99 % | 99.9 % | longest |\n|---|---|---|---|---|---|")
    for name in alone:
        print(f"| {name} alone | {told_of(alone[name])} |\n| {name} beside {given.finders} finders | {told_of(beside[name])} |")
    print(f"| finds a second, by one peer and by four | {one:.1f}, {four:.1f} | {four / one:.2f} times |")
    is_well = four >= LEAST * one and all(
        part(beside[it], 0.99) <= part(alone[it], 0.99) + MOST_ABOVE and max(beside[it]) <= MOST for it in alone)
    print("all within their limits" if is_well else "a limit is passed")
    sys.exit(0 if is_well else 1)


if __name__ == "__main__":
    main()
