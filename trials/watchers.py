#!/usr/bin/env python3
"""Measures how soon reports come to a watcher, beside others that are slow or don't answer.

    trials/watchers.py [PROGRAM] [--only TRIAL..] [--steps 20]      (default: crates/upsd/out/upsd)

In each trial it starts `upsd serve` on a free port of this machine with some watchers, each of which subscribes to all steps.
20 steps (`--steps`) are pushed, at times that have nothing to do with the rounds of the server. The time of a report runs from
the answer to the push until the watcher has answered the report.

    alone      a quick watcher, which answers at once
    beside     a quick one, three that never answer, and three that need two seconds for each answer
    unlimited  a quick one, and eight that never answer, with `--delivery-timeout 0`
    mute       a quick one, and eight that take the association and no report, with `--delivery-timeout 0`
    paces      watchers that need 0, 0.3, 0.6, 2 and 4.9 seconds for each answer, with `--delivery-timeout 5`, and one that needs
               0.6 seconds to answer the association request only; the steps are pushed four at a time
    many       50 watchers: one never answers, one refuses connections, one sends a byte a second, and the others are quick

An answer is one to the association request, to a report, or to the release. To each watcher that answers, each report must
come once, in the order of the pushes; it may never have two associations at once, and the log may never say that it is away.
In `alone` and `beside` the quick one must have its reports within 0.1 seconds in the median, and within 0.3 at worst
(`--median`, `--worst`). In `unlimited` and `mute` this holds from 15 seconds after the first push on, by when the earlier
reports must be there. In `many` each report must come to all quick ones within 2 seconds.

It ends by itself, in some six minutes. It prints how long the quick ones waited, a line for each thing that fails, and in
the end how many passed. It ends with status 1 if any failed.
"""

from __future__ import annotations

import argparse
import dataclasses
import os
import random
import socket
import statistics
import sys
import time
from typing import Optional

sys.path.insert(0, os.path.join(os.path.dirname(os.path.dirname(os.path.abspath(__file__))), "check/lib"))
from dicom import create
from listeners import Counting, Mute, Silent
from machine import described, holds
from peer import GLOBAL, PUSH_ON, Asker, a_step, subscribe
from results import Results
from server import Server

TIMEOUT = 5  # seconds: what --delivery-timeout is unless told otherwise
LATE = 15.0  # seconds after the first push by which late reports are there if there is no limit
CROWDED = 2.0  # seconds within which each report comes if there are many watchers
AGAIN = 4.0  # seconds after the last report in which it is watched whether one comes twice
ESTABLISHED = 1  # the state of a connection, by TCP_INFO


class Late:
    """A connection on which the first answer takes `opening` seconds, and each later one `pace`."""

    def __init__(self, connected: socket.socket, opening: float, pace: float) -> None:
        self.connected, self.next, self.pace, self.recv = connected, opening, pace, connected.recv

    def sendall(self, answer: bytes) -> None:
        time.sleep(self.next)
        self.next = self.pace
        self.connected.sendall(answer)


class Paced(Counting):
    """A watcher that needs `pace` seconds for each answer, or `opening` for the one to the association request, and counts how
    many connections it has at once."""

    def __init__(self, pace: float = 0.0, opening: Optional[float] = None) -> None:
        self.pace, self.opening, self.together = pace, pace if opening is None else opening, 0
        self.connections: list[socket.socket] = []
        super().__init__()

    def __str__(self) -> str:
        return f"a watcher of {self.opening:g} and {self.pace:g} s an answer"

    def serve(self, connected: socket.socket) -> None:
        with self.lock:
            self.connections = [it for it in self.connections if is_open(it)] + [connected]
            self.together = max(self.together, len(self.connections))
        super().serve(connected)

    def talk(self, connected: socket.socket) -> None:
        super().talk(Late(connected, self.opening, self.pace))

    def fault(self, steps: dict[bytes, float]) -> Optional[str]:
        """Returns how what came differs from what was pushed, or None."""
        missing = sum(it not in self.came for it in steps)
        twice = sum(count > 1 for count in self.came.values())
        is_ordered = [it for it in steps if it in self.came] == self.order
        if not missing and not twice and is_ordered and self.together <= 1:
            return None
        return (f"of {len(steps)} reports {missing} are missing, {twice} came twice, {'in' if is_ordered else 'out of'} order; "
                f"{self.together} associations at once, {self.asked} in all")


class Dripping(Counting):
    """A watcher that sends a byte a second."""

    def talk(self, connected: socket.socket) -> None:
        for byte in b"\2\0\0\0\0\xb8":
            connected.recv(1)
            connected.sendall(bytes([byte]))
            time.sleep(1)


def is_open(connected: socket.socket) -> bool:
    """Returns whether neither side has ended a connection."""
    try:
        return connected.getsockopt(socket.IPPROTO_TCP, socket.TCP_INFO, 1)[0] == ESTABLISHED
    except OSError:
        return False


@dataclasses.dataclass
class Trial:
    """The options of the server, its watchers that answer, the places of those that don't, and how many steps are pushed at a
    time."""

    words: list[str]
    answering: list[Paced]
    others: list[str]
    burst: int = 1

    def quick(self) -> list[Paced]:
        return [it for it in self.answering if it.opening == 0]

    def slowest(self) -> float:
        return max(it.pace for it in self.answering)

    def peers(self) -> list[str]:
        """Returns the words that name the watchers to the server, the answering ones last."""
        places = self.others + [it.place for it in self.answering]
        return [f"W{number}={place}" for number, place in enumerate(places)]


def silent(count: int) -> list[str]:
    """Returns the places of that many watchers that never answer."""
    return [Silent().place for _ in range(count)]


def trial_of(name: str) -> Trial:
    if name == "alone":
        return Trial([], [Paced()], [])
    if name == "beside":
        return Trial([], [Paced(2), Paced(2), Paced(2), Paced()], silent(3))
    if name == "unlimited":
        return Trial(["--delivery-timeout", "0"], [Paced()], silent(8))
    if name == "mute":
        return Trial(["--delivery-timeout", "0"], [Paced()], [Mute().place for _ in range(8)])
    if name == "paces":
        return Trial(["--delivery-timeout", str(TIMEOUT)], [*(Paced(it) for it in (0, 0.3, 0.6, 2, 4.9)), Paced(0, 0.6)], [], 4)
    return Trial(["--associations", "4"], [Paced() for _ in range(47)], [*silent(1), "127.0.0.1:1", Dripping().place])


TRIALS = ("alone", "beside", "unlimited", "mute", "paces", "many")


def pushed(port: int, watchers: int, count: int, burst: int) -> dict[bytes, float]:
    """Subscribes all watchers to all steps, pushes that many steps, `burst` at a time, and returns when each was answered."""
    asker, steps = Asker(port), {}
    for number in range(watchers):
        asker.do(subscribe(GLOBAL, b"W%d" % number, b"FALSE"))
    for number in range(count):
        if number % burst == 0:
            time.sleep(random.uniform(0.2, 1.2) * burst)
        step = b"1.2.0.%d" % number
        asker.do(create(PUSH_ON, 1, step, a_step(b"P%d" % number)))
        steps[step] = time.monotonic()
    asker.release()
    return steps


def run(program: list[str], trial: Trial, count: int) -> tuple[dict[bytes, float], list[str]]:
    """Pushes that many steps, waits until each report has come, and could have come twice, and returns the steps and the log."""
    peers = trial.peers()
    with Server(program, *trial.words, *peers) as server:
        steps = pushed(server.port, len(peers), count, trial.burst)
        holds(lambda: all(len(it.came) == count for it in trial.answering), 2 * trial.slowest() * count + 3 * LATE)
        time.sleep(AGAIN + trial.slowest())
        return steps, list(server.log)


def waited(watcher: Paced, steps: dict[bytes, float]) -> list[float]:
    """Returns how long each report that came took to a watcher."""
    return [watcher.first[step] - since for step, since in steps.items() if step in watcher.first]


def too_late(name: str, times: list[float], pushes: list[float], given: argparse.Namespace) -> Optional[str]:
    """Returns why the reports of a quick watcher came too late, or None. They must all be there."""
    judged = times
    if name in ("unlimited", "mute"):
        judged = [it for it, since in zip(times, pushes) if it <= given.worst or since + it > pushes[0] + LATE] or times
    limits = (CROWDED, CROWDED) if name == "many" else (given.median, given.worst)
    if statistics.median(judged) <= limits[0] and max(judged) <= limits[1]:
        return None
    return f"the first report took {times[0]:.2f} s, the worst {max(times):.2f} s, {statistics.median(times):.3f} s in the median"


def try_one(program: list[str], name: str, given: argparse.Namespace, results: Results) -> None:
    """Runs one trial, and tells its results."""
    trial = trial_of(name)
    steps, log = run(program, trial, given.steps)
    for number, it in enumerate(trial.answering, len(trial.others)):
        results.tell(f"{name}, {it}", it.fault(steps))
        away = [line for line in log if f"deliver W{number} is away" in line]
        results.tell(f"{name}, {it}, the log", f"{len(away)} times it is away: {away[0]!r}" if away else None)
    times = [waited(it, steps) for it in trial.quick()]
    if name != "paces":
        for it in times:
            late = too_late(name, it, list(steps.values()), given) if len(it) == len(steps) else f"it got {len(it)} of {len(steps)}"
            results.tell(f"{name}, the time to a quick watcher", late)
    if all(len(it) > 1 for it in times):
        others = [each for it in times for each in it[1:]]
        print(f"{name}: a quick watcher had the first report after {max(it[0] for it in times):.3f} s, the others after "
              f"{statistics.median(others):.3f} s in the median and {max(others):.3f} s at worst", flush=True)


def main() -> None:
    parser = described(__doc__, "?")
    parser.add_argument("--only", nargs="+", choices=TRIALS, default=TRIALS, metavar="TRIAL", help="these trials alone")
    parser.add_argument("--steps", type=int, default=20, help="how many steps are pushed (default: %(default)s)")
    parser.add_argument("--median", type=float, default=0.1, help="seconds (default: %(default)s)")
    parser.add_argument("--worst", type=float, default=0.3, help="seconds (default: %(default)s)")
    given, results = parser.parse_args(), Results(tells_passed=False)
    for name in given.only:
        try_one([given.program], name, given, results)
    results.end(f"reports to watchers, {given.steps} steps")


if __name__ == "__main__":
    main()
