#!/usr/bin/env python3
"""Tries what becomes of reports to a watcher of `upsd serve` that doesn't take them as it should, and what the log says.

    trials/faulty.py [PROGRAM] [--only TRIAL..] [--full]      (default: crates/upsd/out/upsd)

A watcher subscribes to all steps, and five are pushed within two seconds. For 20 seconds it does one of the following; then it
takes its reports as it should, and one more step is pushed:

    refuses    it accepts the association, and refuses the context of events
    fails      it answers each report with the status 0110 (processing failure)
    ends       it ends the connection after its answer to a report
    drops      it ends the connection instead of answering a report
    aborts     it sends an A-ABORT instead of answering a report
    full       (only with --full) a million reports wait for it at a server with a store before it takes the first one, so that other
               requests are refused for lack of room

It may be asked for an association at most six times in that time, by tries that are 1, 2, 4 and 8 seconds apart. In the end each
report must have come to it once, in the order of the pushes. The log must say how the first delivery ended, not `Released`, that
the watcher is away, and once it has taken its reports that it is back. A report that is answered with a failure counts as
answered, and no longer comes; a warning names the watcher and the status.

With a million reports that wait, a subscription can still be ended, and what the watcher acknowledges is still entered, so that each
report comes once. The log must say at least once a minute that over 10,000 reports wait.

It ends by itself, in a minute and a half, and with --full in some minutes more. It prints the log of each trial, a line for
each thing that fails, and in the end how many passed. It ends with status 1 if any failed.
"""

from __future__ import annotations

import concurrent.futures
import os
import re
import socket
import subprocess
import sys
import tempfile
import time
from collections.abc import Callable
from typing import Optional

sys.path.insert(0, os.path.join(os.path.dirname(os.path.dirname(os.path.abspath(__file__))), "check/lib"))
from abuse import ABORT
from dicom import EXPLICIT, PULL, PUSH, command, create, element, even, message, us
from listeners import Incoming, Refusing
from machine import described, holds
from peer import GLOBAL, PUSH_ON, Asker, Caller, a_step, claim, subscribe, unsubscribe
from results import Results
from server import Server
from watchers import Paced, waited

STEPS = 5
BAD = 20.0  # seconds for which a watcher does as it shouldn't
MOST = 6  # how often it may be asked for an association in them
BACK = 45.0  # seconds in which it has all reports once it does as it should: it may be passed over for 32
AGAIN = 4.0  # seconds for which it is then watched whether one comes twice
WELL, FAILURE = element(0x0900, us(0x0000)), element(0x0900, us(0x0110))


class Answering:
    """A connection on which answers are changed before they are sent."""

    def __init__(self, connected: socket.socket, change: Callable[[int, bytes], bytes]) -> None:
        self.connected, self.change, self.answers, self.recv = connected, change, 0, connected.recv

    def sendall(self, answer: bytes) -> None:
        self.answers += 1
        changed = self.change(self.answers, answer)
        self.connected.sendall(changed)
        if changed in (b"", ABORT):
            raise EOFError


class Faulty(Paced):
    """A watcher that misbehaves as long as it is bad."""

    def __init__(self) -> None:
        self.is_bad = True
        super().__init__()

    def talk(self, connected: socket.socket) -> None:
        if self.is_bad:
            self.misbehave(connected)
        else:
            super().talk(connected)

    def misbehave(self, connected: socket.socket) -> None:
        raise NotImplementedError


class Refuses(Faulty):
    def misbehave(self, connected: socket.socket) -> None:
        Refusing.talk(self, connected)


class Fails(Faulty):
    def misbehave(self, connected: socket.socket) -> None:
        for step in Incoming(Answering(connected, lambda _, answer: answer.replace(WELL, FAILURE))).reports():
            self.take(step)


class Ends(Faulty):
    def misbehave(self, connected: socket.socket) -> None:
        for step in Incoming(connected).reports():
            self.take(step)
            return


class Drops(Faulty):
    instead = b""

    def misbehave(self, connected: socket.socket) -> None:
        for _ in Incoming(Answering(connected, lambda number, answer: answer if number == 1 else self.instead)).reports():
            pass


class Aborts(Drops):
    instead = ABORT


KINDS = {"refuses": Refuses, "fails": Fails, "ends": Ends, "drops": Drops, "aborts": Aborts}


def told_of(server: Server, words: str) -> list[str]:
    """Returns the lines of the log in which these words are found."""
    return [line for line in server.log if re.search(words, line)]


def push(asker: Asker, steps: dict[bytes, float], count: int) -> None:
    """Pushes that many more steps, and notes when each was answered."""
    for _ in range(count):
        step = b"1.2.0.%d" % len(steps)
        asker.do(create(PUSH_ON, 1, step, a_step(b"P")))
        steps[step] = time.monotonic()
        time.sleep(2 / STEPS)


def fault_of_log(server: Server, name: str) -> Optional[str]:
    """Returns why the log doesn't say what it should of a watcher, or None."""
    if name == "fails":
        has_warned = any(re.search("WARN|<4>", line) for line in told_of(server, r"W1.*0110|0110.*W1"))
        return None if has_warned else "no warning names W1 and the status 0110"
    ended, away, back = (told_of(server, rf"deliver W1{more}") for more in (r": \w+", " is away", " is back"))
    if ended and "Released" in ended[0]:
        return f"the first delivery is told as Released: {ended[0]!r}"
    is_good = len(ended) >= 2 and len(away) == len(back) == (0 if name == "ends" and not away else 1)
    return None if is_good else f"{len(ended)} lines tell of deliveries, {len(away)} say that it is away, and {len(back)} that it is back"


def try_one(program: list[str], name: str, results: Results) -> list[str]:
    """Runs one trial, and returns its summary and the lines of the log about the watcher."""
    watcher, steps = KINDS[name](), {}
    with Server(program, f"W1={watcher.place}") as server:
        asker = Asker(server.port)
        asker.do(subscribe(GLOBAL, b"W1", b"FALSE"))
        push(asker, steps, STEPS)
        time.sleep(BAD - 2)
        asked, watcher.is_bad = watcher.asked, False
        results.tell(f"{name}, how often it is asked", None if 1 <= asked <= MOST else f"{asked} times in {BAD} s")
        push(asker, steps, 1)
        asker.release()
        holds(lambda: len(watcher.came) == len(steps), BACK)
        time.sleep(AGAIN)
        results.tell(f"{name}, its reports", watcher.fault(steps))
        results.tell(f"{name}, the log", fault_of_log(server, name))
        times = ", ".join(f"{it:.1f}" for it in waited(watcher, steps))
        told = [f"{name}: asked {asked} times in {BAD:.0f} s; the reports came {times} s after their pushes"]
        return told + [f"    {line}" for line in told_of(server, "W1")]


# a full history

ENTRIES = 1_000_000
BATCH = 500  # requests that are sent before the first of their answers is read
LATELY = 70.0  # seconds in which the log reports it
WATCHED, BUSY = b"1.2.0.0", b"1.2.0.1"  # the step that is watched, and the one that is to be canceled again and again


def cancel() -> bytes:
    """Returns a request to cancel a step that somebody else performs: it is accepted, and kept in the history."""
    of_step = [(0x1001, even(BUSY)), (0x1008, us(2))]
    return message(PUSH_ON, command([(0x0003, even(PUSH)), (0x0100, us(0x0130)), (0x0110, us(1)), (0x0800, us(0x0101)), *of_step]))


def fill(port: int, count: int) -> int:
    """Asks for that many cancellations in one association, or until one is refused: returns the highest status of the last batch."""
    peer, asked, status = Caller(port, 60, ((PUSH, EXPLICIT), (PULL, EXPLICIT))), 0, 0
    while asked < count and status == 0:
        peer.socket.sendall(cancel() * BATCH)
        status = max(peer.answer() for _ in range(BATCH))
        asked += BATCH
    peer.release()
    return status


def fill_all(port: int, entries: int) -> int:
    """Fills the history, and returns the status of a request afterwards."""
    with concurrent.futures.ThreadPoolExecutor(4) as four:
        list(four.map(lambda _: fill(port, entries // 4 + BATCH), range(4)))
    return fill(port, BATCH)


def try_full(program: list[str], entries: int, results: Results) -> list[str]:
    """Tries a watcher that takes its first report when the history is already full."""
    watcher = Drops()
    with tempfile.TemporaryDirectory(prefix="faulty-") as folder:
        file = os.path.join(folder, "upsd.db")
        subprocess.run([*program, "init", file], check=True, stdout=subprocess.DEVNULL)
        return try_full_with(program, file, watcher, entries, results)


def try_full_with(program: list[str], file: str, watcher: Drops, entries: int, results: Results) -> list[str]:
    """The same with this store and this watcher."""
    with Server(program, "--associations", "8", "--waiting", "0", "--store", file, f"W1={watcher.place}") as server:
        asker = Asker(server.port)
        asker.do(create(PUSH_ON, 1, WATCHED, a_step(b"P")))
        asker.do(subscribe(WATCHED, b"W1", b"FALSE"))
        asker.do(create(PUSH_ON, 1, BUSY, a_step(b"P")))
        asker.do(subscribe(BUSY, b"W1", b"FALSE"))
        asker.do(claim(1, BUSY, b"2.25.1"))
        asker.release()
        began = time.monotonic()
        status = fill_all(server.port, entries)
        filled = time.monotonic() - began
        results.tell("full, a request", None if status == 0x0213 else f"it is answered {status:04X} behind {entries} more")
        asker = Asker(server.port)
        ended = asker.ask(unsubscribe(WATCHED, b"W1"))
        asker.release()
        results.tell("full, the end of a subscription", None if ended == 0 else f"it is answered {ended:04X}")
        before, watcher.is_bad = watcher.asked, False
        holds(lambda: watcher.came, 90)
        time.sleep(BAD)
        asked = watcher.asked - before
        most = max(watcher.came.values(), default=0)
        results.tell("full, how often it is asked", None if 1 <= asked <= MOST else f"{asked} times, {BAD} s behind the first report")
        results.tell("full, its reports", None if 1 <= most <= MOST else f"one came {most} times in {BAD} s")
        is_told = holds(lambda: told_of(server, "reports wait for W1"), LATELY)
        results.tell("full, the log", None if is_told else "no line tells that reports wait")
        return [f"full: {entries:,} requests in {filled:.0f} s; asked {asked} times, a report came {most} times at most",
                *(f"    {line}" for line in told_of(server, "W1"))]


def main() -> None:
    parser = described(__doc__, "?")
    parser.add_argument("--only", nargs="*", choices=tuple(KINDS), default=tuple(KINDS), metavar="TRIAL", help="these trials alone")
    parser.add_argument("--full", action="store_true", help="also fill the history")
    parser.add_argument("--entries", type=int, default=ENTRIES, help="how many entries it takes (default: %(default)s)")
    given, results = parser.parse_args(), Results(tells_passed=False)
    with concurrent.futures.ThreadPoolExecutor(len(KINDS)) as all_kinds:
        for lines in all_kinds.map(lambda name: try_one([given.program], name, results), given.only):
            print("\n".join(lines), flush=True)
    if given.full:
        print("\n".join(try_full([given.program], given.entries, results)), flush=True)
    results.end("watchers that don't take their reports as they should")


if __name__ == "__main__":
    main()
