#!/usr/bin/env python3
"""Tries `upsd serve` when its surroundings give out: standard error, descriptors, and its own life.

    trials/ending.py [PROGRAM..]      (default: crates/upsd/out/upsd)

Standard error, with --verbose, so that each request has a line. 20 associations with a C-ECHO each must be served:

    a full pipe         that nobody reads. When it is read again, its lines are there, and the log goes on
    a pipe that fills   of 8,192 bytes that nobody reads, while 700 associations are served: then a line also says how many
                        lines were lost, since at most 1,024 wait
    a full socket       that nobody reads; as a full pipe
    a terminal          in its usual mode, that nobody reads; as a pipe that fills
    a broken pipe       whose reader is gone
    /dev/full           each write fails
    closed              as by `2>&-`
    closed with input   as by `<&- 2>&-`: a connection may get the number of standard error, and no line may go there

SIGTERM, five times, while 8 associations ask as fast as they can: the signal ends the process within a second, each peer sees
the end of its connection, and a new server listens on the same port at once, serves, and has none of the earlier steps.

16 descriptors (RLIMIT_NOFILE), 32 workers and 40 peers that keep their associations: at least 10 are served, and go on being
answered. The others wait, and cost less than a fifth of a processor. When those that are served go, all others are served,
none loses its connection, and the server has as many descriptors and threads as before.

It starts the servers on ports of this machine, and ends by itself, in a minute if all is well. It prints a line for each
trial that fails, and in the end how many passed. The status is 1 if any failed.
"""

from __future__ import annotations

import contextlib
import fcntl
import os
import pty
import re
import resource
import signal
import socket
import subprocess
import sys
import threading
import time
from collections.abc import Callable, Iterator
from typing import Optional

sys.path.insert(0, os.path.join(os.path.dirname(os.path.dirname(os.path.abspath(__file__))), "check/lib"))
import dicom
from abuse import FAULTS, descriptors, is_left, threads
from dicom import EXPLICIT, IMPLICIT, PULL, PUSH, VERIFICATION
from ledger import Ledger
from machine import described, free_port, holds, listens, processor
from peer import Caller
from results import Results
from server import Server, Sink

LIMIT = 10  # seconds for an answer, and the limits of the servers
COUNT, MANY = 20, 700  # associations, each of which has three lines
ROOM = 8192  # bytes of a pipe: two pages, since a pipe of one page takes a line only if all lines before it were read
AT_ONCE = 1  # second in which a signal ends the program
ROUNDS, LOAD = 5, 8
DESCRIPTORS, WORKERS, PEERS, FEWEST = 16, 32, 40, 10
WATCHED, MOST = 3, 0.2  # seconds, and the largest share of a processor
LOST = re.compile(r"\d+ lines of the log were lost")


class Launched(Server):
    """`upsd serve` with any standard error, and a function that its process runs first. Its port is 0 if it prints none."""

    limit = LIMIT

    def __init__(self, program: list[str], *options: str, error: Sink = subprocess.DEVNULL, port: int = 0,
                 prepare: Optional[Callable[[], None]] = None) -> None:
        words = ["--timeout", str(LIMIT), "--idle", str(LIMIT), *options]
        super().__init__(program, *words, port=port, error=error, prepare=prepare)

    def without_port(self, line: str) -> int:
        return 0


def echo_once(port: int, number: int = 1) -> None:
    """Opens an association, asks for a C-ECHO, and releases the association."""
    peer = Caller(port, LIMIT, ((VERIFICATION, IMPLICIT),))
    assert peer.ask(dicom.echo(number)) == 0, "a C-ECHO is not answered 0000"
    peer.release()


def not_served(server: Launched, count: int) -> Optional[str]:
    """Returns why that many associations, one after the other, are not served, or None."""
    for number in range(count):
        try:
            echo_once(server.port, number + 1)
        except FAULTS as fault:
            return f"association {number + 1} of {count} is not served: {fault!r}; the program has ended with {server.process.poll()}"
    return None


# standard error

def fill(descriptor: int) -> None:
    """Fills a pipe or a socket, and makes it blocking again."""
    os.set_blocking(descriptor, False)
    for size in (ROOM, 64, 1):
        with contextlib.suppress(BlockingIOError):
            while True:
                os.write(descriptor, b"\n" * size)
    os.set_blocking(descriptor, True)


def small_pipe() -> tuple[int, int]:
    reader, writer = os.pipe()
    fcntl.fcntl(writer, fcntl.F_SETPIPE_SZ, ROOM)
    return reader, writer


def socket_pair() -> tuple[int, int]:
    one, other = socket.socketpair()
    return one.detach(), other.detach()


def unread_trial(program: list[str], results: Results, name: str, ends: tuple[int, int], is_full: bool, count: int) -> None:
    """Tries a standard error that nobody reads until the end."""
    reader, writer = ends
    if is_full:
        fill(writer)
    with Launched(program, "--verbose", error=writer) as server:
        os.close(writer)
        results.tell(f"standard error, {name}", not_served(server, count))
        told = Reading(reader)
        results.tell(f"standard error, {name}, when it is read again", told.goes_on(server, count >= MANY))
    os.close(reader)


class Reading:
    """What is read from a standard error."""

    def __init__(self, reader: int) -> None:
        self.reader, self.text = reader, ""
        os.set_blocking(reader, False)

    def more(self) -> str:
        with contextlib.suppress(BlockingIOError):
            while more := os.read(self.reader, 65536):
                self.text += more.decode()
        return self.text

    def goes_on(self, server: Launched, is_lossy: bool) -> Optional[str]:
        """Returns None if the lines of another association come, and a line has said that some were lost exactly if `is_lossy`;
        otherwise why not."""
        holds(lambda: len(self.text) == len(self.more()), LIMIT)
        time.sleep(0.5)  # so that lines that waited have come too
        before = len(self.more())
        if fault := not_served(server, 1):
            return fault
        is_told = holds(lambda: " serve: Released #" in self.more()[before:], LIMIT)
        if is_told and bool(LOST.search(self.text)) == is_lossy:
            return None
        return f"it is told {self.text[before:][-400:]!r}, and that lines were lost: {LOST.findall(self.text)}"


def failing_trial(program: list[str], results: Results, name: str, error: object, prepare: Optional[Callable[[], None]] = None) -> None:
    """Tries a standard error that takes nothing."""
    with Launched(program, "--verbose", error=error, prepare=prepare) as server:
        results.tell(f"standard error, {name}", not_served(server, COUNT))


def close_all(*numbers: int) -> Callable[[], None]:
    """Returns a function that closes these descriptors, in the process that becomes the program."""
    def close() -> None:
        for it in numbers:
            os.close(it)

    return close


def standard_error_trials(program: list[str], results: Results) -> None:
    unread_trial(program, results, "a full pipe", small_pipe(), True, COUNT)
    unread_trial(program, results, "a pipe that fills", small_pipe(), False, MANY)
    unread_trial(program, results, "a full socket", socket_pair(), True, COUNT)
    unread_trial(program, results, "a terminal", pty.openpty(), False, MANY)
    reader, writer = os.pipe()
    os.close(reader)
    failing_trial(program, results, "a broken pipe", writer)
    os.close(writer)
    with open("/dev/full", "wb") as full:
        failing_trial(program, results, "/dev/full", full)
    failing_trial(program, results, "closed", None, close_all(2))
    failing_trial(program, results, "closed with input", None, close_all(0, 2))


# SIGTERM

class Load:
    """Associations that ask as fast as they can, each in a thread, until their connections end."""

    def __init__(self, port: int) -> None:
        self.port, self.ended, self.asked = port, 0, 0
        self.ledgers = [Ledger(port, it, "load", LIMIT) for it in range(LOAD)]
        self.threads = [threading.Thread(target=self.ask, args=(it,), daemon=True) for it in self.ledgers]
        for it in self.threads:
            it.start()

    def ask(self, ledger: Ledger) -> None:
        with contextlib.suppress(*FAULTS):
            while True:
                ledger.choose()
                self.asked += 1
        self.ended += 1


def term_trial(program: list[str], results: Results) -> None:
    """Tries SIGTERM under load and a start on the same port, ROUNDS times."""
    port, uid = free_port(), None
    for turn in range(1, ROUNDS + 1):
        with Launched(program, "--associations", str(LOAD + 1), port=port) as server:
            results.tell(f"start {turn}", None if holds(lambda: listens(port), LIMIT) else f"nobody listens: {server.process.poll()}")
            results.tell(f"start {turn}, an association", not_served(server, 1))
            if uid:
                results.tell(f"start {turn}, the steps of before", still_there(port, uid))
            load = Load(port)
            holds(lambda: load.asked > 5 * LOAD, LIMIT)
            uid = load.ledgers[0].steps[0].uid if load.ledgers[0].steps else None
            began = time.monotonic()
            server.process.send_signal(signal.SIGTERM)
            ended = holds(lambda: server.process.poll() is not None, AT_ONCE)
            fault = f"it has ended with {server.process.poll()} after {time.monotonic() - began:.1f} s"
            results.tell(f"SIGTERM {turn}", None if ended and server.process.returncode == -signal.SIGTERM else fault)
            seen = holds(lambda: load.ended == LOAD, LIMIT)
            results.tell(f"SIGTERM {turn}, the peers", None if seen else f"{load.ended} of {LOAD} see the end of their connections")


def still_there(port: int, uid: bytes) -> Optional[str]:
    """Returns why a step is not unknown, or None."""
    try:
        peer = Caller(port, LIMIT, ((PUSH, EXPLICIT), (PULL, EXPLICIT)))
        status = peer.ask(dicom.get(1, 1, uid))
        peer.release()
    except FAULTS as fault:
        return repr(fault)
    return None if status == 0xC307 else f"an N-GET is answered {status:04X}"


# descriptors

class Visitor:
    """A peer that keeps its association until it is told to go, and asks twice a second. It may come from another address of
    this machine."""

    def __init__(self, port: int, over: threading.Event, source: Optional[str] = None) -> None:
        self.is_served, self.fault, self.over = False, "", over
        self.thread = threading.Thread(target=self.visit, args=(port, source), daemon=True)
        self.thread.start()

    def visit(self, port: int, source: Optional[str]) -> None:
        try:
            peer = Caller(port, 4 * LIMIT, source=source)
            assert peer.ask(dicom.echo(1)) == 0
            self.is_served = True
            while not self.over.wait(0.5):
                assert peer.ask(dicom.echo(1)) == 0
            peer.release()
        except FAULTS as fault:
            self.fault = repr(fault)


def at_most(number: int) -> Callable[[], None]:
    return lambda: resource.setrlimit(resource.RLIMIT_NOFILE, (number, number))


def descriptor_trial(program: list[str], results: Results) -> None:
    """Tries more peers than descriptors."""
    with Launched(program, "--associations", str(WORKERS), prepare=at_most(DESCRIPTORS)) as server:
        results.tell("few descriptors, before", not_served(server, 1))
        is_left(server.port)
        before = threads(server), descriptors(server)
        over = threading.Event()
        visitors = [Visitor(server.port, over) for _ in range(PEERS)]
        with watched(server, results):
            holds(lambda: count_served(visitors) >= DESCRIPTORS - before[1], LIMIT)
        served = count_served(visitors)
        results.tell("few descriptors, peers that are served", None if FEWEST <= served < PEERS else f"{served} of {PEERS}")
        over.set()
        for it in visitors:
            it.thread.join(5 * LIMIT)
        faults = [it.fault or "it is not served" for it in visitors if it.fault or not it.is_served]
        results.tell("few descriptors, all peers in turn", f"{len(faults)} of {PEERS} are not served: {faults[0]}" if faults else None)
        is_left(server.port)
        back = holds(lambda: (threads(server), descriptors(server)) == before, LIMIT)
        now = threads(server), descriptors(server)
        results.tell("few descriptors, what is lost", None if back else f"threads and descriptors are {now}, and were {before}")
        results.tell("few descriptors, behind them", not_served(server, COUNT))


def count_served(visitors: list[Visitor]) -> int:
    return sum(it.is_served for it in visitors)


@contextlib.contextmanager
def watched(server: Launched, results: Results) -> Iterator[None]:
    """Fails if the server takes too large a share of a processor in the seconds after the body."""
    yield
    before, began = processor(server.process.pid), time.monotonic()
    time.sleep(WATCHED)
    share = (processor(server.process.pid) - before) / (time.monotonic() - began)
    results.tell("few descriptors, processor", None if share < MOST else f"it takes {share:.0%} of a processor")


def main() -> None:
    parser = described(__doc__, "*")
    given = parser.parse_args()
    signal.signal(signal.SIGALRM, lambda *_: sys.exit("ending.py: it does not end"))
    signal.alarm(600)
    results = Results(tells_passed=False)
    standard_error_trials(given.program, results)
    term_trial(given.program, results)
    descriptor_trial(given.program, results)
    results.end("standard error, SIGTERM, descriptors")


if __name__ == "__main__":
    main()
