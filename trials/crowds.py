#!/usr/bin/env python3
"""Measures how long a working peer of `upsd serve` waits behind 200 others that have begun something and don't go on.

    trials/crowds.py [PROGRAM..] [--limit 30]      (default: crates/upsd/out/upsd)

200 peers come at the same time to a server of 16 workers with the default limits, and

    half a header     send three bytes of an association request, and nothing more
    all but a byte    send an association request without its last byte, and nothing more
    associates        ask for an association, and nothing more
    inside a message  ask for an association, send half a P-DATA-TF, and nothing more
    asks, then stops  the same behind a C-ECHO
    each second goes  the same, but each second one releases its association behind its C-ECHO
    a byte at a time  ask for an association, and send a P-DATA-TF by a byte each 0.9 seconds
    reads nothing     send 200 C-FINDs with 20 answers of 10 KB each, and read none of them
    asks each 9 s     ask for an association, and send a C-ECHO each nine seconds
    asks all the time the same, each fifth of a second

A working peer that comes a second after them must be served within 30 seconds (`--limit`). Four peers of another address that
had an association before, and ask twice a second, must be answered all the while.

On a server of 16 workers as many peers send a C-ECHO each five seconds. Another one must be served after 20 to 30 seconds, and
one of them alone must have made way.

On a server of two workers one peer has an association and says nothing, another asks twice a second, and a third one waits. The
silent one must make way after ten seconds of silence, and hear an A-ABORT, which the log reports; the other must go on. The
third one then asks every three seconds, while a fourth one waits: it must go on, too. Then one of two peers that have asked
before stops inside a message while a third one waits: it must make way after ten seconds, and not sooner.

On a server of four workers one peer has an association and says nothing, and then three from another address do so. If a fifth
peer waits, one of the three must make way, though they have been silent for less long.

On a server with `--idle 2` and `--timeout 10` a peer pauses for five seconds between a command and its data set, and must be
answered; and one that pauses there for longer than ten seconds must hear an A-ABORT, which the log reports as `Timeout`.

If nobody waits, `--timeout` and `--idle` hold: with 4 and 14 seconds a connection with half a header is closed after 4 and an
association that says nothing after 14, each within a second, and neither earlier.

It ends by itself, in six minutes if all is well. It prints how long each peer waited, a line for each trial that fails, and
in the end how many passed. It ends with status 1 if any failed. `trials/abuse.py` has peers of many other kinds.
"""

from __future__ import annotations

import asyncio
import contextlib
import itertools
import os
import signal
import sys
import threading
import time
from collections.abc import Awaitable, Callable, Iterator
from typing import Optional

sys.path.insert(0, os.path.join(os.path.dirname(os.path.dirname(os.path.abspath(__file__))), "check/lib"))
import dicom
from abuse import ABORT, CROWD, ECHO, FAULTS, FEW_STEPS, REQUEST, Holder, create_steps, crowd, hung_up, never_reads, served
from dicom import EXPLICIT, IMPLICIT, PULL, RELEASE, VERIFICATION, pdu
from ending import Visitor
from machine import described, holds
from peer import Caller, connect
from results import Results
from server import Server

WORKERS, BUSY = 16, 4
TIMEOUT = 10  # seconds: after which a silent association makes way
PATIENCE = 180  # seconds for which a working peer waits at most, longer than the limit so that its time can be reported
SHORT, LONG = 4, 14  # the limits if nobody waits
SLACK = 1.0
APART = 0.1  # seconds between two associations, so that the first one is silent longest
TENURE, LATEST = 20, 30  # seconds for which an association keeps its worker while one peer waits, and by which that is served
PAUSES = 0.9, 9.0, 0.2  # seconds between two bytes, and between two requests
OTHER = "127.0.0.2"  # another address of this machine
IDLE, PAUSE = 2, 5  # seconds: a limit of silence between messages, and a pause inside of one that is longer
CONTEXTS = ((VERIFICATION, IMPLICIT), (PULL, EXPLICIT))
QUERY = dicom.find(3, 1, dicom.data(True, 0x0074, 0x1000, b"CS", b"SCHEDULED "))
COMMAND_LEN = 6 + int.from_bytes(QUERY[2:6], "big")  # bytes of the PDU with the command of the query


def sends(*parts: bytes) -> Callable[[Holder], Awaitable[None]]:
    """Returns a kind of peer that sends each part once that before is answered, and nothing more."""
    async def begins(holder: Holder) -> None:
        for part in parts[:-1]:
            await holder.say(part)
            await holder.hear()
        await holder.say(parts[-1])
        await holder.hear_all()

    return begins


stops = sends(REQUEST, ECHO[: len(ECHO) // 2])  # inside of a P-DATA-TF
asks_and_stops = sends(REQUEST, ECHO, ECHO[: len(ECHO) // 2])


def each_second_goes() -> Callable[[Holder], Awaitable[None]]:
    """Returns a kind of peer of which each second one releases its association behind a C-ECHO, and the others stop."""
    turns = itertools.count()

    async def one(holder: Holder) -> None:
        if next(turns) % 2:
            await asks_and_stops(holder)
        await sends(REQUEST, ECHO, RELEASE)(holder)

    return one


async def drips(holder: Holder) -> None:
    """Asks for an association, and sends a P-DATA-TF byte by byte."""
    await holder.say(REQUEST)
    await holder.hear()
    for it in pdu(4, bytes(16384)):
        await holder.say(bytes([it]))
        await asyncio.sleep(PAUSES[0])


def asks_each(pause: float) -> Callable[[Holder], Awaitable[None]]:
    """Returns a kind of peer that asks for an association, and sends a C-ECHO again and again."""
    async def asks(holder: Holder) -> None:
        await holder.say(REQUEST)
        while True:
            await holder.hear()
            await asyncio.sleep(pause)
            await holder.say(ECHO)

    return asks


KINDS = {"half a header": sends(REQUEST[:3]), "all but a byte": sends(REQUEST[:-1]), "associates": sends(REQUEST), "inside a message": stops,
         "asks, then stops": asks_and_stops, "each second goes": each_second_goes(), "a byte at a time": drips, "reads nothing": never_reads,
         "asks each 9 s": asks_each(PAUSES[1]), "asks all the time": asks_each(PAUSES[2])}


@contextlib.contextmanager
def visitors(port: int, count: int) -> Iterator[list[Visitor]]:
    """Runs that many peers of another address that have an association already, and ask twice a second until the body ends."""
    over = threading.Event()
    working = [Visitor(port, over, OTHER) for _ in range(count)]
    holds(lambda: all(it.is_served for it in working), TIMEOUT)
    try:
        yield working
    finally:
        over.set()
        for it in working:
            it.thread.join(TIMEOUT)


def fault_of(working: list[Visitor]) -> Optional[str]:
    """Returns why peers that ask all the while are not answered, or None."""
    faults = [it.fault or "it is not served" for it in working if it.fault or not it.is_served]
    return f"{len(faults)} of {len(working)}: {faults[0]}" if faults else None


def crowd_trial(program: list[str], results: Results, name: str, limit: float) -> None:
    """Tries a working peer after a crowd, and others that were there before."""
    with Server(program, "--associations", str(WORKERS)) as server:
        create_steps(server.port, FEW_STEPS)
        with visitors(server.port, BUSY) as working, crowd(server.port, KINDS[name], [Holder() for _ in range(CROWD)]):
            waited = served(server.port, PATIENCE, 1)
            fault = fault_of(working)
        results.tell(f"{name}, those that ask all the while", fault)
        told = "not served" if waited is None else f"served after {waited:.1f} s"
        results.tell(f"a peer behind {CROWD}: {name}", None if waited is not None and waited <= limit else f"it is {told}")
        print(f"a peer behind {CROWD}: {name}: {told}", flush=True)


class Waiting:
    """A peer that waits for its association, and then asks every `pause` seconds until it is told to go."""

    def __init__(self, port: int, pause: float, over: threading.Event, source: Optional[str] = None) -> None:
        self.port, self.pause, self.over, self.source = port, pause, over, source
        self.began, self.seconds, self.fault = time.monotonic(), 0.0, "it is not served"
        self.thread = threading.Thread(target=self.work, daemon=True)
        self.thread.start()

    def work(self) -> None:
        try:
            peer = Caller(self.port, 4 * TIMEOUT, source=self.source)
            assert peer.ask(ECHO) == 0
            self.seconds, self.fault = time.monotonic() - self.began, ""
            while not self.over.wait(self.pause):
                assert peer.ask(ECHO) == 0
            peer.release()
        except FAULTS as fault:
            self.fault = repr(fault)

    def told(self) -> str:
        return self.fault or f"served after {self.seconds:.1f} s"


def idle_trial(program: list[str], results: Results) -> None:
    """Tries whether the association that has been silent for longest makes way, and no other."""
    over = threading.Event()
    with Server(program, "--associations", "2") as server, visitors(server.port, 1) as working:
        silent = Caller(server.port, TIMEOUT)
        address = "{}:{}".format(*silent.socket.getsockname())
        third = Waiting(server.port, 3.0, over)
        holds(lambda: third.seconds, 2 * TIMEOUT)
        is_good = abs(third.seconds - TIMEOUT) <= 2 * SLACK
        results.tell("a peer behind an idle one", None if is_good else f"it is {third.told()}")
        results.tell("an idle one makes way, A-ABORT", heard(silent))
        told = [line for line in server.log if address in line]
        results.tell("an idle one makes way, the log", None if told else f"no line names {address}")
        fourth = Waiting(server.port, 1.0, over)
        time.sleep(TIMEOUT - SLACK)
        results.tell("a peer that pauses while another one waits", third.fault or None)
        results.tell("an idle one makes way, another one", fault_of(working))
        over.set()
        for it in (third, fourth):
            it.thread.join(TIMEOUT)
        print(f"a peer behind an idle one: {third.told()}; {told}", flush=True)


def stuck_trial(program: list[str], results: Results) -> None:
    """Tries whether an association that has asked before and stops inside a message makes way after ten seconds of silence."""
    over = threading.Event()
    with Server(program, "--associations", "2") as server, visitors(server.port, 1) as working:
        stuck = Caller(server.port, 3 * TIMEOUT)
        assert stuck.ask(ECHO) == 0
        stuck.socket.sendall(ECHO[: len(ECHO) // 2])
        third = Waiting(server.port, 3.0, over)
        holds(lambda: third.seconds, 2 * TIMEOUT)
        is_good = abs(third.seconds - TIMEOUT) <= 2 * SLACK
        results.tell("a peer behind one that stops inside a message", None if is_good else f"it is {third.told()}")
        results.tell("one that stops inside a message makes way, A-ABORT", heard(stuck))
        results.tell("one that stops inside a message makes way, another one", fault_of(working))
        over.set()
        third.thread.join(TIMEOUT)
        print(f"a peer behind one that stops inside a message: {third.told()}", flush=True)


def fair_trial(program: list[str], results: Results) -> None:
    """Tries whether peers that have all workers, and ask every five seconds, keep another one out."""
    over = threading.Event()
    with Server(program, "--associations", str(WORKERS)) as server:
        working = [Waiting(server.port, 5.0, over) for _ in range(WORKERS)]
        holds(lambda: all(it.seconds for it in working), TIMEOUT)
        another = Waiting(server.port, 1.0, over)
        holds(lambda: another.seconds, 2 * LATEST)
        is_good = TENURE - SLACK <= another.seconds <= LATEST
        results.tell(f"a peer behind {WORKERS} that ask each 5 s", None if is_good else f"it is {another.told()}")
        time.sleep(2 * SLACK)
        cut = sum("serve: MadeWay" in line for line in server.log)
        results.tell(f"a peer behind {WORKERS} that ask each 5 s, who makes way", None if cut == 1 else f"{cut} associations")
        over.set()
        for it in (*working, another):
            it.thread.join(TIMEOUT)
        print(f"a peer behind {WORKERS} that ask each 5 s: {another.told()}", flush=True)


def share_trial(program: list[str], results: Results) -> None:
    """Tries whether an association of the address with more than half of the workers makes way before one of another address."""
    with Server(program, "--associations", "4") as server:
        first = Caller(server.port, 3 * TIMEOUT, source=OTHER)
        time.sleep(2 * SLACK)
        others = []
        for _ in range(3):
            others.append(Caller(server.port, 3 * TIMEOUT))
            time.sleep(APART)
        waited = served(server.port, 2 * TIMEOUT, 1)
        results.tell("a peer behind an address with most workers", None if waited else f"it is not served within {2 * TIMEOUT} s")
        results.tell("an address with most workers makes way, A-ABORT", heard(others[0]))
        results.tell("an address with most workers makes way, another one", None if first.ask(ECHO) == 0 else "it is refused")
        print(f"a peer behind an address with most workers: served after {waited or 0:.1f} s", flush=True)


def pause_trial(program: list[str], results: Results) -> None:
    """Tries pauses between a command and its data set: one that is longer than `--idle`, and one that is longer than `--timeout`."""
    with Server(program, "--idle", str(IDLE), "--timeout", str(TIMEOUT)) as server:
        peer = Caller(server.port, 3 * TIMEOUT, CONTEXTS)
        try:
            peer.socket.sendall(QUERY[:COMMAND_LEN])
            time.sleep(PAUSE)
            fault = None if peer.ask(QUERY[COMMAND_LEN:]) == 0 else "it is refused"
        except FAULTS as met:
            fault = repr(met)
        results.tell("a pause between a command and its data set", fault)
        peer = Caller(server.port, 3 * TIMEOUT, CONTEXTS)
        address = "{}:{}".format(*peer.socket.getsockname())
        peer.socket.sendall(QUERY[:COMMAND_LEN])
        began = time.monotonic()
        is_cut = hung_up(peer.socket, began + TIMEOUT + 2 * SLACK)
        seconds = time.monotonic() - began
        is_good = is_cut and abs(seconds - TIMEOUT) <= 2 * SLACK
        results.tell("a pause that is too long", None if is_good else f"it lasts {seconds:.1f} s, and the limit is {TIMEOUT} s")
        holds(lambda: any(address in line for line in server.log), TIMEOUT)
        told = [line for line in server.log if address in line]
        results.tell("a pause that is too long, the log", None if any("Timeout" in line for line in told) else f"it says {told}")
        print(f"a pause that is too long: cut off after {seconds:.1f} s; {told}", flush=True)


def heard(peer: Caller) -> Optional[str]:
    """Returns why a peer that is cut off has not heard an A-ABORT, or None."""
    peer.socket.settimeout(SLACK)
    try:
        last = peer.socket.recv(65536)
    except OSError as fault:
        return repr(fault)
    return None if last.startswith(ABORT[:1]) else f"it hears {last.hex()}"


def alone_trial(program: list[str], results: Results) -> None:
    """Tries whether the limits hold if nobody waits."""
    with Server(program, "--associations", "4", "--timeout", str(SHORT), "--idle", str(LONG)) as server:
        half, idle = connect(server.port, LONG), Caller(server.port, LONG).socket
        half.sendall(REQUEST[:3])
        began = time.monotonic()
        for name, peer, limit in (("half a header", half, SHORT), ("an idle association", idle, LONG)):
            is_cut = hung_up(peer, began + limit + SLACK)
            seconds = time.monotonic() - began
            is_good = is_cut and seconds >= limit - SLACK / 2
            told = f"cut off after {seconds:.1f} s" if is_cut else f"not cut off after {seconds:.1f} s"
            results.tell(f"alone, {name}", None if is_good else f"it is {told}, and the limit is {limit} s")
            print(f"alone, {name}: {told}", flush=True)


def main() -> None:
    parser = described(__doc__, "*")
    parser.add_argument("--limit", type=float, default=30.0, help="seconds that a working peer may wait (default: %(default)s)")
    given, results = parser.parse_args(), Results(tells_passed=False)
    signal.signal(signal.SIGALRM, lambda *_: sys.exit("crowds.py: it does not end"))
    signal.alarm(900)
    for name in KINDS:
        crowd_trial(given.program, results, name, given.limit)
    fair_trial(given.program, results)
    share_trial(given.program, results)
    idle_trial(given.program, results)
    stuck_trial(given.program, results)
    pause_trial(given.program, results)
    alone_trial(given.program, results)
    results.end(f"peers that have begun, {CROWD} of each kind")


if __name__ == "__main__":
    main()
