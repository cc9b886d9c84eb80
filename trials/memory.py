#!/usr/bin/env python3
"""Fills `upsd serve` with steps until its memory runs out, and checks that requests on these steps still work.

The server may take 500 MB of addresses (RLIMIT_AS). Four associations are open at the same time, one for each worker, and each
creates steps of 400 kB until three in a row are refused with 0213. Then, on all four:

    creations           each further one is refused with 0213
    looking             C-ECHO is answered, a step is shown whole, and a query without keys finds each step that was accepted,
                        and no other; C-ECHO and N-GET are also answered on 20 associations in a row
    the life of steps   each of 4 is claimed, set, and shown as it was set; then it is completed
    the sweep           the other steps are canceled by request, 20 at a time, until they are swept (`--keep 1`): steps are
                        then created again, and each of these is found

No association may end by itself, and the server must go on. All of it runs twice: with the C library's memory as it is, and
with one arena for all threads (MALLOC_ARENA_MAX=1). A program that is built with checks (`rt try`) can't be tried: it takes
more addresses than that when it starts.

It starts the servers on free ports of this machine and ends by itself, in five minutes. It prints a line for each trial that
fails, and in the end how many passed. The status is 1 if any failed.
"""

import os
import signal
import sys
from typing import Callable, Optional

sys.path.insert(0, os.path.join(os.path.dirname(os.path.dirname(os.path.abspath(__file__))), "check/lib"))
import dicom
from dicom import data, items
from machine import described, holds
from peer import ECHO_ON, PULL_ON, PUSH_ON, Peer, claim, told
from results import Results
from server import Server

ADDRESSES = 500_000_000
SIZE = 400_000  # bytes of a value of each step
MOST = 2_000  # creations on one association, far more than there is memory for
REFUSALS = 3  # in a row, after which there is no memory for steps
FEWEST = 50  # steps, fewer than there is memory for
AGAIN = 10  # steps that there must be memory for after the sweep
TRIES = 20
WORKERS = 4
AT_ONCE = 20  # steps that are canceled before a sweep: each takes its memory again until then
SWEEP = 20  # seconds
DONE, NO_ROOM = 0x0000, 0x0213
LARGE = 0x0101, 0x1001  # an attribute that no dictionary has
HOLDER = b"2.25.1"
SCHEDULED = told(0x0074, 0x1000, b"CS", b"SCHEDULED")
PERFORMED = told(0x0040, 0x4050, b"DT", b"20240229120100") + told(0x0040, 0x4051, b"DT", b"20240229120200")
FAULTS = (OSError, EOFError, AssertionError)


def uid_of(number: int) -> bytes:
    return b"1.2.0.%d" % number


def creation(number: int) -> bytes:
    row = dicom.step(True, {LARGE: (b"UN", bytes(SIZE))})
    return dicom.create(PUSH_ON, 1, uid_of(number), row)


def set_performed(number: int) -> bytes:
    """Returns an N-SET of what the state COMPLETED needs."""
    change = told(0x0008, 0x1195, b"UI", HOLDER) + data(True, 0x0074, 0x1216, b"SQ", items([PERFORMED]))
    return dicom.set_attributes(PULL_ON, 1, uid_of(number), change)


def completion(number: int) -> bytes:
    change = told(0x0008, 0x1195, b"UI", HOLDER) + told(0x0074, 0x1000, b"CS", b"COMPLETED")
    return dicom.act(PULL_ON, 1, uid_of(number), 1, change)


def cancellation(number: int) -> bytes:
    return dicom.act(PUSH_ON, 1, uid_of(number), 2, told(0x0074, 0x1238, b"LT", b"FULL"))


def found(peer: Peer) -> Optional[set[bytes]]:
    """Returns the UIDs of the steps that a query without keys finds, or None if it is refused."""
    if peer.ask(dicom.find(PULL_ON, 1, told(0x0008, 0x0018, b"UI", b""))) != DONE:
        return None
    return {it[8:].rstrip(b"\0") for it in peer.sets}


def is_shown(peer: Peer, number: int, part: bytes) -> bool:
    """Returns whether a step is shown whole, with this part."""
    return peer.ask(dicom.get(PULL_ON, 1, uid_of(number))) == DONE and len(peer.sets[0]) > SIZE and part in peer.sets[0]


class Trials:
    """The trials of one server."""

    def __init__(self, server: Server, results: Results, name: str):
        self.server, self.results, self.name = server, results, name
        self.next, self.held = 0, []  # the number of the next step, and those of the steps that are there

    def tell(self, what: str, is_so: bool, why: str) -> None:
        self.results.tell(f"{self.name}: {what}", None if is_so else why)

    def serve(self, what: str, work: Callable[..., None], count: int = WORKERS) -> None:
        """Does the work with that many associations at the same time, which must be served until they are released."""
        fault = None
        try:
            peers = [Peer(self.server.port) for _ in range(count)]
            work(*peers)
            for peer in peers:
                peer.release()
        except FAULTS as it:
            fault = repr(it)
        self.results.tell(f"{self.name}: {what}, served", fault)

    def create(self, peer: Peer) -> int:
        """Creates the next step, and returns the status."""
        status = peer.ask(creation(self.next))
        if status == DONE:
            self.held.append(self.next)
        self.next += 1
        return status

    def finds_all(self, peer: Peer) -> bool:
        """Returns whether a query without keys finds exactly the steps that are there."""
        return found(peer) == set(map(uid_of, self.held))

    def fill(self, *peers: Peer) -> None:
        for it, peer in enumerate(peers):
            last: list[int] = []
            while last[-REFUSALS:] != [NO_ROOM] * REFUSALS and len(last) < MOST:
                last.append(self.create(peer))
            self.tell(f"filling at worker {it}", set(last) <= {DONE, NO_ROOM} and len(last) < MOST, f"{set(last)} after {len(last)} creations")

    def fill_at_first(self, *peers: Peer) -> None:
        self.fill(*peers)
        self.tell("filling", len(self.held) >= FEWEST, f"{len(self.held)} steps are accepted")
        statuses = {self.create(peer) for peer in peers for _ in range(REFUSALS)}
        self.tell("further creations", statuses == {NO_ROOM}, f"{statuses}")

    def look(self, *peers: Peer) -> None:
        for it, peer in enumerate(peers):
            self.tell(f"C-ECHO at worker {it}", peer.ask(dicom.echo(1, ECHO_ON)) == DONE, "it is not answered 0000")
            self.tell(f"N-GET at worker {it}", is_shown(peer, self.held[it], SCHEDULED), "the step is not shown whole")
            self.tell(f"C-FIND at worker {it}", self.finds_all(peer), "it doesn't find the steps accepted")

    def ask_a_little(self, peer: Peer) -> None:
        is_so = peer.ask(dicom.echo(1, ECHO_ON)) == DONE and is_shown(peer, self.held[0], SCHEDULED)
        self.tell("C-ECHO and N-GET", is_so, "they are not answered")

    def live(self, *peers: Peer) -> None:
        """Takes a step on each association through its life, to its end."""
        for peer in peers:
            step = self.held.pop(0)
            statuses = [peer.ask(it) for it in (claim(1, uid_of(step), HOLDER), set_performed(step))]
            self.tell(f"step {step} set", is_shown(peer, step, PERFORMED), "it is not shown so")
            statuses.append(peer.ask(completion(step)))
            self.tell(f"the life of step {step}", statuses == [DONE] * 3, f"{[f'{it:04X}' for it in statuses]}")

    def sweep(self, *peers: Peer) -> None:
        """Cancels the steps, AT_ONCE at a time, until they are swept."""
        while self.held:
            canceled, self.held = self.held[:AT_ONCE], self.held[AT_ONCE:]
            statuses = {peers[it % len(peers)].ask(cancellation(step)) for it, step in enumerate(canceled)}
            self.tell("cancellations", statuses == {DONE}, f"{statuses}")
            if not holds(lambda: self.finds_all(peers[0]), SWEEP):
                self.tell("the sweep", False, f"steps that are final are held {SWEEP} s later")
                return

    def fill_again(self, *peers: Peer) -> None:
        self.fill(*peers)
        self.tell("creations after the sweep", len(self.held) >= AGAIN, f"{len(self.held)} steps are accepted")
        self.tell("C-FIND after them", self.finds_all(peers[0]), "it doesn't find the steps accepted")

    def run(self) -> None:
        self.serve("filling", self.fill_at_first)
        first = len(self.held)
        self.serve("looking", self.look)
        for it in range(TRIES):
            self.serve(f"association {it}", self.ask_a_little, 1)
        self.serve("the life of steps", self.live)
        self.serve("the sweep", self.sweep)
        self.serve("creations after the sweep", self.fill_again)
        self.tell("the server", self.server.process.poll() is None, "it has ended")
        self.tell("the log", not any("serve: Memory" in it for it in self.server.log), "associations ended for lack of memory")
        print(f"{self.name}: {first} steps, and {len(self.held)} after the sweep", flush=True)


def main() -> None:
    parser = described(__doc__, "*")
    asked = parser.parse_args()
    signal.signal(signal.SIGALRM, lambda *_: sys.exit("memory.py: it does not end"))
    signal.alarm(900)
    results = Results(tells_passed=False)
    limited = ["prlimit", f"--as={ADDRESSES}", *asked.program]
    for name, words in (("memory as it is", limited), ("one memory for all threads", ["env", "MALLOC_ARENA_MAX=1", *limited])):
        with Server(words, "--associations", "4", "--keep", "1", "--idle", "0") as server:
            Trials(server, results, name).run()
    results.end(f"{ADDRESSES:,} bytes of addresses, steps of {SIZE:,} bytes")


if __name__ == "__main__":
    main()
