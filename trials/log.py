#!/usr/bin/env python3
"""Compares the log of `upsd serve` with what 20 simultaneous associations ask.

    trials/log.py [PROGRAM]

Each association has its own calling AE title and its own number of requests, from 1 to 20, and all of them are open at once.
The lines of an association have its number, its calling title and its address; the last one is like

    serve: Released #17 PERFORM1 192.0.2.7:51234, 12 requests, 3.1 s

With --verbose there is a line before it for each request, which names the operation, the step and the status; without
--verbose there is one for each request that is refused, and no other. The script finds the lines of each association by its
number, and compares the title, the address, the number of requests, the seconds, and the requests with their statuses and
their order.

Then queries in Implicit VR ask with sequences that the dictionary lacks: each calling title gets one line that names the first
of them, and none if such a sequence has no item or the dictionary has it.

It starts servers on free ports of this machine, with and without --verbose, and ends by itself. It prints a line for each
association, and then `N passed, M failed`. The exit status is 1 if any failed.
"""

from __future__ import annotations

import collections
import dataclasses
import os
import re
import sys
import threading
import time
from typing import Optional

sys.path.insert(0, os.path.join(os.path.dirname(os.path.dirname(os.path.abspath(__file__))), "check/lib"))
from dicom import IMPLICIT, PULL, create, data, echo, find, get, items
from machine import described, holds
from peer import CONTEXTS, ECHO_ON, PULL_ON, PUSH_ON, Caller, Peer, a_step, claim, told
from results import Results
from server import Server

COUNT = 20
LIMIT = 30  # seconds for all associations of a server to open, and for an answer
SLACK = 1.0  # seconds by which the log and the script may differ on how long an association took
OPERATION = re.compile(r"serve: (?:[CN]-[A-Z]+|Change) #")
UNREAD = re.compile(r"WARN .*serve: C-FIND #\d+ (\S+) 127\.0\.0\.1:\d+, (\([0-9A-F]{4},[0-9A-F]{4}\)) came as UN ")
END = re.compile(r"serve: Released #\d+ \S+ \S+, (\d+) requests?, (\d+\.\d) s$")


@dataclasses.dataclass
class Request:
    """A request, the status that it gets, and the words that its line of the log has."""

    message: bytes
    status: int
    words: list[str]


def requests_on(step: str) -> list[Request]:
    """Returns the requests on one step, in order."""
    uid = step.encode()
    return [
        Request(create(PUSH_ON, 1, uid, a_step(b"P1")), 0x0000, ["N-CREATE", step, "0000"]),
        Request(get(PUSH_ON, 1, uid), 0x0000, ["N-GET", step, "0000"]),
        Request(claim(1, uid, b"2.25.7"), 0x0000, ["Change", step, "0000"]),
        Request(claim(1, uid, b"2.25.8"), 0xC302, ["Change", step, "C302"]),
        Request(find(PULL_ON, 1, told(0x0008, 0x0018, b"UI", uid)), 0x0000, ["C-FIND", "0000"]),
        Request(echo(1, ECHO_ON), 0x0000, ["C-ECHO", "0000"]),
    ]


class Talk(Caller):
    """An association with a calling title and a number of requests of its own."""

    def __init__(self, port: int, number: int) -> None:
        self.title = f"CALLER{number}"
        self.fault: Optional[str] = None
        steps = [f"1.2.{number}.{place}" for place in range(1 + number // 6)]
        self.requests = [it for step in steps for it in requests_on(step)][:number]
        self.began = time.monotonic()
        super().__init__(port, LIMIT, None)
        self.address = f"127.0.0.1:{self.socket.getsockname()[1]}"
        self.seconds = 0.0

    def run(self, barrier: threading.Barrier) -> None:
        """Opens the association, asks once all others are open too, and releases it."""
        try:
            self.associate(CONTEXTS, self.title.encode())
            barrier.wait(LIMIT)
            for request in self.requests:
                status = self.ask(request.message)
                assert status == request.status, f"{request.words} is answered {status:04X}"
            time.sleep(len(self.requests) / 10)  # so that each takes a time of its own
            self.release()
        except Exception as fault:
            self.fault = repr(fault)
        self.seconds = time.monotonic() - self.began


def lines_by_number(log: list[str]) -> dict[int, list[str]]:
    """Returns the lines of each association, by its number."""
    found: dict[int, list[str]] = collections.defaultdict(list)
    for line in log:
        if number := re.search(r"serve: .*?#(\d+) ", line):
            found[int(number[1])].append(line)
    return found


def lines_of(caller: Talk, found: dict[int, list[str]]) -> tuple[int, list[str]]:
    """Returns the number of an association, and its lines: those of the only number that has its title."""
    having = [number for number, lines in found.items() if any(f" {caller.title} " in line for line in lines)]
    if not having:
        raise ValueError("no line has a number and this title")
    if len(having) > 1:
        raise ValueError(f"lines of the numbers {having} have this title")
    return having[0], found[having[0]]


def compare_end(caller: Talk, line: str) -> None:
    """Raises ValueError if the last line differs from the association."""
    end = END.search(line)
    if not end:
        raise ValueError(f"the last line is {line!r}")
    if int(end[1]) != len(caller.requests):
        raise ValueError(f"the last line has {end[1]} requests and not {len(caller.requests)}")
    if abs(float(end[2]) - caller.seconds) > SLACK:
        raise ValueError(f"the last line has {end[2]} s, and it took {caller.seconds:.1f} s")


def compare_requests(requests: list[Request], lines: list[str]) -> None:
    """Raises ValueError if the lines of requests differ from the requests that were made."""
    if len(lines) != len(requests):
        raise ValueError(f"{len(lines)} lines name an operation, and {len(requests)} requests are to have one")
    for place, (line, request) in enumerate(zip(lines, requests), 1):
        missing = set(request.words) - set(re.findall(r"[\w.-]+", line))
        if missing:
            raise ValueError(f"the line of request {place} lacks {sorted(missing)}: {line!r}")


def fault_of(caller: Talk, found: dict[int, list[str]], verbose: bool) -> Optional[str]:
    """Returns how the log differs from what an association did, or None."""
    if caller.fault:
        return caller.fault
    try:
        number, lines = lines_of(caller, found)
        for line in lines:
            if f"#{number} {caller.title} {caller.address}" not in line:
                raise ValueError(f"a line of number {number} is {line!r}, and the peer is {caller.title} at {caller.address}")
        compare_end(caller, lines[-1])
        told = [it for it in caller.requests if verbose or it.status]
        compare_requests(told, [line for line in lines[:-1] if OPERATION.search(line)])
        if not verbose and len(lines) > len(told) + 1:
            raise ValueError(f"there are {len(lines)} lines without --verbose, and {len(told)} requests were refused")
        return None
    except ValueError as fault:
        return str(fault)


def call_all(port: int) -> list[Talk]:
    """Runs all associations at the same time, and returns them."""
    barrier = threading.Barrier(COUNT)
    callers = [Talk(port, number) for number in range(1, COUNT + 1)]
    threads = [threading.Thread(target=it.run, args=(barrier,)) for it in callers]
    for it in threads:
        it.start()
    for it in threads:
        it.join()
    return callers


def trial(program: list[str], verbose: bool, results: Results) -> None:
    """Compares the log of one server."""
    options = ["--associations", str(COUNT), *(["--verbose"] if verbose else [])]
    with Server(program, *options) as server:
        callers = call_all(server.port)
        holds(lambda: sum("serve: Released" in line for line in server.log) == COUNT, 5)
        found = lines_by_number(list(server.log))
    name = "verbose" if verbose else "quiet"
    for caller in callers:
        results.tell(f"{name}, {caller.title}", fault_of(caller, found, verbose))
    results.tell(f"{name}, {COUNT} numbers", None if len(found) == COUNT else f"the log has {sorted(found)}")


def keys(*elements: tuple[int, int, bytes]) -> bytes:
    """Returns the keys of a query in Implicit VR Little Endian."""
    return b"".join(data(False, group, number, b"", value) for group, number, value in elements)


CODE = items([keys((0x0008, 0x0100, b"C1"))])
QUERIES = [  # a calling title, its keys, and the tag that a line names, if there is to be one
    ("RT1", keys((0x0032, 0x1064, CODE)), "(0032,1064)"),
    ("RT1", keys((0x0040, 0x0260, CODE)), None),  # in the same minute
    ("RT2", keys((0x0040, 0x4018, items([keys((0x0008, 0x0121, CODE))]))), "(0008,0121)"),
    ("RT3", keys((0x0009, 0x1001, b"A1"), (0x0032, 0x1064, b""), (0x0040, 0x4018, CODE)), None),
]


def trial_of_unread_sequences(program: list[str], results: Results) -> None:
    """Compares the lines about sequences that are read as bytes."""
    with Server(program) as server:
        for title, identifier, _ in QUERIES:
            peer = Peer(server.port, [(PULL, IMPLICIT)], title.encode(), LIMIT)
            status = peer.ask(find(1, 1, identifier))
            peer.release()
            results.tell(f"a query of {title}", None if status == 0 and not peer.sets else f"it is answered {status:04X}")
        holds(lambda: sum("serve: Released" in line for line in server.log) == len(QUERIES), 5)
        found = [it.groups() for line in server.log if (it := UNREAD.search(line))]
    wanted = [(title, tag) for title, _, tag in QUERIES if tag]
    results.tell("sequences that came as UN", None if found == wanted else f"the log names {found}, and not {wanted}")


def main() -> None:
    asked = described(__doc__, "?")
    given = asked.parse_args()
    results = Results()
    for verbose in (True, False):
        trial([given.program], verbose, results)
    trial_of_unread_sequences([given.program], results)
    results.end()


if __name__ == "__main__":
    main()
