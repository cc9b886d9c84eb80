#!/usr/bin/env python3
"""Tries event reports that leave from a given address of the machine (`serve --from`).

    trials/sources.py [PROGRAM]      (default: crates/upsd/out/upsd)

A watcher notes from which address each of its associations comes: 127.0.0.1 without the option, and the address of the option
with it. With it, a watcher at an IPv6 address is unreachable for a server that leaves from an IPv4 address, and one that takes no
connection holds a deliverer for `--delivery-timeout` and no longer. From an address that the machine lacks no report leaves,
which the log says; `--check` refuses it before a start does any of this.

It prints a line for each check, and then `N passed, M failed`. The status is 1 if any failed.
"""

from __future__ import annotations

import os
import socket
import subprocess
import sys
import time
from typing import Optional

sys.path[:0] = [os.path.join(os.path.dirname(os.path.dirname(os.path.abspath(__file__))), it) for it in ("check/lib", "trials")]
from listeners import Counting
from machine import arguments, free_port, holds
from peer import GLOBAL
from results import Results
from server import Server
from stored import Client, a_step_of

HERE, THERE = "127.0.0.1", "127.0.0.9"  # each address of 127.0.0.0/8 is one of this machine
NOWHERE = "192.0.2.9"  # for examples (RFC 5737), so no machine has it
TIMEOUT = 2  # seconds that a watcher may take
WITHIN = 20.0
NO_LOCK = b"FALSE"


class Noting(Counting):
    """A watcher that notes from where each connection comes."""

    def __init__(self) -> None:
        self.sources: list[str] = []
        super().__init__()

    def talk(self, connected: socket.socket) -> None:
        self.sources.append(connected.getpeername()[0])
        super().talk(connected)


class Shut:
    """A place that takes no connection and refuses none: its queue is full."""

    def __init__(self) -> None:
        self.listener = socket.create_server((HERE, 0), backlog=0)
        place = self.listener.getsockname()
        self.place = f"{HERE}:{place[1]}"
        self.waiting = [socket.socket() for _ in range(4)]
        for it in self.waiting:
            it.setblocking(False)
            it.connect_ex(place)

    def close(self) -> None:
        for it in [self.listener, *self.waiting]:
            it.close()


def ask(server: Server, *titles: str, step: bytes = b"1.2.3.1") -> Optional[str]:
    """Subscribes watchers to all steps and creates one, and returns what is refused, or None."""
    client = Client(server.port)
    statuses = [client.subscribe(GLOBAL, title.encode(), NO_LOCK) for title in titles]
    statuses.append(client.create(step, a_step_of(b"P1")))
    return ", ".join(f"{it:04X}" for it in statuses if it) or None


def told(server: Server, *texts: str) -> Optional[str]:
    """Returns that the log has no line with all these texts, or None."""
    def is_told() -> bool:
        return any(all(text in line for text in texts) for line in server.log)
    holds(is_told, WITHIN)
    return None if is_told() else f"no line of the log has {' and '.join(texts)}"


def fault_of(watcher: Noting, source: str) -> Optional[str]:
    """Returns what is wrong with the reports that a watcher got, or None: there is one, which came from this address."""
    holds(lambda: sum(watcher.came.values()) == 1, WITHIN)
    if sum(watcher.came.values()) != 1:
        return f"{sum(watcher.came.values())} reports"
    return None if set(watcher.sources) == {source} else f"from {', '.join(watcher.sources)}"


def try_sources(program: str, results: Results) -> None:
    """Lets the system choose, and then the option."""
    for options, source in (((), HERE), (("--from", THERE), THERE)):
        watcher = Noting()
        with Server([program], *options, f"W1={watcher.place}") as server:
            results.tell(f"requests are accepted ({' '.join(options) or 'no --from'})", ask(server, "W1"))
            results.tell(f"a report leaves from {source}", fault_of(watcher, source))
        watcher.close()


def try_others(program: str, results: Results) -> None:
    """Has watchers that are not reached from the address, beside one that is."""
    watcher, shut = Noting(), Shut()
    others = (f"W2=::1:{free_port()}", f"W3={shut.place}", f"W4={HERE}:{free_port()}")
    with Server([program], "--from", THERE, "--delivery-timeout", str(TIMEOUT), f"W1={watcher.place}", *others) as server:
        results.tell("requests of four watchers are accepted", ask(server, "W1", "W2", "W3", "W4"))
        results.tell("the one that is reached gets its report", fault_of(watcher, THERE))
        results.tell("an IPv6 address is not reached from an IPv4 address", told(server, "deliver W2", "address not available"))
        results.tell("a place that takes no connection is given up", told(server, "deliver W3", "timed out"))
        results.tell("a port where nobody listens is told", told(server, "deliver W4", "connection refused"))
    watcher.close()
    shut.close()


def try_nowhere(program: str, results: Results) -> None:
    """Leaves from an address that the machine lacks: in a server, and in a check."""
    watcher = Noting()
    with Server([program], "--from", NOWHERE, f"W1={watcher.place}") as server:
        results.tell("requests are accepted while no report can leave", ask(server, "W1"))
        results.tell("that the machine lacks the address is told", told(server, "deliver W1", "address not available"))
        time.sleep(1)
        results.tell("no report leaves from another address", f"from {watcher.sources[0]}" if watcher.sources else None)
    watcher.close()
    for source, status, text in ((NOWHERE, 2, f"no report can leave from {NOWHERE}"), (THERE, 0, f"reports leave from {THERE}")):
        words = [program, "serve", "--ae", "UPSD", "--port", "0", "--check", "--from", source]
        ran = subprocess.run(words, capture_output=True, text=True, timeout=WITHIN)
        is_so = ran.returncode == status and text in ran.stderr
        results.tell(f"--check of {source} ends with status {status}", None if is_so else f"{ran.returncode}: {ran.stderr.strip()}")


def main() -> None:
    given, results = arguments(__doc__ or ""), Results()
    try_sources(given.program, results)
    try_others(given.program, results)
    try_nowhere(given.program, results)
    results.end()


if __name__ == "__main__":
    main()
