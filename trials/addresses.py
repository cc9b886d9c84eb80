#!/usr/bin/env python3
"""Tries watchers whose hosts have several addresses, which the server has to try in turn.

    trials/addresses.py [PROGRAM]      (default: crates/upsd/out/upsd)

The server has an /etc/hosts of its own, in a mount namespace, so that names have the addresses 127.0.0.2, .3, .. of this machine.
SECOND listens at its second address, while nobody listens at the first; BEHIND at the second, while the first takes no connection
and says nothing; LAST at the last address that is tried; EACH at two. Each has to get each report once. BEYOND listens at an
address beyond those that are tried, and may get none.

It needs root (`unshare`), prints a line for each check, and then `N passed, M failed`. The status is 1 if any failed.
"""

from __future__ import annotations

import os
import socket
import sys
import tempfile
import threading
from typing import Optional

sys.path[:0] = [os.path.join(os.path.dirname(os.path.dirname(os.path.abspath(__file__))), it) for it in ("check/lib", "trials")]
from listeners import Counting
from machine import arguments, free_port, holds
from peer import GLOBAL
from results import Results
from server import Server
from stored import Client, a_step_of

STEPS = [b"1.2.3.%d" % (number + 1) for number in range(20)]
TRIED = 8  # addresses of a host
WITHIN = 60.0  # seconds for the reports, also behind an address that says nothing
NO_LOCK = b"FALSE"


class At(Counting):
    """A watcher at some addresses of this machine, at one port."""

    def __init__(self, *hosts: str) -> None:
        super().__init__()
        self.close()
        self.port = free_port()
        for host in hosts:
            threading.Thread(target=self.listen_at, args=(socket.create_server((host, self.port)),), daemon=True).start()

    def listen_at(self, listener: socket.socket) -> None:
        while True:
            threading.Thread(target=self.serve, args=(listener.accept()[0],), daemon=True).start()


class Shut:
    """A place that takes no connection and refuses none: its queue is full."""

    def __init__(self, host: str, port: int) -> None:
        self.listener = socket.create_server((host, port), backlog=0)
        self.waiting = [socket.socket() for _ in range(4)]
        for it in self.waiting:
            it.setblocking(False)
            it.connect_ex((host, port))


def address(number: int) -> str:
    return f"127.0.0.{number + 1}"


def fault_of(watcher: At, is_tried: bool) -> Optional[str]:
    """Returns what is wrong with the reports that a watcher got, or None."""
    wanted = {step: 1 for step in STEPS} if is_tried else {}
    holds(lambda: dict(watcher.came) == wanted, WITHIN if is_tried else 0)
    return None if dict(watcher.came) == wanted else f"{sum(watcher.came.values())} reports of {len(watcher.came)} steps"


def try_reports(server: Server, watchers: dict[str, At], results: Results) -> None:
    """Creates steps, and looks at what each watcher gets."""
    client = Client(server.port)
    for title in watchers:
        status = client.subscribe(GLOBAL, title.encode(), NO_LOCK)
        results.tell(f"{title} is subscribed", f"{status:04X}" if status else None)
    statuses = {client.create(step, a_step_of(b"P1")) for step in STEPS}
    results.tell(f"{len(STEPS)} steps are created", None if statuses == {0} else str(statuses))
    for title, watcher in watchers.items():
        is_tried = title != "BEYOND"
        results.tell(f"{title} gets {'each report once' if is_tried else 'none'}", fault_of(watcher, is_tried))


def main() -> None:
    given, results = arguments(__doc__), Results()
    watchers = {"SECOND": At(address(2)), "BEHIND": At(address(2)), "LAST": At(address(TRIED)), "EACH": At(address(1), address(2)),
                "BEYOND": At(address(TRIED + 1))}
    many = {"LAST": TRIED, "BEYOND": TRIED + 1}
    shut = Shut(address(1), watchers["BEHIND"].port)
    with tempfile.NamedTemporaryFile("w", suffix=".hosts") as file:
        for title in watchers:
            file.write("".join(f"{address(it + 1)} {title.lower()}.test\n" for it in range(many.get(title, 2))))
        file.flush()
        own = ["unshare", "--mount", "sh", "-c", 'mount --bind "$0" /etc/hosts && exec "$@"', file.name]
        with Server([*own, given.program], *(f"{title}={title.lower()}.test:{it.port}" for title, it in watchers.items())) as server:
            try_reports(server, watchers, results)
    shut.listener.close()
    results.end()


if __name__ == "__main__":
    main()
