#!/usr/bin/env python3
"""Compares the numbers that `upsd serve` logs every ten minutes with what was asked, and with a start after a lost log.

    trials/ten_minutes.py [PROGRAM]      (default: crates/upsd/out/upsd)

The line is like

    serve: entries=20412 taken=3 workers=16 associations=1188 requests=40277 refusals=12 run=17 committed=20412 reports.W2=17

The clock of the server runs 100 times as fast, by `faketime` (Debian's package of that name, which is installed if it is missing),
so that ten minutes are six seconds. Clients create steps, some of them twice, over several associations of which some stay open;
a watcher that nobody listens for is subscribed to all steps. Then the server is killed and started again: the line of its start
has to have the next run, and as many requests. At last more steps are created, the server is killed at once, and its file alone
is started, as if the log were lost: the start has to show fewer requests than were answered, which is the sign that operators are
told to look for.

It prints a line for each check, and then `N passed, M failed`. The status is 1 if any failed.
"""

from __future__ import annotations

import os
import re
import shutil
import sys
import tempfile
from typing import Optional

sys.path.insert(0, os.path.join(os.path.dirname(os.path.dirname(os.path.abspath(__file__))), "check/lib"))
from machine import described, free_port, holds, install
from peer import GLOBAL
from results import Results
from stored import Client, Stored, a_step_of

FAST = 100  # how many times as fast the clock of the server runs
LIMIT = 30.0  # seconds in which a line of ten minutes has to come
STEPS, TWICE, OPEN = 12, 3, 2  # steps that are created, how many of them twice, and associations that stay open
NUMBERS = re.compile(r"serve: entries=.*")
BEGINS = re.compile(r"store: run (\d+) begins with (\d+) requests?\b")


def numbers_in(line: str) -> dict[str, str]:
    """Returns the numbers of a line, by name."""
    return dict(re.findall(r"([\w.]+)=(\d+)", line))


def ask_for_all(server: Stored) -> list[Client]:
    """Subscribes the watcher and creates the steps, each over an association of its own, and returns those that stay open. One
    association more is cut off."""
    Client(server.port).socket.close()
    first = Client(server.port)
    first.subscribe(GLOBAL, b"W2", b"FALSE")
    clients = [first]
    for at in range(STEPS):
        client = Client(server.port)
        client.create(b"1.2.3.%d" % at, a_step_of(b"P"))
        if at < TWICE:
            client.create(b"1.2.3.%d" % at, a_step_of(b"P"))
        clients.append(client)
    for client in clients[OPEN:]:
        client.release()
    return clients[:OPEN]


def told_after(server: Stored, seen: int) -> Optional[str]:
    """Returns the first line of numbers behind those that were seen, or None if none comes in time."""
    holds(lambda: len(server.lines("serve: entries=")) > seen, LIMIT)
    return next(iter(server.lines("serve: entries=")[seen:]), None)


def begun(server: Stored) -> tuple[int, int]:
    """Returns the run and the requests that a start tells."""
    holds(lambda: server.lines("begins with"), 5)
    found = [BEGINS.search(line) for line in server.log]
    run, requests = next(it.groups() for it in found if it)
    return int(run), int(requests)


def compare_numbers(server: Stored, results: Results) -> dict[str, str]:
    """Compares a line of ten minutes with what was asked, and returns its numbers."""
    run, requests = begun(server)
    results.tell("a new store begins with no requests", None if (run, requests) == (1, 0) else f"run {run}, {requests} requests")
    stay = ask_for_all(server)
    line = told_after(server, len(server.lines("serve: entries=")))
    numbers = numbers_in(line or "")
    accepted = STEPS + 1  # and the subscription
    wanted = {"entries": accepted, "committed": accepted, "taken": OPEN, "workers": 16, "associations": STEPS + 2,
              "requests": STEPS + TWICE + 1, "refusals": TWICE, "run": run, "reports.W2": STEPS}
    for name, number in wanted.items():
        results.tell(f"{name} is {number}", None if numbers.get(name) == str(number) else f"{numbers.get(name)}: {line}")
    results.tell("no other number", None if not set(numbers) - set(wanted) else f"{set(numbers) - set(wanted)}")
    for client in stay:
        client.release()
    return numbers


def compare_starts(program: list[str], folder: str, file: str, options: list[str], numbers: dict[str, str], results: Results) -> None:
    """Compares what a next start tells with the numbers of the last run, and with what is answered after it if the log is lost."""
    bare = os.path.join(folder, "bare")
    committed, run = int(numbers.get("committed", 0)), int(numbers.get("run", 0))
    with Stored(program, file, *options) as server:
        results.tell("a start has the next run and all that was committed",
                     None if (told := begun(server)) == (run + 1, committed) else f"{told}, after run {run} with {committed}")
        client = Client(server.port)
        answered = sum(client.create(b"1.2.4.%d" % at, a_step_of(b"P")) == 0 for at in range(STEPS))
        server.kill()
    shutil.copy(file, bare)
    with Stored(program, bare, *options) as server:
        results.tell("a start without the log has fewer requests than were answered",
                     None if (told := begun(server))[1] < committed + answered else f"{told}, and {committed + answered}")


def main() -> None:
    asked = described(__doc__, "?")
    program, results = [os.path.abspath(asked.parse_args().program)], Results()
    install({"faketime": "faketime"})
    with tempfile.TemporaryDirectory() as folder:
        file, options = os.path.join(folder, "store"), [f"W2=127.0.0.1:{free_port()}"]
        with Stored(["faketime", "-f", f"+0 x{FAST}", *program], file, *options) as server:
            numbers = compare_numbers(server, results)
        compare_starts(program, folder, file, options, numbers, results)
    results.end()


if __name__ == "__main__":
    main()
