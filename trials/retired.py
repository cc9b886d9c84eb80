#!/usr/bin/env python3
"""Tries what becomes of the reports for a watcher that is gone, or that stays away for long.

    trials/retired.py [PROGRAM] [--only TRIAL..]      (default: crates/upsd/out/upsd)

W1 and W2 subscribe to all steps; W2 listens, W1 does not.

    retired    2,000 steps are created and canceled, and removed; then the server is started again with `W1=-`. W1 must have no
               report that waits, and the log say of all of them that they were given up; W2 must have got each of its own once,
               also those of a step that comes later; a compaction must leave no request of the steps but the rows of their UIDs,
               of which there were the creations before; and an address for W1 must bring none of the old ones
    limit      500 steps are created with `--waiting 100`. Within two minutes and a half 100 reports must wait for W1 at most, and
               the log say that the others were given up; then W1 listens, and must get those of the newest 100 steps, in order

It ends by itself, in five minutes. It prints each trial that fails, and in the end how many passed. It ends with status 1 if
any failed.
"""

from __future__ import annotations

import os
import re
import sys
import time
from typing import Optional

sys.path.insert(0, os.path.join(os.path.dirname(os.path.dirname(os.path.abspath(__file__))), "check/lib"))
from listeners import Counting
from machine import described, free_port, holds
from peer import GLOBAL
from results import Results
from stored import Client, Row, Stored, a_step_of, compacted, copy_of, folder_for, rows_of, tried

STEPS, MANY = 500, 2_000
LIMIT = 100
SWEPT = 30.0  # seconds in which canceled steps are removed
GIVEN_UP = 150.0  # seconds in which the log tells of what was given up: what waits is counted each 64 s, and told of each minute
DELIVERED = 90.0  # seconds in which a watcher has its reports: it may be passed over for 60
TITLE, OPERATION = 2, 3  # columns of a row


def uid_of(number: int) -> bytes:
    return b"1.2.3.%d" % (number + 1)


def watch(server: Stored) -> Client:
    """Subscribes both watchers to all steps."""
    client = Client(server.port)
    statuses = [client.subscribe(GLOBAL, it, b"FALSE") for it in (b"W1", b"W2")]
    assert not any(statuses), statuses
    return client


def given_up(server: Stored) -> int:
    """Returns of how many reports for W1 the log says that they were given up."""
    found = (re.search(r"serve: (\d+) reports for W1 were given up", line) for line in server.lines("WARN"))
    return sum(int(it.group(1)) for it in found if it)


def waits(metrics: str, watcher: str) -> Optional[int]:
    """Returns how many reports wait for a watcher, by the numbers of the server."""
    with open(metrics, encoding="ascii") as opened:
        found = re.search(rf'^upsd_reports_pending{{watcher="{watcher}"}} (\d+)', opened.read(), re.MULTILINE)
    return int(found.group(1)) if found else None


def operations(rows: list[Row]) -> list[object]:
    return [row[OPERATION] for row in rows]


def retired(program: list[str], folder: str, results: Results) -> None:
    file, metrics, port = os.path.join(folder, "retired"), os.path.join(folder, "numbers"), free_port()
    w2 = Counting()
    with Stored(program, file, "--keep", "0", f"W1=127.0.0.1:{port},lock", f"W2={w2.place}") as server:
        client = watch(server)
        for number in range(MANY):
            statuses = [client.create(uid_of(number), a_step_of(b"P")), client.cancel(uid_of(number))]
            assert not any(statuses), statuses
        client.release()
        results.tell("the other watcher gets its reports", None if holds(lambda: len(w2.came) == MANY, DELIVERED) else f"{len(w2.came)}")
        time.sleep(2)  # a sweep
    before = copy_of(file, folder, "before")
    come = compacted(program, before)
    kept = operations(rows_of(before)).count("create")
    results.tell("a compaction keeps what waits", None if come.status == 0 and kept == MANY else f"{come}, {kept} creations")
    with Stored(program, file, "--keep", "0", "--metrics", metrics, "W1=-,lock", f"W2={w2.place}") as server:
        came = sum(w2.came.values())
        is_told = holds(lambda: given_up(server) == MANY, GIVEN_UP)
        results.tell("the log tells of all that was given up", None if is_told else f"of {given_up(server)}")
        results.tell("nothing waits", None if holds(lambda: waits(metrics, "W1") == 0, SWEPT) else f"{waits(metrics, 'W1')} wait")
        client = Client(server.port)
        status = client.create(uid_of(MANY), a_step_of(b"P"))
        results.tell("a new step", None if status == 0 else f"{status:04X}")
        is_there = holds(lambda: sum(w2.came.values()) == came + 1, DELIVERED)
        results.tell("the other watcher gets that, and none twice", None if is_there else f"{sum(w2.came.values()) - came}")
        client.release()
        tried_to = server.lines("deliver W1")
        results.tell("W1 is never connected to", None if not tried_to else f"{tried_to[:2]}")
        time.sleep(2)
    come = compacted(program, file)
    left = operations(rows_of(file))
    is_small = come.status == 0 and left.count("reserve") == MANY and left.count("create") == 1
    results.tell("a compaction lets go what waited", None if is_small else f"{come}, {len(left)} rows, {left.count('create')} creations")
    w1 = Counting()
    with Stored(program, file, "--keep", "0", f"W1={w1.place},lock", f"W2={w2.place}") as server:
        client = Client(server.port)
        status = client.create(uid_of(MANY + 1), a_step_of(b"P"))
        has_come = holds(lambda: uid_of(MANY + 1) in w1.came, DELIVERED)
        old = [it for it in w1.came if it not in (uid_of(MANY), uid_of(MANY + 1))]
        results.tell("with an address it is a watcher again", None if status == 0 and has_come and not old else f"{status:04X}, {len(w1.came)} came, {len(old)} old")
        client.release()


def limit(program: list[str], folder: str, results: Results) -> None:
    file, metrics, port = os.path.join(folder, "limit"), os.path.join(folder, "limited"), free_port()
    w2 = Counting()
    words = ("--keep", "86400", "--waiting", str(LIMIT), "--metrics", metrics, f"W1=127.0.0.1:{port}", f"W2={w2.place}")
    with Stored(program, file, *words) as server:
        client = watch(server)
        for number in range(STEPS):
            assert not client.create(uid_of(number), a_step_of(b"P"))
        client.release()  # before it is silent for too long
        is_told = holds(lambda: given_up(server) == STEPS - LIMIT, GIVEN_UP)
        results.tell("the log tells what was given up", None if is_told else f"of {given_up(server)}")
        results.tell("no more than the limit wait", None if holds(lambda: waits(metrics, "W1") == LIMIT, SWEPT) else f"{waits(metrics, 'W1')}")
        w1 = Counting(port)
        has_all = holds(lambda: len(w1.came) >= LIMIT, DELIVERED)
        newest = [uid_of(it) for it in range(STEPS - LIMIT, STEPS)]
        results.tell("it gets the newest, in order", None if has_all and w1.order == newest else f"{len(w1.order)}: {w1.order[:3]}")
        once = set(w2.came.values()) == {1} and len(w2.came) == STEPS
        results.tell("the other watcher gets each report once", None if once else f"{len(w2.came)}, {max(w2.came.values(), default=0)} times")


TRIALS = {"retired": retired, "limit": limit}


def main() -> None:
    parser = described(__doc__, "?")
    parser.add_argument("--only", nargs="*", choices=tuple(TRIALS), default=tuple(TRIALS), metavar="TRIAL", help="these trials alone")
    given, results = parser.parse_args(), Results()
    for name in given.only:
        with folder_for(None) as folder:
            results.tell(name, tried(run, TRIALS[name], [given.program], folder, results))
    results.end("watchers that are gone")


def run(trial: object, program: list[str], folder: str, results: Results) -> Optional[str]:
    """Runs a trial, which tells its results."""
    assert callable(trial)
    trial(program, folder, results)
    return None


if __name__ == "__main__":
    main()
