#!/usr/bin/env python3
"""Has eight workstations share the steps of one server, and checks what a server does by itself, and what it leaves at its end.

    check/sharing.py [PROGRAM] [--endings ENDINGS] [--steps 100] [--seed 1]
                                     (default: crates/upsd/out/upsd, and crates/endings/out/endings)

Each of eight workstations creates each step, claims it, sets what it has performed, finds it, finishes it and shows it: some
5,600 requests. Each answer has to have a status that docs/use/conformance.md allows if another workstation may have been first.
For each step, one creation and one claim are accepted, and only the workstation that claimed it sets and finishes it. In the
end an N-GET has to return each step like that, and C-FINDs of all and of each state each step once, in the order of creation.

A server with one worker then has three peers that connect and say nothing, before one that subscribes W1, which does not listen
yet, and creates a step. That one has to be answered as if it were alone. Once W1 listens, it has to hear one report, and once
the step is canceled and no longer kept, it has to be gone.

If an association has the only worker and three connections wait, the log has to say how many.

The program `endings` runs a server that ends: with one worker for two associations, with two workers for one each, and with one
worker again and a ledger. In the first association W1 is subscribed to all steps and a step is created, of which W1 hears; in
the second one the subscription ends and the step is canceled, and it is no longer kept. Once the desk is closed, the history
has to have, in order, the requests of these associations by the passes of the workers, the acknowledgement by that of the
deliverer, and the sweep by that of the sweeper. The ledger has to have the records of all of them.

A line reports each of these, and the last line is `N passed, M failed`. The status is 1 if one failed.
"""

from __future__ import annotations

import collections
import concurrent.futures
import os
import random
import socket
import subprocess
import sys
import threading
import time
from typing import Optional

sys.path.insert(0, os.path.join(os.path.dirname(os.path.dirname(os.path.abspath(__file__))), "check/lib"))
import dicom
import rows
import runs
from dicom import act, create, data, even, find, get, items, set_attributes, step
from ledger import (CANCELED, CANCELLATION_TIME, COMPLETED, IN_PROGRESS, LABEL, PERFORMED, PROGRESS, SOP_INSTANCE, STATE,
                    TRANSACTION, VRS, Association, Fault, read)
from machine import HERE, described
from results import Results
from server import Server

WORKSTATIONS, PUSH_ON, PULL_ON = 8, 1, 3
MOMENT = b"20240229120000"
# the statuses of a request: if it is accepted, and if another workstation was first
DUE = {
    "create": (0x0000, 0x0111),
    "claim": (0x0000, 0xC302, 0xC300),
    "set": (0x0000, 0xC301, 0xC300),
    "finish": (0x0000, 0xC301),
}


def last_state(number: int) -> bytes:
    """Returns the state in which a step is left: every tenth stays in progress, and the others are completed or canceled."""
    if number % 10 == 0:
        return IN_PROGRESS
    return COMPLETED if number % 2 else CANCELED


def uid_of(number: int) -> bytes:
    return b"1.2.3.%d" % (number + 1)


def texts(*elements: tuple[tuple[int, int], bytes, bytes]) -> bytes:
    """Returns a data set of these elements, each with its value representation."""
    return b"".join(data(True, *tag, vr, value) for tag, vr, value in sorted(elements))


class Workstation:
    """An association with requests for each step, and the steps for which they were accepted, by kind of request."""

    def __init__(self, port: int, number: int) -> None:
        self.association = Association(port, True, b"PERFORM%d" % number, runs.SECONDS)
        self.label = b"READ BY %d " % number
        self.transaction = TRANSACTION, b"UI", even(b"2.%d" % (number + 10))
        self.accepted: dict[str, set[int]] = collections.defaultdict(set)
        self.asked = 0

    def ask(self, verb: str, number: int, spelled: bytes) -> None:
        """Sends a request about a step, and records whether it was accepted."""
        self.association.socket.sendall(spelled)
        status = self.association.reply().status
        self.asked += 1
        if status not in DUE[verb]:
            raise Fault(f"{verb} of step {number}: the status is {status:04X}")
        if status == 0x0000:
            self.accepted[verb].add(number)

    def message(self) -> int:
        """Returns the next Message ID."""
        self.association.number = self.association.number % 65535 + 1
        return self.association.number

    def performs(self, number: int) -> bytes:
        """Returns what is set of a step before it gets its last state."""
        if last_state(number) == CANCELED:
            item = texts((CANCELLATION_TIME, b"DT", MOMENT))
            return texts(self.transaction, (PROGRESS, b"SQ", items([item])), (LABEL, b"LO", self.label))
        item = texts(((0x0040, 0x4050), b"DT", MOMENT), ((0x0040, 0x4051), b"DT", MOMENT))
        return texts(self.transaction, (LABEL, b"LO", self.label), (PERFORMED, b"SQ", items([item])))

    def change(self, verb: str, number: int, state: bytes) -> None:
        change = texts(self.transaction, (STATE, b"CS", state))
        self.ask(verb, number, act(PULL_ON, self.message(), uid_of(number), 1, change))

    def work(self, number: int) -> None:
        """Does with a step all that a workstation does."""
        uid = uid_of(number)
        self.ask("create", number, create(PUSH_ON, self.message(), uid, step(True)))
        self.change("claim", number, IN_PROGRESS)
        self.shown(number)
        self.ask("set", number, set_attributes(PULL_ON, self.message(), uid, self.performs(number)))
        self.found(STATE, IN_PROGRESS)
        if last_state(number) != IN_PROGRESS:
            self.change("finish", number, last_state(number))
        self.shown(number)

    def shown(self, number: int) -> dict[tuple[int, int], tuple[bytes, bytes]]:
        """Returns the attributes of a step, by an N-GET."""
        self.association.socket.sendall(get(PUSH_ON, self.message(), uid_of(number)))
        reply = self.association.reply()
        self.asked += 1
        if reply.status != 0x0000 or reply.data_set is None:
            raise Fault(f"an N-GET of step {number}: the status is {reply.status:04X}")
        return read(True, reply.data_set)

    def found(self, key: tuple[int, int], value: bytes) -> list[bytes]:
        """Returns the UIDs of the steps that a C-FIND finds."""
        keys = texts((SOP_INSTANCE, b"UI", b""), (key, VRS[key], value))
        self.association.socket.sendall(find(PULL_ON, self.message(), keys))
        self.asked += 1
        uids = []
        while (reply := self.association.reply()).status == 0xFF00:
            uids.append(read(True, reply.data_set or b"")[SOP_INSTANCE][1].rstrip(b"\0"))
        if reply.status != 0x0000:
            raise Fault(f"a C-FIND: the status is {reply.status:04X}")
        return uids


def at_once(workstations: list[Workstation], steps: int, chance: random.Random) -> list[str]:
    """Has all workstations work at the same time, and returns their faults."""
    barrier, faults = threading.Barrier(len(workstations)), []

    def run(it: Workstation, pause: float) -> None:
        barrier.wait()
        try:
            for number in range(steps):
                it.work(number)
                if chance.random() < pause:
                    time.sleep(0.001)
        except (Fault, OSError, EOFError, AssertionError, KeyError) as fault:
            faults.append(repr(fault))

    threads = [threading.Thread(target=run, args=(it, number / 10)) for number, it in enumerate(workstations)]
    for it in threads:
        it.start()
    for it in threads:
        it.join(4 * runs.SECONDS)
    return faults + ["a workstation doesn't come to its end" for it in threads if it.is_alive()]


def owner_of(workstations: list[Workstation], number: int) -> Workstation:
    """Returns who claimed a step. Raises Fault unless one created it and one claimed it, who alone set it and, if due, finished it."""
    by = {verb: [it for it in workstations if number in it.accepted[verb]] for verb in DUE}
    wanted = 0 if last_state(number) == IN_PROGRESS else 1
    if len(by["create"]) != 1 or len(by["claim"]) != 1 or by["set"] != by["claim"] or by["finish"] != by["claim"] * wanted:
        raise Fault(f"step {number}: accepted were {({verb: len(its) for verb, its in by.items()})}")
    return by["claim"][0]


def audit(workstations: list[Workstation], steps: int) -> None:
    """Compares all steps, as the server shows them, with what was accepted."""
    for number in range(steps):
        owner, told = owner_of(workstations, number), workstations[0].shown(number)
        if told[STATE][1] != last_state(number) or told[LABEL][1] != owner.label:
            raise Fault(f"step {number} is {told[STATE][1]!r}, {told[LABEL][1]!r}, and not {last_state(number)!r}, {owner.label!r}")
    # each workstation goes from one step to the next, so they are created in this order, by whichever workstation
    if workstations[0].found(LABEL, b"READ BY * ") != [uid_of(it) for it in range(steps)]:
        raise Fault("a C-FIND of all does not tell each step once, in the order of their creation")
    for state in (IN_PROGRESS, COMPLETED, CANCELED):
        if workstations[0].found(STATE, state) != [uid_of(it) for it in range(steps) if last_state(it) == state]:
            raise Fault(f"a C-FIND of {state!r} does not tell the steps in it, in the order of their creation")


def tried_sharing(program: str, steps: int, chance: random.Random) -> tuple[str, Optional[str]]:
    """Has workstations share steps, and returns a line with the number of requests, and the first fault."""
    with runs.logging(program, ["--associations", str(WORKSTATIONS)]) as (_, server):
        workstations = [Workstation(server.port, it) for it in range(WORKSTATIONS)]
        faults = at_once(workstations, steps, chance)
        try:
            if not faults:
                audit(workstations, steps)
        except (Fault, OSError, EOFError, AssertionError, KeyError) as fault:
            faults.append(str(fault))
        asked = sum(it.asked for it in workstations)
        for it in workstations:
            it.association.release()
    return f"{WORKSTATIONS} workstations do the same with {steps} steps at the same time, by {asked} requests", faults[0] if faults else None


class Alone:
    """A server with one worker, whose watcher W1 does not listen yet; and some peers that say nothing."""

    def __init__(self, port: int, watcher: socket.socket, silent: int) -> None:
        self.port, self.watcher = port, watcher
        self.names = dicom.stored() | rows.names_in(f"{HERE}/rows/courses.rows") | rows.names_in(f"{HERE}/rows/deliveries.rows")
        self.silent = [runs.connected(port) for _ in range(silent)]

    def spelled(self, words: str) -> bytes:
        return dicom.bytes_of(self.names, words)

    def answered(self, words: str, due: str) -> bool:
        """Returns whether an association is answered as expected."""
        with runs.connected(self.port) as connection:
            return runs.exchange(connection, self.spelled(words)) == self.spelled(due)

    def subscribes(self) -> Optional[str]:
        """Subscribes W1 and creates a step, as a peer after the silent ones."""
        asked = "PUSH_AND_WATCH GLOBAL_ACTION 0300 TO_WATCH CREATE STEP RELEASE"
        due = "TWO_ACCEPTED GLOBAL_ACTED 0000 GLOBAL_ACTED_ON 0300 CREATED RELEASED"
        return None if self.answered(asked, due) else "it is answered something else"

    def reports(self) -> Optional[str]:
        """Lets W1 listen, and checks that it hears of the step."""
        self.watcher.listen()
        self.watcher.settimeout(runs.SECONDS)
        with self.watcher.accept()[0] as connection:
            connection.settimeout(runs.SECONDS)
            heard = runs.exchange(connection, self.spelled("AGREED FIRST_TAKEN RELEASED"))
        return None if heard == self.spelled("PROPOSED FIRST_REPORT RELEASE") else f"it hears {heard!r}"

    def sweeps(self) -> Optional[str]:
        """Cancels the step, and checks that it goes once it is no longer kept."""
        if not self.answered("REQUEST ACTION_ON_1 0200 NOTHING_ON_1 RELEASE", "ACCEPTED ACTED_ON_1 0000 ACTED_ON 0200 RELEASED"):
            return "it is not canceled"
        end = time.monotonic() + runs.SECONDS
        while time.monotonic() < end:
            if self.answered("REQUEST GET RELEASE", "ACCEPTED NOT_HELD RELEASED"):
                return None
            time.sleep(0.1)
        return "it is still there"


def try_alone(program: str, results: Results) -> None:
    """Reports what a server does by itself."""
    with socket.socket() as watcher:
        watcher.bind(("127.0.0.1", 0))
        words = ["--associations", "1", "--keep", "1", f"W1=127.0.0.1:{watcher.getsockname()[1]}"]
        with runs.logging(program, words) as (_, started):
            server = Alone(started.port, watcher, 3)
            results.tell("a peer behind three that say nothing is answered", server.subscribes())
            results.tell("a watcher that listens late hears one report", server.reports())
            results.tell("a canceled step is removed once it is no longer kept", server.sweeps())


def tried_queue(program: str) -> Optional[str]:
    """Checks that the log says how many connections wait while an association has the only worker."""
    wanted, end = b"each of 1 workers has an association, 3 connections wait", time.monotonic() + runs.SECONDS
    with runs.logging(program, ["--associations", "1"]) as (log, server):
        connections = [runs.connected(server.port) for _ in range(4)]
        connections[0].sendall(dicom.bytes_of(dicom.stored(), "REQUEST"))
        told = b""
        while wanted not in told and time.monotonic() < end:
            time.sleep(0.1)
            log.seek(0)
            told = log.read()
    return None if wanted in told else f"the log has {told!r}"


class Ending:
    """A server that ends, by its port, and W1, which listens."""

    ROUNDS = 8  # of the sweeper and of the deliverer, one per second

    def __init__(self, port: int, watcher: socket.socket) -> None:
        self.alone = Alone(port, watcher, 0)

    def serves(self) -> Optional[str]:
        """Runs two associations, and has W1 hear of the first."""
        fault = self.alone.subscribes() or self.alone.reports()
        if fault:
            return fault
        asked = "PUSH_AND_WATCH GLOBAL_ACTION 0400 WATCHER ACTION_ON_1 0200 NOTHING_ON_1 RELEASE"
        due = "TWO_ACCEPTED GLOBAL_ACTED 0000 GLOBAL_ACTED_ON 0400 ACTED_ON_1 0000 ACTED_ON 0200 RELEASED"
        return None if self.alone.answered(asked, due) else "the second association is answered something else"


def history_of(first: int, second: int, deliverer: int) -> list[str]:
    """Returns the history that a server leaves, by the numbers of the passes of the first and the second association, and of
    the deliverer."""
    return [
        f"{first} SCHED1 subscribe",
        f"{first} SCHED1 create",
        f"{deliverer} W1 ack 1",
        f"{second} SCHED1 unsubscribe",
        f"{second} SCHED1 ask to cancel",
        f"{deliverer + 1} UPSD sweep",
    ]


def kept_of(history: list[str]) -> list[str]:
    """Returns what a server tells of a ledger that has the records of the whole history."""
    count = len(history)
    return [
        f"history: {count} entries, of which a pass has seen {count}",
        f"committed: {count} entries",
        f"ledger: {count} records, those of the first entries",
    ]


def tried_ending(endings: str, workers: int, associations: int, keeps: bool = False) -> Optional[str]:
    """Checks what a server leaves that has that many workers, each with that many associations, and maybe a ledger."""
    with socket.socket() as watcher:
        watcher.bind(("127.0.0.1", 0))
        watcher.listen()
        words = ["--keep", "0", "--associations", str(workers), f"W1=127.0.0.1:{watcher.getsockname()[1]}"]
        words += ["--store", "MEMORY"] if keeps else []
        with Server([endings, str(associations), str(Ending.ROUNDS)], *words, error=subprocess.DEVNULL) as server:
            guard = threading.Timer(runs.SECONDS, server.process.kill)
            guard.start()
            fault = Ending(server.port, watcher).serves()
            told, status = server.output.read().splitlines(), server.process.wait()
            guard.cancel()
    histories = [history_of(*order, workers + 1) for order in ([(1, 1)] if workers == 1 else [(1, 2), (2, 1)])]
    if fault or told in [it + (kept_of(it) if keeps else []) for it in histories] and status == 0:
        return fault
    return f"it ends with {status}, having told {told}"


def try_endings(endings: str, results: Results) -> None:
    """Reports what three servers that run at the same time leave at their ends."""
    with concurrent.futures.ThreadPoolExecutor() as pool:
        one = pool.submit(tried_ending, endings, 1, 2)
        two = pool.submit(tried_ending, endings, 2, 1)
        kept = pool.submit(tried_ending, endings, 1, 2, True)
        results.tell("a server that ends leaves what its worker, its deliverer and its sweeper asked", one.result())
        results.tell("a server that ends leaves what its two workers, its deliverer and its sweeper asked", two.result())
        results.tell("the ledger of a server that ends has the records of its whole history", kept.result())


def main() -> None:
    asked = described(__doc__, "?")
    asked.add_argument("--endings", default="crates/endings/out/endings", help="that of servers that end (default: %(default)s)")
    asked.add_argument("--steps", type=int, default=100, help="how many steps there are (default: %(default)s)")
    asked.add_argument("--seed", type=int, default=1, help="when the workstations pause (default: %(default)s)")
    given = asked.parse_args()
    program, results = os.path.abspath(given.program), Results()
    results.tell(*tried_sharing(program, given.steps, random.Random(given.seed)))
    try_alone(program, results)
    results.tell("the log tells how many connections wait for the only worker", tried_queue(program))
    try_endings(os.path.abspath(given.endings), results)
    results.end()


if __name__ == "__main__":
    main()
