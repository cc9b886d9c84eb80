#!/usr/bin/env python3
"""Runs sixteen associations with one server at the same time, and cuts off twelve of them.

    check/many.py [PROGRAM] [--rounds 8] [--seed 1]      (default: crates/upsd/out/upsd)

In each round, sixteen associations with a new server work on three steps each: they create them, claim, set and complete one,
and cancel one. All send their bytes at the same time, in pieces of random length. Twelve stop at a random place: they send no
more and read on, or hang up, or reset the connection.

The four that are not cut off have to be answered as if each were alone, and those that read on as far as they went. After
that, an N-GET of each step of an association has to show its steps as they are after some number of its requests: no fewer
than were answered, no more than were sent whole, and none done by half. A C-FIND has to return each of these steps once, and
no other.

It prints how many associations and whole messages there were, and each fault; the status is 1 if there is one.
"""

from __future__ import annotations

import contextlib
import os
import random
import re
import socket
import sys
import threading
import time
from typing import IO, Optional

sys.path.insert(0, os.path.join(os.path.dirname(os.path.dirname(os.path.abspath(__file__))), "check/lib"))
import dicom
import rows
import runs
from machine import HERE, described
from peer import HANGS_UP, READS_ON, RESETS, Speaker

ASSOCIATIONS, GOOD = 16, 4
WAYS = (READS_ON, HANGS_UP, RESETS)
SEATS = ["--associations", str(ASSOCIATIONS)]
# in addition to the names of rows/courses.rows: an N-GET request for the state and for what was performed, the response to it
# if one of them is missing, and the data sets
MORE = {
    "GET_BOTH": '04 00 00000072 0000006e 01 03 00000000 04000000 60000000 00000300 1a000000 PUSH 00000001 02000000 1001 '
    '00001001 02000000 0200 00000008 02000000 0101 00000110 08000000 "1.2.3.4" 00 00000510 08000000 74000010 74001612',
    "GOT_PART": '04 00 0000006c 00000068 01 03 00000000 04000000 5a000000 00000200 1a000000 PUSH 00000001 02000000 1081 '
    '00002001 02000000 0200 00000008 02000000 0100 00000009 02000000 0100 00000010 08000000 "1.2.3.4" 00',
    "SCHEDULED": '04 00 00000018 00000014 01 02 74000010 0a000000 "SCHEDULED" 20',
    "IN_PROGRESS": '04 00 0000001a 00000016 01 02 74000010 0c000000 "IN" 20 "PROGRESS" 20',
    "IN_PROGRESS_PERFORMED": '04 00 00000056 00000052 01 02 74000010 0c000000 "IN" 20 "PROGRESS" 20 74001612 34000000 '
    'feff00e0 2c000000 40005040 0e000000 "20240229120100" 40005140 0e000000 "20240229120200"',
    "COMPLETED_PERFORMED": '04 00 00000054 00000050 01 02 74000010 0a000000 "COMPLETED" 20 74001612 34000000 '
    'feff00e0 2c000000 40005040 0e000000 "20240229120100" 40005140 0e000000 "20240229120200"',
}
# the number of a step, a request, its reply, and what an N-GET of both attributes then returns
REQUESTS = (
    (0, "CREATE STEP", "CREATED", "GOT_PART SCHEDULED"),
    (1, "CREATE STEP", "CREATED", "GOT_PART SCHEDULED"),
    (0, "ACTION 0100 TO_IN_PROGRESS", "ACTED 0000 ACTED_ON 0100", "GOT_PART IN_PROGRESS"),
    (0, "SET PERFORMED", "WAS_SET", "GOT IN_PROGRESS_PERFORMED"),
    (2, "CREATE STEP", "CREATED", "GOT_PART SCHEDULED"),
    (1, "ACTION_ON_1 0200 NOTHING_ON_1", "ACTED_ON_1 0000 ACTED_ON 0200", "GOT_PART CANCELED"),
    (0, "ACTION 0100 TO_COMPLETED", "ACTED 0000 ACTED_ON 0100", "GOT COMPLETED_PERFORMED"),
)
STEPS = 3
NAMES = dicom.stored() | rows.names_in(f"{HERE}/rows/courses.rows") | MORE


def spelled(words: str, association: int = 0, step: int = 0) -> bytes:
    """Returns the bytes of words that are about a step of an association."""
    number = STEPS * association + step
    return dicom.bytes_of(NAMES, words).replace(b"1.2.3.4", b"1.2.%d.%d" % (4 + number // 10, number % 10))


class Conversation(Speaker):
    """An association: the messages that it has to send, and the place up to which it sends them."""

    def __init__(self, number: int, chance: random.Random, is_good: bool) -> None:
        self.number, self.chance = number, random.Random(chance.random())
        self.messages = [spelled("PUSH_AND_PULL"), *(spelled(it[1], number, it[0]) for it in REQUESTS), spelled("RELEASE")]
        self.due = [spelled("TWO_ACCEPTED"), *(spelled(it[2], number, it[0]) for it in REQUESTS), spelled("RELEASED")]
        whole = b"".join(self.messages)
        way = READS_ON if is_good else chance.choice(WAYS)
        self.place = len(whole) if is_good else chance.randrange(len(whole))
        super().__init__(whole[:self.place], way)

    def talk(self, port: int, barrier: threading.Barrier) -> None:
        """Sends its bytes in pieces, and reads what is answered."""
        at = 0
        with runs.connected(port) as connection, contextlib.suppress(ConnectionError):
            barrier.wait()
            while at < len(self.said):
                count = self.chance.randrange(1, 200)
                connection.sendall(self.said[at:at + count])
                at += count
                time.sleep(self.chance.random() / 500)
            self.end(connection)

    def end(self, connection: socket.socket) -> None:
        """Ends it in its way. Before it hangs up or resets, it hears what has come."""
        if self.way != READS_ON:
            connection.setblocking(False)
            with contextlib.suppress(BlockingIOError):
                self.heard = connection.recv(65536)
        super().end(connection)

    def whole(self) -> int:
        """Returns how many of its messages were sent whole."""
        count, left = 0, self.place
        while count < len(self.messages) and left >= len(self.messages[count]):
            left -= len(self.messages[count])
            count += 1
        return count

    def acknowledged(self) -> int:
        """Returns how many of its messages were answered whole."""
        count, at = 0, 0
        while count < len(self.due) and self.heard.startswith(self.due[count], at):
            at += len(self.due[count])
            count += 1
        return count

    def states(self, done: int) -> list[bytes]:
        """Returns what an N-GET of each of its steps returns after `done` of its requests."""
        told = ["NOT_HELD"] * STEPS
        for step, _, _, then in REQUESTS[:done]:
            told[step] = then
        return [spelled(it, self.number, step) for step, it in enumerate(told)]

    def fault(self, told: list[bytes]) -> Optional[str]:
        """Returns what is wrong with what was answered, or with its steps in the end; None if nothing is."""
        if self.way == READS_ON and self.heard != b"".join(self.due[:self.whole()]):
            return f"{self.acknowledged()} of {self.whole()} messages are answered, and {self.heard!r}"
        if not b"".join(self.due).startswith(self.heard):
            return f"it is answered {self.heard!r}"
        done = next((it for it in range(len(REQUESTS) + 1) if self.states(it) == told), None)
        if done is None:
            return f"of its steps is told {told}"
        least, most = (min(max(it - 1, 0), len(REQUESTS)) for it in (self.acknowledged(), self.whole()))
        return None if least <= done <= most else f"{done} requests are done, {least} were answered, and {most} said"


def told_of(port: int, association: Conversation) -> list[bytes]:
    """Returns the answers to an N-GET of each step of an association."""
    told = []
    for step in range(STEPS):
        with runs.connected(port) as connection:
            asked = spelled("REQUEST GET_BOTH RELEASE", association.number, step)
            answer = runs.exchange(connection, asked)
            told.append(answer.removeprefix(spelled("ACCEPTED")).removesuffix(spelled("RELEASED")))
    return told


def found(port: int, associations: list[Conversation]) -> list[Optional[tuple[int, int]]]:
    """Returns the steps that a C-FIND finds, each as the number of its association and its own; None for any other match."""
    with runs.connected(port) as connection:
        answer = runs.exchange(connection, spelled("PUSH_AND_PULL FIND KEYS RELEASE"))
    answer = answer.removeprefix(spelled("TWO_ACCEPTED")).removesuffix(spelled("DONE 0000 RELEASED"))
    steps = {spelled("MATCH STEP_MATCH", it.number, step): (it.number, step) for it in associations for step in range(STEPS)}
    size = len(spelled("MATCH STEP_MATCH"))
    return [steps.get(answer[at:at + size]) for at in range(0, len(answer), size)]


def talk_at_once(port: int, associations: list[Conversation]) -> None:
    """Runs all associations at the same time, and waits until they end."""
    barrier = threading.Barrier(len(associations))
    talks = [threading.Thread(target=it.talk, args=(port, barrier)) for it in associations]
    for talk in talks:
        talk.start()
    for talk in talks:
        talk.join(runs.SECONDS)


def is_idle(log: IO[bytes], count: int) -> bool:
    """Waits until a log says how `count` associations ended; returns False if it never does."""
    end = time.monotonic() + runs.SECONDS
    while time.monotonic() < end:
        log.seek(0)
        if len(re.findall(rb" serve: \w+ #.* requests, ", log.read())) >= count:
            return True
        time.sleep(0.02)
    return False


def tried(program: str, chance: random.Random) -> tuple[list[Conversation], list[str]]:
    """Runs a round, and returns its associations and the faults."""
    associations = [Conversation(it, chance, it < GOOD) for it in range(ASSOCIATIONS)]
    with runs.logging(program, SEATS) as (log, server):
        talk_at_once(server.port, associations)
        if not is_idle(log, ASSOCIATIONS):
            return associations, ["the log does not tell how each association ended"]
        told = [told_of(server.port, it) for it in associations]
        matches = found(server.port, associations)
    faults: list[str] = []
    held: list[Optional[tuple[int, int]]] = []
    for it, tale in zip(associations, told):
        if why := it.fault(tale):
            faults.append(f"association {it.number}, which {it.way} at {it.place}: {why}")
        held += [(it.number, step) for step in range(STEPS) if tale[step] != spelled("NOT_HELD", it.number, step)]
    if None in matches or sorted(filter(None, matches)) != held:
        faults.append(f"a C-FIND tells {matches}, and held are {held}")
    return associations, faults


def main() -> None:
    asked = described(__doc__, "?")
    asked.add_argument("--rounds", type=int, default=8, help="how many servers are tried (default: %(default)s)")
    asked.add_argument("--seed", type=int, default=1, help="where the associations are cut off (default: %(default)s)")
    given = asked.parse_args()
    chance, whole, count = random.Random(given.seed), 0, 0
    faults: list[str] = []
    for number in range(1, given.rounds + 1):
        associations, more = tried(os.path.abspath(given.program), chance)
        whole += sum(it.whole() == len(it.messages) for it in associations)
        count += sum(it.whole() for it in associations)
        faults += [f"round {number}: {it}" for it in more]
    for fault in faults:
        print(fault)
    total = given.rounds * ASSOCIATIONS
    print(f"{total} associations, {whole} of them whole, with {count} whole messages, {len(faults)} faults")
    sys.exit(1 if faults else 0)


if __name__ == "__main__":
    main()
