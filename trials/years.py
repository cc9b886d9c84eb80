#!/usr/bin/env python3
"""Asks `upsd serve` as much as years bring, and checks its memory, its answers and its reports.

    trials/years.py [PROGRAM] [--entries 3000000] [--rate 10000] [--longest 250] [--store]      (default: crates/upsd/out/upsd)

Four stations take steps through their lives, each over one association after the other. With each turn a station sends at once the
creation of a step, the claim and 20 N-SETs of the one of 16 turns before, and 20 more and the completion of the one of 32 turns
before; every fourth N-SET tells of progress. A second after its completion a step is removed (`--keep 1`). Twelve steps are held
all the time. Eight are in progress, two for each station, which changes the readiness of one with each turn, and that of the other
with each sixteenth; nobody changes the other four.

EVERY is subscribed to all steps, SINGLE to each fourth one, by a Deletion Lock that ends after the completion; both answer each
report at once. AWAY is subscribed to the steps that are held, and to 2,000 others of the first twentieth of the way, late in their
lives. Its port refuses connections until the stations have ended; then it listens.

The stations go on until so many requests (--entries) are accepted, of theirs and acknowledgements of the two watchers; they wait
while a watcher is 400 reports of progress behind. The server has the environment that its unit gives it. The following has to
hold:

    requests   each one is accepted
    memory     the most that is resident in the last tenth of the way is at most 1.2 times the most around the end of the first
               one (from a twentieth before it to a twentieth behind), and 200 bytes for each step since, whose UID stays used; it
               is told and not judged below 100,000 requests
    N-GET      takes 250 ms at most (--longest) on an association that asks for a step that is held every few milliseconds, and for
               nothing else but a C-ECHO, which the service does not see: what that takes is told, since a busy machine delays both
    EVERY, SINGLE  have each progress of their steps and the completion once and in order, with the content of the request. The two
               State Reports before may be missing, since a later one supersedes them. The first report of an association may be the
               last one before, whose acknowledgement was lost; how often is told
    AWAY       has of the steps that were removed each progress since it was subscribed and the completion, and of those held each
               progress and the last State Report, once and in order, and nothing else
    later      what is set of the steps held after that is told to EVERY and AWAY too
    UIDs       an N-CREATE of a step that was removed is answered 0111, and an N-GET of it C307, for the first 100 and for 400 others
    worklist   a C-FIND finds the steps that are held, as they are, and no other
    log        it has no error, tells of no lack of memory, and that AWAY was away and is back
    restart    with --store the server is killed in the end, and started on its store as it is, and then with --compact: the worklist
               is the same, the UIDs stay used, and it takes no more memory than the server did in the last tenth and after

It ends by itself; 3,000,000 requests take some minutes. It prints a line for each tenth of the way and for each check, and then
`years: N passed, M failed`. The status is 1 if any failed.
"""

from __future__ import annotations

import argparse
import contextlib
import functools
import multiprocessing
import os
import random
import re
import select
import socket
import statistics
import subprocess
import sys
import tempfile
import time
from collections.abc import Callable, Iterable, Iterator
from multiprocessing.connection import Connection
from multiprocessing.sharedctypes import RawArray, RawValue
from typing import Any, Optional

sys.path.insert(0, os.path.join(os.path.dirname(os.path.dirname(os.path.abspath(__file__))), "check/lib"))
from dicom import act, create, data, find, items, set_attributes
from ledger import LABEL, PERFORMED, PROGRESS, SOP_INSTANCE, STATE, TRANSACTION, Fault
from listeners import Incoming
from machine import described, holds, pid_of, resident
from peer import GLOBAL, PULL_ON, PUSH_ON, a_step, claim, subscribe, told, unsubscribe
from results import Results
from server import Server, as_service
from stored import FAULTS, READINESS, READY, STATE_REPORT, WAITING, Client, text_in

KEEP = 1  # seconds
STATIONS, TURNS, AHEAD = 4, 200, 16  # stations, the turns of each over an association, and those between two parts of a life
OFTEN, STILL = (1, 16), 4  # after how many lives a station changes each of its steps that are held, and how many nobody changes
BUSY, HELD = len(OFTEN), STATIONS * len(OFTEN) + STILL
SETS, HALF, TOLD, FIRST = 40, 20, 4, 3  # N-SETs of a life, and of its second part, every so manieth of progress; those of a step held at first
EVERY, SINGLE, AWAY = b"EVERY", b"SINGLE", b"AWAY"
FOURTH, WATCHED, LATE = 4, 2_000, 28  # SINGLE has every so manieth step; AWAY so many at most, after that many N-SETs
BEHIND, PATIENCE = 400, 60.0  # reports of progress that a watcher may be behind, and the seconds after which it is given up
BACK, QUIET = 120.0, 3.0  # seconds in which AWAY is tried again, and without a report after which none is on its way
GROWTH, USED, JUDGED = 1.2, 200, 100_000  # of memory: the factor, bytes for a UID, and how many requests it takes
PAUSE, LOOKS = 0.005, 50_000  # seconds between two N-GETs, and how many an association has
SAMPLE = 500  # UIDs that are tried again
PLACE = b"1.2.100.10000000"  # the UID of a life that is spelled; each other is as long
HOLDER = b"2.25.1"
TAKEN = 0x0111


def uid_of(station: int, number: int) -> bytes:
    return b"1.2.%d.%d" % (100 + station, 10_000_000 + number)


def held_uid(number: int) -> bytes:
    return b"1.2.99.%d" % number


def is_held(uid: bytes) -> bool:
    return uid.startswith(b"1.2.99.")


# requests and reports

def progress(number: int) -> bytes:
    return data(True, *PROGRESS, b"SQ", items([told(0x0074, 0x1004, b"DS", b"%d" % number)]))


def shown(state: bytes, readiness: bytes = READY) -> bytes:
    """Returns what a State Report tells."""
    return told(*READINESS, b"CS", readiness) + told(*STATE, b"CS", state)


def change(uid: bytes, data_set: bytes) -> bytes:
    """Returns an N-SET of the holder."""
    return set_attributes(PULL_ON, 1, uid, told(*TRANSACTION, b"UI", HOLDER) + data_set)


def work_on(uid: bytes, number: int) -> bytes:
    """Returns the N-SET of a life with that number; the last one has what the completion needs."""
    done = told(0x0040, 0x4050, b"DT", b"20240229120100") + told(0x0040, 0x4051, b"DT", b"20240229120200")
    ends = data(True, *PERFORMED, b"SQ", items([done])) if number == SETS else b""
    return change(uid, (progress(number) if number % TOLD == 0 else b"") + told(*LABEL, b"LO", b"READ %d" % number) + ends)


def completion(uid: bytes) -> bytes:
    return act(PULL_ON, 1, uid, 1, told(*TRANSACTION, b"UI", HOLDER) + told(*STATE, b"CS", b"COMPLETED"))


@functools.cache
def parts(is_single: bool, is_late: bool) -> list[tuple[bytes, int]]:
    """Returns the requests of the life of the step PLACE in three parts, each with their number; SINGLE or AWAY may watch it."""
    begins, ends = [create(PUSH_ON, 1, PLACE, a_step(b"YEARS"))], [work_on(PLACE, it) for it in range(HALF + 1, SETS + 1)] + [completion(PLACE)]
    if is_late:
        ends.insert(LATE - HALF, subscribe(PLACE, AWAY, b"FALSE"))
    if is_single:
        begins.append(subscribe(PLACE, SINGLE, b"TRUE"))
        ends.append(unsubscribe(PLACE, SINGLE))
    works = [claim(1, PLACE, HOLDER), *(work_on(PLACE, it) for it in range(1, HALF + 1))]
    return [(b"".join(it), len(it)) for it in (begins, works, ends)]


# the reports of a life in their order, by what each tells: the State Reports of its begin, its progress, and its completion
NUMBERS = range(TOLD, SETS + 1, TOLD)
REPORTS = [shown(b"SCHEDULED"), shown(b"IN PROGRESS"), *map(progress, NUMBERS), shown(b"COMPLETED")]
PLACES = {it: place for place, it in enumerate(REPORTS)}
ALL = (1 << len(REPORTS)) - 1
SUPERSEDED = 0b11
PROGRESS_TAG = progress(1)[:4]
SINCE_LATE = ALL & -(1 << 2 + sum(it <= LATE for it in NUMBERS))


class Counts:
    """What stations and watchers count, in memory that their processes share: each number is written by one of them."""

    def __init__(self) -> None:
        self.asked = RawArray("Q", STATIONS + 1)  # requests that were accepted, of each station and of the trial itself
        self.lives = RawArray("Q", STATIONS)
        self.late = RawArray("Q", STATIONS)  # how many lives of each, the first ones, AWAY watches
        self.due = {it: RawArray("Q", STATIONS + 1) for it in (EVERY, SINGLE)}  # reports of progress
        self.had = {it: RawValue("Q", 0) for it in (EVERY, SINGLE, AWAY)}  # the same, as they came
        self.reports = {it: RawValue("Q", 0) for it in (EVERY, SINGLE, AWAY)}  # all that were acknowledged

    def entries(self) -> int:
        """Returns how many requests were accepted, with acknowledgements."""
        return int(sum(self.asked) + sum(it.value for it in self.reports.values()))

    def behind(self) -> int:
        """Returns how many reports of progress the slower watcher has not had yet."""
        return max(int(sum(due) - self.had[it].value) for it, due in self.due.items())

    def await_watchers(self) -> None:
        deadline = time.monotonic() + PATIENCE
        while self.behind() > BEHIND:
            if time.monotonic() > deadline:
                raise Fault(f"a watcher is {self.behind()} reports behind for {PATIENCE:.0f} s")
            time.sleep(0.002)

    def uids(self) -> Iterator[tuple[int, int]]:
        """Yields station and number of each life."""
        return ((station, number) for station, count in enumerate(self.lives) for number in range(count))


# the stations

class Station:
    """A station, which begins a life with each turn, works on the step of an earlier one, and completes that of a still earlier one."""

    def __init__(self, port: int, me: int, entries: int, rate: int, counts: Counts) -> None:
        self.port, self.me, self.entries, self.rate, self.counts, self.turn = port, me, entries, rate, counts, 0
        self.began = time.monotonic()

    def lives(self) -> int:
        """Returns how many lives have begun."""
        return int(self.counts.lives[self.me])

    def rest(self) -> None:
        """Waits until no more than its rate of requests are accepted a second; 0 is any rate."""
        while self.rate and self.counts.entries() > self.rate * (time.monotonic() - self.began):
            time.sleep(0.005)

    def has_ended(self) -> bool:
        return self.turn >= self.lives() + 2 * AHEAD and self.counts.entries() >= self.entries

    def work(self, faults: Any) -> None:
        """Takes its turns, until so many requests are accepted in all that no further life begins, and each has ended."""
        try:
            while not self.has_ended():
                client = Client(self.port, b"STATION%d" % self.me)
                for _ in range(TURNS):
                    self.counts.await_watchers()
                    self.rest()
                    self.take_turn(client)
                    if self.has_ended():
                        break
                client.release()
        except FAULTS as fault:
            faults.put(repr(fault))

    def take_turn(self, client: Client) -> None:
        """Sends the requests of a turn at once, and reads their answers."""
        numbers = [self.turn - it * AHEAD for it in range(3)]
        spelled, count = self.begin() if self.turn == self.lives() and self.counts.entries() < self.entries else ([], 0)
        for part, number in enumerate(numbers):
            if 0 <= number < self.lives():
                found, requests = parts(number % FOURTH == 0, number < self.counts.late[self.me])[part]
                spelled.append(found.replace(PLACE, uid_of(self.me, number)))
                count += requests
        client.socket.sendall(b"".join(spelled))
        if any(statuses := [client.answer() for _ in range(count)]):
            at, status = next((at, it) for at, it in enumerate(statuses) if it)
            raise Fault(f"request {at + 1} of turn {self.turn} of station {self.me} is answered {status:04X}, behind {self.counts.entries():,}")
        self.counts.asked[self.me] += count
        for number in numbers[1:]:
            if 0 <= number < self.lives():
                self.counts.due[EVERY][self.me] += len(NUMBERS) // 2
                self.counts.due[SINGLE][self.me] += len(NUMBERS) // 2 * (number % FOURTH == 0)
        self.turn += 1

    def begin(self) -> tuple[list[bytes], int]:
        """Begins a life, and returns the changes of the steps that are held, and their number."""
        number, counts = self.lives(), self.counts
        counts.late[self.me] += counts.late[self.me] == number < WATCHED // STATIONS and counts.entries() < self.entries // 20
        counts.lives[self.me] += 1
        changes = [change(held_uid(self.me * BUSY + place), told(*READINESS, b"CS", READY if number // often % 2 else WAITING))
                   for place, often in enumerate(OFTEN) if number % often == 0]
        return changes, len(changes)


def look(port: int, over: Any, found: Connection) -> None:
    """Asks for a step that is held until it is over, and sends how long each N-GET took, and each C-ECHO, and what went wrong."""
    gets: list[float] = []
    echoes: list[float] = []
    fault = None
    try:
        while not over.is_set():
            client = Client(port, b"LOOKS")
            for _ in range(LOOKS):
                if over.wait(PAUSE):
                    break
                began = time.monotonic()
                step = client.got(held_uid(HELD - 1))
                gets.append(time.monotonic() - began)
                if step is None or text_in(step, STATE) != b"SCHEDULED":
                    raise Fault(f"a step that is held is {step}")
                began = time.monotonic()
                client.echo()
                echoes.append(time.monotonic() - began)
            client.release()
    except FAULTS as failed:
        fault = repr(failed)
    found.send((gets, echoes, fault))


# the watchers

class Heard:
    """What a watcher is told: of each life the reports that came, a bit each, and of each step held their contents."""

    def __init__(self) -> None:
        self.lives: dict[bytes, int] = {}
        self.held: dict[bytes, list[bytes]] = {}
        self.last: Optional[tuple[bytes, bytes]] = None
        self.again = 0  # how often a report came anew since its acknowledgement was lost
        self.faults: list[str] = []

    def take(self, uid: bytes, content: bytes, is_first: bool) -> None:
        """Takes a report, which may be the first one of an association."""
        if is_first and self.last == (uid, content):
            self.again += 1
            return
        self.last = uid, content
        place, before = PLACES.get(content), self.lives.get(uid, 0)
        if is_held(uid):
            self.held.setdefault(uid, []).append(content)
        elif place is None:
            self.faults.append(f"{uid.decode()} is told to be {content!r}")
        else:
            if before >> place:
                self.faults.append(f"{uid.decode()} has report {place} behind {before:b}")
            self.lives[uid] = before | 1 << place


class Watcher:
    """A watcher in a process of its own. It refuses connections until it listens."""

    def __init__(self, title: bytes, counts: Counts) -> None:
        self.title, self.counts = title, counts
        self.socket = socket.socket()
        self.socket.bind(("127.0.0.1", 0))
        self.place = f"{title.decode()}=127.0.0.1:{self.socket.getsockname()[1]}"
        self.here, self.there = multiprocessing.Pipe()

    def listen(self) -> None:
        self.socket.listen()
        multiprocessing.Process(target=self.run, daemon=True).start()

    def run(self) -> None:
        """Takes reports until it is told to end, and sends what it heard."""
        heard = Heard()
        while self.socket in select.select([self.socket, self.there], [], [])[0]:
            with contextlib.suppress(EOFError, OSError), self.socket.accept()[0] as connected:
                self.serve(Incoming(connected), heard)
        self.there.send(heard)

    def serve(self, incoming: Incoming, heard: Heard) -> None:
        is_first = True
        for uid in incoming.reports():
            heard.take(uid, incoming.information, is_first)
            is_first = False
            self.counts.had[self.title].value += incoming.event != STATE_REPORT
            self.counts.reports[self.title].value += 1

    def end(self) -> Heard:
        """Ends it, and returns what it heard."""
        self.here.send(None)
        heard: Heard = self.here.recv()
        return heard


def await_quiet(count: Callable[[], int]) -> None:
    """Waits until nothing is counted for QUIET seconds."""
    before, since = count(), time.monotonic()
    while time.monotonic() < since + QUIET:
        time.sleep(0.1)
        if (now := count()) != before:
            before, since = now, time.monotonic()


# what is held, and the way

def must(client: Client, spelled: Iterable[bytes], counts: Counts) -> None:
    """Sends requests that have to be accepted."""
    for it in spelled:
        if (status := client.ask(it)) != 0x0000:
            raise Fault(f"a request on a step that is held is answered {status:04X}")
        counts.asked[STATIONS] += 1


def begin(client: Client, counts: Counts) -> None:
    """Subscribes EVERY, and makes the steps that are held, which AWAY watches."""
    must(client, [subscribe(GLOBAL, EVERY, b"FALSE")], counts)
    for number in range(HELD):
        uid = held_uid(number)
        must(client, [create(PUSH_ON, 1, uid, a_step(b"HELD")), subscribe(uid, AWAY, b"FALSE")], counts)
        if number < STATIONS * BUSY:
            must(client, [claim(1, uid, HOLDER), *(change(uid, progress(it + 1)) for it in range(FIRST))], counts)
            counts.due[EVERY][STATIONS] += FIRST


def go_on(client: Client, counts: Counts) -> None:
    """Sets more progress of the steps that are held."""
    must(client, [change(held_uid(it), progress(SETS)) for it in range(STATIONS * BUSY)], counts)


Samples = list[tuple[int, int]]  # how many requests were accepted, and the memory


def memory_of(server: Server) -> int:
    """Returns the resident memory of the server, which has to run."""
    with contextlib.suppress(OSError, StopIteration):
        return resident(pid_of(server.process))
    raise Fault(f"the server has ended: {server.log[-3:]}")


def go(server: Server, entries: int, rate: int, counts: Counts, results: Results) -> Samples:
    """Lets the stations work until they end, and returns the memory on the way."""
    faults: multiprocessing.SimpleQueue[str] = multiprocessing.SimpleQueue()
    began, told_of = time.monotonic(), 0
    samples, stations = [(0, memory_of(server))], [Station(server.port, it, entries, rate, counts) for it in range(STATIONS)]
    working = [multiprocessing.Process(target=it.work, args=(faults,), daemon=True) for it in stations]
    for it in working:
        it.start()
    while any(it.is_alive() for it in working):
        time.sleep(0.05)
        samples.append((counts.entries(), memory_of(server)))
        if (tenths := min(10, samples[-1][0] * 10 // entries)) > told_of:
            told_of = tenths
            print(f"    {samples[-1][0]:,} requests: {samples[-1][1] / 1e6:,.1f} MB, {time.monotonic() - began:.0f} s", flush=True)
    seconds = time.monotonic() - began
    counted = f"{counts.entries():,} requests are accepted, {sum(counts.asked):,} of them asked, in {seconds:.1f} s"
    why = [f"{it.exitcode}" for it in working if it.exitcode] + ([] if faults.empty() else [faults.get()])
    results.tell(f"{counted}: {counts.entries() / seconds:,.0f} a second", why[0] if why else None)
    return samples


# what has to hold

def greatest(samples: Samples, least: float, most: float) -> int:
    """Returns the greatest memory in a part of the way."""
    nearest = min(samples, key=lambda it: abs(it[0] - most))
    return max([nearest[1], *(memory for at, memory in samples if least <= at <= most)])


def judge_memory(samples: Samples, entries: int, counts: Counts, results: Results) -> None:
    early, late = greatest(samples, entries / 20, entries * 3 / 20), greatest(samples, entries * 9 / 10, samples[-1][0])
    steps = sum(counts.lives)
    most = GROWTH * early + USED * steps * 9 / 10
    name = f"memory: {early / 1e6:,.1f} MB around {entries // 10:,} requests, {late / 1e6:,.1f} MB up to {samples[-1][0]:,}, with {steps:,} steps"
    if entries < JUDGED:
        print(f"    {name}", flush=True)
    else:
        results.tell(name, None if late <= most else f"{most / 1e6:,.1f} MB at most are due")


def judge_looks(found: tuple[list[float], list[float], Optional[str]], longest: int, results: Results) -> None:
    """Judges how long the N-GETs took, of which the longest may take so many milliseconds."""
    gets, echoes, fault = found
    if not fault and not 0 < max(gets, default=0) * 1e3 <= longest:
        fault = f"{sum(it * 1e3 > longest for it in gets)} take longer than {longest} ms"
    name, other = (f"{max(it, default=0) * 1e3:.1f} ms, {statistics.median(it or [0]) * 1e3:.2f} in the median" for it in (gets, echoes))
    results.tell(f"the longest of {len(gets):,} N-GETs takes {name} (a C-ECHO {other})", fault)


def judge_lives(title: bytes, heard: Heard, due: dict[bytes, int], superseded: int, results: Results) -> None:
    """Compares what a watcher heard of lives with what is due, of which some may be superseded."""
    wrong = [uid for uid in due if heard.lives.get(uid, 0) | superseded != due[uid] | superseded]
    faults = heard.faults + [f"{uid.decode()} has {heard.lives.get(uid, 0):b}" for uid in wrong]
    faults += [f"{uid.decode()} is not watched" for uid in heard.lives.keys() - due.keys()]
    count = sum(it.bit_count() for it in heard.lives.values())
    results.tell(f"{title.decode()} is told of {len(due):,} lives, by {count:,} reports, {heard.again} of them again",
                 f"{len(faults)} faults: {faults[:3]}" if faults or not due else None)


def toggled(counts: Counts, number: int) -> int:
    """Returns how often the readiness of a step that is held was changed."""
    station, place = divmod(number, BUSY)
    return -(-int(counts.lives[station]) // OFTEN[place]) if station < STATIONS else 0


def state_of(counts: Counts, number: int) -> tuple[bytes, bytes]:
    """Returns the state and the readiness of a step that is held."""
    return b"IN PROGRESS" if number < STATIONS * BUSY else b"SCHEDULED", WAITING if toggled(counts, number) % 2 else READY


def fault_of_held(heard: Heard, counts: Counts, number: int, is_away: bool) -> Optional[str]:
    """Returns what is wrong with the reports of a step that is held, or None."""
    reports, last = heard.held.get(held_uid(number), []), shown(*state_of(counts, number))
    steps = [*range(1, FIRST + 1), SETS] if number < STATIONS * BUSY else []
    of_progress, of_state = ([it for it in reports if (PROGRESS_TAG in it) is kind] for kind in (True, False))
    most = 1 if is_away else 2 + toggled(counts, number)
    if of_progress == list(map(progress, steps)) and of_state[-1:] == [last] and len(of_state) <= most:
        if not is_away or reports == [*map(progress, steps[:FIRST]), last, *map(progress, steps[FIRST:])]:
            return None
    return f"{held_uid(number).decode()}: {len(of_progress)} reports of progress, {len(of_state)} of {most} State Reports: {reports[-3:]}"


def judge_held(title: bytes, heard: Heard, counts: Counts, results: Results) -> None:
    faults = [it for number in range(HELD) if (it := fault_of_held(heard, counts, number, title == AWAY))]
    count = sum(map(len, heard.held.values()))
    results.tell(f"{title.decode()} is told of {HELD} steps that are held, by {count:,} reports", "; ".join(faults[:2]) or None)


def judge_watchers(watchers: list[Watcher], counts: Counts, results: Results) -> None:
    """Ends the watchers, and compares what each heard with what is due to it."""
    every, single, away = (it.end() for it in watchers)
    judge_lives(EVERY, every, {uid_of(*it): ALL for it in counts.uids()}, SUPERSEDED, results)
    judge_lives(SINGLE, single, {uid_of(*it): ALL for it in counts.uids() if it[1] % FOURTH == 0}, SUPERSEDED, results)
    judge_lives(AWAY, away, {uid_of(*it): SINCE_LATE for it in counts.uids() if it[1] < counts.late[it[0]]}, 0, results)
    judge_held(EVERY, every, counts, results)
    judge_held(AWAY, away, counts, results)


def worklist(client: Client) -> list[tuple[bytes, bytes, bytes]]:
    """Returns what a query for all steps finds."""
    keys = told(*SOP_INSTANCE, b"UI", b"") + shown(b"", b"")
    client.socket.sendall(find(PULL_ON, client.next(), keys))
    return [(text_in(it, SOP_INSTANCE), text_in(it, STATE), text_in(it, READINESS)) for it in client.matches()]


def judge_worklist(client: Client, counts: Counts, results: Results) -> None:
    """Looks for the steps that are held."""
    due = [(held_uid(it), *state_of(counts, it)) for it in range(HELD)]
    is_so = holds(lambda: worklist(client) == due, 10 * KEEP)
    results.tell(f"a worklist has the {len(due)} steps that are held", None if is_so else f"{worklist(client)[:20]}")


def judge_uids(client: Client, counts: Counts, results: Results) -> None:
    """Asks for some of the steps that were removed."""
    lives = sorted(counts.uids(), key=lambda it: it[1])
    sample = lives[:SAMPLE // 5] + random.Random(1).sample(lives[SAMPLE // 5:], min(SAMPLE, len(lives)) - SAMPLE // 5)
    answers = {(client.create(uid_of(*it), a_step(b"AGAIN")), client.got(uid_of(*it)) is None) for it in sample}
    results.tell(f"{len(sample)} UIDs of steps that were removed stay used", None if answers == {(TAKEN, True)} else f"{answers}")


def judge_log(log: list[str], results: Results) -> None:
    wrong = [line for line in log if re.search("ERROR|out of memory", line)]
    missing = [it for it in ("deliver AWAY is away", "deliver AWAY is back") if not any(it in line for line in log)]
    results.tell("the log", f"it has {wrong[:3]}, and lacks {missing}" if wrong or missing else None)


# the trial

def spend(server: Server, watchers: list[Watcher], given: argparse.Namespace, counts: Counts, results: Results) -> int:
    """Spends the years, judges them, and returns the most memory from the last tenth of the way on."""
    client = Client(server.port)
    begin(client, counts)
    over, (here, there) = multiprocessing.Event(), multiprocessing.Pipe()
    multiprocessing.Process(target=look, args=(server.port, over, there), daemon=True).start()
    client.release()
    samples = go(server, given.entries, given.rate, counts, results)
    late = greatest(samples, given.entries * 9 / 10, samples[-1][0])
    if results.failed:
        return late
    judge_memory(samples, given.entries, counts, results)
    await_quiet(counts.entries)
    began, away = time.monotonic(), watchers[-1]
    away.listen()
    is_back = holds(lambda: counts.reports[AWAY].value, BACK)
    await_quiet(counts.entries)
    results.tell(f"AWAY is told within {time.monotonic() - began - QUIET:.0f} s", None if is_back else f"nothing within {BACK:.0f} s")
    client = Client(server.port)
    go_on(client, counts)
    await_quiet(counts.entries)
    over.set()
    judge_looks(here.recv(), given.longest, results)
    judge_watchers(watchers, counts, results)
    judge_worklist(client, counts, results)
    judge_uids(client, counts, results)
    judge_log(server.log, results)
    client.release()
    print(f"    in the end: {memory_of(server) / 1e6:,.1f} MB", flush=True)
    return max(late, memory_of(server))


def restart(words: list[str], counts: Counts, most: int, results: Results) -> None:
    """Starts the server on its store as it is, then with a compaction, and judges what it knows."""
    for name, option in ("restart", []), ("with --compact", ["--compact"]):
        with Server(as_service(words[0]), *words[1:], *option) as server:
            memory, client = memory_of(server), Client(server.port)
            fault = None if memory <= most else f"{most / 1e6:,.1f} MB at most are due"
            results.tell(f"{name}: {server.took:.1f} s, {memory / 1e6:,.1f} MB", fault)
            judge_worklist(client, counts, results)
            judge_uids(client, counts, results)
            client.release()
            server.process.kill()


def run(program: str, folder: str, watchers: list[Watcher], given: argparse.Namespace, counts: Counts, results: Results) -> None:
    """Runs the trial, with a store in this folder if it is asked for."""
    rights, words = {SINGLE: ",lock"}, [program, "--keep", str(KEEP)]
    if given.store:
        file = os.path.join(folder, "upsd.db")
        subprocess.run([program, "init", file], check=True, stdout=subprocess.DEVNULL)
        words += ["--store", file]
    words += [it.place + rights.get(it.title, "") for it in watchers]
    with Server(as_service(program), *words[1:]) as server:
        most = spend(server, watchers, given, counts, results)
        server.process.kill()
    if given.store:
        restart(words, counts, most, results)


def main() -> None:
    asked = described(__doc__, "?")
    asked.add_argument("--entries", type=int, default=3_000_000, help="how many requests are accepted, 10000 at least (%(default)s)")
    asked.add_argument("--longest", type=int, default=250, help="milliseconds that an N-GET may take (%(default)s)")
    asked.add_argument("--rate", type=int, default=10_000, help="how many are accepted a second, 0 for as many as may be (%(default)s)")
    asked.add_argument("--store", action="store_true", help="with a store, on which the server is started again in the end")
    given, results, counts = asked.parse_args(), Results(), Counts()
    watchers = [Watcher(it, counts) for it in (EVERY, SINGLE, AWAY)]
    for it in watchers[:2]:
        it.listen()
    try:
        with tempfile.TemporaryDirectory(prefix="years-") as folder:
            run(os.path.abspath(given.program), folder, watchers, given, counts, results)
    except FAULTS as fault:
        results.tell("it comes to its end", repr(fault))
    print("years", end=": ")
    results.end()


if __name__ == "__main__":
    main()
