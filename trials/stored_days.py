"""Compares what a store shows before and after a compaction, and measures a start on a million requests."""

from __future__ import annotations

import argparse
import contextlib
import dataclasses
import multiprocessing
import os
import random
import re
import signal
import subprocess
import threading
import time
from collections.abc import Iterator
from multiprocessing.pool import ThreadPool
from typing import Optional

from dicom import act, create, set_attributes
from ledger import COMPLETED, LABEL, PATIENT, SOP_INSTANCE, STATE, Attributes, Fault
from machine import holds, pid_of
from peer import FILTERED, GLOBAL, PULL_ON, PUSH_ON, told
from results import Results
from server import Server
from stored import (FAULTS, READINESS, READY, SECONDS, WAITING, Client, Hearing, Report, Row, Stored, a_step_of, copy_of, ended,
                    folder_for, performed, rows_of, text_in)

KEEP = 2  # seconds for which a finished step is kept
STATIONS, NAMES = 4, ("W1", "W2", "W3")  # watchers of all steps, of single ones with a lock, and of those of a patient
FILTER = b"PATIENT3"
HEARD = 0.2  # the share of a day's requests during which the watchers listen
QUIET = 3.0  # seconds without a report after which none is on its way
AT_ONCE = ("--compact-at", "1")  # each compaction begins as soon as the one before is done
OPERATION = 3  # a column of a row
ASKERS, BESIDE, OFTEN = 16, 20.0, 4  # stations that ask without a pause, for how many seconds, and how many compactions end meanwhile
SINCE = 1000  # how many requests make a compaction due beside them
BATCH, SETS = 10, 7  # lives that are asked at once, and N-SETs of each
GROWTH, FEW = 1.25, 64 * 2**20  # how much more memory a server with a store may take: a factor, and bytes


# a day

def peers_of(watchers: Optional[dict[str, Hearing]]) -> list[str]:
    """Returns the words that name the watchers: where they listen, or a place where nobody does."""
    places = {name: watchers[name].place if watchers else "127.0.0.1:1" for name in NAMES}
    return [f"{name}={place}{',lock' if name != 'W3' else ''}" for name, place in places.items()]


@dataclasses.dataclass
class Day:
    """The steps of a day, with the Transaction UIDs of their claims, and the faults."""

    claims: dict[bytes, bytes] = dataclasses.field(default_factory=dict)
    uids: list[bytes] = dataclasses.field(default_factory=list)
    faults: list[str] = dataclasses.field(default_factory=list)


def live(client: Client, uid: bytes, chance: random.Random, day: Day) -> int:
    """Takes a step through its part of a day, and returns how many requests that took: some steps stay scheduled, some in
    progress, and the others are finished."""
    transaction, patient, kind = b"2.25." + uid[4:].replace(b".", b""), b"PATIENT%d" % chance.randrange(10), chance.random()
    statuses = [client.create(uid, a_step_of(patient))]
    day.uids.append(uid)
    if chance.random() < 0.2:
        statuses.append(client.subscribe(uid, b"W2", b"TRUE" if chance.random() < 0.5 else b"FALSE"))
    if kind < 0.15:
        return len(statuses) if not any(statuses) else failed(uid, statuses)
    if kind < 0.2:
        statuses.append(client.cancel(uid))
        return len(statuses) if not any(statuses) else failed(uid, statuses)
    statuses.append(client.change(uid, b"IN PROGRESS", transaction))
    day.claims[uid] = transaction
    for version in range(1, chance.randint(2, 5)):
        statuses.append(client.set(uid, performed(version), transaction))
    if kind < 0.75 and chance.random() < 0.2:
        statuses.append(client.cancel(uid))
    if kind >= 0.75:
        statuses.append(client.change(uid, chance.choice((b"COMPLETED", b"CANCELED")), transaction))
    if chance.random() < 0.05:
        statuses.append(client.unsubscribe(uid, b"W2"))
    return len(statuses) if not any(statuses) else failed(uid, statuses)


def failed(uid: bytes, statuses: list[int]) -> int:
    raise Fault(f"what is asked of {uid.decode()} is answered {[f'{it:04X}' for it in statuses]}")


def work(port: int, me: int, first: int, requests: int, seed: int, day: Day) -> None:
    """Takes steps through their lives, until that many requests are accepted."""
    try:
        chance, client, asked, number = random.Random(f"{seed} day {me} {first}"), Client(port, b"STATION%d" % me), 0, first
        while asked < requests:
            number += 1
            asked += live(client, b"1.2.%d.%d" % (me + 1, number), chance, day)
        client.release()
    except FAULTS as fault:
        day.faults.append(repr(fault))


def work_at_once(port: int, first: int, requests: int, seed: int, day: Day) -> None:
    threads = [threading.Thread(target=work, args=(port, it, first, requests // STATIONS, seed, day), daemon=True) for it in range(STATIONS)]
    for it in threads:
        it.start()
    for it in threads:
        it.join()
    if day.faults:
        raise Fault(day.faults[0])


@contextlib.contextmanager
def hearing() -> Iterator[dict[str, Hearing]]:
    """Gives watchers by their names, which listen while the body runs."""
    watchers = {it: Hearing() for it in NAMES}
    try:
        yield watchers
    finally:
        for it in watchers.values():
            it.close()


def spend_day(program: list[str], file: str, given: argparse.Namespace) -> Day:
    """Spends a day of that many requests on a store: the watchers listen at first, and later no longer."""
    day = Day()
    for first, part, hears in ((0, HEARD, True), (10**6, 1 - HEARD, False)):
        listens = hearing() if hears else contextlib.nullcontext()
        with listens as watchers, Stored(program, file, "--keep", str(KEEP), *peers_of(watchers)) as server:
            if watchers:
                client = Client(server.port)
                for_all = client.subscribe(GLOBAL, b"W1", b"FALSE")
                by_filter = client.subscribe(FILTERED, b"W3", b"FALSE", told(*PATIENT, b"LO", FILTER))
                if for_all or by_filter:
                    raise Fault(f"subscriptions are answered {for_all:04X} and {by_filter:04X}")
                client.release()
            work_at_once(server.port, first, int(given.requests * part), given.seed, day)
            await_swept(server)
            time.sleep(1)
    return day


def await_swept(server: Stored) -> None:
    """Waits until no more steps are removed."""
    client, before = Client(server.port), -1
    time.sleep(KEEP + 1)
    while (now := len(client.found())) != before:
        before = now
        time.sleep(1.5)


# what a store shows

@dataclasses.dataclass
class Picture:
    """What a server shows of its steps, and what each watcher is told after its start."""

    found: list[Attributes]
    got: dict[bytes, Optional[Attributes]]
    reports: dict[str, list[Report]]
    rows: int
    log: list[str]
    answers: dict[str, list[tuple[bytes, int]]] = dataclasses.field(default_factory=dict)
    provoked: dict[str, list[Report]] = dataclasses.field(default_factory=dict)

    def held(self) -> set[bytes]:
        return {text_in(it, SOP_INSTANCE) for it in self.found}


def await_quiet(watchers: dict[str, Hearing]) -> None:
    """Waits until no watcher is told anything for QUIET seconds."""
    def told_of() -> int:
        return sum(len(it.reports) for it in watchers.values())

    before, since = told_of(), time.monotonic()
    while time.monotonic() < since + QUIET:
        time.sleep(0.1)
        if told_of() != before:
            before, since = told_of(), time.monotonic()


def picture_of(program: list[str], file: str, day: Day, *more: str) -> Picture:
    """Returns what a server shows that starts on a file, which is changed by this, with more options."""
    with hearing() as watchers, Stored(program, file, "--keep", str(KEEP), *more, *peers_of(watchers)) as server:
        await_quiet(watchers)
        await_swept(server)
        client = Client(server.port)
        found = client.found()
        got = {uid: client.got(uid) for uid in day.uids}
        picture = Picture(found, got, {name: list(it.reports) for name, it in watchers.items()}, len(rows_of(file)), list(server.log))
        picture.answers = ask_holders(client, picture, day)
        await_quiet(watchers)
        picture.provoked = {name: it.reports[len(picture.reports[name]):] for name, it in watchers.items()}
        picture.answers["swept"] = finish_some(client, picture, day)
        time.sleep(KEEP + 3)
        picture.answers["left"] = [(text_in(it, SOP_INSTANCE), 0) for it in client.found()]
    return picture


def ask_holders(client: Client, picture: Picture, day: Day) -> dict[str, list[tuple[bytes, int]]]:
    """Asks as others and as the holders, and what watchers are told of, and returns how each request is answered."""
    answers: dict[str, list[tuple[bytes, int]]] = {"others": [], "holders": [], "again": [], "readiness": [], "new": []}
    for it in picture.found:
        uid, state = text_in(it, SOP_INSTANCE), text_in(it, STATE)
        answers["again"].append((uid, client.create(uid, a_step_of(b"P"))))
        answers["others"].append((uid, client.set(uid, performed(99), b"2.25.99")))
        answers["holders"].append((uid, client.set(uid, performed(100), day.claims.get(uid))))
        if state not in (b"COMPLETED", b"CANCELED"):
            ready = text_in(picture.got[uid] or {}, READINESS)
            change = told(*READINESS, b"CS", WAITING if ready == READY else READY)
            answers["readiness"].append((uid, client.set(uid, change, day.claims.get(uid))))
    for number in range(20):
        uid = b"1.3.%d" % number
        answers["new"].append((uid, client.create(uid, a_step_of(b"PATIENT%d" % (number % 10)))))
    return answers


def finish_some(client: Client, picture: Picture, day: Day) -> list[tuple[bytes, int]]:
    """Cancels every second step in progress, and returns the statuses: those that nobody locks are removed."""
    busy = [text_in(it, SOP_INSTANCE) for it in picture.found if text_in(it, STATE) == b"IN PROGRESS"]
    return [(uid, client.change(uid, b"CANCELED", day.claims[uid])) for uid in busy[::2]]


def tell_same(name: str, one: Picture, other: Picture, results: Results) -> None:
    """Tells whether two servers show the same."""
    results.tell(f"{name}: the worklist of {len(one.found)} steps", None if one.found == other.found else
                 f"of {len(one.found)} and {len(other.found)} steps {len(one.held() ^ other.held())} differ")
    differ = [uid for uid in one.got if one.got[uid] != other.got[uid]]
    results.tell(f"{name}: what an N-GET tells of each of {len(one.got)} steps", f"{len(differ)} differ: {differ[:3]}" if differ else None)
    for what in one.answers:
        wrong = [(a, b) for a, b in zip(one.answers[what], other.answers[what]) if a != b]
        is_same = one.answers[what] == other.answers[what]
        results.tell(f"{name}: {what}, {len(one.answers[what])} requests", None if is_same else f"{len(wrong)} differ: {wrong[:3]}")
    for watcher in NAMES:
        wanted, found = one.reports[watcher], other.reports[watcher]
        removed = sum(it.uid not in one.held() for it in wanted)
        results.tell(f"{name}: what is pending for {watcher}, {len(wanted)} events, {removed} of removed steps", differing(wanted, found))
        wanted, found = current(one.provoked[watcher]), current(other.provoked[watcher])
        results.tell(f"{name}: what {watcher} is told then, {len(wanted)} events", differing(wanted, found))


def current(reports: list[Report]) -> list[Report]:
    """Returns reports without each State Report behind which one of the same step comes: whether a watcher had it before the later
    one superseded it depends on the clock."""
    last = {it.uid: at for at, it in enumerate(reports) if it.is_state()}
    return [it for at, it in enumerate(reports) if not it.is_state() or last[it.uid] == at]


def differing(one: list[Report], other: list[Report]) -> Optional[str]:
    """Returns where the reports differ, or None."""
    if one == other:
        return None
    at = next((at for at, (a, b) in enumerate(zip(one, other)) if a != b), min(len(one), len(other)))
    return f"{len(one)} and {len(other)}, from {at} on: {one[at:at + 1]} and {other[at:at + 1]}"


# compactions

def check_good(picture: Picture, results: Results) -> None:
    """Fails if the day is not answered as it must be for the comparison to mean anything."""
    counts = {what: len(it) for what, it in picture.answers.items()} | {name: len(it) for name, it in picture.reports.items()}
    print(f"    the day: {len(picture.got)} steps, {len(picture.found)} held; {counts}", flush=True)
    of_state = {uid: text_in(it or {}, STATE) for uid, it in picture.got.items()}
    good = all(status == (0x0111) for _, status in picture.answers["again"])
    good &= all(status == (0x0000 if of_state[uid] in (b"SCHEDULED", b"IN PROGRESS") else 0xC300) for uid, status in picture.answers["holders"])
    good &= all(status != 0x0000 for _, status in picture.answers["others"]) and all(status == 0 for _, status in picture.answers["readiness"])
    results.tell("the day is answered as it is due", None if good and min(counts.values()) > 0 else f"{counts}: {picture.answers}"[:600])


def ask_on(port: int, me: int, over: threading.Event, day: Day) -> None:
    """Takes steps from their creation to their end, one request after the other without a pause, until it is told to end."""
    try:
        client, number = Client(port, b"ASKER%d" % me), 0
        while not over.is_set():
            number += 1
            uid, transaction = b"1.2.%d.%d" % (100 + me, number), b"2.25.%d%06d" % (100 + me, number)
            statuses = [client.create(uid, a_step_of(b"PATIENT1")), client.change(uid, b"IN PROGRESS", transaction),
                        client.set(uid, performed(1), transaction), client.change(uid, b"COMPLETED", transaction)]
            if any(statuses):
                failed(uid, statuses)
            day.uids.append(uid)
        client.release()
    except FAULTS as fault:
        day.faults.append(repr(fault))


def beside_askers(program: list[str], file: str, results: Results) -> None:
    """Has a server compact its store while stations ask all the time. Each compaction ends while they do, and none loses a UID."""
    day, over = Day(), threading.Event()
    with Stored(program, file, "--keep", str(KEEP), "--compact-at", str(SINCE), "--associations", str(2 * ASKERS)) as server:
        askers = [threading.Thread(target=ask_on, args=(server.port, it, over, day), daemon=True) for it in range(ASKERS)]
        for it in askers:
            it.start()
        time.sleep(BESIDE)
        done = server.lines("store: compacted from")
        over.set()
        for it in askers:
            it.join()
    told = f"{len(done)} compactions end beside {ASKERS} stations that finish {len(day.uids)} steps without a pause"
    results.tell(told, day.faults[0] if day.faults else None if len(done) >= OFTEN else f"there are fewer than {OFTEN}")
    with Stored(program, file, "--keep", str(KEEP)) as server:
        client = Client(server.port)
        anew = {client.create(uid, a_step_of(b"PATIENT1")) for uid in day.uids[:: max(1, len(day.uids) // 500)]}
        client.release()
    results.tell("a start behind them has their UIDs", None if anew == {0x0111} else f"a creation with one is answered {sorted(anew)}")


def run_compact(program: list[str], given: argparse.Namespace, results: Results) -> None:
    with folder_for(given.folder) as folder:
        file = os.path.join(folder, "day")
        day = spend_day(program, file, given)
        rows = rows_of(file)
        plain = picture_of(program, copy_of(file, folder, "plain"), day)
        results.tell(f"a start on {len(rows)} requests has each of them", None if plain.rows >= len(rows) else f"it has {plain.rows}")
        check_good(plain, results)
        by_command(program, file, folder, day, rows, plain, results)
        cut_off(program, file, folder, given, rows, results)
        at_a_start(program, copy_of(file, folder, "filled"), folder, day, len(rows), results)
        beside_askers(program, os.path.join(folder, "asked"), results)


def by_command(program: list[str], file: str, folder: str, day: Day, rows: list[Row], plain: Picture, results: Results) -> None:
    """Tries `upsd compact`, twice, and then a start."""
    copy = copy_of(file, folder, "compacted")
    words = [*program, "compact", "--keep", str(KEEP), copy, *peers_of(None)]
    counts = []
    for _ in range(2):
        come = ended(words, 10 * SECONDS)
        found = re.search(r": (\d+) requests, (\d+) before", come.output)
        counts.append((int(found[1]), int(found[2])) if found else (-1, -1))
        if come.status != 0 or not found or counts[-1][0] != len(rows_of(copy)):
            results.tell("upsd compact", f"it ends with {come.status}: {come.output!r} {come.said[-300:]!r}, and there are {len(rows_of(copy))}")
            return
    (after, before), (again, _) = counts
    results.tell(f"upsd compact: {after} requests are left of {before}, and behind another one {again}",
                 None if before == len(rows) and after < before and again <= after else f"there were {len(rows)}")
    tell_same("upsd compact", plain, picture_of(program, copy, day), results)
    tell_used("upsd compact", program, copy, plain, day, results)


def compact_served(program: list[str], file: str, chance: random.Random) -> None:
    """Has a server compact the store that it serves, at least once, and kills it at a random moment after that."""
    with Stored(program, file, "--keep", str(KEEP), *AT_ONCE, *peers_of(None)) as server:
        if not holds(lambda: server.lines("store: compacted from"), SECONDS):
            raise Fault(f"the store is not compacted: {server.log[-3:]}")
        time.sleep(0.2 * chance.random())
        os.kill(server.pid, signal.SIGKILL)
        server.process.wait()


def fault_of_history(program: list[str], folder: str, given: argparse.Namespace, seed: int) -> Optional[str]:
    """Returns how `upsd compact`, or a server that compacts all the time, changes what a generated history of few requests shows
    and how later requests are answered, or None."""
    results, file = Results(tells_passed=False), os.path.join(folder, f"history {seed}")
    try:
        day = spend_day(program, file, argparse.Namespace(requests=given.requests, seed=seed))
        plain, copy = picture_of(program, copy_of(file, folder, f"plain {seed}"), day), copy_of(file, folder, f"compacted {seed}")
        come = ended([*program, "compact", "--keep", str(KEEP), copy, *peers_of(None)], SECONDS)
        if come.status != 0:
            return f"history {seed}: upsd compact ends with {come.status}: {come.said[-200:]!r}"
        tell_same(f"history {seed}", plain, picture_of(program, copy, day), results)
        tell_used(f"history {seed}", program, copy, plain, day, results)
        copy = copy_of(file, folder, f"served {seed}")
        compact_served(program, copy, random.Random(f"{seed} served"))
        tell_same(f"history {seed}, served", plain, picture_of(program, copy, day, *AT_ONCE), results)
        tell_used(f"history {seed}, served", program, copy, plain, day, results)
    except FAULTS as fault:
        return f"history {seed}: {fault!r}"
    return f"history {seed}: {results.failed} things differ" if results.failed else None


def run_histories(program: list[str], given: argparse.Namespace, results: Results) -> None:
    """Tries generated histories, each compacted, many at once: a server mostly waits for what is due by the clock."""
    seeds = range(given.seed, given.seed + given.histories)
    with folder_for(given.folder) as folder, ThreadPool(given.beside) as pool:
        found = pool.starmap(fault_of_history, [(program, folder, given, it) for it in seeds], chunksize=1)
    faults = [it for it in found if it is not None]
    results.tell(f"{given.histories} histories of {given.requests} requests show the same behind upsd compact, and while they are compacted", "; ".join(faults[:5]) or None)


def tell_used(name: str, program: list[str], file: str, plain: Picture, day: Day, results: Results) -> None:
    """Tells whether the UIDs of removed steps stay used: a server creates no step under them."""
    removed = [uid for uid in day.uids if plain.got[uid] is None]
    with Stored(program, file, "--keep", str(KEEP), *peers_of(None)) as server:
        client = Client(server.port)
        free = [uid for uid in removed if client.create(uid, a_step_of(b"P")) != 0x0111]
    results.tell(f"{name}: the UIDs of {len(removed)} removed steps stay used", f"{len(free)} are free: {free[:3]}" if free else None)


def cut_off(program: list[str], file: str, folder: str, given: argparse.Namespace, rows: list[Row], results: Results) -> None:
    """Tries compactions that are killed: the store must be as it was, or compacted."""
    chance, faults, done, longest, least = random.Random(f"{given.seed} compact"), [], 0, 0.5, 0
    for number in range(20):
        copy = copy_of(file, folder, "cut off")
        began = time.monotonic()
        with subprocess.Popen([*program, "compact", "--keep", str(KEEP), copy, *peers_of(None)], stdout=subprocess.PIPE, stderr=subprocess.PIPE,
                              start_new_session=True) as ran:
            if number:
                time.sleep(chance.random() * 1.1 * longest)
                os.killpg(ran.pid, signal.SIGKILL)
            ran.communicate()
        now = rows_of(copy)
        if number == 0:
            longest, least = time.monotonic() - began, len(now)
        done += len(now) < len(rows)
        kept = {it[1:] for it in rows}
        strangers = [it for it in now if it[1:] not in kept and it[OPERATION] not in ("acknowledge", "reserve")]
        if now != rows and (strangers or len(now) >= len(rows) or number and len(now) != least):
            faults.append(f"there are {len(now)} requests of {len(rows)}, and {len(strangers)} others")
    results.tell(f"20 compactions that are killed, {done} of which were done", "; ".join(faults[:2]) or None)


def at_a_start(program: list[str], file: str, folder: str, day: Day, count: int, results: Results) -> None:
    """Tries a start that may compact, and does, since most requests are about steps that are gone and that watchers heard of."""
    with hearing() as watchers, Stored(program, file, "--keep", str(KEEP), *peers_of(watchers)) as server:
        client = Client(server.port)
        for number in range(count):
            uid = b"1.4.%d" % number
            if (statuses := [client.create(uid, a_step_of(b"P")), client.cancel(uid)]) != [0, 0]:
                failed(uid, statuses)
        client.release()
        await_quiet(watchers)
        await_swept(server)
        time.sleep(1)
    before, plain = len(rows_of(file)), picture_of(program, copy_of(file, folder, "uncompacted"), day)
    picture = picture_of(program, file, day, "--compact")
    results.tell(f"a start that compacts: {picture.rows} requests are left of {before}", None if picture.rows < before / 2 else "it does not")
    told_of = [line for line in picture.log if "compact" in line]
    results.tell("a start that compacts: the log tells of it", None if told_of else f"{picture.log[:5]}")
    tell_same("a start that compacts", plain, picture, results)
    tell_used("a start that compacts", program, file, plain, day, results)


# a million requests

def fill(port: int, me: int, requests: int) -> None:
    """Sends that many requests, in lives of steps, BATCH lives at a time."""
    client, number, asked = Client(port, b"STATION%d" % me, 600), 0, 0
    given, sets = a_step_of(b"PATIENT%d" % me), [performed(it + 1) for it in range(SETS)]
    while asked < requests:
        spelled = []
        for _ in range(BATCH):
            number += 1
            uid, holder = b"1.2.%d.%d" % (me + 1, number), told(0x0008, 0x1195, b"UI", b"2.25.%d%d" % (me + 1, number))
            spelled.append(create(PUSH_ON, 1, uid, given))
            spelled.append(act(PULL_ON, 1, uid, 1, holder + told(*STATE, b"CS", b"IN PROGRESS")))
            spelled += [set_attributes(PULL_ON, 1, uid, holder + it) for it in sets]
            spelled.append(act(PULL_ON, 1, uid, 1, holder + told(*STATE, b"CS", b"COMPLETED")))
        spelled = spelled[:requests - asked]
        client.socket.sendall(b"".join(spelled))
        for _ in spelled:
            if (found := client.answer()) != 0x0000:
                raise Fault(f"behind {asked} requests one is answered {found:04X}")
        asked += len(spelled)
    client.release()


def fill_all(port: int, requests: int) -> float:
    """Does the same in four processes, and returns the seconds that it took."""
    began = time.monotonic()
    shares = [requests // STATIONS + (it < requests % STATIONS) for it in range(STATIONS)]
    filling = [multiprocessing.Process(target=fill, args=(port, it, share)) for it, share in enumerate(shares)]
    for it in filling:
        it.start()
    for it in filling:
        it.join()
    if any(it.exitcode for it in filling):
        raise Fault(f"the server was not filled: {[it.exitcode for it in filling]}")
    return time.monotonic() - began


def memory_of(pid: int) -> int:
    """Returns the resident memory of a process, in bytes."""
    with open(f"/proc/{pid}/status", encoding="ascii") as lines:
        return next(int(line.split()[1]) * 1024 for line in lines if line.startswith("VmRSS"))


def run_million(program: list[str], given: argparse.Namespace, results: Results) -> None:
    with folder_for(given.folder) as folder:
        file, words = os.path.join(folder, "million"), ["--keep", "1000000", "--associations", "8"]
        with Server(program, *words) as server:
            without_seconds = fill_all(server.port, given.requests)
            without = memory_of(pid_of(server.process))
        with Stored(program, file, *words) as server:
            seconds = fill_all(server.port, given.requests)
            filled = memory_of(server.pid)
        size = sum(os.path.getsize(it) for it in (file, file + "-wal"))
        asked_in = f"{without_seconds:.0f} s without a store and in {seconds:.0f} s with one"
        print(f"{given.requests:,} requests: asked in {asked_in}, which has {size:,} bytes", flush=True)
        with Stored(program, file, *words, seconds=max(300.0, 10.0 * given.seconds)) as server:
            began, again = server.took, memory_of(server.pid)
            results.tell(f"a start takes {began:.1f} s", None if began <= given.seconds else f"{given.seconds} s are due")
            results.tell("what was asked is there", fault_of_filled(server.port, given.requests))
            lines = server.lines(r"store: \d+ requests")
            results.tell(f"the log tells of it, in {len(lines)} lines", None if began < 3 or len(lines) >= began // 2 else f"{server.log[:5]}")
        told_of = f"{without / 2**20:,.0f} MiB without a store, {filled / 2**20:,.0f} with one, {again / 2**20:,.0f} behind the start"
        print(f"memory: {told_of}", flush=True)
        results.tell("memory", None if max(filled, again) <= GROWTH * without + FEW else told_of)


def fault_of_filled(port: int, requests: int) -> Optional[str]:
    """Returns why some steps, chosen at random, are not as they were left, or None."""
    client, chance, lives = Client(port), random.Random(1), requests // STATIONS // (SETS + 3)
    for _ in range(min(500, lives)):
        uid = b"1.2.%d.%d" % (chance.randint(1, STATIONS), chance.randint(1, lives))
        found = client.got(uid)
        if found is None or text_in(found, STATE) != COMPLETED.rstrip() or text_in(found, LABEL) != b"READ %d" % SETS:
            return f"{uid.decode()} is {found and (text_in(found, STATE), text_in(found, LABEL))}"
    return None
