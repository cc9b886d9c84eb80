"""Kills a server on a store at random moments, and checks that a new one on the same file has what was answered.

Four workstations send requests in associations of their own, a reader reads their steps, and three watchers take the reports.
Most servers compact the store while they run: it is compacted anew as soon as it is done, or after 30 or 300 requests.
For each step the script keeps what it is after the last answered request, and what it would be after each one sent since. After
a start, an N-GET has to return one of these, whole.
"""

from __future__ import annotations

import argparse
import collections
import dataclasses
import os
import random
import shutil
import threading
import time
from typing import Optional, Union

import making
from dicom import PUSH, even, step
from ledger import CANCELED, COMPLETED, LABEL, PROGRESS, SCHEDULED, SOP_CLASS, SOP_INSTANCE, STATE, Attributes, Fault, compare, read
from machine import holds
from peer import GLOBAL, told
from results import Results
from stored import (FAULTS, READINESS, READY, SECONDS, WAITING, Client, Hearing, Report, Stored, copy_of, folder_for,
                    performed, text_in)

WORKSTATIONS = 4
KEEP = "1000000"
PATIENT = (0x0010, 0x0020)
ALL_OF, SINGLE, PLAIN = b"W1", b"W2", b"W3"  # watch all steps; single ones, with the right to lock; single ones, without it
SAMPLE = 40  # older steps that are checked after each start
FEW = 1_000  # below this many steps, C-FINDs of all are checked after each start
RANKS = {b"SCHEDULED": 0, b"IN PROGRESS": 1, b"COMPLETED": 2, b"CANCELED": 2}
MOST = 30.0  # seconds for watchers to get what they have not acknowledged, and for finished steps without a Deletion Lock to go
QUICK = 0.4  # seconds that most servers live at most, after the checks
DURING_START, IDLE, ALL_EACH, LOCKS_EACH = 0.1, 0.15, 25, 10
COMPACTS = ("1", "30", "300", "50000")  # after how many requests the store is compacted: one of these for each server
LIES = ("create", "set", "claim", "finish", "subscribe", "lock", "tell", "show")


@dataclasses.dataclass(frozen=True)
class Known:
    """What requests have made of a step."""

    state: bytes = SCHEDULED.rstrip()
    version: int = 0  # how often a workstation has set it
    readiness: bytes = READY
    transaction: Optional[bytes] = None  # the Transaction UID of its claim
    is_asked_away: bool = False  # canceled by a request

    @property
    def rank(self) -> int:
        return RANKS[self.state]

    def shown(self) -> tuple[bytes, bytes]:
        return self.state, self.readiness


@dataclasses.dataclass
class Watch:
    """A subscription to one step: with a lock or without; None if there is none."""

    lock: Optional[bool] = None
    asked: list[Optional[bool]] = dataclasses.field(default_factory=list)


class Step:
    """A step: its known content, and what its unanswered requests would make of it."""

    def __init__(self, uid: bytes, owner: int, patient: bytes) -> None:
        self.uid, self.owner = uid, owner
        self.now: Optional[Known] = None
        self.asked: list[Known] = []
        self.holder: Optional[int] = None  # the workstation that claimed it
        self.is_offered = False  # any workstation may claim it, and none sets it before
        self.watches = {SINGLE: Watch(), PLAIN: Watch()}
        self.seen = (-1, -1)  # the greatest rank and version that anybody was shown
        self.given = step(True, {PATIENT: (b"LO", even(patient, b" "))})

    @property
    def known(self) -> Known:
        """Returns what is known of it, once a request about it was answered."""
        assert self.now
        return self.now

    def see(self, rank: int, version: int) -> None:
        self.seen = max(self.seen[0], rank), max(self.seen[1], version)

    def attributes(self, known: Known) -> Attributes:
        """Returns all attributes, except the time of a cancellation by request."""
        found = read(True, self.given) | {SOP_CLASS: (b"UI", even(PUSH)), SOP_INSTANCE: (b"UI", even(self.uid))}
        if known.version:
            found |= read(True, performed(known.version))
        found[STATE] = b"CS", even(known.state, b" ")
        found[READINESS] = b"CS", even(known.readiness, b" ")
        return found

    def fault(self, told_of: Optional[Attributes], known: Optional[Known]) -> Optional[str]:
        """Returns why the attributes of an N-GET are not those of `known`; None if they are."""
        if told_of is None or known is None:
            return None if told_of is None and known is None else f"it is {'unknown' if told_of is None else 'there'}"
        wanted = self.attributes(known)
        if known.is_asked_away:
            if PROGRESS not in told_of:
                return "it has no moment of its cancellation"
            wanted[PROGRESS] = told_of[PROGRESS]
        try:
            compare("N-GET", told_of, wanted)
        except Fault as fault:
            return str(fault)
        return None


class Plan:
    """All steps, and how much was asked and answered so far."""

    def __init__(self, seed: int) -> None:
        self.chance = random.Random(f"{seed} plan")
        self.lock = threading.Lock()
        self.steps: dict[bytes, Step] = {}
        self.touched: set[bytes] = set()
        self.asked = self.answered = self.created = 0
        self.transactions = 0

    def new_step(self, owner: int) -> Step:
        with self.lock:
            self.created += 1
            it = Step(b"1.2.%d.%d" % (owner + 1, self.created), owner, b"STATION%d" % owner)
            self.steps[it.uid] = it
            self.touched.add(it.uid)
            return it

    def new_transaction(self) -> bytes:
        with self.lock:
            self.transactions += 1
            return b"2.25.%d" % (self.transactions + 10**20)

    def recent(self, chance: random.Random) -> Optional[Step]:
        """Returns a step, in most cases a new one."""
        with self.lock:
            uids = list(self.steps)
        if not uids:
            return None
        return self.steps[chance.choice(uids[-25:] if chance.random() < 0.85 else uids)]


class Workstation:
    """A workstation that sends requests until the connection ends."""

    client: Client  # once it runs

    def __init__(self, plan: Plan, number: int, seed: int) -> None:
        self.plan, self.number = plan, number
        self.chance = random.Random(f"{seed} workstation {number}")
        self.fault: Optional[str] = None

    def run(self, port: int, over: threading.Event) -> None:
        try:
            self.client = Client(port, b"STATION%d" % self.number)
            while not over.is_set():
                self.choose()
        except Fault as fault:
            self.fault = str(fault)
        except FAULTS:
            pass  # the server was killed: what was asked is not answered

    def ask(self, it: Step, becomes: Known, status: int, due: tuple[int, ...] = (0x0000,)) -> bool:
        """Records the answer to a request about a step, and returns whether it was accepted."""
        if status not in due:
            raise Fault(f"{it.uid.decode()}, which is {it.now} or {it.asked}, was asked to be {becomes}: {status:04X}")
        with self.plan.lock:
            self.plan.answered += 1
            it.asked.remove(becomes)
            if status == 0x0000:
                it.now = becomes
        return status == 0x0000

    def about(self, it: Step, becomes: Known) -> Known:
        """Records a request about a step, by what it makes of the step."""
        with self.plan.lock:
            self.plan.asked += 1
            self.plan.touched.add(it.uid)
            it.asked.append(becomes)
        return becomes

    def create(self) -> None:
        it = self.plan.new_step(self.number)
        becomes = self.about(it, Known())
        is_offered = self.chance.random() < 0.3
        if self.ask(it, becomes, self.client.create(it.uid, it.given)):
            it.is_offered = is_offered

    def create_again(self, it: Step) -> None:
        if it.now and (status := self.client.create(it.uid, it.given)) != 0x0111:
            raise Fault(f"{it.uid.decode()} is created again: {status:04X}")

    def claim(self, it: Step) -> None:
        transaction = self.plan.new_transaction()
        becomes = self.about(it, dataclasses.replace(it.known, state=b"IN PROGRESS", transaction=transaction))
        due = (0x0000, 0xC302, 0xC300) if it.is_offered else (0x0000,)
        if self.ask(it, becomes, self.client.change(it.uid, b"IN PROGRESS", transaction), due):
            it.holder = self.number
        else:
            it.see(1, -1)  # it tells that another one has it

    def set(self, it: Step) -> None:
        becomes = self.about(it, dataclasses.replace(it.known, version=it.known.version + 1))
        self.ask(it, becomes, self.client.set(it.uid, performed(becomes.version), it.known.transaction))

    def prepare(self, it: Step) -> None:
        """Changes whether its input is ready, which watchers are told."""
        becomes = self.about(it, turned(it.known))
        self.ask(it, becomes, self.client.set(it.uid, told(*READINESS, b"CS", becomes.readiness), it.known.transaction))

    def finish(self, it: Step) -> None:
        state = self.chance.choice((b"COMPLETED", b"CANCELED"))
        becomes = self.about(it, dataclasses.replace(it.known, state=state))
        self.ask(it, becomes, self.client.change(it.uid, state, it.known.transaction or b""))

    def cancel(self, it: Step) -> None:
        becomes = self.about(it, dataclasses.replace(it.known, state=b"CANCELED", is_asked_away=True))
        self.ask(it, becomes, self.client.cancel(it.uid))

    def watch(self, it: Step) -> None:
        """Subscribes or unsubscribes a watcher of a step."""
        title, lock = self.chance.choice((SINGLE, PLAIN)), self.chance.random() < 0.6
        becomes = None if self.chance.random() < 0.15 else lock and title == SINGLE
        watch_it(self.plan, self.client, it, title, lock, becomes)

    def choose(self) -> None:
        """Sends one request."""
        mine = [it for it in list(self.plan.steps.values())[-60:] if it.owner == self.number and it.now and not it.is_offered and not it.asked]
        held = [it for it in list(self.plan.steps.values())[-120:] if it.holder == self.number and it.known.state == b"IN PROGRESS"]
        offered = [it for it in list(self.plan.steps.values())[-60:] if it.is_offered and it.now and it.now.rank == 0]
        fresh = [it for it in mine if it.known.rank == 0]
        kind = self.chance.random()
        if kind < 0.22 or not mine:
            self.create()
        elif kind < 0.27:
            self.create_again(self.chance.choice(mine))
        elif kind < 0.42 and (offered or fresh):
            self.claim(self.chance.choice(offered if offered and self.chance.random() < 0.6 else fresh or offered))
        elif kind < 0.65 and held:
            self.set(self.chance.choice(held))
        elif kind < 0.75 and held:
            self.prepare(self.chance.choice(held))
        elif kind < 0.85 and any(it.known.version for it in held):
            self.finish(self.chance.choice([it for it in held if it.known.version]))
        elif kind < 0.87 and fresh:
            self.cancel(self.chance.choice(fresh))
        elif kind < 0.92 and fresh:
            self.set(self.chance.choice(fresh))
        else:
            self.watch(self.chance.choice(mine))


def turned(known: Known) -> Known:
    return dataclasses.replace(known, readiness=WAITING if known.readiness == READY else READY)


def watch_it(plan: Plan, client: Client, it: Step, title: bytes, lock: bool, becomes: Optional[bool]) -> None:
    """Subscribes or unsubscribes a watcher of a step, and records the request and the answer."""
    watch = it.watches[title]
    with plan.lock:
        plan.asked += 1
        plan.touched.add(it.uid)
        watch.asked.append(becomes)
    if becomes is None:
        status, due = client.unsubscribe(it.uid, title), 0x0000
    else:
        status, due = client.subscribe(it.uid, title, b"TRUE" if lock else b"FALSE"), 0xB301 if lock and title == PLAIN else 0x0000
    if status != due:
        raise Fault(f"a subscription of {title.decode()} to {it.uid.decode()} is answered {status:04X}")
    with plan.lock:
        plan.answered += 1
        watch.lock = becomes
        watch.asked.clear()


class Reader:
    """A reader of the steps of others, including those whose requests are not answered yet."""

    def __init__(self, plan: Plan, seed: int) -> None:
        self.plan, self.chance, self.count = plan, random.Random(f"{seed} reader"), 0

    def run(self, port: int, over: threading.Event) -> None:
        try:
            client = Client(port, b"READER")
            while not over.wait(self.chance.random() / 200):
                it = self.plan.recent(self.chance)
                if it is None:
                    continue
                if self.chance.random() < 0.1:
                    self.note(client.found((PATIENT, b"STATION%d" % it.owner))[-30:])
                elif found := client.got(it.uid):
                    self.note([found])
        except FAULTS:
            pass

    def note(self, told_of: list[Attributes]) -> None:
        for it in told_of:
            self.count += 1
            self.plan.steps[text_in(it, SOP_INSTANCE)].see(RANKS[text_in(it, STATE)], version_in(it))


def version_in(told_of: Attributes) -> int:
    label = text_in(told_of, LABEL)
    return int(label[5:]) if label.startswith(b"READ ") else 0


class Trial:
    """A store whose servers are killed: its plan, its workstations, its watchers, and the faults by kind."""

    def __init__(self, program: list[str], file: str, seed: int, given: argparse.Namespace) -> None:
        self.program, self.file, self.given = program, file, given
        self.chance = random.Random(f"{seed} kills")
        self.plan = Plan(seed)
        self.workstations = [Workstation(self.plan, it, seed) for it in range(WORKSTATIONS)]
        self.reader = Reader(self.plan, seed)
        self.workers: list[Union[Workstation, Reader]] = [*self.workstations, self.reader]
        self.watchers = {title: Hearing() for title in (ALL_OF, SINGLE, PLAIN)}
        self.peers = [f"{title.decode()}={it.place}{',lock' if title == SINGLE else ''}" for title, it in self.watchers.items()]
        self.is_watched = False
        self.faults: dict[str, list[str]] = collections.defaultdict(list)
        self.counts: collections.Counter[str] = collections.Counter()
        self.longest, self.most = 0.0, MOST

    def told(self, kind: str, fault: Optional[str]) -> None:
        self.counts[kind] += 1
        if fault:
            self.faults[kind].append(fault)

    def server(self, waits: bool = True) -> Stored:
        return Stored(self.program, self.file, "--keep", KEEP, "--compact-at", self.chance.choice(COMPACTS), *self.peers, waits=waits)

    # a life of the server

    def live(self, seconds: float, rest: float) -> None:
        """Starts a server, checks what it has, lets all work for `seconds` and rest for `rest`, and kills it."""
        with self.server() as server:
            self.longest = max(self.longest, server.took)
            self.judge(server)
            over = threading.Event()
            threads = [threading.Thread(target=it.run, args=(server.port, over), daemon=True) for it in self.workers]
            for it in threads:
                it.start()
            time.sleep(seconds)
            if rest:
                over.set()
                for it in threads:
                    it.join(SECONDS)
                time.sleep(rest)
            server.kill()
            for it in threads:
                it.join(SECONDS)
        faults = [it.fault for it in self.workstations if it.fault]
        self.told("each answer is due", faults[0] if faults else None)

    def start_and_kill(self, seconds: float) -> None:
        """Kills a server that many seconds after its start."""
        with self.server(waits=False) as server:
            time.sleep(seconds)
            server.kill()

    # the checks after a start

    def judge(self, server: Stored) -> None:
        client = Client(server.port, b"JUDGE")
        if not self.is_watched:
            self.is_watched = client.subscribe(GLOBAL, ALL_OF, b"FALSE") == 0x0000
        touched = [self.plan.steps[it] for it in self.plan.touched]
        others = list(self.plan.steps.values()) if self.counts["starts"] % ALL_EACH == 0 else []
        others = others or self.plan.chance.sample(list(self.plan.steps.values()), min(SAMPLE, len(self.plan.steps)))
        self.counts["starts"] += 1
        both = list({it.uid: it for it in (*touched, *others)}.values())
        for it in both:
            self.judge_step(client, it)
        if others and len(others) > SAMPLE or len(self.plan.steps) < FEW:
            self.judge_all(client)
        for it in both:
            self.judge_holder(client, it)
        self.judge_watches(client, touched, both)
        client.release()
        self.plan.touched.clear()

    def judge_step(self, client: Client, it: Step) -> None:
        """Checks that an N-GET returns a step as it was answered, or as a later request would leave it."""
        told_of = client.got(it.uid)
        tries = [(it.now, it.fault(told_of, it.now))] + [(known, it.fault(told_of, known)) for known in it.asked]
        good = [known for known, fault in tries if fault is None]
        self.told("every answered request is there", None if good else f"{it.uid.decode()} is not {it.now}: {tries[0][1]}; asked was {it.asked}")
        if not good:
            return
        is_open = len(good) > 1 and it.now not in good  # claims by several workstations, one of which was done
        it.now = self.holder_of(client, it, [known for known in good if known]) if is_open else good[0]
        it.asked.clear()
        found = (it.now.rank, it.now.version) if it.now else (-1, -1)
        is_less = found[0] < it.seen[0] or found[1] < it.seen[1]
        self.told("what was shown is there", f"{it.uid.decode()} is {it.now}, and was shown as {it.seen}" if is_less else None)
        heard = max((RANKS[report.shown()[0]] for report in self.reports_of(it.uid)), default=-1)
        self.told("what was told is there", f"{it.uid.decode()} is {it.now}, and was told as of rank {heard}" if found[0] < heard else None)
        if it.now:
            status = client.create(it.uid, it.given)
            self.told("no used UID is free", None if status == 0x0111 else f"{it.uid.decode()} is created again: {status:04X}")

    def reports_of(self, uid: bytes) -> list[Report]:
        return [it.last[uid] for it in self.watchers.values() if uid in it.last]

    def holder_of(self, client: Client, it: Step, claims: list[Known]) -> Known:
        """Returns the claim that was done, of several without an answer: the one whose Transaction UID is right."""
        right = [known for known in claims if client.set(it.uid, told(*LABEL, b"LO", b"CT READ"), known.transaction) == 0x0000]
        self.told("each holder is the holder", None if len(right) == 1 else f"{it.uid.decode()} has {len(right)} holders of {len(claims)}")
        return right[0] if right else claims[0]

    def judge_all(self, client: Client) -> None:
        """Checks that a C-FIND of each workstation's steps returns each once, in the order of creation."""
        for number in range(WORKSTATIONS):
            found = [text_in(it, SOP_INSTANCE) for it in client.found((PATIENT, b"STATION%d" % number))]
            steps = [it for it in self.plan.steps.values() if it.owner == number]
            wanted = [it.uid for it in steps if it.now]
            loose = {it.uid for it in steps if it.asked}  # not checked yet
            found = [it for it in found if it not in loose]
            self.told("a C-FIND tells each step once", None if found == [it for it in wanted if it not in loose] else
                      f"of workstation {number}: {len(found)} and not {len(wanted)}, {set(found) ^ set(wanted)} differ")

    def judge_holder(self, client: Client, it: Step) -> None:
        """Checks that another Transaction UID is refused, and the right one accepted."""
        if not it.now or it.now.rank == 2:
            return
        other, change = self.plan.new_transaction(), performed(it.now.version + 1)
        if it.now.rank == 0:
            self.told("each holder is the holder", wrong(it, "nobody holds it, a set with a UID", client.set(it.uid, change, other), 0xC310))
            return
        self.told("each holder is the holder", wrong(it, "a set with another UID", client.set(it.uid, change, other), 0xC301))
        self.told("each holder is the holder", wrong(it, "another claim", client.change(it.uid, b"IN PROGRESS", other), 0xC302))
        status = client.set(it.uid, change, it.now.transaction)
        self.told("each holder is the holder", wrong(it, "a set with the right UID", status, 0x0000))
        it.now = dataclasses.replace(it.now, version=it.now.version + 1)
        if it.holder is None:  # its claim was not answered: any workstation goes on with it
            it.holder = self.plan.chance.randrange(WORKSTATIONS)

    def judge_watches(self, client: Client, touched: list[Step], both: list[Step]) -> None:
        """Checks that each watcher learns how each step is that it watches, and then a change of it."""
        for it in touched:
            for title, watch in it.watches.items():
                if watch.asked and it.now:
                    lock = watch.asked[-1]
                    watch_it(self.plan, client, it, title, bool(lock), lock)
                watch.asked.clear()
        self.await_watchers("each watcher learns what each step is", both)
        for it in [it for it in both if it.now and it.now.rank < 2]:
            becomes = turned(it.known)
            status = client.set(it.uid, told(*READINESS, b"CS", becomes.readiness), it.known.transaction)
            self.told("each answer is due", wrong(it, "a set of its readiness", status, 0x0000))
            it.now = becomes
        self.await_watchers("each subscription stands", both)

    def await_watchers(self, kind: str, steps: list[Step]) -> None:
        holds(lambda: not self.unlearned(steps), self.most)
        faults = self.unlearned(steps)
        self.told(kind, f"{len(faults)} of {len(steps)}: {faults[0]}" if faults else None)

    def unlearned(self, steps: list[Step]) -> list[str]:
        """Returns what watchers have not learned of the steps that they watch."""
        faults = []
        for it in [it for it in steps if it.now]:
            watching = [ALL_OF] + [title for title, watch in it.watches.items() if watch.lock is not None]
            for title in watching:
                last = self.watchers[title].last.get(it.uid)
                if not last or last.shown() != it.known.shown():
                    faults.append(f"{title.decode()} of {it.uid.decode()}: {last and last.shown()}, and it is {it.known.shown()}")
        return faults

    def judge_locks(self, folder: str) -> None:
        """Checks on a copy, with a server that keeps no finished step, that only those with a Deletion Lock stay."""
        finished = [it for it in self.plan.steps.values() if it.now and it.now.rank == 2 and not it.asked and not it.watches[SINGLE].asked]
        locked = {it.uid for it in finished if it.watches[SINGLE].lock}
        away = [it.replace(self.watchers[it[:2].encode()].place, "127.0.0.1:1") for it in self.peers]
        with Stored(self.program, copy_of(self.file, folder), "--keep", "0", "--store-other-settings", *away) as server:
            client = Client(server.port, b"JUDGE")
            uids = {it.uid for it in finished}

            def left() -> set[bytes]:
                return {text_in(it, SOP_INSTANCE) for state in (COMPLETED, CANCELED) for it in client.found((STATE, state.rstrip()))} & uids

            holds(lambda: left() == locked, self.most)
            differ = left() ^ locked
            self.told("each deletion lock stands", f"{len(differ)} of {len(finished)} steps differ: {sorted(differ)[:3]}" if differ else None)
            for it in [it for it in finished if it.uid not in locked][-5:]:
                self.told("no used UID is free", wrong(it, "it is removed, and is created again", client.create(it.uid, it.given), 0x0111))


def wrong(it: Step, what: str, status: int, due: int) -> Optional[str]:
    return None if status == due else f"{it.uid.decode()}, which is {it.now}: {what} is answered {status:04X} and not {due:04X}"


# lies that test the checks

def lie(trial: Trial, kind: str) -> None:
    """Records as answered what was not requested."""
    steps = [it for it in trial.plan.steps.values() if it.now and not it.asked]
    held = [it for it in steps if it.known.rank == 1]
    if kind == "create":
        it = trial.plan.new_step(0)
        it.now = Known()
    elif kind == "set":
        it = held[-1]
        it.now = dataclasses.replace(it.known, version=it.known.version + 1)
    elif kind == "claim":
        it = held[-1]
        it.now = dataclasses.replace(it.now, transaction=trial.plan.new_transaction())
    elif kind == "finish":
        it = held[-1]
        it.now = dataclasses.replace(it.now, state=b"CANCELED")
    elif kind == "subscribe":
        it = next(it for it in held if it.watches[SINGLE].lock is None)
        it.watches[SINGLE].lock = False
    elif kind == "lock":
        it = next(it for it in steps if it.known.rank == 2 and not it.watches[SINGLE].lock)
        it.watches[SINGLE].lock = True
    elif kind == "tell":
        it = next(it for it in held)
        trial.watchers[PLAIN].last[it.uid] = next(last for last in trial.watchers[ALL_OF].last.values() if last.shown()[0] == b"CANCELED")
    else:
        it = held[-1]
        it.see(1, it.known.version + 1)
    trial.plan.touched.add(it.uid)


def can_lie(trial: Trial, kind: str) -> bool:
    """Lies, if the steps for that exist already, and returns whether they do."""
    try:
        lie(trial, kind)
    except (IndexError, StopIteration):
        return False
    return True


def tried_lie(program: list[str], given: argparse.Namespace, kind: str) -> Optional[str]:
    """Tells a lie, and returns a fault if it is not found."""
    with folder_for(None) as folder:
        trial = Trial(program, os.path.join(folder, "store"), given.seed, given)
        while not can_lie(trial, kind):
            trial.live(1.5, 0.5)
        trial.most = 5.0
        if kind == "lock":
            trial.judge_locks(folder)
        else:
            trial.live(0.1, 0.1)
        return None if trial.faults else "it is not found"


# the whole trial

def run(program: list[str], given: argparse.Namespace, results: Results) -> None:
    """Reports how stores are made, and the outcome of that many kills, up to `each` on one store; or of the self-test."""
    if given.self_test:
        for kind in LIES:
            results.tell(f"a lie is found: {kind}", tried_lie(program, given, kind))
        return
    making.run(program, results)
    for part, first in enumerate(range(0, given.kills, given.each)):
        if results.failed == 0:
            run_part(program, given, min(given.each, given.kills - first), given.seed + part, results)


def run_part(program: list[str], given: argparse.Namespace, kills: int, seed: int, results: Results) -> None:
    """Reports the outcome of that many kills on a new store."""
    with folder_for(given.folder and os.path.join(given.folder, str(seed))) as folder:
        trial = Trial(program, os.path.join(folder, "store"), seed, given)
        done = kill_often(trial, folder, kills)
        keep_faulty(trial, folder)
        for kind, count in trial.counts.items():
            if kind != "starts":
                faults = trial.faults[kind]
                results.tell(f"{kind}, {count} times", f"{len(faults)} are wrong: {faults[0]}" if faults else None)
        plan = trial.plan
        print(f"{done} kills, seed {seed}: {plan.asked:,} requests asked and {plan.answered:,} answered, {len(plan.steps):,} steps, "
              f"{trial.reader.count:,} looks, {sum(len(it.reports) for it in trial.watchers.values()):,} reports; "
              f"the longest start took {trial.longest:.2f} s, the store has {os.path.getsize(trial.file):,} bytes", flush=True)


def kill_often(trial: Trial, folder: str, kills: int) -> int:
    """Kills that many servers, or fewer if there is a fault, and returns how many."""
    chance = trial.chance
    for number in range(kills):
        try:
            if chance.random() < DURING_START and number:
                trial.start_and_kill(chance.random() * min(1.0, 2 * trial.longest))
            else:
                rest = 0.3 + 2.2 * chance.random() if chance.random() < IDLE else 0.0
                trial.live(chance.random() * QUICK + 0.02, rest)
            if number % LOCKS_EACH == LOCKS_EACH - 1:
                trial.judge_locks(folder)
        except FAULTS as fault:
            trial.told("each server serves", repr(fault))
        if trial.faults:
            return number + 1
    try:
        trial.counts["starts"] = 0  # so all steps are checked
        trial.live(0.0, 0.0)
    except FAULTS as fault:
        trial.told("each server serves", repr(fault))
    return kills


def keep_faulty(trial: Trial, folder: str) -> None:
    """Copies the files of a store that has a fault, unless they stay anyway."""
    if trial.faults and not trial.given.folder:
        kept = f"{folder}.faulty"
        shutil.copytree(folder, kept, dirs_exist_ok=True)
        print(f"the files are kept in {kept}", flush=True)
