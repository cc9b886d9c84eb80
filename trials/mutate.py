#!/usr/bin/env python3
"""Sends mutated associations to a server for a number of minutes, beside clients that keep a ledger of their own steps.

    trials/mutate.py [PROGRAM..] [--minutes 15] [--seed 1]      (default: crates/upsd/out/upsd)

A mutator sends one association after the other. Each is one of the valid ones of `fuzz.py`, or one that subscribes, and most
are mutated, one to four times:

    bytes       up to four bytes are replaced, or have a bit flipped
    order       two PDUs change places, one moves elsewhere, or all are shuffled
    lengths     the length of a PDU, of a PDV, or of anything at any place is changed: by a little, or to an extreme one
    cuts        it ends at any place
    repeats     a PDU is repeated up to twenty times, or some bytes within one come twice
    drops       a PDU is left out, or some bytes
    strangers   a PDU of another association comes in between, or any bytes

It sends them whole or in pieces, and then closes its side and reads on, hangs up, or resets the connection; one mutator instead
always stays silent and reads on. The server must hang up on one that reads on: at once if it has closed its side, otherwise
after the limit of 20 seconds. What is read must be whole PDUs. An association that isn't mutated must be accepted, and released
in the end. Nothing may take more than two minutes.

At the same time ledger clients, one in Explicit and one in Implicit VR Little Endian, create, claim, set, finish, cancel, get
and find steps of their own, under UIDs of a root that no mutation leads to. They compare the status of each reply, and each
attribute of each step that they are shown, with their ledger; in the end they do so with every step (`ledger.py`).

The server must go on, and in the end have the threads and the descriptors that it had at the start. SIGTERM must end it. What
is sent depends on --seed, the number of the mutator and that of the association, and not on the clock; with --count each
mutator but the silent one sends that many associations, and the minutes don't count. It prints how many associations and
mutations there were, by kind, how many replies agree with the ledgers, each fault, and in the end how many trials passed: the
associations, the replies to the ledgers, and what holds in the end. The status is 1 if any failed.
"""

from __future__ import annotations

import argparse
import collections
import os
import random
import signal
import socket
import struct
import sys
import threading
import time
from typing import Optional

sys.path.insert(0, os.path.join(os.path.dirname(os.path.dirname(os.path.abspath(__file__))), "check/lib"))
import fuzz
from abuse import descriptors, is_left, status, threads
from dicom import EXPLICIT, IMPLICIT, PULL, PUSH, RELEASE, act, associate, create, data, get, step
from ledger import SHOWN, Ledger
from machine import described, holds
from peer import HANGS_UP, READS_ON, RESETS, STAYS_SILENT, Speaker
from results import Results
from server import Server

MUTATORS, LEDGERS = 4, 2  # the last mutator stays silent
WORKERS = 6 * MUTATORS + LEDGERS  # an association that a mutator has left may still be served for a while
LIMIT = 20  # seconds: the limits of the server
PATIENCE = 120  # seconds in which anything must come
PAUSE = 0.02  # seconds between two requests of a ledger
FRESH = 200  # roots of UIDs that the mutated associations use: that many times their steps are new
EVERY = 40  # one in that many associations of a mutator is the first that uses a root
ROOT = b"1.2.3."  # that of the valid associations
WATCH = b"1.2.840.10008.5.1.4.34.6.2"
ALL_STEPS, SOME_STEPS = b"1.2.840.10008.5.1.4.34.5", b"1.2.840.10008.5.1.4.34.5.1"
WATCHER = "WATCHER=127.0.0.1:9"  # nobody listens there
EXTREMES = (0, 1, 2, 3, 5, 0xFF, 0x7FFF, 0xFFFF, 16384, 16385, 131072, 1_048_577, 0x7FFFFFFF, 0xFFFFFFFE, 0xFFFFFFFF)
WAYS = {READS_ON: 60, HANGS_UP: 20, RESETS: 20}  # in percent
SHARE = 20  # one in that many associations is not mutated

Pdus = list[bytes]


# the valid associations

def watching(explicit: bool) -> bytes:
    """Returns the requests of a step that is watched alone, by a filter and with all others. Presentation context 1 is push, 3
    is watch."""
    receiver = data(explicit, 0x0074, 0x1234, b"AE", b"WATCHER ")
    lock = data(explicit, 0x0074, 0x1230, b"LO", b"FALSE ")
    key = data(explicit, 0x0010, 0x0020, b"LO", b"P?")
    return b"".join((
        act(3, 1, ALL_STEPS, 3, lock + receiver), create(1, 2, ROOT + b"1", step(explicit)),
        act(3, 3, ROOT + b"1", 3, lock + receiver), act(3, 4, SOME_STEPS, 3, key + lock + receiver), create(1, 5, ROOT + b"2", step(explicit)),
        act(3, 6, ALL_STEPS, 5, receiver), act(3, 7, ROOT + b"1", 4, receiver), act(3, 8, ALL_STEPS, 4, receiver), get(3, 9, ROOT + b"2"),
    ))


def origins() -> list[Pdus]:
    """Returns the PDUs of each valid association."""
    whole = list(fuzz.seeds())
    for syntax, explicit in ((IMPLICIT, False), (EXPLICIT, True)):
        whole.append(associate([(PUSH, syntax), (WATCH, syntax), (PULL, syntax)]) + watching(explicit) + RELEASE)
    return [pdus_of(it) for it in whole if is_whole(it)]


def is_whole(said: bytes) -> bool:
    """Returns whether an association has whole PDUs alone, the last of which releases it."""
    pdus = pdus_of(said)
    return all(len(it) >= 6 and len(it) == 6 + int.from_bytes(it[2:6], "big") for it in pdus) and pdus[-1] == RELEASE


def pdus_of(said: bytes) -> Pdus:
    found = []
    while said:
        length = 6 + int.from_bytes(said[2:6], "big")
        found.append(said[:length])
        said = said[length:]
    return found


# the mutations

def change_bytes(chance: random.Random, pdus: Pdus) -> None:
    at, changed = pick(chance, pdus)
    for _ in range(chance.randint(1, 4)):
        place = chance.randrange(len(changed))
        changed[place] = chance.choice((chance.randrange(256), changed[place] ^ 1 << chance.randrange(8)))
    pdus[at] = bytes(changed)


def change_order(chance: random.Random, pdus: Pdus) -> None:
    kind, one, other = chance.randrange(3), chance.randrange(len(pdus)), chance.randrange(len(pdus))
    if kind == 0:
        pdus[one], pdus[other] = pdus[other], pdus[one]
    elif kind == 1:
        pdus.insert(other, pdus.pop(one))
    else:
        chance.shuffle(pdus)


def change_lengths(chance: random.Random, pdus: Pdus) -> None:
    at, changed = pick(chance, pdus)
    place = chance.choice((2, 6, chance.randrange(len(changed))))
    form = chance.choice((">I", ">I", "<I", ">H", "<H"))
    most = (1 << 8 * struct.calcsize(form)) - 1
    old = int.from_bytes(changed[place:place + struct.calcsize(form)], "big" if form[0] == ">" else "little")
    new = chance.choice((old + chance.choice((-8, -2, -1, 1, 2, 8)), chance.choice(EXTREMES)))
    changed[place:place + struct.calcsize(form)] = struct.pack(form, new & most)
    pdus[at] = bytes(changed)


def cut(chance: random.Random, pdus: Pdus) -> None:
    at, changed = pick(chance, pdus)
    pdus[at:] = [bytes(changed[:chance.randrange(len(changed))])]


def repeat(chance: random.Random, pdus: Pdus) -> None:
    at, changed = pick(chance, pdus)
    if chance.random() < 0.5:
        pdus[at:at] = [pdus[at]] * chance.randint(1, 20)
    else:
        place = chance.randrange(len(changed))
        changed[place:place] = changed[place:place + chance.randint(1, 300)]
        pdus[at] = bytes(changed)


def drop(chance: random.Random, pdus: Pdus) -> None:
    at, changed = pick(chance, pdus)
    if chance.random() < 0.5 and len(pdus) > 1:
        del pdus[at]
    else:
        place = chance.randrange(len(changed))
        del changed[place:place + chance.randint(1, 8)]
        pdus[at] = bytes(changed)


def insert_stranger(chance: random.Random, pdus: Pdus) -> None:
    stranger = chance.choice(chance.choice(ORIGINS)) if chance.random() < 0.7 else chance.randbytes(chance.randint(1, 200))
    pdus.insert(chance.randint(0, len(pdus)), stranger)


def pick(chance: random.Random, pdus: Pdus) -> tuple[int, bytearray]:
    """Returns the place of one of the PDUs that have bytes, and a copy of it."""
    at = chance.choice([i for i, it in enumerate(pdus) if it] or [0])
    return at, bytearray(pdus[at] or RELEASE)


ORIGINS = origins()
KINDS = {"bytes": change_bytes, "order": change_order, "lengths": change_lengths, "cuts": cut, "repeats": repeat, "drops": drop,
         "strangers": insert_stranger}


class Mutated(Speaker):
    """What a mutator sends in an association, by the seed and the numbers of both, and what comes of it."""

    def __init__(self, seed: object, mutator: int, number: int) -> None:
        self.name = f"association {number} of mutator {mutator}"
        self.chance = random.Random(f"{seed} {mutator} {number}")
        self.pdus = [it.replace(ROOT, self.root(number)) for it in self.chance.choice(ORIGINS)]
        self.kinds: list[str] = []
        if self.chance.randrange(SHARE):
            self.kinds = self.chance.choices(list(KINDS), k=self.chance.randint(1, 4))
        for kind in self.kinds:
            KINDS[kind](self.chance, self.pdus)
        way = self.chance.choices(list(WAYS), list(WAYS.values()))[0] if self.kinds else READS_ON
        super().__init__(b"".join(self.pdus), STAYS_SILENT if mutator == MUTATORS - 1 else way)

    def root(self, number: int) -> bytes:
        """Returns the root of its UIDs, of the same length. A new one comes only now and then, so that the steps don't become many."""
        known = min(number // EVERY, FRESH - 1)
        root = known if number % EVERY == 0 else self.chance.randint(0, known)
        return b"%d.%d.%d." % (1 + root // 100, root // 10 % 10, root % 10)

    def run(self, port: int) -> Optional[str]:
        """Returns why what came of it is not what must come, or None."""
        with socket.create_connection(("127.0.0.1", port), PATIENCE) as connection:
            try:
                self.say(connection)
                self.end(connection)
                return self.fault() if self.way in (READS_ON, STAYS_SILENT) else None
            except ConnectionError:
                return None if self.kinds else "it is reset"
            except TimeoutError:
                return f"it takes nothing, or isn't hung up on, within {PATIENCE} s where it {self.way}"

    def say(self, connection: socket.socket) -> None:
        """Sends it, whole or in pieces."""
        pieces = 1 if self.chance.random() < 0.7 else self.chance.randint(2, 20)
        size = len(self.said) // pieces + 1
        connection.setsockopt(socket.IPPROTO_TCP, socket.TCP_NODELAY, 1)
        for at in range(0, len(self.said), size):
            connection.sendall(self.said[at:at + size])

    def fault(self) -> Optional[str]:
        """Returns what is wrong with what it has heard, or None."""
        if not fuzz.are_pdus(self.heard):
            return f"it hears what is no whole PDUs: {self.heard[-100:].hex()}"
        if not self.kinds and (self.heard[:1] != b"\2" or not self.heard.endswith(b"\6\0\0\0\0\4\0\0\0\0")):
            return f"it isn't mutated, and hears {self.heard[-100:].hex()}"
        return None


class Mutator:
    """A mutator, which sends one association after the other, and counts them."""

    def __init__(self, port: int, seed: object, number: int, count: Optional[int]) -> None:
        self.port, self.seed, self.number, self.count = port, seed, number, count
        self.said = self.whole = 0
        self.kinds: collections.Counter[str] = collections.Counter()
        self.ways: collections.Counter[str] = collections.Counter()
        self.faults: list[str] = []
        self.now: Optional[Mutated] = None

    def run(self, over: threading.Event) -> None:
        while not over.is_set() and self.said != self.count:
            self.now = Mutated(self.seed, self.number, self.said)
            try:
                fault = self.now.run(self.port)
            except OSError as it:
                fault = repr(it)
            if over.is_set() and fault:
                return
            self.said += 1
            self.whole += not self.now.kinds
            self.kinds.update(self.now.kinds)
            self.ways[self.now.way] += 1
            if fault:
                self.faults.append(f"{self.now.name}: {fault}")


def listed(counted: collections.Counter[str]) -> str:
    return ", ".join(f"{name} {count:,}" for name, count in sorted(counted.items()))


def talk(server: Server, mutators: list[Mutator], ledgers: list[Ledger], seconds: float) -> Optional[str]:
    """Lets them talk until the time is over or the mutators are done, and returns why the server doesn't go on, or None."""
    over, done = threading.Event(), threading.Event()
    mutating = [threading.Thread(target=it.run, args=(over,), daemon=True) for it in mutators]
    keeping = [threading.Thread(target=it.run, args=(done, PAUSE), daemon=True) for it in ledgers]
    for it in mutating + keeping:
        it.start()
    end = time.monotonic() + seconds
    while time.monotonic() < end and any(it.is_alive() for it in mutating[:-1]) and server.process.poll() is None:
        time.sleep(0.2)
    over.set()
    for it in mutating:
        it.join(PATIENCE)
    done.set()
    for it in keeping:
        it.join(PATIENCE)
    if server.process.poll() is None:
        return None
    said = "\n".join(f"{it.now.name} says {it.now.said.hex()}" for it in mutators if it.now)
    return f"the server ended with {server.process.returncode}: {' '.join(server.log[-20:])}\n{said}"


def resources_fault(server: Server, before: tuple[int, int]) -> Optional[str]:
    """Returns why threads or descriptors are lost, or None."""
    is_left(server.port)
    if holds(lambda: threads(server) == before[0] and descriptors(server) <= before[1], PATIENCE):
        return None
    return f"{threads(server)} threads and {descriptors(server)} descriptors are left, and there were {before[0]} and {before[1]}"


def ended_fault(server: Server) -> Optional[str]:
    """Returns why SIGTERM doesn't end the server, or None."""
    server.process.send_signal(signal.SIGTERM)
    holds(lambda: server.process.poll() is not None, LIMIT)
    return None if server.process.poll() == -signal.SIGTERM else f"SIGTERM: it ended with {server.process.poll()}"


def words_of(log: list[str]) -> collections.Counter[str]:
    """Returns how often the log has each word for the end of an association."""
    return collections.Counter(it.split(" serve: ")[1].split()[0] for it in log if " serve: " in it and " #" in it)


def total(counted: list[collections.Counter[str]]) -> collections.Counter[str]:
    return sum(counted, collections.Counter())


def tell(mutators: list[Mutator], ledgers: list[Ledger], log: list[str]) -> None:
    """Prints the sums."""
    kinds, replies = total([it.kinds for it in mutators]), total([it.replies for it in ledgers])
    said, whole = sum(it.said for it in mutators), sum(it.whole for it in mutators)
    print(f"{said:,} associations, {said - whole:,} of them with {kinds.total():,} mutations: {listed(kinds)}")
    print(f"their ends: {listed(total([it.ways for it in mutators]))}")
    print(f"what the log tells, ledgers with it: {listed(words_of(log))}")
    print(f"{replies.total():,} replies to the ledgers, {sum(it.agreed for it in ledgers):,} agree: {listed(replies)}")


def judge_end(server: Server, ledgers: list[Ledger], before: tuple[int, int], memory: int, results: Results) -> None:
    """Prints and judges what is there in the end, but for what the ledgers list."""
    steps, good = sum(len(it.steps) for it in ledgers), sum(it.audit() for it in ledgers)
    lost = resources_fault(server, before)
    print(f"{steps:,} steps in the end, {good:,} agree; VmRSS {memory / 1024:.1f} MiB, and {status(server, 'VmRSS') / 1024:.1f} MiB in the end")
    results.tell("threads and descriptors in the end", lost)
    results.tell("SIGTERM", ended_fault(server))


def judge(kind: str, count: int, faults: list[str], results: Results, shown: Optional[int] = None) -> None:
    """Counts so many trials of a kind, of which those with these faults failed, and prints so many of these, or all."""
    for fault in faults[:shown]:
        results.tell(kind, fault)
    results.failed += len(faults) - len(faults[:shown])
    results.passed += max(count - len(faults), 0)


def tried(server: Server, given: argparse.Namespace, results: Results) -> None:
    """Runs everything."""
    ledgers = [Ledger(server.port, it, given.seed, PATIENCE) for it in range(LEDGERS)]
    for it in ledgers:
        it.begin()
    is_left(server.port)
    before, memory = (threads(server), descriptors(server)), status(server, "VmRSS")
    mutators = [Mutator(server.port, given.seed, it, given.count) for it in range(MUTATORS)]
    crash = talk(server, mutators, ledgers, given.minutes * 60 if given.count is None else sys.maxsize)
    results.tell("the server goes on", crash)
    if not crash:
        judge_end(server, ledgers, before, memory, results)
    tell(mutators, ledgers, list(server.log))
    for mutator in mutators:
        judge(f"mutator {mutator.number}", mutator.said, mutator.faults, results)
    for ledger in ledgers:
        judge(f"ledger {ledger.number}", ledger.replies.total(), ledger.faults, results, SHOWN)


def main() -> None:
    parser = described(__doc__, "*")
    parser.add_argument("--minutes", type=float, default=15, help="for how long (default: %(default)s)")
    parser.add_argument("--count", type=int, help="how many associations of each mutator, in place of the minutes")
    parser.add_argument("--seed", type=int, default=1, help="where the mutations come from (default: %(default)s)")
    given = parser.parse_args()
    limits = ["--associations", str(WORKERS), "--timeout", str(LIMIT), "--idle", str(LIMIT), "--keep", "4000000"]
    with Server(given.program, *limits, WATCHER) as server:
        results = Results(tells_passed=False)
        tried(server, given, results)
    results.end()


if __name__ == "__main__":
    main()
