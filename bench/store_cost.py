"""Measures what a store costs: a server's processor time for each accepted request and its requests a second, over four
associations, with a store and without one; and how long a sync of this disk takes.

Each association is a process. It sends a request and waits for its answer, or, in the last kind, has some requests on the way.
Servers with a store and without one are asked in turn. strace imitates a slower disk, by letting each sync take longer: its own
processor time counts too, so only the requests a second are meaningful then.
"""

from __future__ import annotations

import argparse
import dataclasses
import functools
import multiprocessing
import os
import statistics
import time
from multiprocessing.synchronize import Barrier
from typing import Optional

from dicom import create
from machine import pid_of, processor
from peer import PUSH_ON
from results import Results
from serve import one_create, one_life
from server import Server
from stored import Client, Stored, a_step_of, folder_for

ASSOCIATIONS = 4
SYNCS = 400
ON_THE_WAY = 16  # requests of an association, in the last kind
RATIO = 1.3  # at most, of the processor time with a store to that without
QUICK, SLOW = (0.0001, 5_000), (0.001, 1_500)  # seconds of a sync, and requests a second at least


def sync_time(folder: str) -> float:
    """Returns the median seconds of a sync of 4 KiB at the end of a file."""
    times, path = [], os.path.join(folder, "synced")
    with open(path, "wb", buffering=0) as opened:
        for _ in range(SYNCS):
            opened.write(os.urandom(4096))
            began = time.perf_counter()
            os.fdatasync(opened.fileno())
            times.append(time.perf_counter() - began)
    os.remove(path)
    return statistics.median(times)


def least_rate(sync: float) -> float:
    """Returns how many requests a second are due at this time of a sync: the time of each grows evenly, through QUICK and SLOW."""
    (quick, most), (slow, least) = QUICK, SLOW
    if sync <= quick:
        return most
    each = 1 / most + (sync - quick) / (slow - quick) * (1 / least - 1 / most)
    return 1 / each


def waits_for_each(port: int, me: int, count: int, barrier: Barrier, is_life: bool) -> None:
    """Asks for `count` creations or lives, one after the other."""
    peer = Client(port, b"STATION%d" % me)
    one = one_life if is_life else one_create
    barrier.wait()
    for i in range(count):
        assert one(peer, me, i) == 0
    barrier.wait()
    peer.release()


def has_some_on_the_way(port: int, me: int, count: int, barrier: Barrier) -> None:
    """Creates `count` steps, with some requests on the way."""
    peer, given = Client(port, b"STATION%d" % me), a_step_of(b"L")
    barrier.wait()
    asked = answered = 0
    while answered < count:
        if asked < count and asked - answered <= ON_THE_WAY // 2:
            more = min(ON_THE_WAY // 2, count - asked)
            peer.socket.sendall(b"".join(create(PUSH_ON, 1, b"1.4.%d.%d" % (me, asked + i), given) for i in range(more)))
            asked += more
        assert peer.answer() == 0
        answered += 1
    barrier.wait()
    peer.release()


KINDS = {
    "create, one after the other": (functools.partial(waits_for_each, is_life=False), 1),
    "create, claim, set, cancel": (functools.partial(waits_for_each, is_life=True), 4),
    f"create, {ON_THE_WAY} on the way": (has_some_on_the_way, 1),
}


@dataclasses.dataclass(frozen=True)
class Cost:
    """A server's processor time for each request, the system's part of it, that of the thread that commits, and the requests a
    second."""

    used: float
    of_system: float
    of_commits: float
    rate: float


def of_system(pid: int) -> float:
    """Returns the processor seconds that the system has run for a process."""
    with open(f"/proc/{pid}/stat", encoding="utf-8") as it:
        return int(it.read().rpartition(") ")[2].split()[12]) / os.sysconf("SC_CLK_TCK")


def of_commits(pid: int) -> float:
    """Returns the processor seconds of a server's first thread, which sweeps, and commits if there is a store."""
    with open(f"/proc/{pid}/task/{pid}/schedstat", encoding="utf-8") as it:
        return int(it.read().split()[0]) / 1e9


def measured(server: Server, pid: int, kind: str, count: int) -> Cost:
    """Returns what `count` requests of a kind cost on each association."""
    ask, each = KINDS[kind]
    count = max(1, count // each)
    barrier = multiprocessing.Barrier(ASSOCIATIONS + 1)
    askers = [multiprocessing.Process(target=ask, args=(server.port, it, count, barrier), daemon=True) for it in range(ASSOCIATIONS)]
    for it in askers:
        it.start()
    barrier.wait(60)
    before, began = (processor(pid), of_system(pid), of_commits(pid)), time.monotonic()
    barrier.wait(600)
    seconds, after = time.monotonic() - began, (processor(pid), of_system(pid), of_commits(pid))
    for it in askers:
        it.join(60)
    requests = ASSOCIATIONS * count * each
    used, system, commits = ((now - then) / requests for now, then in zip(after, before))
    return Cost(used, system, commits, requests / seconds)


def slowed(program: list[str], slow: int) -> list[str]:
    """Returns the command of a program whose syncs each take `slow` microseconds longer."""
    if not slow:
        return program
    return ["strace", "-f", "--seccomp-bpf", "-qq", "-o", "/dev/null", "-e", "trace=fdatasync", "-e", f"inject=fdatasync:delay_exit={slow}", *program]


def one_run(program: list[str], folder: Optional[str], kind: str, count: int) -> Cost:
    """Returns the cost on a new server, with a store in a folder or without one."""
    if folder is None:
        with Server(program, "--associations", str(ASSOCIATIONS)) as server:
            return measured(server, pid_of(server.process), kind, count)
    file = os.path.join(folder, "cost")
    for it in (file, file + "-wal"):
        if os.path.exists(it):
            os.remove(it)
    with Stored(program, file, "--associations", str(ASSOCIATIONS)) as stored:
        return measured(stored, stored.pid, kind, count)


def told_of(cost: Cost) -> str:
    return f"{cost.used * 1e6:.1f} us, {cost.of_system * 1e6:.1f}"


def run(program: list[str], given: argparse.Namespace, results: Results) -> None:
    with folder_for(given.folder) as folder:
        sync = sync_time(folder) + given.slow / 1e6
        wanted = least_rate(sync)
        print(f"a sync of 4 KiB takes {sync * 1000:.3f} ms in the median; load {os.getloadavg()[0]:.1f} on {os.cpu_count()} processors")
        print(f"| {ASSOCIATIONS} associations | without a store, of the system | with one | to commit | times | a second without | with one |",
              flush=True)
        print("|---|---|---|---|---|---|---|", flush=True)
        ratios, rates = {}, {}
        for kind in KINDS:
            without, stored = [], []
            for _ in range(given.rounds):
                without.append(one_run(program, None, kind, given.requests))
                stored.append(one_run(slowed(program, given.slow), folder, kind, given.requests))
            one, other = min(without, key=lambda it: it.used), min(stored, key=lambda it: it.used)
            rates[kind], ratios[kind] = max(it.rate for it in stored), other.used / one.used
            print(f"| {kind} | {told_of(one)} | {told_of(other)} | {other.of_commits * 1e6:.1f} us | {ratios[kind]:.2f} | "
                  f"{max(it.rate for it in without):,.0f} | {rates[kind]:,.0f} |", flush=True)
        after = sync_time(folder) + given.slow / 1e6
        print(f"a sync took {after * 1000:.3f} ms in the median behind it", flush=True)
    if not given.judge:
        results.tell("all was measured", None)
        return
    for kind, it in ratios.items() if not given.slow else ():
        results.tell(f"processor time, {kind}", None if it <= RATIO else f"it is {it:.2f} times that without a store")
    best = max(rates.values())
    results.tell("accepted requests a second", None if best >= wanted else f"{best:,.0f}, and {wanted:,.0f} are due by the time of a sync")
