#!/usr/bin/env python3
"""Measures `upsd serve`: requests a second and the server's processor time for each, at 1, 4 and 12 associations.

It starts the server on a free port of this machine, with as many workers as there are associations, and ends by itself.
Each association is a process of its own that sends one request at a time and waits for its answer. These processes take
more time than the server does, so the requests a second are those of the clients; the processor time is the server's
alone, by the clock that the system keeps for it. Before that, eight associations claim the same hundred steps at the same
moment, and each step has to go to one of them. If DCMTK is installed, its storescp is asked for C-ECHO in the same way,
for comparison; so is bench/echo.c, the least that a server does for one, if gcc is installed. The last line then compares
the processor time of a C-ECHO with that.

With --calls it counts the server's system calls for each request instead, by strace, over 1,000 requests of each kind on
one association, with the C library's memory as it is by default and with one arena (MALLOC_ARENA_MAX=1).

Usage: bench/serve.py [--calls] [PROGRAM]        (crates/upsd/out/upsd, which `rt run` builds)
"""

import contextlib
import functools
import multiprocessing
import os
import shutil
import signal
import subprocess
import sys
import tempfile
import time

sys.path.insert(0, os.path.join(os.path.dirname(os.path.dirname(os.path.abspath(__file__))), "check/lib"))
from dicom import create, echo, find, get, set_attributes
from machine import free_port, holds, listens, processor
from peer import ECHO_ON, PULL_ON, PUSH_ON, Peer, a_step, claim, finish, progress, told
from server import Server

CLAIMED = 0x0000
TAKEN = 0xC302


def one_echo(peer, me, i):
    return peer.ask(echo(1, ECHO_ON))


def one_get(peer, me, i):
    return peer.ask(get(PUSH_ON, 1, b"1.2.0.%d" % (i % 10)))


def one_find(peer, me, i):
    keys = told(0x0008, 0x0018, b"UI", b"") + told(0x0010, 0x0020, b"LO", b"P%d" % (i % 10))
    return peer.ask(find(PULL_ON, 1, keys))


def one_find_of_all(peer, me, i):
    return peer.ask(find(PULL_ON, 1, told(0x0008, 0x0018, b"UI", b"") + told(0x0010, 0x0020, b"LO", b"")))


def one_set(peer, me, i):
    return peer.ask(set_attributes(PULL_ON, 1, b"1.2.0.%d" % (i % 10), told(0x0074, 0x1204, b"LO", b"MR READ ")))


def one_create(peer, me, i):
    return peer.ask(create(PUSH_ON, 1, b"1.3.%d.%d" % (me, i), a_step(b"L")))


def one_life(peer, me, i):
    instance, transaction = b"1.3.%d.%d" % (me, i), b"2.%d" % me
    return (peer.ask(create(PUSH_ON, 1, instance, a_step(b"L"))) or peer.ask(claim(1, instance, transaction))
            or peer.ask(progress(1, instance, transaction)) or peer.ask(finish(1, instance, transaction)))


def worker(port, me, count, one, again, barrier, results):
    """Asks `count` times, and tells how often the answer was 0000."""
    peer = None if again else Peer(port)
    barrier.wait()
    good = 0
    for i in range(count):
        if again:
            peer = Peer(port)
        good += one(peer, me, i) == 0
        if again:
            peer.release()
    results.put(good)
    if not again:
        peer.release()


def claimer(port, me, barrier, results):
    peer = Peer(port)
    barrier.wait()
    results.put([peer.ask(claim(1, b"1.2.0.%d" % i, b"2.%d" % (me + 1))) for i in range(100)])
    peer.release()


class Measured(Server):
    """A server with this many workers, whose log nobody reads."""

    def __init__(self, program, workers, **variables):
        super().__init__([program], "--associations", str(workers), error=subprocess.DEVNULL, **variables)

    def fill(self, steps):
        peer = Peer(self.port)
        for i in range(steps):
            assert peer.ask(create(PUSH_ON, 1, b"1.2.0.%d" % i, a_step(b"P%d" % i))) == 0
        peer.release()


class Least(Measured):
    """bench/echo.c: the least that a server does for a C-ECHO."""

    def __init__(self, words, _):
        self.begin(words, subprocess.DEVNULL)
        self.port = self.printed()


class Storescp(Measured):
    """DCMTK's server, which serves one association at a time."""

    def __init__(self):
        self.port = free_port()
        # Without this it writes an answer in two parts, and the second waits 40 ms for the client's kernel.
        self.begin(["storescp", str(self.port)], subprocess.DEVNULL, variables={"TCP_NODELAY": "1"})
        if not holds(lambda: listens(self.port), 10):
            sys.exit("storescp does not listen")

    def fill(self, steps):
        pass


def race(program):
    """Has eight associations claim the same hundred steps; each step has to go to one."""
    with Measured(program, 8) as server:
        server.fill(100)
        barrier, results = multiprocessing.Barrier(8), multiprocessing.Queue()
        peers = [multiprocessing.Process(target=claimer, args=(server.port, i, barrier, results)) for i in range(8)]
        for it in peers:
            it.start()
        told = [results.get(timeout=60) for _ in peers]
        for it in peers:
            it.join()
    for statuses in zip(*told):
        assert sorted(statuses) == [CLAIMED] + 7 * [TAKEN], statuses
    print("8 associations claimed 100 steps at the same moment: each went to one of them")


def measure(start, name, steps, count, one, each=1, again=False, most=12):
    """Prints a row, and returns the server's microseconds for each request."""
    cells, took = [], []
    for associations in (1, 4, 12):
        if associations > most:
            cells.append("")
            continue
        with start(associations) as server:
            server.fill(steps)
            barrier, results = multiprocessing.Barrier(associations + 1), multiprocessing.Queue()
            peers = [multiprocessing.Process(target=worker, args=(server.port, i, count, one, again, barrier, results)) for i in range(associations)]
            for it in peers:
                it.start()
            barrier.wait()
            before, began = processor(server.process.pid), time.monotonic()
            good = sum(results.get(timeout=120) for _ in peers)
            seconds, used = time.monotonic() - began, processor(server.process.pid) - before
            for it in peers:
                it.join()
            assert good == associations * count, (name, good)
            requests = associations * count * each
            took.append(used / requests * 1e6)
            cells.append(f"{requests / seconds:,.0f}, {took[-1]:.1f} us")
    print(f"| {name} | " + " | ".join(cells) + " |", flush=True)
    return took


@contextlib.contextmanager
def compiled_echo():
    """Gives bench/echo.c as a program, compiled by gcc."""
    with tempfile.TemporaryDirectory() as folder:
        source, program = os.path.join(os.path.dirname(os.path.abspath(__file__)), "echo.c"), os.path.join(folder, "echo")
        subprocess.run(["gcc", "-O2", "-pthread", "-o", program, source], check=True)
        yield program


def measure_echo(start):
    """Measures a C-ECHO; if gcc is installed, also the least for one, and returns a line that compares them."""
    took = measure(start, "C-ECHO", 0, 10_000, one_echo)
    if not shutil.which("gcc"):
        return None
    with compiled_echo() as program:
        least = measure(functools.partial(Least, [program]), "C-ECHO, of bench/echo.c", 0, 10_000, one_echo)
    return "a C-ECHO takes the processor " + ", ".join(f"{a / b:.2f}" for a, b in zip(took, least)) + " times what bench/echo.c takes"


def calls_of(program, one, **variables):
    """Returns the server's system calls for a request, by name, the average of 1,000."""
    with Measured(program, 1, **variables) as server, tempfile.NamedTemporaryFile("r") as counted:
        peer = Peer(server.port)
        for i in range(10):
            assert peer.ask(create(PUSH_ON, 1, b"1.2.0.%d" % i, a_step(b"P%d" % i))) == 0
        words = ["strace", "-f", "-c", "-o", counted.name, "-p", str(server.process.pid)]
        with subprocess.Popen(words, stderr=subprocess.PIPE, text=True) as strace:
            strace.stderr.readline()  # strace has attached
            assert all(one(peer, 0, i) == 0 for i in range(1_000))
            strace.send_signal(signal.SIGINT)
        peer.release()
        rows = [line.split() for line in counted]
        counts = {row[-1]: int(row[3]) / 1_000 for row in rows if len(row) > 4 and row[-1] != "total" and row[0][0].isdigit()}
        return ", ".join(f"{name} {count:.2f}" for name, count in counts.items() if count >= 0.005)


def count_calls(program):
    print("| system calls for each request | | one arena |\n|---|---|---|")
    for name, one in (("C-ECHO", one_echo), ("N-GET", one_get), ("N-CREATE", one_create), ("C-FIND by patient ID, 10 steps", one_find)):
        print(f"| {name} | {calls_of(program, one)} | {calls_of(program, one, MALLOC_ARENA_MAX='1')} |", flush=True)


def main():
    words = [it for it in sys.argv[1:] if it != "--calls"]
    if len(words) > 1 or words and words[0].startswith("-"):
        print(__doc__)
        return
    program = words[0] if words else "crates/upsd/out/upsd"
    if "--calls" in sys.argv[1:]:
        count_calls(program)
        return
    start = functools.partial(Measured, program)
    race(program)
    print("| requests a second, and processor time of the server for each | 1 association | 4 | 12 |")
    print("|---|---|---|---|")
    beside = measure_echo(start)
    if shutil.which("storescp"):
        measure(lambda _: Storescp(), "C-ECHO, of DCMTK's storescp", 0, 10_000, one_echo, most=1)
    measure(start, "open, C-ECHO, release", 0, 1_000, one_echo, again=True)
    measure(start, "N-GET, 10 steps", 10, 5_000, one_get)
    measure(start, "N-SET, 10 steps", 10, 2_000, one_set)
    measure(start, "N-CREATE", 0, 200, one_create)
    measure(start, "C-FIND by patient ID, 10 steps", 10, 2_000, one_find)
    measure(start, "C-FIND by patient ID, 1,000 steps", 1000, 500, one_find)
    measure(start, "C-FIND by nothing, 10 steps", 10, 500, one_find_of_all)
    measure(start, "C-FIND by nothing, 1,000 steps", 1000, 20, one_find_of_all)
    measure(start, "life cycle: create, claim, set, cancel", 0, 100, one_life, each=4)
    if beside:
        print(beside)


if __name__ == "__main__":
    main()
