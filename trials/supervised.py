#!/usr/bin/env python3
"""Tries what `upsd serve` tells a supervisor such as systemd (sd_notify(3)), by a socket that stands in for it.

    trials/supervised.py [PROGRAM]      (default: crates/upsd/out/upsd)

The server has to say READY=1 once it listens and its threads have begun, and not before; WATCHDOG=1 each second, with a STATUS
that has its requests, how many of them are committed, and its workers; and nothing more once its store is lost, so that a
supervisor starts it anew. For that, another store takes the place of the file while the server runs, and a sync fails (by
strace): the server opens the file again, and finds other requests. It also has to serve as ever where no supervisor asks to be
told, nobody reads, or the path of the socket is none.

A start whose reads of its store are slow (by strace) has to tell each line that it logs meanwhile as its STATUS, with a time to
wait for the next one (EXTEND_TIMEOUT_USEC), and READY=1 after all of them. A server whose threads can't be started, since its
account may have no more, is never ready.

It prints a line for each check, and then `N passed, M failed`. The status is 1 if any failed. The lost store and the slow start
need strace, and the account root: they are left out without it.
"""

from __future__ import annotations

import contextlib
import os
import re
import resource
import shutil
import socket
import sys
import tempfile
import time
from collections.abc import Iterator
from typing import Optional

sys.path[:0] = [os.path.join(os.path.dirname(os.path.dirname(os.path.abspath(__file__))), it) for it in ("check/lib", "trials")]
from disks import SERVES, Failing, Failure, attached
from machine import described, holds, listens, pid_of
from results import Results
from server import Server
from stored import Client, Stored, a_step_of, make_store

ROUNDS = 4  # seconds for which the messages of each second are counted
SLACK = 2  # how many more or fewer may come in them
QUIET = 5  # seconds without a message after which a server is taken for silent
MINUTE = 75.0  # seconds in which the log tells again why nothing can be committed
SLOW, ROWS, STARTS = 2_000, 6_000, 60.0  # microseconds of a read, requests of a store, and seconds in which a start is over
PATIENCE = 300_000_000  # microseconds until the next line of a start
NOBODY, THREADS = 65534, 8  # an account without rights, and how many threads it may have: fewer than a server needs
SWEPT = 15.0  # seconds in which a canceled step is removed
MEMORY = 3  # the exit status of a server whose threads can't be started
STATUS = re.compile(r"STATUS=(\d+) requests(?:, (\d+) committed)?; (\d+) of (\d+) workers taken$", re.MULTILINE)


class Supervisor:
    """A socket that stands in for a supervisor, and what it was told."""

    def __init__(self, path: str) -> None:
        self.path = path
        self.socket = socket.socket(socket.AF_UNIX, socket.SOCK_DGRAM)
        self.socket.bind("\0" + path[1:] if path.startswith("@") else path)
        self.told: list[str] = []

    def hear(self, seconds: float) -> list[str]:
        """Returns what it is told within some seconds."""
        heard, until = [], time.monotonic() + seconds
        while (left := until - time.monotonic()) > 0:
            self.socket.settimeout(left)
            with contextlib.suppress(TimeoutError):
                heard.append(self.socket.recv(4096).decode())
        self.told += heard
        return heard

    def __enter__(self) -> Supervisor:
        return self

    def __exit__(self, *_: object) -> None:
        self.socket.close()


def is_ready_when_it_listens(program: list[str], supervisor: Supervisor, results: Results) -> None:
    """Checks the first message of a server, and those of its first seconds."""
    with Server(program, NOTIFY_SOCKET=supervisor.path) as server:
        heard = supervisor.hear(ROUNDS)
        results.tell("READY=1 comes first", None if heard[:1] == ["READY=1"] else f"{heard[:2]}")
        results.tell("the server listens then", None if listens(server.port) else "it doesn't")
        rounds = [it for it in heard if it.startswith("WATCHDOG=1")]
        results.tell("WATCHDOG=1 comes each second", None if abs(len(rounds) - ROUNDS) <= SLACK else f"{len(rounds)} in {ROUNDS} s")
        others = [it for it in heard[1:] if not STATUS.search(it)]
        results.tell("each has a status", f"{others[:2]}" if others else None)


def is_not_ready_before(program: list[str], folder: str, results: Results) -> None:
    """Checks that a server that can't listen never says that it is ready."""
    with Supervisor(os.path.join(folder, "refused")) as supervisor, Server(program) as first:
        second = Server.__new__(Server)
        second.begin([*program, "serve", "--ae", "UPSD", "--port", str(first.port)], variables={"NOTIFY_SOCKET": supervisor.path})
        second.process.wait(10)
        heard = supervisor.hear(0.5)
        results.tell("a server that can't listen is never ready", f"{heard}" if heard else None)


def numbers_of(heard: list[str]) -> Optional[tuple[Optional[str], ...]]:
    """Returns the numbers of the last status."""
    found = [STATUS.search(it) for it in heard]
    return found[-1].groups() if found and found[-1] else None


def status_has_the_numbers(program: list[str], supervisor: Supervisor, file: Optional[str], results: Results) -> None:
    """Checks the numbers of the status while a client has asked for five steps, and one of them twice."""
    options = ["--associations", "7", *(["--store", file] if file else [])]
    with Server(program, *options, NOTIFY_SOCKET=supervisor.path) as server:
        client = Client(server.port)
        for at in range(5):
            client.create(b"1.2.3.%d" % at, a_step_of(b"P"))
        client.create(b"1.2.3.4", a_step_of(b"P"))
        wanted = ("5", "5" if file else None, "1", "7")
        named = "a status has the numbers" + (", with a store" if file else "")
        heard = supervisor.hear(3)
        results.tell(named, None if numbers_of(heard) == wanted else f"{numbers_of(heard)}, and {wanted} is so")


def a_lost_store_is_silent(program: list[str], folder: str, supervisor: Supervisor, results: Results) -> None:
    """Checks that a server whose store is lost says nothing more, and goes on otherwise."""
    file, other = os.path.join(folder, "store"), os.path.join(folder, "other")
    for it in (file, other):
        make_store(program, it)
    with Server(program, "--store", file, NOTIFY_SOCKET=supervisor.path) as server:
        client = Client(server.port)
        client.create(b"1.2.3.1", a_step_of(b"P"))
        supervisor.hear(1.5)
        for end in ("", "-wal"):
            if os.path.exists(file + end):
                os.remove(file + end)
            if os.path.exists(other + end):
                os.rename(other + end, file + end)
        strace = attached(Failure((Failing("fdatasync", "EIO", "1+"),), SERVES), file, pid_of(server.process))
        with contextlib.suppress(OSError, EOFError):
            Client(server.port, seconds=2).create(b"1.2.3.2", a_step_of(b"P"))
        strace.terminate()
        strace.wait()
        is_lost = holds(lambda: any("the store is lost" in line for line in server.log), MINUTE)
        results.tell("another store in its place is told as lost", None if is_lost else f"{server.log[-3:]}")
        supervisor.hear(1.5)
        heard = supervisor.hear(QUIET)
        results.tell("a server with a lost store says nothing more", f"{len(heard)} messages" if heard else None)
        results.tell("its process goes on", None if server.process.poll() is None else f"status {server.process.returncode}")


def a_start_is_told(program: list[str], folder: str, supervisor: Supervisor, results: Results) -> None:
    """Checks what a server tells while it reads its store, each read of which takes a while."""
    file = os.path.join(folder, "slow")
    with Stored(program, file) as server:
        client = Client(server.port)
        for at in range(ROWS):
            client.create(b"1.2.3.%d" % at, a_step_of(b"P"))
        client.release()
    slow = ["env", f"NOTIFY_SOCKET={supervisor.path}", "strace", "-f", "-D", "-o", os.devnull, "-P", file, "-P", f"{file}-wal",
            "-e", "trace=pread64", "-e", f"inject=pread64:delay_enter={SLOW}"]
    with Stored([*slow, *program], file, waits=False) as server:
        heard: list[str] = []
        holds(lambda: heard.extend(supervisor.hear(0.2)) or "READY=1" in heard, STARTS)
        log = [line.partition("] ")[2] for line in list(server.log)]
        before = heard[:heard.index("READY=1")] if "READY=1" in heard else heard
        results.tell("a slow start is ready at its end", None if "READY=1" in heard else f"{heard[-2:]}")
        found = [re.fullmatch(rf"EXTEND_TIMEOUT_USEC={PATIENCE}\nSTATUS=(.*)", it) for it in before]
        told = [it[1] for it in found if it]
        others = [it for it, one in zip(before, found) if not one]
        results.tell("until then it asks for more time with each line", f"{others[:2]}" if others else None)
        wanted = [line for line in log if line.startswith("store: ")]
        results.tell("its lines are those of the log", None if told == wanted and len(told) > 1 else f"{told}, and the log has {wanted}")
        again = [it for it in supervisor.hear(2.5) if "EXTEND" in it or "READY" in it]
        results.tell("and it asks for no more time later", f"{again[:2]}" if again else None)


def a_server_without_threads_is_never_ready(program: list[str], folder: str, results: Results) -> None:
    """Checks a server of an account that may have fewer threads than it needs."""
    def become_nobody() -> None:
        os.setgid(NOBODY)
        os.setuid(NOBODY)
        resource.setrlimit(resource.RLIMIT_NPROC, (THREADS, THREADS))

    own = os.path.join(folder, "upsd")
    shutil.copyfile(program[0], own)
    for it, mode in ((folder, 0o755), (own, 0o755)):
        os.chmod(it, mode)
    with Supervisor(os.path.join(folder, "threads.socket")) as supervisor:
        os.chmod(supervisor.path, 0o777)
        server = Server.__new__(Server)
        server.begin([own, *program[1:], "serve", "--ae", "UPSD", "--port", "0"], prepare=become_nobody,
                     variables={"NOTIFY_SOCKET": supervisor.path})
        ends = holds(lambda: server.process.poll() is not None, STARTS)
        heard = supervisor.hear(0.5)
        server.stop()
    results.tell("a server without threads ends", None if ends and server.process.returncode == MEMORY else f"{server.process.returncode}: {server.log[-3:]}")
    results.tell("and is never ready", f"{heard}" if any("READY" in it for it in heard) else None)


def a_full_socket_keeps_nobody_waiting(program: list[str], folder: str, results: Results) -> None:
    """Checks a server whose supervisor reads nothing, when the system takes no more for it: its rounds have to go on."""
    with Supervisor(os.path.join(folder, "full.socket")) as supervisor, socket.socket(socket.AF_UNIX, socket.SOCK_DGRAM) as other:
        other.setblocking(False)
        with contextlib.suppress(BlockingIOError):
            while True:
                other.sendto(b"WATCHDOG=1", supervisor.path)
        with Server(program, "--keep", "0", NOTIFY_SOCKET=supervisor.path) as server:
            client = Client(server.port)
            statuses = client.create(b"1.2.3.1", a_step_of(b"P")), client.cancel(b"1.2.3.1")
            is_swept = holds(lambda: client.got(b"1.2.3.1") is None, SWEPT)
        results.tell("with a socket that takes nothing, a step is created, canceled and swept", None if is_swept and not any(statuses) else f"{statuses}")


def sockets(folder: str) -> Iterator[tuple[str, dict[str, str]]]:
    """Yields settings of the environment under which nobody is told."""
    yield "without a supervisor", {}
    yield "with an empty path", {"NOTIFY_SOCKET": ""}
    yield "with a path that nothing has", {"NOTIFY_SOCKET": os.path.join(folder, "nothing")}
    yield "with a path that is too long", {"NOTIFY_SOCKET": os.path.join(folder, "x" * 200)}


def main() -> None:
    asked = described(__doc__, "?")
    program, results = [os.path.abspath(asked.parse_args().program)], Results()
    with tempfile.TemporaryDirectory() as folder:
        for path in (os.path.join(folder, "supervisor"), f"@upsd-supervised-{os.getpid()}"):
            with Supervisor(path) as supervisor:
                is_ready_when_it_listens(program, supervisor, results)
        is_not_ready_before(program, folder, results)
        for file in (None, os.path.join(folder, "numbers")):
            if file:
                make_store(program, file)
            with Supervisor(os.path.join(folder, f"numbers{bool(file)}.socket")) as supervisor:
                status_has_the_numbers(program, supervisor, file, results)
        if shutil.which("strace"):
            with Supervisor(os.path.join(folder, "lost.socket")) as supervisor:
                a_lost_store_is_silent(program, folder, supervisor, results)
            with Supervisor(os.path.join(folder, "slow.socket")) as supervisor:
                a_start_is_told(program, folder, supervisor, results)
        if os.geteuid() == 0:
            a_server_without_threads_is_never_ready(program, folder, results)
        a_full_socket_keeps_nobody_waiting(program, folder, results)
        for named, variables in sockets(folder):
            with Server(program, **variables) as server:
                status = Client(server.port).create(b"1.2.3.1", a_step_of(b"P"))
                results.tell(f"{named}, a step is created", None if status == 0 else f"{status:04X}")
    results.end()


if __name__ == "__main__":
    main()
