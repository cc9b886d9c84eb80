#!/usr/bin/env python3
"""Measures what `--audit` costs a request, in microseconds.

    bench/audit.py [PROGRAM]      (default: crates/upsd/out/upsd)

Two servers, one with --audit, take turns: in each of eight rounds a new server gets 20,000 requests of a kind over one association, a
hundred at a time, and the log goes to a process that reads it. It prints the least that a request took, by the processor time of
the worker that answered it, by that of the whole server, with the thread that writes the log, and by the clock; and what the log
adds. Lines that were lost would make it less, so they are counted, too. A machine that does something else makes all of them
longer, and an N-CREATE takes memory, whose time differs from run to run.
"""

from __future__ import annotations

import os
import subprocess
import sys
import tempfile
import time
from collections.abc import Callable

sys.path.insert(0, os.path.join(os.path.dirname(os.path.dirname(os.path.abspath(__file__))), "check/lib"))
from dicom import create, get
from machine import processor, used_by
from peer import PUSH_ON, Peer, a_step
from server import Server

ROUNDS, ASKED, TOGETHER, STEPS = 8, 20_000, 100, 10
CLOCKS = ("worker", "server", "clock")


def creation(i: int) -> bytes:
    return create(PUSH_ON, i % 60_000 + 1, b"1.2.840.99.1.%d" % i, a_step(b"P1"))


def look(i: int) -> bytes:
    return get(PUSH_ON, i % 60_000 + 1, b"1.2.840.99.1.%d" % (i % STEPS))


KINDS = {"Create": creation, "Get": look}  # by the word of the audit


def ask(peer: Peer, one: Callable[[int], bytes], first: int, count: int) -> None:
    """Asks for that many requests, `TOGETHER` at a time."""
    for begin in range(first, first + count, TOGETHER):
        peer.socket.sendall(b"".join(one(i) for i in range(begin, begin + TOGETHER)))
        for _ in range(TOGETHER):
            assert peer.reply().status == 0


def threads_of(pid: int) -> dict[int, int]:
    """Returns the nanoseconds that each thread has run."""
    return {int(it): used_by(pid, int(it)) for it in os.listdir(f"/proc/{pid}/task")}


def measured(program: str, kind: str, *options: str) -> tuple[tuple[float, ...], int]:
    """Returns the microseconds of a request of a kind by each clock, and how many lines about it were lost if it was audited."""
    with tempfile.NamedTemporaryFile() as log, subprocess.Popen(["cat"], stdin=subprocess.PIPE, stdout=log.fileno()) as reader:
        assert reader.stdin
        with Server([program], "--associations", "1", *options, error=reader.stdin.fileno()) as server:
            peer, pid = Peer(server.port), server.process.pid
            ask(peer, creation, 0, TOGETHER)
            threads, whole, began = threads_of(pid), processor(pid), time.monotonic()
            ask(peer, KINDS[kind], TOGETHER, ASKED)
            seconds, used = time.monotonic() - began, processor(pid) - whole
            worker = max(now - threads[it] for it, now in threads_of(pid).items() if it in threads)
            peer.release()
        reader.stdin.close()
        reader.wait()
        with open(log.name, encoding="utf-8") as written:
            lines = sum(f"audit: {kind} " in line for line in written) - (TOGETHER if kind == "Create" else 0)
    return (worker / 1e3 / ASKED, used * 1e6 / ASKED, seconds * 1e6 / ASKED), ASKED - lines if options else 0


def main() -> None:
    words = sys.argv[1:]
    if len(words) > 1 or words and words[0].startswith("-"):
        print(__doc__)
        return
    program = words[0] if words else "crates/upsd/out/upsd"
    print("| us for a request | | without | with --audit | more |\n|---|---|---|---|---|")
    lost = 0
    for kind in KINDS:
        least: dict[str, list[tuple[float, ...]]] = {"": [], "--audit": []}
        for _ in range(ROUNDS):
            for option, rows in least.items():
                times, lines = measured(program, kind, *option.split())
                rows.append(times)
                lost += lines
        for at, name in enumerate(CLOCKS):
            without, audited = (min(it[at] for it in rows) for rows in least.values())
            print(f"| {kind} | {name} | {without:.2f} | {audited:.2f} | {audited - without:.2f} |")
    print(f"{lost} of {len(KINDS) * ROUNDS * ASKED} lines were lost")


if __name__ == "__main__":
    main()
