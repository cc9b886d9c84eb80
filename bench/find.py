#!/usr/bin/env python3
"""Measures what a C-FIND takes in `upsd serve` by each indexed key, as the number of steps held grows.

    bench/find.py [PROGRAM] [--sizes 11 1000 10000 100000]

At each size it starts the server on a free port of this machine and pushes steps to it. For each of patient ID, worklist label,
station name code, state, priority and start, one step has its own value, ten others share another, and the rest have others. A
query for the first value has one answer, and one for the second ten. Steps are also found by UID, by a worklist label with a
wild card, and without a key.

Each cell is the processor time that the workers of the server take for a find, by /proc: the median of 200 in microseconds (of
5 if each step held is an answer). Further rows have the same for N-CREATE, over the last 200, with the longest of all; for N-SET
of a worklist label, with the longest of 200; and how much the resident memory grows at most during a find of all steps.
"""

import os
import statistics
import sys

sys.path.insert(0, os.path.join(os.path.dirname(os.path.dirname(os.path.abspath(__file__))), "check/lib"))
from dicom import act, create, data, even, find, items, set_attributes, step
from machine import described, resident, used_by
from peer import PULL_ON, PUSH_ON, Peer, claim, told
from server import Server

ALONE, TEN = 0, range(1, 11)
TRANSACTION = b"2.25.1"
COUNT = 200


def instance(number: int) -> bytes:
    return b"1.2.0.%d" % number


def of_class(number: int, alone: bytes, ten: bytes, other: bytes) -> bytes:
    """Returns the value of a step: that of the one, of the ten, or of the others."""
    return alone if number == ALONE else ten if number in TEN else other


def a_step(number: int) -> bytes:
    """Returns the attributes of a new step."""
    text = lambda alone, ten, other: even(of_class(number, alone, ten, other), b" ")
    sequence = items([told(0x0008, 0x0100, b"SH", of_class(number, b"R1", b"R2", b"R3")) + told(0x0008, 0x0102, b"SH", b"99A")
                      + told(0x0008, 0x0104, b"LO", b"Room")])
    return step(True, {
        (0x0010, 0x0020): (b"LO", text(b"P1", b"P2", b"P%d" % (3 + number))),
        (0x0040, 0x4005): (b"DT", text(b"20240301120000", b"20240302120000", b"20240229120000")),
        (0x0040, 0x4025): (b"SQ", sequence),
        (0x0074, 0x1200): (b"CS", text(b"HIGH", b"MEDIUM", b"LOW")),
        (0x0074, 0x1202): (b"LO", text(b"READS", b"REPROC", b"OTHER")),
    })


def queries() -> list[tuple[str, int | None, bytes]]:
    """Returns the queries: the name of the key, how many answers there are (None for one for each step), and the keys."""
    rows: list[tuple[str, int | None, bytes]] = []
    for name, key, alone, ten in (
        ("patient ID", lambda v: told(0x0010, 0x0020, b"LO", v), b"P1", b"P2"),
        ("worklist label", lambda v: told(0x0074, 0x1202, b"LO", v), b"READS", b"REPROC"),
        ("station name code", lambda v: data(True, 0x0040, 0x4025, b"SQ", items([told(0x0008, 0x0100, b"SH", v)])), b"R1", b"R2"),
        ("state", lambda v: told(0x0074, 0x1000, b"CS", v), b"IN PROGRESS", b"CANCELED"),
        ("priority", lambda v: told(0x0074, 0x1200, b"CS", v), b"HIGH", b"MEDIUM"),
        ("start of one day", lambda v: told(0x0040, 0x4005, b"DT", v), b"20240301-20240301", b"20240302-20240302"),
    ):
        rows += [(name, 1, key(alone)), (name, 10, key(ten))]
    rows.append(("UID", 1, b""))
    rows.append(("worklist label with a wild card", 1, told(0x0074, 0x1202, b"LO", b"READ*")))
    rows.append(("nothing", None, b""))
    return rows


class Measured:
    """A server, and one association with it."""

    def __init__(self, server: Server) -> None:
        self.pid = server.process.pid
        self.peer = Peer(server.port)
        self.workers = [task for task in os.listdir(f"/proc/{self.pid}/task") if task != str(self.pid)]

    def worked(self) -> float:
        """Returns the microseconds that the workers have run."""
        return sum(used_by(self.pid, task) for task in self.workers) / 1000

    def took(self, request: bytes) -> tuple[int, float]:
        """Sends a request; returns its last status and the microseconds that it took."""
        before = self.worked()
        status = self.peer.ask(request)
        return status, self.worked() - before

    def fill(self, steps: int) -> list[float]:
        """Pushes steps, claims one and cancels ten. Returns what each push took."""
        times = []
        for number in range(steps):
            status, took = self.took(create(PUSH_ON, 1, instance(number), a_step(number)))
            assert status == 0, f"{status:04X}"
            times.append(took)
        assert self.peer.ask(claim(1, instance(ALONE), TRANSACTION)) == 0
        for number in TEN:
            assert self.peer.ask(act(PUSH_ON, 1, instance(number), 2, b"")) == 0
        return times

    def find(self, keys: bytes, many: bool) -> float:
        """Returns the median time of a find."""
        return statistics.median(self.took(find(PULL_ON, 1, keys))[1] for _ in range(5 if many else COUNT))

    def relabel(self) -> list[float]:
        """Sets the label of the claimed step again and again, and returns what each time took."""
        times = []
        for turn in range(COUNT):
            change = told(0x0008, 0x1195, b"UI", TRANSACTION) + told(0x0074, 0x1202, b"LO", b"NEW%d" % (turn % 2))
            status, took = self.took(set_attributes(PULL_ON, 1, instance(ALONE), change))
            assert status in (0, 1), f"{status:04X}"
            times.append(took)
        return times

    def growth(self) -> float:
        """Returns by how many megabytes the resident memory grows at most during a find of all steps."""
        with open(f"/proc/{self.pid}/clear_refs", "w", encoding="ascii") as it:
            it.write("5")
        before = resident(self.pid)
        self.peer.ask(find(PULL_ON, 1, told(0x0008, 0x0018, b"UI", b"")))
        with open(f"/proc/{self.pid}/status", encoding="ascii") as lines:
            most = next(int(line.split()[1]) * 1024 for line in lines if line.startswith("VmHWM"))
        return (most - before) / 1e6


def measure(program: str, steps: int) -> list[str]:
    """Returns the cells of one size."""
    with Server([program], "--associations", "1") as server:
        it = Measured(server)
        creates = it.fill(steps)
        growth = it.growth()
        cells = []
        for name, answers, key in queries():
            keys = told(0x0008, 0x0018, b"UI", instance(ALONE) if name == "UID" else b"") + key
            cells.append(f"{it.find(keys, answers is None):,.0f}")
        cells.append(f"{statistics.median(creates[-COUNT:]):,.0f}, {max(creates):,.0f}")
        sets = it.relabel()
        cells.append(f"{statistics.median(sets):,.0f}, {max(sets):,.0f}")
        cells.append(f"{growth:,.1f} MB")
        it.peer.release()
        return cells


def main() -> None:
    asked = described(__doc__, "?")
    asked.add_argument("--sizes", nargs="+", type=int, default=[11, 1_000, 10_000, 100_000])
    given = asked.parse_args()
    names = [f"{name}, {'each' if answers is None else answers}" for name, answers, _ in queries()] + ["N-CREATE", "N-SET", "all"]
    columns = [measure(given.program, steps) for steps in given.sizes]
    print(f"| microseconds | {' | '.join(f'{steps:,}' for steps in given.sizes)} |")
    print("|---" * (len(given.sizes) + 1) + "|")
    for row, name in enumerate(names):
        print(f"| {name} | {' | '.join(column[row] for column in columns)} |")


if __name__ == "__main__":
    main()
