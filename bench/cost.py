#!/usr/bin/env python3
"""Counts what one request of each kind costs, in instructions of the processor and blocks of memory; prints a table.

Each figure is what a run of `upsd pipe` with some requests takes beyond one without them, divided by their number, while steps
are held. There are as many requests as steps, so that each table that grows with the requests doubles once: its growth is shared
out over the requests between two doublings. A run is stopped once it has answered, so that the end of the program, which frees
all steps, isn't counted. It is counted by valgrind (from Debian's package of that name), which is slow, but the same at each run,
whatever else the machine does. Each of several programs, an older one first, has its own columns.

With --longest it measures a server over TCP instead: the longest N-CREATE among the last tenth of the steps, by the clock, so a
busy machine makes it longer.
"""

import os
import subprocess
import sys
import threading
import time

sys.path.insert(0, os.path.join(os.path.dirname(os.path.dirname(os.path.abspath(__file__))), "check/lib"))
import dicom
import pipe
from compare import CALLGRIND, MEMCHECK, PIPE, allocated, collected
from machine import described
from peer import Peer
from serve import Measured

HELD = 1_000  # steps held
ASKED = HELD  # requests counted
OPENING = dicom.associate([(dicom.PUSH, dicom.EXPLICIT), (dicom.PULL, dicom.EXPLICIT), (dicom.VERIFICATION, dicom.EXPLICIT)])
PUSH_ON, PULL_ON, ECHO_ON = 1, 3, 5


def attributes(i):
    """Returns nine attributes of a step, of which five are indexed."""
    row = (
        (0x0010, 0x0010, b"PN", b"DOE^JANE"),
        (0x0010, 0x0020, b"LO", b"P%05d" % (i % 100_000)),
        (0x0040, 0x4005, b"DT", b"20240229120000"),
        (0x0040, 0x4041, b"CS", b"READY "),
        (0x0074, 0x1000, b"CS", b"SCHEDULED "),
        (0x0074, 0x1200, b"CS", b"MEDIUM"),
        (0x0074, 0x1202, b"LO", b"READS "),
        (0x0074, 0x1204, b"LO", b"CT READ "),
        (0x0040, 0x4010, b"DT", b"20240229120000"),
    )
    return b"".join(dicom.data(True, *it) for it in sorted(row))


def uid(i):
    return b"1.2.826.0.1.3680043.8.498.%d" % (1_000_000 + i)


def created(first, count):
    return b"".join(dicom.create(PUSH_ON, i + 1, uid(i), attributes(i)) for i in range(first, first + count))


def echo(i):
    return dicom.echo(i + 1, ECHO_ON)


def get(i):
    return dicom.get(PUSH_ON, i + 1, uid(i))


def found(i):
    asked = {(0x0008, 0x0018): (b"UI", b""), (0x0010, 0x0020): (b"LO", b"P%05d" % i), (0x0074, 0x1000): (b"CS", b"")}
    return dicom.find(PULL_ON, i + 1, pipe.keys(asked))


def indexed(i):
    return dicom.set_attributes(PULL_ON, i + 1, uid(i), dicom.data(True, 0x0074, 0x1202, b"LO", b"READS%d" % (i % 10)))


def other(i):
    return dicom.set_attributes(PULL_ON, i + 1, uid(i), dicom.data(True, 0x0074, 0x1204, b"LO", b"MR READ "))


def repeated(one):
    return b"".join(one(i) for i in range(ASKED))


ROWS = (
    ("C-ECHO", repeated(echo)),
    ("N-GET of 9 attributes", repeated(get)),
    ("C-FIND by patient ID, one answer", repeated(found)),
    ("N-SET of an attribute by which steps are looked up", repeated(indexed)),
    ("N-SET of another attribute", repeated(other)),
    ("N-CREATE of 9 attributes", created(HELD, ASKED)),
)


STATUS = bytes((0, 0, 0, 9, 2, 0, 0, 0))  # the header of Status (0000,0900)


def counted_by(tool, command, stdin):
    """Returns what valgrind says of a program that has answered all requests, and was then stopped."""
    answers = len(subprocess.run(command, input=stdin, stdout=subprocess.PIPE, check=True).stdout)
    with subprocess.Popen(["valgrind", *tool, *command], stdin=subprocess.PIPE, stdout=subprocess.PIPE, stderr=subprocess.PIPE) as it:
        given = threading.Thread(target=lambda: (it.stdin.write(stdin[: -len(dicom.RELEASE)]), it.stdin.flush()))
        given.start()
        it.stdout.read(answers - len(dicom.RELEASE))
        given.join()
        it.terminate()
        return it.communicate()[1].decode()


def instructions(command, stdin):
    """Counts the instructions until all requests are answered."""
    return collected(counted_by(CALLGRIND, command, stdin))


def allocations(command, stdin):
    """Counts the blocks of memory allocated until all requests are answered."""
    return allocated(counted_by(MEMCHECK, command, stdin))


def granted(program, stdin):
    """Returns how many responses a run has; fails if one has another status than 0000 or FF00."""
    _, out, _ = pipe.timed([program, *PIPE], stdin)
    commands, at = 0, 0
    while at < len(out):
        end = at + 6 + int.from_bytes(out[at + 2 : at + 6], "big")
        if out[at] == 4 and out[at + 11] & 1:
            status = out.rindex(STATUS, at, end) + len(STATUS)
            assert out[status : status + 2] in (b"\0\0", b"\0\xff"), out[at:end]
            commands += 1
        at = end
    return commands


def counted(programs):
    heads = " | ".join("instructions | blocks" for _ in programs)
    print(f"| over {HELD:,} steps | {heads} |\n|---|{'---|---|' * len(programs)}")
    base = OPENING + created(0, HELD) + dicom.RELEASE
    bases = [[count([it, *PIPE], base) for count in (instructions, allocations)] for it in programs]
    for name, requests in ROWS:
        whole = base[: -len(dicom.RELEASE)] + requests + dicom.RELEASE
        cells = []
        assert all(granted(it, whole) >= HELD + ASKED for it in programs), name
        for program, (beside, blocks) in zip(programs, bases):
            cells.append(f"{(instructions([program, *PIPE], whole) - beside) / ASKED:,.0f}")
            cells.append(f"{(allocations([program, *PIPE], whole) - blocks) / ASKED:.1f}")
        print(f"| {name} | {' | '.join(cells)} |", flush=True)


def longest(program, steps, last):
    """Returns the milliseconds until each of the last N-CREATEs was answered, from the longest."""
    with Measured(program, 1) as server:
        peer, took = Peer(server.port), []
        for i in range(steps):
            message = dicom.create(PUSH_ON, i % 60_000 + 1, uid(i), attributes(i))
            began = time.perf_counter()
            assert peer.ask(message) == 0
            took.append((time.perf_counter() - began) * 1e3)
        peer.release()
    return sorted(took[-last:], reverse=True)


def main():
    asked = described(__doc__)
    asked.add_argument("programs", nargs="*", default=["crates/upsd/out/upsd"], help="the programs (crates/upsd/out/upsd, which `rt run` builds)")
    asked.add_argument("--longest", action="store_true", help="measure the longest N-CREATE")
    asked.add_argument("--steps", type=int, default=100_000, help="of how many steps (100,000)")
    given = asked.parse_args()
    if not given.longest:
        counted(given.programs)
        return
    for program in given.programs:
        took = longest(program, given.steps, given.steps // 10)
        print(f"{program}: of the last {len(took):,} of {given.steps:,} N-CREATE the longest took {took[0]:.2f} ms, "
              f"the next {took[1]:.2f} and {took[2]:.2f}, the median {took[len(took) // 2]:.3f}", flush=True)


if __name__ == "__main__":
    main()
