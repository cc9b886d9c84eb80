#!/usr/bin/env python3
"""Compares two builds of `upsd`, an older and a newer one, row by row over the same input; prints a table.

The rows are those of bench/pipe.py and bench/script.py. A figure leaves out what the same input takes without the
requests that its row is about. The two programs take turns, and the shortest of their runs counts, so that a machine
that is busy for a while slows down both. With --instructions or --allocations, valgrind (from Debian's package of that
name) counts the processor's instructions or the allocated blocks of memory instead of the time, over shorter inputs:
that is slow, but the same at each run, whatever else the machine does.
"""

import os
import re
import subprocess
import sys
import tempfile
import time

sys.path.insert(0, os.path.join(os.path.dirname(os.path.dirname(os.path.abspath(__file__))), "check/lib"))
import dicom
import pipe
import script
from machine import described

PIPE = ["pipe", "--ae", "UPSD"]


def echo_rows(few):
    count = 1_000 if few else 10_000
    opening = dicom.associate([(dicom.VERIFICATION, dicom.IMPLICIT)])
    asked = b"".join(dicom.echo(i + 1) for i in range(count))
    yield "C-ECHO", PIPE, opening + dicom.RELEASE, opening + asked + dicom.RELEASE, count


def step_rows(few):
    rounds = 1 if few else 20
    for name, syntax, explicit in (("Implicit", dicom.IMPLICIT, False), ("Explicit", dicom.EXPLICIT, True)):
        opening = dicom.associate([(dicom.PUSH, syntax), (dicom.PULL, syntax)])
        made = b"".join(dicom.create(1, i + 1, b"1.2.3.%d" % (i + 1), dicom.step(explicit)) for i in range(200))
        asked = b"".join(dicom.get(1, i + 1, b"1.2.3.%d" % (i + 1)) for i in range(200)) * rounds
        change = dicom.data(explicit, 0x0074, 0x1204, b"LO", b"MR READ ")
        changes = b"".join(dicom.set_attributes(3, i + 1, b"1.2.3.%d" % (i + 1), change) for i in range(200)) * rounds
        yield f"N-CREATE of 20 attributes, {name}", PIPE, opening + dicom.RELEASE, opening + made + dicom.RELEASE, 200
        yield f"N-GET of 20 attributes, {name}", PIPE, opening + made + dicom.RELEASE, opening + made + asked + dicom.RELEASE, 200 * rounds
        yield f"N-SET of an attribute, {name}", PIPE, opening + made + dicom.RELEASE, opening + made + changes + dicom.RELEASE, 200 * rounds


def find_rows(few):
    opening = dicom.associate([(dicom.PUSH, dicom.EXPLICIT), (dicom.PULL, dicom.EXPLICIT)])
    for count in (100, 1_000):
        made = b""
        for i in range(count):
            more = {(0x0010, 0x0020): (b"LO", b"P%05d" % i), (0x0074, 0x1204): (b"LO", b"CT %d READ" % (i % 10) + b" ")}
            made += dicom.create(1, i + 1, b"1.2.3.%d" % (i + 1), dicom.step(True, more))
        for name, answers, texts, queries in (
            ("patient ID", 1, {(0x0010, 0x0020): (b"LO", b"P00042")}, 400 if few else 1_000),
            ("wild card", count // 10, {(0x0074, 0x1204): (b"LO", b"C?*7*READ ")}, 20 if few else 300),
        ):
            asked = b"".join(dicom.find(3, i + 1, pipe.keys(texts)) for i in range(queries))
            what = f"C-FIND by {name}, {count:,} steps, {answers} answered"
            yield what, PIPE, opening + made + dicom.RELEASE, opening + made + asked + dicom.RELEASE, queries


def large_rows(few):
    for name, explicit, shape in (
        ("one large value", True, lambda n: {(0x0074, 0x100A): (b"UN", bytes(n))}),
        ("elements without value", False, lambda n: {(0x0009 + 2 * (i // 60000), 0x1001 + i % 60000): (b"UN", b"") for i in range(n // 8)}),
        ("nested sequences", True, lambda n: {(0x0040, 0x4018): (b"SQ", pipe.nested(True, n))}),
    ):
        opening = dicom.associate([(dicom.PUSH, dicom.EXPLICIT if explicit else dicom.IMPLICIT)])
        row = dicom.step(explicit, shape(1_000_000))
        yield f"one data set of {len(row):,} bytes, {name}", PIPE, opening + dicom.RELEASE, opening + dicom.create(1, 1, b"1.2.3.1", row) + dicom.RELEASE, 1


def station_rows(few):
    opening = dicom.associate([(dicom.PUSH, dicom.EXPLICIT), (dicom.PULL, dicom.EXPLICIT)])
    made = dicom.create(1, 1, b"1.2.3.1", dicom.step(True))
    for count in (1_000, 8_000):
        first, second = (
            dicom.data(True, 0x0040, 0x4025, b"SQ", dicom.items([dicom.data(True, 0x0008, 0x0100, b"SH", b"%c%07d" % (letter, i)) for i in range(count)]))
            for letter in b"AB"
        )
        before = opening + made + dicom.set_attributes(3, 2, b"1.2.3.1", first)
        asked = dicom.set_attributes(3, 3, b"1.2.3.1", second)
        yield f"N-SET of {count:,} station name codes in place of others", PIPE, before + dicom.RELEASE, before + asked + dicom.RELEASE, 1


def script_rows(few):
    made = b"".join(script.create(i) for i in range(100))
    for count in (1_000,) if few else (1_000, 10_000):
        creates = b"".join(script.create(i) for i in range(count))
        yield f"script: create, {count:,} lines", ["script"], b"", creates, count
        for name, line in (
            ("get, over 100 steps", lambda i: b"0 P1 get 1.2.3.%d 00741000 00100020\n" % (i % 100)),
            ("find by patient ID, over 100 steps", lambda i: b"0 P1 find 00080018= 00100020=P%05d\n" % (i % 100)),
            ("find by wild card, 100 answers", lambda i: b"0 P1 find 00080018= 00741204=C*READ\n"),
        ):
            yield f"script: {name}, {count:,} lines", ["script"], made, made + b"".join(line(i) for i in range(count)), count


def run(command, stdin):
    """Returns the seconds of one run, and what it wrote to standard error."""
    with tempfile.TemporaryFile() as given:
        given.write(stdin)
        given.seek(0)
        began = time.perf_counter()
        done = subprocess.run(command, stdin=given, stdout=subprocess.DEVNULL, stderr=subprocess.PIPE, text=True)
        took = time.perf_counter() - began
    if done.returncode != 0:
        sys.exit(f"{' '.join(command)}: status {done.returncode}, {done.stderr[-200:]}")
    return took, done.stderr


CALLGRIND = ("--tool=callgrind", "--callgrind-out-file=/dev/null")
MEMCHECK = ("--tool=memcheck", "--leak-check=no")


def collected(told):
    """Returns the instructions that callgrind tells of a run."""
    return int(re.search(r"Collected : (\d+)", told)[1])


def allocated(told):
    """Returns the blocks of memory that memcheck tells of a run."""
    return int(re.search(r"total heap usage: ([\d,]+) allocs", told)[1].replace(",", ""))


def instructions(command, stdin):
    """Counts the instructions of one run."""
    return collected(run(["valgrind", *CALLGRIND, *command], stdin)[1])


def allocations(command, stdin):
    """Counts the blocks of memory that one run allocates."""
    return allocated(run(["valgrind", *MEMCHECK, *command], stdin)[1])


def compared(programs, words, base, whole, times, count):
    """Returns what each program takes for the whole input beyond the base: a count, or the least time of runs by turns."""
    if count:
        return [count([it, *words], whole) - count([it, *words], base) for it in programs]
    least = {}
    for _ in range(times):
        for place, program in enumerate(programs):
            for stdin in (base, whole):
                key = place, len(stdin)
                least[key] = min(least.get(key, 1e9), run([program, *words], stdin)[0])
    return [max(least[place, len(whole)] - least[place, len(base)], 1e-9) for place in range(len(programs))]


def main():
    asked = described(__doc__)
    asked.add_argument("before", help="the older program")
    asked.add_argument("after", help="the newer program")
    counts = asked.add_mutually_exclusive_group()
    counts.add_argument("--instructions", action="store_const", const=instructions, dest="count", help="count instructions")
    counts.add_argument("--allocations", action="store_const", const=allocations, dest="count", help="count blocks of memory")
    asked.add_argument("--times", type=int, default=15, help="how many runs each row has (15)")
    given = asked.parse_args()
    programs = [given.before, given.after]
    unit, scale, digits = (given.count.__name__, 1, 1) if given.count else ("us", 1e6, 2)
    print(f"| what | before, {unit} each | after, {unit} each | after / before |\n|---|---|---|---|")
    for rows in (echo_rows, step_rows, find_rows, large_rows, station_rows, script_rows):
        for name, words, base, whole, count in rows(given.count):
            before, after = compared(programs, words, base, whole, given.times, given.count)
            cells = (f"{scale * it / count:,.{digits}f}" for it in (before, after))
            ratio = f"{after / before:.2f}" if before else "-"
            print(f"| {name} | {' | '.join(cells)} | {ratio} |", flush=True)


if __name__ == "__main__":
    main()
