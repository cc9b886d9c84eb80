#!/usr/bin/env python3
"""Measures `upsd script`: lines a second, and the memory of a long line; prints a table."""

import os
import resource
import subprocess
import sys
import time

sys.path.insert(0, os.path.join(os.path.dirname(os.path.dirname(os.path.abspath(__file__))), "check/lib"))
from best import best_of
from machine import arguments
from pipe import timed

STEP = b"00404005=20240229120000 00404041=READY 00741000=SCHEDULED 00741200=MEDIUM 00741204=CT%20READ 00100020=P"


def create(number):
    return b"0 SCHED1 create 1.2.3.%d " % number + STEP + b"%05d\n" % number


def run(program, stdin, before=()):
    """Returns the seconds of one run, what it wrote, and how it ended."""
    return timed([*before, program, "script"], stdin)


def seconds(program, stdin, wanted):
    """Returns the seconds of one run, each line of which has to begin with the wanted status."""
    took, out, done = run(program, stdin)
    lines = out.splitlines()
    if done.returncode != 0 or len(lines) != stdin.count(b"\n") or not all(line.startswith(wanted) for line in lines):
        sys.exit(f"{program}: status {done.returncode}, {done.stderr}")
    return took


def best(program, stdin, wanted):
    """Returns the seconds of the best of five runs."""
    return best_of(5, lambda: seconds(program, stdin, wanted))


def lines(program):
    made = b"".join(create(i) for i in range(100))
    base = best(program, made, b"0000")
    for count in (1_000, 10_000):
        print_rate("create", count, best(program, b"".join(create(i) for i in range(count)), b"0000"))
        gets = b"".join(b"0 P1 get 1.2.3.%d 00741000 00100020\n" % (i % 100) for i in range(count))
        print_rate("get, over 100 steps", count, best(program, made + gets, b"0000") - base)
        finds = b"".join(b"0 P1 find 00080018= 00100020=P%05d\n" % (i % 100) for i in range(count))
        print_rate("find by patient ID, over 100 steps", count, best(program, made + finds, b"0000") - base)
        finds = b"0 P1 find 00080018= 00741204=C*READ\n" * count
        print_rate("find by wild card, 100 answers", count, best(program, made + finds, b"0000") - base)


def processor_seconds(program, stdin, peers):
    """Returns the processor seconds of one run of a script with these peers, which has to answer all lines."""
    before = resource.getrusage(resource.RUSAGE_CHILDREN)
    done = subprocess.run([program, "script", *peers], input=stdin, stdout=subprocess.PIPE)
    after = resource.getrusage(resource.RUSAGE_CHILDREN)
    if done.returncode != 0 or done.stdout.count(b"\n") != stdin.count(b"\n"):
        sys.exit(f"{program}: status {done.returncode}, {done.stdout[-40:]}")
    return after.ru_utime + after.ru_stime - before.ru_utime - before.ru_stime


def run_seconds(program, stdin, peers):
    """Returns the processor seconds of the best of five runs."""
    return best_of(5, lambda: processor_seconds(program, stdin, peers))


def watchers(program):
    """Measures what watchers ask over 100 and 1,000 steps, each watched by ten, and creates with a hundred watchers."""
    peers = [f"W{i}=localhost:{104 + i}" for i in range(100)]
    subscribed = [b"0 W%d subscribe global W%d FALSE\n" % (i, i) for i in range(100)]
    for count in (100, 1_000):
        made = b"".join(create(i + 1) for i in range(count))
        held = b"".join(subscribed[:10]) + made
        base = run_seconds(program, held, peers)
        for name, line in (("pending", b"0 W%d pending 1000\n"), ("watches", b"0 W%d watches\n")):
            asked = b"".join(line % i for i in range(10))
            took = (run_seconds(program, held + asked, peers) - base) / 10
            print(f"| {name}, {count:,} steps, 10 watchers | {1000 * took:.1f} ms of processor time each | |")
        alone = run_seconds(program, made, peers)
        among = run_seconds(program, b"".join(subscribed) + made, peers) - run_seconds(program, b"".join(subscribed), peers)
        print(f"| create, {count:,} lines, with 100 global subscriptions | {1000 * among:.0f} ms of processor time ({1000 * alone:.0f} without) | |")


def print_rate(name, count, took):
    print(f"| {name}, {count:,} lines | {count / max(took, 1e-6):,.0f} lines a second | |")


def peak(program, stdin):
    """Returns the peak memory of one run, in bytes, and the status of the last reply."""
    _, out, done = run(program, stdin, ["/usr/bin/time", "-f", "%M"])
    return int(done.stderr.split()[-1]) * 1024, out.splitlines()[-1][:4].decode()


def long_lines(program):
    floor, _ = peak(program, b"0 P1 held\n")
    size = 16_777_216
    made = create(1)
    heads = {"create": b"0 P1 create 1.2.3.2 " + STEP + b"1 ", "set": b"0 P1 set 1.2.3.1 - ", "find": b"0 P1 find "}
    shapes = (
        ("one large value", lambda n: b"0074100A=" + b"A" * n),
        ("attributes of eight bytes", lambda n: b" ".join(b"%04X%04X=ABCDEFGH" % (0x0101 + 2 * (i // 60000), 0x1001 + i % 60000) for i in range(n // 18))),
        ("attributes of one byte", lambda n: b" ".join(b"%04X%04X=A" % (0x0101 + 2 * (i // 60000), 0x1001 + i % 60000) for i in range(n // 11))),
        ("attributes without value", lambda n: b" ".join(b"%04X%04X=" % (0x0101 + 2 * (i // 60000), 0x1001 + i % 60000) for i in range(n // 10))),
        ("items", lambda n: b" ".join(b"00404018.%d/00080100=A" % (i + 1) for i in range(min(n // 25, 131_000)))),
    )
    for name, shape in shapes:
        for verb, head in heads.items():
            line = head + shape(size - 200)
            assert len(line) <= size
            began = time.perf_counter()
            used, answer = peak(program, made + line + b"\n")
            took = time.perf_counter() - began
            print(f"| {verb} of {len(line):,} bytes, {name}: {answer} | {took:.2f} s | {(used - floor) / len(line):.1f} bytes a byte |")


def main():
    program = arguments(__doc__).program
    print("| what | rate or time | peak memory |\n|---|---|---|")
    lines(program)
    watchers(program)
    long_lines(program)


if __name__ == "__main__":
    main()
