#!/usr/bin/env python3
"""Measures `upsd pipe` over one association, in binary, and prints a table."""

import os
import subprocess
import sys
import tempfile
import time

sys.path.insert(0, os.path.join(os.path.dirname(os.path.dirname(os.path.abspath(__file__))), "check/lib"))
from best import best_of
from dicom import (EXPLICIT, IMPLICIT, PULL, PUSH, RELEASE, VERIFICATION, associate, create, data, echo, find, get, items, pdu,
                   step)
from machine import arguments


def timed(words, stdin):
    """Returns the seconds of one run, what it wrote, and how it ended."""
    with tempfile.TemporaryFile() as given, tempfile.TemporaryFile() as told:
        given.write(stdin)
        given.flush()
        given.seek(0)
        began = time.perf_counter()
        done = subprocess.run(words, stdin=given, stdout=told, stderr=subprocess.PIPE, text=True)
        took = time.perf_counter() - began
        told.seek(0)
        return took, told.read(), done


def run(program, stdin, before=()):
    """Returns the seconds of one run, and what it wrote to standard error."""
    took, out, done = timed([*before, program, "pipe", "--ae", "UPSD"], stdin)
    if done.returncode != 0:
        sys.exit(f"{program}: {done.stderr}")
    if not out.endswith(pdu(6, bytes(4))):
        sys.exit(f"{program}: the association was not released")
    return took, done.stderr


def peak(program, stdin):
    """Returns the peak memory of one run, in bytes. (GNU time is small, so only the program that it forks counts.)"""
    return int(run(program, stdin, ["/usr/bin/time", "-f", "%M"])[1].split()[-1]) * 1024


def best(program, stdin, times=5):
    """Returns the seconds of the best run, and the peak memory."""
    return best_of(times, lambda: run(program, stdin)[0]), peak(program, stdin)


def echoes(program):
    for count in (10_000, 100_000):
        stdin = associate([(VERIFICATION, IMPLICIT)]) + b"".join(echo(i % 65535 + 1) for i in range(count)) + RELEASE
        took, peak = best(program, stdin)
        print(f"| C-ECHO, {count:,} messages | {count / took:,.0f} a second | {took / count * 1e6:.2f} us each | {peak / 2**20:.1f} MiB |")


def steps(program):
    for name, syntax, explicit in (("Implicit", IMPLICIT, False), ("Explicit", EXPLICIT, True)):
        opening = associate([(PUSH, syntax)])
        made = b"".join(create(1, i + 1, b"1.2.3.%d" % (i + 1), step(explicit)) for i in range(200))
        asked = b"".join(get(1, i + 1, b"1.2.3.%d" % (i + 1)) for i in range(200))
        base, _ = best(program, opening + RELEASE)
        both, _ = best(program, opening + made + RELEASE)
        whole, peak = best(program, opening + made + asked + RELEASE)
        print(f"| N-CREATE, 200 steps of 20 attributes, {name} | {200 / max(both - base, 1e-6):,.0f} a second | | |")
        print(f"| N-GET of them, {name} | {200 / max(whole - both, 1e-6):,.0f} a second | | {peak / 2**20:.1f} MiB |")


def keys(texts):
    """Returns an identifier that asks for four attributes, some of them with a key."""
    row = {(0x0008, 0x0018): (b"UI", b""), (0x0010, 0x0020): (b"LO", b""), (0x0074, 0x1000): (b"CS", b""), (0x0074, 0x1204): (b"LO", b"")}
    row.update(texts)
    return b"".join(data(True, g, e, vr, value) for (g, e), (vr, value) in sorted(row.items()))


def finds(program):
    """Measures queries over many steps: one step has the patient ID, one in ten the text."""
    opening = associate([(PUSH, EXPLICIT), (PULL, EXPLICIT)])
    for count in (100, 1_000):
        made = b""
        for i in range(count):
            more = {(0x0010, 0x0020): (b"LO", b"P%05d" % i), (0x0074, 0x1204): (b"LO", b"CT %d READ" % (i % 10) + b" ")}
            made += create(1, i + 1, b"1.2.3.%d" % (i + 1), step(True, more))
        base, _ = best(program, opening + made + RELEASE)
        for name, answers, texts in (
            ("patient ID", 1, {(0x0010, 0x0020): (b"LO", b"P00042")}),
            ("wild card", count // 10, {(0x0074, 0x1204): (b"LO", b"C?*7*READ ")}),
        ):
            asked = b"".join(find(3, i + 1, keys(texts)) for i in range(200))
            took, peak = best(program, opening + made + asked + RELEASE)
            each = max(took - base, 1e-6) / 200
            print(f"| C-FIND by {name}, {count:,} steps, {answers} answered | {1 / each:,.0f} a second | {each * 1e6:,.0f} us each | {peak / 2**20:.1f} MiB |")


def nested(explicit, size):
    """Returns items in which sequences of one item are nested, eight deep, again and again."""
    inner = data(explicit, 0x0040, 0x4050, b"DT", b"20240229120000")
    for _ in range(7):
        inner = data(explicit, 0x0040, 0x4018, b"SQ", items([inner]))
    return items([inner] * (size // (len(inner) + 8)))


def large(program):
    for name, explicit, shape in (
        ("one large value", True, lambda n: {(0x0074, 0x100A): (b"UN", bytes(n))}),
        ("elements without value", False, lambda n: {(0x0009 + 2 * (i // 60000), 0x1001 + i % 60000): (b"UN", b"") for i in range(n // 8)}),
        ("nested sequences", True, lambda n: {(0x0040, 0x4018): (b"SQ", nested(True, n))}),
    ):
        opening = associate([(PUSH, EXPLICIT if explicit else IMPLICIT)])
        base, floor = best(program, opening + RELEASE, 25)
        for size in (262_144, 524_288, 1_000_000):
            row = step(explicit, shape(size))
            stdin = opening + create(1, 1, b"1.2.3.1", row) + RELEASE
            took, peak = best(program, stdin, 25)
            print(f"| one data set of {len(row):,} bytes, {name} | {len(row) / max(took - base, 1e-6) / 1e6:,.1f} MB a second | {(took - base) * 1e3:.1f} ms | {(peak - floor) / len(row):.1f} bytes a byte |")


def main():
    program = arguments(__doc__).program
    print("| what | rate | time | peak memory |\n|---|---|---|---|")
    echoes(program)
    steps(program)
    finds(program)
    large(program)


if __name__ == "__main__":
    main()
