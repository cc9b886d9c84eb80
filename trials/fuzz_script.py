#!/usr/bin/env python3
"""Runs `upsd script` on mutated scripts.

Each run must end by itself within ten seconds: with status 0 and a reply for each line, or with status 2, N - 1 replies
and `bad line N` as the last line of the output. It prints how often each status came, each input that failed, and in the end how
many runs passed. The status is 1 if any failed.
"""

import collections
import os
import random
import re
import sys

sys.path.insert(0, os.path.join(os.path.dirname(os.path.dirname(os.path.abspath(__file__))), "check/lib"))
from fuzz import Fuzzed, mutated, statuses_of
from machine import arguments
from results import Results

STEP = b"00404005=20240229120000 00404041=READY 00741000=SCHEDULED 00741200=MEDIUM 00741204=CT%20READ"
SEED = b"\n".join((
    b"0 SCHED1 create 1.2.3.1 " + STEP + b" 00741202=READS 00100020=P1",
    b"0 SCHED1 create 1.2.3.2 " + STEP + b" 00404034/00404009/00080100=R1 00404034.3/00404036=X 0040A370=",
    b"60 P1 change 1.2.3.1 IN%20PROGRESS 2.1",
    b"61 P1 set 1.2.3.1 2.1 00741216/00404050=20240229120100 00741216/00404051=20240229120200 00741002/00741004=50",
    b"62 P1 get 1.2.3.1 00741000 00741216 00081195",
    b"62 P1 get 1.2.3.2",
    b"63 P1 find 00080018= 00741202=RE?D* 00404005=20240229- 00404034=",
    b"63 P1 find 00404034/00404009/00080100=R* 00100020=",
    b"64 P1 change 1.2.3.1 COMPLETED 2.1",
    b"65 P2 cancel 1.2.3.2 00741238=stop%0A%25 0074100E/00080100=C1",
    b"66 P2 holder 1.2.3.1",
    b"66 P2 held",
    b"",
))


def spoil_lines(chance, given, at):
    """Writes a character that has a meaning, shuffles the lines, or inserts a part of a word."""
    kind = chance.randrange(3)
    if kind == 0:
        given[at] = chance.choice(b"0123456789ABCDEF./=% \n")
    elif kind == 1:
        lines = given.split(b"\n")
        chance.shuffle(lines)
        given[:] = b"\n".join(lines)
    else:
        given[at:at] = chance.choice((b".131072/", b".2/", b"/", b"%00", b"00081195=9 ", b"FFFEE000=", b"00080000=", b"\r"))


def is_told(ran, lines):
    """Returns whether the output is a reply for each line, or for those before the bad one, which it names."""
    told = ran.output.split(b"\n")
    if told.pop() != b"":
        return False
    if ran.status == 2:
        if not told or told.pop() != b"bad line %d" % (len(told) + 1):
            return False
    elif ran.status != 0 or len(told) != lines:
        return False
    return all(re.fullmatch(rb"[0-9A-F]{4}( .*)?", line) for line in told)


def main():
    wanted = arguments(__doc__, ("count", 5_000, "how many scripts"), ("seed", 1, "the seed of chance"))
    program, count = wanted.program, wanted.count
    chance = random.Random(wanted.seed)
    statuses, results = collections.Counter(), Results(tells_passed=False)
    for number in range(count):
        given = mutated(chance, SEED, spoil_lines)
        lines = given.count(b"\n") + (0 if given.endswith(b"\n") or not given else 1)
        ran = Fuzzed([program, "script"], given)
        statuses[ran.status] += 1
        results.tell(f"mutated script {number}", ran.fault(is_told(ran, lines)))
    print(f"{count:,} mutated scripts: {statuses_of(statuses)}")
    results.end()


if __name__ == "__main__":
    main()
