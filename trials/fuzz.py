#!/usr/bin/env python3
"""Runs `upsd pipe` on mutated associations, and on extreme requests.

Each run must end by itself within ten seconds, with status 0 or 2, and write nothing but whole PDUs. It prints how often each
status came, each input that failed, and in the end how many runs passed. The status is 1 if any failed.
"""

import collections
import os
import random
import struct
import subprocess
import sys
from typing import Optional

sys.path.insert(0, os.path.join(os.path.dirname(os.path.dirname(os.path.abspath(__file__))), "check/lib"))
from dicom import (EXPLICIT, IMPLICIT, PULL, PUSH, RELEASE, VERIFICATION, act, associate, create, data, echo, find, get, give_up,
                   item, items, pdu, set_attributes, step)
from machine import arguments
from results import Results

SECONDS = 10  # for one run


def life(explicit):
    """Returns the requests of a step that is claimed, set and completed, and of one that is canceled by request. Presentation
    context 1 is push, 3 is pull."""
    uid = data(explicit, 0x0008, 0x1195, b"UI", b"2.1\0")
    times = data(explicit, 0x0040, 0x4050, b"DT", b"20240229120100") + data(explicit, 0x0040, 0x4051, b"DT", b"20240229120200")
    performed = data(explicit, 0x0074, 0x1216, b"SQ", items([times]))

    def to(state):
        return uid + data(explicit, 0x0074, 0x1000, b"CS", state)

    return b"".join((
        create(1, 1, b"1.2.3.1", step(explicit)),
        act(3, 2, b"1.2.3.1", 1, to(b"IN PROGRESS ")),
        set_attributes(3, 3, b"1.2.3.1", uid + performed),
        act(3, 4, b"1.2.3.1", 1, to(b"COMPLETED ")),
        create(1, 5, b"1.2.3.2", step(explicit)),
        act(1, 6, b"1.2.3.2", 2, data(explicit, 0x0074, 0x1238, b"LT", b"stop")),
        get(1, 7, b"1.2.3.2"),
    ))


def queries(explicit):
    """Returns the requests of steps that are queried by keys of each kind. Presentation context 1 is push, 3 is pull."""
    def asks(*elements):
        return b"".join(data(explicit, *element) for element in elements)

    code = data(explicit, 0x0008, 0x0100, b"SH", b"C? ")
    identifiers = (
        asks((0x0008, 0x0018, b"UI", b"1.2.3.1\\1.2.3.9 "), (0x0074, 0x1204, b"LO", b"")),
        asks((0x0010, 0x0010, b"PN", b"DO?^*"), (0x0040, 0x4005, b"DT", b"20240229-")),
        asks((0x0040, 0x4005, b"DT", b"-20240301"), (0x0040, 0x4018, b"SQ", items([code])), (0x0074, 0x1200, b"CS", b"MEDIUM")),
        asks((0x0040, 0x4005, b"DT", b"- ")),
    )
    made = b"".join(create(1, i, b"1.2.3.%d" % i, step(explicit)) for i in (1, 2, 3))
    asked = b"".join(find(3, 4 + i, identifier) + give_up(3, 4 + i) for i, identifier in enumerate(identifiers))
    return made + asked


def seeds():
    """Yields associations that are answered to the end."""
    yield associate([(VERIFICATION, IMPLICIT)]) + echo(1) + echo(2) + RELEASE
    for syntax, explicit in ((IMPLICIT, False), (EXPLICIT, True)):
        steps = b"".join(create(1, i, b"1.2.3.%d" % i, step(explicit)) + get(1, 10 + i, b"1.2.3.%d" % i) for i in (1, 2))
        yield associate([(PUSH, syntax)]) + steps + RELEASE
        yield associate([(PUSH, syntax), (VERIFICATION, syntax)]) + steps[: len(steps) // 2] + RELEASE
        yield associate([(PUSH, syntax), (PULL, syntax)]) + life(explicit) + RELEASE
        yield associate([(PUSH, syntax), (PULL, syntax)]) + queries(explicit) + RELEASE


def mutated(chance, seed, spoil):
    """Returns a seed with some of its bytes changed, dropped or doubled, or spoiled by `spoil` in a way of its own form."""
    given = bytearray(seed)
    for _ in range(chance.randint(1, 4)):
        at = chance.randrange(len(given))
        kind = chance.randrange(6)
        if kind == 0:
            given[at] = chance.randrange(256)
        elif kind == 1:
            del given[at : at + chance.randint(1, 8)]
        elif kind == 2:
            given[at:at] = given[at : at + chance.randint(1, 300)]
        else:
            spoil(chance, given, at)
        if not given:
            given = bytearray(seed[:1])
    return bytes(given)


def spoil_pdus(chance, given, at):
    """Flips a bit, writes a length, or cuts the bytes off."""
    kind = chance.randrange(3)
    if kind == 0:
        given[at] ^= 1 << chance.randrange(8)
    elif kind == 1:
        given[at : at + 4] = struct.pack(">I", chance.choice([0, 1, 0x7FFFFFFF, 0xFFFFFFFF, 16384, 131072]))
    else:
        del given[at:]


def are_pdus(out):
    """Returns whether the bytes are whole PDUs."""
    while out:
        if len(out) < 6:
            return False
        kind, _, length = struct.unpack(">BBI", out[:6])
        if kind not in range(1, 8) or len(out) < 6 + length:
            return False
        out = out[6 + length :]
    return True


class Fuzzed:
    """A run of a program on an input: how it ended, and what it wrote. The status is None if it did not end in time."""

    def __init__(self, words, given):
        self.given = given
        self.status: Optional[int] = None
        try:
            done = subprocess.run(words, input=given, capture_output=True, timeout=SECONDS)
            self.status, self.output = done.returncode, done.stdout
        except subprocess.TimeoutExpired as ran:
            self.output = ran.stdout or b""

    def fault(self, is_right):
        """Returns how it ended, unless it is right."""
        return None if is_right else f"status {self.status}, input {self.given.hex()}, output {self.output.hex()}"


def run(program, given):
    return Fuzzed([program, "pipe", "--ae", "UPSD"], given)


def statuses_of(statuses):
    return ", ".join(f"status {status}: {count:,}" for status, count in sorted(statuses.items(), key=str))


def fuzz(program, count, seed, results):
    chance = random.Random(seed)
    origins = list(seeds())
    statuses = collections.Counter()
    for number in range(count):
        ran = run(program, mutated(chance, chance.choice(origins), spoil_pdus))
        statuses[ran.status] += 1
        results.tell(f"mutated association {number}", ran.fault(ran.status in (0, 2) and are_pdus(ran.output)))
    print(f"{count:,} mutated associations: {statuses_of(statuses)}")


def proposed(ident, abstract, transfers):
    return item(0x20, bytes([ident, 0, 0, 0]) + item(0x30, abstract) + b"".join(item(0x40, t) for t in transfers))


def largest(program, results):
    """Tries a request of 129,691 bytes, with 128 presentation contexts and an unknown sub-item that fills it up."""
    head = struct.pack(">HH", 1, 0) + b"UPSD".ljust(16) + b"BENCH".ljust(16) + bytes(32) + item(0x10, b"1.2.840.10008.3.1.1.1")
    others = [b"1.2.840.10008.1.2.4.%d" % n for n in range(30)]
    contexts = b"".join(proposed(2 * i + 1, PUSH, others + [(EXPLICIT, IMPLICIT)[i % 2], (IMPLICIT, EXPLICIT)[i % 2]]) for i in range(128))
    user = item(0x51, struct.pack(">I", 16384)) + item(0x52, b"1.2.3")
    fill = 129_691 - 6 - len(head) - len(contexts) - len(user) - 8
    request = pdu(1, head + contexts + item(0x50, user + item(0x59, bytes(fill))))
    assert len(request) == 129_691
    ran = run(program, request + RELEASE)
    wanted = b"".join(item(0x21, bytes([2 * i + 1, 0, 0, 0]) + item(0x40, (EXPLICIT, IMPLICIT)[i % 2])) for i in range(128))
    is_right = ran.status == 0 and ran.output[:1] == b"\2" and wanted in ran.output and ran.output.endswith(pdu(6, bytes(4)))
    results.tell(f"a request of {len(request):,} bytes with 128 contexts: each is answered, by the first syntax that is known", ran.fault(is_right))


def padded(program, results):
    """Tries values with a million bytes of padding: nothing may be lost, or recursed into."""
    for value in (b" " * 1_000_000, bytes(1_000_000), b"X" + b" " * 999_999):
        texts = [(0x0040, 0x4005, b"DT", b"20240229120000"), (0x0040, 0x4041, b"CS", b"READY "), (0x0074, 0x1000, b"CS", b"SCHEDULED "), (0x0074, 0x1200, b"CS", b"MEDIUM"), (0x0074, 0x1204, b"LO", value)]
        made = create(1, 1, b"1.2.3.1", b"".join(data(False, *text) for text in texts))
        ran = run(program, associate([(PUSH, IMPLICIT)]) + made + RELEASE)
        status = ran.output.partition(b"\x00\x00\x00\x09\x02\x00\x00\x00")[2][:2]
        is_right = ran.status == 0 and status == (b"\x00\x00" if value.startswith(b"X") else b"\x21\x01")
        why = None if is_right else f"the program ends with {ran.status}, and the answer has the status {status.hex()}"
        results.tell(f"a label of a million bytes, {value[:2]!r} and padding: it is empty, or one letter", why)


def main():
    given = arguments(__doc__, ("count", 10_000, "how many associations"), ("seed", 1, "the seed of chance"))
    results = Results(tells_passed=False)
    largest(given.program, results)
    padded(given.program, results)
    fuzz(given.program, given.count, given.seed, results)
    results.end()


if __name__ == "__main__":
    main()
