#!/usr/bin/env python3
"""Gives `upsd` the longest lines and messages that it takes, in every shape, and checks that each ends by itself.

Each run has a stack of 2 MiB, like a thread, and ten seconds of processor time; a run that needs more is killed. It prints the
ten slowest, each run that was killed, and in the end how many passed. The status is 1 if any was killed.
"""

import os
import resource
import subprocess
import sys
import tempfile

sys.path.insert(0, os.path.join(os.path.dirname(os.path.dirname(os.path.abspath(__file__))), "check/lib"))
from dicom import EXPLICIT, PULL, PUSH, RELEASE, act, associate, create, data, find, get, item, items, pdu, set_attributes, step
from machine import arguments
from results import Results

STACK = 2 * 1024 * 1024
SECONDS = 10
LINE = 16_777_216
MESSAGE = 1_048_576

STEP = b"00404005=20240229120000 00404041=READY 00741000=SCHEDULED 00741200=MEDIUM "


def confine():
    resource.setrlimit(resource.RLIMIT_STACK, (STACK, STACK))
    resource.setrlimit(resource.RLIMIT_CPU, (SECONDS, SECONDS))


def run(words, stdin):
    """Returns the seconds of processor time of a run, and its status, which is negative if it was killed."""
    before = resource.getrusage(resource.RUSAGE_CHILDREN)
    with tempfile.TemporaryFile() as given:
        given.write(stdin)
        given.seek(0)
        done = subprocess.run(words, stdin=given, stdout=subprocess.DEVNULL, stderr=subprocess.DEVNULL, preexec_fn=confine)
    after = resource.getrusage(resource.RUSAGE_CHILDREN)
    return after.ru_utime + after.ru_stime - before.ru_utime - before.ru_stime, done.returncode


def tags():
    """Yields tags that no dictionary has, in ascending order."""
    for group in range(0x0101, 0xFFFF, 2):
        for number in range(0x1001, 0xFF00):
            yield group, number


def texts(size):
    """Yields attributes of a line, of about `size` bytes at most, each with a name."""
    nested = b"/".join(b"00404018.1" for _ in range(8))
    yield "one value", b"0074100A=" + b"A" * (size - 20)
    yield "one value, escaped", b"0074100A=" + b"%41" * ((size - 20) // 3)
    yield "attributes of a byte", b" ".join(b"%04X%04X=A" % tag for _, tag in zip(range(size // 11), tags()))
    yield "attributes without value", b" ".join(b"%04X%04X=" % tag for _, tag in zip(range(size // 10), tags()))
    yield "the same attribute", b" ".join([b"00100020=A"] * (size // 11))
    yield "items", b" ".join(b"00404018.%d/00080100=A" % (i + 1) for i in range(min(size // 28, 131_000)))
    yield "items of one element, nested", b" ".join(nested + b"/%04X%04X=A" % tag for _, tag in zip(range(size // (len(nested) + 12)), tags()))
    yield "nested too deep", b"/".join([b"00404018.1"] * (size // 11)) + b"/00080100=A"
    yield "spaces", b" " * size
    yield "equals signs", b"=" * size


def keys(size):
    """Yields keys of a line, each with a name, that are slow to match with a value or a list of a megabyte, or with many items."""
    half = size // 2
    yield "a run that fits nearly everywhere", b"00741204=*" + b"a" * min(half, 400_000) + b"b*"
    yield "a run with ?", b"00741204=*" + b"a" * min(half, 250_000) + b"?" + b"a" * min(half, 250_000) + b"b*"
    yield "only ?", b"00741204=" + b"?" * (size - 20)
    yield "only *", b"00741204=" + b"*" * (size - 20)
    yield "runs of one letter", b"00741204=" + b"*a" * ((size - 20) // 2)
    yield "runs of ?", b"00741204=" + b"*?" * ((size - 20) // 2)
    yield "runs of a and ?", b"00741204=" + b"*a?" * ((size - 20) // 3)
    yield "a list of UIDs", b"00081155=" + b"\\".join([b"1.2.3.4.5"] * ((size - 20) // 10))
    yield "a list of empty UIDs", b"00081155=" + b"\\" * (size - 20)
    yield "a list of different UIDs", b"00081155=" + b"\\".join(b"1.%07d" % (i * 7_654_321 % 10_000_000) for i in range((size - 20) // 10))
    yield "* before a letter", b"00741204=" + b"*" * (size - 20) + b"b"
    yield "* between letters", b"00741204=a" + b"*" * (size - 20) + b"b"
    yield "spaces behind a UID", b"00081155=1.2" + b"%20" * ((size - 20) // 3)
    yield "spaces behind a letter", b"00741204=b" + b"%20" * ((size - 20) // 3)


def scripts():
    for name, line in (
        ("spaces round a title", b"0 SCHED1" + b"%20" * ((LINE - 20) // 3) + b" held"),
        ("spaces before a title", b"0 " + b"%20" * ((LINE - 20) // 3) + b"SCHED1 held"),
        ("a long title", b"0 " + b"A" * (LINE - 10) + b" held"),
        ("a long moment", b"0" * (LINE - 10) + b" A held"),
        ("a long verb", b"0 A " + b"h" * (LINE - 10)),
        ("a long UID", b"0 A holder " + b"1" * (LINE - 20)),
        ("a UID of many components", b"0 A holder " + b"1." * ((LINE - 20) // 2) + b"1"),
        ("a list of tags", b"0 A get 1.2.3 " + b"00741000 " * ((LINE - 20) // 9)),
    ):
        yield name, line + b"\n"
    first = b"0 A create 1.2.3.1 " + STEP + b"00741204=CT\n"
    for verb in (b"create 1.2.3.2 " + STEP, b"set 1.2.3.1 - ", b"cancel 1.2.3.1 ", b"find "):
        head = b"0 A " + verb
        for name, text in texts(LINE - len(head) - 1):
            yield f"{verb.split()[0].decode()}: {name}", first + head + text + b"\n"
    for letter, kind in ((b"a", "letters"), (b"a\\", "values"), (b"1.2.3.4.6\\", "UIDs")):
        tag = b"00741204=CT 00081155=" if kind == "UIDs" else b"00741204="
        held = b"0 A create 1.2.3.1 " + STEP + tag + (letter * (1_040_000 // len(letter))).rstrip(b"\\") + b"\n"
        for name, text in keys(LINE - 20):
            yield f"find in a megabyte of {kind}: {name}", held + b"0 A find " + text + b"\n"
    both = b"00404018.%d/00081155=1.2.3.4.6 00404018.%d/00741204=CT"
    held = b"0 A create 1.2.3.1 " + STEP + b" ".join(both % (i, i) for i in range(1, 2_001)) + b"\n"
    for name, text in keys(LINE - 40):
        yield f"find in 2,000 items: {name}", held + b"0 A find 00404018.1/" + text + b"\n"
    universal = b" ".join(b"00404018.1/%02X%02X%04X=" % (group >> 8, group & 255, number) for _, (group, number) in zip(range(LINE // 22), tags()))
    yield "find in 2,000 items: universal keys", held + b"0 A find 00404018.1/01FF1001=A " + universal + b"\n"
    yield "a million lines", b"0 A held\n" * 999_999


def sets(size):
    """Yields data sets in Explicit VR Little Endian, each with a name."""
    count = size // 8
    yield "one value", data(True, 0x0101, 0x1001, b"UN", b"A" * (size - 400))
    yield "elements without value", b"".join(data(True, *tag, b"LO", b"") for _, tag in zip(range(count), tags()))
    yield "empty items", data(True, 0x0101, 0x1001, b"SQ", items([b""] * ((size - 400) // 8)))
    inner = data(True, 0x0101, 0x1001, b"LO", b"A ")
    for _ in range(7):
        inner = data(True, 0x0101, 0x1001, b"SQ", items([inner]))
    yield "nested items", data(True, 0x0101, 0x1001, b"SQ", items([inner] * ((size - 400) // (len(inner) + 8))))
    deep = b""
    for _ in range(4_000):
        deep = data(True, 0x0101, 0x1001, b"SQ", items([deep]))
    yield "nested too deep", deep
    yield "open sequences", b"\x01\x01\x01\x10SQ\0\0\xff\xff\xff\xff\xfe\xff\x00\xe0\xff\xff\xff\xff" * (size // 20)


def messages():
    contexts = [(PUSH, EXPLICIT), (PULL, EXPLICIT)]
    begin = associate(contexts)
    size = MESSAGE - 400
    row = step(True)
    first = begin + create(1, 1, b"1.2.3.1", row)
    for name, more in sets(size - len(row)):
        # the data set is `more` alone, without the attributes of `row`
        yield f"N-CREATE: {name}", begin + create(1, 1, b"1.2.3.1", more) + RELEASE
        yield f"N-SET: {name}", first + set_attributes(3, 2, b"1.2.3.1", more) + RELEASE
        yield f"N-ACTION: {name}", first + act(1, 2, b"1.2.3.1", 2, more) + RELEASE
        yield f"C-FIND: {name}", first + find(3, 2, more) + RELEASE
    yield "a PDU of many fragments", begin + pdu(4, b"".join(b"\0\0\0\x02\x01\x01" for _ in range(16_384 // 6))) * 64
    yield "a request with 20,000 contexts", pdu(1, b"\0\x01\0\0" + b"UPSD".ljust(16) + b"A".ljust(16) + bytes(32) + item(0x20, bytes(4)) * 16_000)
    yield "a request with a long item", pdu(1, b"\0\x01\0\0" + b"UPSD".ljust(16) + b"A".ljust(16) + bytes(32) + item(0x10, b"1." * 30_000))
    yield "a title of spaces", pdu(1, b"\0\x01\0\0" + b" " * 32 + bytes(32))
    yield "gets", first + b"".join(get(3, i % 65_535 + 1, b"1.2.3.1") for i in range(20_000)) + RELEASE
    yield "zeros", bytes(MESSAGE)


def main():
    program, took, results = arguments(__doc__).program, [], Results(tells_passed=False)
    for words, inputs in (([program, "script"], scripts()), ([program, "pipe", "--ae", "UPSD"], messages())):
        for name, stdin in inputs:
            seconds, status = run(words, stdin)
            took.append((seconds, f"{words[1]}: {name}"))
            results.tell(f"{words[1]}: {name}", f"it is ended by signal {-status}" if status < 0 else None)
    for seconds, name in sorted(took, reverse=True)[:10]:
        print(f"{seconds:6.2f} s  {name}")
    results.end()


if __name__ == "__main__":
    main()
