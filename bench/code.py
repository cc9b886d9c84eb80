#!/usr/bin/env python3
"""Counts the code that a request of each kind runs through in `upsd serve`, in lines of 64 bytes, and what such a line costs.

While a thread waits for its peer, the system's own code fills the caches. So each line of code that a request runs through has
to be fetched again, whatever it does. For each kind of request the first table has the instructions, the lines and the pages of
code, and the functions, as callgrind sees them over TCP (valgrind, from Debian's package of that name). Only what runs for every
request of the kind counts.

The second table has what a C-ECHO of bench/echo.c takes that runs through some lines of code besides, a jump each, one after the
other, which a processor fetches ahead as well as it can. It is left out if gcc isn't installed.

Usage: bench/code.py [PROGRAM]        (crates/upsd/out/upsd, which `rt run` builds)
"""

import functools
import os
import re
import shutil
import subprocess
import sys
import tempfile
import time

sys.path.insert(0, os.path.join(os.path.dirname(os.path.dirname(os.path.abspath(__file__))), "check/lib"))
from dicom import create
from peer import PUSH_ON, Peer, a_step
from serve import Least, compiled_echo, measure, one_create, one_echo, one_find, one_get, one_set
from server import Server

ASKED = 200  # requests counted
LINE, PAGE = 64, 4096  # bytes
LINES = (0, 100, 200, 400)  # of echo.c

KINDS = (("C-ECHO", one_echo), ("N-GET", one_get), ("C-FIND by patient ID", one_find), ("N-SET", one_set), ("N-CREATE", one_create))

# A line of a profile: an address, or how far it is from the last one, then a source line and the instructions.
COST = re.compile(r"(0x[0-9a-f]+|[+-]\d+|\*) \S+ (\d+)")


def tell(server, command):
    """Has callgrind set its counts to zero, or write them."""
    words = ["callgrind_control", command, str(server.process.pid)]
    subprocess.run(words, stdout=subprocess.DEVNULL, stderr=subprocess.DEVNULL, check=True)


def profile(program, one):
    """Returns what callgrind tells of the requests of a kind alone."""
    with tempfile.TemporaryDirectory() as folder:
        words = ["valgrind", "--tool=callgrind", "--dump-instr=yes", f"--callgrind-out-file={folder}/out", program]
        with Server(words, "--associations", "1", error=subprocess.DEVNULL) as server:
            peer = Peer(server.port)
            assert all(peer.ask(create(PUSH_ON, 1, b"1.2.0.%d" % i, a_step(b"P%d" % i))) == 0 for i in range(10))
            assert one(peer, 0, ASKED) == 0
            tell(server, "--zero")
            assert all(one(peer, 0, i) == 0 for i in range(ASKED))
            tell(server, "--dump")
            while not (found := [it for it in os.listdir(folder) if it.startswith("out.")]):
                time.sleep(0.1)
            time.sleep(1)  # until it is whole
            with open(f"{folder}/{found[0]}", encoding="utf-8") as told:
                text = told.read()
            peer.release()
            return text


def costs(text):
    """Returns the instructions run at each address, and the functions that have an address run by every request."""
    counts, functions, at, function, is_call = {}, {}, 0, "", False
    for row in text.splitlines():
        if row.startswith("fn="):
            function = row.split()[0]
        elif row.startswith("calls="):
            is_call = True
        elif found := COST.fullmatch(row):
            where, count = found.groups()
            at = at if where == "*" else int(where, 16) if where.startswith("0x") else at + int(where)
            if not is_call:
                counts[at] = counts.get(at, 0) + int(count)
                functions[at] = function
            is_call = False
    often = {it: count for it, count in counts.items() if count >= ASKED}
    return often, {functions[it] for it in often}


def count(program):
    print("| each request | instructions | lines of code | pages | functions |\n|---|---|---|---|---|")
    for name, one in KINDS:
        often, functions = costs(profile(program, one))
        lines, pages = ({at // size for at in often} for size in (LINE, PAGE))
        print(f"| {name} | {sum(often.values()) / ASKED:,.0f} | {len(lines)} | {len(pages)} | {len(functions)} |", flush=True)


def time_lines():
    print("\n| C-ECHO a second, and processor time of echo.c for each | 1 association | 4 | 12 |\n|---|---|---|---|")
    with compiled_echo() as program:
        for lines in LINES:
            measure(functools.partial(Least, [program, str(lines)]), f"with {lines} lines of code", 0, 10_000, one_echo)


def main():
    words = sys.argv[1:]
    if len(words) > 1 or words and words[0].startswith("-"):
        print(__doc__)
        return
    count(words[0] if words else "crates/upsd/out/upsd")
    if shutil.which("gcc"):
        time_lines()


if __name__ == "__main__":
    main()
