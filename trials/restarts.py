"""Starts servers on stores that are not as they expect: with other settings, held, foreign or damaged."""

from __future__ import annotations

import argparse
import contextlib
import os
import pathlib
import random
import re
import shutil
import sqlite3
import struct
import time
from typing import Optional

from ledger import SOP_INSTANCE, Fault
from machine import holds
from making import EARLIER, ITS_SETTINGS
from peer import GLOBAL
from results import Results
from stored import (FAULTS, Client, Ended, Row, Stored, a_step_of, bytes_in, compacted, copy_of, folder_for, is_sentence,
                    performed, refused, rows_of, runs_of, started_on, text_in, tried)

KEEP = ["--keep", "1000000"]
W1, W1_PLAIN, W2 = "W1=127.0.0.1:1,lock", "W1=127.0.0.1:1", "W2=127.0.0.1:1"
BOTH = [*KEEP, W1, W2]
OTHER = "--store-other-settings"
STEPS = 20
TIDY = 10.0  # seconds by which an idle server has copied its log into the file
OPERATION, RECEIVER = 3, 7  # columns of a row
MISSING = r"fewer requests|lost|missing"
CHECKSUM = 8  # bytes of the checksum of a page


def uid_of(number: int) -> bytes:
    return b"1.2.3.%d" % (number + 1)


def ask_all(client: Client, first: int, count: int) -> None:
    """Creates that many steps, claims and sets every second one, and subscribes watchers to some."""
    for number in range(first, first + count):
        uid, transaction = uid_of(number), b"2.25.%d" % (number + 1)
        statuses = [client.create(uid, a_step_of(b"P%d" % number))]
        if number % 2:
            statuses += [client.change(uid, b"IN PROGRESS", transaction), client.set(uid, performed(1), transaction)]
        if number % 5 == 1:
            statuses.append(client.subscribe(uid, b"W1", b"TRUE"))
        if number % 5 == 3:
            statuses.append(client.subscribe(uid, b"W2", b"FALSE"))
        if any(statuses):
            raise Fault(f"what is asked of step {number} is answered {statuses}")


def make(program: list[str], file: str, steps: int = STEPS, tidies: bool = False) -> list[Row]:
    """Makes a store with the requests of that many steps, and returns its rows. With `tidies` its log is copied into the file."""
    with Stored(program, file, *BOTH) as server:
        client = Client(server.port)
        ask_all(client, 0, steps)
        client.release()
        if tidies and not holds(lambda: runs_of(file)[-1][4] == len(rows_of(file)), TIDY):
            raise Fault("the server does not write how many requests there are, when nobody asks anything")
        time.sleep(0.5 if tidies else 0)
    return rows_of(file)


# other settings

def other_settings(program: list[str], folder: str, results: Results) -> None:
    file = os.path.join(folder, "settings")
    rows = make(program, file)
    left = [(number, row[OPERATION]) for number, row in enumerate(rows, 1) if row[RECEIVER] == "W2"]
    less_is_refused(program, folder, file, results)
    before = bytes_in(file)
    number, operation = left[0]
    come = started_on(program, file, *KEEP, W1, OTHER)
    named = rf"request {number} \({operation}\)"
    results.tell("a peer may be gone, but its requests are there: status 2, with the number and the operation", refused(come, named, before, file, False))
    results.tell("a peer may be gone: both files are as they were", refused(come, "", before, file))
    results.tell("a peer may be gone: the requests are as they were", None if rows_of(file) == rows else "they are not")
    results.tell("a peer is gone, and may be left out", tried(leaves_out, program, file, rows, left))
    results.tell("all peers are there again", serves_all(program, file, BOTH, STEPS + 1))
    for name, words in (("a further peer", [*BOTH, "W3=127.0.0.1:1"]), ("a further right", [*KEEP, W1, W2 + ",lock"]),
                        ("other addresses", [*KEEP, "W1=127.0.0.1:2,lock", "W2=127.0.0.1:3"])):
        results.tell(name, serves_all(program, copy_of(file, folder), words, STEPS + 1))
    for name, words in (("another time to keep", [*KEEP[:1], "3600", W1, W2]), ("a right to lock that is gone", [*KEEP, W1_PLAIN, W2]),
                        ("another offset", [*BOTH, "--offset", "120"])):
        results.tell(f"{name}, which may be", serves_all(program, copy_of(file, folder), [*words, OTHER], STEPS + 1))
    results.tell("the table of runs", tried(fault_of_runs, file))
    earlier_format(program, folder, results)
    results.tell("a right that is given", tried(right_given, program, folder))
    results.tell("a right that is given, by a compaction", tried(right_given_to_compaction, program, folder))
    results.tell("a right that is given, killed at each write", tried(right_given_and_killed, program, folder))


def earlier_format(program: list[str], folder: str, results: Results) -> None:
    """Tries starts on a store of an earlier format that are refused: it has to keep its format, byte for byte."""
    file = os.path.join(folder, "earlier")
    shutil.copyfile(EARLIER, file)
    before = bytes_in(file)
    for name, words, said in (("without its peer", ITS_SETTINGS[:4], r"request 1 \(subscribe\)"),
                              ("with another time to keep", ("--keep", "100000", *ITS_SETTINGS[2:]), r"request 21 \(sweep\)")):
        results.tell(f"a store of an earlier format, {name}: it stays as it was", refused(started_on(program, file, *words), said, before, file, False))
    results.tell("a store of an earlier format: a compaction that is refused leaves it", refused(compacted(program, file, *ITS_SETTINGS[:4]), "request 1", before, file, False))
    losing = os.path.join(folder, "losing")
    pathlib.Path(losing).write_bytes(counting_one_more(before[file]))
    before = bytes_in(losing)
    results.tell("a store of an earlier format that has lost a request: it stays as it was",
                 refused(started_on(program, losing, *ITS_SETTINGS), MISSING, before, losing, False))


def counting_one_more(store: bytes) -> bytes:
    """Returns the store of version 0.2.0 with a row of its run that counts one request more than there are: the last byte of its page
    before the checksum, which is that of SQLite's checksum VFS."""
    size = int.from_bytes(store[16:18], "big")
    at = store.index(b",lock\x1a") // size * size
    page = bytearray(store[at:at + size - CHECKSUM])
    page[-1] += 1
    first = second = 0
    for one, other in struct.iter_unpack("<II", page):
        first = (first + one + second) & 0xFFFF_FFFF
        second = (second + other + first) & 0xFFFF_FFFF
    return store[:at] + page + struct.pack("<II", first, second) + store[at + size:]


GIVEN = ["--keep", "1", "W2=127.0.0.1:1,lock"]
LOCK = 8  # the column of the Deletion Lock


def with_ungranted(program: list[str], folder: str, name: str) -> str:
    """Makes a store in which W1 asked for locks without the right to them, steps 0 and 1 were removed, W2 holds 2, and 3 goes on."""
    file = os.path.join(folder, name)
    with Stored(program, file, *GIVEN, W1_PLAIN) as server:
        client = Client(server.port)
        asked = [client.subscribe(GLOBAL, b"W1", b"TRUE")] + [client.create(uid_of(it), a_step_of(b"P")) for it in range(4)]
        asked += [client.subscribe(uid_of(0), b"W1", b"TRUE"), client.subscribe(uid_of(2), b"W2", b"TRUE")]
        for it in range(3):
            transaction = b"2.25.%d" % (it + 1)
            asked += [client.change(uid_of(it), b"IN PROGRESS", transaction), client.set(uid_of(it), performed(1), transaction),
                      client.change(uid_of(it), b"COMPLETED", transaction)]
        if asked[0] != 0xB301 or asked[5] != 0xB301 or any(asked[1:5] + asked[6:]):
            raise Fault(f"what is asked is answered {asked}")
        if not holds(lambda: client.got(uid_of(0)) is None and client.got(uid_of(1)) is None, TIDY):
            raise Fault("no sweep removes what nobody locks")
        client.release()
        time.sleep(1)
    return file


def fault_of_given(program: list[str], file: str, words: list[str]) -> Optional[str]:
    """Returns what is wrong once W1 has the right, or None: removed steps stay removed, and what W2 locked stays."""
    with Stored(program, file, *words) as server:
        client = Client(server.port)
        found = sorted(text_in(it, SOP_INSTANCE) for it in client.found())
        used = [client.create(uid_of(it), a_step_of(b"P")) for it in range(4)]
        granted = client.subscribe(uid_of(3), b"W1", b"TRUE")
    if found != [uid_of(2), uid_of(3)]:
        return f"the steps are {found}"
    if used != [0x0111] * 4 or granted != 0x0000:
        return f"creations under used UIDs are answered {used}, and a lock that may be granted {granted:04X}"
    return None


def locks_of(file: str) -> list[tuple[object, object]]:
    """Returns who asked for subscriptions, and whether with a lock."""
    return [(row[RECEIVER], row[LOCK]) for row in rows_of(file) if row[OPERATION] == "subscribe"]


def right_given(program: list[str], folder: str) -> Optional[str]:
    """Returns what is wrong if a peer gets the right to lock steps after a lock was not granted to it, or None."""
    file = with_ungranted(program, folder, "given")
    before = rows_of(file)
    fault = fault_of_given(program, file, [*GIVEN, W1])
    after = rows_of(file)
    same = [(row[1:LOCK], row[LOCK + 1:]) for row in before] == [(row[1:LOCK], row[LOCK + 1:]) for row in after[:len(before)]]
    if fault or not same:
        return fault or "other columns than that of the lock have changed"
    if locks_of(file) != [("W1", 0), ("W1", 0), ("W2", 1), ("W1", 1)]:
        return f"the locks are {locks_of(file)}"
    return fault_of_given(program, file, [*GIVEN, W1])


def right_given_to_compaction(program: list[str], folder: str) -> Optional[str]:
    """Returns what is wrong if a compaction gives the right, or None."""
    file = with_ungranted(program, folder, "given_to_compaction")
    come = compacted(program, file, *GIVEN, W1)
    return f"{come}" if come.status != 0 else fault_of_given(program, file, [*GIVEN, W1])


def right_given_and_killed(program: list[str], folder: str) -> Optional[str]:
    """Kills the first start with the right at one write and sync after the other. Returns what is wrong after one, or None."""
    made, faults = with_ungranted(program, folder, "given_and_killed"), []
    for call in ("pwrite64", "fdatasync"):
        for number in range(1, MOST_CALLS):
            file = copy_of(made, folder)
            injected = ["strace", "-f", "-qq", "-o", "/dev/null", "-e", f"trace={call}", "-e", f"inject={call}:signal=KILL:when={number}"]
            with contextlib.suppress(*FAULTS), Stored([*injected, *program], file, *GIVEN, W1):
                break
            fault = fault_of_given(program, file, [*GIVEN, W1])
            faults += [f"{call} {number}: {fault}"] if fault else []
    return "; ".join(faults[:3]) or None


MOST_CALLS = 80  # a start has fewer of each


def less_is_refused(program: list[str], folder: str, file: str, results: Results) -> None:
    """Tries starts and compactions with other settings than those of the last run, or fewer peers and rights."""
    before = bytes_in(file)
    for name, words, said in (("another time to keep", ["--keep", "86400", W1, W2], "kept for 1000000 seconds"),
                              ("another offset", [*BOTH, "--offset", "120"], "offset from UTC was 0 minutes"),
                              ("a peer is gone", [*KEEP, W1], "W2 was a peer"),
                              ("a right to lock is gone", [*KEEP, W1_PLAIN, W2], "W1 had the right to lock")):
        results.tell(f"{name}: a start is refused", refused(started_on(program, file, *words), said, before, file))
        results.tell(f"{name}: a compaction is refused", refused(compacted(program, file, *words), said, before, file))
    copy = copy_of(file, folder)
    come = compacted(program, copy)
    results.tell("a compaction takes the settings of the last run", None if come.status == 0 and come.output else f"{come}")
    results.tell("a compaction with the settings of the last run keeps each step", serves_all(program, copy, BOTH, STEPS))


def leaves_out(program: list[str], file: str, rows: list[Row], left: list[tuple[int, object]]) -> Optional[str]:
    """Returns why a server that may leave requests out doesn't do as it should, or None."""
    with Stored(program, file, *KEEP, W1, OTHER, "--store-leave-out") as server:
        client = Client(server.port)
        is_summed = holds(lambda: bool(server.lines(rf"store: {len(left)} requests? .*left out")), 5)
        untold = [it for it in left if not holds(lambda: bool(server.lines(rf"request {it[0]} \({it[1]}\) is left out")), 5)]
        there = len(client.found())
        status = client.create(uid_of(STEPS), a_step_of(b"P"))
        others = [line for line in server.lines("is left out") if not any(f"request {it[0]} " in line for it in left)]
    if untold or others or not is_summed:
        return f"the log does not tell of {untold}, or tells of others: {others}; how many is {'told' if is_summed else 'not told'}"
    if there != STEPS or status != 0x0000:
        return f"{there} of {STEPS} steps are there, and a creation is answered {status:04X}"
    now, numbers = rows_of(file), {number for number, _ in left}
    wanted = [row[1:] for number, row in enumerate(rows, 1) if number not in numbers]
    is_good = [row[1:] for row in now[:-1]] == wanted and [row[0] for row in now] == list(range(1, len(wanted) + 2))
    return None if is_good else f"the store has {len(now)} requests, and not the {len(wanted)} that are left and one more"


def serves_all(program: list[str], file: str, words: list[str], steps: int) -> Optional[str]:
    """Returns why a server does not start with exactly that many steps, or doesn't answer a holder; or None."""
    try:
        with Stored(program, file, *words) as server:
            client = Client(server.port)
            found = sorted(text_in(it, SOP_INSTANCE) for it in client.found())
            status = client.set(uid_of(1), performed(2), b"2.25.2")
        if found != sorted(uid_of(it) for it in range(steps)) or status != 0x0000:
            return f"{len(found)} of {steps} steps are there, and the holder's request is answered {status:04X}"
    except FAULTS as fault:
        return str(fault)
    return None


def fault_of_runs(file: str) -> Optional[str]:
    """Returns what is wrong with the table of runs, or None: it must have three runs or more."""
    runs = runs_of(file)
    if [it[0] for it in runs] != list(range(1, len(runs) + 1)) or len(runs) < 3:
        return f"there are {runs}"
    good = all(isinstance(it[3], str) and "serve" in it[3] and it[1] > 0 and it[2] for it in runs) and "--store-leave-out" in runs[1][3]
    terms = f"keep={KEEP[1]}\noffset=0\nlock=W1\n"
    good = good and [it[5] for it in runs[:2]] == [terms + "peer=W2\n", terms]
    return None if good else f"they are {runs}"


# files that are held, or are no store

def held(program: list[str], folder: str) -> Optional[str]:
    """Returns what is wrong when a second process uses a held file, or None: it must be refused, and the first one go on."""
    file = os.path.join(folder, "held")
    with Stored(program, file, *BOTH) as server:
        client = Client(server.port)
        ask_all(client, 0, 2)
        for come in (started_on(program, file, *BOTH), compacted(program, file, *BOTH)):
            fault = refused(come, "another process", {}, file)
            if fault:
                return fault
        ask_all(client, 2, 2)
        client.release()
    return serves_all(program, file, BOTH, 4)


def foreign_files(program: list[str], folder: str, results: Results) -> None:
    """Tries files that are no store."""
    chance = random.Random(1)
    text, noise, other, short = (os.path.join(folder, it) for it in ("text", "noise", "other", "short"))
    for path, content in ((text, b"no store\n" * 1000), (noise, chance.randbytes(8192)), (short, b"SQLite")):
        pathlib.Path(path).write_bytes(content)
    with contextlib.closing(sqlite3.connect(other)) as opened:
        opened.execute("CREATE TABLE request (number INTEGER PRIMARY KEY, other TEXT)")
        opened.commit()
    for name, path in (("a text", text), ("random bytes", noise), ("another database", other), ("six bytes", short)):
        results.tell(f"{name} for a store", refused(started_on(program, path, *BOTH), "", bytes_in(path), path, False))
    os.makedirs(os.path.join(folder, "a folder"), exist_ok=True)
    for name, path in (("a folder", os.path.join(folder, "a folder")), ("a file in no folder", os.path.join(folder, "none", "store"))):
        results.tell(f"{name} for a store", refused(started_on(program, path, *BOTH), "", {}, path))
    link = os.path.join(folder, "link")
    whole = os.path.join(folder, "whole")
    make(program, whole, 2)
    os.link(whole, link)
    results.tell("a file of two names for a store", refused(started_on(program, link, *BOTH), "", {}, link))


# damage

def damaged_files(program: list[str], folder: str, given: argparse.Namespace, results: Results) -> None:
    """Tries flipped bits in the file, and in the log beside it."""
    file = os.path.join(folder, "damaged")
    rows = make(program, file, STEPS, True)
    chance, faults, harmless = random.Random(f"{given.seed} damage"), [], 0
    for _ in range(given.flips):
        copy = copy_of(file, folder)
        place = flip(copy, chance, os.path.getsize(copy))
        before = bytes_in(copy)
        come = start_briefly(program, copy)
        if come.status is None:
            harmless += 1
            faults += [f"at {place}: it starts, and has other requests"] if rows_of(copy) != rows else []
        elif fault := refused(come, "", before, copy, False):
            faults.append(f"at {place}: {fault}")
    results.tell(f"{given.flips} flipped bits in the file, {harmless} harmless", "; ".join(faults[:3]) or None)
    results.tell("flipped bits in the log", tried(damaged_logs, program, folder, file, given, chance))


def start_briefly(program: list[str], file: str) -> Ended:
    """Returns what comes of a start, with the status None if it serves."""
    try:
        with Stored(program, file, *BOTH) as server:
            pass
        return Ended(None, "", "\n".join(server.log))
    except Fault:
        return started_on(program, file, *BOTH)


def flip(path: str, chance: random.Random, size: int) -> int:
    """Flips a bit in the first `size` bytes of a file, and returns its place."""
    place = chance.randrange(size)
    with open(path, "r+b") as opened:
        opened.seek(place)
        byte = opened.read(1)[0]
        opened.seek(place)
        opened.write(bytes([byte ^ 1 << chance.randrange(8)]))
    return place


def damaged_logs(program: list[str], folder: str, file: str, given: argparse.Namespace, chance: random.Random) -> Optional[str]:
    """Returns why what is left of a damaged log is wrong, or None: it must be the first requests, with all that the file has."""
    copied = len(rows_of(file))
    with Stored(program, file, *BOTH) as server:
        client = Client(server.port)
        ask_all(client, STEPS, STEPS)
        client.release()
    rows, faults, lost, said = rows_of(file), [], 0, 0
    used = used_of(file + "-wal")
    for _ in range(given.flips):
        copy = copy_of(file, folder)
        place = flip(copy + "-wal", chance, used)
        come = start_briefly(program, copy)
        if come.status is not None:
            said += 1
            faults += [] if is_sentence(come.said) else [f"at {place}: {come.said!r}"]
            continue
        now = rows_of(copy)
        lost += len(now) < len(rows)
        said += len(now) < len(rows) and bool(re.search(MISSING, come.said))
        if now != rows[:len(now)] or len(now) < copied:
            faults.append(f"at {place}: {len(now)} requests are there, {copied} were in the file and {len(rows)} in all")
    print(f"    of {given.flips} flipped bits in the log {lost} lost requests, and {said} were told of", flush=True)
    return "; ".join(faults[:3]) or None


def used_of(path: str) -> int:
    """Returns how many bytes a log has without the zeros at its end."""
    with open(path, "rb") as opened:
        return len(opened.read().rstrip(b"\0"))


def run(program: list[str], given: argparse.Namespace, results: Results) -> None:
    with folder_for(given.folder) as folder:
        other_settings(program, folder, results)
        results.tell("a file that another process holds", tried(held, program, folder))
        foreign_files(program, folder, results)
        damaged_files(program, folder, given, results)
