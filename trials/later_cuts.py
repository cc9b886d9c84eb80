"""Simulates power cuts of servers whose syncs fail, of servers that go on after a cut, of making a store, and of the first start
on a store of an earlier version."""

from __future__ import annotations

import argparse
import dataclasses
import os
import random
import shutil
import signal
import subprocess
from typing import Optional

from cuts import STATIONS, STRACE, Asked, Cuts, Recording, Station, Trace, await_end, judged_by, lines_of, record, record_init, tried, tried_each
from ledger import Fault
from machine import HERE
from making import EARLIER, ITS_SETTINGS
from results import Results
from stored import FAULTS, SECONDS, Stored, bytes_in, folder_for, rows_of

FAILING = ("16", "18", "21", "17,18", "19,22", "20,21,22")  # which syncs of each life of a server fail; its start makes some ten
LOSSES = 12  # recordings with these
AGAIN = 6  # states that are served and cut a second time
STEPS = 5  # in a life after a cut
FORGETFUL = os.path.join(HERE, "trials/lib/forgetful.c")


def built(folder: str) -> str:
    """Builds what makes syncs fail and lose pages, and returns its path."""
    library = os.path.join(folder, "forgetful.so")
    subprocess.run(["cc", "-shared", "-fPIC", "-O1", "-Wall", "-Werror", "-o", library, FORGETFUL, "-ldl"], check=True)
    return library


def try_failed_syncs(program: list[str], folder: str, given: argparse.Namespace, results: Results) -> None:
    """Tries states that a disk may have kept of servers whose syncs fail, where each failure loses pages."""
    library = built(folder)
    for at in range(LOSSES):
        told = os.path.join(folder, f"lost{at}")
        setting = {"LD_PRELOAD": library, "FORGETFUL_SYNCS": FAILING[at % len(FAILING)], "FORGETFUL_SEED": f"{at + 1}", "FORGETFUL_TOLD": told}
        words = tuple(word for name, value in setting.items() for word in ("-E", f"{name}={value}"))
        recording = record(program, folder, given, words, f"failing{at}")
        with open(told, encoding="ascii") as opened:
            lost = [int(line) for line in opened]
        cuts = tried(program, recording, given, max(1, given.cuts // LOSSES), given.opened // LOSSES, 3)
        results.tell(f"syncs {setting['FORGETFUL_SYNCS']} fail, and lose {lost} pages: each of {cuts.counts['states']} states has what was "
                     "answered, shown and told before", f"{len(cuts.faults)} have not: {cuts.faults[:3]}" if cuts.faults else None if lost else "none does")


def record_on(program: list[str], file: str, base: int, number: int, settings: tuple[str, ...] = Recording.settings) -> Recording:
    """Records a life of a server on files as they are, of which at least `base` rows must stay."""
    before, log = bytes_in(file), file + ".strace"
    asked = Asked({}, 0)
    station = Station(STATIONS + number, asked, settings == Recording.settings)
    with Stored([*STRACE, "-D", "-o", log, *program], file, *settings, seconds=4 * SECONDS) as server:
        station.run(server.port, STEPS)
        os.kill(server.pid, signal.SIGKILL)
        server.process.wait()
        await_end(log)
    if station.faults:
        raise Fault(f"the work that is recorded: {station.faults[0]}")
    recording = judged_by(Trace(file, lines_of(log)), rows_of(file), asked)
    return dataclasses.replace(recording, before=before, base=base, settings=settings)


def state_of(recording: Recording, folder: str, chance: random.Random, name: str) -> tuple[str, int]:
    """Lays a state that a disk may have kept at a random point, and returns its file and how many rows must be there."""
    cuts = Cuts([], recording, folder, chance)
    point = next(it for it in iter(lambda: cuts.points(2)[1], None) if it > recording.made)
    file = os.path.join(folder, name)
    for path, disk in recording.disks().items():
        disk.go_to(point)
        content = disk.kept(chance, point)
        if content is not None:
            with open(file + path[len(recording.trace.file):], "wb") as opened:
                opened.write(content)
    return file, recording.needed_at(point)


def fault_of_second(program: list[str], recording: Recording, folder: str, given: argparse.Namespace, number: int) -> Optional[str]:
    """Returns what is wrong with states of a server that goes on after a power cut, or None."""
    chance = random.Random(f"{given.seed} again {number}")
    try:
        file, base = state_of(recording, folder, chance, f"again{number}")
        second = record_on(program, file, base, number)
    except FAULTS as fault:
        return repr(fault)
    cuts = tried(program, second, given, max(1, given.cuts // 20), given.opened // 20, 3)
    return f"{len(cuts.faults)} of {cuts.counts['states']} states: {cuts.faults[:3]}" if cuts.faults else None


def try_second_cuts(program: list[str], recording: Recording, folder: str, given: argparse.Namespace, results: Results) -> None:
    """Tries power cuts of servers that go on after a power cut."""
    faults = [it for number in range(AGAIN) if (it := fault_of_second(program, recording, folder, given, number))]
    results.tell(f"each state of a second cut, in {AGAIN} servers that went on after one, has what was answered before both",
                 f"{faults[:3]}" if faults else None)


def try_upgrade(program: list[str], folder: str, given: argparse.Namespace, results: Results) -> None:
    """Tries power cuts of the first start on a store of an earlier version."""
    file = os.path.join(folder, "earlier")
    shutil.copyfile(EARLIER, file)
    rows = rows_of(file)
    recording = record_on(program, file, len(rows), 0, ITS_SETTINGS)
    for name, cuts in (("", tried(program, recording, given, max(1, given.cuts // 4), given.opened)), (", around each write", tried_each(program, recording))):
        results.tell(f"the first start on a store of version 0.2.0{name}: each of {cuts.counts['states']:,} states has its {len(rows)} requests",
                     f"{len(cuts.faults)} have not: {cuts.faults[:3]}" if cuts.faults else None)


def try_init(program: list[str], folder: str, results: Results) -> None:
    """Tries power cuts of making a store, around each write."""
    file = os.path.join(folder, "made")
    lines = record_init(program, file, file + ".strace")
    cuts = tried_each(program, Recording(Trace(file, lines), [], [], [], 0, 0, made=len(lines)))
    results.tell(f"upsd init, around each write: each of {cuts.counts['states']:,} states is a store, or one can be made",
                 f"{len(cuts.faults)} are not: {cuts.faults[:3]}" if cuts.faults else None)


def run(program: list[str], given: argparse.Namespace, results: Results) -> None:
    """Tries all of these."""
    if not shutil.which("strace"):
        print("skipped: strace is not here (apt-get install -y strace)", flush=True)
        return
    with folder_for(given.folder) as folder:
        try_init(program, folder, results)
        try_upgrade(program, folder, given, results)
        try_second_cuts(program, record(program, folder, given), folder, given, results)
        try_failed_syncs(program, folder, given, results)
