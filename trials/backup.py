#!/usr/bin/env python3
"""Tries backups of a running server: `packaging/upsd-backup`, without systemd.

    trials/backup.py [PROGRAM] [--rounds 20] [--seed 1]

Four workstations, a reader and three watchers use a server, as in `check/store.py kills`, while backups are made of it. Each has
to be taken by a check, and each association goes on over them. The last of each round is made with a `cp` that kills the server
once both files are copied, while it still stands still; it is then restored in the place of the store. So what was answered before
is in the backup, and the checks of `kills` on the next server hold for it. Then backups fail: a `cp` that takes too long, a signal,
another backup at the same time, a missing log, damaged files, a store that is open; each has to leave a server that goes on, and
the store as it was. What a check refuses has to be kept. A check has the terms of the store's last run, and connects to none of its
watchers. As root it must not follow what another account puts in its folder: links, a pipe, names that a restore might take.

It prints a line for each kind of check, and then `N passed, M failed`. The exit status is 1 if any failed.
"""

from __future__ import annotations

import argparse
import contextlib
import os
import pathlib
import pwd
import re
import shutil
import signal
import socket
import subprocess
import sys
import tempfile
import time
from typing import Callable, Iterator, Optional

TOP = os.path.dirname(os.path.dirname(os.path.abspath(__file__)))
sys.path[:0] = [os.path.join(TOP, it) for it in ("check/lib", "check")]
import kills
from machine import HERE, described, holds
from peer import GLOBAL, subscribe
from results import Results
from stored import FAULTS, Client, Stored, a_step_of, bytes_in, make_store

BACKUP = [sys.executable, os.path.join(HERE, "packaging/upsd-backup")]
KEEP = ["--keep", kills.KEEP]
LIVES = 0.4  # seconds of a server before, between and after its backups, at most
BACKUPS = 3  # how many are made while a server serves, at most
AWAY = 60.0  # seconds for a command
OTHER = pwd.getpwnam("nobody")  # an account that is not root
SECRET = b"SECRET" * 100


class Place:
    """A folder for backups and for a `cp` in place of that of the system, which may do something besides."""

    def __init__(self, program: list[str], folder: str) -> None:
        self.program, self.folder, self.commands = program, os.path.join(folder, "backups"), os.path.join(folder, "commands")
        os.makedirs(self.commands, exist_ok=True)

    @contextlib.contextmanager
    def copying(self, lines: str) -> Iterator[None]:
        """Lets `cp` run these lines of shell, in which $last is the target, until it is left."""
        path = os.path.join(self.commands, "cp")
        pathlib.Path(path).write_text(f'#!/bin/sh\nfor last; do :; done\n{lines}\n', encoding="utf-8")
        os.chmod(path, 0o755)
        try:
            yield
        finally:
            os.remove(path)

    def words(self, *words: str) -> list[str]:
        more = ["--folder", self.folder] if words[0] == "make" else []
        return [*BACKUP, words[0], "--program", self.program[0], *more, *words[1:]]

    def environment(self) -> dict[str, str]:
        return {**os.environ, "PATH": f"{self.commands}:{os.environ['PATH']}"}

    def run(self, *words: str) -> subprocess.CompletedProcess[str]:
        return subprocess.run(self.words(*words), capture_output=True, text=True, timeout=AWAY, env=self.environment())

    def made(self) -> list[str]:
        """Returns the backups, the oldest first."""
        return sorted(os.path.join(self.folder, it) for it in os.listdir(self.folder) if not it.startswith("."))

    def remove(self) -> None:
        """Removes all backups: their names are seconds."""
        shutil.rmtree(self.folder, ignore_errors=True)


class BackedUp(Stored):
    """A server on a store that ends by a backup of it, which is restored."""

    def __init__(self, trial: Trial, waits: bool) -> None:
        self.trial, self.is_ending, self.port = trial, False, 0
        super().__init__(trial.program, trial.file, *KEEP, *trial.peers, waits=waits)

    def kill(self) -> None:
        if self.process.poll() is None and self.port and not self.is_ending:
            self.is_ending = True
            self.trial.told("a backup of a server that is killed is restored", self.trial.ended_by_backup(self))
        super().kill()


class Trial(kills.Trial):
    """A store whose server is killed while it stands still, and whose files are then those of the backup."""

    def __init__(self, place: Place, file: str, seed: int, given: argparse.Namespace) -> None:
        super().__init__(place.program, file, seed, given)
        self.place = place
        self.stood: list[float] = []

    def server(self, waits: bool = True) -> BackedUp:
        return BackedUp(self, waits)

    def back_up(self, server: Stored) -> Optional[str]:
        """Makes a backup, and returns why it fails, or None."""
        self.place.remove()
        ran = self.place.run("make", "--pid", str(server.pid))
        if found := re.search(r"the server stood still for ([\d.]+) s", ran.stdout):
            self.stood.append(float(found[1]))
        return None if ran.returncode == 0 and found else f"status {ran.returncode}: {ran.stdout}{ran.stderr}"

    def ended_by_backup(self, server: Stored) -> Optional[str]:
        """Makes backups of a server, the last by a `cp` that kills it, and restores that one; returns why that fails, or None."""
        for _ in range(self.chance.randrange(BACKUPS)):
            self.told("a backup of a server that goes on is taken", self.back_up(server))
            time.sleep(self.chance.random() * LIVES)
            self.told("and the server goes on", None if server.process.poll() is None else f"it ended: {server.log[-3:]}")
        second = os.path.join(self.place.commands, "second")  # of two copies
        with self.place.copying(f'/bin/cp "$@" || exit 1\n[ -e {second} ] && kill -9 {server.pid}; touch {second}'), removed(second):
            fault = self.back_up(server)
        server.process.wait(kills.SECONDS)
        if fault:
            return fault
        ran = self.place.run("restore", self.place.made()[-1], "--store", self.file)
        for it in (self.file, self.file + "-wal"):
            for old in [old for old in os.listdir(os.path.dirname(self.file)) if old.startswith(os.path.basename(it) + ".before-")]:
                os.remove(os.path.join(os.path.dirname(self.file), old))
        return None if ran.returncode == 0 else f"restore, status {ran.returncode}: {ran.stdout}{ran.stderr}"


def run_rounds(place: Place, folder: str, given: argparse.Namespace, results: Results) -> None:
    """Reports what comes of that many servers on one store that end by a backup."""
    trial = Trial(place, os.path.join(folder, "store"), given.seed, given)
    for _ in range(given.rounds):
        try:
            trial.live(trial.chance.random() * LIVES + 0.05, 0.0)
        except FAULTS as fault:
            trial.told("each server serves", repr(fault))
        if trial.faults:
            break
    try:
        trial.counts["starts"] = 0  # so all steps are checked
        trial.live(0.0, 0.0)
    except FAULTS as fault:
        trial.told("each server serves", repr(fault))
    for kind, count in trial.counts.items():
        if kind != "starts":
            faults = trial.faults[kind]
            results.tell(f"{kind}, {count} times", f"{len(faults)} are wrong: {faults[0]}" if faults else None)
    plan = trial.plan
    print(f"{given.rounds} rounds, seed {given.seed}: {plan.asked:,} requests asked and {plan.answered:,} answered, {len(plan.steps):,} steps; "
          f"{len(trial.stood)} backups, for which servers stood still for up to {max(trial.stood, default=0):.2f} s", flush=True)


# what fails

def goes_on(client: Client, number: int) -> Optional[str]:
    """Returns why an association does not go on with a creation, or None."""
    try:
        status = client.create(b"1.2.15.%d" % number, a_step_of(b"P1"))
    except FAULTS as fault:
        return repr(fault)
    return None if status == 0x0000 else f"a creation is answered {status:04X}"


def failed(ran: subprocess.CompletedProcess[str], words: str) -> Optional[str]:
    """Returns why a command did not fail with these words, or None."""
    is_so = ran.returncode == 1 and words in ran.stderr
    return None if is_so else f"status {ran.returncode}, and not {words!r}: {ran.stdout}{ran.stderr}"


def run_faults(place: Place, folder: str, results: Results) -> None:
    """Tries backups that fail, each of a server that goes on."""
    file = os.path.join(folder, "other")
    with Stored(place.program, file, *KEEP, "--idle", "600") as server:
        client, pid = Client(server.port), ["--pid", str(server.pid)]
        results.tell("the association begins", goes_on(client, 1))
        place.remove()
        with place.copying("exec sleep 5"):
            results.tell("a copy that takes too long", failed(place.run("make", *pid, "--within", "1"), "takes longer than 1 s"))
        results.tell("and the server goes on", goes_on(client, 2))
        with place.copying("exit 1"):
            results.tell("a copy that fails", failed(place.run("make", *pid), "can't be copied"))
        results.tell("and the server goes on again", goes_on(client, 3))
        results.tell("a signal", ended_by_signal(place, server))
        results.tell("and the server goes on after it", goes_on(client, 4))
        with as_program(place, "echo 'upsd: the store copy: no' >&2; exit 2"):
            results.tell("a check that refuses", failed(place.run("make", *pid), "-refused is kept, but"))
        kept = place.made()
        results.tell("what it refuses is kept", None if len(kept) == 1 and kept[0].endswith("-refused") else str(kept))
        ran = place.run("check", kept[0])
        results.tell("and is good", None if ran.returncode == 0 else ran.stderr)
        shutil.rmtree(kept[0])
        results.tell("nothing is left of these", None if not place.made() and not os.listdir(place.folder) else str(os.listdir(place.folder)))
        ran = place.run("make", *pid)
        results.tell("a backup", None if ran.returncode == 0 and "requests" in ran.stdout else ran.stdout + ran.stderr)
        results.tell("and the server goes on after that", goes_on(client, 5))
        ran = place.run("check", place.made()[0])
        results.tell("a check", None if ran.returncode == 0 and re.search(r": [1-9]\d* requests$", ran.stdout.strip()) else ran.stdout + ran.stderr)
        results.tell("a store that is open is not replaced", failed(place.run("restore", place.made()[0], "--store", file), "open"))
        results.tell("and its server goes on", goes_on(client, 6))
    results.tell("without a server or a store", failed(place.run("make", "--store", file + ".none"), "No such file"))
    ran = place.run("make", "--store", file)
    results.tell("a stopped server is backed up", None if ran.returncode == 0 and "no server has it" in ran.stdout else ran.stdout + ran.stderr)
    with Stored(place.program, file, *KEEP):
        results.tell("but not a running one as if it were stopped", failed(place.run("make", "--store", file), "open"))
    run_damages(place, file, results)
    run_terms(place, folder, results)
    run_other(place, folder, results)


@contextlib.contextmanager
def as_program(place: Place, lines: str) -> Iterator[None]:
    """Lets these lines of shell be the program of checks until it is left."""
    path, was = os.path.join(place.commands, "program"), place.program
    pathlib.Path(path).write_text(f"#!/bin/sh\n{lines}\n", encoding="utf-8")
    os.chmod(path, 0o755)
    place.program = [path]
    try:
        yield
    finally:
        place.program = was


def run_terms(place: Place, folder: str, results: Results) -> None:
    """Tries a store whose last run had a watcher, an offset and a lock: its check needs all of them, and must not connect to it."""
    file = os.path.join(folder, "terms")
    heard: list[bool] = []
    with socket.create_server(("127.0.0.1", 0)) as listener:
        listener.settimeout(1)
        words = ["--keep", "3600", "--offset", "-300", f"W1=127.0.0.1:{listener.getsockname()[1]},lock"]
        with Stored(place.program, file, *words) as server:
            client = Client(server.port)
            client.create(b"1.2.16.1", a_step_of(b"P1"))
            results.tell("a lock", None if client.ask(subscribe(GLOBAL, b"W1", b"TRUE")) == 0 else "it is refused")
        with contextlib.suppress(TimeoutError):
            while True:
                listener.accept()[0].close()  # what the server itself has begun
        ran = place.run("make", "--store", file)
        results.tell("a check with the terms of the last run", None if ran.returncode == 0 else ran.stderr)
        with contextlib.suppress(TimeoutError):
            listener.accept()[0].close()
            heard.append(True)
        results.tell("reports to nobody", "it connects to the watcher" if heard else None)


# another account

@contextlib.contextmanager
def removed(path: str) -> Iterator[None]:
    """Removes a file in the end."""
    try:
        yield
    finally:
        with contextlib.suppress(FileNotFoundError):
            os.remove(path)


def run_other(place: Place, folder: str, results: Results) -> None:
    """Tries, as root, what another account may put in its folder for a program of root's to follow."""
    home, secret = os.path.join(folder, "home"), os.path.join(folder, "secret")
    os.chmod(folder, 0o755)
    os.mkdir(home, 0o700)
    store = os.path.join(home, "store")
    make_store(place.program, store)
    pathlib.Path(secret).write_bytes(SECRET)
    os.chmod(secret, 0o600)
    for it in (home, store, store + "-wal"):
        if os.path.exists(it):
            os.chown(it, OTHER.pw_uid, OTHER.pw_gid)
    place.remove()
    words = ["setpriv", f"--reuid={OTHER.pw_uid}", f"--regid={OTHER.pw_gid}", "--clear-groups", *place.program]
    server = Stored.__new__(Stored)
    server.begin([*words, "serve", "--ae", "UPSD", "--port", "0", "--store", store, *KEEP], is_group=True)
    server.await_port()
    with server:
        pid = ["--pid", str(server.pid)]
        ran = place.run("make", *pid)
        results.tell("a store of another account", None if ran.returncode == 0 else ran.stderr)
        with as_program(place, "echo upsd: the store copy: by $(id -u) with $(id -G) >&2; exit 2"):
            results.tell("is checked by that account", failed(place.run("make", *pid), f"by {OTHER.pw_uid} with {OTHER.pw_gid}"))
        plants: dict[str, Callable[[str], None]] = {"a link": lambda path: os.symlink(secret, path), "a pipe": os.mkfifo,
                                                    "a second name of root's file": lambda path: os.link(secret, path)}
        for name, plant in plants.items():
            os.rename(store + "-wal", store + "-away")
            plant(store + "-wal")
            ran = place.run("make", *pid)
            results.tell(f"{name} in the place of the log is refused", None if ran.returncode == 1 else ran.stdout)
            os.remove(store + "-wal")
            os.rename(store + "-away", store + "-wal")
        copies = [os.path.join(path, it) for path, _, names in os.walk(place.folder) for it in names]
        results.tell("nothing of it is copied", None if all(SECRET not in read_bytes(it) for it in copies) else "it is")
    for it in ("store.restored", "store.restored-wal", ".restored", "copy"):
        os.symlink(secret, os.path.join(home, it))
    ran = place.run("restore", place.made()[0], "--store", store)
    results.tell("a restore past links", None if ran.returncode == 0 else ran.stderr)
    told = os.stat(secret)
    is_as_it_was = (told.st_uid, told.st_mode & 0o777, read_bytes(secret)) == (0, 0o600, SECRET)
    results.tell("leaves what they name as it was", None if is_as_it_was else f"{told}")
    owners = {os.stat(it).st_uid for it in (store, store + "-wal")}
    results.tell("and gives the store to its account", None if owners == {OTHER.pw_uid} else str(owners))


def read_bytes(path: str) -> bytes:
    return pathlib.Path(path).read_bytes()


def ended_by_signal(place: Place, server: Stored) -> Optional[str]:
    """Ends the program by SIGTERM while a copy is made, after trying a second one beside it; returns what is wrong, or None."""
    with place.copying("exec sleep 20"):
        words = place.words("make", "--pid", str(server.pid), "--within", "30")
        with subprocess.Popen(words, stderr=subprocess.PIPE, text=True, env=place.environment()) as first:
            stands = holds(lambda: os.path.isdir(place.folder) and state_of(server.pid) == "T", 5)
            fault = failed(place.run("make", "--pid", str(server.pid)), "another backup")
            still = state_of(server.pid)
            first.send_signal(signal.SIGTERM)
            first.wait(AWAY)
    if fault or not stands or still != "T":
        return fault or f"the server stood still: {stands}, and is {still} after another backup"
    return None if first.returncode == 1 else f"it ended with {first.returncode}"


def state_of(pid: int) -> str:
    with open(f"/proc/{pid}/stat", encoding="utf-8") as told:
        return told.read().rpartition(") ")[2][0]


def run_damages(place: Place, file: str, results: Results) -> None:
    """Tries to restore backups that are none any more, in the place of a store that nobody has open."""
    good, before = place.made()[0], bytes_in(file)
    for name, words in (("without its log", "is no backup"), ("with a damaged file", "does not take"), ("with an empty file", "does not take")):
        bad = os.path.join(place.folder, "bad")
        shutil.copytree(good, bad)
        store = os.path.join(bad, os.path.basename(file))
        if "without" in name:
            os.remove(store + "-wal")
        elif "damaged" in name:
            with open(store, "r+b") as opened:
                opened.write(bytes(1000))
            os.truncate(store + "-wal", 0)  # it may have all pages, and then none of the file is read
        else:
            os.truncate(store, 0)
        ran = place.run("restore", bad, "--store", file)
        results.tell(f"a backup {name} is refused", failed(ran, words))
        results.tell("and the store is as it was", None if bytes_in(file) == before else "it is not")
        shutil.rmtree(bad)
    had_terms = os.path.exists(f"{file}-terms")
    ran = place.run("restore", good, "--store", file)
    aside = [it for it in os.listdir(os.path.dirname(file)) if ".before-" in it]
    results.tell("a good one is restored", None if ran.returncode == 0 and len(aside) == 2 else f"{ran.stdout}{ran.stderr}, {aside}")
    left = os.path.exists(f"{file}-terms")
    results.tell("and the terms of the store before it are gone", None if had_terms and not left else f"they were there: {had_terms}, and are: {left}")
    with Stored(place.program, file, *KEEP) as server:
        client = Client(server.port)
        there = [client.got(b"1.2.15.%d" % it) is not None for it in range(1, 7)]
        results.tell("it has what was answered before it, and nothing else", None if there == [True] * 4 + [False] * 2 else str(there))


def main() -> None:
    asked = described(__doc__, "?")
    asked.add_argument("--rounds", type=int, default=20, help="how many servers end by a backup (20)")
    asked.add_argument("--seed", type=int, default=1, help="by which what is random is chosen (1)")
    given = asked.parse_args()
    results = Results()
    with tempfile.TemporaryDirectory(prefix="upsd-backup-") as folder:
        place = Place([os.path.abspath(given.program)], folder)
        run_faults(place, folder, results)
        run_rounds(place, folder, given, results)
    results.end()


if __name__ == "__main__":
    main()
