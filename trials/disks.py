"""Tries a server on a store whose disk gives out: a full disk, and writes and syncs that fail."""

from __future__ import annotations

import argparse
import concurrent.futures
import contextlib
import dataclasses
import os
import pathlib
import shutil
import subprocess
import tempfile
import threading
import time
from collections.abc import Iterator
from typing import Optional

from dicom import even, step
from ledger import SOP_INSTANCE, Fault
from machine import holds
from peer import GLOBAL
from results import Results
from stored import FAULTS, SECONDS, Client, Hearing, Stored, bytes_in, folder_for, text_in

TIMEOUT = 5  # the server's, in seconds: for how long an answer is withheld
SLACK = 10.0  # seconds after that by which its association ends
AT_ONCE = 5.0  # seconds by which the log reports it
AGAIN = 10.0  # seconds by which all goes on once there is room: two, on a machine that does nothing else
ABORT = 7  # the type of an A-ABORT
LARGE = 20_000  # bytes of a step that fills a disk
TAKES_NONE, TAKES_AGAIN = r"(ERROR|<3>).*serve: the store takes no requests: ", r"serve: the store takes requests again"
SHARES = 4  # failures that are tried at the same time
CLIENTS = 2  # associations that ask at the same time, so that a group that is tried again is a longer one
COMMENT = (0x0040, 0x1400)
SERVES, RESTS, STARTS = "in a server that serves", "in one that nobody asks anything", "in one that starts"  # the servers whose calls fail
REST = 2.5  # seconds in which a server that nobody asks anything copies its log into the file
LOST = 2  # the status of a server whose store is lost, and of a start that is refused


def uid_of(number: int) -> bytes:
    return b"1.2.4.%d" % (number + 1)


def large_step(size: int) -> bytes:
    return step(True, {COMMENT: (b"LT", even(b"x" * size, b" "))})


@dataclasses.dataclass
class Filling:
    """How many steps were asked to be created, those that were answered, and the type of the PDU by which the last association
    ended, or None if its connection just ended."""

    asked: int = 0
    last_pdu: Optional[int] = None
    answered: set[bytes] = dataclasses.field(default_factory=set)
    lock: threading.Lock = dataclasses.field(default_factory=threading.Lock)

    def unanswered(self) -> set[bytes]:
        return {uid_of(it) for it in range(self.asked)} - self.answered

    def create(self, client: Client, size: int) -> bool:
        """Asks for one more, and returns whether it is answered; if not, the association has ended."""
        with self.lock:
            uid = uid_of(self.asked)
            self.asked += 1
        try:
            status = client.create(uid, large_step(size))
        except AssertionError as other:
            self.last_pdu = other.args[0] if other.args else None
            return False
        except (OSError, EOFError):
            self.last_pdu = None
            return False
        if status != 0x0000:
            raise Fault(f"a creation is answered {status:04X}")
        self.answered.add(uid)
        return True

    def fault_in(self, client: Client) -> Optional[str]:
        """Returns why what was answered is not there, or something else is; or None."""
        found = [text_in(it, SOP_INSTANCE) for it in client.found()]
        missing, more = self.answered - set(found), set(found) - {uid_of(it) for it in range(self.asked)}
        if missing or more or len(found) != len(set(found)):
            return f"{len(missing)} of {len(self.answered)} steps are missing, {len(more)} were never asked for, and {len(found)} are told"
        return None


def fault_behind_start(program: list[str], file: str, filling: Filling, *options: str) -> Optional[str]:
    """Returns why a server that starts on the file doesn't have what was answered, or doesn't serve; or None."""
    try:
        with Stored(program, file, "--keep", "1000000", *options) as server:
            client = Client(server.port)
            return filling.fault_in(client) or (None if filling.create(client, 10) else "a creation is not answered")
    except FAULTS as fault:
        return str(fault)


# a full disk

@contextlib.contextmanager
def small_disk(mebibytes: int) -> Iterator[Optional[str]]:
    """Mounts a file system of that many MiB, and gives its folder, or None if none can be mounted."""
    with tempfile.TemporaryDirectory(prefix="small") as folder:
        mounted = subprocess.run(["mount", "-t", "tmpfs", "-o", f"size={mebibytes}m", "upsd-trial", folder], capture_output=True)
        if mounted.returncode:
            yield None
            return
        try:
            yield folder
        finally:
            for _ in range(50):
                if subprocess.run(["umount", folder], capture_output=True).returncode == 0:
                    break
                time.sleep(0.1)


def take_room(folder: str, size: int) -> None:
    pathlib.Path(os.path.join(folder, "ballast")).write_bytes(bytes(size))


def make_room(folder: str) -> None:
    os.remove(os.path.join(folder, "ballast"))


def fill(filling: Filling, port: int) -> tuple[float, Optional[str]]:
    """Creates large steps until one is not answered. Returns after how long its association ended, and what is wrong with that,
    or None."""
    client = Client(port, seconds=TIMEOUT + SLACK + 20)
    for _ in range(100_000):
        began = time.monotonic()
        if not filling.create(client, LARGE):
            waited = time.monotonic() - began
            return waited, None if waited <= TIMEOUT + SLACK else f"its association ends after {waited:.1f} s"
    return 0.0, "it is never full"


def looked_at(port: int, filling: Filling) -> Optional[str]:
    """Returns why the steps that are shown on a full disk are wrong, or None: none of them may be uncommitted."""
    try:
        client = Client(port, seconds=TIMEOUT + SLACK)
        found = {text_in(it, SOP_INSTANCE) for it in client.found()}
    except FAULTS:
        print("    a C-FIND is withheld while something is not committed", flush=True)
        return None
    print("    a C-FIND is answered while something is not committed", flush=True)
    return f"it tells of {found & filling.unanswered()}" if found & filling.unanswered() else None


def is_echoed(port: int) -> Optional[str]:
    try:
        client = Client(port, seconds=TIMEOUT + SLACK)
        return None if client.echo() == 0x0000 else "it is not answered 0000"
    except FAULTS as fault:
        return repr(fault)


def goes_on(server: Stored, filling: Filling) -> tuple[float, Optional[str]]:
    """Returns after how long a creation is answered when there is room again, and what is wrong with that, or None."""
    began = time.monotonic()
    while time.monotonic() < began + SECONDS:
        with contextlib.suppress(*FAULTS):
            if filling.create(Client(server.port, seconds=TIMEOUT + SLACK), 10):
                waited = time.monotonic() - began
                return waited, None if waited <= AGAIN else f"it takes {waited:.1f} s"
    return SECONDS, f"nothing is answered for {SECONDS} s"


def run_full(program: list[str], given: argparse.Namespace, results: Results) -> None:
    with small_disk(given.size) as folder:
        if folder is None:
            print("skipped: no tmpfs can be mounted here", flush=True)
            return
        take_room(folder, given.size * 2**20 * 3 // 8)
        file, filling, watcher = os.path.join(folder, "store"), Filling(), Hearing()
        options = ["--keep", "1000000", "--timeout", str(TIMEOUT), f"W1={watcher.place}"]
        with Stored(program, file, *options) as server:
            full_trials(server, folder, filling, watcher, given, results)
        results.tell("a restart has what was answered", fault_behind_start(program, file, filling, options[-1]))
        full_start(program, folder, file, filling, options, given, results)


def full_trials(server: Stored, folder: str, filling: Filling, watcher: Hearing, given: argparse.Namespace, results: Results) -> None:
    """Tries a disk that fills under a server, and has room again."""
    assert Client(server.port).subscribe(GLOBAL, b"W1", b"FALSE") == 0x0000
    waited, fault = fill(filling, server.port)
    full_since = time.monotonic() - waited
    print(f"    full behind {len(filling.answered)} steps; the association ended after {waited:.1f} s", flush=True)
    results.tell("full: what is not committed is not answered, and its association ends", fault)
    results.tell("full: the last thing heard is the A-ABORT", None if filling.last_pdu == ABORT else f"it is {filling.last_pdu}")
    is_told = holds(lambda: bool(server.lines(TAKES_NONE)), AT_ONCE)
    first = next((at for at, line in zip(server.times, server.log) if "takes no requests" in line), full_since + SECONDS)
    results.tell("full: the log tells of it at once", None if is_told and first - full_since < AT_ONCE else f"{server.log[-5:]}")
    results.tell("full: a C-ECHO is answered", is_echoed(server.port))
    results.tell("full: a C-FIND tells nothing that is not committed", looked_at(server.port, filling))
    results.tell("full: nothing else is answered", "it is" if filling.create(Client(server.port, seconds=TIMEOUT + SLACK), LARGE) else None)
    holds(lambda: len(server.lines(TAKES_NONE)) > given.minutes, 60.0 * given.minutes + SLACK - (time.monotonic() - full_since))
    lines = len(server.lines(TAKES_NONE))
    results.tell(f"full: the log tells of it each minute, {lines} times in {time.monotonic() - full_since:.0f} s",
                 None if given.minutes < lines <= given.minutes + 2 else f"{lines} lines")
    told_of = filling.unanswered() & set(watcher.last)
    results.tell("full: no watcher is told what is not committed", f"it is told of {told_of}" if told_of else None)
    make_room(folder)
    waited, fault = goes_on(server, filling)
    results.tell(f"room: all goes on after {waited:.1f} s", fault)
    results.tell("room: the log tells of it", None if holds(lambda: bool(server.lines(TAKES_AGAIN)), AT_ONCE) else f"{server.log[-5:]}")
    client = Client(server.port)
    results.tell("room: all that was answered is there", filling.fault_in(client))
    found = {text_in(it, SOP_INSTANCE) for it in client.found()}
    results.tell("room: the watcher is told of each step", None if holds(lambda: set(watcher.last) >= found, SECONDS) else
                 f"it is not told of {len(found - set(watcher.last))} of {len(found)}")


def full_start(program: list[str], folder: str, file: str, filling: Filling, options: list[str], given: argparse.Namespace,
               results: Results) -> None:
    """Tries a server that is killed while the disk is full, and one that starts then."""
    with Stored(program, file, *options) as server:
        _, fault = fill(filling, server.port)
        results.tell("full again", fault)
    before = bytes_in(file)
    try:
        with Stored(program, file, *options) as server:
            fault = filling.fault_in(Client(server.port))
        results.tell("a start on a full disk: it serves", fault)
    except Fault as refusal:
        is_good = f"ended with {LOST}" in str(refusal) and "upsd: the store" in str(refusal)
        results.tell("a start on a full disk: it is refused", None if is_good else str(refusal))
        results.tell("a start on a full disk: the file is as it was", None if bytes_in(file).get(file) == before[file] else "it is not")
    except FAULTS as other:
        results.tell("a start on a full disk", repr(other))
    subprocess.run(["mount", "-o", f"remount,size={2 * given.size}m", folder], check=True)
    results.tell("a restart with room has what was answered", fault_behind_start(program, file, filling, options[-1]))


# single calls that fail

@dataclasses.dataclass(frozen=True)
class Failing:
    """A system call that fails, at its nth time or from then on (`n+`)."""

    call: str
    error: str
    when: str

    def __str__(self) -> str:
        return f"{self.call} fails with {self.error}, {self.when}"


@dataclasses.dataclass(frozen=True)
class Failure:
    """System calls that fail, and in which server."""

    calls: tuple[Failing, ...]
    where: str

    def __str__(self) -> str:
        return f"{', and '.join(map(str, self.calls))} {self.where}"

    def lasts(self) -> bool:
        return any("+" in it.when for it in self.calls)

    def words(self, file: str) -> list[str]:
        """Returns the words of strace that let calls on the files of a store and on their folder fail, and log them beside the
        store."""
        paths = [word for it in (file, file + "-wal", os.path.dirname(file)) for word in ("-P", it)]
        injected = [word for it in self.calls for word in ("-e", f"inject={it.call}:error={it.error}:when={it.when}")]
        traced = ",".join(sorted({it.call for it in self.calls}))
        return ["strace", "-f", *paths, "-o", file + ".strace", "-e", f"trace={traced}", *injected]


def failures(count: int) -> list[Failure]:
    def failure(kind: tuple[str, str], when: str, where: str) -> Failure:
        return Failure((Failing(*kind, when),), where)

    kinds = [("pwrite64", "ENOSPC"), ("pwrite64", "EIO"), ("fdatasync", "EIO"), ("fdatasync", "ENOSPC")]
    once = [failure(kind, str(at), where) for where in (SERVES, RESTS, STARTS) for kind in kinds for at in range(1, count + 1)]
    lasting = [failure(kind, f"{at}+", where) for where in (SERVES, RESTS, STARTS) for kind in kinds for at in (1, count // 2 + 1)]
    starting = [failure((call, "EIO"), str(at), STARTS) for call in ("fsync", "pread64") for at in (1, 2, 3)]
    return once + lasting + starting + in_a_row(count)


def in_a_row(count: int) -> list[Failure]:
    """Returns failures of two syncs in a row, and of a sync and a write after it."""
    syncs = [Failure((Failing("fdatasync", "EIO", f"{at}..{at + 1}"),), SERVES) for at in range(1, count + 1)]
    return syncs + [Failure((Failing("fdatasync", "EIO", str(at)), Failing("pwrite64", "ENOSPC", str(write))), SERVES)
                    for at in range(1, count // 2 + 1) for write in range(3 * at, 3 * at + count)]


def attached(failure: Failure, file: str, pid: int) -> subprocess.Popen:
    """Lets calls of a running server fail, and returns the strace that does it."""
    strace = subprocess.Popen([*failure.words(file), "-p", str(pid)], stderr=subprocess.PIPE, text=True)
    while " attached" not in strace.stderr.readline():
        pass
    return strace


def ask_some(server: Stored, filling: Filling, until: float) -> bool:
    """Creates steps in two associations at a time, in a new one whenever one ends, until ten more are answered or a time is
    reached: returns whether they are."""
    wanted = len(filling.answered) + 10

    def ask() -> None:
        while time.monotonic() < until and server.process.poll() is None and len(filling.answered) < wanted:
            with contextlib.suppress(OSError, EOFError, AssertionError):
                client = Client(server.port, seconds=TIMEOUT + SLACK)
                while len(filling.answered) < wanted and filling.create(client, 100):
                    pass

    with concurrent.futures.ThreadPoolExecutor(CLIENTS) as pool:
        for it in [pool.submit(ask) for _ in range(CLIENTS)]:
            it.result()
    return len(filling.answered) >= wanted


def tried_failure(program: list[str], folder: str, failure: Failure, number: int) -> tuple[str, Optional[str]]:
    """Returns what comes of a failure, in a few words, and the fault or None."""
    file, filling, options = os.path.join(folder, f"failing{number}"), Filling(), ["--keep", "1000000", "--timeout", "2"]
    try:
        with Stored(program, file, *options) as server:
            ask_some(server, filling, time.monotonic() + SECONDS)
            came = "" if failure.where == STARTS else has_failing(server, failure, file, filling)
        if failure.where == STARTS:
            came = starts_failing(program, file, failure, filling, options)
        came += "" if has_failed(file + ".strace") else NONE
        fault = fault_behind_start(program, file, filling)
    except FAULTS as other:
        came, fault = "a fault", repr(other)
    if came.removesuffix(NONE) not in GOOD:
        fault = fault or came
    for it in (file, file + "-wal", file + ".strace"):
        with contextlib.suppress(FileNotFoundError):
            os.remove(it)
    return came, fault


GOOD, NONE = ("goes on", "goes on when it is over", "ends", "is refused", "withholds"), ", and no such call came"


def has_failed(log: str) -> bool:
    """Returns whether strace let a call fail."""
    return "(INJECTED)" in pathlib.Path(log).read_text(encoding="ascii", errors="replace")


def has_failing(server: Stored, failure: Failure, file: str, filling: Filling) -> str:
    """Returns what becomes of a running server whose calls fail."""
    strace = attached(failure, file, server.pid)
    if failure.where == RESTS:
        time.sleep(REST)
    went_on = ask_some(server, filling, time.monotonic() + (8 if failure.lasts() else 30))
    strace.terminate()
    strace.wait()
    strace.stderr.close()
    if went_on:
        return "goes on"
    if holds(lambda: server.process.poll() is not None, 1):
        return "ends" if server.process.returncode == LOST else f"ends with {server.process.returncode}"
    if ask_some(server, filling, time.monotonic() + 30):
        return "goes on when it is over"
    return "ends" if server.process.poll() == LOST else f"answers nothing any more: {server.log[-3:]}"


def starts_failing(program: list[str], file: str, failure: Failure, filling: Filling, options: list[str]) -> str:
    """Returns what becomes of a server whose calls fail while it starts, and afterwards."""
    try:
        with Stored([*failure.words(file), "-D", *program], file, *options) as server:
            is_there = filling.fault_in(Client(server.port, seconds=TIMEOUT + SLACK))
            went_on = ask_some(server, filling, time.monotonic() + (6 if failure.lasts() else 30))
            if is_there:
                return is_there
            if server.process.poll() is not None:
                return "ends" if server.process.returncode == LOST else f"ends with {server.process.returncode}"
            return "goes on" if went_on else "withholds" if failure.lasts() else f"answers nothing any more: {server.log[-3:]}"
    except Fault as refusal:
        return "is refused" if f"ended with {LOST}" in str(refusal) and "upsd: the store" in str(refusal) else str(refusal)


def run_failing(program: list[str], given: argparse.Namespace, results: Results) -> None:
    if not shutil.which("strace"):
        print("skipped: strace is not here (apt-get install -y strace)", flush=True)
        return
    with folder_for(given.folder) as folder, concurrent.futures.ThreadPoolExecutor(SHARES) as pool:
        all_of = failures(given.calls)
        for failure, (came, fault) in zip(all_of, pool.map(lambda it: tried_failure(program, folder, it[1], it[0]), enumerate(all_of))):
            results.tell(f"{failure}: it {came}", fault)
