"""Servers on a store, requests to them in an association, watchers that hear of events, and the content of a store."""

from __future__ import annotations

import contextlib
import dataclasses
import os
import re
import shutil
import signal
import socket
import sqlite3
import struct
import subprocess
import tempfile
from collections.abc import Callable, Iterator
from typing import NoReturn, Optional

from dicom import EXPLICIT, PULL, PUSH, VERIFICATION, WATCH, act, create, data, echo, even, find, get, items, set_attributes, step
from ledger import (CANCELLATION_TIME, LABEL, PERFORMED, PROGRESS, SOP_INSTANCE, STATE, TRANSACTION, VRS, Association, Attributes,
                    Fault, read)
from listeners import Counting, Incoming
from machine import pid_of
from peer import FOLLOWS, PULL_ON, PUSH_ON, Peer, Reply, subscribe, told, unsubscribe
from server import Server

SECONDS = 60.0  # for one answer, and for a start: a busy machine may need that long
FAULTS = (Fault, OSError, EOFError, AssertionError, KeyError, IndexError, struct.error)
ECHO_ON = 7
READY, WAITING = b"READY", b"UNAVAILABLE"
READINESS = (0x0040, 0x4041)
STATE_REPORT = b"\1\0"
REFUSED = 2  # the exit status of a start that is refused


class Stored(Server):
    """`upsd serve` on a store, which is made if it is missing, by a program that may follow another command. It may be told not
    to wait for its port."""

    def __init__(self, program: list[str], file: str, *options: str, seconds: float = SECONDS, waits: bool = True) -> None:
        make_store(program, file)
        self.begin([*program, "serve", "--ae", "UPSD", "--port", "0", "--store", file, *options], is_group=True)
        self.port, self.took = 0, 0.0
        if waits:
            self.await_port(seconds)

    def await_port(self, seconds: float = SECONDS) -> None:
        """Waits until it listens."""
        self.limit = seconds
        self.port = self.printed()
        self.pid = pid_of(self.process)

    def without_port(self, line: str) -> NoReturn:
        self.kill()
        self.reader.join(5)
        raise Fault(f"the server does not start: it printed {line!r} for a port, and ended with {self.process.returncode}: {self.log[-5:]}")

    def kill(self) -> None:
        """Kills all of its processes at once."""
        with contextlib.suppress(ProcessLookupError):
            os.killpg(self.process.pid, signal.SIGKILL)
        self.process.wait()

    def stop(self) -> None:
        self.kill()
        self.reader.join(5)
        self.output.close()

    def lines(self, words: str) -> list[str]:
        """Returns the lines of the log in which these words are found."""
        return [line for line in list(self.log) if re.search(words, line)]


class Client(Association):
    """An association with presentation contexts for watching and verification too; each request has its own Message ID."""

    def __init__(self, port: int, title: bytes = b"BENCH", seconds: float = SECONDS) -> None:
        self.number = 0
        Peer.__init__(self, port, [(it, EXPLICIT) for it in (PUSH, PULL, WATCH, VERIFICATION)], title, seconds)

    def next(self) -> int:
        self.number = self.number % 65535 + 1
        return self.number

    def status_of(self, spelled: bytes) -> int:
        """Sends a request that has one answer, and returns its status."""
        self.socket.sendall(spelled)
        reply = self.reply()
        number = struct.unpack("<H", reply.elements[0x0120])[0]
        if number != self.number:
            raise Fault(f"request {self.number} is answered as {number}")
        return reply.status

    def create(self, uid: bytes, data_set: bytes) -> int:
        return self.status_of(create(PUSH_ON, self.next(), uid, data_set))

    def change(self, uid: bytes, state: bytes, transaction: bytes) -> int:
        return self.status_of(act(PULL_ON, self.next(), uid, 1, told(*TRANSACTION, b"UI", transaction) + told(*STATE, b"CS", state)))

    def set(self, uid: bytes, data_set: bytes, transaction: Optional[bytes]) -> int:
        holder = told(*TRANSACTION, b"UI", transaction) if transaction else b""
        return self.status_of(set_attributes(PULL_ON, self.next(), uid, holder + data_set))

    def cancel(self, uid: bytes) -> int:
        """Sends a request to cancel."""
        return self.status_of(act(PUSH_ON, self.next(), uid, 2, told(0x0074, 0x1238, b"LT", b"ILL")))

    def subscribe(self, place: bytes, title: bytes, lock: bytes, keys: bytes = b"") -> int:
        return self.status_of(renumbered(subscribe(place, title, lock, keys), self.next()))

    def unsubscribe(self, place: bytes, title: bytes) -> int:
        return self.status_of(renumbered(unsubscribe(place, title), self.next()))

    def echo(self) -> int:
        return self.status_of(echo(self.next(), ECHO_ON))

    def got(self, uid: bytes) -> Optional[Attributes]:
        """Returns all attributes of a step, by an N-GET, or None if it is unknown."""
        self.socket.sendall(get(PUSH_ON, self.next(), uid))
        reply = self.reply()
        if reply.status == 0xC307:
            return None
        if reply.status != 0x0000 or reply.data_set is None:
            raise Fault(f"an N-GET of {uid.decode()} is answered {reply.status:04X}")
        return read(True, reply.data_set)

    def found(self, *keys: tuple[tuple[int, int], bytes]) -> list[Attributes]:
        """Returns the matches of a C-FIND by these keys, with UIDs, states and labels."""
        asked: dict[tuple[int, int], bytes] = {SOP_INSTANCE: b"", STATE: b"", LABEL: b""} | dict(keys)
        self.socket.sendall(find(PULL_ON, self.next(), b"".join(told(*tag, VRS[tag], value) for tag, value in sorted(asked.items()))))
        return self.matches()

    def matches(self) -> list[Attributes]:
        """Returns the data sets of the answers to a C-FIND."""
        replies: list[Reply] = [self.reply()]
        while replies[-1].status == FOLLOWS:
            replies.append(self.reply())
        if replies[-1].status != 0x0000:
            raise Fault(f"a C-FIND is answered {replies[-1].status:04X}")
        return [read(True, it.data_set or b"") for it in replies[:-1]]


def renumbered(spelled: bytes, number: int) -> bytes:
    """Returns a request that has the Message ID 1 with another one."""
    one = struct.pack("<HHI", 0, 0x0110, 2) + b"\1\0"
    assert spelled.count(one) == 1
    return spelled.replace(one, one[:-2] + struct.pack("<H", number))


def a_step_of(patient: bytes) -> bytes:
    """Returns the attributes of a step that is accepted, of a patient."""
    return step(True, {(0x0010, 0x0020): (b"LO", even(patient, b" "))})


def text_in(attributes: Attributes, tag: tuple[int, int]) -> bytes:
    return attributes.get(tag, (b"", b""))[1].rstrip(b"\0 ")


MOMENT = b"20240229120000"


def performed(number: int) -> bytes:
    """Returns what a workstation sets of a step the `number`-th time: what each final state needs, and the number twice."""
    canceled = data(True, *CANCELLATION_TIME, b"DT", MOMENT) + data(True, 0x0074, 0x1004, b"DS", even(b"%d" % (number % 100000), b" "))
    done = data(True, 0x0040, 0x4050, b"DT", MOMENT) + data(True, 0x0040, 0x4051, b"DT", MOMENT)
    return (data(True, *PROGRESS, b"SQ", items([canceled])) + told(*LABEL, b"LO", b"READ %d" % number)
            + data(True, *PERFORMED, b"SQ", items([done])))


@dataclasses.dataclass(frozen=True)
class Report:
    """An event that was reported to a watcher."""

    uid: bytes
    event: int
    information: bytes

    def is_state(self) -> bool:
        return struct.pack("<H", self.event) == STATE_REPORT

    def shown(self) -> tuple[bytes, bytes]:
        """Returns the state and the readiness that it reports."""
        told_of = read(True, self.information)
        return text_in(told_of, STATE), text_in(told_of, READINESS)


class Hearing(Counting):
    """A watcher that answers each report at once, and keeps them. If it is deaf, it hangs up instead."""

    def __init__(self) -> None:
        self.reports: list[Report] = []
        self.last: dict[bytes, Report] = {}  # the last State Report of each step
        self.is_deaf = False
        super().__init__()

    def talk(self, connected: socket.socket) -> None:
        if self.is_deaf:
            return
        incoming = Incoming(connected)
        for uid in incoming.reports():
            report = Report(uid, struct.unpack("<H", incoming.event)[0], incoming.information)
            self.reports.append(report)
            if incoming.event == STATE_REPORT:
                self.last[uid] = report


# the files of a store

def files_of(file: str) -> list[str]:
    """Returns the files of a store that exist."""
    return [it for it in (file, file + "-wal") if os.path.exists(it)]


def copy_of(file: str, folder: str, name: str = "copy") -> str:
    """Copies a store to a folder, and returns the copy."""
    target = os.path.join(folder, name)
    for it in (target, target + "-wal", target + "-shm"):
        with contextlib.suppress(FileNotFoundError):
            os.remove(it)
    for it in files_of(file):
        shutil.copyfile(it, target + it[len(file):])
    return target


def bytes_in(file: str) -> dict[str, bytes]:
    """Returns the bytes of the files of a store."""
    found = {}
    for it in files_of(file):
        with open(it, "rb") as opened:
            found[it] = opened.read()
    return found


Row = tuple[object, ...]
COLUMNS = ("number", "moment", "title", "operation", "instance", "transaction_uid", "state", "receiver", "deletion_lock", "event", "attributes")


def rows_at(file: str) -> list[Row]:
    """Returns the requests of a store that nobody has open, in order, by sqlite3, which may change the files. A store that was
    not made yet has none."""
    with contextlib.closing(sqlite3.connect(file, isolation_level=None)) as opened:
        try:
            return opened.execute(f"SELECT {', '.join(COLUMNS)} FROM request ORDER BY number").fetchall()
        except sqlite3.OperationalError as fault:
            if "no such table" in str(fault):
                return []
            raise


def rows_of(file: str) -> list[Row]:
    """Returns the requests of a store, by a copy of it, in order."""
    with tempfile.TemporaryDirectory() as folder:
        return rows_at(copy_of(file, folder))


def runs_of(file: str) -> list[Row]:
    """Returns the runs that a store has recorded, by a copy of it."""
    with tempfile.TemporaryDirectory() as folder, contextlib.closing(sqlite3.connect(copy_of(file, folder))) as opened:
        return opened.execute("SELECT number, moment, version, settings, requests, terms FROM run ORDER BY number").fetchall()


@dataclasses.dataclass
class Ended:
    """How a run of the program ended that should end by itself."""

    status: Optional[int]
    output: str
    said: str


def ended(words: list[str], seconds: float = SECONDS) -> Ended:
    """Runs the program; the status is None if it does not end in time."""
    with subprocess.Popen(words, stdout=subprocess.PIPE, stderr=subprocess.PIPE, text=True, start_new_session=True) as ran:
        try:
            output, said = ran.communicate(timeout=seconds)
        except subprocess.TimeoutExpired:
            os.killpg(ran.pid, signal.SIGKILL)
            output, said = ran.communicate()
            return Ended(None, output, said)
    return Ended(ran.returncode, output, said)


def initialized(program: list[str], file: str, seconds: float = SECONDS) -> Ended:
    """Returns the outcome of making a store."""
    return ended([*program, "init", file], seconds)


def make_store(program: list[str], file: str) -> None:
    """Makes a store in a file, unless the file has something."""
    if os.path.exists(file) and os.path.getsize(file):
        return
    come = initialized(program, file)
    if come.status != 0:
        raise Fault(f"no store is made: upsd init ends with {come.status}: {come.said[-300:]!r}")


def started_on(program: list[str], file: str, *options: str, seconds: float = SECONDS) -> Ended:
    """Returns the outcome of a start that should be refused."""
    return ended([*program, "serve", "--ae", "UPSD", "--port", "0", "--store", file, *options], seconds)


def compacted(program: list[str], file: str, *options: str, seconds: float = SECONDS) -> Ended:
    """Returns the outcome of a compaction."""
    return ended([*program, "compact", file, *options], seconds)


def is_sentence(said: str, words: str = "") -> bool:
    """Returns whether a program says in a line of standard error why it doesn't use a store, with these words."""
    return bool(re.search(rf"^upsd: the store [^\n]*{words}", said, re.MULTILINE | re.IGNORECASE))


def refused(come: Ended, words: str, before: dict[str, bytes], file: str, with_log: bool = True) -> Optional[str]:
    """Returns why a start is not refused as it should be, or None: with a sentence that has these words, and the files as they
    were (only the file itself, without `with_log`)."""
    if come.status != REFUSED:
        return f"it ends with {come.status}: {come.said[-300:]!r}"
    if not is_sentence(come.said, words):
        return f"it does not say {words!r}: {come.said[-300:]!r}"
    now = bytes_in(file) if os.path.isfile(file) else {}
    differ = [it for it, content in before.items() if now.get(it) != content and (with_log or it == file)]
    return f"{differ} are not as they were" if differ else None


def tried(trial: Callable[..., Optional[str]], *more: object) -> Optional[str]:
    """Runs a trial, and returns what is wrong, or why it doesn't come to its end; or None."""
    try:
        return trial(*more)
    except FAULTS as fault:
        return repr(fault)


@contextlib.contextmanager
def folder_for(kept: Optional[str]) -> Iterator[str]:
    """Yields a folder for stores: a temporary one, or a given one, which stays."""
    if kept:
        os.makedirs(kept, exist_ok=True)
        yield kept
        return
    with tempfile.TemporaryDirectory(prefix="store") as folder:
        yield folder
