"""Simulates power cuts of a server on a store: whatever a disk may keep of what was written must be a store that has what was
answered.

strace records the writes and syncs of making the store, and of two lives of a server, with the answers and the reports that were
sent in between. A state from before the store was made need not be one: making it once more then has to succeed. At a
point of that sequence the disk has what was written to a file before its last sync, and any part of what was written since
then, down to parts of single writes, in sectors of 512 bytes.
"""

from __future__ import annotations

import argparse
import bisect
import collections
import dataclasses
import itertools
import os
import random
import re
import shutil
import signal
import sqlite3
import struct
import tempfile
import threading
import time
from collections.abc import Iterator
from typing import Optional

from ledger import LABEL, STATE, Attributes, Fault, read
from machine import holds
from peer import GLOBAL
from results import Results
from stored import (FAULTS, SECONDS, Client, Hearing, Row, Stored, a_step_of, bytes_in, ended, folder_for, initialized, performed,
                    rows_at, rows_of, text_in)

SECTOR = 512
FOREVER = 1 << 62
STATIONS, LIVES, REST = 4, 2, 2.3  # seconds of rest between two bursts, in which the server tidies up
TRACED = "pwrite64,write,ftruncate,fdatasync,fsync,sync_file_range,openat,sendto,sendmsg,writev,unlink,unlinkat,rename,renameat,renameat2"
STRACE = ["strace", "-f", "-yy", "-xx", "-s", "50000000", "-e", f"trace={TRACED}"]
PEERS = ["W1=127.0.0.1:1", "W2=127.0.0.1:1,lock"]
NUMBER, INSTANCE, OPERATION, STATE_OF, RECEIVER, ATTRIBUTES = 0, 4, 3, 6, 7, 10  # columns of a row
AT_ONCE = ("--compact-at", "1")  # each compaction begins as soon as the one before is done

Key = tuple[bytes, ...]  # what was asked of a step, shown or told of it


# the output of strace

@dataclasses.dataclass
class Call:
    """A system call: where in the sequence it began and ended, and what it did."""

    name: str
    arguments: str
    begin: int
    end: int
    result: int
    more: str

    def strings(self) -> list[bytes]:
        return [unescaped(it) for it in re.findall(r'"((?:\\x[0-9a-f]{2})*)"', self.arguments)]

    def descriptor(self) -> str:
        """Returns what the descriptor at the start of the arguments is: a path, or a connection."""
        found = re.match(r"\d+<(.*?[^-])>", self.arguments)
        return plain(found[1]) if found else ""

    def numbers(self) -> list[int]:
        """Returns the numbers after the last string."""
        return [int(it) for it in re.findall(r", (\d+)", self.arguments[self.arguments.rfind('"') + 1:])]


def unescaped(text: str) -> bytes:
    return bytes.fromhex(text.replace("\\x", ""))


def plain(text: str) -> str:
    return unescaped(text).decode() if text.startswith("\\x") else text


WHOLE = re.compile(r"(\d+)\s+(\w+)\((.*)\)\s+= (-?\d+)(.*)")
BEGUN = re.compile(r"(\d+)\s+(\w+)\((.*) <unfinished \.\.\.>")
RESUMED = re.compile(r"(\d+)\s+<\.\.\. (\w+) resumed>(.*)\)\s+= (-?\d+)(.*)")


def calls_in(lines: list[str]) -> list[Call]:
    """Returns the calls that succeeded, or were cut off by the end of the program, in the order in which they began."""
    calls, begun = [], {}
    for at, line in enumerate(lines):
        if found := RESUMED.fullmatch(line):
            name, arguments, begin = begun.pop(found[1])
            calls.append(Call(name, arguments + found[3], begin, at, int(found[4]), found[5]))
        elif found := BEGUN.fullmatch(line):
            begun[found[1]] = found[2], found[3], at
        elif found := WHOLE.fullmatch(line):
            calls.append(Call(found[2], found[3], at, at, int(found[4]), found[5]))
        elif "+++ killed by" in line:
            calls += [Call(*it, at, FOREVER, "") for it in begun.values()]
            begun.clear()
    return sorted((it for it in calls if it.result >= 0), key=lambda it: it.begin)


@dataclasses.dataclass
class Write:
    """Bytes that were written at a place of a file, or its new length (no bytes)."""

    at: int
    data: Optional[bytes]
    begin: int
    end: int


class Traced:
    """What was written to a file, when it was synced, and when it was made, if it was."""

    def __init__(self) -> None:
        self.writes: list[Write] = []
        self.syncs: list[tuple[int, int]] = []
        self.made: Optional[tuple[int, int]] = None  # from when on it may exist, and from when on it does


class Trace:
    """The files of a store, and what was sent over each connection, by the address of the other side."""

    def __init__(self, file: str, lines: list[str]) -> None:
        self.file, self.length = file, len(lines)
        self.files = {file: Traced(), file + "-wal": Traced()}
        self.sent: dict[int, list[tuple[int, bytes]]] = collections.defaultdict(list)
        folder = os.path.dirname(file)
        for it in calls_in(lines):
            place = it.descriptor()
            if it.name == "openat":
                self.note_opened(it)
            elif place in self.files:
                self.note_file(self.files[place], it)
            elif place == folder and it.name in ("fsync", "fdatasync"):
                self.note_folder(it)
            elif found := re.fullmatch(r"TCP(?:v6)?:\[.*:(\d+)->.*:(\d+)\]", place):
                self.sent[int(found[2])].append((it.begin, b"".join(it.strings())[:it.result]))
            elif it.name.startswith(("unlink", "rename")) and any(text.decode(errors="replace") in self.files for text in it.strings()):
                raise Fault(f"a file of the store is taken away or renamed: {it}")

    def note_opened(self, it: Call) -> None:
        path = os.path.join(os.path.dirname(self.file), it.strings()[-1].decode())
        if path in self.files and "O_CREAT" in it.arguments and self.files[path].made is None and not self.files[path].writes:
            self.files[path].made = it.end, FOREVER

    def note_folder(self, it: Call) -> None:
        for file in self.files.values():
            if file.made and file.made[1] == FOREVER and file.made[0] < it.begin:
                file.made = file.made[0], it.end

    @staticmethod
    def note_file(file: Traced, it: Call) -> None:
        if it.name == "pwrite64":
            file.writes.append(Write(it.numbers()[-1], it.strings()[0][:it.result], it.begin, it.end))
        elif it.name == "ftruncate":
            file.writes.append(Write(it.numbers()[-1] if '"' in it.arguments else int(it.arguments.rsplit(", ", 1)[1]), None, it.begin, it.end))
        elif it.name in ("fsync", "fdatasync"):
            file.syncs.append((it.begin, it.end))
        else:
            raise Fault(f"a file of the store is changed by {it.name}")


# what a disk may keep

class Disk:
    """What a disk has of a file as the sequence goes on."""

    def __init__(self, file: Traced, content: bytes) -> None:
        self.file, self.content, self.pending = file, bytearray(content), []
        self.writes, self.syncs = collections.deque(file.writes), collections.deque(sorted(file.syncs, key=lambda it: it[1]))

    def go_to(self, point: int) -> None:
        """Goes on to a point: writes that began before it may be on the disk, and those that ended before a finished sync began are."""
        while self.syncs and self.syncs[0][1] < point:
            begin, _ = self.syncs.popleft()
            self.begin_writes(begin)
            done = [it for it in self.pending if it.end < begin]
            for it in done:
                put(self.content, it)
            self.pending = [it for it in self.pending if it.end >= begin]
        self.begin_writes(point)

    def begin_writes(self, point: int) -> None:
        while self.writes and self.writes[0].begin < point:
            self.pending.append(self.writes.popleft())

    def kept(self, chance: random.Random, point: int) -> Optional[bytes]:
        """Returns what the disk may have of the file at this point, chosen at random; None if the file is missing."""
        if self.file.made and (point <= self.file.made[0] or point <= self.file.made[1] and chance.random() < 0.4):
            return None
        found = bytearray(self.content)
        for it in chosen(chance, self.pending):
            put(found, it)
        return bytes(found)


    def each_kept(self, point: int) -> list[Optional[bytes]]:
        """Returns what the disk may have of the file at this point, if it has the first of the writes since the last sync, the
        last of these torn; or all but one of them. None if the file may be missing."""
        found: list[Optional[bytes]] = [None] if self.file.made and point <= self.file.made[1] else []
        if self.file.made and point <= self.file.made[0]:
            return found
        some = [self.pending[:count] + torn for count in range(len(self.pending)) for torn in beginnings_of(self.pending[count])]
        some += [[*self.pending[:at], *self.pending[at + 1:]] for at in range(len(self.pending))]
        for writes in [self.pending, *some]:
            content = bytearray(self.content)
            for it in writes:
                put(content, it)
            if bytes(content) not in found:
                found.append(bytes(content))
        return found


def put(content: bytearray, it: Write) -> None:
    if it.data is None:
        del content[it.at:]
        content.extend(bytes(it.at - len(content)))
        return
    content.extend(bytes(max(0, it.at - len(content))))
    content[it.at:it.at + len(it.data)] = it.data


def chosen(chance: random.Random, pending: list[Write]) -> list[Write]:
    """Returns some of the writes since a sync, in some order, some of them torn."""
    way = chance.random()
    if way < 0.1:
        some = []
    elif way < 0.2:
        some = list(pending)
    elif way < 0.3:
        some = pending[:chance.randint(0, len(pending))]
    elif way < 0.4 and pending:
        lost = chance.randrange(len(pending))
        some = [it for at, it in enumerate(pending) if at != lost]
    else:
        share = chance.random()
        some = [it for it in pending if chance.random() < share]
    if chance.random() < 0.5:
        chance.shuffle(some)
    if chance.random() < 0.5 and some:
        torn = chance.choice(some)
        some = [part for it in some for part in (parts_of(chance, it) if it is torn or chance.random() < 0.1 else [it])]
    return some


def sectors_of(it: Write) -> list[Write]:
    """Returns the parts of a write, sector by sector."""
    if it.data is None:
        return [it]
    ends = [it.at, *range((it.at // SECTOR + 1) * SECTOR, it.at + len(it.data), SECTOR), it.at + len(it.data)]
    return [Write(begin, it.data[begin - it.at:end - it.at], it.begin, it.end) for begin, end in zip(ends, ends[1:])]


def beginnings_of(it: Write) -> list[list[Write]]:
    """Returns what may be there of a write of which the first sectors were written: none of them, up to all but the last."""
    parts = sectors_of(it)
    return [parts[:count] for count in range(len(parts))]


def parts_of(chance: random.Random, it: Write) -> list[Write]:
    """Returns the sectors of a torn write that were written: the first ones, the last ones, or any."""
    if it.data is None:
        return [it]
    parts = sectors_of(it)
    way, at = chance.random(), chance.randint(0, len(parts))
    return parts[:at] if way < 0.3 else parts[at:] if way < 0.6 else [part for part in parts if chance.random() < 0.5]


# what was sent

def messages_in(sent: list[tuple[int, bytes]]) -> Iterator[tuple[int, dict[int, bytes], bytes]]:
    """Yields the messages that were sent over a connection: when the last byte of each was sent, its command set and its data set."""
    stream = b"".join(data for _, data in sent)
    ends, total = [], 0
    for _, data in sent:
        total += len(data)
        ends.append(total)
    at, elements, data_set = 0, {}, b""
    while at + 6 <= len(stream):
        kind, length = stream[at], struct.unpack(">I", stream[at + 2:at + 6])[0]
        body, at = stream[at + 6:at + 6 + length], at + 6 + length
        if at > len(stream):
            return
        if kind != 4:
            continue
        point = sent[bisect.bisect_left(ends, at)][0]
        while body:
            size, control = struct.unpack(">I", body[:4])[0], body[5]
            part, body = body[6:4 + size], body[4 + size:]
            if control & 1:
                elements, data_set = elements_of(part), b""
                assert control & 2
            else:
                data_set += part
            if control & 2 and (not control & 1 or elements[0x0800] == b"\x01\x01"):
                yield point, elements, data_set


def elements_of(command: bytes) -> dict[int, bytes]:
    found = {}
    while command:
        number, length = struct.unpack("<xxHI", command[:8])
        found[number], command = command[8:8 + length], command[8 + length:]
    return found


@dataclasses.dataclass
class Asked:
    """What was asked, by the port of the association and the Message ID; and the port of the watcher."""

    requests: dict[tuple[int, int], Key]
    watcher: int


def shown_by(attributes: Attributes, uid: bytes) -> Key:
    """Returns the key of a step that is shown in a state, with its label."""
    return b"shown", uid, text_in(attributes, STATE), text_in(attributes, LABEL)


# the work that is recorded

class Station:
    """A workstation that does the same with each of its steps, in an association of its own for each burst."""

    def __init__(self, number: int, asked: Asked, subscribes: bool = True) -> None:
        self.number, self.asked, self.subscribes = number, asked, subscribes
        self.count, self.faults = 0, []

    def run(self, port: int, steps: int) -> None:
        try:
            client = Client(port, b"STATION%d" % self.number)
            for _ in range(steps):
                self.count += 1
                self.work(client, b"1.2.%d.%d" % (self.number + 1, self.count))
            client.release()
        except FAULTS as fault:
            self.faults.append(repr(fault))

    def work(self, client: Client, uid: bytes) -> None:
        transaction, port = b"2.25.%d%d" % (self.number + 1, self.count), client.socket.getsockname()[1]

        def note(status: int, *key: bytes) -> None:
            if status != 0x0000:
                raise Fault(f"{key} is answered {status:04X}")
            self.asked.requests[port, client.number] = key

        note(client.create(uid, a_step_of(b"P%d" % self.number)), b"create", uid)
        if self.subscribes and self.count % 2:
            note(client.subscribe(uid, b"W2", b"TRUE"), b"subscribe", uid)
        note(client.change(uid, b"IN PROGRESS", transaction), b"change", uid, b"IN PROGRESS")
        for version in range(1, 1 + self.count % 3):
            note(client.set(uid, performed(version), transaction), b"set", uid, b"READ %d" % version)
        if found := client.got(uid):
            self.asked.requests[port, client.number] = shown_by(found, uid)
        if self.count % 3:
            note(client.change(uid, b"CANCELED", transaction), b"change", uid, b"CANCELED")


def look(port: int, over: threading.Event, asked: Asked) -> None:
    """Looks at the steps of the workstations until it is over."""
    chance, client = random.Random(1), Client(port, b"READER")
    while not over.wait(0.01):
        uid = b"1.2.%d.%d" % (chance.randint(1, STATIONS), chance.randint(1, 20))
        if found := client.got(uid):
            asked.requests[client.socket.getsockname()[1], client.number] = shown_by(found, uid)
    client.release()


@dataclasses.dataclass
class Recording:
    """What was recorded: the sequence, the rows in the end, and from which point on how many of them must be there."""

    trace: Trace
    rows: list[Row]
    points: list[int]
    needed: list[int]
    answers: int
    reports: int
    before: dict[str, bytes] = dataclasses.field(default_factory=dict)  # the files before the sequence, and their rows
    rows_before: Optional[list[Row]] = None
    settings: tuple[str, ...] = ("--keep", "1000000", *PEERS)  # of its server
    made: int = 0  # the point by which the store was made
    base: int = 0  # how many rows must be there at each point
    is_compacted: bool = False  # whether its server compacts the store, in which all rows but acknowledgements stay, with other numbers

    def needed_at(self, point: int) -> int:
        """Returns how many rows must be there at a point: those on which what was sent before it rests."""
        at = bisect.bisect_left(self.points, point)
        return max(self.base, self.needed[at - 1] if at else 0)

    def compared(self, rows: list[Row]) -> list[Row]:
        """Returns what is compared of the rows of a store."""
        return lasting(rows) if self.is_compacted else rows

    def disks(self) -> dict[str, Disk]:
        """Returns the disks of the files at the beginning."""
        return {name: Disk(file, self.before.get(name, b"")) for name, file in self.trace.files.items()}


def lasting(rows: list[Row]) -> list[Row]:
    """Returns the rows that each compaction keeps if no step is removed, without their numbers."""
    return [(None, *row[1:]) for row in rows if row[OPERATION] != "acknowledge"]


def record(program: list[str], folder: str, given: argparse.Namespace, more: tuple[str, ...] = (), name: str = "store",
           options: tuple[str, ...] = ()) -> Recording:
    """Records two lives of a server with these options, with more words for strace."""
    file, log, watcher, other = os.path.join(folder, name), os.path.join(folder, "strace"), Hearing(), Hearing()
    asked = Asked({}, int(watcher.place.rsplit(":", 1)[1]))
    stations = [Station(it, asked) for it in range(STATIONS)]
    lines = record_init(program, file, log)
    made, compactions = len(lines), 0
    for life in range(LIVES):
        words = [*STRACE, *more, "-D", "-o", log, *program]
        with Stored(words, file, "--keep", "1000000", *options, f"W1={watcher.place}", f"W2={other.place},lock", seconds=4 * SECONDS) as server:
            if life == 0:
                client = Client(server.port)
                assert client.subscribe(GLOBAL, b"W1", b"FALSE") == 0x0000
                asked.requests[client.socket.getsockname()[1], client.number] = b"subscribe", GLOBAL
                client.release()
            for burst in range(2):
                work_at_once(server, stations, max(1, given.requests // 5 // STATIONS // LIVES // 2), asked)
                time.sleep(REST if burst == 0 else 0.2)
            os.kill(server.pid, signal.SIGKILL)
            server.process.wait()
            await_end(log)
            compactions += len(server.lines("store: compacted from"))
        lines += lines_of(log)
    faults = [fault for it in stations for fault in it.faults]
    if faults:
        raise Fault(f"the work that is recorded: {faults[0]}")
    if options == AT_ONCE and not compactions:
        raise Fault("the store was not compacted")
    rows = lasting(rows_of(file)) if compactions else rows_of(file)
    return dataclasses.replace(judged_by(Trace(file, lines), rows, asked), made=made, is_compacted=compactions > 0)


def record_init(program: list[str], file: str, log: str) -> list[str]:
    """Makes a store, and returns what strace tells of that."""
    come = initialized([*STRACE, "-o", log, *program], file)
    if come.status != 0:
        raise Fault(f"upsd init ends with {come.status}: {come.said[-300:]}")
    return lines_of(log)


def lines_of(log: str) -> list[str]:
    with open(log, encoding="ascii", errors="replace") as opened:
        return opened.read().splitlines()


def work_at_once(server: Stored, stations: list[Station], steps: int, asked: Asked) -> None:
    over = threading.Event()
    reader = threading.Thread(target=look, args=(server.port, over, asked), daemon=True)
    threads = [threading.Thread(target=it.run, args=(server.port, steps), daemon=True) for it in stations]
    for it in (reader, *threads):
        it.start()
    for it in threads:
        it.join(4 * SECONDS)
    over.set()
    reader.join(SECONDS)


def await_end(log: str) -> None:
    """Waits until strace has reported the end of the program."""
    deadline = time.monotonic() + SECONDS
    while time.monotonic() < deadline:
        with open(log, "rb") as opened:
            opened.seek(max(0, os.path.getsize(log) - 200))
            if b"+++ killed by SIGKILL +++" in opened.read():
                time.sleep(0.2)
                return
        time.sleep(0.1)


def places_of(rows: list[Row]) -> dict[Key, int]:
    """Returns after how many rows each request is done, and each state of a step can be shown or told."""
    places: dict[Key, int] = {}
    states: dict[bytes, bytes] = {}
    labels: dict[bytes, bytes] = {}
    for number, row in enumerate(rows, 1):
        operation, uid = row[OPERATION], str(row[INSTANCE] or "").encode()
        given = read(True, row[ATTRIBUTES]) if isinstance(row[ATTRIBUTES], bytes) else {}
        key: Key = (str(operation).encode(), uid)
        if row[RECEIVER]:
            key = b"subscribe", uid
        elif row[STATE_OF]:
            states[uid] = str(row[STATE_OF]).encode()
            key = b"change", uid, states[uid]
        elif STATE in given:
            states[uid], labels[uid] = text_in(given, STATE), text_in(given, LABEL)
            key = b"create", uid
        elif LABEL in given:
            labels[uid] = text_in(given, LABEL)
            key = b"set", uid, labels[uid]
        places.setdefault(key, number)
        if uid in states:
            places.setdefault((b"shown", uid, states[uid], labels[uid]), number)
            places.setdefault((b"told", uid, states[uid]), number)
    return places


def judged_by(trace: Trace, rows: list[Row], asked: Asked) -> Recording:
    """Returns the recording, with from which point on how many rows must be there."""
    places, found, answers, reports = places_of(rows), [], 0, 0
    for port, sent in trace.sent.items():
        for point, elements, data_set in messages_in(sent):
            if 0x0120 in elements and (key := asked.requests.get((port, struct.unpack("<H", elements[0x0120])[0]))):
                found.append((point, places[key]))
                answers += 1
            elif port == asked.watcher and elements.get(0x1002) == b"\1\0":
                found.append((point, places[b"told", elements[0x1000].rstrip(b"\0"), text_in(read(True, data_set), STATE)]))
                reports += 1
    if answers < len(asked.requests):
        raise Fault(f"{answers} of {len(asked.requests)} answers are found in what strace tells")
    found.sort()
    needed, most = [], 0
    for _, it in found:
        most = max(most, it)
        needed.append(most)
    return Recording(trace, rows, [point for point, _ in found], needed, answers, reports)


# the states that a disk may have kept

class Cuts:
    """States that a disk may have kept at random points, and what is wrong with them."""

    def __init__(self, program: list[str], recording: Recording, folder: str, chance: random.Random) -> None:
        self.program, self.recording, self.folder, self.chance = program, recording, folder, chance
        self.faults: list[str] = []
        self.counts: collections.Counter[str] = collections.Counter()

    def points(self, count: int) -> list[int]:
        """Returns sorted points of the sequence, half of them just after a write begins or ends."""
        trace = self.recording.trace
        busy = [point for file in trace.files.values() for it in file.writes for point in (it.begin + 1, it.end + 1)]
        first = min(busy, default=0)
        some = [self.chance.choice(busy) for _ in range(count // 2)] + [self.chance.randint(first, trace.length) for _ in range(count - count // 2)]
        return sorted(some)

    def run(self, count: int, opened: int, most: int) -> None:
        """Tries `count` states, of which the program opens `opened` and any that sqlite3 finds wrong, until `most` are wrong."""
        disks = self.recording.disks()
        by_program = set(self.chance.sample(range(count), min(opened, count)))
        for number, point in enumerate(self.points(count)):
            if len(self.faults) == most:
                return
            for it in disks.values():
                it.go_to(point)
            kept = {name: it.kept(self.chance, point) for name, it in disks.items()}
            self.counts["pending"] += any(it.pending for it in disks.values())
            self.counts["states"] += 1
            fault = self.fault_of(kept, point)
            if fault:
                self.counts["looked at again"] += 1
            if fault or number in by_program:
                self.counts["opened"] += 1
                fault = self.fault_by_program(kept, point)
            if fault:
                self.faults.append(f"state {number}, at {point} of {self.recording.trace.length}: {fault}")

    def run_each(self, most: int) -> None:
        """Tries, around each write, each state that a disk may have kept if no write is reordered or lost inside of the others,
        until `most` are wrong; the program opens each."""
        disks, seen = self.recording.disks(), set()
        for point in sorted({point for file in self.recording.trace.files.values() for it in file.writes for point in (it.begin + 1, it.end + 1)}):
            for it in disks.values():
                it.go_to(point)
            for contents in itertools.product(*(it.each_kept(point) for it in disks.values())):
                if len(self.faults) == most:
                    return
                if (state := (contents, point <= self.recording.made)) not in seen:
                    seen.add(state)
                    self.counts["states"] += 1
                    if fault := self.fault_by_program(dict(zip(disks, contents)), point):
                        self.faults.append(f"a state at {point} of {self.recording.trace.length}: {fault}")

    def laid(self, kept: dict[str, Optional[bytes]]) -> str:
        """Writes the files of a state, and returns the path of the store."""
        file = os.path.join(self.folder, "state")
        for it in ("", "-wal", "-shm"):
            if os.path.exists(file + it):
                os.remove(file + it)
        for name, content in kept.items():
            if content is not None:
                with open(file + name[len(self.recording.trace.file):], "wb") as opened:
                    opened.write(content)
        return file

    def fault_of(self, kept: dict[str, Optional[bytes]], point: int) -> Optional[str]:
        """Returns why sqlite3 doesn't find what must be there, or None."""
        try:
            return self.judge(rows_at(self.laid(kept)), point)
        except sqlite3.Error as fault:
            return f"sqlite3 says {fault}"

    def fault_by_program(self, kept: dict[str, Optional[bytes]], point: int) -> Optional[str]:
        """Returns why the program doesn't start on it, or what must be there isn't there then; or None."""
        file = self.laid(kept)
        try:
            if point <= self.recording.made and (fault := self.fault_of_init(file)):
                return fault
            with Stored(self.program, file, *self.recording.settings):
                pass
            return self.judge_started(rows_at(file), point)
        except (*FAULTS, sqlite3.Error) as fault:
            return str(fault)

    def fault_of_init(self, file: str) -> Optional[str]:
        """Returns why a store can't be made, though it may have been made before the cut; or None."""
        come = initialized(self.program, file)
        return None if come.status == 0 or "is not blank" in come.said else f"upsd init ends with {come.status}: {come.said[-300:]}"

    def judge_started(self, rows: list[Row], point: int) -> Optional[str]:
        """Returns what is wrong after a start, or None."""
        if self.recording.base:  # its server sweeps, and so does one that starts on the state
            needed = self.recording.needed_at(point)
            return None if rows[:needed] == self.recording.rows[:needed] else f"of {len(rows)} requests the first {needed} are not those of before"
        if self.recording.rows_before is None:
            return self.judge(rows, point)
        return None if len(rows) in (len(self.recording.rows), len(self.recording.rows_before)) else f"there are {len(rows)} requests"

    def judge(self, rows: list[Row], point: int) -> Optional[str]:
        needed, whole, rows = self.recording.needed_at(point), self.recording.rows, self.recording.compared(rows)
        if self.recording.rows_before is not None:
            self.counts["done"] += rows == whole
            is_one = rows in (whole, self.recording.rows_before)
            return None if is_one else f"there are {len(rows)} requests, neither those of before nor those behind it"
        if len(rows) < needed:
            return f"{len(rows)} requests are there, and what was sent rests on {needed}"
        return None if rows == whole[:len(rows)] else f"the {len(rows)} requests are not the first of all"


# a compaction

def record_compaction(program: list[str], folder: str) -> Recording:
    """Records a compaction of a store most of whose steps are gone, and no report of these waits."""
    file, log, words = os.path.join(folder, "compacted"), os.path.join(folder, "strace"), ["--keep", "0", *PEERS]
    with Stored(program, file, *words) as server:
        client = Client(server.port)
        for number in range(60):
            uid = b"1.3.%d" % number
            statuses = [client.create(uid, a_step_of(b"P")), client.cancel(uid) if number % 4 else client.subscribe(uid, b"W1", b"FALSE")]
            if any(statuses):
                raise Fault(f"the work before a compaction is answered {statuses}")
        if not holds(lambda: len(client.found()) == 15, SECONDS):
            raise Fault("finished steps do not go")
        time.sleep(1)
    rows, before = rows_of(file), bytes_in(file)
    come = ended([*STRACE, "-o", log, *program, "compact", *words[:2], file, *PEERS])
    if come.status != 0:
        raise Fault(f"a compaction ends with {come.status}: {come.said[-300:]}")
    return Recording(Trace(file, lines_of(log)), rows_of(file), [], [], 0, 0, before, rows, tuple(words))


def try_served_compactions(program: list[str], folder: str, given: argparse.Namespace, results: Results) -> None:
    """Tries states that a disk may have kept of a server that compacts its store all the time."""
    recording = record(program, folder, given, name="served", options=AT_ONCE)
    cuts = tried(program, recording, given, max(1, given.cuts // 2), given.opened // 2)
    results.tell(f"each of {cuts.counts['states']:,} states of a server that compacts has what was answered, shown and told before",
                 f"{len(cuts.faults)} have not: {cuts.faults[:3]}" if cuts.faults else None)


def try_compaction(program: list[str], folder: str, given: argparse.Namespace, results: Results) -> None:
    """Tries states that a disk may have kept of a compaction."""
    recording = record_compaction(program, folder)
    cuts = tried(program, recording, given, max(1, given.cuts // 4), given.opened // 4)
    name = f"a compaction of {len(recording.rows_before or [])} requests to {len(recording.rows)}"
    results.tell(f"{name}: each of {cuts.counts['states']:,} states has those of before or those behind it, {cuts.counts['done']:,} times",
                 f"{len(cuts.faults)} have not: {cuts.faults[:3]}" if cuts.faults else None)


# all of it

def tried(program: list[str], recording: Recording, given: argparse.Namespace, count: int, opened: int, most: int = 20) -> Cuts:
    with tempfile.TemporaryDirectory(prefix="cuts", dir="/dev/shm" if os.path.isdir("/dev/shm") else None) as folder:
        cuts = Cuts(program, recording, folder, random.Random(f"{given.seed} cuts"))
        cuts.run(count, opened, most)
    return cuts


def tried_each(program: list[str], recording: Recording, most: int = 20) -> Cuts:
    with tempfile.TemporaryDirectory(prefix="cuts", dir="/dev/shm" if os.path.isdir("/dev/shm") else None) as folder:
        cuts = Cuts(program, recording, folder, random.Random(0))
        cuts.run_each(most)
    return cuts


def try_lies(program: list[str], recording: Recording, given: argparse.Namespace, results: Results) -> None:
    """Tells whether faults are found: syncs that do nothing, answers that are sent too early, and another row."""
    files = recording.trace.files
    syncs = {name: it.syncs for name, it in files.items()}
    for it in files.values():
        it.syncs = []
    results.tell("a lie is found: syncs that do nothing", None if tried(program, recording, given, 200, 0, 1).faults else "it is not")
    for name, it in files.items():
        it.syncs = syncs[name]
    early = dataclasses.replace(recording, points=[it - 40 for it in recording.points])
    results.tell("a lie is found: answers that are sent too early", None if tried(program, early, given, 2_000, 0, 1).faults else "it is not")
    other = dataclasses.replace(recording, rows=[(*recording.rows[0][:-1], b""), *recording.rows[1:]])
    results.tell("a lie is found: another row", None if tried(program, other, given, 50, 0, 1).faults else "it is not")


def run(program: list[str], given: argparse.Namespace, results: Results) -> None:
    """Records a server, and tells what comes of that many cuts."""
    if not shutil.which("strace"):
        print("skipped: strace is not here (apt-get install -y strace)", flush=True)
        return
    with folder_for(given.folder) as folder:
        recording = record(program, folder, given)
        writes = sum(len(it.writes) for it in recording.trace.files.values())
        syncs = sum(len(it.syncs) for it in recording.trace.files.values())
        print(f"recorded: {len(recording.rows)} requests, {recording.answers} answers, {recording.reports} reports, {writes} writes, {syncs} syncs",
              flush=True)
        if given.self_test:
            try_lies(program, recording, given, results)
            return
        began = time.monotonic()
        cuts = tried(program, recording, given, given.cuts, given.opened)
        results.tell(f"each of {given.cuts:,} states has what was answered, shown and told before, seed {given.seed}",
                     f"{len(cuts.faults)} have not: {cuts.faults[:3]}" if cuts.faults else None)
        print(f"{cuts.counts['pending']:,} of them with writes that were not synced; {cuts.counts['opened']:,} opened by the program, of which "
              f"{cuts.counts['looked at again']:,} sqlite3 reads otherwise; {time.monotonic() - began:.0f} s", flush=True)
        try_compaction(program, folder, given, results)
        try_served_compactions(program, folder, given, results)
