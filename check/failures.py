#!/usr/bin/env python3
"""Makes memory and devices fail while the rows run, and checks that every outcome is an expected one.

    check/failures.py rows/*.rows examples      with the built programs: crates/upsd/out/upsd, crates/refusals/out/refusals

Memory: each growth is refused in turn, in the courses and in the scripts of the examples and of the files named `attributes`,
`life_cycle`, `lines`, `matching` and `watching`. Each reply is then the expected one, or the status for lack of memory; or
the association or script ends for lack of memory after the first part of the replies. The history holds what was accepted,
and no more: what was not done is asked once more, and from there on all is answered as if nothing had been refused.

Devices, for each association of `sessions`:

- the input ends after a number of bytes: the answer is the same wherever it ends within a PDU, and is the whole answer up to
  the end of one of its PDUs; between two PDUs the association is closed, and within one the exit status and standard error
  report the end
- the output has room for a number of bytes: it gets the first ones, and the failed write is reported
- the input comes, and the output leaves, byte by byte, and a signal interrupts each call: all is answered (one in three)

For the examples, the input breaks off and the output has room for a number of bytes in the same way.

Watchers, several hundred of one server: the first association with each ends after another number of the bytes that it
answers, by an end of its data or by a reset. The log says how it ends, and an unacknowledged report is sent again.

It prints how many failures were tried, and each that had an unexpected outcome; the status is 1 if there is one.
"""

from __future__ import annotations

import collections
import contextlib
import itertools
import multiprocessing
import os
import re
import socket
import string
import struct
import sys
import time
from collections.abc import Iterator, Mapping, Sequence
from subprocess import TimeoutExpired
from typing import Any, Generic, Optional, Protocol, TypeVar

sys.path.insert(0, os.path.join(os.path.dirname(os.path.dirname(os.path.abspath(__file__))), "check/lib"))
import courses
import dicom
import rows
import runs
from machine import described

COURSES = ("attributes.rows", "courses.rows", "life_cycle.rows", "lines.rows", "matching.rows", "watching.rows")
SMALL = 4_000  # the most bytes of an input that is tried
SHAKEN = 3  # one in this many associations comes and leaves byte by byte, unless it has more bytes than:
SHORT = 1_200
READ = (2, b"upsd: a read failed, or the input ended inside a PDU\n")
WRITE = (2, b"upsd: a write failed\n")
BROKEN = (2, b"upsd: a read failed\n")
WELL = (0, b"")
WAIT = 30  # seconds for all watchers
GIVEN: dict[str, Any] = {"every": 7}  # what the command line sets
Outcome = tuple[dict[str, int], list[str]]  # how many failures were tried, by kind, and those with an unexpected outcome
Way = tuple[int, str]  # the place where the answer of a watcher ends, and how
Tried = TypeVar("Tried", courses.Course, rows.Session, rows.Script)
Self = TypeVar("Self", bound="Trial[Any]")


class Task(Protocol):
    """What is tried: it has a name, says with which program, and tells the outcome."""

    name: str

    @property
    def program(self) -> str: ...

    def spoiled(self) -> Task: ...

    def tried(self, program: str) -> Outcome: ...


def quick(words: list[str], given: bytes, room: Optional[int] = None) -> tuple[int, bytes, bytes]:
    """Runs a program on an input that ends after the bytes `given`, with room for `room` bytes of output."""
    source, giver = os.pipe()
    os.write(giver, given)
    os.close(giver)
    told, said = os.pipe()
    output = os.memfd_create("output")
    try:
        with runs.files_of(room):
            actions = [(os.POSIX_SPAWN_DUP2, one, other) for one, other in ((source, 0), (output, 1), (said, 2))]
            child = os.posix_spawn(words[0], words, os.environ, file_actions=actions)
        os.close(said)
        _, status = os.waitpid(child, 0)
        return os.waitstatus_to_exitcode(status), os.pread(output, 1 << 20, 0), os.read(told, 1 << 16)
    finally:
        for it in (source, told, output):
            os.close(it)


def ends_of(pdus: bytes) -> list[int]:
    """Returns where the PDUs of bytes begin, and where the last one ends if it is complete."""
    ends = [0]
    while ends[-1] + 6 <= len(pdus):
        ends.append(ends[-1] + 6 + int.from_bytes(pdus[ends[-1] + 2:ends[-1] + 6], "big"))
    return [it for it in ends if it <= len(pdus)]


def places(length: int, ends: list[int]) -> list[int]:
    """Returns the places from 0 to `length` to try: those around each end of a PDU and after its header, and others."""
    near = {it + more for it in ends for more in (-1, 0, 1, 5, 6, 7)}
    return [it for it in range(length + 1) if it in near or it % GIVEN["every"] == 0]


class Trial(Generic[Tried]):
    """What is tried with an association, a script or a course."""

    program = "upsd"

    def __init__(self, what: Tried) -> None:
        self.what: Tried = what
        self.name: str = what.name

    def spoiled(self: Self) -> Self:
        """Returns the same with another expected outcome."""
        return type(self)(self.what.spoiled()[0])


class Memory(Trial[courses.Course]):
    """The growths of memory in a course."""

    program = "refusals"

    def tried(self, program: str) -> Outcome:
        """Refuses each, and returns how many there are, and the unexpected outcome."""
        try:
            count, _ = self.what.failures(program)
            return {"growths of memory refused": count}, []
        except (courses.Fault, ValueError) as fault:
            return {}, [str(fault)]


class Ends(Trial[rows.Session]):
    """The places where the input of an association ends."""

    def tried(self, program: str) -> Outcome:
        """Ends the input at each, and returns how many there are, and the unexpected outcomes."""
        asked, ends = self.what.asked, ends_of(self.what.asked)
        tried, due = places(len(asked), ends), b""
        faults: list[str] = []
        for place in tried:
            status, answer, said = quick([program, "pipe", "--ae", "UPSD"], asked[:place])
            if place in ends:
                if not answer.startswith(due):
                    faults.append(f"at {place} it answers {answer!r}, and before {due!r}")
                due = answer
            if why := self.unlike(place, place in ends, due, answer, (status, said)):
                faults.append(f"at {place}: {why}")
        return {"ends of an input": len(tried)}, faults

    def unlike(self, place: int, is_end: bool, due: bytes, answer: bytes, ended: tuple[int, bytes]) -> Optional[str]:
        """Returns how the outcome of an end differs from the expected one; None if it does not."""
        whole = self.what.answered
        is_over = answer == whole and rows.ended_of(runs.Ran(ended[0], answer, ended[1])) == self.ended()
        if place == len(self.what.asked) or is_over:
            return None if is_over else f"it answers {answer!r} and ends as {ended}"
        if answer != due or not whole.startswith(answer) or len(answer) not in ends_of(whole):
            return f"it answers {answer!r} and not {due!r}"
        return None if ended == (WELL if is_end else READ) else f"it ends as {ended}"

    def ended(self) -> str:
        """Returns how the whole association ends, as far as the program reports it."""
        return "Ok" if self.what.ended.startswith("Ok") else self.what.ended


class Rooms:
    """The numbers of bytes that the output has room for."""

    program = "upsd"

    def __init__(self, name: str, words: Sequence[str], asked: bytes, answered: bytes) -> None:
        self.name, self.words, self.asked, self.answered = name, words, asked, answered

    def spoiled(self) -> Rooms:
        """Returns the same with another expected answer."""
        return Rooms(self.name, self.words, self.asked, b"X" + self.answered)

    def tried(self, program: str) -> Outcome:
        """Leaves room for each, and returns how many there are, and the unexpected outcomes."""
        tried = places(len(self.answered), ends_of(self.answered))[:-1]
        faults = []
        for room in tried:
            status, output, said = quick([program, *self.words], self.asked, room)
            if (status, said) != WRITE or output != self.answered[:room]:
                faults.append(f"with room for {room}: {(status, output, said)}")
        return {"bytes of room for an output": len(tried)}, faults


class Shaken(Trial[rows.Session]):
    """An association in which each byte comes and leaves on its own, with a signal that interrupts the call."""

    def tried(self, program: str) -> Outcome:
        """Shakes it, and returns how many bytes there are, and the unexpected outcome."""
        ran = runs.run_shaken([program, "pipe", "--ae", "UPSD"], self.what.asked)
        count = len(self.what.asked) + len(self.what.answered)
        is_due = ran.output == self.what.answered and rows.ended_of(ran) == Ends(self.what).ended()
        return {"bytes that come or go by themselves": count}, [] if is_due else [f"it is shaken: {ran}"]


class Breaks(Trial[rows.Script]):
    """The places where the input of a script breaks off."""

    def tried(self, program: str) -> Outcome:
        """Breaks it off at each, and returns how many there are, and the unexpected outcomes."""
        given, replies = self.what.script.encode(), self.what.replies.encode().splitlines(keepends=True)
        tried = range(0, len(given), GIVEN["every"])
        faults: list[str] = []
        for place in tried:
            due = b"".join(replies[:given[:place].count(b"\n")])
            with runs.broken(given[:place]) as source:
                ran = runs.run([program, *self.what.words], source=source)
            if (ran.status, ran.said) != BROKEN or ran.output != due:
                faults.append(f"broken off at {place}: {ran}")
        return {"places where a script breaks off": len(tried)}, faults


class Watchers:
    """The places where the answer of a watcher ends, or its connection is reset."""

    program = "upsd"

    def __init__(self, name: str, subscribed: tuple[bytes, bytes, bytes], created: bytes, taken: list[bytes], heard: list[bytes]) -> None:
        self.name, self.subscribed, self.created = name, subscribed, created
        self.taken, self.heard = taken, heard

    def spoiled(self) -> Watchers:
        """Returns the same with other bytes for the watchers to hear."""
        return Watchers(self.name, self.subscribed, self.created, self.taken, [b"X" + self.heard[0], *self.heard[1:]])

    def titles(self) -> dict[str, Way]:
        """Returns each place with each way to end, up to 1,000, by a title of two letters or digits."""
        letters = string.ascii_letters + string.digits
        names = ("".join(pair) for pair in itertools.product(letters, letters))
        ways = itertools.product(range(len(b"".join(self.taken)) + 1), ("end", "reset"))
        return dict(zip(names, list(ways)[:1000]))

    def tried(self, program: str) -> Outcome:
        """Runs a server with these watchers, and returns how many there are, and the unexpected outcomes."""
        titles = self.titles()
        heard: dict[str, list[bytes]] = {it: [] for it in titles}
        with socket.create_server(("127.0.0.1", 0), backlog=1000) as listener:
            place = listener.getsockname()[1]
            with runs.logging(program, [f"{it}=127.0.0.1:{place}" for it in titles]) as (log, server):
                self.subscribe(server.port, titles)
                self.listen(listener, titles, heard)
                told = log.read().decode(errors="replace")
        faults = [f"watcher at {titles[it]}: {why}" for it in titles if (why := self.unlike(it, titles[it], heard[it], told))]
        return {"watchers that end or reset": len(titles)}, faults

    def subscribe(self, port: int, titles: Mapping[str, Way]) -> None:
        """Subscribes each watcher to all steps, and creates a step."""
        first, subscription, last = self.subscribed
        each = b"".join(subscription.replace(b"W1", it.encode()) for it in titles)
        with runs.connected(port) as connection:
            runs.exchange(connection, first + each + self.created + last)

    def listen(self, listener: socket.socket, titles: Mapping[str, Way], heard: dict[str, list[bytes]]) -> None:
        """Answers associations until each watcher has had as many as expected, or the time is over."""
        end = time.monotonic() + WAIT
        listener.settimeout(1)
        while time.monotonic() < end and any(len(heard[it]) < self.associations(titles[it]) for it in titles):
            with contextlib.suppress(TimeoutError):
                with listener.accept()[0] as connection:
                    connection.settimeout(5)
                    self.answer(connection, titles, heard)

    def associations(self, way: Way) -> int:
        """Returns how many associations a watcher should have: two, unless the first acknowledges the report."""
        place, _ = way
        return 1 if place >= len(b"".join(self.taken[:2])) else 2

    def answer(self, connection: socket.socket, titles: Mapping[str, Way], heard: dict[str, list[bytes]]) -> None:
        """Answers an association: the first of a watcher up to its place, and each other one in full, byte by byte."""
        proposed = received(connection, len(self.heard[0]))
        title = proposed[10:26].decode(errors="replace").strip()
        place, how = titles[title]
        given = b"".join(self.taken).replace(b"W1", title.encode())
        is_first = not heard[title]
        heard[title].append(proposed)
        with contextlib.suppress(OSError):
            if is_first:
                connection.sendall(given[:place])
            else:
                connection.setsockopt(socket.IPPROTO_TCP, socket.TCP_NODELAY, 1)
                for byte in given:
                    connection.sendall(bytes([byte]))
            if is_first and how == "reset":
                connection.setsockopt(socket.SOL_SOCKET, socket.SO_LINGER, struct.pack("ii", 1, 0))
                return
            connection.shutdown(socket.SHUT_WR)
        heard[title][-1] += runs.rest_of(connection)

    def unlike(self, title: str, way: Way, heard: list[bytes], told: str) -> Optional[str]:
        """Returns how what a watcher heard, or its end in the log, is not as expected; None if both are."""
        place, how = way
        due = [it.replace(b"W1", title.encode()) for it in self.heard]
        ends = list(itertools.accumulate([0, *(len(it) for it in self.taken)]))
        count = max(number for number, end in enumerate(ends) if end <= place)
        found = re.search(rf"deliver {title}: (\w+)", told)
        ended = found[1] if found else None
        if how == "reset":
            is_due = heard[:1] == due[:1] and (count > 1 and bool(ended) or ended in ("Read", "Write", "Closed"))
        else:
            wanted = "Released" if place == ends[-1] else "Closed" if place in ends else "Read"
            is_due = heard[:1] == [b"".join(due[:count + 1])] and ended == wanted
        if not is_due:
            return f"it hears {heard[:1]}, and is told as {ended}"
        if count < 2 and heard[1:2] != [b"".join(due)]:
            return f"it hears then {heard[1:2]}"
        return None


def received(connection: socket.socket, length: int) -> bytes:
    """Returns the next `length` bytes of a connection, or as many as there are."""
    found = b""
    while len(found) < length and (more := connection.recv(length - len(found))):
        found += more
    return found


def course_of(script: rows.Script) -> Optional[courses.Course]:
    """Returns a script as a course; None if it is too long, has lines without a reply, or options or peers that a course lacks."""
    lines, replies = script.script.splitlines(), script.replies.splitlines()
    is_known = script.words in (["script"], ["script", *rows.PEERS])
    if script.said or len(lines) != len(replies) or not is_known or len(script.script) > SMALL:
        return None
    if len(script.words) == 1 and re.search(r"\bW[12]\b", script.script):
        return None
    texts = [" -> ".join(pair) for pair in zip(lines, replies)]
    return courses.Course(script.name, courses.parts_of({}, ["script", *texts], str))


def devices_of(file: str) -> Iterator[Task]:
    """Yields what is tried with the associations of a file."""
    every = [it for it in rows.rows_of(file) if isinstance(it, rows.Session)]
    sessions = [it for it in every if not (it.what or it.is_hexadecimal or len(it.asked) > SMALL)]
    for number, session in enumerate(sessions):
        yield Ends(session)
        if session.answered:
            yield Rooms(session.name, ["pipe", "--ae", "UPSD"], session.asked, session.answered)
        if number % SHAKEN == 0 and len(session.asked) + len(session.answered) <= SHORT:
            yield Shaken(session)


def watchers_of(file: str) -> Iterator[Task]:
    """Yields the watchers that the names of a file of deliveries describe."""
    names = dicom.stored() | rows.names_in(file)

    def given(words: str) -> bytes:
        return dicom.bytes_of(names, words)

    yield Watchers(
        file,
        (given("PUSH_AND_WATCH"), given("GLOBAL_ACTION 0300 TO_WATCH"), given("RELEASE")),
        given("CREATE STEP"),
        [given(it) for it in ("AGREED", "FIRST_TAKEN", "RELEASED")],
        [given(it) for it in ("PROPOSED", "FIRST_REPORT", "RELEASE")],
    )


def tasks_of(file: str) -> Iterator[Task]:
    """Yields what is tried with a file of rows, or a folder of examples."""
    if os.path.isdir(file):
        for script in rows.examples_of(file):
            yield Breaks(script)
            yield Rooms(script.name, script.words, script.script.encode(), script.replies.encode())
            if course := course_of(script):
                yield Memory(course)
    elif os.path.basename(file) == "deliveries.rows":
        yield from watchers_of(file)
    elif os.path.basename(file) == "sessions.rows":
        yield from devices_of(file)
    elif os.path.basename(file) in COURSES:
        for row in rows.rows_of(file):
            made = course_of(row) if isinstance(row, rows.Script) else row
            if isinstance(made, courses.Course):
                yield Memory(made)


TASKS: list[Task] = []


def tried(number: int) -> tuple[int, dict[str, int], list[str]]:
    """Runs a task, and returns its number, its counts and its faults."""
    task = TASKS[number]
    try:
        return number, *task.tried(GIVEN[task.program])
    except (TimeoutExpired, OSError, ValueError) as fault:
        return number, {}, [f"{type(fault).__name__}: {fault}"]


def main() -> None:
    asked = described(__doc__)
    asked.add_argument("files", nargs="+", metavar="FILE", help="a file of rows, or a folder of examples")
    asked.add_argument("--program", default="crates/upsd/out/upsd", help="the program (default: %(default)s)")
    asked.add_argument("--refusals", default="crates/refusals/out/refusals", help="that of courses (default: %(default)s)")
    asked.add_argument("--self-test", action="store_true", help="spoil what is due: each has to fail")
    asked.add_argument("--every", type=int, default=7, help="try one place in so many (default: %(default)s)")
    given = asked.parse_args()
    GIVEN.update(upsd=os.path.abspath(given.program), refusals=os.path.abspath(given.refusals), every=given.every)
    found = [task for file in given.files for task in tasks_of(file)]
    TASKS.extend(task.spoiled() for task in found) if given.self_test else TASKS.extend(found)
    TASKS.sort(key=lambda task: not isinstance(task, (Memory, Watchers)))
    counts: collections.Counter[str] = collections.Counter()
    failed = 0
    with multiprocessing.get_context("fork").Pool(len(os.sched_getaffinity(0))) as pool:
        for number, count, faults in pool.imap_unordered(tried, range(len(TASKS))):
            if given.self_test:
                faults = [] if faults else ["what is not due is not found"]
            counts.update(count)
            failed += len(faults)
            for fault in faults[:3]:
                print(f"{TASKS[number].name}: {fault}")
    for what, times in sorted(counts.items()):
        print(f"{times} {what}")
    print(f"{len(TASKS)} rows, {failed} failures that came to something else")
    sys.exit(1 if failed else 0)


if __name__ == "__main__":
    main()
