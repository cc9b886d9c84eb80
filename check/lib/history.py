"""Histories: calls to one service, the courses in which the program `refusals` makes them, and what has to be the same in these.

After each call the service is asked who watches what, which steps are held, and how the step of the call is; after each tenth call
and the last one, also all else that it tells. In the plain course that is compared with what the plain programs find, which walk
the same history, and with the events that are to be expected of what changed. In the courses of a twin, requests leave memory, or
the history is compacted: no answer tells it apart, except that the numbers of the events are less after a compaction.
"""

from __future__ import annotations

import collections
import dataclasses
import select
import subprocess
from collections.abc import Iterable, Iterator, Sequence
from typing import Optional

import dicom
import services

PEERS = ("W1", "W2", "W3")
KEY = "00080018"  # SOP Instance UID
FULL = 10  # after so many calls all is asked
MOST = 1_000_000
STATE, READINESS = "00741000", "00404041"
PROGRESS, STATION, PERFORMERS = "00741002", "00404025", "00404034"
REPORT, CANCEL, PROGRESSES, ASSIGNED = 1, 2, 3, 5  # the types of the events (PS3.4 CC.2.4)
# what W1 answers that accepts an association for its events (PS3.8 9.3.3); it does not answer the report that it is sent then
ACCEPTED = dicom.bytes_of({}, """02 00 000000b3 0001 0000 "W1" 20*14 "UPSD" 20*12 00*32 10 00 0015 "1.2.840.10008.3.1.1.1"
 21 00 001b 01 00 00 00 40 00 0013 "1.2.840.10008.1.2.1" 50 00 0033 51 00 0004 00004000 52 00 0005 "1.2.3" 54 00 001e 001a EVENT 00 01""")
SECONDS = 300  # in which the program has to answer for a course

Part = tuple[str, str]  # what is asked of `refusals`: the kind of a part, and what it is given; of a script one line
Round = dict[str, Part]  # a call and the questions after it, by name
Told = dict[str, str]  # the replies in a round, by the same names
Counts = collections.Counter[str]


class Difference(Exception):
    """An answer that is not the expected one."""


@dataclasses.dataclass(frozen=True)
class Call:
    """Who asks what, and when: a line of a script from its verb on. An `ack` has how many of the newest events it leaves out, plus 1.
    Before it, a twin lets the requests before a place leave memory, if that is not 0, or has its history compacted."""

    moment: int
    title: str
    words: str
    leaves: int = 0
    compacts: bool = False

    def verb(self) -> str:
        """Returns the verb."""
        return self.words.split(" ")[0]

    def place(self) -> str:
        """Returns the step, or `global` or `filtered`; nothing if the call has none."""
        return "" if self.verb() in ("ack", "sweep") else self.words.split(" ")[1]

    def step(self) -> Optional[str]:
        """Returns the step, if the call has one."""
        return None if self.place() in ("", "global", "filtered") else self.place()

    def receiver(self) -> str:
        """Returns the watcher for whom a subscription is asked."""
        return self.words.split(" ")[2]

    def keys(self) -> str:
        """Returns the keys of a subscription with a filter, such that they show the UIDs."""
        keys = " ".join(self.words.split(" ")[4:])
        return keys if KEY in keys else f"{KEY}= {keys}"

    def has(self, *tags: str) -> bool:
        """Returns whether the call has one of these attributes, also with an item."""
        return any(word.startswith(tags) for word in self.words.split(" ")[2:])

    def part(self) -> Part:
        """Returns the part that makes the call."""
        if self.verb() == "ack":
            return "ack", f"{self.moment} {self.title} {self.words.split(' ')[1]}"
        return "script", f"{self.moment} {self.title} {self.words}"

    def kind(self) -> str:
        """Returns the name under which the call is counted if it is accepted."""
        if self.verb() == "change":
            return f"change {self.words.split(' ')[2]}"
        if self.verb() in ("subscribe", "unsubscribe"):
            return f"{self.verb()} {self.place() if self.step() is None else 'step'}"
        return self.verb()


@dataclasses.dataclass(frozen=True)
class History:
    """Calls, the steps that they name, the local time in minutes east of UTC, and queries: the keys and the first indexed one."""

    calls: Sequence[Call]
    steps: Sequence[str]
    offset: int
    queries: Sequence[tuple[str, str]]

    def script(self) -> str:
        """Returns the calls as lines."""
        lines = []
        for call in self.calls:
            lines += [f"  go {call.leaves}"] * bool(call.leaves) + ["  compact"] * call.compacts
            lines.append(f"  {call.moment} {call.title} {call.words}")
        return "\n".join(lines)

    def rounds(self, twin: str) -> list[Round]:
        """Returns the rounds of a course: the plain one, or that of a twin, `leaves` or `compacts`."""
        rounds = []
        for number, call in enumerate(self.calls, 1):
            asked = acts_before(call, twin) | round_of(call)
            if number % FULL == 0 or number == len(self.calls):
                asked |= self.questions(number, is_whole=twin != "leaves")
            rounds.append(asked)
        return rounds

    def questions(self, number: int, is_whole: bool) -> Round:
        """Returns the questions about all; if the whole history is in memory, also those to the plain programs."""
        asked: Round = {}
        for step in self.steps:
            asked[f"get {step}"] = "script", f"0 P1 get {step}"
            asked[f"holder {step}"] = "script", f"0 P1 holder {step}"
        for peer in PEERS:
            asked[f"pending {peer}"] = "script", f"0 {peer} pending {MOST}"
        keys, first = self.queries[number // FULL % len(self.queries)]
        asked |= {"find": ("script", f"0 P1 find {keys}"), "counts": ("counts", ""), "delivery": ("deliver", ACCEPTED.hex())}
        if is_whole:
            asked |= {"lists": ("plain", ""), "found": ("find", keys), "class": ("find", first)}
        return asked


def acts_before(call: Call, twin: str) -> Round:
    """Returns what a twin does before a call."""
    if twin == "leaves" and call.leaves:
        return {"leaves": ("go", str(call.leaves))}
    if twin == "compacts" and call.compacts:
        return {"compacts": ("compact", str(call.moment))}
    return {}


def round_of(call: Call) -> Round:
    """Returns a call, and the questions about its effect."""
    asked: Round = {}
    if call.place() == "filtered":
        asked["filter"] = "script", f"0 P1 find {call.keys()}"
    asked["call"] = call.part()
    for peer in PEERS:
        asked[f"watches {peer}"] = "script", f"0 {peer} watches"
    asked["held"] = "script", "0 P1 held"
    if call.step() is not None:
        asked["step"] = "script", f"0 P1 get {call.step()} {STATE} {READINESS}"
    return asked


def line_of(first: str, parts: Iterable[Part]) -> str:
    """Returns the line that asks `refusals` for a course. Lines of a script that follow one another are one part."""
    words = [first]
    lines: list[str] = []
    for kind, text in [*parts, ("", "")]:
        if kind == "script":
            lines.append(text)
            continue
        if lines:
            words.append(services.word_of("script", "".join(f"{it}\n" for it in lines).encode()))
            lines = []
        if kind:
            words.append(f"{kind}:{text}" if kind in ("go", "compact", "deliver") else services.word_of(kind, text.encode()))
    return " ".join(words)


def replies_of(parts: Iterable[Part], reports: Iterable[services.Report]) -> Iterator[tuple[str, str]]:
    """Yields the reply to each part, and how many requests are entered after the part of the course that has it."""
    left = iter(reports)
    lines: list[str] = []
    entries = ""
    for kind, _ in parts:
        if kind != "script" or not lines:
            written, ended = next(left)
            end, _, entries = ended.partition(" ")
            if end != ("Closed" if kind == "deliver" else "Done") or lines:
                raise Difference(f"a part ({kind}) ends with {end}, and {len(lines)} replies are left")
            text = written.hex() if kind == "deliver" else written.decode()
            lines = text.splitlines() if kind == "script" else [text.removesuffix("\n")]
        yield lines.pop(0), entries


class Asked:
    """The program `refusals` as it runs: it is given the line of a course after it has answered for the one before."""

    def __init__(self, program: str) -> None:
        self.program = program
        self.child: Optional[subprocess.Popen[bytes]] = None

    def told(self, line: str) -> list[services.Report]:
        """Returns what the program reports of a course. Raises Difference if it ends, or doesn't answer."""
        child = self.child = self.child or subprocess.Popen([self.program], stdin=subprocess.PIPE, stdout=subprocess.PIPE)
        assert child.stdin and child.stdout
        try:
            child.stdin.write(f"{line}\n".encode())
            child.stdin.flush()
            reply = child.stdout.readline() if select.select([child.stdout], [], [], SECONDS)[0] else b""
        except OSError:
            reply = b""
        if not reply.endswith(b"\n"):
            raise Difference(f"the program ends with status {self.end()}, or doesn't answer")
        return [services.part_of(it) for it in reply.decode().split(" | ")[:-1]]

    def end(self) -> int:
        """Ends the program, and returns its status."""
        child, self.child = self.child, None
        if child is None:
            return 0
        try:
            child.communicate(timeout=1)
        except (OSError, subprocess.TimeoutExpired):
            child.kill()
        return child.wait()


def run(asked: Asked, history: History, twin: str = "") -> list[Told]:
    """Runs a course of a history, the plain one or that of a twin, and returns what is told in each round."""
    rounds = history.rounds(twin)
    parts = [part for it in rounds for part in it.values()]
    settings = f"0{',lasting' if twin else ''},offset={history.offset}"
    replies = replies_of(parts, asked.told(line_of(settings, parts)))
    return [told_in(it, replies) for it in rounds]


def told_in(asked: Round, replies: Iterator[tuple[str, str]]) -> Told:
    """Returns the replies in a round, and under `entries` how many requests are entered after it, if that is told there."""
    told: Told = {}
    for name in asked:
        told[name], entries = next(replies)
        if name == "counts":
            told["entries"] = entries
    return told


def is_entered(call: Call, reply: str) -> bool:
    """Returns whether a request is entered, by its reply."""
    return reply.startswith(("0000", "B301")) and (call.verb() != "sweep" or reply != "0000 0")


def steps_in(reply: str) -> list[str]:
    """Returns the steps that a reply to `held` or `watches` lists, without whether they are locked."""
    return [it.split(":")[0] for it in reply.split(" ")[1:]]


def found_in(reply: str) -> list[str]:
    """Returns the attributes of each step in a reply to `find`."""
    return [it.split("]")[0] for it in reply.split("[")[1:]]


def attributes_in(text: str) -> dict[str, str]:
    """Returns the attributes of a text, by their tags."""
    return dict((it.split("=", 1)[0], it.split("=", 1)[1]) for it in text.split(" ") if "=" in it)


def counts_in(reply: str) -> list[tuple[int, int]]:
    """Returns for each peer how many events wait, and how many were made."""
    numbers = [int(it) for it in reply.split(" ")[1:]]
    return list(zip(numbers[::2], numbers[1::2]))


def must(holds: bool, what: str, *told: object) -> None:
    """Raises Difference unless something holds."""
    if not holds:
        raise Difference(": ".join([what, *(f"{it!r}" for it in told)]))


@dataclasses.dataclass
class Event:
    """An event for a watcher: the place of its request, its type, its step, and the step's state and readiness."""

    entry: int
    kind: int
    step: str
    state: str
    readiness: str

    def text(self) -> str:
        """Returns the event as `pending` shows it, without its number."""
        return f"{self.kind}:{self.step}:{self.state}:{self.readiness}"


class Watch:
    """What is to be expected of the events, from what is told after each call (PS3.4 CC.2.4, and the profile)."""

    def __init__(self) -> None:
        self.events: dict[str, list[Event]] = {peer: [] for peer in PEERS}
        self.acknowledged = dict.fromkeys(PEERS, 0)
        self.watched: dict[str, list[str]] = {peer: [] for peer in PEERS}
        self.held: list[str] = []
        self.present: dict[str, tuple[str, str]] = {}
        self.claimed: dict[str, str] = {}
        self.entries = 0

    def follow(self, call: Call, told: Told, counts: Counts) -> None:
        """Takes up what a call changes."""
        before, step = dict(self.present), call.step()
        if "step" in told and told["step"].startswith("0000"):
            shown = attributes_in(told["step"])
            self.present[step or ""] = shown[STATE], shown.get(READINESS, "")
        after = {peer: steps_in(told[f"watches {peer}"]) for peer in PEERS}
        if is_entered(call, told["call"]):
            counts[call.kind()] += 1
            self.enter(call, told, before, after)
            self.entries += 1
        if call.verb() == "set":
            begun = [set(after[peer]) - set(self.watched[peer]) for peer in PEERS]
            counts["begun by a set"] += sum(map(len, begun))
            must(all(set(self.watched[it]) <= set(after[it]) for it in PEERS), "a subscription ends by a set")
        counts["used again"] += call.verb() == "create" and told["call"].startswith("0111")
        self.watched, self.held = after, self.held_after(call, told, counts)

    def held_after(self, call: Call, told: Told, counts: Counts) -> list[str]:
        """Returns the steps that are held after a call: a creation adds its step, and a sweep tells how many it removes."""
        held = steps_in(told["held"])
        gone = [it for it in self.held if it not in held]
        added = [call.place()] if call.verb() == "create" and is_entered(call, told["call"]) else []
        must(held == [it for it in self.held if it in held] + added, "steps held", told["held"], self.held)
        number = int(told["call"].split(" ")[1]) if call.verb() == "sweep" else 0
        must(len(gone) == number, "steps removed", gone, told["call"])
        counts["removed"] += number
        return held

    def enter(self, call: Call, told: Told, before: dict[str, tuple[str, str]], after: dict[str, list[str]]) -> None:
        """Adds the events of a request that is entered, given the steps as they were before it and who watches what after it."""
        if call.verb() == "ack" and call.title in PEERS:
            self.acknowledged[call.title] = len(self.events[call.title]) + 1 - int(call.words.split(" ")[1])
        if call.words.startswith("change") and " IN%20PROGRESS " in call.words:
            self.claimed[call.place()] = call.title
        if call.verb() == "subscribe":
            for step in self.taken_in(call, told):
                self.tell(call.receiver(), REPORT, step, *self.present[step])
        elif (own := call.step()) is not None:
            for peer in PEERS:
                self.tell_of(peer, call, own, before.get(own), own in after[peer])

    def taken_in(self, call: Call, told: Told) -> list[str]:
        """Returns the steps that a subscription includes."""
        if call.place() == "filtered":
            found = {attributes_in(it)[KEY] for it in found_in(told["filter"])}
            return [it for it in self.held if it in found]
        return [it for it in self.held if call.place() in ("global", it)]

    def tell_of(self, peer: str, call: Call, step: str, before: Optional[tuple[str, str]], watches: bool) -> None:
        """Adds the events of a request on a step, if the peer watched it or watches it from then on."""
        state, readiness = self.present.get(step, ("", ""))
        if step not in self.watched[peer] or before is None:
            if watches:
                self.tell(peer, REPORT, step, state, readiness)
        elif call.verb() == "change":
            self.tell(peer, REPORT, step, state, readiness)
        elif call.verb() == "cancel" and before[0] == "SCHEDULED":
            self.tell(peer, REPORT, step, "IN%20PROGRESS", readiness)
            self.tell(peer, REPORT, step, "CANCELED", readiness)
        elif call.verb() == "cancel" and before[0] == "IN%20PROGRESS":
            self.tell(peer, CANCEL, step, state, readiness)
        elif call.verb() == "set":
            if call.has(READINESS) and before[1] != readiness:
                self.tell(peer, REPORT, step, state, readiness)
            if call.has(PROGRESS):
                self.tell(peer, PROGRESSES, step, state, readiness)
            if call.has(STATION, PERFORMERS):
                self.tell(peer, ASSIGNED, step, state, readiness)

    def tell(self, peer: str, kind: int, step: str, state: str, readiness: str) -> None:
        """Adds an event."""
        self.events[peer].append(Event(self.entries, kind, step, state, readiness))

    def pending(self, peer: str) -> list[tuple[int, Event]]:
        """Returns the events that wait, with their numbers: each that is neither acknowledged nor superseded."""
        events = list(enumerate(self.events[peer], 1))
        last = {event.step: number for number, event in events if event.kind == REPORT}
        return [(number, event) for number, event in events
                if number > self.acknowledged[peer] and (event.kind != REPORT or last[event.step] == number)]

    def holds_so(self, told: Told) -> None:
        """Raises Difference if the events that wait, or the holders of the steps, are not as expected."""
        for peer, (waiting, made) in zip(PEERS, counts_in(told["counts"]), strict=True):
            due = [f"{number}:{event.text()}" for number, event in self.pending(peer)]
            must(told[f"pending {peer}"].split(" ")[1:] == due, f"pending {peer}", told[f"pending {peer}"], due)
            must(waiting == len(due), f"events of {peer} that wait", waiting, len(due))
            must(made == len(self.events[peer]), f"events made for {peer}", made, len(self.events[peer]))
        for step in self.held:
            due_to = f"0000 {self.claimed.get(step, '-')}"
            must(told[f"holder {step}"] == due_to, f"holder of {step}", told[f"holder {step}"], due_to)


def check_plain(history: History, rounds: Iterable[Told], counts: Counts) -> list[list[int]]:
    """Compares a plain course with the plain programs and with the expected events, and returns for each round of which requests
    events wait after it, as far as that is compared. Raises Difference."""
    watch = Watch()
    waits: list[list[int]] = []
    for call, told in zip(history.calls, rounds, strict=True):
        watch.follow(call, told, counts)
        waits.append([])
        if "counts" not in told:
            continue
        lists = "\n".join(told[it] for it in ("held", *(f"watches {peer}" for peer in PEERS)))
        must(told["lists"] == lists, "the plain programs list otherwise", told["lists"], lists)
        must(told["found"] == told["find"], "the plain program finds otherwise", told["found"], told["find"])
        asked, due = int(told["counts"].split(" ")[0]), len(found_in(told["class"]))
        must(asked == due, "a query asks about other steps than those of its class", asked, due)
        must(int(told["entries"]) == watch.entries, "requests entered", told["entries"], watch.entries)
        watch.holds_so(told)
        counts["held"] += len(watch.held)
        counts["found"] += len(found_in(told["find"]))
        counts["watched"] += sum(map(len, watch.watched.values()))
        waits[-1] = [event.entry for peer in PEERS for _, event in watch.pending(peer)]
        counts["pending"] += len(waits[-1])
    return waits


def check_leaving(plain: Iterable[Told], twin: Iterable[Told], waits: Iterable[list[int]], counts: Counts) -> None:
    """Compares the course of a twin whose requests leave memory, given of which requests events wait after each round. Raises
    Difference."""
    gone = 0
    for one, other, places in zip(plain, twin, waits, strict=True):
        for name in other.keys() - {"leaves"}:
            must(one[name] == other[name], f"the twin whose requests leave tells otherwise: {name}", one[name], other[name])
        now = int(other.get("leaves", gone))
        counts["leaving"] += now > gone
        gone = now
        counts["reports of those that left"] += sum(place < gone for place in places)
        counts["first reports of W1"] += gone > 0 and "delivery" in other and other["pending W1"] != "0000"


def check_compacting(plain: Iterable[Told], twin: Iterable[Told], counts: Counts) -> None:
    """Compares the course of a twin whose history is compacted. Raises Difference."""
    fewer = 0
    for one, other in zip(plain, twin, strict=True):
        counts["compactions"] += "compacts" in other
        for name in other.keys() - {"compacts", "counts", "entries", *(f"pending {peer}" for peer in PEERS)}:
            must(one[name] == other[name], f"the compacted twin tells otherwise: {name}", one[name], other[name])
        if "counts" not in other:
            continue
        must(int(other["entries"]) <= int(one["entries"]), "the compacted history is longer", one["entries"], other["entries"])
        fewer = int(one["entries"]) - int(other["entries"])
        counts["first reports of W1"] += fewer > 0 and other["pending W1"] != "0000"
        for peer, (_, made), (_, less) in zip(PEERS, counts_in(one["counts"]), counts_in(other["counts"]), strict=True):
            wanted, found = one[f"pending {peer}"], shifted(other[f"pending {peer}"], made - less)
            must(wanted == found, f"the compacted twin tells otherwise: pending {peer}", wanted, found)
            counts["reports compared"] += made > less and len(wanted.split(" ")) - 1
    counts["fewer"] += fewer


def shifted(reply: str, by: int) -> str:
    """Returns a reply to `pending` with greater numbers."""
    status, *words = reply.split(" ")
    return " ".join([status, *(f"{int(number) + by}:{rest}" for number, _, rest in (it.partition(":") for it in words))])
