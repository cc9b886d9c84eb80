#!/usr/bin/env python3
"""Compares the audit lines of `upsd serve --audit`, and what `ups audit` makes of them, with what was asked.

    trials/audit.py [PROGRAM]      (default: crates/upsd/out/upsd)

Two clients ask for each operation, and some are refused: each that is accepted has to have one audit line, with who asked, the
change and its number, in order, and each that is refused its line at the level WARN and no other. No line may have a value of the
steps that names a patient, and without --audit there is none. A client that is refused beyond the limit on lines loses no audit
line, and a sweep has a line. 2,000 creations over four associations at a time have as many lines, whose numbers are 1 to 2,000.

Association requests come in two segments, cut anywhere, with a title of somebody else in their reserved bytes: each line has
the title that the store has, and the line of one that is rejected those of its request. A store that takes nothing any more
loses a creation whose line was written.

`ups audit` reads the log, and the same lines as the journal shows them: each audit line, refusal, start and stop is an audit
message in one line, whose elements and attributes are those of the schema of PS3.15 section A.5.1, in its order, and whose content
is compared. What was not kept at the next start is told as a failure. A look at what a start would find, as each reload of the
unit has it, and a start that is refused, are no start.

It installs pydicom if it is missing, prints a line for each check, and then `N passed, M failed`. The status is 1 if any failed.
"""

from __future__ import annotations

import base64
import dataclasses
import os
import re
import resource
import subprocess
import sys
import tempfile
import threading
import time
from typing import Optional
from xml.etree import ElementTree

sys.path.insert(0, os.path.join(os.path.dirname(os.path.dirname(os.path.abspath(__file__))), "check/lib"))
from dicom import EXPLICIT, PULL, Contexts, act, associate, create, find, get
from ledger import CANCELED, COMPLETED, IN_PROGRESS, LABEL, SOP_INSTANCE
from machine import HERE, arguments, holds, install, pid_of
from peer import FILTERED, GLOBAL, PULL_ON, PUSH_ON, WATCH_ON, connect, told
from results import Results
from server import Server
from stored import SECONDS, Client, Stored, a_step_of, performed, rows_of

CLIENT = [sys.executable, os.path.join(HERE, "client/bin/ups"), "audit"]
A, B, C = b"1.2.3.1", b"1.2.3.2", b"1.2.3.3"
HOLDER = b"2.25.7"
NAMES = ("DOE", "JANE", "P-4711", "19700101", "F-LABEL", "ILL")  # values of the steps and of requests on them
LIMIT = 20.0  # seconds for lines to come
MOST = 64  # tags in a line
KEEP = 5  # seconds for which finished steps are kept: longer than the clients take
CALLED, OTHER = b"UPSD", b"OTHER"  # the title of the server, and another one
RESERVED = 42  # the offset of the reserved bytes behind the titles of an association request (PS3.8 table 9-11)
APART = 0.3  # seconds between two segments
NUMBER = re.compile(r", at (\d+)$")
READS = ("Find", "Get")
ACTIONS = {"Create": "C", "Get": "R", "Find": "E"}  # what an audit message calls a request, accepted or refused; others update
TIME = re.compile(r"\d{4}-\d\d-\d\dT\d\d:\d\d:\d\dZ ")
PUSH = "1.2.840.10008.5.1.4.34.6.1"
UIDS = {"GLOBAL": GLOBAL.decode(), "FILTERED": FILTERED.decode()}

# a name, the attributes that it has to have, those that it may have, and its children in order, each with how many there are
CODE = ({"csd-code", "codeSystemName", "originalText"}, {"displayName"}, [])
SCHEMA: dict[str, tuple[set[str], set[str], list[tuple[str, int, int]]]] = {
    "AuditMessage": (set(), set(), [("EventIdentification", 1, 1), ("ActiveParticipant", 1, 99), ("AuditSourceIdentification", 1, 1),
                                    ("ParticipantObjectIdentification", 0, 99)]),
    "EventIdentification": ({"EventDateTime", "EventOutcomeIndicator"}, {"EventActionCode"},
                            [("EventID", 1, 1), ("EventTypeCode", 0, 99), ("EventOutcomeDescription", 0, 1)]),
    "ActiveParticipant": ({"UserID", "UserIsRequestor"},
                          {"AlternativeUserID", "UserName", "NetworkAccessPointID", "NetworkAccessPointTypeCode"}, [("RoleIDCode", 0, 99)]),
    "AuditSourceIdentification": ({"AuditSourceID"}, {"AuditEnterpriseSiteID"}, [("AuditSourceTypeCode", 0, 99)]),
    "AuditSourceTypeCode": ({"csd-code"}, {"codeSystemName", "displayName", "originalText"}, []),
    "ParticipantObjectIdentification": (
        {"ParticipantObjectID", "ParticipantObjectTypeCode"},
        {"ParticipantObjectTypeCodeRole", "ParticipantObjectDataLifeCycle", "ParticipantObjectSensitivity"},
        [("ParticipantObjectIDTypeCode", 1, 1), ("ParticipantObjectName", 0, 1), ("ParticipantObjectQuery", 0, 1),
         ("ParticipantObjectDetail", 0, 99), ("ParticipantObjectDescription", 0, 99), ("SOPClass", 0, 99)]),
    "SOPClass": ({"NumberOfInstances"}, {"UID"}, [("Instance", 0, 99)]),
    "Instance": ({"UID"}, set(), []),
    "ParticipantObjectDetail": ({"type", "value"}, set(), []),
    **{name: CODE for name in ("EventID", "EventTypeCode", "RoleIDCode", "ParticipantObjectIDTypeCode")},
    **{name: (set(), set(), []) for name in ("EventOutcomeDescription", "ParticipantObjectName", "ParticipantObjectQuery",
                                             "ParticipantObjectDescription")},
}

Details = dict[str, str]


@dataclasses.dataclass
class Asked:
    """A request, the status that it has to get, and what its audit line and message have to say if it is accepted, with the number
    of accepted changes behind the answer."""

    name: str
    instance: str
    got: int
    status: int = 0x0000
    done: str = ""
    details: Details = dataclasses.field(default_factory=dict)
    number: int = 0

    @property
    def action(self) -> str:
        return ACTIONS.get(self.name, "U")

    @property
    def is_refused(self) -> bool:
        return self.status >= 0x0100 and self.status & 0xF000 != 0xB000

    def line(self, place: str) -> str:
        return f"audit: {self.name} {place}, {self.instance}, {self.status:04X}{self.done and ', '}{self.done}, at {self.number}"

    def refusal(self, place: str) -> str:
        named = {"Create": "N-CREATE", "Set": "N-SET", "Get": "N-GET", "Find": "C-FIND"}.get(self.name, self.name)
        return f"serve: {named} {place}, {self.instance}, {self.status:04X}"


class Caller(Client):
    """A client with its title and number, as the log has them, and what it has asked."""

    def __init__(self, server: Server, title: bytes, number: int) -> None:
        super().__init__(server.port, title)
        self.title = title.decode()
        self.place = f"#{number} {self.title} 127.0.0.1:{self.socket.getsockname()[1]}"
        self.asked: list[Asked] = []

    def gets(self, uid: bytes) -> int:
        return self.ask(get(PUSH_ON, self.next(), uid))

    def finds(self, *keys: tuple[int, int, bytes, bytes]) -> int:
        return self.ask(find(PULL_ON, self.next(), b"".join(told(*it) for it in sorted(keys))))

    def suspends(self, receiver: bytes) -> int:
        return self.ask(act(WATCH_ON, self.next(), GLOBAL, 5, told(0x0074, 0x1234, b"AE", receiver)))


def of_step(uid: bytes) -> bytes:
    """Returns the attributes of a new step of the patient whose name and ID no line may have."""
    return a_step_of(NAMES[2].encode())


def changed(name: str, uid: bytes, got: int, before: str, after: str, status: int = 0) -> Asked:
    details = {"Former Procedure Step State": before, "Procedure Step State": after}
    return Asked(name, uid.decode(), got, status, f"{before} to {after}", details=details)


def subscribed(place: bytes, got: int, receiver: str, has_lock: bool, status: int = 0) -> Asked:
    lock = "lock " if has_lock else ""
    return Asked("Subscribe", place.decode(), got, status, f"{lock}for {receiver}",
                 details={"Receiving AE": receiver, "Deletion Lock": str(has_lock).upper()})


def set_of(uid: bytes, got: int, *tags: str) -> Asked:
    return Asked("Set", uid.decode(), got, 0, f"sets {' '.join(tags)}", details={"Attributes": " ".join(tags)})


def ask_as_scheduler(it: Caller) -> None:
    """Creates steps, cancels one, subscribes watchers, and is refused some of it."""
    for uid in (A, B, C):
        it.asked.append(Asked("Create", uid.decode(), it.create(uid, of_step(uid))))
    it.asked += [
        Asked("Create", A.decode(), it.create(A, of_step(A)), 0x0111),
        set_of(A, it.set(A, told(*LABEL, b"LO", b"F-LABEL"), None), "(0074,1204)"),
        subscribed(GLOBAL, it.subscribe(GLOBAL, b"W1", b"TRUE"), "W1", True),
        subscribed(GLOBAL, it.subscribe(GLOBAL, b"W 2", b"TRUE"), "W 2", False, 0xB301),
        subscribed(A, it.subscribe(A, b"W1", b"FALSE"), "W1", False),
        subscribed(FILTERED, it.subscribe(FILTERED, b"W 2", b"FALSE", told(0x0010, 0x0020, b"LO", NAMES[2].encode())), "W 2", False),
        subscribed(GLOBAL, it.subscribe(GLOBAL, b"STRANGER", b"FALSE"), "STRANGER", False, 0xC308),
        Asked("Cancel", C.decode(), it.cancel(C), done="asks for CANCELED", details={"Requested Procedure Step State": "CANCELED"}),
        Asked("Cancel", C.decode(), it.cancel(C), 0xB304),
        Asked("Suspend", GLOBAL.decode(), it.suspends(b"W 2"), done="for W 2", details={"Receiving AE": "W 2"}),
        Asked("Unsubscribe", A.decode(), it.unsubscribe(A, b"W1"), done="for W1", details={"Receiving AE": "W1"}),
    ]
    for watcher in ("W1", "W 2"):
        got = it.unsubscribe(GLOBAL, watcher.encode())
        it.asked.append(Asked("Unsubscribe", GLOBAL.decode(), got, done=f"for {watcher}", details={"Receiving AE": watcher}))


def ask_as_performer(it: Caller) -> None:
    """Claims a step, reports on it and completes it, gives another up, and is refused some of it; asks for steps."""
    keys = [(0x0010, 0x0010, b"PN", b"DOE*"), (0x0010, 0x0020, b"LO", NAMES[2].encode()), (*SOP_INSTANCE, b"UI", b"")]
    many = [(0x0010, 0x1000 + number, b"LO", b"") for number in range(MOST + 6)]
    it.asked += [
        Asked("Find", "-", it.finds(*keys), done="3 answers (0008,0018) (0010,0010) (0010,0020)"),
        Asked("Find", "-", it.finds(), done="3 answers"),
        Asked("Find", "-", it.finds(*many),
              done="3 answers " + " ".join(f"(0010,{0x1000 + number:04X})" for number in range(MOST)) + " and 6 more"),
        Asked("Get", A.decode(), it.gets(A)),
        Asked("Get", "1.2.3.99", it.gets(b"1.2.3.99"), 0xC307),
        changed("Change", A, it.change(A, IN_PROGRESS, HOLDER), "SCHEDULED", "IN PROGRESS"),
        changed("Change", A, it.change(A, IN_PROGRESS, b"2.25.8"), "", "", 0xC302),
        changed("Change", A, it.change(A, COMPLETED, HOLDER), "", "", 0xC304),
        set_of(A, it.set(A, performed(1), HOLDER), "(0008,1195)", "(0074,1002)", "(0074,1204)", "(0074,1216)"),
        changed("Change", A, it.change(A, COMPLETED, HOLDER), "IN PROGRESS", "COMPLETED"),
        changed("Change", A, it.change(A, COMPLETED, HOLDER), "", "", 0xB306),
        changed("Change", B, it.change(B, IN_PROGRESS, HOLDER), "SCHEDULED", "IN PROGRESS"),
        Asked("Cancel", B.decode(), it.cancel(B), done="asks for CANCELED",
              details={"Requested Procedure Step State": "CANCELED", "Procedure Step State": "IN PROGRESS"}),
        set_of(B, it.set(B, performed(2), HOLDER), "(0008,1195)", "(0074,1002)", "(0074,1204)", "(0074,1216)"),
        changed("Change", B, it.change(B, CANCELED, HOLDER), "IN PROGRESS", "CANCELED"),
    ]


DONE = (0x0000, 0x0001, 0xB301)


def number(callers: list[Caller]) -> int:
    """Gives each accepted request of clients that ask one after the other its number: of a change its own, and of a query or an N-GET
    how many changes were accepted before it. Returns how many there were."""
    accepted = 0
    for it in callers:
        for asked in it.asked:
            accepted += asked.status in DONE and asked.name not in READS
            asked.number = accepted
    return accepted


def numbers_in(lines: list[str]) -> list[int]:
    return [int(found[1]) for it in lines if (found := NUMBER.search(it))]


def messages_in(log: list[str], words: str) -> list[str]:
    """Returns the lines of a log that begin with these words behind their time and level."""
    return [line.partition("] ")[2] for line in log if line.partition("] ")[2].startswith(words)]


def differing(found: list[str], wanted: list[str]) -> Optional[str]:
    """Returns the first difference of two lists of lines, or None."""
    if found == wanted:
        return None
    at = next((at for at, (one, other) in enumerate(zip(found, wanted)) if one != other), min(len(found), len(wanted)))
    return f"{len(found)} lines and not {len(wanted)}; line {at + 1} is {found[at:at + 1]} and not {wanted[at:at + 1]}"


def compare_lines(log: list[str], callers: list[Caller], results: Results) -> None:
    """Compares the lines of each client, and looks for what names a patient."""
    for it in callers:
        wrong = [f"{asked.name} {asked.instance} gets {asked.got:04X}" for asked in it.asked if asked.got != asked.status]
        results.tell(f"{it.title} gets its statuses", "; ".join(wrong) or None)
        found = [line for line in messages_in(log, "audit: ") if f" {it.place}, " in line]
        wanted = [asked.line(it.place) for asked in it.asked if asked.status in DONE]
        results.tell(f"what {it.title} was granted has a line each", differing(found, wanted))
        refused = [line for line in log if f" {it.place}, " in line and "[WARN  upsd]" in line]
        wanted = [asked.refusal(it.place) for asked in it.asked if asked.is_refused]
        results.tell(f"what {it.title} was refused has a warning each", differing(messages_in(refused, "serve: "), wanted))
    named = [line for line in log if any(name in line for name in NAMES)]
    results.tell("no line names a patient", f"{named[:2]}" if named else None)


# the audit messages

def fault_in(element: ElementTree.Element) -> Optional[str]:
    """Returns how an element differs from the schema, or None."""
    if element.tag not in SCHEMA:
        return f"{element.tag} is no element"
    needed, allowed, children = SCHEMA[element.tag]
    has = set(element.attrib)
    if needed - has or has - needed - allowed:
        return f"{element.tag} has the attributes {sorted(has)}"
    order = [name for name, _, _ in children]
    tags = [it.tag for it in element]
    if any(it not in order for it in tags) or tags != sorted(tags, key=order.index):
        return f"{element.tag} has the children {tags}"
    if any(not least <= tags.count(name) <= most for name, least, most in children):
        return f"{element.tag} has the children {tags}"
    if element.tag == "ParticipantObjectIdentification" and tags.count("ParticipantObjectName") + tags.count("ParticipantObjectQuery") != 1:
        return f"{element.tag} has not one of name and query"
    return next((fault for it in element if (fault := fault_in(it))), None)


def details_in(step: ElementTree.Element) -> Details:
    return {it.attrib["type"]: base64.b64decode(it.attrib["value"]).decode() for it in step.findall("ParticipantObjectDetail")}


def at(message: ElementTree.Element, path: str, attribute: str) -> Optional[str]:
    found = message.find(path)
    return None if found is None else found.get(attribute)


def differs(message: ElementTree.Element, asked: Asked, caller: Caller, machine: Optional[str]) -> Optional[str]:
    """Returns how an audit message differs from a request that was accepted or refused, or None."""
    is_query = asked.name == "Find"
    step = message.find("ParticipantObjectIdentification")
    assert step is not None
    event = "EventIdentification"
    details = {"TransferSyntax": "1.2.840.10008.1.2", "Answers": "3"} if is_query else asked.details
    details = {} if asked.is_refused else {**details, "Accepted Requests": str(asked.number)}
    outcome = "8" if asked.is_refused else "4" if asked.status else "0"
    pairs = [
        (at(message, f"{event}/EventID", "csd-code"), "110112" if is_query else "110103"),
        (at(message, event, "EventActionCode"), ACTIONS.get(asked.name, "U")), (at(message, event, "EventOutcomeIndicator"), outcome),
        (at(message, f"{event}/EventTypeCode", "csd-code"), asked.name),
        ([it.get("UserID") for it in message.findall("ActiveParticipant")], [caller.title, "UPSD"]),
        ([it.get("csd-code") for it in message.findall("ActiveParticipant/RoleIDCode")], ["110153", "110152"]),
        ([it.get("UserIsRequestor") for it in message.findall("ActiveParticipant")], ["true", "false"]),
        ([it.get("NetworkAccessPointID") for it in message.findall("ActiveParticipant")], ["127.0.0.1", machine]),
        ([it.get("NetworkAccessPointTypeCode") for it in message.findall("ActiveParticipant")], ["2", machine and "1"]),
        (step.get("ParticipantObjectID"), PUSH if is_query else asked.instance),
        (step.get("ParticipantObjectTypeCode"), "2"), (details_in(step), details),
        (at(step, "SOPClass/Instance", "UID"), None if is_query else asked.instance),
    ]
    if is_query:
        tags = re.findall(r"\(([0-9A-F]{4}),([0-9A-F]{4})\)", asked.done)
        keys = b"".join(int(it, 16).to_bytes(2, "little") for tag in tags for it in (*tag, "0", "0"))
        pairs.append((base64.b64decode(step.findtext("ParticipantObjectQuery", "")), keys))
    return next((f"{found!r} and not {wanted!r}" for found, wanted in pairs if found != wanted), None)


def compare_messages(lines: list[str], callers: list[Caller], machine: Optional[str], results: Results) -> None:
    """Compares what `ups audit` prints for these lines, from a machine that the lines name, if they do."""
    named = "of the journal" if machine else "of the log"
    ran = subprocess.run([*CLIENT, "-"], input="\n".join(lines) + "\n", capture_output=True, text=True, timeout=LIMIT, check=False)
    results.tell(f"ups audit reads the lines {named}", f"status {ran.returncode}: {ran.stderr[-200:]}" if ran.returncode or ran.stderr else None)
    count = sum(any(it in line for it in ("audit: ", "[WARN  upsd] serve: ", " listens on ", "Deactivated")) for line in lines)
    messages = [ElementTree.fromstring(line) for line in ran.stdout.splitlines()]
    results.tell(f"each line {named} is a message", None if len(messages) == count else f"{len(messages)} of {count}")
    fault = next((fault for it in messages if (fault := fault_in(it))), None)
    results.tell(f"each message {named} is one of the schema", fault)
    told_of = [it for it in NAMES if it in ran.stdout or base64.b64encode(it.encode()).decode() in ran.stdout]
    results.tell(f"no message {named} names a patient", f"{told_of}" if told_of else None)
    for it in callers:
        mine = [message for message in messages if at(message, "ActiveParticipant", "UserID") == it.title]
        told_of_it = [asked for asked in it.asked if asked.status in DONE or asked.is_refused]
        fault = None if len(mine) == len(told_of_it) else f"{len(mine)} messages and not {len(told_of_it)}"
        for message, asked in zip(mine, told_of_it):
            fault = fault or differs(message, asked, it, machine)
        results.tell(f"the messages {named} say what {it.title} did", fault)
    swept = [it for it in messages if at(it, "EventIdentification", "EventActionCode") == "D"]
    numbers = [at(it, "ParticipantObjectIdentification/SOPClass", "NumberOfInstances") for it in swept]
    results.tell(f"a message {named} says how many steps were removed", None if sum(int(it or 0) for it in numbers) == 3 else f"{numbers}")
    kinds = [at(it, "EventIdentification/EventTypeCode", "csd-code") for it in messages
             if at(it, "EventIdentification/EventID", "csd-code") == "110100"]
    wanted = ["110120", "110121"] if machine else ["110120"]
    results.tell(f"a message {named} says when the server started, and when it ended", None if kinds == wanted else f"{kinds}")


def as_of_journal(lines: list[str]) -> list[str]:
    """Returns the lines as `journalctl -o short-iso` shows them, with that of systemd about the end."""
    told_so = [TIME.sub("2026-11-27T09:30:00+0100 ris upsd[4711]: ", line) for line in lines]
    return [*told_so, "2026-11-27T09:31:00+0100 ris systemd[1]: upsd.service: Deactivated successfully."]


def trial_of_operations(program: list[str], results: Results) -> None:
    options = ["--audit", "--keep", str(KEEP), "W1=127.0.0.1:9,lock", "W 2=127.0.0.1:9"]
    with Server(program, *options) as server:
        callers = [Caller(server, b"RIS", 1), Caller(server, b"PERFORM, 1.2:3", 2)]
        scheduler, performer = callers
        ask_as_scheduler(scheduler)
        ask_as_performer(performer)
        is_swept = holds(lambda: sum(int(it) for line in server.log for it in re.findall(r"audit: Sweep UPSD, (\d+) steps,", line)) == 3, LIMIT)
        results.tell("sweeps have lines", None if is_swept else f"{messages_in(server.log, 'audit: Sweep')}")
        log = list(server.log)
    accepted = number(callers)
    swept = numbers_in(messages_in(log, "audit: Sweep"))
    results.tell("sweeps have the numbers behind them",
                 None if swept and swept == [accepted + 1 + at_ for at_ in range(len(swept))] else f"{swept} behind {accepted}")
    results.tell("the first line has the option", None if "verbose=false audit=true" in log[0] else log[0])
    compare_lines(log, callers, results)
    compare_messages(log, callers, None, results)
    compare_messages(as_of_journal(log), callers, "ris", results)


def trial_without_lines(program: list[str], results: Results) -> None:
    with Server(program, "--verbose") as server:
        it = Caller(server, b"RIS", 1)
        it.create(A, of_step(A))
        holds(lambda: any("serve: N-CREATE" in line for line in server.log), LIMIT)
        found = messages_in(server.log, "audit:")
    results.tell("without --audit there is no line", f"{found}" if found else None)


def trial_of_refusals(program: list[str], results: Results) -> None:
    """Has a client that is refused more often than refusals have lines."""
    with Server(program, "--audit") as server:
        it = Caller(server, b"RIS", 1)
        for number in range(100):
            for _ in range(2):
                it.create(b"1.2.4.%d" % number, of_step(A))
        holds(lambda: len(messages_in(server.log, "audit: Create ")) == 100, LIMIT)
        found, warned = len(messages_in(server.log, "audit: ")), sum("[WARN  upsd] serve: N-CREATE" in line for line in server.log)
    results.tell("refusals take no audit line", None if (found, warned) == (100, 30) else f"{found} audit lines, {warned} warnings")


def trial_of_many(program: list[str], results: Results) -> None:
    """Creates steps over several associations at a time."""
    def work(number: int, port: int) -> None:
        client = Client(port, b"RIS%d" % number)
        for at_ in range(500):
            assert client.create(b"1.2.%d.%d" % (number, at_), of_step(A)) == 0

    with Server(program, "--audit") as server:
        threads = [threading.Thread(target=work, args=(number, server.port)) for number in range(4)]
        for it in threads:
            it.start()
        for it in threads:
            it.join()
        holds(lambda: len(messages_in(server.log, "audit: Create ")) == 2000, LIMIT)
        found = messages_in(server.log, "audit: Create ")
    results.tell("2,000 creations have as many lines", None if len(set(found)) == 2000 else f"{len(set(found))}")
    results.tell("their numbers are 1 to 2,000", None if sorted(numbers_in(found)) == list(range(1, 2001)) else f"{len(numbers_in(found))} numbers")


class Cut(Client):
    """A client whose association request comes in two segments, and has some bytes where its content is reserved."""

    def __init__(self, port: int, title: bytes, cut: int, reserved: bytes) -> None:
        self.cut, self.reserved = cut, reserved
        super().__init__(port, title)

    def associate(self, contexts: Contexts, title: bytes = b"BENCH") -> None:
        request = associate(contexts, title)
        request = request[:RESERVED] + self.reserved.ljust(32) + request[RESERVED + 32:]
        self.socket.sendall(request[:self.cut])
        time.sleep(APART)
        self.socket.sendall(request[self.cut:])
        assert self.pdu()[0] == 2, "the association is not accepted"


# a title, where its association request is cut, and what stands in the reserved bytes: cut behind byte 7, the rest begins with 01 as
# an association request does (the protocol version), and these bytes stand where its title would
CUTS = [(b"FIRST", 1, b""), (b"EVIL", 7, b"CT1"), (b"HEADER", 6, b"CT1"), (b"TITLE", 30, b"CT1"), (b"LAST", 41, b"CT1"), (b"WHOLE", 42, b"CT1")]


def trial_of_titles(program: list[str], results: Results) -> None:
    """Compares the title in each line of an association with the one that the store has."""
    with tempfile.TemporaryDirectory() as folder:
        file = os.path.join(folder, "upsd.db")
        with Stored(program, file, "--audit") as server:
            for at_, (title, cut, reserved) in enumerate(CUTS):
                it = Cut(server.port, title, cut, reserved)
                it.create(b"1.2.5.%d" % at_, of_step(A))
                it.create(b"1.2.5.%d" % at_, of_step(A))
                it.release()
            holds(lambda: len(messages_in(server.log, "serve: Released ")) == len(CUTS), LIMIT)
            log = list(server.log)
        titles = [str(row[2]) for row in rows_of(file)]
    for at_, (title, cut, _) in enumerate(CUTS):
        found = [line.partition("] ")[2] for line in log if f" #{at_ + 1} " in line]
        wanted = [f"audit: Create #{at_ + 1} {titles[at_]} ", f"serve: N-CREATE #{at_ + 1} {titles[at_]} ",
                  f"serve: Released #{at_ + 1} {titles[at_]} "]
        is_right = titles[at_] == title.decode() and len(found) == 3 and all(map(str.startswith, found, wanted))
        results.tell(f"a request cut behind byte {cut} has the title of the store", None if is_right else f"{titles[at_]}: {found}")


def trial_of_rejections(program: list[str], results: Results) -> None:
    """Compares the titles in the line of an association that is rejected with those of its request, however it is cut."""
    with Server(program) as server:
        for title, cut, reserved in CUTS:
            request = associate([(PULL, EXPLICIT)], title).replace(CALLED.ljust(16), OTHER.ljust(16), 1)
            with connect(server.port, SECONDS) as peer:
                peer.sendall(request[:RESERVED][:cut])
                time.sleep(APART)
                peer.sendall((request[:RESERVED] + reserved.ljust(32) + request[RESERVED + 32:])[cut:])
                assert peer.recv(1) == b"\3", "the association is not rejected"
        holds(lambda: len(messages_in(server.log, "serve: Rejected ")) == len(CUTS), LIMIT)
        found = messages_in(server.log, "serve: Rejected ")
    for at_, (title, cut, _) in enumerate(CUTS):
        line = next((it for it in found if f" #{at_ + 1} " in it), "")
        is_right = f" #{at_ + 1} {title.decode()} " in line and f"it called {OTHER.decode()}," in line
        results.tell(f"a rejected request cut behind byte {cut} has its titles", None if is_right else f"{line!r}")


def trial_of_what_is_lost(program: list[str], results: Results) -> None:
    """Has a store take nothing more, and ends its server: `ups audit` tells of the creation that was not kept."""
    ignoring = ["sh", "-c", 'trap "" XFSZ; exec "$0" "$@"', *program]  # a write beyond the limit fails, and ends no program
    with tempfile.TemporaryDirectory() as folder:
        file = os.path.join(folder, "upsd.db")
        with Stored(ignoring, file, "--audit") as server:
            it = Client(server.port, b"RIS", SECONDS)
            for uid in (A, B):
                assert it.create(uid, of_step(uid)) == 0
            resource.prlimit(pid_of(server.process), resource.RLIMIT_FSIZE, (0, 0))
            it.socket.sendall(create(PUSH_ON, it.next(), C, of_step(C)))
            is_told = holds(lambda: numbers_in(messages_in(server.log, "audit: Create ")) == [1, 2, 3], LIMIT)
            results.tell("a creation that is not kept has a line", None if is_told else f"{messages_in(server.log, 'audit: ')}")
            log = list(server.log)
        with Stored(program, file, "--audit") as server:
            holds(lambda: messages_in(server.log, "store: run 2 begins"), LIMIT)
            log += list(server.log)
    ran = subprocess.run([*CLIENT, "-"], input="\n".join(log) + "\n", capture_output=True, text=True, timeout=LIMIT, check=False)
    messages = [ElementTree.fromstring(line) for line in ran.stdout.splitlines()]
    lost = [at(message, "ParticipantObjectIdentification", "ParticipantObjectID") for message in messages
            if "not kept" in message.findtext("EventIdentification/EventOutcomeDescription", "")]
    results.tell("ups audit says that it was not kept, and nothing else", None if lost == [C.decode()] else f"{lost}: {ran.stderr[-200:]}")


def trial_of_no_starts(program: list[str], results: Results) -> None:
    """Looks at what a start would find, as a reload does, and starts a server on a port that is taken: neither starts one."""
    words = [*program, "serve", "--ae", "UPSD", "--audit", "--port"]
    with Server(program) as server:
        for name, more, status in (("a look at what a start would find", ["0", "--check"], 0), ("a start that is refused", [f"{server.port}"], 2)):
            ran = subprocess.run([*words, *more], capture_output=True, text=True, timeout=LIMIT, check=False)
            told = subprocess.run([*CLIENT, "-"], input=ran.stderr, capture_output=True, text=True, timeout=LIMIT, check=False)
            is_right = ran.returncode == status and "upsd] upsd " in ran.stderr and (told.returncode, told.stdout) == (0, "")
            results.tell(f"{name} is no start of a server", None if is_right else f"status {ran.returncode}: {told.stdout[:200]}{told.stderr[-200:]}")


def main() -> None:
    program = [os.path.abspath(arguments(__doc__).program)]
    install({})
    results = Results()
    for trial in (trial_of_operations, trial_without_lines, trial_of_refusals, trial_of_many, trial_of_titles, trial_of_rejections,
                  trial_of_what_is_lost, trial_of_no_starts):
        trial(program, results)
    results.end()


if __name__ == "__main__":
    main()
