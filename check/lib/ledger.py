"""A client of `upsd serve` that keeps a ledger of steps of its own, and compares each reply with it.

The reply that is due is the one that PS3.4 table CC.1.1-2 and docs/use/conformance.md give for a step in its state. Nobody else may
know the UIDs of the steps: a ledger relies on only its own requests changing them.
"""

from __future__ import annotations

import collections
import contextlib
import dataclasses
import random
import re
import struct
import threading
from collections.abc import Callable, Iterable, Iterator
from typing import Optional

from dicom import (EXPLICIT, IMPLICIT, LONG, PULL, PUSH, Tag, act, command, create, data, even, find, items, message, set_attributes,
                   step, us)
from peer import FOLLOWS, PULL_ON, PUSH_ON, Peer, Reply

Attributes = dict[Tag, tuple[bytes, bytes]]  # the value representation, which is empty in Implicit VR, and the value

ROOT = 27182818284590452353602874713526  # UIDs are 2.25 and a number of 39 digits that begins with these
PATIENTS = 20  # patient IDs of a ledger
SHOWN = 5  # faults of a ledger that are printed
UNLISTED = b"2.25.1"  # a Transaction UID that is never the right one

SOP_CLASS, SOP_INSTANCE, PATIENT = (0x0008, 0x0016), (0x0008, 0x0018), (0x0010, 0x0020)
TRANSACTION, STATE, LABEL, PRIORITY = (0x0008, 0x1195), (0x0074, 0x1000), (0x0074, 0x1204), (0x0074, 0x1200)
PROGRESS, PERFORMED, REASON = (0x0074, 0x1002), (0x0074, 0x1216), (0x0074, 0x1238)
CANCELLATION_TIME = (0x0040, 0x4052)
VRS = {SOP_CLASS: b"UI", SOP_INSTANCE: b"UI", PATIENT: b"LO", TRANSACTION: b"UI", STATE: b"CS", LABEL: b"LO", PRIORITY: b"CS",
       PROGRESS: b"SQ", PERFORMED: b"SQ", REASON: b"LT", CANCELLATION_TIME: b"DT"}
SCHEDULED, IN_PROGRESS, COMPLETED, CANCELED = b"SCHEDULED ", b"IN PROGRESS ", b"COMPLETED ", b"CANCELED"
FINAL = (COMPLETED, CANCELED)
MOMENT = rb"20\d{12}\+0000 "


class Fault(Exception):
    """A reply that is not the one that is due."""


@dataclasses.dataclass
class Held:
    """A step of a ledger: its attributes, and the Transaction UID of its claim."""

    uid: bytes
    attributes: Attributes
    transaction: Optional[bytes] = None

    @property
    def state(self) -> bytes:
        return self.attributes[STATE][1]


def read(explicit: bool, spelled: bytes) -> Attributes:
    """Returns the elements of a data set, in ascending order of tags. Sequences stay bytes."""
    found: Attributes = {}
    while spelled:
        tag = int.from_bytes(spelled[:2], "little"), int.from_bytes(spelled[2:4], "little")
        vr, at, length = b"", 8, int.from_bytes(spelled[4:8], "little")
        if explicit:
            vr, length = spelled[4:6], int.from_bytes(spelled[6:8], "little")
            if vr in LONG:
                at, length = 12, int.from_bytes(spelled[8:12], "little")
        if len(spelled) < at + length or found and tag <= max(found):
            raise Fault(f"a data set is wrong at {spelled[:20].hex()}")
        found[tag] = vr, spelled[at:at + length]
        spelled = spelled[at + length:]
    return found


class Association(Peer):
    """An association, and the Message ID of its last request."""

    def __init__(self, port: int, explicit: bool, title: bytes, seconds: float) -> None:
        self.number = 0
        syntax = EXPLICIT if explicit else IMPLICIT
        super().__init__(port, [(PUSH, syntax), (PULL, syntax)], title, seconds)


class Ledger:
    """The steps that this client has created, and what is known of them. `number` distinguishes the ledgers of one server."""

    def __init__(self, port: int, number: int, seed: object, seconds: float = 30) -> None:
        self.port, self.number, self.seconds = port, number, seconds
        self.explicit = number % 2 == 0
        self.title = b"LEDGER%d" % number
        self.chance = random.Random(f"{seed} ledger {number}")
        self.steps: list[Held] = []
        self.association: Optional[Association] = None
        self.left = 0  # how many more requests the association is used for
        self.replies: collections.Counter[str] = collections.Counter()
        self.agreed = 0
        self.faults: list[str] = []

    # data sets

    def spelled(self, attributes: dict[Tag, bytes]) -> bytes:
        """Returns a data set of these texts."""
        return b"".join(data(self.explicit, *tag, VRS[tag], even(value, b"\0" if VRS[tag] == b"UI" else b" "))
                        for tag, value in sorted(attributes.items()))

    def sequence(self, *elements: tuple[Tag, bytes, bytes]) -> bytes:
        """Returns a sequence of one item."""
        return items([b"".join(data(self.explicit, *tag, vr, value) for tag, vr, value in elements)])

    def told(self, tag: Tag, value: bytes) -> tuple[bytes, bytes]:
        """Returns an attribute as it is read from a data set."""
        return VRS[tag] if self.explicit else b"", value

    # one request

    def ask(self, name: str, field: int, instance: bytes, spelled: bytes, due: int, action: Optional[int] = None) -> list[Reply]:
        """Sends a request and returns its replies, the last of which must have the status `due`; each must name what was asked."""
        wire = self.wire()
        wire.socket.sendall(spelled)
        replies = [wire.reply()]
        while replies[-1].status == FOLLOWS:
            replies.append(wire.reply())
        self.replies[name] += 1
        wanted = {0x0002: even(PULL if field == 0x0020 else PUSH), 0x0100: us(field | 0x8000), 0x0120: us(wire.number)}
        wanted |= {0x1000: even(instance)} if instance else {}
        wanted |= {0x1008: us(action)} if action else {}
        for it in replies:
            for number, value in wanted.items():
                if it.elements.get(number) != value:
                    raise Fault(f"{name}, element {number:04X} of the command set is {it.elements.get(number)!r} and not {value!r}")
        if replies[-1].status != due:
            raise Fault(f"{name}, the status is {replies[-1].status:04X} and not {due:04X}")
        return replies

    def wire(self) -> Association:
        """Returns the association, or a new one, with the Message ID of its next request."""
        if self.association and self.left == 0:
            self.association.release()
            self.association = None
        if not self.association:
            self.association, self.left = Association(self.port, self.explicit, self.title, self.seconds), self.chance.randint(1, 40)
        self.left -= 1
        self.association.number += 1
        return self.association

    def next_number(self) -> int:
        """Returns the Message ID of the next request."""
        return self.association.number + 1 if self.association and self.left else 1

    # the requests, each with what is due

    def create(self) -> None:
        uid = b"2.25.%d" % (ROOT * 10**7 + self.number * 10**6 + len(self.steps))
        patient = b"LEDGER%dP%d" % (self.number, len(self.steps) % PATIENTS)
        given = step(self.explicit, {PATIENT: (b"LO", even(patient, b" "))})
        self.ask("N-CREATE", 0x0140, uid, create(PUSH_ON, self.next_number(), uid, given), 0x0000)
        attributes = read(self.explicit, given) | {SOP_CLASS: self.told(SOP_CLASS, even(PUSH)), SOP_INSTANCE: self.told(SOP_INSTANCE, even(uid))}
        self.steps.append(Held(uid, attributes))

    def create_again(self, held: Held) -> None:
        given = step(self.explicit)
        self.ask("N-CREATE again", 0x0140, held.uid, create(PUSH_ON, self.next_number(), held.uid, given), 0x0111)

    def claim(self, held: Held) -> None:
        transaction = b"2.25.%d" % self.chance.randrange(10**30, 10**31)
        due = {SCHEDULED: 0x0000, IN_PROGRESS: 0xC302}.get(held.state, 0xC300)
        self.change(held, IN_PROGRESS, transaction, due)
        if due == 0x0000:
            held.transaction = transaction
            held.attributes[STATE] = self.told(STATE, IN_PROGRESS)

    def finish(self, held: Held) -> None:
        state, transaction = self.chance.choice(FINAL), self.transaction_for(held)
        due = self.status_to_finish(held, state, transaction)
        self.change(held, state, transaction, due)
        if due == 0x0000:
            held.attributes[STATE] = self.told(STATE, state)

    def status_to_finish(self, held: Held, state: bytes, transaction: Optional[bytes]) -> int:
        """Returns the status that is due for a change to a final state (PS3.4 table CC.1.1-2)."""
        if transaction is None or held.transaction != transaction:
            return 0xC310 if transaction and held.state == SCHEDULED else 0xC301
        if held.state in FINAL:
            return 0xC300 if held.state != state else 0xB306 if state == COMPLETED else 0xB304
        return 0x0000 if (PERFORMED if state == COMPLETED else PROGRESS) in held.attributes else 0xC304

    def change(self, held: Held, state: bytes, transaction: Optional[bytes], due: int) -> None:
        given = {STATE: state} | ({TRANSACTION: transaction} if transaction else {})
        spelled = act(PULL_ON, self.next_number(), held.uid, 1, self.spelled(given))
        self.ask("Change UPS State", 0x0130, held.uid, spelled, due, 1)

    def transaction_for(self, held: Held) -> Optional[bytes]:
        """Returns a Transaction UID, or None; it is right in most cases."""
        chance = self.chance.random()
        return None if chance < 0.1 else UNLISTED if chance < 0.2 else held.transaction or UNLISTED

    def set(self, held: Held) -> None:
        given, transaction = self.something(), self.transaction_for(held)
        if held.state == SCHEDULED and self.chance.random() < 0.7:
            transaction = None
        due = self.status_to_set(held, given, transaction)
        data_set = self.spelled(given | ({TRANSACTION: transaction} if transaction else {}))
        self.ask("N-SET", 0x0120, held.uid, set_attributes(PULL_ON, self.next_number(), held.uid, data_set), due)
        if due == 0x0000:
            held.attributes |= read(self.explicit, self.spelled(given))

    def status_to_set(self, held: Held, given: dict[Tag, bytes], transaction: Optional[bytes]) -> int:
        """Returns the status that is due for an N-SET (docs/use/conformance.md, "Statuses by the state of the step")."""
        if held.state in FINAL:
            return 0xC300
        if transaction and held.state == SCHEDULED:
            return 0xC310
        if transaction != held.transaction:
            return 0xC301
        return 0x0106 if STATE in given or given.get(PRIORITY) == b"SOON" else 0x0000

    def something(self) -> dict[Tag, bytes]:
        """Returns what an N-SET sets."""
        number = b"%d" % self.chance.randrange(10**6)
        when = b"202402291201%02d" % self.chance.randrange(60)
        performed = self.sequence(((0x0040, 0x4050), b"DT", when), ((0x0040, 0x4051), b"DT", when))
        return self.chance.choice([
            {LABEL: b"LABEL " + number}, {PRIORITY: b"HIGH", LABEL: number}, {PERFORMED: performed}, {PERFORMED: performed},
            {PROGRESS: self.sequence((CANCELLATION_TIME, b"DT", when))}, {PRIORITY: b"SOON"}, {STATE: b"COMPLETED"},
        ])

    def cancel(self, held: Held) -> None:
        """Sends a request to cancel. If that is done, the time that the step then has is taken from an N-GET."""
        due = {COMPLETED: 0xC311, CANCELED: 0xB304}.get(held.state, 0x0000)
        reason = b"REASON%d" % self.chance.randrange(10, 100)
        spelled = act(PUSH_ON, self.next_number(), held.uid, 2, self.spelled({REASON: reason}))
        self.ask("Request UPS Cancel", 0x0130, held.uid, spelled, due, 2)
        if held.state == SCHEDULED:
            held.attributes[STATE] = self.told(STATE, CANCELED)
            held.attributes[PROGRESS] = self.told(PROGRESS, self.cancellation(self.got(held, []), reason))
            self.get(held)

    def cancellation(self, got: Attributes, reason: bytes) -> bytes:
        """Returns the progress information that a request to cancel gives a step."""
        moment = got.get(PROGRESS, (b"", b""))[1][16:36]
        if not re.fullmatch(MOMENT, moment):
            raise Fault(f"Request UPS Cancel, the progress information is {got.get(PROGRESS)!r}")
        return self.sequence((CANCELLATION_TIME, b"DT", moment), (REASON, b"LT", reason))

    def get(self, held: Held) -> None:
        """Checks an N-GET of all attributes, or of some; these may include the Transaction UID, which is never there."""
        asked: list[Tag] = self.chance.choice([[], [], [LABEL, STATE], [SOP_INSTANCE, PERFORMED, STATE], [TRANSACTION, PATIENT]])
        wanted = {it: held.attributes[it] for it in sorted(asked) if it in held.attributes} if asked else held.attributes
        compare(f"N-GET of {held.uid.decode()}", self.got(held, asked), wanted)

    def got(self, held: Held, asked: list[Tag]) -> Attributes:
        due = 0x0000 if all(it in held.attributes for it in asked) else 0x0001
        elements = [(0x0003, even(PUSH)), (0x0100, us(0x0110)), (0x0110, us(self.next_number())), (0x0800, us(0x0101)), (0x1001, even(held.uid))]
        elements += [(0x1005, b"".join(struct.pack("<HH", *it) for it in asked))] if asked else []
        reply = self.ask("N-GET", 0x0110, held.uid, message(PUSH_ON, command(elements)), due)[0]
        return read(self.explicit, reply.data_set or b"")

    def get_unknown(self) -> None:
        self.got_nothing(b"2.25.%d" % (ROOT * 10**7 + 9_999_999))

    def got_nothing(self, uid: bytes) -> None:
        elements = [(0x0003, even(PUSH)), (0x0100, us(0x0110)), (0x0110, us(self.next_number())), (0x0800, us(0x0101)), (0x1001, even(uid))]
        self.ask("N-GET of nothing", 0x0110, uid, message(PUSH_ON, command(elements)), 0xC307)

    def find(self, held: Held) -> None:
        """Checks a C-FIND of one step by its UID, of those of a patient, or of those of some patients by a wild card."""
        patient = held.attributes[PATIENT][1].rstrip()
        ways: list[tuple[Tag, bytes, Callable[[Held], bool]]] = [
            (SOP_INSTANCE, held.uid, lambda it: it is held),
            (PATIENT, patient, lambda it: it.attributes[PATIENT][1].rstrip() == patient),
            (PATIENT, patient[:-1] + b"?", lambda it: patient[:-1] == it.attributes[PATIENT][1].rstrip()[:-1]),
        ]
        key, value, found = self.chance.choice(ways)
        self.found(key, value, [it for it in self.steps if found(it)])

    def found(self, key: Tag, value: bytes, wanted: Iterable[Held]) -> None:
        """Checks that a C-FIND returns these steps, in the order of their creation (PS3.4 CC.2.8)."""
        keys = {it: b"" for it in (SOP_INSTANCE, PATIENT, STATE, LABEL, PERFORMED, TRANSACTION)} | {key: value}
        replies = self.ask("C-FIND", 0x0020, b"", find(PULL_ON, self.next_number(), self.spelled(keys)), 0x0000)
        told = [read(self.explicit, it.data_set or b"") for it in replies[:-1]]
        due = [{tag: it.attributes.get(tag, self.told(tag, b"")) for tag in sorted(keys)} for it in wanted]
        if len(told) != len(due):
            raise Fault(f"C-FIND by {value!r} tells {len(told)} steps and not {len(due)}")
        for one, other in zip(told, due):
            compare(f"C-FIND by {value!r}", one, other)

    # the run, and its audit

    def choose(self) -> None:
        """Sends a request of a random kind."""
        kind = self.chance.random()
        if kind < 0.12 or not self.steps:
            return self.create()
        held = self.chance.choice(self.steps[-30:] if self.chance.random() < 0.8 else self.steps)
        kinds = (self.create_again, self.claim, self.set, self.set, self.set, self.finish, self.finish, self.get, self.get, self.find)
        if kind < 0.16:
            return self.cancel(held)
        return self.get_unknown() if kind < 0.18 else self.chance.choice(kinds)(held)

    @contextlib.contextmanager
    def judged(self) -> Iterator[None]:
        """Counts the requests within, and those that agree. After a fault there is a new association."""
        before = self.replies.total()
        try:
            yield
            self.agreed += self.replies.total() - before
        except (Fault, OSError, EOFError, AssertionError, KeyError, struct.error) as fault:
            if self.replies.total() == before:
                self.replies["none"] += 1
            self.faults.append(f"ledger {self.number}: {fault!r}")
            if self.association:
                self.association.socket.close()
            self.association = None

    def begin(self) -> None:
        """Creates the first step, in an association of its own."""
        with self.judged():
            self.create()
        self.close()

    def run(self, over: threading.Event, pause: float) -> None:
        """Sends requests until it is over, each after a pause."""
        while not over.wait(pause):
            with self.judged():
                self.choose()
        self.close()

    def close(self) -> None:
        """Releases the association, if there is one."""
        with self.judged():
            if self.association:
                self.association.release()
            self.association = None

    def audit(self) -> int:
        """Compares each step with an N-GET, and all of them with C-FINDs; returns how many agree with the N-GET."""
        good = 0
        for held in self.steps:
            before = len(self.faults)
            with self.judged():
                compare(f"in the end, {held.uid.decode()}", self.got(held, []), held.attributes)
            good += len(self.faults) == before
        for patient in {it.attributes[PATIENT][1].rstrip(): it for it in self.steps}:
            with self.judged():
                self.found(PATIENT, patient, [it for it in self.steps if it.attributes[PATIENT][1].rstrip() == patient])
        with self.judged():
            self.found(PATIENT, b"LEDGER%dP*" % self.number, self.steps)
        self.close()
        return good


def compare(name: str, found: Attributes, wanted: Attributes) -> None:
    """Raises Fault with the first difference, if there is one."""
    for tag in sorted(found.keys() | wanted.keys()):
        if found.get(tag) != wanted.get(tag):
            raise Fault(f"{name}: {tag[0]:04X},{tag[1]:04X} is {found.get(tag)!r} and not {wanted.get(tag)!r}")
