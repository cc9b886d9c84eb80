"""Peers that call a listener of the client `ups` as a server does, with reports that are right, and with what strangers may send."""

from __future__ import annotations

import os
import random
import struct
import sys
from typing import NamedTuple, Optional

sys.path.insert(0, os.path.join(os.path.dirname(os.path.dirname(os.path.dirname(os.path.abspath(__file__)))), "check/lib"))
from dicom import EVENT, EXPLICIT, PUSH, associate, command, data, echo, element, even, item, message, pdu, us
from peer import Peer, connect

LIMIT = 30  # seconds for an answer
ACCEPTED, REJECTED, ABORTED = 2, 3, 7  # PDU types
STATE, CANCEL = 1, 2  # Event Type IDs
TITLE_UNKNOWN = bytes([0, 1, 1, 7])  # PS3.8 section 9.3.4: rejected for good, by the user, as the called AE title is not recognized
CALLER_UNKNOWN = bytes([0, 1, 1, 3])  # .. as the calling one is not


def request(called: bytes, calling: bytes = b"UPSD") -> bytes:
    """Returns a request for an association with a presentation context of UPS Event."""
    return associate([(EVENT, EXPLICIT)], calling).replace(b"UPSD".ljust(16), called.ljust(16), 1)


def command_of_report(uid: bytes, event: int) -> list[tuple[int, bytes]]:
    return [(0x0002, even(PUSH)), (0x0100, us(0x0100)), (0x0110, us(7)), (0x0800, us(1)), (0x1000, even(uid)), (0x1002, us(event))]


def without(number: int, uid: bytes = b"1.2.3") -> bytes:
    """Returns the command set of a report without one of its elements."""
    return command([each for each in command_of_report(uid, STATE) if each[0] != number])


def report(uid: bytes, event: int = STATE) -> bytes:
    """Returns a report: that a step is SCHEDULED, or that somebody asks for its cancellation."""
    if event == CANCEL:
        return message(1, command(command_of_report(uid, event)), data(True, 0x0074, 0x1238, b"LT", b"forged"))
    said = data(True, 0x0040, 0x4041, b"CS", even(b"READY", b" ")) + data(True, 0x0074, 0x1000, b"CS", even(b"SCHEDULED", b" "))
    return message(1, command(command_of_report(uid, event)), said)


class Reporter(Peer):
    """A peer that calls a listener, as a server of the title UPSD, from an address of this machine."""

    def __init__(self, port: int, source: Optional[str] = None) -> None:
        self.use(connect(port, LIMIT, source=source))

    def last(self) -> tuple[int, bytes]:
        """Reads PDUs until the connection ends, and returns the last one; 0 if there is none."""
        found = (0, b"")
        try:
            while True:
                found = self.pdu()
        except (EOFError, OSError):
            return found

    def ended(self, sent: bytes) -> tuple[int, bytes]:
        """Sends bytes, and returns the last PDU that comes."""
        try:
            self.socket.sendall(sent)
        except OSError:  # it has ended before
            pass
        found = self.last()
        self.socket.close()
        return found


def told(port: int, title: bytes, uid: bytes, event: int = STATE, source: Optional[str] = None) -> Optional[str]:
    """Sends a right report in the server's title, and returns why it isn't answered with success, or None."""
    try:
        peer = Reporter(port, source)
        peer.socket.sendall(request(title))
        if peer.pdu()[0] != ACCEPTED:
            return "the association is not accepted"
        peer.socket.sendall(report(uid, event))
        status = peer.answer()
        peer.release()
    except (AssertionError, EOFError, OSError) as fault:
        return f"a right report is not answered: {fault!r}"
    return None if status == 0 else f"a right report is answered {status:04X}"


class Stranger(NamedTuple):
    """What a stranger sends, behind the request for an association or alone, and which has to be answered by an A-ABORT."""

    name: str
    sent: bytes
    is_alone: bool = False


ANY = b"?"  # stands for the title of the listener
LONG = 3_000_000  # bytes of a message that is too long
EMPTY = struct.pack(">IBB", 2, 1, 1)  # an empty fragment of a command set, and not the last one
SMALL = struct.pack(">IBB", 3, 1, 1) + b"\0"  # one of one byte
STRANGERS = [
    Stranger("a command set of 12 bytes", message(1, command([]))),
    Stranger("an empty command set", message(1, b"")),
    Stranger("a command set without its data set type", message(1, without(0x0800))),
    Stranger("a command set without a Message ID", message(1, without(0x0110), b"")),
    Stranger("a command set without an event type", message(1, without(0x1002), b"")),
    Stranger("a command set without a step", message(1, without(0x1000), b"")),
    Stranger("a NUL within a UID", message(1, command(command_of_report(b"1.2\0003", STATE)), b"")),
    Stranger("a UID of other characters", message(1, command(command_of_report(b"1.2;\x1b[2J", STATE)), b"")),
    Stranger("an element that is cut off", message(1, command(command_of_report(b"1.2.3", STATE))[:-3], b"")),
    Stranger("a length beyond the command set", message(1, without(0x0800) + struct.pack("<HHI", 0, 0x0800, 1 << 24) + b"\1\1")),
    Stranger("a data set type of three bytes", message(1, without(0x0800) + element(0x0800, b"\1\1\1"))),
    Stranger("an event type of no bytes", message(1, without(0x1002) + element(0x1002, b""), b"")),
    Stranger("an unknown VR in the place of a command set", message(1, b"\x08\0\x05\0ZZ\x04\0ABCD")),
    Stranger("another request", echo(1)),
    Stranger("a data set in the place of a command set", pdu(4, struct.pack(">IBB", 6, 1, 2) + b"ABCD")),
    Stranger("another presentation context", message(9, command(command_of_report(b"1.2.3", STATE)), b"")),
    Stranger("a PDV beyond its PDU", pdu(4, struct.pack(">IBB", 100, 1, 3) + b"ABCD")),
    Stranger("a PDV without a header", pdu(4, struct.pack(">I", 0) * 3)),
    Stranger(f"a command set of {LONG:,} bytes", message(1, bytes(LONG))),
    Stranger(f"a data set of {LONG:,} bytes", message(1, command(command_of_report(b"1.2.3", STATE)), bytes(LONG))),
    Stranger("170,000 empty fragments", pdu(4, EMPTY * 170_000) + message(1, b"")),
    Stranger("2,500,000 fragments of a byte", pdu(4, SMALL * 140_000) * 18),
    Stranger("a PDU of 2 GB", struct.pack(">BBI", 4, 0, 1 << 31)),
    Stranger("a PDU of no type", pdu(0x42, b"ABCD")),
    Stranger("an answer to a request for an association", pdu(2, bytes(68))),
    Stranger("a second request for an association", request(b"UPSD")),
    Stranger("random bytes behind a request", random.Random(1).randbytes(4_000)),
    Stranger("random bytes", random.Random(2).randbytes(4_000), True),
    Stranger("a report without an association", report(b"1.2.3"), True),
    Stranger("a request of 10 bytes", pdu(1, bytes(10)), True),
    Stranger("a request with an item that is cut off", pdu(1, request(ANY)[6:-3]), True),
]


def sent(port: int, title: bytes, stranger: Stranger) -> Optional[str]:
    """Sends what a stranger does, and returns why its association doesn't end as it has to, or None."""
    words = stranger.sent.replace(ANY.ljust(16), title.ljust(16))
    try:
        kind, _ = Reporter(port).ended(words if stranger.is_alone else request(title) + words)
    except OSError as fault:
        return repr(fault)
    return None if kind == ABORTED else f"it ends with a PDU of type {kind}"


def rejected(port: int, called: bytes, calling: bytes, why: bytes) -> Optional[str]:
    """Asks for an association under these titles, and returns why it isn't rejected for this reason, or None."""
    try:
        found = Reporter(port).ended(request(called, calling))
    except OSError as fault:
        return repr(fault)
    return None if found == (REJECTED, why) else f"it ends with {found}"


def acceptance(asked: bytes) -> bytes:
    """Returns the A-ASSOCIATE-AC of a server that accepts four presentation contexts in Explicit VR Little Endian."""
    contexts = b"".join(item(0x21, bytes([number, 0, 0, 0]) + item(0x40, EXPLICIT)) for number in range(1, 8, 2))
    user = item(0x50, item(0x51, struct.pack(">I", 16384)) + item(0x52, b"1.2.3"))
    return pdu(2, asked[:68] + item(0x10, b"1.2.840.10008.3.1.1.1") + contexts + user)


def response(more: list[tuple[int, bytes]], data_set: Optional[bytes] = None) -> bytes:
    """Returns a response of a server, with these elements behind the Message ID."""
    return message(1, command([(0x0120, us(1)), *more]), data_set)


# what a server may send in the place of an answer: a name, the bytes, and what is told
ANSWERS = [
    ("a command set of 12 bytes", message(1, command([])), "without CommandDataSetType"),
    ("a response without a status", response([(0x0800, us(0x0101))]), "without Status"),
    ("a status of one byte", response([(0x0800, us(0x0101)), (0x0900, b"\0")]), "Status can't be read"),
    (f"a data set of {LONG:,} bytes", response([(0x0800, us(1)), (0x0900, us(0xFF00))], bytes(LONG)), "more than 2,097,152 bytes"),
    ("a PDU of no type", pdu(0x42, b"ABCD"), "a PDU of type 42"),
]
