"""An association with a server, in one way or another, and the requests that scripts send on it."""

from __future__ import annotations

import contextlib
import dataclasses
import socket
import struct
from typing import Optional

from dicom import (EXPLICIT, IMPLICIT, PULL, PUSH, RELEASE, VERIFICATION, WATCH, Contexts, act, associate, data, even, items,
                   set_attributes, step, us)

CONTEXTS = [(PUSH, EXPLICIT), (PULL, EXPLICIT), (VERIFICATION, EXPLICIT)]
PUSH_ON, PULL_ON, ECHO_ON = 1, 3, 5  # the presentation contexts of a Peer
WATCH_ON = 5  # in place of ECHO_ON, for an Asker
FOLLOWS = 0xFF00
GLOBAL = b"1.2.840.10008.5.1.4.34.5"
FILTERED = b"1.2.840.10008.5.1.4.34.5.1"
NO_DATA_SET = us(0x0101)


@dataclasses.dataclass
class Reply:
    """A response: its command set, and its data set if one follows."""

    elements: dict[int, bytes]
    data_set: Optional[bytes]

    @property
    def status(self) -> int:
        status: int = struct.unpack("<H", self.elements[0x0900])[0]
        return status


class Peer:
    """An association with the server, and the data sets of the responses to its last request."""

    def __init__(self, port: int, contexts: Contexts = CONTEXTS, title: bytes = b"BENCH", seconds: float = 60) -> None:
        self.use(socket.create_connection(("127.0.0.1", port), seconds))
        self.socket.setsockopt(socket.IPPROTO_TCP, socket.TCP_NODELAY, 1)
        self.associate(contexts, title)

    def use(self, connected: socket.socket) -> None:
        """Uses a connection from which nothing has been read yet."""
        self.socket, self.left = connected, b""
        self.sets: list[bytes] = []

    def associate(self, contexts: Contexts, title: bytes = b"BENCH") -> None:
        """Requests an association, which must be accepted."""
        self.socket.sendall(associate(contexts, title))
        assert self.pdu()[0] == 2, "the association is not accepted"

    def take(self, count: int) -> bytes:
        while len(self.left) < count:
            more = self.socket.recv(65536)
            if not more:
                raise EOFError("the server hung up")
            self.left += more
        taken, self.left = self.left[:count], self.left[count:]
        return taken

    def pdu(self) -> tuple[int, bytes]:
        """Reads a PDU, and returns its type and its content."""
        head = self.take(6)
        return head[0], self.take(struct.unpack(">I", head[2:])[0])

    def fragments(self, of_command: bool) -> bytes:
        """Reads the PDVs of a command set or a data set, and returns its bytes."""
        found = b""
        while True:
            kind, body = self.pdu()
            assert kind == 4, kind
            while body:
                length = struct.unpack(">I", body[:4])[0]
                control, body, found = body[5], body[4 + length:], found + body[6:4 + length]
                assert bool(control & 1) == of_command
                if control & 2:
                    return found

    def reply(self) -> Reply:
        """Reads a response with its data set."""
        elements, command = {}, self.fragments(True)
        while command:
            number, length = struct.unpack("<xxHI", command[:8])
            elements[number], command = command[8:8 + length], command[8 + length:]
        return Reply(elements, None if elements[0x0800] == NO_DATA_SET else self.fragments(False))

    def answer(self) -> int:
        """Reads a response with its data set, and returns its status."""
        return self.reply().status

    def ask(self, message: bytes) -> int:
        """Sends a request, and returns the status of its last response."""
        self.sets = []
        self.socket.sendall(message)
        while True:
            reply = self.reply()
            self.sets += [] if reply.data_set is None else [reply.data_set]
            if reply.status != FOLLOWS:
                return reply.status

    def release(self) -> None:
        self.socket.sendall(RELEASE)
        assert self.pdu()[0] == 6
        self.socket.close()


class Caller(Peer):
    """An association with a time limit for each answer, and the same one or a shorter one to connect. Without presentation
    contexts it is not requested yet."""

    def __init__(self, port: int, seconds: float, contexts: Optional[Contexts] = ((VERIFICATION, IMPLICIT),),
                 buffer: Optional[int] = None, to_connect: Optional[float] = None, source: Optional[str] = None) -> None:
        self.use(connect(port, to_connect or seconds, buffer, source))
        self.socket.settimeout(seconds)
        if contexts:
            self.associate(contexts)


def connect(port: int, seconds: float, buffer: Optional[int] = None, source: Optional[str] = None) -> socket.socket:
    """Returns a connection with a port of this machine, with a time limit; its buffer for what it reads may be small, and it
    may come from another address of this machine."""
    it = socket.socket()
    if source:
        it.bind((source, 0))
    if buffer:
        it.setsockopt(socket.SOL_SOCKET, socket.SO_RCVBUF, buffer)
    it.settimeout(seconds)
    it.connect(("127.0.0.1", port))
    return it


READS_ON, HANGS_UP, RESETS, STAYS_SILENT = "reads on", "hangs up", "resets", "stays silent"


class Speaker:
    """A peer by the bytes that it says on a connection, the way in which it ends that, and what it hears until then.

    It closes its side and reads on until the server hangs up, or stays silent and reads on, or hangs up, or resets the
    connection.
    """

    def __init__(self, said: bytes, way: str) -> None:
        self.said, self.way, self.heard = said, way, b""

    def end(self, connection: socket.socket) -> None:
        """Ends the connection in its way. Raises OSError if the server resets it, or says nothing within its time limit."""
        if self.way == RESETS:
            connection.setsockopt(socket.SOL_SOCKET, socket.SO_LINGER, struct.pack("ii", 1, 0))
        if self.way == READS_ON:
            with contextlib.suppress(OSError):  # the server has reset it already
                connection.shutdown(socket.SHUT_WR)
        while self.way in (READS_ON, STAYS_SILENT) and (more := connection.recv(65536)):
            self.heard += more


def told(group: int, number: int, vr: bytes, value: bytes) -> bytes:
    """Returns an element of a data set, padded."""
    return data(True, group, number, vr, even(value, b"\0" if vr == b"UI" else b" "))


def a_step(patient: bytes) -> bytes:
    return step(True, {(0x0010, 0x0020): (b"LO", even(patient, b" "))})


def claim(number: int, instance: bytes, transaction: bytes) -> bytes:
    change = told(0x0008, 0x1195, b"UI", transaction) + told(0x0074, 0x1000, b"CS", b"IN PROGRESS")
    return act(PULL_ON, number, instance, 1, change)


def finish(number: int, instance: bytes, transaction: bytes) -> bytes:
    change = told(0x0008, 0x1195, b"UI", transaction) + told(0x0074, 0x1000, b"CS", b"CANCELED")
    return act(PULL_ON, number, instance, 1, change)


def progress(number: int, instance: bytes, transaction: bytes) -> bytes:
    when = told(0x0040, 0x4052, b"DT", b"20240229120300")
    sequence = data(True, 0x0074, 0x1002, b"SQ", items([when]))
    return set_attributes(PULL_ON, number, instance, told(0x0008, 0x1195, b"UI", transaction) + sequence)


class Asker(Peer):
    """An association that has a presentation context for watching too."""

    def __init__(self, port: int) -> None:
        self.accepted = 0
        super().__init__(port, [(PUSH, EXPLICIT), (PULL, EXPLICIT), (WATCH, EXPLICIT)])

    def do(self, request: bytes) -> None:
        """Sends a request that must be accepted."""
        status = self.ask(request)
        assert status in (0, 1), f"{status:04X}"
        self.accepted += 1

    def count(self, request: bytes) -> int:
        """Sends a query, and returns how many answers it has before the last."""
        self.socket.sendall(request)
        answers = 0
        while self.answer() == FOLLOWS:
            answers += 1
        return answers


def subscribe(place: bytes, title: bytes, lock: bytes, more: bytes = b"") -> bytes:
    lock = told(0x0074, 0x1230, b"LO", lock)
    return act(WATCH_ON, 1, place, 3, more + lock + told(0x0074, 0x1234, b"AE", title))


def unsubscribe(place: bytes, title: bytes) -> bytes:
    return act(WATCH_ON, 1, place, 4, told(0x0074, 0x1234, b"AE", title))
