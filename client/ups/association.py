"""Associations, as requestor or acceptor (PS3.8)."""

from __future__ import annotations

import argparse
import contextlib
import itertools
import socket
import struct
import time
from typing import Any, Iterator, NoReturn, Optional

from pydicom.dataset import Dataset

from ups import tls, tracing
from ups.datasets import read, spelled
from ups.faults import Broken, Over, Refused, Unexpected, why
from ups.messages import command_of, command_set, number_of_command
from ups.pdus import (
    ABORT, APPLICATION_CONTEXT, ASSOCIATE_AC, ASSOCIATE_RJ, ASSOCIATE_RQ, EVENT_ROLE, IMPLEMENTATION, LONGEST, P_DATA_TF,
    RELEASE_RP, RELEASE_RQ, contexts_of, fragments, item, items, longest_of, pdu, unpacked)
from ups.terms import EVENT, EXPLICIT, IMPLICIT, PENDING

MOST_TAKEN = 2_097_152  # bytes of the longest command set or data set that this side receives


class Association:
    """An association, as requestor or acceptor (PS3.8). Its messages are command sets and data sets (PS3.7)."""

    def __init__(self, connection: socket.socket, asked: argparse.Namespace, place: str) -> None:
        self.connection, self.patience, self.place = connection, asked.timeout, place
        self.begun = asked.begun if asked.verbose else None
        self.implicit = asked.implicit
        self.syntax = IMPLICIT if asked.implicit else EXPLICIT
        self.received, self.at = bytearray(), 0
        self.contexts: dict[str, int] = {}
        self.accepted: dict[int, tuple[str, bool]] = {}  # the SOP class of each context, and whether it is in Implicit VR
        self.longest, self.most = LONGEST, MOST_TAKEN
        self.fragments: Iterator[tuple[int, int, bytes]] = iter(())
        self.numbers = itertools.count(1)
        self.wait_anew()
        self.trace(tls.told(connection))

    def trace(self, words: str) -> None:
        """Tells of the association, with -v."""
        if words and self.begun is not None:
            tracing.trace(self.begun, self.place, words)

    def wait_anew(self) -> None:
        """Gives the peer as many seconds again for what comes next, in however many pieces."""
        self.deadline = time.monotonic() + self.patience

    def send_pdu(self, kind: int, body: bytes) -> None:
        self.trace(f"-> {tracing.words_of(kind, body)}" if self.begun is not None else "")
        try:
            self.connection.settimeout(self.patience)
            self.connection.sendall(pdu(kind, body))
        except OSError as fault:
            raise Broken(why(fault)) from None
        self.wait_anew()

    def receive(self) -> None:
        """Receives what there is. Raises Broken if what is awaited isn't there in time."""
        if (left := self.deadline - time.monotonic()) <= 0:
            raise Broken("timed out")
        try:
            self.connection.settimeout(left)
            more = self.connection.recv(1 << 16)
        except OSError as fault:
            raise Broken(why(fault)) from None
        if not more:
            raise Broken("the connection was closed")
        del self.received[: self.at]
        self.received += more
        self.at = 0

    def take(self, count: int) -> bytes:
        while len(self.received) - self.at < count:
            self.receive()
        self.at += count
        return bytes(self.received[self.at - count : self.at])

    def pdu(self) -> tuple[int, bytes]:
        kind, _, length = unpacked(">BBI", self.take(6))
        if length > 1 << 20:
            raise Unexpected(f"a PDU of {length:,} bytes")
        body = self.take(length)
        self.trace(f"<- {tracing.words_of(kind, body)}" if self.begun is not None else "")
        if kind in (ABORT, ASSOCIATE_RJ) and length != 4:
            raise Unexpected(f"a PDU of type {kind:02X} with {length} bytes")
        if kind == ABORT:
            raise Over(f"the association was aborted (source {body[2]}, reason {body[3]})")
        return kind, body

    def end(self, kind: int, body: bytes) -> None:
        """Sends a last PDU, and drops what comes for a second: bytes that nobody reads would take the PDU from the peer."""
        deadline = time.monotonic() + 1
        self.trace(f"-> {tracing.words_of(kind, body)}" if self.begun is not None else "")
        with contextlib.suppress(OSError):
            self.connection.settimeout(1)
            self.connection.sendall(pdu(kind, body))
            self.connection.shutdown(socket.SHUT_WR)
            while (left := deadline - time.monotonic()) > 0:
                self.connection.settimeout(left)
                if not self.connection.recv(1 << 16):
                    return

    def abort(self) -> None:
        """Ends the association by an A-ABORT of this side (PS3.8 section 9.3.8)."""
        self.end(ABORT, bytes(4))

    def propose(self, called: str, calling: str, classes: list[str], syntaxes: tuple[str, ...] = (), roles: bytes = b"") -> None:
        """Requests an association, with these transfer syntaxes (default: that of this side) and role selections."""
        body = struct.pack(">HH", 1, 0) + called.encode().ljust(16) + calling.encode().ljust(16) + bytes(32)
        body += item(0x10, APPLICATION_CONTEXT.encode())
        offered = b"".join(item(0x40, each.encode()) for each in syntaxes or (self.syntax,))
        for place, each in enumerate(classes):
            self.contexts[each] = 2 * place + 1
            body += item(0x20, bytes([2 * place + 1, 0, 0, 0]) + item(0x30, each.encode()) + offered)
        body += item(0x50, item(0x51, struct.pack(">I", LONGEST)) + item(0x52, IMPLEMENTATION.encode()) + roles)
        self.send_pdu(ASSOCIATE_RQ, body)
        kind, answer = self.pdu()
        if kind == ASSOCIATE_RJ:
            raise Over(f"the association was rejected (result {answer[1]}, source {answer[2]}, reason {answer[3]})")
        if kind != ASSOCIATE_AC:
            raise Unexpected(f"the association was answered with a PDU of type {kind:02X}")
        self.longest = longest_of(answer)
        results = {content[0]: content for content in contexts_of(answer, 0x21)}
        for each, context in self.contexts.items():
            if context not in results or results[context][2]:
                raise Unexpected(f"the presentation context of {each} was not accepted")
            self.implicit = dict(items(results[context][4:])).get(0x40, b"").rstrip(b"\0") == IMPLICIT.encode()

    def accept(self, asked: bytes, classes: tuple[str, ...] = (EVENT,), syntaxes: tuple[str, ...] = (), roles: bytes = EVENT_ROLE) -> None:
        """Accepts each presentation context of these SOP classes in the first of these transfer syntaxes (default: that of this side)
        that it has, and no other; by default those of UPS Event, as its SCU."""
        self.longest = longest_of(asked)
        answers = []
        for content in contexts_of(asked, 0x20):
            words = [(kind, uid.rstrip(b"\0").decode("latin-1")) for kind, uid in items(content[4:])]
            found = [(each, it) for each in classes for it in syntaxes or (self.syntax,) if (0x30, each) in words and (0x40, it) in words]
            syntax = found[0][1] if found else self.syntax
            if found:
                self.accepted[content[0]] = found[0][0], syntax == IMPLICIT
            answers.append(item(0x21, bytes([content[0], 0, 0 if found else 3, 0]) + item(0x40, syntax.encode())))
        more = item(0x50, item(0x51, struct.pack(">I", LONGEST)) + item(0x52, IMPLEMENTATION.encode()) + roles)
        self.send_pdu(ASSOCIATE_AC, asked[:68] + item(0x10, APPLICATION_CONTEXT.encode()) + b"".join(answers) + more)

    def reject(self, reason: int, why: str) -> NoReturn:
        """Rejects the association for good, as its user (PS3.8 section 9.3.4), and raises Over."""
        self.end(ASSOCIATE_RJ, bytes([0, 1, 1, reason]))
        raise Over(f"{why}: rejected (result 1, source 1, reason {reason})")

    def send(self, context: int, elements: dict[str, Any], given: Optional[Dataset] = None) -> None:
        command = command_set({**elements, "CommandDataSetType": 0x0101 if given is None else 1})
        for control, part in ((1, command), (0, None if given is None else spelled(given, self.implicit))):
            if part is not None:
                self.send_part(context, control, part)

    def send_part(self, context: int, control: int, part: bytes) -> None:
        """Sends a command set or a data set in fragments."""
        size = (self.longest - 6) // 2 * 2
        pieces = [part[at : at + size] for at in range(0, len(part), size)] or [b""]
        for place, piece in enumerate(pieces):
            last = 2 if place == len(pieces) - 1 else 0
            self.send_pdu(P_DATA_TF, struct.pack(">IBB", len(piece) + 2, context, control | last) + piece)

    def part(self, kind_of_part: int) -> Optional[tuple[int, bytes]]:
        """Receives a command set (1) or a data set (0), `most` bytes at most: the presentation context ID and the bytes; None if the
        peer releases."""
        whole = bytearray()
        contexts: set[int] = set()
        while True:
            for context, control, piece in self.fragments:
                contexts.add(context)
                if control & 1 != kind_of_part or len(contexts) > 1:
                    raise Unexpected("fragments of different messages in one another")
                whole += piece
                if len(whole) > self.most:
                    raise Unexpected(f"a message of more than {self.most:,} bytes")
                if control & 2:
                    return context, bytes(whole)
            kind, body = self.pdu()
            if kind == RELEASE_RQ and not contexts:
                self.send_pdu(RELEASE_RP, bytes(4))
                return None
            if kind != P_DATA_TF:
                raise Unexpected(f"a PDU of type {kind:02X} in the place of a message")
            self.fragments = fragments(body)

    def message(self) -> Optional[tuple[int, Dataset, Optional[bytes]]]:
        """Receives a message: the presentation context ID, the command set and the data set, if any; None if the peer releases."""
        self.wait_anew()
        found = self.part(1)
        if found is None:
            return None
        context, content = found
        command = command_of(content)
        if number_of_command(command, "CommandDataSetType") == 0x0101:
            return context, command, None
        data = self.part(0)
        if data is None:
            raise Unexpected("a release in the place of a data set")
        if data[0] != context:
            raise Unexpected("a data set on another presentation context than its command set")
        return context, command, data[1]

    def answers(self, context: str, elements: dict[str, Any],
                given: Optional[Dataset] = None) -> Iterator[tuple[Dataset, Optional[bytes]]]:
        """Sends a request, and yields its responses: the command set, and the bytes of the data set, if any."""
        self.send(self.contexts[context], {**elements, "MessageID": next(self.numbers)}, given)
        while True:
            answer = self.message()
            if answer is None:
                raise Over("a release in the place of a response")
            status = number_of_command(answer[1], "Status")
            yield answer[1], answer[2]
            if status not in PENDING:
                return

    def ask(self, context: str, elements: dict[str, Any],
            given: Optional[Dataset] = None) -> list[tuple[Dataset, Optional[Dataset]]]:
        """Sends a request, and returns its responses."""
        answers = self.answers(context, elements, given)
        return [(command, None if data is None else read(data, self.implicit)) for command, data in answers]

    def status_of(self, context: str, elements: dict[str, Any], given: Optional[Dataset] = None) -> int:
        """Sends a request, and returns the status of its last response."""
        return number_of_command(self.ask(context, elements, given)[-1][0], "Status")

    def release(self) -> None:
        self.send_pdu(RELEASE_RQ, bytes(4))
        self.pdu()


@contextlib.contextmanager
def connected(host: str, port: int, asked: argparse.Namespace) -> Iterator[Association]:
    """Yields a connection for an association, which ends by an A-ABORT if its peer sends what can't be read. What is the peer's fault
    has its host and port in front."""
    place = f"[{host}]:{port}" if ":" in host else f"{host}:{port}"
    try:
        with opened(host, port, asked) as connection:
            association = Association(connection, asked, place)
            try:
                yield association
            except Refused as fault:
                if not isinstance(fault, Over):
                    association.abort()
                raise
    except (Over, Unexpected) as fault:
        raise type(fault)(f"{place}: {fault}") from None


def opened(host: str, port: int, asked: argparse.Namespace) -> socket.socket:
    """Opens a connection, by TLS if that is asked for."""
    try:
        connection = socket.create_connection((host, port), asked.timeout)
    except OSError as fault:
        raise Broken(why(fault)) from None
    except UnicodeError:
        raise Refused(f"{host!r} is no name of a host") from None
    connection.setsockopt(socket.IPPROTO_TCP, socket.TCP_NODELAY, 1)
    return tls.opened(connection, asked, host) if tls.is_asked(asked) else connection


@contextlib.contextmanager
def associated(asked: argparse.Namespace, classes: list[str]) -> Iterator[Association]:
    """Yields an association with the server, and releases it at the end."""
    with connected(asked.host, asked.port, asked) as association:
        association.propose(asked.called, asked.ae, classes)
        yield association
        association.release()
