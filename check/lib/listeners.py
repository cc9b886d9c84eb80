"""Watchers that listen for the associations of a server, each kind of which takes reports in a way of its own."""

from __future__ import annotations

import collections
import contextlib
import socket
import struct
import threading
import time
from collections.abc import Iterator, Sequence

from dicom import EXPLICIT, command, item, message, pdu, us
from peer import Peer


class Watcher:
    """A peer that listens: it answers each report with 0000, and remembers when the last one of each step came."""

    def __init__(self, title: str) -> None:
        self.title, self.reports = title, 0
        self.arrived: dict[bytes, float] = {}
        self.listener = socket.create_server(("127.0.0.1", 0))
        self.place = f"127.0.0.1:{self.listener.getsockname()[1]}"
        threading.Thread(target=self.listen, daemon=True).start()

    def listen(self) -> None:
        while True:
            peer = Incoming(self.listener.accept()[0])
            try:
                for step in peer.reports():
                    self.reports += 1
                    self.arrived[step] = time.monotonic()
            except (EOFError, OSError):
                pass
            peer.socket.close()


class Incoming(Peer):
    """An association that the server requests, and the Event Type ID and the Event Information of its last report."""

    def __init__(self, connected: socket.socket) -> None:
        self.use(connected)
        self.event = self.information = b""

    def send(self, message: bytes) -> None:
        self.socket.sendall(message)

    def reports(self) -> Iterator[bytes]:
        """Accepts the association, answers each report, and yields its step."""
        kind, body = self.pdu()
        user = item(0x51, struct.pack(">I", 16384)) + item(0x52, b"1.2.3")
        accepted = item(0x21, bytes([1, 0, 0, 0]) + item(0x40, EXPLICIT))
        self.send(pdu(2, body[:68] + item(0x10, b"1.2.840.10008.3.1.1.1") + accepted + item(0x50, user)))
        while True:
            kind, body = self.pdu()
            if kind == 5:
                self.send(pdu(6, bytes(4)))
                return
            if kind != 4:
                return
            if body[5] & 1:
                elements = body[6:]
                found = {}
                while elements:
                    number, length = struct.unpack("<xxHI", elements[:8])
                    found[number], elements = elements[8:8 + length], elements[8 + length:]
            if body[5] & 2 and not body[5] & 1:
                self.event, self.information = found[0x1002], body[6:]
                answer = [(0x0002, found[0x0002]), (0x0100, us(0x8100)), (0x0120, found[0x0110]), (0x0800, us(0x0101)),
                          (0x0900, us(0)), (0x1000, found[0x1000]), (0x1002, found[0x1002])]
                self.send(message(1, command(answer)))
                yield found[0x1000].rstrip(b"\0")


class Counting:
    """A peer that listens, at a free port or at this one, serves each connection at once, and counts connections and reports."""

    def __init__(self, port: int = 0) -> None:
        self.came: collections.Counter[bytes] = collections.Counter()
        self.first: dict[bytes, float] = {}  # when the first report of each step came
        self.order: list[bytes] = []
        self.open, self.most, self.asked = 0, 0, 0
        self.lock = threading.Lock()
        self.listener = socket.create_server(("127.0.0.1", port))
        self.place = f"127.0.0.1:{self.listener.getsockname()[1]}"
        threading.Thread(target=self.listen, daemon=True).start()

    def listen(self) -> None:
        with contextlib.suppress(OSError):  # until it is closed
            while True:
                threading.Thread(target=self.serve, args=(self.listener.accept()[0],), daemon=True).start()

    def close(self) -> None:
        """Stops listening."""
        with contextlib.suppress(OSError):
            self.listener.shutdown(socket.SHUT_RDWR)
        self.listener.close()

    def serve(self, connected: socket.socket) -> None:
        with self.lock:
            self.open += 1
            self.asked += 1
            self.most = max(self.most, self.open)
        try:
            self.talk(connected)
        except (EOFError, OSError):
            pass
        with self.lock:
            self.open -= 1
        connected.close()

    def take(self, step: bytes) -> None:
        self.came[step] += 1
        if step not in self.first:
            self.first[step] = time.monotonic()
            self.order.append(step)

    def talk(self, connected: socket.socket) -> None:
        for step in self.incoming(connected).reports():
            self.take(step)

    def incoming(self, connected: socket.socket) -> Incoming:
        """Returns the association on a connection."""
        return Incoming(connected)

    def disordered(self, steps: Sequence[bytes]) -> int:
        """Returns how many of the steps came after one that was pushed later."""
        places = [steps.index(step) for step in self.order if step in steps]
        return sum(place < max(places[:at], default=-1) for at, place in enumerate(places))


class Late(Incoming):
    """An association on which each report is taken some seconds after it came."""

    def __init__(self, connected: socket.socket, need: float) -> None:
        self.need = need
        super().__init__(connected)

    def pdu(self) -> tuple[int, bytes]:
        kind, body = super().pdu()
        if kind == 4 and body[5] & 2 and not body[5] & 1:
            time.sleep(self.need)
        return kind, body


class Slow(Counting):
    """A watcher that needs some time before it takes each report."""

    def __init__(self, need: float) -> None:
        self.need = need
        super().__init__()

    def incoming(self, connected: socket.socket) -> Incoming:
        return Late(connected, self.need)


class Silent(Counting):
    """A watcher that says nothing until the connection ends."""

    def talk(self, connected: socket.socket) -> None:
        while connected.recv(4096):
            pass


class Unanswering(Incoming):
    """An association that is accepted, and on which nothing is sent after that."""

    has_accepted = False

    def send(self, message: bytes) -> None:
        if not self.has_accepted:
            super().send(message)
        self.has_accepted = True


class Mute(Counting):
    """A watcher that accepts the association and answers no report."""

    def talk(self, connected: socket.socket) -> None:
        for _ in Unanswering(connected).reports():
            pass


class Declining(Incoming):
    """An association that is accepted without its presentation context."""

    def send(self, message: bytes) -> None:
        super().send(message.replace(b"\x21\x00\x00\x1b\x01\x00\x00\x00", b"\x21\x00\x00\x1b\x01\x00\x03\x00"))


class Refusing(Counting):
    """A watcher that accepts the association and refuses its presentation context."""

    def talk(self, connected: socket.socket) -> None:
        for _ in Declining(connected).reports():
            pass
