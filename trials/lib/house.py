#!/usr/bin/env python3
"""Keeps a full house: associations that ask often enough that none makes way, until standard input ends.

    trials/lib/house.py PORT [--guests 16] [--every 5] [--create]

It prints a line once each has an answer, and for each that ends.
"""

from __future__ import annotations

import argparse
import os
import socket
import struct
import sys
import threading
import time
from collections.abc import Callable

sys.path.insert(0, os.path.join(os.path.dirname(os.path.dirname(os.path.dirname(os.path.abspath(__file__)))), "check/lib"))
from dicom import EXPLICIT, PUSH, VERIFICATION, associate
from stored import Client, a_step_of

FAULTS = (OSError, EOFError, AssertionError, KeyError, struct.error)
CALLED = b"UPSD"


class Guest(Client):
    """An association for steps and echoes, over a connection of its own, with a server of any title."""

    def __init__(self, connected: socket.socket, title: bytes, called: bytes) -> None:
        self.number = 0
        self.use(connected)
        contexts = [(PUSH, EXPLICIT), (PUSH, EXPLICIT), (PUSH, EXPLICIT), (VERIFICATION, EXPLICIT)]  # the last one is that of an echo
        connected.sendall(associate(contexts, title).replace(CALLED.ljust(16), called.ljust(16), 1))
        assert self.pdu()[0] == 2, "the association is not accepted"


class House:
    """Guests, each with a thread. `calls` has for each how it connects, its title and the title that it calls."""

    def __init__(self, calls: list[tuple[Callable[[], socket.socket], bytes, bytes]], every: float = 5.0, creates: bool = False) -> None:
        self.every, self.creates, self.over = every, creates, threading.Event()
        self.answers = [0] * len(calls)
        self.faults: list[str] = []
        self.threads = [threading.Thread(target=self.stay, args=(at, *call), daemon=True) for at, call in enumerate(calls)]
        for it in self.threads:
            it.start()

    def stay(self, at: int, connect: Callable[[], socket.socket], title: bytes, called: bytes) -> None:
        """Asks again and again, as one guest."""
        try:
            guest = Guest(connect(), title, called)
            while not self.over.is_set():
                if self.creates:
                    guest.create(b"1.2.77.%d.%d.%d" % (time.time_ns() // 1000, at, self.answers[at]), a_step_of(b"HOUSE"))
                else:
                    guest.echo()
                self.answers[at] += 1
                self.over.wait(self.every)
            guest.socket.close()
        except FAULTS as fault:
            self.faults.append(f"guest {at}: {fault!r}")

    def count(self) -> int:
        """Returns how many guests have had an answer."""
        return sum(it > 0 for it in self.answers)

    def stop(self) -> None:
        self.over.set()
        for it in self.threads:
            it.join(self.every + 5)


def main() -> None:
    about, _, more = (__doc__ or "").partition("\n\n")
    asked = argparse.ArgumentParser(description=about, epilog=more, formatter_class=argparse.RawDescriptionHelpFormatter)
    asked.add_argument("port", type=int)
    asked.add_argument("--guests", type=int, default=16, help="how many associations (%(default)s)")
    asked.add_argument("--every", type=float, default=5.0, help="seconds between two requests of one (%(default)s)")
    asked.add_argument("--create", action="store_true", help="each request is an N-CREATE, which waits for the store, and not an echo")
    given = asked.parse_args()
    house = House([(lambda: socket.create_connection(("127.0.0.1", given.port), 60), b"GUEST%d" % at, CALLED) for at in range(given.guests)],
                  given.every, given.create)
    def ends() -> None:
        sys.stdin.read()
        house.over.set()

    threading.Thread(target=ends, daemon=True).start()
    while house.count() < given.guests and not house.over.wait(0.1) and not given.create:
        pass
    print(f"{house.count()} guests", flush=True)
    house.over.wait()
    for it in house.faults:
        print(it, flush=True)


if __name__ == "__main__":
    main()
