#!/usr/bin/env python3
"""Measures requests over a network with a delay: DCMTK's `echoscu`, in one association with `upsd serve`.

    bench/delay.py [PROGRAM] [--delays 0 1 20] [--count 100]

The client runs in a network namespace of its own. Two TUN devices lie between it and the server, and this script carries
their packets, each after the delay (in milliseconds, each way). So both ends use the system's TCP, and a kernel without
`netem` will do. It has to run as root.

DCMTK sends a request in two parts. With its default settings the second waits until the first is acknowledged; with
TCP_NODELAY set it doesn't. Both are measured: the milliseconds of a request, next to those of a round trip.
"""

import contextlib
import fcntl
import heapq
import os
import re
import select
import shutil
import struct
import subprocess
import sys
import threading
import time
from collections.abc import Iterator

sys.path.insert(0, os.path.join(os.path.dirname(os.path.dirname(os.path.abspath(__file__))), "check/lib"))
from machine import described
from server import Server

NAMESPACE, HERE, THERE = "upsd-delay", "10.213.77.1", "10.213.77.2"
DEVICES = ("upsd0", "upsd1")
TUNSETIFF, IFF_TUN_NO_PI = 0x400454CA, 0x1001


def ip(*words: str, check: bool = True) -> None:
    """Runs `ip`."""
    subprocess.run(["ip", *words], check=check, stderr=None if check else subprocess.DEVNULL)


def device(name: str) -> int:
    """Makes a TUN device, and returns its file."""
    file = os.open("/dev/net/tun", os.O_RDWR)
    fcntl.ioctl(file, TUNSETIFF, struct.pack("16sH", name.encode(), IFF_TUN_NO_PI))
    return file


class Carrier:
    """Carries packets from either device to the other, each after a delay."""

    def __init__(self, files: tuple[int, int], delay: float) -> None:
        self.files, self.delay = files, delay
        self.ended = threading.Event()
        self.thread = threading.Thread(target=self.run, daemon=True)
        self.thread.start()

    def run(self) -> None:
        waiting: list[tuple[float, int, int, bytes]] = []
        number = 0
        while not self.ended.is_set():
            pause = max(0.0, waiting[0][0] - time.monotonic()) if waiting else 0.1
            for file in select.select(self.files, [], [], min(pause, 0.1))[0]:
                packet = os.read(file, 65536)
                other = self.files[1 - self.files.index(file)]
                number += 1
                heapq.heappush(waiting, (time.monotonic() + self.delay, number, other, packet))
            while waiting and waiting[0][0] <= time.monotonic():
                _, _, file, packet = heapq.heappop(waiting)
                os.write(file, packet)

    def end(self) -> None:
        self.ended.set()
        self.thread.join()


@contextlib.contextmanager
def network(delay: float) -> Iterator[None]:
    """Makes a namespace that is reached after a delay, in seconds."""
    ip("netns", "del", NAMESPACE, check=False)
    files = device(DEVICES[0]), device(DEVICES[1])
    try:
        ip("netns", "add", NAMESPACE)
        ip("link", "set", DEVICES[1], "netns", NAMESPACE)
        ip("addr", "add", HERE, "peer", THERE, "dev", DEVICES[0])
        ip("link", "set", DEVICES[0], "up")
        ip("-n", NAMESPACE, "addr", "add", THERE, "peer", HERE, "dev", DEVICES[1])
        ip("-n", NAMESPACE, "link", "set", DEVICES[1], "up")
        carrier = Carrier(files, delay)
        try:
            yield
        finally:
            carrier.end()
    finally:
        ip("netns", "del", NAMESPACE, check=False)
        for file in files:
            os.close(file)


def round_trip() -> float:
    """Returns the milliseconds of a round trip by `ping`, the average of five."""
    told = subprocess.run(["ip", "netns", "exec", NAMESPACE, "ping", "-q", "-c", "5", "-i", "0.2", HERE], capture_output=True, text=True)
    found = re.search(r"= [\d.]+/([\d.]+)/", told.stdout)
    return float(found[1]) if found else float("nan")


def took(count: int, port: int, quick: bool) -> float:
    """Returns the milliseconds of a C-ECHO, the average of `count` in one association."""
    environment = {**os.environ, **({"TCP_NODELAY": "1"} if quick else {})}
    command = ["ip", "netns", "exec", NAMESPACE, "echoscu", "--repeat", str(count), "-aec", "UPSD", HERE, str(port)]
    begun = time.monotonic()
    subprocess.run(command, check=True, env=environment, stdout=subprocess.DEVNULL, stderr=subprocess.DEVNULL)
    return (time.monotonic() - begun) * 1000 / count


def measure(program: str, delay: float, count: int) -> list[str]:
    """Returns the cells of one delay."""
    with network(delay / 1000), Server([program], "--bind", "0.0.0.0") as server:
        cells = [f"{round_trip():.1f}" if shutil.which("ping") else f"{2 * delay:.1f}"]
        return cells + [f"{took(count, server.port, quick):.1f}" for quick in (False, True)]


def main() -> None:
    asked = described(__doc__, "?")
    asked.add_argument("--delays", nargs="+", type=float, default=[0, 1, 20])
    asked.add_argument("--count", type=int, default=100)
    given = asked.parse_args()
    columns = [measure(given.program, delay, given.count) for delay in given.delays]
    rows = ["a round trip", "C-ECHO, default settings", "C-ECHO, TCP_NODELAY"]
    print(f"| milliseconds | {' | '.join(f'{delay:g} ms each way' for delay in given.delays)} |")
    print("|---" * (len(given.delays) + 1) + "|")
    for row, name in enumerate(rows):
        print(f"| {name} | {' | '.join(column[row] for column in columns)} |")


if __name__ == "__main__":
    main()
