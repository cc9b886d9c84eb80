#!/usr/bin/env python3
"""Tries a hospital's day: orders and studies become steps, four performers do them, and the server is killed in the middle.

    trials/hospital.py [PROGRAM [WORD..]] [--orders 200] [--senders 2] [--away 5]      (crates/upsd/out/upsd, which `rt run` builds)

It installs what is missing (`apt-get install -y dcmtk orthanc orthanc-python python3-hl7 python3-pydicom`, which needs root), starts a
server on a store, examples/hl7_steps.py, Orthanc with examples/orthanc_steps.py, four performers (`ups work`) and a watcher (`ups
watch`) on free ports of this machine, and ends by itself.

    orders       order systems (two) send them, each the next one after the answer to the last; what is answered with AE, as while the
                 server is away, is sent again, and some are sent twice
    studies      one becomes stable in Orthanc at the beginning, and one while the server is away
    the middle   once half of the steps are done the server is killed, and some seconds later started again on its store
    in the end   each order and each study is one step, and COMPLETED; the command of the performers ran once for each; the watcher was told of each
                 that it is COMPLETED

It prints a line for each trial, and then `N passed, M failed`; the exit status is 1 if any failed.
"""

from __future__ import annotations

import argparse
import collections
import contextlib
import json
import os
import signal
import subprocess
import sys
import tempfile
import threading
import time
from typing import Any

sys.path.insert(0, os.path.join(os.path.dirname(os.path.dirname(os.path.abspath(__file__))), "check/lib"))
from machine import described, free_port, holds, install
from recipes import CLIENT, ORTHANC, OTHER, PLUGIN, STUDY, Orders, first, message, running, send, steps
from results import Results
from server import Server

ALL = 3_000  # seconds for all trials
PERFORMERS = 4
KEEP = ["--keep", "86400", "--audit"]


class Sending(threading.Thread):
    """An order system, which sends each order until it is taken; each seventh it sends once more."""

    def __init__(self, orders: Orders, numbers: range) -> None:
        super().__init__(daemon=True)
        self.orders, self.numbers = orders, numbers
        self.again = 0
        self.refused: list[str] = []

    def run(self) -> None:
        for number in self.numbers:
            self.send(number)
            if number % 7 == 0:
                self.send(number)

    def send(self, number: int) -> None:
        while True:
            try:
                code = self.orders.send(message("ORM^O01", "NW", number))[0]
            except OSError as fault:
                code = f"AE {fault}"
            if not code.startswith("AE"):
                break
            self.again += 1
            time.sleep(0.5)
        if code != "AA":
            self.refused.append(f"{number}: {code}")


def started(port: int, *words: str, **more: Any) -> subprocess.Popen[str]:
    variables = {"UPS_SERVER": f"127.0.0.1:{port}", "PYTHONIOENCODING": "utf-8"}
    return subprocess.Popen([*CLIENT, *words], env={**os.environ, **variables}, text=True, start_new_session=True, **more)


def lines_of(path: str) -> list[str]:
    if not os.path.exists(path):
        return []
    with open(path, encoding="utf-8") as file:
        return file.read().splitlines()


class Department:
    """The performers and the watcher of a server, with what they write into a folder."""

    def __init__(self, port: int, listen: int, folder: str) -> None:
        self.folder = folder
        script = 'echo "$UPS_STEP" >> "$0"'
        self.running = [started(port, "work", "--ae", f"PERFORM{place}", "--steps", "0", "--every", "0.5", "--timeout",
                                "120", "--", "sh", "-c", script, os.path.join(folder, f"done.{place}"), stdout=subprocess.DEVNULL,
                                stderr=open(os.path.join(folder, f"told.{place}"), "w", encoding="utf-8")) for place in range(PERFORMERS)]
        self.watch = started(port, "watch", "--ae", "WATCH1", "--listen", str(listen), "--json",
                             stdout=open(os.path.join(folder, "reports"), "w", encoding="utf-8"), stderr=subprocess.DEVNULL)

    def done(self) -> list[str]:
        """Returns the steps for which the command of a performer has run."""
        return [uid for place in range(PERFORMERS) for uid in lines_of(os.path.join(self.folder, f"done.{place}"))]

    def told(self) -> set[str]:
        """Returns the steps of which the watcher was told that they are COMPLETED."""
        reports = [json.loads(line) for line in lines_of(os.path.join(self.folder, "reports")) if line.endswith("}")]
        return {it["step"] for it in reports if first(it.get("information", {}), "00741000") == "COMPLETED"}

    def end(self) -> list[int]:
        for it in (*self.running, self.watch):
            if it.poll() is None:
                it.send_signal(signal.SIGTERM if it is not self.watch else signal.SIGINT)
        return [it.wait(60) for it in self.running]


def try_day(results: Results, asked: argparse.Namespace, folder: str) -> None:
    """Has a day pass, with orders, studies, performers and a watcher."""
    file, listen = os.path.join(folder, "upsd.db"), free_port()
    options = [*KEEP, "--store", file, f"WATCH1=127.0.0.1:{listen}"]
    subprocess.run([*asked.program, "init", file], check=True)
    server = Server(asked.program, *options)
    subscribed = subprocess.run([*CLIENT, "subscribe", "--port", str(server.port), "--receiver", "WATCH1"], capture_output=True, text=True)
    results.tell("a watcher subscribes", None if subscribed.returncode == 0 else subscribed.stderr)
    orders, department = Orders(server.port), Department(server.port, listen, folder)
    share = -(-asked.orders // asked.senders)
    senders = [Sending(orders, range(at, min(at + share, asked.orders))) for at in range(0, asked.orders, share)]
    begun = time.monotonic()
    with running(server.port) as orthanc, contextlib.ExitStack() as stack:
        stack.callback(orders.end)
        stack.callback(department.end)
        send(orthanc, STUDY, (1, 1), (1, 2))
        for it in senders:
            it.start()
        half = holds(lambda: len(department.done()) >= asked.orders // 2, ALL / 2)
        results.tell("half of the steps are done", None if half else f"{len(department.done())}")
        server.process.kill()
        server.process.wait()
        send(orthanc, OTHER, (1, 1))
        time.sleep(asked.away)
        server = Server(asked.program, *options, port=server.port)
        for it in senders:
            it.join(ALL / 2)
        compare(results, asked.orders, senders, department, server.port)
        print(f"{asked.orders} orders in {time.monotonic() - begun:.0f} s; {sum(it.again for it in senders)} messages were sent again")
        statuses = department.end()
    server.stop()
    results.tell("the performers end at SIGTERM", None if set(statuses) <= {0, 1, 3} else str(statuses))


def compare(results: Results, count: int, senders: list[Sending], department: Department, port: int) -> None:
    """Compares the orders and the studies with the steps, with what was done, and with what the watcher was told."""
    studies = [STUDY, OTHER]
    all_of_them = count + len(studies)
    refused = [each for it in senders for each in it.refused]
    results.tell("each order was taken", "; ".join(refused[:3]) or ("a sender hangs" if any(it.is_alive() for it in senders) else None))
    holds(lambda: len(set(department.done())) >= all_of_them, ALL / 4)
    holds(lambda: collections.Counter(first(it, "00741000") for it in steps(port))["COMPLETED"] >= all_of_them, 120)
    found = steps(port)
    states = collections.Counter(first(it, "00741000") for it in found)
    results.tell(f"{count} orders and {len(studies)} studies are as many steps, COMPLETED", None if states == {"COMPLETED": all_of_them} else str(states))
    named = sorted(first(it, "0040A370", "0020000D") for it in found if first(it, "0040A370", "00402016") is None)
    results.tell("one for each study", None if named == sorted(studies) else str(named))
    numbers = collections.Counter(number for it in found if (number := first(it, "0040A370", "00402016")))
    wanted = {str(it): 1 for it in range(count)}
    results.tell("one for each order", None if numbers == wanted else str(sorted((wanted.items() ^ numbers.items()))[:5]))
    done = collections.Counter(department.done())
    twice, left = [uid for uid, times in done.items() if times > 1], {first(it, "00080018") for it in found} - set(done)
    results.tell("each was done once", f"twice {twice[:5]}, never {sorted(left)[:5]}" if twice or left else None)
    shares = [len(lines_of(os.path.join(department.folder, f"done.{place}"))) for place in range(PERFORMERS)]
    results.tell(f"by four performers ({shares})", None if all(shares) else "one has done none")
    is_told = holds(lambda: len(department.told()) == all_of_them, 120)
    results.tell("the watcher was told of each", None if is_told else f"of {len(department.told())}")


def main() -> None:
    parser = described(__doc__, "*")
    parser.add_argument("--orders", type=int, default=200, help="how many orders (200)")
    parser.add_argument("--senders", type=int, default=2, help="how many order systems (2)")
    parser.add_argument("--away", type=float, default=5, help="seconds for which the server is away (5)")
    asked = parser.parse_args()
    install({ORTHANC: "orthanc", "storescu": "dcmtk", **({} if os.path.exists(PLUGIN) else {PLUGIN: "orthanc-python"})})
    if subprocess.run([sys.executable, "-c", "import hl7"], stderr=subprocess.DEVNULL, check=False).returncode:
        subprocess.run(["apt-get", "install", "-y", "python3-hl7"], check=True, stdout=subprocess.DEVNULL)
    signal.signal(signal.SIGALRM, lambda *_: sys.exit(f"hospital.py: not done in {ALL} seconds"))
    signal.alarm(ALL)
    results = Results()
    with tempfile.TemporaryDirectory() as folder:
        try_day(results, asked, folder)
    results.end("a hospital's day")


if __name__ == "__main__":
    main()
