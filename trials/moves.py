#!/usr/bin/env python3
"""Tries watchers that move while the server runs: the file of `--peers` has another host or port of theirs.

    trials/moves.py [PROGRAM]      (default: crates/upsd/out/upsd)

W1 moves from one port to another, and W2 from one where nobody listens, so that it is away: each event has to come at the new
one, that of W2 long before its pause is over. A file with a wrong line, one that is missing, and one that names other titles,
rights and retired watchers moves nobody, which the log has to say once. A move in the same file as these counts. No pipe is read
again.

It prints a line for each check, and then `N passed, M failed`. The status is 1 if any failed.
"""

from __future__ import annotations

import os
import subprocess
import sys
import tempfile
import time
from typing import Optional

sys.path[:0] = [os.path.join(os.path.dirname(os.path.dirname(os.path.abspath(__file__))), it) for it in ("check/lib", "trials")]
from listeners import Counting
from machine import arguments, free_port, holds
from peer import GLOBAL
from results import Results
from server import Server
from stored import Client, a_step_of

LOOK = 10  # seconds between two looks into the file
AWAY = 35  # seconds after which a pause of a watcher that is away is 16 seconds at least
WITHIN = LOOK + 5.0
NO_LOCK = b"FALSE"


class Trial:
    """A server, its file of peers, and what passed and failed."""

    def __init__(self, program: str, folder: str, results: Results) -> None:
        self.path, self.results, self.steps = os.path.join(folder, "peers"), results, 0
        self.old, self.new, self.late = Counting(), Counting(), Counting()
        self.nobody = free_port()
        self.write(f"W1={self.old.place}", f"W2=127.0.0.1:{self.nobody}", "W3=-", "W4=localhost:104")
        self.server = Server([program], "--idle", "0", "--peers", self.path)
        self.client = Client(self.server.port)

    def write(self, *lines: str) -> None:
        """Puts a file in the place of the file of peers, as an editor does."""
        with open(f"{self.path}.new", "w", encoding="utf-8") as file:
            file.write("".join(f"{line}\n" for line in lines))
        os.replace(f"{self.path}.new", self.path)

    def told(self, text: str) -> int:
        return sum(text in line for line in self.server.log)

    def is_told(self, name: str, text: str) -> None:
        """Checks that the log comes to have a line, and has it once two looks later."""
        holds(lambda: self.told(text) > 0, WITHIN)
        time.sleep(LOOK * 2 if self.told(text) else 0)
        self.results.tell(name, None if self.told(text) == 1 else f"{self.told(text)} lines with {text!r}")

    def create(self) -> bytes:
        self.steps += 1
        step = b"1.2.3.%d" % self.steps
        self.client.create(step, a_step_of(b"P1"))
        return step

    def comes(self, name: str, watcher: Counting, step: bytes) -> None:
        """Checks that a step's report comes to a watcher."""
        holds(lambda: watcher.came[step] > 0, WITHIN)
        self.results.tell(name, None if watcher.came[step] == 1 else f"{watcher.came[step]} reports of {step.decode()}")


def try_moves(trial: Trial) -> None:
    """Moves a watcher that is there, and one that is away."""
    for title in (b"W1", b"W2"):
        status = trial.client.subscribe(GLOBAL, title, NO_LOCK)
        trial.results.tell(f"{title.decode()} is subscribed", f"{status:04X}" if status else None)
    first = trial.create()
    trial.comes("a report comes where the file says at the start", trial.old, first)
    time.sleep(AWAY)
    trial.write(f"W1={trial.new.place}", f"W2={trial.late.place}", "W3=-", "W4=localhost:104")
    moved = time.monotonic()
    trial.comes("a watcher that was away gets what waits at its new port", trial.late, first)
    trial.results.tell("at once", None if time.monotonic() - moved < LOOK + 3 else f"after {time.monotonic() - moved:.0f} s")
    trial.is_told("a move is told", f"watcher W1: its reports go to {trial.new.place} now")
    second = trial.create()
    trial.comes("the next report comes at the new port", trial.new, second)
    trial.results.tell("and not at the old one", None if not trial.old.came[second] else "it does")


def try_faults(trial: Trial) -> None:
    """Writes files that move nobody, and one that names more than moves."""
    trial.write(f"W1={trial.old.place}", "W2")
    trial.is_told("a wrong line is told", f"--peers {trial.path}: line 2 is no PEER: AE=host:port or AE=host:port,lock")
    third = trial.create()
    trial.comes("and moves nobody", trial.new, third)
    os.remove(trial.path)
    trial.is_told("a missing file is told", f"--peers {trial.path}: it can't be read")
    trial.write(f"W1={trial.old.place},lock", "W2=-", "W3=localhost:104", "W5=localhost:105")
    for title, news in (("W1", "may lock steps"), ("W2", "is retired"), ("W3", "is no longer retired"), ("W4", "is no longer named"), ("W5", "is named")):
        trial.is_told(f"what takes a restart is told of {title}", f"{title} {news}: that takes a restart")
    fourth = trial.create()
    trial.comes("a move beside it counts", trial.old, fourth)
    trial.comes("and who is retired by the file gets reports still", trial.late, fourth)


def fault_of_pipe(program: str) -> Optional[str]:
    """Starts a server on a pipe of peers, and returns what is wrong beyond a look, or None."""
    read, write = os.pipe()
    os.write(write, b"W1=127.0.0.1:104\n")
    os.close(write)
    words = [program, "serve", "--ae", "UPSD", "--port", "0", "--peers", f"/dev/fd/{read}"]
    with subprocess.Popen(words, stdout=subprocess.PIPE, stderr=subprocess.PIPE, text=True, pass_fds=(read,)) as server:
        assert server.stdout
        port = int(server.stdout.readline())
        time.sleep(LOOK + 2)
        status = Client(port).create(b"1.2.3.9", a_step_of(b"P1"))
        server.kill()
        log = server.communicate()[1]
    os.close(read)
    return f"{status:04X}" if status else "it is" if "takes a restart" in log else None


def main() -> None:
    given, results = arguments(__doc__ or ""), Results()
    with tempfile.TemporaryDirectory() as folder:
        trial = Trial(given.program, folder, results)
        try_moves(trial)
        try_faults(trial)
        trial.server.stop()
    results.tell("a pipe is not read again", fault_of_pipe(given.program))
    results.end()


if __name__ == "__main__":
    main()
