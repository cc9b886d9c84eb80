"""The command audit: a server's log as audit messages."""

from __future__ import annotations

import argparse
import collections
import contextlib
import re
import sys
from typing import Optional

from ups import NAME
from ups.audit_lines import REFUSAL, Audited, LogLine, audited_of, logged_of, refusal_of
from ups.audit_messages import activity_message, audit_message
from ups.faults import Refused
from ups.patients import Patient, patients_of
from ups.stores import requests_of

BEGINS = re.compile(r"run (\d+) begins with (\d+) requests")
COMPACTED = re.compile(r"compacted from (\d+) requests to (\d+)(, in .*)?")
COMMITTED = re.compile(r"entries=.* run=(\d+) committed=(\d+)\b.*")
# what a server says once it serves: neither a look of --check nor a start that is refused does
LISTENS = re.compile(r"\[INFO  upsd\] [ -~]{1,16} listens on \S+ with \d+ workers")
ENDED = re.compile(r"\S+\.service: (?:Deactivated successfully|Failed with result '(.*)')\.")
NOTED = 100_000  # audit lines that are kept until it is known that what they tell is in the store


class Trail:
    """What the lines of a log have told so far, in order: what has to be in the store at the next start, and who holds a step."""

    def __init__(self, server: str, patients: dict[str, Patient]) -> None:
        self.server = server
        self.patients = patients  # of steps
        self.run: Optional[int] = None  # the last run of the store, compactions among them
        self.removed = 0  # how many requests compactions have removed since that run began: a number in the store is less by these
        self.found: Optional[int] = None  # how many requests a start has found in the store, if it then compacts it
        self.noted: collections.deque[Audited] = collections.deque(maxlen=NOTED)
        self.held: dict[str, int] = {}  # the number at which each step IN PROGRESS was claimed

    def take(self, line: LogLine) -> list[str]:
        """Returns the messages that a line makes."""
        if line.text.startswith("[INFO  upsd] audit: "):
            return [self.message(self.note(audited_of(line)))]
        if line.text.startswith("[WARN  upsd] serve: "):
            refused = refusal_of(line)
            return [self.message(refused)] if refused else []
        if ended := ENDED.fullmatch(line.text):
            return [activity_message(line, self.server, ("110121", "Application Stop"), ended[1])]
        if line.text.startswith("[INFO  upsd] upsd "):
            self.forget(line)
        if LISTENS.fullmatch(line.text):
            return [activity_message(line, self.server, ("110120", "Application Start"))]
        if begins := BEGINS.fullmatch(line.said):
            return self.begin(int(begins[1]), int(begins[2]))
        self.follow(line.said)
        return []

    def message(self, line: Audited) -> str:
        return audit_message(line, self.server, self.patients.get(line.instance))

    def note(self, line: Audited) -> Audited:
        """Keeps what a line tells until it is known to be in the store; tells of a request to cancel whether the step is held."""
        if (number := line.number) is None:
            return line
        if line.name == "Cancel" and line.status == 0:
            line = line._replace(is_held=self.held.get(line.instance, number) < number)
        if line.name == "Change" and line.done.endswith("to IN PROGRESS"):
            self.held[line.instance] = number
        elif line.name == "Change":
            self.held.pop(line.instance, None)
        self.noted.append(line)
        return line

    def forget(self, line: LogLine) -> None:
        """Notes the first line of a program. A server without a store knows nothing of what was before."""
        if line.said.endswith(" store=none"):
            self.run, self.removed, self.found = None, 0, None
            self.noted.clear()
            self.held.clear()

    def begin(self, run: int, requests: int) -> list[str]:
        """Returns the messages of what was told before this run and isn't in the store, if the log has each run since."""
        kept = (requests if self.found is None else self.found) + self.removed
        is_next = self.run == run - 1
        lost = [it for it in self.noted if it.number is not None and it.number > kept] if is_next else []
        self.held = {it: 0 for it, number in self.held.items() if is_next and number <= kept}
        self.run, self.removed, self.found = run, 0, None
        self.noted.clear()
        why = f"not kept: run {run} begins with {requests} requests"
        return [self.message(it._replace(outcome=REFUSAL, description=why)) for it in lost]

    def follow(self, said: str) -> None:
        """Notes a compaction, and how much is in the store."""
        if compacted := COMPACTED.fullmatch(said):
            if compacted[3] is None:
                self.found = int(compacted[1])
            elif self.run is not None:
                self.run, self.removed = self.run + 1, self.removed + int(compacted[1]) - int(compacted[2])
        elif committed := COMMITTED.fullmatch(said):
            while self.noted and (self.noted[0].number or 0) <= int(committed[2]):
                self.noted.popleft()


def audit(asked: argparse.Namespace) -> int:
    """Prints the audit messages of a log, each as soon as its line is read; returns 1 if an audit line can't be read."""
    worst = 0
    trail = Trail(asked.called, patients_of(requests_of(asked.upsd, asked.store).lines) if asked.with_patients else {})
    with contextlib.ExitStack() as opened:
        log = sys.stdin
        if asked.file != "-":
            log = opened.enter_context(open(asked.file, encoding="utf-8", errors="backslashreplace"))
        for line in log:
            logged = logged_of(line.rstrip("\n"))
            try:
                messages = trail.take(logged) if logged else []
            except Refused as fault:
                print(f"{NAME}: {fault}", file=sys.stderr, flush=True)
                worst = 1
            else:
                for message in messages:
                    print(message, flush=True)
    return worst
