"""The command work: a performer, which does the steps of a worklist by a command."""

from __future__ import annotations

import argparse
import functools
import math
import os
import shutil
import signal
import subprocess
import sys
import tempfile
import threading
import time
from typing import Any, NamedTuple, Optional

from pydicom.dataset import Dataset

from ups.association import Association, associated
from ups.datasets import made
from ups.dicom_json import json_line
from ups.elements import plain, value_at
from ups.faults import Over, Refused, Unexpected, Unwritable, complain, printable
from ups.finishing import begun, canceled, completed, end_step, in_characters_of, text_for
from ups.listening import listener_of
from ups.moments import moment_of
from ups.operations import act, change, get_step, matched, update
from ups.options import environment_of
from ups.reports import take_reports_in_threads
from ups.terms import (
    GLOBAL, GONE, PRIORITIES, PRIORITY, PULL, READINESS, SOP_INSTANCE, START, STATES, WATCH, is_done, new_uid, told)

TAKEN = (0xC300, 0xC302, GONE)  # another performer was quicker, or the step was canceled
NO_STEP = 3  # the exit status of `work` if there is nothing to do
LONGEST_PAUSE = 60  # seconds before a command is run again
MOST_REASON = 1_024  # characters of the reason of a request to cancel that the step gets


class Claimed(NamedTuple):
    """A step that this performer holds."""

    uid: str
    transaction: str
    step: Dataset


def place_of(step: bytes) -> tuple[int, float, str]:
    """Returns what orders steps: by priority, then by scheduled start, then by UID, which is the last part."""
    priority, start = value_at(step, PRIORITY), moment_of(value_at(step, START), None)
    return (PRIORITIES.index(priority) if priority in PRIORITIES else len(PRIORITIES), math.inf if start is None else start,
            value_at(step, SOP_INSTANCE))


def waiting_steps(association: Association, asked: argparse.Namespace) -> list[str]:
    """Returns the UIDs of the steps that match, are SCHEDULED and have their input, in the order in which they are to be done."""
    asked.state = STATES[0]
    columns = ("ScheduledProcedureStepPriority", "ScheduledProcedureStepStartDateTime", "InputReadinessState")
    found, status = matched(association, asked, columns)
    if not is_done(status):
        raise Refused(told(status))
    steps = (plain(each, association.implicit) for each in found.values())
    places = sorted(place_of(step) for step in steps if value_at(step, READINESS) == "READY")
    latest = time.time() if asked.due else math.inf
    return [uid for _priority, start, uid in places if start <= latest]


class Unanswered(Refused):
    """A claim whose answer did not come, so that this performer may hold the step or not."""

    def __init__(self, held: Claimed, told_of: str) -> None:
        super().__init__(told_of)
        self.held = held


def claim_next(asked: argparse.Namespace) -> Optional[Claimed]:
    """Claims the first step that no other performer takes before, and says in it that it has begun; None if there is none."""
    with associated(asked, [PULL]) as association:
        for uid in waiting_steps(association, asked):
            held = Claimed(uid, new_uid(), Dataset())
            try:
                status = change(association, uid, held.transaction, STATES[1])
                if status in TAKEN:
                    continue
                if not is_done(status):
                    raise Refused(told(status))
                return begin_step(association, held, asked.as_station or asked.ae)
            except (OSError, Refused) as fault:
                raise Unanswered(held, f"{association.place}: {uid}, to be claimed with {held.transaction}: {fault}") from None
    return None


def claimed_before(asked: argparse.Namespace, held: Claimed) -> Optional[Claimed]:
    """Returns a step whose claim was not answered, with its attributes, if this performer holds it; None if it does not, as an N-SET
    with its Transaction UID shows."""
    with associated(asked, [PULL]) as association:
        try:
            return begin_step(association, held, asked.as_station or asked.ae)
        except (Over, Unexpected):
            raise
        except Refused as fault:
            complain(f"{held.uid} is not held with {held.transaction}: {fault}")
            return None


def begin_step(association: Association, held: Claimed, station: str) -> Claimed:
    """Reads a claimed step, and sets when and where it has begun, from which `ups status` tells the age of the claim."""
    status, step = get_step(association, held.uid)
    if step is None or not is_done(status):
        raise Refused(told(status))
    first = in_characters_of(step, "UnifiedProcedureStepPerformedProcedureSequence", begun(step, station))
    status = update(association, held.uid, held.transaction, first)
    if not is_done(status):
        raise Refused(told(status))
    step.UnifiedProcedureStepPerformedProcedureSequence = first.UnifiedProcedureStepPerformedProcedureSequence
    step.TransactionUID = held.transaction
    return held._replace(step=step)


class Performer:
    """Does one step after another, until it is told to stop."""

    def __init__(self, asked: argparse.Namespace) -> None:
        self.asked = asked
        self.stopped = threading.Event()
        self.process: Optional[subprocess.Popen[bytes]] = None
        self.held = self.request = ""  # the step that is being done, and why others ask that it be canceled
        self.interrupted = threading.Event()  # it is to be stopped, or others ask that the step be canceled
        self.doubtful: Optional[Claimed] = None  # a step whose claim was not answered

    def subscribe(self, kind: int, instance: str) -> int:
        """Subscribes this performer to a step (3), or ends its subscription to a step or to all (4)."""
        words = {"ReceivingAE": self.asked.ae, **({"DeletionLock": "FALSE"} if kind == 3 else {})}
        with associated(self.asked, [WATCH]) as association:
            return act(association, WATCH, kind, instance, made(words))

    def follow(self, kind: int, uid: str) -> None:
        """Subscribes to a step, or ends that, if this performer listens; it does the step also if that fails, and says so."""
        if self.asked.listen is None:
            return
        try:
            status = self.subscribe(kind, uid)
            fault = "" if is_done(status) else told(status)
        except (OSError, Refused) as it:
            fault = str(it)
        if fault:
            print(f"{uid}: as a watcher: {fault}", file=sys.stderr, flush=True)

    def listen(self) -> None:
        """Takes reports from now on, if a port is given; subscriptions of an earlier performer of this title are ended."""
        if self.asked.listen is None:
            return
        take_reports_in_threads(listener_of(self.asked), self.asked, lambda _, command, data: self.report(command, data))
        if not is_done(status := self.subscribe(4, GLOBAL)):
            raise Refused(f"as a watcher: {told(status)}")

    def report(self, command: Dataset, data: Optional[bytes]) -> None:
        """Ends the command if a report says that its step is to be canceled (PS3.4 section CC.2.4, event 2). Nothing at the server
        shows that somebody asked (section CC.2.2), so that the report alone says so."""
        if command.EventTypeID == 2 and str(command.AffectedSOPInstanceUID) == self.held:
            reason = value_at(plain(data or b"", self.asked.implicit), 0x0074_1238)[:MOST_REASON]
            self.request = f"asked for{reason and f', {reason}'}"
            self.interrupted.set()
            if (process := self.process) is not None:
                process.terminate()

    def stop(self, *_: Any) -> None:
        """Ends the command, so that its step is canceled, and takes no further step."""
        self.stopped.set()
        self.interrupted.set()
        if self.process is not None:
            self.process.terminate()

    def tried(self, held: Claimed, line: str) -> str:
        """Runs the command for a step, and again while it fails, as often as is asked for; returns why the step is to be canceled."""
        for retry in range(self.asked.retries + 1):
            why = self.ended(held, line)
            pause = min(LONGEST_PAUSE, 2 ** min(retry, 10))
            if not why or self.interrupted.is_set() or retry == self.asked.retries:
                break
            complain(f"{held.uid}: {why}, and is run again in {pause} s")
            if self.interrupted.wait(pause):
                break
        return why

    def ended(self, held: Claimed, line: str) -> str:
        """Runs the command for a step, and returns why the step is to be canceled; empty if it is done."""
        variables = {"UPS_STEP": held.uid, "UPS_TRANSACTION": held.transaction, **environment_of(self.asked)}
        with tempfile.NamedTemporaryFile("w+", prefix="ups.", suffix=".json", encoding="utf-8") as file:
            file.write(line + "\n")
            file.flush()
            file.seek(0)
            words = [word.replace("{}", file.name) for word in self.asked.command]
            with subprocess.Popen(words, stdin=file, stdout=sys.stderr, env={**os.environ, **variables}) as self.process:
                if self.stopped.is_set() or self.request:
                    self.process.terminate()
                status = self.process.wait()
            self.process = None
        return (self.request or f"{os.path.basename(words[0])} ended with {status}") if status else ""

    def finish(self, held: Claimed, why: str) -> int:
        """Completes a step, or cancels it for a reason; tries again while the server is not there, with --every until it is."""
        station, begin = self.asked.as_station or self.asked.ae, time.monotonic()
        needed = functools.partial(canceled, reason=text_for(held.step, why)) if why else functools.partial(completed, station=station)
        while True:
            try:
                with associated(self.asked, [PULL]) as association:
                    return end_step(association, held.uid, held.transaction, needed, STATES[3 if why else 2])
            except (OSError, Refused) as fault:
                goes_on = self.asked.every is not None and not self.stopped.is_set() and isinstance(fault, (OSError, Over))
                if not goes_on and time.monotonic() - begin > self.asked.timeout:
                    raise Refused(f"{held.uid}, claimed with {held.transaction}, was not finished: {fault}") from None
                time.sleep(1)

    def told(self, held: Claimed) -> tuple[str, str]:
        """Prints a step as a line of JSON, and returns the line, and why the step can't be done, if so."""
        line = ""
        try:
            line = json_line(held.step)
            print(line, flush=True)
        except Unwritable as fault:
            return line, str(fault)
        except OSError as fault:
            self.stopped.set()
            os.dup2(os.open(os.devnull, os.O_WRONLY), sys.stdout.fileno())  # which is flushed again at the end
            return line, f"its performer can't write: {fault}"
        return line, ""

    def do(self, held: Claimed) -> int:
        """Prints a step, does it if there is a command, and returns the exit status."""
        line, why = self.told(held)
        if not (self.asked.command or why):
            return 0
        self.held, self.request = held.uid, ""
        if not self.stopped.is_set():
            self.interrupted.clear()
        self.follow(3, held.uid)
        why = why or self.tried(held, line)
        status = self.finish(held, why)
        self.follow(4, held.uid)
        print(f"{held.uid}: {STATES[3 if why else 2]}{why and f', {printable(why)}'}: {told(status)}", file=sys.stderr, flush=True)
        return 1 if why or not is_done(status) else 0

    def next(self) -> Optional[int]:
        """Does the next step, and returns the exit status, or None if there is none. A performer that asks again and again goes on
        if the server does not answer."""
        try:
            held = self.claim()
            return None if held is None else self.do(held)
        except (OSError, Refused) as fault:
            if self.asked.every is None:
                raise
            complain(str(fault))
            return None

    def claim(self) -> Optional[Claimed]:
        """Claims the next step. One whose claim was not answered, because the server went away, comes first."""
        try:
            held = claimed_before(self.asked, self.doubtful) if self.doubtful else None
            self.doubtful = None
            return held or claim_next(self.asked)
        except Unanswered as fault:
            self.doubtful = fault.held
            raise

    def run(self) -> int:
        """Does as many steps as are asked for, and returns the worst exit status, or NO_STEP."""
        done: list[int] = []
        while not self.stopped.is_set() and not 0 < self.asked.steps <= len(done):
            status = self.next()
            if status is not None:
                done.append(status)
            elif self.asked.every is None:
                break
            else:
                self.stopped.wait(self.asked.every)
        return max(done, default=NO_STEP)


def work(asked: argparse.Namespace) -> int:
    """Does the steps of a worklist by a command, which has to be there before a step is claimed."""
    if asked.command and not shutil.which(asked.command[0]):
        raise Refused(f"there is no command {asked.command[0]}")
    performer = Performer(asked)
    performer.listen()
    for number in (signal.SIGTERM, signal.SIGINT):
        signal.signal(number, performer.stop)
    return performer.run()
