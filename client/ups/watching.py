"""The commands watch and announce: event reports, printed and sent."""

from __future__ import annotations

import argparse
import datetime
import functools
import json
import os
import subprocess
import sys
from typing import Optional

from pydicom.dataset import Dataset

from ups import NAME
from ups.association import connected
from ups.datasets import made, read
from ups.dicom_json import json_of
from ups.faults import Refused, complain, printable
from ups.moments import moment_now
from ups.pdus import EVENT_ROLE
from ups.reports import take_reports
from ups.listening import connections, listener_of, take_association
from ups.terms import EVENT, EVENTS, EXPLICIT, GLOBAL, IMPLICIT, PUSH, is_done, told


def report_line(command: Dataset, information: Optional[Dataset]) -> str:
    """Returns what an N-EVENT-REPORT says, in a line, or why that can't be read."""
    try:
        said = "  ".join(f"{it.keyword or it.tag}={'..' if it.VR == 'SQ' else it.value}" for it in information or ())
    except Exception as fault:  # pydicom raises exceptions of many classes
        said = f"it can't be read: {fault}"
    event = EVENTS.get(command.EventTypeID, command.EventTypeID)
    return f"{moment_now()} {command.AffectedSOPInstanceUID} {event}: {printable(said)}"


def report_json(command: Dataset, information: Optional[Dataset]) -> str:
    """Returns a report as an object of JSON in a line, with its attributes as DICOM JSON, or why these can't be written."""
    report = {"moment": datetime.datetime.now().astimezone().isoformat(timespec="milliseconds"),
              "step": str(command.AffectedSOPInstanceUID), "type": command.EventTypeID,
              "event": EVENTS.get(command.EventTypeID, "")}
    try:
        report["information"] = json_of(information or Dataset())
    except Exception as fault:  # pydicom raises exceptions of many classes
        report["fault"] = str(fault)
    return json.dumps(report, ensure_ascii=False)


def run_for_report(asked: argparse.Namespace, command: Dataset, line: str) -> None:
    """Runs the command of `--exec` in a shell, with the report as its standard input."""
    variables = {"UPS_STEP": str(command.AffectedSOPInstanceUID), "UPS_EVENT": EVENTS.get(command.EventTypeID, "")}
    ran = subprocess.run(["sh", "-c", asked.exec], input=f"{line}\n".encode(), stdout=sys.stderr, env={**os.environ, **variables},
                         check=False)
    if ran.returncode:
        complain(f"{asked.exec} ended with {ran.returncode}")


def tell_report(asked: argparse.Namespace, command: Dataset, data: Optional[bytes]) -> None:
    """Prints a report, and runs the command for it. Ends the program if nobody reads the line, so that the report isn't answered."""
    information = None if data is None else read(data, asked.implicit)
    line = report_json(command, information) if asked.json or asked.exec else ""
    try:
        print(line if asked.json else report_line(command, information), flush=True)
    except OSError as fault:
        os.dup2(os.open(os.devnull, os.O_WRONLY), sys.stdout.fileno())  # which is flushed again at the end
        sys.exit(f"{NAME}: {fault}")
    if asked.exec:
        run_for_report(asked, command, line)


def watch(asked: argparse.Namespace) -> int:
    """Prints the reports to a watcher, until it is interrupted, or until as many associations as `--associations` says were
    released."""
    take, released = functools.partial(take_reports, asked=asked, tell=functools.partial(tell_report, asked)), 0
    with listener_of(asked) as listener:
        print(f"{asked.ae} takes reports on {asked.address}:{listener.getsockname()[1]}", file=asked.aside, flush=True)
        for connection, where in connections(listener, asked):
            released += take_association(asked, connection, where, take)
            if 0 < asked.associations <= released:
                break
    return 0


def announce_to(asked: argparse.Namespace, watcher: tuple[str, str, int]) -> int:
    """Reports a change of the server's status to one watcher (PS3.4 table CC.2.4-1, event 4)."""
    called, host, port = watcher
    told_of = {"SCPStatus": asked.status}
    if asked.status == "RESTARTED":
        told_of.update(SubscriptionListStatus=asked.subscriptions, UnifiedProcedureStepListStatus=asked.steps)
    with connected(host, port, asked) as association:
        association.propose(called, asked.called, [EVENT], (IMPLICIT,) if asked.implicit else (EXPLICIT, IMPLICIT), EVENT_ROLE)
        elements = {"AffectedSOPClassUID": PUSH, "CommandField": 0x0100, "AffectedSOPInstanceUID": GLOBAL, "EventTypeID": 4}
        status = association.status_of(EVENT, elements, made(told_of))
        association.release()
    return status


def announce(asked: argparse.Namespace) -> int:
    """Tells each watcher in turn, under the server's title, and returns the worst exit status."""
    worst = 0
    for watcher in asked.watchers:
        try:
            status = announce_to(asked, watcher)
            print(f"{watcher[0]}: {told(status)}", flush=True)
            worst = max(worst, 0 if is_done(status) else 1)
        except (OSError, Refused) as fault:
            print(f"{NAME}: {watcher[0]}: {fault}", file=sys.stderr)
            worst = 2
    return worst
