#!/usr/bin/env python3
"""Runs each command of the client `ups` (client/bin/ups) against a server, and compares what it prints.

    trials/client.py [PROGRAM [WORD..]]      (crates/upsd/out/upsd, which `rt run` builds)

It installs pydicom if it is missing (`apt-get install -y python3-pydicom`, which needs root), starts servers on free ports of
this machine, and ends by itself. It prints a line for each trial, and then `N passed, M failed`; the exit status is 1 if any
failed. trials/stock.py has the life of steps through the client, and trials/board.py its board.

    commands     what each prints, and its exit status; in Explicit and in Implicit VR Little Endian
    check        data sets with each fault that an N-CREATE, an N-SET or a final state can have: what `ups check` says of JSON
                 and of a DICOM file is what docs/use/conformance.md says, and what the server answers if it gets the data set
    json         what `find --json` and `get --json` print is DICOM JSON with the attributes that were sent
    status       counts what was created; the line, the performance data and the exit status of a plugin; the text format of
                 Prometheus, also in a file
    health       the line and the exit status of a plugin: of a server that answers, of one that does not in time, of nobody, of
                 another title, and of one whose store takes no change, while it answers an echo
    verify       reports that agree with the worklist, others (by a relay that changes them), and none; the line of a plugin
    watch        with another status and with a delay: what the server's log says of it
    announce     what a watcher that listens here is told
    moving       steps with every VR, nested sequences and three character sets go to another server by `export` and `import`, and
                 are equal there, attribute by attribute; one that is claimed or final is left and named; templates
    environment  UPS_SERVER, UPS_CALLED and UPS_AE in place of options; the start of a new step has this machine's offset from UTC
    work         a step that is done, one whose command fails twice, and the claims that `status` names
    scripts      each line of `watch --json` is out, and each command of `--exec` has ended, before the report is answered; nothing
                 is answered for a reader that is gone
    strangers    `watch`, also with --json and --exec, `board`, and an address that --allow does not name: whatever strangers send
                 ends their association alone, with a line; the next report is taken. Commands with a server that sends such things
    people       the heading and the columns of `find` on a terminal, and none elsewhere; what -v tells
    rescue       the claims of a store with their Transaction UIDs, and the end of one, which the server's log says who asked for
    explain      of each step the request since which a query finds it, or doesn't, as it was made, now and before; audit messages
                 with the patient and the study of a step
    words        numbers that are none or too large end no command by a traceback; an interrupt, a reader that is gone, --version
"""

from __future__ import annotations

import contextlib
import dataclasses
import datetime
import json
import os
import pathlib
import re
import resource
import signal
import socket
import stat
import subprocess
import sys
import tempfile
import threading
import time
import urllib.error
import urllib.request
import warnings
from typing import Any, Optional
from xml.etree import ElementTree

TOP = os.path.dirname(os.path.dirname(os.path.abspath(__file__)))
sys.path[:0] = [os.path.join(TOP, it) for it in ("check/lib", "trials/lib")]
import stock
import strangers
from machine import HERE, described, free_port, holds, install, source
from results import Results
from server import Server
from stock import DONE, GLOBAL, NO_ANSWER, OWN, PERFORMED, REFUSED, STEP, Watcher, made, open_association, plain

CLIENT = [sys.executable, os.path.join(HERE, "client/bin/ups")]
LIMIT = 60  # seconds for a command
ALL = 600  # seconds for all trials
A, B, C, D = (f"1.2.5.{number}" for number in range(1, 5))
OLDEST, OLDEST_SECONDS = "20240229130000+0100", 1709208000  # by `date -d 2024-02-29T12:00Z +%s`
MODIFIED = "20240301120000+0000"
HOLDER = ["--transaction", "2.25.7"]
NO_STEP = 3  # the exit status of `work` if there is nothing to do


@dataclasses.dataclass
class Ran:
    """The exit status of a command, and what it printed."""

    status: int
    out: str
    error: str


def run(*words: str, given: str = "", **variables: str) -> Ran:
    """Runs the client, with further variables of its environment. If it does not end, the status is -1."""
    command = [*CLIENT, *words]
    environment = {**os.environ, "PYTHONIOENCODING": "utf-8", **variables}
    try:
        ran = subprocess.run(command, input=given, capture_output=True, encoding="utf-8", timeout=LIMIT, env=environment)
    except subprocess.TimeoutExpired:
        return Ran(-1, "", "it does not end")
    return Ran(ran.returncode, ran.stdout, ran.stderr)


def wrong(ran: Ran, status: int, *told: str) -> Optional[str]:
    """Returns why a command didn't end with this status, or what it didn't tell, or None."""
    said = (ran.out + ran.error).strip()
    if ran.status != status:
        return f"it ended with {ran.status} and not {status}: {said}"
    return next((f"it did not tell {each!r}: {said}" for each in told if each not in said), None)


# the commands, in order: a name, the words, the exit status, and parts of what is printed
COMMANDS: list[tuple[str, list[str], int, list[str]]] = [
    ("echo", ["echo"], DONE, ["0000 success"]),
    ("create", ["create", A, "--label", "CT READ", "--patient-name", "MÜLLER^JÜRGEN", "-k", "(0040,4025)[0].(0008,0100)=R1"],
     DONE, ["0000"]),
    ("create in Implicit VR", ["create", B, "--implicit", "--label", "MR READ", "--start", OLDEST,
                               "-k", "(0040,4025)[0].(0008,0100)=R2"], DONE, ["0000"]),
    ("create for two stations", ["create", C, "--worklist", "READS", "-k", "(0040,4025)[0].(0008,0100)=R1",
                                 "-k", "(0040,4025)[1].(0008,0100)=R2", "-k", f"ScheduledProcedureStepModificationDateTime={MODIFIED}"], DONE, ["0000"]),
    ("create for a third", ["create", D, "-k", "(0040,4025)[0].(0008,0100)=R3"], DONE, ["0000"]),
    ("find a station", ["find", "--station", "R1"], DONE, [A, C, "2 found"]),
    ("find several stations, each step once", ["find", "--station", "R1", "--station", "R2"], DONE, [A, B, C, "3 found"]),
    ("find stations, of which nobody has one", ["find", "--station", "R4", "--station", "R3"], DONE, [D, "1 found"]),
    ("find a key that can't be read", ["find", "--start", "yesterday", "--station", "R1", "--station", "R2"], REFUSED, ["A900"]),
    ("find in Implicit VR", ["find", "--implicit", "--label", "CT*"], DONE, [f"{A}  MÜLLER^JÜRGEN", "1 found"]),
    ("get in Implicit VR", ["get", "--implicit", A], DONE, ["LO: 'CT READ'", "0000 success"]),
    ("claim in Implicit VR", ["claim", "--implicit", A, *HOLDER], DONE, ["0000 success"]),
    ("say when it began", ["set", A, *HOLDER, "-k", f"(0074,1216)[0].(0040,4050)={OLDEST}"], DONE, ["0000 success"]),
    ("finish in Implicit VR", ["finish", "--implicit", A, *HOLDER, "--as", "CT1"], DONE, ["0000 success"]),
    ("finish keeps what was said", ["get", A], DONE, [f"Performed Procedure Step Start Date DT: '{OLDEST}'", "SH: 'CT1'"]),
    ("find one of several", ["find", "--limit", "1"], DONE, ["1 of 4 found"]),
    ("find with a limit that is none", ["find", "--limit", "few"], NO_ANSWER, ["is no count"]),
    ("find a name", ["find", "--name", "MÜLLER^*"], DONE, [A, "1 found"]),
    ("find a worklist", ["find", "--worklist", "READ?"], DONE, [C, "READS", "1 found"]),
    ("subscribe", ["subscribe", "--receiver", "WATCHER"], DONE, ["0000 success"]),
    ("suspend", ["suspend", "--receiver", "WATCHER"], DONE, ["0000 success"]),
    ("suspend a stranger", ["suspend", "--receiver", "STRANGER"], REFUSED, ["C308"]),
    ("unsubscribe in Implicit VR", ["unsubscribe", "--implicit", "--receiver", "WATCHER"], DONE, ["0000 success"]),
    ("no command", [], NO_ANSWER, ["usage: "]),
    ("a status that is none", ["watch", "--status", "1F"], NO_ANSWER, ["is no status"]),
    ("a delay that is none", ["watch", "--delay", "soon"], NO_ANSWER, ["is no number of seconds"]),
    ("a watcher that is none", ["announce", "WATCHER"], NO_ANSWER, ["is no watcher"]),
    ("nobody there to announce to", ["announce", "WATCHER=127.0.0.1:1"], NO_ANSWER, ["WATCHER: ", "refused"]),
]

# data sets for N-CREATE: a name, how it differs from a good one (None removes a value), and the status of docs/use/conformance.md
LONG = "x" * 700_000


def nested(deep: int) -> list[dict[str, Any]]:
    """Returns items that are nested that deep."""
    return [{"ReferencedSOPSequence": nested(deep - 1)}] if deep else []


CREATIONS: list[tuple[str, dict[str, Any], int]] = [
    ("a good one", {}, 0x0000),
    ("without a state", {"ProcedureStepState": None}, 0xC309),
    ("an empty state", {"ProcedureStepState": ""}, 0xC309),
    ("another state", {"ProcedureStepState": "IN PROGRESS"}, 0xC309),
    ("a state in small letters", {"ProcedureStepState": "scheduled"}, 0xC309),
    ("a Transaction UID", {"TransactionUID": "1.2.3"}, 0x0106),
    ("an empty Transaction UID", {"TransactionUID": ""}, 0x0000),
    ("no start", {"ScheduledProcedureStepStartDateTime": None}, 0x0120),
    ("an empty start", {"ScheduledProcedureStepStartDateTime": ""}, 0x0121),
    ("a start of a year", {"ScheduledProcedureStepStartDateTime": "2024"}, 0x0000),
    ("a start with a fraction and an offset", {"ScheduledProcedureStepStartDateTime": "20240229120000.5-0500"}, 0x0000),
    ("a start in a leap second", {"ScheduledProcedureStepStartDateTime": "20240229235960"}, 0x0000),
    ("a start of a day that is none", {"ScheduledProcedureStepStartDateTime": "20230229"}, 0x0106),
    ("a start in month 00", {"ScheduledProcedureStepStartDateTime": "202400"}, 0x0106),
    ("a start at hour 24", {"ScheduledProcedureStepStartDateTime": "2024022924"}, 0x0106),
    ("a start that is a range", {"ScheduledProcedureStepStartDateTime": "20240101-20240201"}, 0x0106),
    ("a minus behind a cut", {"ScheduledProcedureStepStartDateTime": "2024022912-0500"}, 0x0106),
    ("a plus behind a cut", {"ScheduledProcedureStepStartDateTime": "2024022912+0500"}, 0x0000),
    ("an offset of -1201", {"ScheduledProcedureStepStartDateTime": "20240229120000-1201"}, 0x0106),
    ("an offset of +1401", {"ScheduledProcedureStepStartDateTime": "20240229120000+1401"}, 0x0106),
    ("seven digits of a fraction", {"ScheduledProcedureStepStartDateTime": "20240229120000.1234567"}, 0x0106),
    ("no readiness", {"InputReadinessState": None}, 0x0120),
    ("an empty readiness", {"InputReadinessState": ""}, 0x0121),
    ("another readiness", {"InputReadinessState": "MAYBE"}, 0x0106),
    ("two readinesses", {"InputReadinessState": ["READY", "INCOMPLETE"]}, 0x0106),
    ("a space before the readiness", {"InputReadinessState": " READY"}, 0x0106),
    ("no priority", {"ScheduledProcedureStepPriority": None}, 0x0120),
    ("another priority", {"ScheduledProcedureStepPriority": "URGENT"}, 0x0106),
    ("no label", {"ProcedureStepLabel": None}, 0x0120),
    ("an empty label", {"ProcedureStepLabel": "  "}, 0x0121),
    ("the first fault by tag: start before label", {"ProcedureStepLabel": None, "ScheduledProcedureStepStartDateTime": "x"},
     0x0106),
    ("the state before the label", {"ProcedureStepLabel": None, "ProcedureStepState": "COMPLETED"}, 0xC309),
    ("the state before the Transaction UID", {"TransactionUID": "1.2", "ProcedureStepState": "COMPLETED"}, 0xC309),
    ("items 8 deep", {"ScheduledProcessingParametersSequence": nested(8)}, 0x0000),
    ("items 9 deep", {"ScheduledProcessingParametersSequence": nested(9)}, 0x0110),
]
# for N-SET on a step that is SCHEDULED
CHANGES: list[tuple[str, dict[str, Any], int]] = [
    ("a new label", {"ProcedureStepLabel": "MR"}, 0x0000),
    ("nothing", {}, 0x0000),
    ("a state", {"ProcedureStepState": "SCHEDULED"}, 0x0106),
    ("a SOP class", {"SOPClassUID": stock.PUSH}, 0x0106),
    ("an empty label", {"ProcedureStepLabel": ""}, 0x0121),
    ("another priority", {"ScheduledProcedureStepPriority": "URGENT"}, 0x0106),
    ("an empty start before another priority",
     {"ScheduledProcedureStepStartDateTime": "", "ScheduledProcedureStepPriority": "URGENT"}, 0x0121),
    ("an attribute that isn't checked", {"PatientID": ""}, 0x0000),
]
# for a final state: a name, the state, what the step has when it is asked to change to it, and the status
BEGUN = {"PerformedProcedureStepStartDateTime": "20240229120100"}
ENDED = {"PerformedProcedureStepEndDateTime": "20240229120200"}
STOPPED = {"ProcedureStepCancellationDateTime": "20240229120300"}
FINALS: list[tuple[str, str, dict[str, Any], int]] = [
    ("nothing", "COMPLETED", {}, 0xC304),
    ("an empty sequence", "COMPLETED", {"UnifiedProcedureStepPerformedProcedureSequence": []}, 0xC304),
    ("a start alone", "COMPLETED", {"UnifiedProcedureStepPerformedProcedureSequence": [BEGUN]}, 0xC304),
    ("an empty end", "COMPLETED",
     {"UnifiedProcedureStepPerformedProcedureSequence": [{**BEGUN, "PerformedProcedureStepEndDateTime": ""}]}, 0xC304),
    ("two items", "COMPLETED", {"UnifiedProcedureStepPerformedProcedureSequence": [{**BEGUN, **ENDED}] * 2}, 0xC304),
    ("what it needs", "COMPLETED", PERFORMED, 0x0000),
    ("nothing", "CANCELED", {}, 0xC304),
    ("no time", "CANCELED", {"ProcedureStepProgressInformationSequence": [{"ProcedureStepProgress": "50"}]}, 0xC304),
    ("two items", "CANCELED", {"ProcedureStepProgressInformationSequence": [STOPPED] * 2}, 0xC304),
    ("what it needs", "CANCELED", {"ProcedureStepProgressInformationSequence": [STOPPED]}, 0x0000),
]


def try_commands(results: Results, port: int) -> None:
    for name, words, status, told in COMMANDS:
        place = [] if not words or words[0] in ("watch", "announce") else ["--port", str(port)]
        results.tell(name, wrong(run(*words, *place), status, *told))
    first = run("find", "--station", "R1", "--station", "R2", "--port", str(port)).out
    results.tell("a step of two stations comes once", None if first.count(f"{C}  ") == 1 else first)


def sent(given: dict[str, Any]) -> dict[str, Any]:
    """Returns a data set without the values that are None."""
    return {keyword: value for keyword, value in given.items() if value is not None}


@dataclasses.dataclass
class Case:
    """A data set, the status that the profile names for it, and the one that the server answered."""

    name: str
    given: dict[str, Any]
    wanted: int
    answered: int


def verdicts(ran: Ran) -> list[str]:
    """Returns the statuses that `check` prints, one for each data set."""
    return re.findall(r"^[^ ].*: ([0-9A-F]{4}) ", ran.out, re.MULTILINE)


def judge(results: Results, folder: str, cases: list[Case], *words: str) -> None:
    """Compares what `check` says with the profile and with the server's answer: for all cases in a file of JSON, for some in a
    DICOM file."""
    path = os.path.join(folder, "steps.json")
    with open(path, "w", encoding="utf-8") as file:
        json.dump([plain(sent(case.given)) for case in cases], file)
    ran = run("check", path, *words)
    said = verdicts(ran)
    refused = sum(case.wanted != 0 for case in cases)
    results.tell(f"check {' '.join(words)}", wrong(ran, min(1, refused), f"{refused} of {len(cases)} would be refused"))
    for place, case in enumerate(cases):
        told = [f"{case.wanted:04X}", f"{case.answered:04X}", said[place] if place < len(said) else "nothing"]
        fault = None if len(set(told)) == 1 else "the profile says {}, the server {}, and the client {}".format(*told)
        results.tell(f"check, {case.name}", fault)
        if place % 6 == 0:
            results.tell(f"check, {case.name}, of a DICOM file", of_dicom(folder, case, *words))


def of_dicom(folder: str, case: Case, *words: str) -> Optional[str]:
    path = os.path.join(folder, "step.dcm")
    pathlib.Path(path).write_bytes(stock.spelled(made(sent(case.given)), stock.EXPLICIT))
    ran = run("check", path, *words)
    return wrong(ran, 1 if case.wanted else 0) or (None if verdicts(ran) == [f"{case.wanted:04X}"] else ran.out)


def status_of(wire: Any, request: tuple[str, dict[str, Any], Any]) -> int:
    return wire.ask(*request)[0][0].Status


def created(wire: Any, uid: str, given: dict[str, Any]) -> int:
    """Returns the status of an N-CREATE."""
    context, elements, _ = stock.create(uid)
    return status_of(wire, (context, elements, sent(given)))


def finished(wire: Any, uid: str, state: str, changes: dict[str, Any]) -> int:
    """Returns the status of a change to a final state, for a step that is created, claimed and set before."""
    for request in (stock.create(uid), stock.move(uid, "IN PROGRESS"), stock.change(uid, **OWN, **changes)):
        assert status_of(wire, request) == 0, uid
    return status_of(wire, stock.move(uid, state))


def try_check(results: Results, wire: Any, folder: str) -> None:
    cases = []
    for number, (name, changes, wanted) in enumerate(CREATIONS):
        given = {**STEP, **changes}
        cases.append(Case(name, given, wanted, created(wire, f"1.2.6.{number}", given)))
    for uid in (GLOBAL, "1.2.840.10008.5.1.4.34.5.1", "1.02"):
        cases.append(Case(f"the UID {uid}", {**STEP, "SOPInstanceUID": uid}, 0x0117, created(wire, uid, STEP)))
    judge(results, folder, cases)
    changed = [Case(f"set {name}", changes, wanted, status_of(wire, stock.change("1.2.6.0", **changes)))
               for name, changes, wanted in CHANGES]
    judge(results, folder, changed, "--set")
    for state in ("COMPLETED", "CANCELED"):
        asked = [(f"1.2.7.{number}", *each) for number, each in enumerate(FINALS) if each[1] == state]
        ended = [Case(f"{state} with {name}", {**STEP, **changes}, wanted, finished(wire, uid, state, changes))
                 for uid, name, _, changes, wanted in asked]
        judge(results, folder, ended, "--final", state)
    try_files(results, folder)


def try_files(results: Results, folder: str) -> None:
    """Tries `check` on a message that is too long, on standard input, on no file and on no JSON."""
    long = json.dumps(plain({**STEP, "ReasonForCancellation": LONG, "TextValue": LONG}))
    results.tell("check, a message that is too long",
               wrong(run("check", "-", given=long), 1, "the association would end", "1,048,576"))
    both = json.dumps([plain(STEP), plain({**STEP, "ProcedureStepLabel": ""})])
    results.tell("check, two of standard input",
               wrong(run("check", "-", given=both), 1, "data set 1: 0000", "data set 2: 0121", "1 of 2 would"))
    results.tell("check, no file", wrong(run("check", os.path.join(folder, "none")), NO_ANSWER, "No such file"))
    results.tell("check, no JSON", wrong(run("check", "-", given="{"), NO_ANSWER, "can't be read"))


def json_of(ran: Ran) -> Any:
    """Returns the array that a command printed, by UID."""
    return {each["00080018"]["Value"][0]: each for each in json.loads(ran.out)}


def try_json(results: Results, port: int) -> None:
    place = ["--port", str(port)]
    found = json_of(run("find", "--json", "--station", "R1", "--station", "R2", *place))
    results.tell("json, the steps of two stations", None if set(found) == {A, B, C} else str(set(found)))
    first = found[A]
    wanted = {"00741204": ["CT READ"], "00100010": [{"Alphabetic": "MÜLLER^JÜRGEN"}], "00080005": ["ISO_IR 192"]}
    told = {tag: first[tag].get("Value") for tag in wanted}
    results.tell("json, the attributes of one", None if told == wanted else str(told))
    code = first["00404025"]["Value"][0]["00080100"]["Value"]
    results.tell("json, a sequence", None if code == ["R1"] else str(code))
    ran = run("find", "--json", "--label", "nobody has it", *place)
    results.tell("json, none", wrong(ran, DONE) or (None if json.loads(ran.out) == [] else ran.out))
    results.tell("json, the count aside", None if "0 found" in ran.error else ran.error)
    whole = run("get", "--json", B, *place)
    results.tell("json, of one step", None if json_of(whole)[B]["00741000"]["Value"] == ["SCHEDULED"] else whole.out)
    results.tell("json, which check reads", wrong(run("check", "-", given=whole.out), DONE, f"{B}: 0000"))


# what try_commands left: A is COMPLETED, and B, C and D are SCHEDULED
COUNTS = {"SCHEDULED": 3, "IN PROGRESS": 0, "COMPLETED": 1, "CANCELED": 0}
PLUGIN = re.compile(r"UPS (OK|WARNING|CRITICAL) - [^|\n]+ \| ('?[a-z_]+'?=(U|[0-9.]+s?(;[0-9.]*){0,4}) ?)+\n")
SAMPLE = re.compile(r'([a-z_]+)(\{state="([A-Z ]+)"\})? ([0-9.]+)')


def samples(text: str) -> dict[tuple[str, str], float]:
    """Returns the samples of a text in the format of Prometheus; a line that isn't in the format is an error."""
    found = {}
    for line in text.splitlines():
        if not re.fullmatch(r"# (HELP|TYPE) [a-z_]+ .+", line):
            sample = SAMPLE.fullmatch(line)
            assert sample, line
            found[sample[1], sample[3] or ""] = float(sample[4])
    return found


def try_status(results: Results, port: int, folder: str) -> None:
    place = ["--port", str(port)]
    ran = run("status", *place)
    rows = {state: int(number) for state, number in re.findall(r"^([A-Z ]+?) +(\d+)", ran.out, re.MULTILINE) if state in COUNTS}
    oldest = [f"oldest start {OLDEST}, ", f"oldest modification {MODIFIED}, "]
    results.tell("status, counts", wrong(ran, DONE, "look-up by UID", *oldest) or (None if rows == COUNTS else ran.out))
    ran = run("status", "--worklists", *place)
    rows_of = re.findall(r"^(\S+) +(SCHEDULED|COMPLETED) +(\d+)", ran.out, re.MULTILINE)
    wanted = [("-", "COMPLETED", "1"), ("-", "SCHEDULED", "2"), ("READS", "SCHEDULED", "1")]
    results.tell("status, by worklist and state", None if sorted(rows_of) == wanted else ran.out)
    limits = [(["--warning", "30", "--critical", "60"], 0), (["--warning", "0", "--critical", "60"], 1),
              (["--warning", "0", "--critical", "0"], 2), (["--warning", ",0.001"], 1),
              (["--critical", "60,0.001"], 2), (["--warning", ",1e12"], 0)]
    for words, status in limits:
        ran = run("status", "--nagios", *words, *place)
        fault = wrong(ran, status) or (None if PLUGIN.fullmatch(ran.out) else f"this is no line of a plugin: {ran.out!r}")
        results.tell(f"status --nagios {' '.join(words)}", fault)
    counts = {what: int(number) for what, number in re.findall(r" ([a-z_]+)=(\d+);;;0", ran.out)}
    results.tell("performance data", None if counts == {state.lower().replace(" ", "_"): count for state, count in COUNTS.items()}
               else ran.out)
    results.tell("a plugin with wrong words", wrong(run("status", "--nagios", "--warning", "soon"), 3, "is no limit"))
    results.tell("a plugin with no server", wrong(run("status", "--nagios", "--port", "1"), 2, "UPS CRITICAL - "))
    results.tell("a plugin with another title",
               wrong(run("status", "--nagios", "--called", "OTHER", *place), 2, "UPS CRITICAL - ", "rejected"))
    try_prometheus(results, place, os.path.join(folder, "ups.prom"))


def try_prometheus(results: Results, place: list[str], path: str) -> None:
    ran = run("status", "--prometheus", *place)
    found = samples(ran.out)
    told = {state: found.get(("ups_steps", state)) for state in COUNTS}
    oldest = found.get(("ups_oldest_start_timestamp_seconds", "SCHEDULED"))
    results.tell("status --prometheus", wrong(ran, DONE)
               or (None if told == COUNTS and found["ups_up", ""] == 1 and oldest == OLDEST_SECONDS else ran.out))
    ran = run("status", "--prometheus", "--output", path, *place)
    with open(path) as file:
        results.tell("a file of it", wrong(ran, DONE)
                   or (None if samples(file.read())["ups_steps", "SCHEDULED"] == 3 and not ran.out else ran.out))
    results.tell("which all may read", None if stat.S_IMODE(os.stat(path).st_mode) == 0o644 else oct(os.stat(path).st_mode))
    ran = run("status", "--prometheus", "--output", path, "--port", "1")
    with open(path) as file:
        results.tell("a file without a server", wrong(ran, NO_ANSWER)
                   or (None if samples(file.read()) == {("ups_up", ""): 0} else "it has more"))
    left = [name for name in os.listdir(os.path.dirname(path)) if name.startswith(".ups.")]
    results.tell("no file is left beside it", str(left) if left else None)


HEALTHY = re.compile(r"UPS (OK|WARNING) - the service answers after [0-9.]+ ms \| answer=[0-9.]+s;[0-9.]*;[0-9.]+;0\n")


def try_health(results: Results, program: list[str], folder: str) -> None:
    """Tries `health`: with servers that answer and others, and with wrong words."""
    with Server(program) as server:
        place = ["--port", str(server.port)]
        for words, status in (([], 0), (["--warning", "30"], 0), (["--warning", "0.001"], 1), (["--implicit"], 0)):
            ran = run("health", *words, *place)
            fault = wrong(ran, status) or (None if HEALTHY.fullmatch(ran.out) else f"this is no line of a plugin: {ran.out!r}")
            results.tell(" ".join(["health", *words]), fault)
        results.tell("health of another title", wrong(run("health", "--called", "OTHER", *place), 2, "UPS CRITICAL - ", "rejected"))
        server.process.send_signal(signal.SIGSTOP)
        ran = run("health", "--within", "1", *place)
        server.process.send_signal(signal.SIGCONT)
        results.tell("health of a server that stands still", wrong(ran, 2, f"UPS CRITICAL - 127.0.0.1:{server.port}: no answer came in time"))
        results.tell("health of a server that goes on", wrong(run("health", *place), 0))
    results.tell("health of nobody", wrong(run("health", "--port", "1"), 2, "UPS CRITICAL - ", "refused"))
    results.tell("health with wrong words", wrong(run("health", "--within", "0"), 3, "is no duration"))
    try_health_of_store(results, program, os.path.join(folder, "store"))


def no_file_grows() -> None:
    """Lets writes beyond the limit of a file fail, in place of ending the program."""
    signal.signal(signal.SIGXFSZ, signal.SIG_IGN)


def try_health_of_store(results: Results, program: list[str], file: str) -> None:
    """Tries `health` of a server while a limit of its files lets each write of its store fail, and afterwards."""
    subprocess.run([*program, "init", file], check=True)
    with Server(program, "--store", file, "--timeout", "2", prepare=no_file_grows) as server:
        place, pid = ["--port", str(server.port)], server.process.pid
        results.tell("health of a store", wrong(run("health", *place), 0))
        resource.prlimit(pid, resource.RLIMIT_FSIZE, (1, resource.RLIM_INFINITY))
        results.tell("a creation without room for it", wrong(run("create", "1.2.14.1", *place), NO_ANSWER))
        results.tell("health of a store that takes no change", wrong(run("health", "--within", "8", *place), 2, "UPS CRITICAL - "))
        results.tell("an echo meanwhile", wrong(run("echo", *place), DONE, "0000"))
        resource.prlimit(pid, resource.RLIMIT_FSIZE, (resource.RLIM_INFINITY, resource.RLIM_INFINITY))
        healthy = holds(lambda: run("health", "--within", "1", *place).status == 0, 10)
        results.tell("health of a store that takes changes again", None if healthy else str(server.log[-3:]))
        results.tell("the creation is there", wrong(run("get", "1.2.14.1", *place), DONE))


def try_rescue(results: Results, program: list[str], folder: str) -> None:
    """Tries `rescue`: the claims in the store of a server that runs, and the end of one of them."""
    file = os.path.join(folder, "claims.db")
    subprocess.run([*program, "init", file], check=True)
    with Server(program, "--keep", "3600", "--audit", "--store", file) as server:
        place, store = ["--port", str(server.port)], ["--store", file]
        for number in range(4):
            run("create", f"1.2.19.{number}", *place)
        claims = [run("claim", f"1.2.19.{number}", "--transaction", f"2.25.{number}", "--ae", f"PERFORM{number}", *place) for number in (1, 2, 3)]
        run("finish", "1.2.19.3", "--transaction", "2.25.3", *place)
        ran = run("rescue", *store)
        lines = [line.split("  ") for line in ran.out.splitlines()]
        told = [(line[0], line[1], line[-1]) for line in lines]
        fault = wrong(ran, DONE) or (None if told == [("1.2.19.1", "PERFORM1", "2.25.1"), ("1.2.19.2", "PERFORM2", "2.25.2")] else ran.out)
        results.tell("rescue tells the claims", fault or (str(claims) if any(it.status for it in claims) else None))
        late = abs(datetime.datetime.fromisoformat(lines[0][2]).timestamp() - time.time()) if lines else LIMIT
        results.tell("and when they began", None if late < LIMIT else ran.out)
        ran = run("rescue", "1.2.19.1", "--canceled", "--reason", "the workstation is gone", "--ae", "SUPERVISOR", *store, *place)
        results.tell("and ends one", wrong(ran, DONE, "2.25.1", "0000 success"))
        step = json_of(run("get", "--json", "1.2.19.1", *place))["1.2.19.1"]
        reason = step["00741002"]["Value"][0].get("00741238", {}).get("Value")
        results.tell("which is canceled, with the reason", None if step["00741000"]["Value"] == ["CANCELED"] and reason == ["the workstation is gone"]
                     else str(step))
        form = r"audit: Change #\d+ SUPERVISOR 127\.0\.0\.1:\d+, 1\.2\.19\.1, 0000, IN PROGRESS to CANCELED"
        found = holds(lambda: any(re.search(form, line) for line in server.log), 5)
        results.tell("and an audit line says who asked for it", None if found else str(server.log[-5:]))
        results.tell("rescue of a step that nobody holds", wrong(run("rescue", "1.2.19.1", *store), REFUSED, "is not claimed"))
        results.tell("rescue of a store that is missing", wrong(run("rescue", "--store", f"{file}.none"), NO_ANSWER, "No such file"))
        results.tell("rescue of all at once", wrong(run("rescue", "--canceled", *store), NO_ANSWER, "needs a step"))


# what is asked of a server, in this order, and what `explain` says of a query for SCHEDULED and CT* behind all of it, and behind three
EXPLAINED = (
    "create 1.2.20.1 --label CT --patient-id P1 -k (0040,A370)[0].(0020,000D)=1.2.9", "create 1.2.20.2 --label MR", "create 1.2.20.3 --label CTA",
    "claim 1.2.20.1 --transaction 2.25.1 --ae READER", "set 1.2.20.2 -k ProcedureStepLabel=CTX --ae EDITOR", "cancel 1.2.20.3")
EXPLANATIONS = {
    (): ["1.2.20.1  not: ProcedureStepState is IN PROGRESS since 4, Change UPS State by READER",
         "1.2.20.2  in the answer since 5, N-SET by EDITOR",
         "1.2.20.3  not: ProcedureStepState is CANCELED since 6, Request UPS Cancel by CLIENT", "1 in the answer, 2 not, at 6"],
    ("--at", "3"): ["1.2.20.1  in the answer since 1, N-CREATE by CLIENT",
                    "1.2.20.2  not: ProcedureStepLabel is MR since 2, N-CREATE by CLIENT",
                    "1.2.20.3  in the answer since 3, N-CREATE by CLIENT", "2 in the answer, 1 not, at 3"],
    ("--step", "1.2.20.2"): ["1.2.20.2  in the answer since 5, N-SET by EDITOR", "1 in the answer, 0 not, at 6"],
    ("--step", "1.2.20.9"): ["1.2.20.9  not: no request has created it", "0 in the answer, 0 not, at 6"],
}


def patients_told(lines: list[str], log: str, store: list[str]) -> list[ElementTree.Element]:
    """Returns the objects of audit messages that name a patient or a study."""
    pathlib.Path(log).write_text("".join(f"{it}\n" for it in lines))
    messages = [ElementTree.fromstring(it) for it in run("audit", log, "--with-patients", *store).out.splitlines()]
    return [it for message in messages for it in message.findall("ParticipantObjectIdentification")
            if it.findtext("ParticipantObjectName") in ("Study Instance UID", "Patient Number")]


def try_explain(results: Results, program: list[str], folder: str) -> None:
    """Tries `explain` beside a server that runs, which removes the steps in the end."""
    file = os.path.join(folder, "explained.db")
    subprocess.run([*program, "init", file], check=True)
    store = ["--store", file, "--upsd", program[0]]
    with Server(program, "--keep", "3600", "--audit", "--store", file) as server:
        for line in EXPLAINED:
            ran = run(*line.split(), "--port", str(server.port))
            results.tell(line, wrong(ran, DONE))
        for more, wanted in EXPLANATIONS.items():
            ran = run("explain", "--state", "SCHEDULED", "--label", "CT*", *more, *store)
            results.tell(f"explain {' '.join(more)}", wrong(ran, DONE) or (None if ran.out.splitlines() == wanted else ran.out))
        results.tell("explain behind more requests than there are", wrong(run("explain", "--at", "60", *store), NO_ANSWER, "it has 6 requests"))
        log = os.path.join(folder, "explained.log")
        told = [(it.get("ParticipantObjectID"), it.get("ParticipantObjectTypeCode")) for it in patients_told(server.log, log, store)]
        results.tell("audit with patients", None if told == [("1.2.9", "2"), ("P1", "1")] * 2 else str(told))
        results.tell("explain of two stations", wrong(run("explain", "--station", "A", "--station", "B", *store), NO_ANSWER, "one station"))
    with Server(program, "--keep", "1", "--store", file, "--store-other-settings"):
        is_gone = holds(lambda: "removed by 7, Sweep by UPSD" in run("explain", "--step", "1.2.20.3", *store).out, 15)
        results.tell("explain of a step that a sweep has removed", None if is_gone else run("explain", "--step", "1.2.20.3", *store).out)


def try_watch(results: Results, program: list[str]) -> None:
    """Tries a watcher that answers with a failure, and one that is slow."""
    listen = free_port()
    with Server(program, "--keep", "3600", f"WATCHER=127.0.0.1:{listen}") as server:
        place, watch = ["--port", str(server.port)], ["watch", "--ae", "WATCHER", "--listen", str(listen), "--associations", "1"]
        for number, (words, logged) in enumerate([
                (["--status", "0110"], r"deliver WATCHER: 1 reports were answered with a failure status, the last with 0110"),
                (["--delay", "1.5"], r"deliver WATCHER: Released, 1 reports, 1\.[5-9] s"),
                (["--delay", "0", "--status", "0000"], r"deliver WATCHER: (Released, 1 reports|1 reports more)")]):
            seen = len(server.log)
            told: list[Ran] = []
            thread = threading.Thread(target=lambda: told.append(run(*watch, *words)))
            thread.start()
            run("subscribe", "--receiver", "WATCHER", *place) if number == 0 else None
            run("create", f"1.2.8.{number}", *place)
            thread.join(LIMIT)
            results.tell(f"watch {' '.join(words)}", wrong(told[0], DONE, f"1.2.8.{number} state: ") if told else "it does not end")
            found = holds(lambda: any(re.search(logged, line) for line in server.log[seen:]), 5)
            results.tell(f"what the log says of watch {' '.join(words)}", None if found else str(server.log[seen:]))
        try_suspend(results, place, watch)


# steps that move to another server: a value of each VR, by keyword
CODES = [{"CodeValue": "KÖ1", "CodingSchemeDesignator": "99A", "CodeMeaning": "Köpfe"}]
EVERY: dict[str, Any] = {
    "RetrieveAETitle": "ARCHIVE", "PatientAge": "003Y", "DateTime": "20260101101500.5+0100", "DimensionIndexPointer": 0x0010_0020,
    "PatientSex": "O",
    "PatientBirthDate": "20010203", "PatientWeight": "0070.50", "PatientSize": "1.70", "SeriesNumber": "007", "ExposureTimeInms": 0.1,
    "SelectorFLValue": [0.5, 0.25], "AdditionalPatientHistory": "  line\\one\r\ntwo", "IssuerOfPatientID": " KÖLN",
    "EncapsulatedDocument": b"\0\1\2\3", "SelectorODValue": b"12345678", "SelectorOFValue": b"1234", "SelectorOLValue": b"1234",
    "SelectorOVValue": b"12345678", "SelectorOWValue": b"12", "PatientName": "MÜLLER^JÜRGEN^^DR", "PatientAlternativeName": "A^B\\C",
    "RequestedProcedureID": "R1", "SelectorSLValue": -5, "SelectorSSValue": [-5, 5], "PhysiciansOfRecord": "É^A\\B^C",
    "InstitutionAddress": "Straße 1", "SelectorSVValue": -(2 ** 62) - 1, "StudyTime": "101500.123",
    "LongCodeValue": "long\\code", "StudyInstanceUID": "1.2.3", "SelectorULValue": 2 ** 31, "SelectorUNValue": b"unknown!",
    "URNCodeValue": "urn:x y", "SelectorUSValue": [1, 65535], "TextValue": "Ä text", "SelectorUVValue": 2 ** 63 + 1,
    "ReferencedRequestSequence": [{"StudyInstanceUID": "1.2.4", "RequestedProcedureCodeSequence": CODES}, {}],
    "ScheduledStationNameCodeSequence": [], "InputInformationSequence": nested(6), "ScheduledWorkitemCodeSequence": CODES,
    "WorklistLabel": "KÖPFE"}
JAPANESE = {"SpecificCharacterSet": ["", "ISO 2022 IR 87"], "PatientName": "Yamada^Tarou=山田^太郎=やまだ^たろう"}
MOVED = {"1.2.10.1": {**EVERY, "SpecificCharacterSet": "ISO_IR 192"}, "1.2.10.2": {**EVERY, "SpecificCharacterSet": "ISO_IR 100"},
         "1.2.10.3": JAPANESE}
HELD, ENDED_STEP = "1.2.10.4", "1.2.10.5"


def vrs_in(given: Any) -> set[str]:
    return {each.VR for each in given.iterall()}


def all_vrs() -> set[str]:
    """Returns the VRs that the server knows."""
    return {it.upper() for it in re.findall(r"(?m)^    ([A-Z][a-z]),$", source("crates/ups_dataset/src/vr.rt"))}


def bytes_of(wire: Any, uid: str) -> Optional[bytes]:
    """Returns all attributes of a step as the server sends them, or None."""
    command, found = wire.ask(*stock.get(stock.PULL, uid))[0]
    return None if command.Status else stock.spelled(found, stock.EXPLICIT)


def try_moving(results: Results, program: list[str], folder: str) -> None:
    """Tries `export` and `import` from one server to another."""
    path = os.path.join(folder, "moved.json")
    missing = all_vrs() - vrs_in(made(EVERY))
    results.tell("the steps that move have each VR", f"they lack {sorted(missing)}" if missing else None)
    with Server(program, "--keep", "3600") as here, Server(program, "--keep", "3600") as there:
        contexts = [each.encode() for each in stock.CONTEXTS]
        wires = [open_association(it.port, contexts, stock.EXPLICIT, LIMIT) for it in (here, there)]
        statuses = [created(wires[0], uid, {**STEP, **given}) for uid, given in MOVED.items()]
        results.tell("they are created", str(statuses) if any(statuses) else None)
        created(wires[0], HELD, STEP), status_of(wires[0], stock.move(HELD, "IN PROGRESS"))
        finished(wires[0], ENDED_STEP, "COMPLETED", PERFORMED)
        ran = run("export", "--port", str(here.port))
        pathlib.Path(path).write_text(ran.out, encoding="utf-8")
        results.tell("export", wrong(ran, DONE, "5 exported, 0 left"))
        told = [f"{HELD}: left, since it is IN PROGRESS", f"{ENDED_STEP}: left, since it is COMPLETED",
                "3 created, 2 left, 0 refused"]
        results.tell("import", wrong(run("import", path, "--port", str(there.port)), DONE, *told))
        for uid in MOVED:
            pair = [bytes_of(wire, uid) for wire in wires]
            results.tell(f"{uid} is equal there", None if pair[0] and pair[0] == pair[1] else f"{pair[0]!r}, and {pair[1]!r}")
        results.tell("what was left is not there", None if bytes_of(wires[1], HELD) is None else "it is")
        try_moving_all(results, there.port, path)
        try_templates(results, there.port, path, folder)
        for wire in wires:
            wire.release()


def try_moving_all(results: Results, port: int, path: str) -> None:
    """Tries `import --all`, files that can't be imported, and `export` by keys."""
    place = ["--port", str(port)]
    results.tell("import, all of it", wrong(run("import", "--all", path, *place), REFUSED, "2 created, 0 left, 3 refused", "0111"))
    found = json_of(run("export", "-k", f"SOPInstanceUID={HELD}\\{ENDED_STEP}", *place))
    told = {uid: (step["00741000"]["Value"][0], "00741216" in step) for uid, step in found.items()}
    wanted = dict.fromkeys((HELD, ENDED_STEP), ("SCHEDULED", False))
    results.tell("as new steps", None if told == wanted else str(told))
    found = json_of(run("export", "--worklist", "KÖPFE", "--state", "SCHEDULED", *place))
    results.tell("export by keys", None if set(found) == {"1.2.10.1"} else str(set(found)))  # the other has its own bytes
    run("create", "1.2.10.6", "--implicit", "-k", "(0032,1064)[0].(0008,0100)=C1", *place)
    found = json_of(run("export", "-k", "SOPInstanceUID=1.2.10.6", *place))["1.2.10.6"]["00321064"]
    results.tell("export of a sequence that the server has as UN", None if found["vr"] == "SQ" and "C1" in str(found) else str(found))
    none = run("export", "--label", "nobody has it", *place)
    results.tell("export of nothing", wrong(none, DONE, "0 exported") or (None if json.loads(none.out) == [] else none.out))
    results.tell("import of nothing", wrong(run("import", "-", *place, given=none.out), DONE, "0 created, 0 left, 0 refused"))
    results.tell("import without a UID", wrong(run("import", "-", *place, given="[{}]"), REFUSED, "-, data set 1: it has no SOP"))
    results.tell("import of no file", wrong(run("import", path, path + ".none", *place), NO_ANSWER, "can't be read"))
    results.tell("export of what can't be asked", wrong(run("export", "--start", "yesterday", *place), REFUSED, "A900"))


def try_templates(results: Results, port: int, path: str, folder: str) -> None:
    """Tries `create --from`: one of several, JSON of standard input, and a DICOM file."""
    place = ["--port", str(port)]
    results.tell("create from two steps", wrong(run("create", "1.2.11.1", "--from", path, *place), NO_ANSWER, "has 5 data sets"))
    held = run("get", "--json", "1.2.10.2", *place).out
    ran = run("create", "1.2.11.2", "--from", "-", "--label", "ANOTHER", "-k", "PatientID=P9", *place, given=held)
    found = json_of(run("get", "--json", "1.2.11.2", *place))["1.2.11.2"]
    wanted = {**json.loads(held)[0], "00080018": {"vr": "UI", "Value": ["1.2.11.2"]}, "00741204": {"vr": "LO", "Value": ["ANOTHER"]},
              "00100020": {"vr": "LO", "Value": ["P9"]}}
    results.tell("create from JSON, and change it", wrong(ran, DONE) or (None if found == wanted else f"{found}, and not {wanted}"))
    dicom = os.path.join(folder, "template.dcm")
    with open(dicom, "wb") as file:
        file.write(stock.spelled(made({"PatientName": "DOE^JANE", "ProcedureStepState": "COMPLETED", **PERFORMED}), stock.EXPLICIT))
    ran = run("create", "--from", dicom, *place)
    uid = ran.out.split("\n")[0]
    found = json_of(run("get", "--json", uid, *place)).get(uid, {})
    told = [found.get(tag, {}).get("Value") for tag in ("00100010", "00741000", "00741204", "00741216")]
    wanted = [[{"Alphabetic": "DOE^JANE"}], ["SCHEDULED"], ["READ"], None]
    results.tell("create from a DICOM file, with a new UID", wrong(ran, DONE, "2.25.") or (None if told == wanted else str(told)))


def try_environment(results: Results, port: int) -> None:
    """Tries the variables of the environment, and a claim whose Transaction UID the client makes."""
    server = {"UPS_SERVER": f"127.0.0.1:{port}"}
    trials = [("UPS_SERVER", run("echo", **server), DONE, "0000"),
              ("a wrong one", run("echo", UPS_SERVER="nowhere"), NO_ANSWER, "no server"),
              ("UPS_CALLED", run("echo", **server, UPS_CALLED="OTHER"), NO_ANSWER, "rejected"),
              ("an option before it", run("echo", "--called", "UPSD", **server, UPS_CALLED="OTHER"), DONE, "0000"),
              ("UPS_AE", run("subscribe", **server, UPS_AE="WATCHER"), DONE, "0000"),
              ("another UPS_AE", run("subscribe", **server, UPS_AE="STRANGER"), REFUSED, "C308"),
              ("its end", run("unsubscribe", **server, UPS_AE="WATCHER"), DONE, "0000")]
    for name, ran, status, told in trials:
        results.tell(f"the environment, {name}", wrong(ran, status, told))
    run("create", "1.2.12.1", **server)
    ran = run("claim", "1.2.12.1", **server)
    transaction = ran.out.split("\n")[0]
    is_uid = re.fullmatch(r"2\.25\.\d+", transaction)
    results.tell("claim makes a Transaction UID", wrong(ran, DONE) or (None if is_uid else ran.out))
    ran = run("finish", "1.2.12.1", "--transaction", transaction, **server)
    results.tell("with which the step is finished", wrong(ran, DONE, "0000"))
    for zone, offset in (("Asia/Kolkata", "+0530"), ("<-03>3", "-0300"), ("UTC", "+0000")):
        uid = run("create", **server, TZ=zone).out.split("\n")[0]
        start = json_of(run("get", "--json", uid, **server))[uid]["00404005"]["Value"][0]
        late = abs(datetime.datetime.strptime(start, "%Y%m%d%H%M%S%z").timestamp() - time.time())
        results.tell(f"the start of a new step in {zone}", None if start.endswith(offset) and late < LIMIT else start)
        run("cancel", uid, **server)


def on_terminal(*words: str) -> Ran:
    """Runs the client with a terminal as its standard output."""
    ours, its = os.openpty()
    process = subprocess.Popen([*CLIENT, *words], stdout=its, stderr=subprocess.PIPE, encoding="utf-8")
    os.close(its)
    said = b""
    with contextlib.suppress(OSError):  # the end of a terminal
        while more := os.read(ours, 1 << 16):
            said += more
    error = process.stderr.read() if process.stderr else ""
    os.close(ours)
    return Ran(process.wait(LIMIT), said.decode().replace("\r\n", "\n"), error)


def try_people(results: Results, port: int) -> None:
    """Tries what `find` prints on a terminal, and what -v tells."""
    place = ["--port", str(port)]
    uid, name = "1.2.12.9", "田中^太郎"
    run("create", uid, "--worklist", "PEOPLE", "--patient-name", name, "--label", "CT READ", "--start", OLDEST, *place)
    ran = on_terminal("find", "--worklist", "PEOPLE", "-k", "AdmissionID=", *place)
    wanted = ["STEP      PATIENT    PATIENT ID  AdmissionID  START                STATE      PRIORITY  WorklistLabel  LABEL",
              f"{uid}  {name}  -           -            {OLDEST}  SCHEDULED  MEDIUM    PEOPLE         CT READ", "1 found", "0000 success", ""]
    results.tell("find on a terminal", wrong(ran, DONE) or (None if ran.out.split("\n") == wanted else ran.out))
    ran = on_terminal("find", "--worklist", "nobody", *place)
    results.tell("and without an answer", None if ran.out == "0 found\n0000 success\n" else ran.out)
    ran = run("find", "--worklist", "PEOPLE", "-k", "AdmissionID=", *place)
    line = f"{uid}  {name}  -  -  {OLDEST}  SCHEDULED  MEDIUM  PEOPLE  CT READ\n1 found\n0000 success\n"
    results.tell("find elsewhere", None if ran.out == line else ran.out)
    ran = run("find", "--worklist", "PEOPLE", "-v", *place)
    told = [f"127.0.0.1:{port} -> A-ASSOCIATE-RQ, ", "CLIENT calls UPSD; 1 UPS Pull in Explicit VR Little Endian; ", "<- A-ASSOCIATE-AC, ",
            "1 accepted in Explicit VR Little Endian; ", "1 C-FIND-RQ", "1 C-FIND-RSP, status FF00", "status 0000", "<- A-RELEASE-RP, 10 bytes"]
    fault = wrong(ran, DONE, *told) or (None if name not in ran.error and "PEOPLE" not in ran.error else "it tells values")
    results.tell("-v tells what is negotiated, and no value", fault)
    run("cancel", uid, *place)


def try_work(results: Results, port: int, folder: str) -> None:
    """Tries `work`, of which trials/performers.py has more, and what `status` tells of claims."""
    place = ["--port", str(port)]
    run("create", "1.2.12.2", "--worklist", "WORK", *place)
    ran = run("work", "--worklist", "WORK", *place, "--", "sh", "-c", 'test "$UPS_STEP" = 1.2.12.2')
    results.tell("work", wrong(ran, DONE, "1.2.12.2: COMPLETED: 0000 success"))
    run("create", "1.2.12.4", "--worklist", "WORK", *place)
    script = f'echo x >> {folder}/tries; test "$(wc -l < {folder}/tries)" = 3'
    ran = run("work", "--worklist", "WORK", "--retries", "2", *place, "--", "sh", "-c", script)
    results.tell("work, at the third try", wrong(ran, DONE, "1.2.12.4: sh ended with 1, and is run again in 1 s", "again in 2 s",
                                                 "1.2.12.4: COMPLETED: 0000 success"))
    run("create", "1.2.12.5", "--worklist", "WORK", *place)
    ran = run("work", "--worklist", "WORK", "--retries", "1", *place, "--", "false")
    results.tell("work, which fails each time", wrong(ran, REFUSED, "again in 1 s", "1.2.12.5: CANCELED, false ended with 1: 0000 success"))
    results.tell("work with nothing to do", wrong(run("work", "--worklist", "WORK", *place, "--", "true"), NO_STEP))
    results.tell("work without its command", wrong(run("work", *place, "--", "no-such-command"), NO_ANSWER, "there is no command"))
    run("create", "1.2.12.3", "--start", OLDEST, "--label", "HELD", *place)
    run("claim", "1.2.12.3", *HOLDER, *place)
    ran = run("status", "--claimed", "60", *place)
    results.tell("status names a claim by its start", wrong(ran, DONE, "claimed: 1.2.12.3  -  HELD  scheduled "))
    moment = datetime.datetime.now().astimezone() - datetime.timedelta(seconds=90)
    begun = f"(0074,1216)[0].(0040,4050)={moment:%Y%m%d%H%M%S%z}"
    run("set", "1.2.12.3", *HOLDER, *place, "-k", begun, "-k", "(0074,1216)[0].(0040,4028)[0].(0008,0100)=CT1")
    ran = run("status", "--claimed", "60", *place)
    results.tell("and by what its performer says", wrong(ran, DONE, "claimed: 1.2.12.3  CT1  HELD  begun 9"))
    ran = run("status", "--claimed", "600", *place)
    results.tell("and none that is younger", wrong(ran, DONE) or (ran.out if "claimed: " in ran.out else None))


def started(*words: str) -> subprocess.Popen[str]:
    """Starts the client, and returns it."""
    return subprocess.Popen([*CLIENT, *words], stdout=subprocess.PIPE, stderr=subprocess.PIPE, encoding="utf-8")


def try_scripts(results: Results, program: list[str], folder: str) -> None:
    """Tries `watch --json` and `--exec`: what is out when the server has its answer."""
    listen, path = free_port(), os.path.join(folder, "reports")
    with Server(program, "--keep", "3600", f"WATCHER=127.0.0.1:{listen}") as server:
        place = ["--port", str(server.port)]
        watch = ["watch", "--ae", "WATCHER", "--listen", str(listen), "--associations", "1"]
        for words in (["create", "1.2.13.1"], ["subscribe", "--receiver", "WATCHER"]):
            run(*words, *place)
        gone = started(*watch[:-2], "--json")
        gone.stdout.close()
        results.tell("a reader that is gone ends it", None if gone.wait(LIMIT) else "it ended with 0")
        seen = len(server.log)
        ran = run(*watch, "--json", "--exec", f'sleep 1; cat >> {path}; echo "$UPS_STEP $UPS_EVENT" >> {path}')
        lines = [json.loads(line) for line in ran.out.splitlines()]
        told = [(it["step"], it["type"], it["event"], it["information"]["00741000"]["Value"]) for it in lines]
        results.tell("and leaves the report, which watch --json tells",
                     wrong(ran, DONE) or (None if told == [("1.2.13.1", 1, "state", ["SCHEDULED"])] else ran.out + ran.error))
        content = pathlib.Path(path).read_text(encoding="utf-8")
        results.tell("watch --exec", None if content == ran.out + "1.2.13.1 state\n" else content)
        found = holds(lambda: any(re.search(r"deliver WATCHER: Released, 1 reports, 1\.", it) for it in server.log[seen:]), 5)
        results.tell("which has ended before the answer", None if found else str(server.log[seen:]))
        run("cancel", "1.2.13.1", *place)
        ran = run(*watch, "--exec", "exit 3")
        results.tell("a command that fails is told", wrong(ran, DONE, "exit 3 ended with 3", "1.2.13.1 state: "))


class Listening:
    """The client as a listener, and the lines that it prints."""

    def __init__(self, *words: str) -> None:
        self.process = started(*words)
        self.out: list[str] = []
        self.error: list[str] = []
        for lines, stream in ((self.out, self.process.stdout), (self.error, self.process.stderr)):
            threading.Thread(target=lines.extend, args=(stream,), daemon=True).start()

    def says(self, what: str, is_error: bool = False) -> bool:
        """Waits for a line with this text."""
        lines = self.error if is_error else self.out
        return holds(lambda: any(what in line for line in list(lines)), LIMIT)

    def end(self) -> int:
        """Interrupts it, and returns its exit status."""
        self.process.send_signal(signal.SIGINT)
        try:
            return self.process.wait(LIMIT)
        except subprocess.TimeoutExpired:
            self.process.kill()
            return -1


def try_strangers(results: Results) -> None:
    """Tries what ends an association and must not end `watch`, and who may not have one."""
    for number, words in enumerate(([], ["--json", "--exec", 'echo "ran $UPS_STEP"'], ["--implicit", "--json"])):
        port, name = free_port(), " ".join(["watch", *words[:2]])
        watch = Listening("watch", "--ae", "WATCHER", "--listen", str(port), *words)
        watch.says("takes reports", bool(words))
        for place, each in enumerate(strangers.STRANGERS if "--implicit" not in words else ()):
            uid, seen = f"1.2.15.{number}.{place}", len(watch.error)
            fault = strangers.sent(port, b"WATCHER", each) or strangers.told(port, b"WATCHER", uid.encode())
            fault = fault or (None if watch.says(f"ran {uid}" if "--exec" in words else f"{uid} state: ", bool(words)) else "no line")
            is_told = holds(lambda: any("127.0.0.1:" in it for it in watch.error[seen:]), 5)
            results.tell(f"{name}: {each.name} ends its association alone", fault or (None if is_told else "nothing is told of it"))
        for called, calling in ((b"OTHER", b"UPSD"), (b"", b"UPSD"), (b"watcher", b"UPSD")):
            fault = strangers.rejected(port, called, calling, strangers.TITLE_UNKNOWN)
            results.tell(f"{name}: who calls {called!r} is rejected", fault)
        with contextlib.suppress(OSError):
            strangers.Reporter(port).socket.close()
        ran = run("announce", f"WATCHER=127.0.0.1:{port}", *[it for it in words if it == "--implicit"])
        results.tell(f"{name}: announce is told behind all", wrong(ran, DONE, "WATCHER: 0000"))
        ended = watch.end()
        traces = [line for line in watch.error if "Traceback" in line]
        results.tell(f"{name}: it ends at an interrupt", None if ended == 130 and not traces else f"with {ended} {traces}")


def try_allowed(results: Results) -> None:
    """Tries --allow: an address that it does not name, and one that it does, by a network too; and --associations."""
    port = free_port()
    watch = Listening("watch", "--ae", "WATCHER", "--listen", str(port), "--allow", "127.0.0.2,127.0.1.0/24", "--associations", "2")
    watch.says("takes reports")
    fault = strangers.told(port, b"WATCHER", b"1.2.16.1")
    results.tell("--allow refuses another address", None if fault else "it does not")
    results.tell("and says so", None if watch.says("is none of the addresses that --allow names", True) else str(watch.error))
    strangers.Reporter(port, "127.0.0.2").ended(strangers.request(b"WATCHER") + b"?" * 1000)
    for address in ("127.0.0.2", "127.0.1.9"):
        fault = strangers.told(port, b"WATCHER", f"1.2.16.{address}".encode(), source=address)
        results.tell(f"--allow lets {address} in", fault or (None if watch.says(f"1.2.16.{address} state: ") else "no line"))
    results.tell("two associations that are released end it", None if holds(lambda: watch.process.poll() == 0, 10) else "no")


def try_slow(results: Results) -> None:
    """Tries a peer that trickles, and one that never ends a message: it has --timeout for a message, and not for each byte."""
    port = free_port()
    watch = Listening("watch", "--ae", "WATCHER", "--listen", str(port), "--timeout", "2")
    watch.says("takes reports")
    slow, begun = strangers.Reporter(port), time.monotonic()
    slow.socket.sendall(strangers.request(b"WATCHER"))
    try:
        for byte in strangers.report(b"1.2.3"):
            slow.socket.sendall(bytes([byte]))
            time.sleep(0.2)
    except OSError:
        pass
    took = time.monotonic() - begun
    fault = strangers.told(port, b"WATCHER", b"1.2.17.1") or (None if took < 10 else f"it took {took:.0f} s")
    results.tell("a message that trickles ends", fault)
    endless, begun = strangers.Reporter(port), time.monotonic()
    endless.socket.sendall(strangers.request(b"WATCHER"))
    with contextlib.suppress(OSError):
        while time.monotonic() - begun < 20:
            endless.socket.sendall(strangers.pdu(4, strangers.EMPTY * 2_000))
    took = time.monotonic() - begun
    fault = strangers.told(port, b"WATCHER", b"1.2.17.2") or (None if took < 10 else f"it took {took:.0f} s")
    results.tell("a message of empty fragments without an end ends", fault)
    watch.end()


def try_board(results: Results, program: list[str]) -> None:
    """Tries the listener of `board`, without a browser: what strangers send, and other titles; then a report of the server."""
    listen, token = free_port(), "a-token-of-a-trial"
    with Server(program, "--keep", "3600", f"BOARD=127.0.0.1:{listen}") as server:
        os.environ["UPS_TOKEN"] = token
        board = Listening("board", "--port", "0", "--server-port", str(server.port), "--ae", "BOARD", "--listen", str(listen))
        del os.environ["UPS_TOKEN"]
        board.says("the board is at ")
        page = re.search(r"http://127\.0\.0\.1:\d+/", board.out[0])

        def state() -> dict[str, Any]:
            with urllib.request.urlopen(f"{page[0]}state?token={token}", timeout=LIMIT) as found:
                said: dict[str, Any] = json.load(found)
                return said

        run("create", "1.2.18.0", "--port", str(server.port))
        results.tell("the board shows a step by its report", None if holds(lambda: state().get("told") == 1, 20) else str(state()))
        for each in strangers.STRANGERS:
            results.tell(f"board: {each.name} ends its association alone", strangers.sent(listen, b"BOARD", each))
        fault = strangers.rejected(listen, b"OTHER", b"UPSD", strangers.TITLE_UNKNOWN)
        results.tell("board: who calls another title is rejected", fault)
        fault = strangers.rejected(listen, b"BOARD", b"OTHER", strangers.CALLER_UNKNOWN)
        results.tell("board: who isn't the server is rejected", fault)
        run("create", "1.2.18.1", "--port", str(server.port))
        results.tell("the board shows the next step by its report", None if holds(lambda: state().get("told") == 2, 20) else str(state()))
        traces = [line for line in board.error if "Traceback" in line or "Exception" in line]
        ended = board.end()
        results.tell("the board ends at an interrupt", None if ended == 130 and not traces else f"with {ended} {traces}")
    try_board_elsewhere(results, program)


def try_board_elsewhere(results: Results, program: list[str]) -> None:
    """Tries a board on another address of this machine, which asks so seldom that its association is silent for longer than the server
    waits."""
    listen, port, token = free_port(), free_port(), "a-token-of-a-trial"
    with Server(program, "--idle", "25", f"BOARD=127.0.0.1:{listen}") as server:
        words = ["--port", str(port), "--bind", "127.0.0.2", "--origin", f"http://127.0.0.2:{port}", "--every", "100"]
        os.environ["UPS_TOKEN"] = token
        board = Listening("board", *words, "--server-port", str(server.port), "--ae", "BOARD", "--listen", str(listen))
        del os.environ["UPS_TOKEN"]
        is_there = board.says(f"the board is at http://127.0.0.2:{port}/")
        codes = []
        for host in (f"127.0.0.2:{port}", f"127.0.0.3:{port}"):
            request = urllib.request.Request(f"http://127.0.0.2:{port}/state?token={token}", headers={"Host": host})
            try:
                with urllib.request.urlopen(request, timeout=LIMIT) as found:
                    codes.append(found.status)
            except urllib.error.HTTPError as refused:
                codes.append(refused.code)
        results.tell("the board of another address", None if is_there and codes == [200, 403] else f"{board.out}, {codes}")

        def trouble() -> str:
            with urllib.request.urlopen(f"http://127.0.0.2:{port}/state?token={token}", timeout=LIMIT) as found:
                return str(json.load(found)["trouble"])

        holds(lambda: not trouble(), LIMIT)
        troubled = holds(trouble, 30)
        results.tell("and a silence of the board ends no association", trouble() if troubled else None)
        board.end()


# words that are wrong, with the exit status and what is told; none has a server
WRONG: list[tuple[str, int, str]] = [
    ("echo --timeout -1", NO_ANSWER, "is no"), ("echo --timeout nan", NO_ANSWER, "is no"), ("echo --timeout 0", NO_ANSWER, "is no duration"),
    ("echo --timeout 1e9", NO_ANSWER, "is no"), ("echo --timeout 99999999", NO_ANSWER, "is no duration"),
    ("echo --port 99999", NO_ANSWER, "is no port"), ("echo --port 0", NO_ANSWER, "is no port"), ("echo --port -1", NO_ANSWER, "is no port"),
    ("board --port 70000", NO_ANSWER, "is no port"), ("board --server-port x", NO_ANSWER, "is no port"),
    ("watch --listen 99999", NO_ANSWER, "is no port"), ("work --listen 70000", NO_ANSWER, "is no port"),
    ("watch --associations -1", NO_ANSWER, "is no count"), ("watch --delay 99999999999", NO_ANSWER, "is no number of seconds"),
    ("watch --allow nobody", NO_ANSWER, "is no address"), ("watch --allow 1.2.3.4,", NO_ANSWER, "is no address"),
    ("watch --address 192.0.2.1 --listen 0", NO_ANSWER, "192.0.2.1:0: "), ("watch --address nowhere..invalid", NO_ANSWER, "nowhere..invalid"),
    ("board --address 192.0.2.1", NO_ANSWER, "192.0.2.1:11114: "), ("status --offset 9999", NO_ANSWER, "is no offset"),
    ("work --every 99999999999", NO_ANSWER, "is no number of seconds"), ("health --within 99999999", 3, "is no duration"),
    ("status --nagios --timeout 0", 3, "is no duration"), ("echo --host nowhere..invalid", NO_ANSWER, "is no name of a host"),
    ("echo --port 1", NO_ANSWER, "127.0.0.1:1: Connection refused"), ("export --port 1", NO_ANSWER, "127.0.0.1:1: Connection refused"),
    ("board --bind nowhere --listen 0", NO_ANSWER, "is no address"), ("board --bind 0.0.0.0 --listen 0", NO_ANSWER, "needs --origin"),
    ("board --origin ftp://board", NO_ANSWER, "is no origin"), ("board --origin https://board/page", NO_ANSWER, "is no origin"),
    ("board --token-file /none --listen 0", NO_ANSWER, "No such file"), ("rescue --store /etc/hostname", NO_ANSWER, "can't be read"),
    ("board --claimed x", NO_ANSWER, "is no number of seconds"), ("work --retries -1", NO_ANSWER, "is no count"), ("echo --tls-ca /none", NO_ANSWER, "refused"),
    ("watch --tls --listen 0", NO_ANSWER, "needs --tls-certificate"), ("announce W1=127.0.0.1:1", NO_ANSWER, "W1: 127.0.0.1:1: Connection"),
    ("board --server-port 1 --address 127.0.0.1 --listen 1 --port 1 --timeout 0", NO_ANSWER, "is no duration"),
]


class Relay:
    """Listens for a server in front of the client, and hands on what both send; with `is_lying` a step that the server reports as
    SCHEDULED is COMPLETED for the client."""

    def __init__(self, port: int) -> None:
        self.port, self.is_lying = port, False
        self.listener = socket.create_server(("127.0.0.1", 0))
        self.place = f"127.0.0.1:{self.listener.getsockname()[1]}"
        threading.Thread(target=self.listen, daemon=True).start()

    def listen(self) -> None:
        with contextlib.suppress(OSError):  # until it is closed
            while True:
                self.take(self.listener.accept()[0])

    def take(self, server: socket.socket) -> None:
        try:
            client = socket.create_connection(("127.0.0.1", self.port))
        except OSError:
            server.close()
            return
        for one, other in ((server, client), (client, server)):
            threading.Thread(target=self.hand_on, args=(one, other, one is server), daemon=True).start()

    def close(self) -> None:
        """Stops listening."""
        with contextlib.suppress(OSError):
            self.listener.shutdown(socket.SHUT_RDWR)
        self.listener.close()

    def hand_on(self, one: socket.socket, other: socket.socket, is_report: bool) -> None:
        with contextlib.suppress(OSError):
            while data := one.recv(1 << 16):
                other.sendall(data.replace(b"SCHEDULED ", b"COMPLETED ") if is_report and self.is_lying else data)
        with contextlib.suppress(OSError):
            other.shutdown(socket.SHUT_WR)


def try_verify(results: Results, program: list[str]) -> None:
    """Tries `verify`: with reports that agree with the worklist, with others, and without reports."""
    listen = free_port()
    relay = Relay(listen)
    with Server(program, "--keep", "3600", f"MONITOR={relay.place}") as server:
        place = ["--port", str(server.port)]
        words = ["verify", "--ae", "MONITOR", "--listen", str(listen), *place]
        results.tell("verify of no steps", wrong(run(*words), DONE, "0 steps: reports and worklist agree"))
        for step in ("1.2.19.1", "1.2.19.2", "1.2.19.3"):
            run("create", step, *place)
        run("claim", "1.2.19.3", *place)
        results.tell("verify of three steps", wrong(run(*words), DONE, "3 steps: reports and worklist agree"))
        fault = wrong(run(*words, "--nagios"), 0, "UPS OK - reports and worklist agree on 3 steps | steps=3;;;0 differing=0;;0;0 took=")
        results.tell("verify --nagios", fault)
        relay.is_lying = True
        told = "1.2.19.1: reports say COMPLETED, READY, the worklist SCHEDULED, READY"
        fault = wrong(run(*words, "--within", "3"), REFUSED, told, "3 steps: reports and worklist differ on 2")
        results.tell("verify of reports that say something else", fault)
        fault = wrong(run(*words, "--within", "3", "--nagios"), 2, f"UPS CRITICAL - reports and worklist differ on 2 of 3 steps: {told}; 1.2.19.2: ")
        results.tell("verify --nagios of them", fault)
        relay.is_lying = False
        fault = wrong(run(*words, "--ae", "NOBODY"), NO_ANSWER, "No reports come: the subscription was answered ")
        results.tell("verify of a title that is no watcher", fault)
        results.tell("verify --nagios of it", wrong(run(*words, "--ae", "NOBODY", "--nagios"), 2, "UPS CRITICAL - No reports come"))
        relay.close()
        fault = wrong(run(*words, "--within", "2"), REFUSED, "1.2.19.1: reports say nothing, the worklist SCHEDULED, READY")
        results.tell("verify where no report comes", fault)
    results.tell("verify of nobody", wrong(run("verify", "--port", "1", "--within", "2"), NO_ANSWER, "The server does not answer", "refused"))
    results.tell("verify with wrong words", wrong(run("verify", "--nagios", "--within", "0"), 3, "is no duration"))


def try_words(results: Results, folder: str) -> None:
    """Tries wrong words, an interrupt, readers that are gone, and --version."""
    for words, status, told in WRONG:
        ran = run(*words.split())
        results.tell(words, wrong(ran, status, told) or (ran.error if "Traceback" in ran.error else None))
    version = re.search(r'VERSION: &str = "([^"]+)"', source("crates/ups_args/src/program.rt"))
    ran = run("--version")
    results.tell("--version", wrong(ran, DONE) or (None if version and ran.out == f"ups {version[1]}\n" else ran.out))
    path = os.path.join(folder, "log")
    line = "2026-11-26T10:15:00Z [INFO  upsd] audit: Sweep UPSD, 1 steps\n"
    pathlib.Path(path).write_text(line * 20_000, encoding="utf-8")
    for words in (f"audit {path}", "--help"):
        ran = subprocess.run(["bash", "-c", f'{" ".join(CLIENT)} {words} | head -1; exit "${{PIPESTATUS[0]}}"'], capture_output=True,
                             encoding="utf-8", timeout=LIMIT, check=False)
        fault = None if ran.returncode in (0, 141) and not ran.stderr and ran.stdout.count("\n") == 1 else f"{ran}"
        results.tell(f"{words.split()[0]} | head -1", fault)
    asking = Listening("echo", "--port", str(silent_port()))
    SILENT[-1].settimeout(LIMIT)
    with SILENT[-1].accept()[0]:  # so it has begun, and waits for an answer
        ended = asking.end()
    results.tell("an interrupt", None if ended == 130 and not asking.error else f"{ended} {asking.error}")


def silent_port() -> int:
    """Returns the port of a listener that answers nothing, and leaves it open."""
    SILENT.append(socket.create_server(("127.0.0.1", 0)))
    port: int = SILENT[-1].getsockname()[1]
    return port


SILENT: list[socket.socket] = []


def answered(listener: socket.socket, sent: bytes, ends: list[tuple[int, bytes]]) -> None:
    """Accepts an association as a server, sends these bytes in the place of an answer, and notes the last PDU of the peer."""
    wire = strangers.Reporter.__new__(strangers.Reporter)
    wire.use(listener.accept()[0])
    wire.socket.settimeout(LIMIT)
    _, asked = wire.pdu()
    wire.socket.sendall(strangers.acceptance(asked))
    ends.append(wire.ended(sent))


def try_wrong_server(results: Results) -> None:
    """Tries commands with a server that answers what can't be read, or too much."""
    for name, sent, told in strangers.ANSWERS:
        for words in (["echo"], ["find"], ["get", "1.2.3"], ["export"]):
            with socket.create_server(("127.0.0.1", 0)) as listener:
                ends: list[tuple[int, bytes]] = []
                thread = threading.Thread(target=answered, args=(listener, sent, ends), daemon=True)
                thread.start()
                ran = run(*words, "--port", str(listener.getsockname()[1]), "--timeout", "20")
                thread.join(LIMIT)
            fault = wrong(ran, NO_ANSWER, told) or (ran.error if "Traceback" in ran.error else None)
            fault = fault or (None if ends and ends[0][0] == strangers.ABORTED else f"it ends with {ends}")
            results.tell(f"{words[0]}, answered by {name}", fault)


def try_suspend(results: Results, place: list[str], watch: list[str]) -> None:
    """Tries whether a watcher that has suspended is told of the steps that it watched before, and of no others."""
    asked = [["suspend", "--receiver", "WATCHER"], ["create", "1.2.8.9"], ["claim", "1.2.8.0", *HOLDER]]
    statuses = [run(*words, *place).status for words in asked]
    ran = run(*watch)
    told = wrong(ran, DONE, "1.2.8.0 state: InputReadinessState=READY  ProcedureStepState=IN PROGRESS")
    fault = str(statuses) if any(statuses) else told or (ran.out if "1.2.8.9" in ran.out else None)
    results.tell("what is told behind suspend", fault)


def try_announce(results: Results) -> None:
    """Tries whether `announce` tells both of two watchers, here one watcher that is named twice."""
    for syntax, words, wanted in (
            (stock.EXPLICIT, [],
             {"SCPStatus": "RESTARTED", "SubscriptionListStatus": "COLD START", "UnifiedProcedureStepListStatus": "COLD START"}),
            (stock.IMPLICIT, ["--subscriptions", "WARM START"],
             {"SCPStatus": "RESTARTED", "SubscriptionListStatus": "WARM START", "UnifiedProcedureStepListStatus": "COLD START"}),
            (stock.IMPLICIT, ["--status", "GOING DOWN", "--implicit"], {"SCPStatus": "GOING DOWN"})):
        watcher = Watcher(syntax, 64)  # so each report takes several PDUs
        peers = [watcher.peer, watcher.peer + ",lock"]
        ran = run("announce", *peers, *words)
        fault = wrong(ran, DONE) or (None if ran.out.count("WATCHER: 0000 success") == 2 else ran.out)
        results.tell(f"announce {' '.join(words)}", fault)
        holds(lambda: watcher.released == 2, 5)
        events = [(4, GLOBAL, plain(wanted))] * 2
        results.tell(f"what is told of announce {' '.join(words)}", None if watcher.reports == events else str(watcher.reports))
        results.tell(f"the associations of announce {' '.join(words)}", "; ".join(watcher.faults) or None)


def main() -> None:
    parser = described(__doc__, "*")
    asked = parser.parse_args()
    install({})
    warnings.simplefilter("ignore")  # pydicom warns about the values that are tried
    signal.signal(signal.SIGALRM, lambda *_: sys.exit(f"client.py: not done in {ALL} seconds"))
    signal.alarm(ALL)
    results = Results()
    with tempfile.TemporaryDirectory() as folder:
        with Server(asked.program, "--keep", "3600", "WATCHER=127.0.0.1:1") as server:
            try_commands(results, server.port)
            try_json(results, server.port)
            try_status(results, server.port, folder)
            try_environment(results, server.port)
            try_work(results, server.port, folder)
            try_people(results, server.port)
        with Server(asked.program, "--keep", "3600") as server:
            wire = open_association(server.port, [each.encode() for each in stock.CONTEXTS], stock.EXPLICIT, LIMIT)
            try_check(results, wire, folder)
            wire.release()
        try_moving(results, asked.program, folder)
        try_scripts(results, asked.program, folder)
        try_health(results, asked.program, folder)
        try_rescue(results, asked.program, folder)
        try_explain(results, asked.program, folder)
        try_words(results, folder)
    try_strangers(results)
    try_allowed(results)
    try_slow(results)
    try_wrong_server(results)
    try_board(results, asked.program)
    try_verify(results, asked.program)
    try_watch(results, asked.program)
    try_announce(results)
    results.end("the client `ups`")


if __name__ == "__main__":
    main()
