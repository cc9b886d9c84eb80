#!/usr/bin/env python3
"""Tries `upsd serve` with stock software in its default settings, DCMTK's clients and pydicom, and with client/bin/ups.

It installs them if they are missing (`apt-get install -y dcmtk python3-pydicom`, which needs root; if the Python that
runs this has no pydicom, it goes on in /usr/bin/python3), starts servers on free ports of this machine, and ends by
itself. It prints a line for each trial that fails, and in the end how many passed. The status is 1 if any failed.

    echoscu      C-ECHO once; five times in one association; with all 38 transfer syntaxes that it knows proposed; then
                 an abort in place of the release; a called title that is not the server's, which is rejected
    findscu      proposes the SOP class of the modality worklist, and has no option for UPS: its presentation context is
                 refused, and the server goes on
    pydicom      writes and reads the command sets and data sets of the life of five steps, once in Implicit and once in
                 Explicit VR Little Endian: each is created, and then claimed, set, completed, canceled by request or by
                 its performer, queried, and watched by a subscription to it or to all
    ups          the client of this checkout, one association for each command: the life of three steps, of which one is
                 completed, one is canceled by request and one by its performer, with a watcher that takes its reports;
                 texts with umlauts and in Cyrillic, in UTF-8 and in a named character set, which are shown, found and
                 reported as they were given; keys within sequences, and the worklist of a station
    the watcher  is a peer of the server that listens here. It takes the server's associations, answers each
                 N-EVENT-REPORT with 0000, and compares the reports with PS3.4 section CC.2.4: the step, the type, the
                 data set and the order. A State Report may be left out if a later one of its step came in time
"""

import os
import signal
import socket
import struct
import subprocess
import sys
import threading
import time
from typing import Optional

sys.path.insert(0, os.path.join(os.path.dirname(os.path.dirname(os.path.abspath(__file__))), "check/lib"))
import dicom
from dicom import EXPLICIT, IMPLICIT, item, pdu
from machine import HERE, described, free_port, holds, install
from peer import Peer
from results import Results
from server import Server

LIMIT = 20  # seconds for one answer
ALL = 300  # seconds for all trials

PUSH, PULL = dicom.PUSH.decode(), dicom.PULL.decode()
WATCH = "1.2.840.10008.5.1.4.34.6.2"
EVENT = b"1.2.840.10008.5.1.4.34.6.4"
GLOBAL = "1.2.840.10008.5.1.4.34.5"
CONTEXTS = {PUSH: 1, PULL: 3, WATCH: 5}
STATE_REPORT = 1  # an Event Type ID

# the trials of DCMTK: a name, the words, the exit status, part of what is printed, and part of a line of the server's log
TRIALS = [
    ("C-ECHO", ["echoscu", "-v"], 0, "Received Echo Response (Success)", "serve: Released"),
    ("5 C-ECHO", ["echoscu", "-v", "--repeat", "5"], 0, "Received Echo Response (Success)", "serve: Released"),
    ("38 transfer syntaxes", ["echoscu", "-v", "-pts", "38"], 0, "Received Echo Response (Success)", "serve: Released"),
    ("an abort", ["echoscu", "-v", "--abort"], 0, "Aborting Association", "serve: AbortReceived"),
    ("another title", ["echoscu", "-v", "-aec", "OTHER"], 1, "Called AE Title Not Recognized", "serve: Rejected"),
    ("a worklist that is no UPS", ["findscu", "-v", "-W", "-k", "0010,0020"], 2, "No Acceptable Presentation Contexts", None),
    ("C-ECHO again", ["echoscu", "-v"], 0, "Received Echo Response (Success)", "serve: Released"),
]

# the trials of client/bin/ups, in order: a name, the words, the exit status, and part of what is printed
DONE, REFUSED, NO_ANSWER = 0, 1, 2
F, G, H = "1.2.3.6", "1.2.3.7", "1.2.3.8"
UMLAUTS, CYRILLIC, LATIN = "1.2.3.10", "1.2.3.11", "1.2.3.12"
LATIN_1 = ["-k", "SpecificCharacterSet=ISO_IR 100"]
STATION_CODE = "(0040,4025)[0].(0008,0100)=R1"
HOLDER = ["--transaction", "2.25.7"]
REPORTS = ["watch", "--ae", "WATCHER", "--associations", "1"]
CLIENT = [
    ("echo", ["echo"], DONE, "0000 success"),
    ("another title", ["echo", "--called", "OTHER"], NO_ANSWER, "the association was rejected (result 1, source 1, reason 7)"),
    ("subscribe", ["subscribe", "--receiver", "WATCHER"], DONE, "0000 success"),
    ("subscribe a stranger", ["subscribe", "--receiver", "STRANGER"], REFUSED, "C308"),
    ("create", ["create", F, "--label", "CT READ", "--patient-id", "P1", "--patient-name", "DOE^JANE"], DONE, "0000 success"),
    ("create again", ["create", F], REFUSED, "0111"),
    ("find", ["find", "--state", "SCHEDULED", "--label", "CT*"], DONE, f"{F}  DOE^JANE  P1  "),
    ("find nothing", ["find", "--label", "MR*"], DONE, "0 found"),
    ("claim", ["claim", F, *HOLDER], DONE, "0000 success"),
    ("claim what is claimed", ["claim", F, "--transaction", "2.25.8"], REFUSED, "C302"),
    ("set", ["set", F, *HOLDER, "-k", "ProcedureStepLabel=CT READ 2"], DONE, "0000 success"),
    ("set without the claim", ["set", F, "-k", "ProcedureStepLabel=CT READ 3"], REFUSED, "C301"),
    ("finish", ["finish", F, *HOLDER], DONE, "0000 success"),
    ("get what is set", ["get", F], DONE, "LO: 'CT READ 2'"),
    ("get what is finished", ["get", F], DONE, "CS: 'COMPLETED'"),
    ("get what is not there", ["get", "1.2.3.9"], REFUSED, "C307"),
    ("watch", REPORTS, DONE, f"{F} state: InputReadinessState=READY  ProcedureStepState=COMPLETED"),
    ("create another", ["create", G], DONE, "0000 success"),
    ("request to cancel what is scheduled", ["cancel", G, "--reason", "ILL"], DONE, "0000 success"),
    ("find what is canceled", ["find", "--state", "CANCELED"], DONE, "1 found"),
    ("watch the cancellation", REPORTS, DONE, f"{G} state: InputReadinessState=READY  ProcedureStepState=CANCELED"),
    ("create a third", ["create", H], DONE, "0000 success"),
    ("claim the third", ["claim", H, *HOLDER], DONE, "0000 success"),
    ("request to cancel what is claimed", ["cancel", H, "--reason", "ILL"], DONE, "0000 success"),
    ("watch the request", REPORTS, DONE, f"{H} cancel requested: "),
    ("cancel", ["finish", H, *HOLDER, "--canceled"], DONE, "0000 success"),
    ("watch the progress", REPORTS, DONE, f"{H} progress: ProcedureStepProgressInformationSequence=.."),
    ("unsubscribe", ["unsubscribe", "--receiver", "WATCHER"], DONE, "0000 success"),
    # texts that aren't ASCII
    ("create with umlauts", ["create", UMLAUTS, "--label", "KÖPFE", "--patient-id", "P2", "--patient-name", "MÜLLER^JÜRGEN"], DONE,
     "0000 success"),
    ("get umlauts", ["get", UMLAUTS], DONE, "PN: 'MÜLLER^JÜRGEN'"),
    ("get the character set", ["get", UMLAUTS], DONE, "CS: 'ISO_IR 192'"),
    ("find umlauts", ["find", "--label", "KÖPF*"], DONE, f"{UMLAUTS}  MÜLLER^JÜRGEN  P2  "),
    ("find one letter of them", ["find", "-k", "PatientName=M??LLER*"], DONE, "1 found"),  # it has two bytes, and bytes are compared
    ("create in Cyrillic, for a station", ["create", CYRILLIC, "--label", "КТ", "--patient-name", "ИВАНОВ^ИВАН", "-k", STATION_CODE,
     "-k", "ScheduledStationNameCodeSequence[0].CodeMeaning=РЕНТГЕН"], DONE, "0000 success"),
    ("get Cyrillic in a sequence", ["get", CYRILLIC], DONE, "LO: 'РЕНТГЕН'"),
    ("find by a name in Cyrillic", ["find", "-k", "PatientName=ИВАН*"], DONE, f"{CYRILLIC}  ИВАНОВ^ИВАН  -  "),
    ("create in a character set that is named", ["create", LATIN, "--patient-name", "MÜLLER", *LATIN_1], DONE, "0000 success"),
    ("get it", ["get", LATIN], DONE, "CS: 'ISO_IR 100'"),
    ("get its name", ["get", LATIN], DONE, "PN: 'MÜLLER'"),
    ("find it, beside the others", ["find"], DONE, f"{LATIN}  MÜLLER  -  "),
    ("a name that its character set lacks", ["create", "1.2.3.13", "--patient-name", "ИВАНОВ", *LATIN_1], NO_ANSWER, "can't be written"),
    ("a state that isn't ASCII", ["find", "--state", "FÄLLIG"], NO_ANSWER, "that is ASCII alone"),
    ("subscribe to one step", ["subscribe", "--receiver", "WATCHER", "--step", UMLAUTS], DONE, "0000 success"),
    ("request to cancel with umlauts", ["cancel", UMLAUTS, "--reason", "ÜBEL"], DONE, "0000 success"),
    ("watch umlauts", REPORTS, DONE, "ReasonForCancellation=ÜBEL"),
    # keys within sequences
    ("find the worklist of a station", ["find", "--station", "R1"], DONE, "{R1 РЕНТГЕН}  SCHEDULED"),
    ("find nothing else there", ["find", "--station", "R1"], DONE, "1 found"),
    ("find the worklist of another station", ["find", "--station", "R2"], DONE, "0 found"),
    ("find by a key in a sequence", ["find", "-k", STATION_CODE], DONE, f"{CYRILLIC}  "),
    ("find by keywords in a sequence", ["find", "-k", "ScheduledStationNameCodeSequence[0].CodeValue=R*"], DONE, "1 found"),
    ("find by hex digits in a sequence", ["find", "-k", "00404025[0].00080100=R2"], DONE, "0 found"),
    ("find by two keys of an item", ["find", "--station", "R1", "-k", "(0040,4025)[0].(0008,0104)=РЕНТГЕН"], DONE, "1 found"),
    ("find by two keys that no item has", ["find", "--station", "R1", "-k", "(0040,4025)[0].(0008,0102)=99A"], DONE, "0 found"),
    ("find with a sequence as a return key", ["find", "-k", "(0040,4018)"], DONE, "0000 success"),
    ("a key of two items", ["find", "-k", STATION_CODE, "-k", "(0040,4025)[1].(0008,0100)=R2"], REFUSED, "A900"),
    ("subscribe by a key in a sequence", ["subscribe", "--receiver", "WATCHER", "-k", STATION_CODE], DONE, "0000 success"),
    ("watch what it finds", REPORTS, DONE, f"{CYRILLIC} state: "),
    ("a sequence with a value", ["find", "-k", "ScheduledStationNameCodeSequence=R1"], NO_ANSWER, "is no attribute that can be given"),
    ("a second item without a first", ["find", "-k", "(0040,4025)[1].(0008,0100)=R1"], NO_ANSWER, "is no attribute that can be given"),
    ("an item of what is no sequence", ["find", "-k", "(0010,0020)[0].(0008,0100)=R1"], NO_ANSWER, "is no attribute that can be given"),
    ("a title of 17 characters", ["echo", "--ae", "A2345678901234567"], NO_ANSWER, "is no title"),
]


def by_dcmtk(server, words, status, told, logged):
    """Returns why a trial of DCMTK's clients fails, or None."""
    before = len(server.log)
    aec = [] if "-aec" in words else ["-aec", "UPSD"]
    client = [words[0]] + aec + words[1:] + ["127.0.0.1", str(server.port)]
    try:
        ran = subprocess.run(client, capture_output=True, text=True, timeout=LIMIT)
    except subprocess.TimeoutExpired:
        return f"{' '.join(client)} does not end"
    said = ran.stdout + ran.stderr
    if (ran.returncode == 0) != (status == 0):
        return f"{' '.join(client)} ended with {ran.returncode}: {said.strip()}"
    if told not in said:
        return f"{' '.join(client)} did not tell {told!r}: {said.strip()}"
    if logged and not holds(lambda: any(logged in line for line in server.log[before:]), 5):
        return f"the server did not log {logged!r}: {server.log[before:]}"
    return None


def by_client(words: list[str], status: int, told: str) -> Optional[str]:
    """Returns why a trial of client/bin/ups fails, or None."""
    client = [sys.executable, os.path.join(HERE, "client/bin/ups"), *words]
    try:
        utf_8 = {**os.environ, "PYTHONIOENCODING": "utf-8"}
        ran = subprocess.run(client, capture_output=True, encoding="utf-8", timeout=LIMIT, env=utf_8)
    except subprocess.TimeoutExpired:
        return f"ups {' '.join(words)} does not end"
    said = ran.stdout + ran.stderr
    if ran.returncode != status:
        return f"ups {' '.join(words)} ended with {ran.returncode} and not {status}: {said.strip()}"
    return None if told in said else f"ups {' '.join(words)} did not tell {told!r}: {said.strip()}"


def live_by_client(program: list[str], results: Results, reports: bool) -> None:
    """Tries the life of steps through client/bin/ups, with or without its reports."""
    watcher = free_port()
    with Server(program, "--timeout", "10", "--keep", "3600", f"WATCHER=127.0.0.1:{watcher}") as server:
        for name, words, status, told in CLIENT:
            if words is not REPORTS:
                results.tell(f"ups, {name}", by_client([*words, "--port", str(server.port)], status, told))
            elif reports:
                results.tell(f"ups, {name}", by_client([*words, "--listen", str(watcher)], status, told))


# pydicom: data sets are given by keyword, a sequence as a list of items

def made(attributes):
    from pydicom.dataset import Dataset
    found = Dataset()
    for keyword, value in attributes.items():
        setattr(found, keyword, [made(each) for each in value] if keyword.endswith("Sequence") else value)
    return found


def spelled(given, syntax):
    from pydicom.filebase import DicomBytesIO
    from pydicom.filewriter import write_dataset
    out = DicomBytesIO()
    out.is_little_endian, out.is_implicit_VR = True, syntax == IMPLICIT
    write_dataset(out, given)
    return out.getvalue()


def read(found, syntax):
    from pydicom.filebase import DicomBytesIO
    from pydicom.filereader import read_dataset
    return read_dataset(DicomBytesIO(found), syntax == IMPLICIT, True)


class Wire(Peer):
    """An association, on either side of it, whose command sets and data sets pydicom writes and reads."""

    def __init__(self, connection, syntax):
        self.use(connection)
        self.syntax, self.number = syntax, 0
        self.longest = 0  # bytes of the longest P-DATA-TF that came

    def pdu(self):
        kind, body = super().pdu()
        if kind == 4:
            self.longest = max(self.longest, len(body))
        return kind, body

    def ahead(self):
        """Returns the type of the next PDU, which is left to be read."""
        self.left = self.take(6) + self.left
        return self.left[0]

    def send(self, context, elements, given=None):
        command = made({**elements, "CommandDataSetType": 0x0101 if given is None else 1})
        command.CommandGroupLength = len(spelled(command, IMPLICIT))
        data_set = None if given is None else spelled(made(given), self.syntax)
        self.socket.sendall(dicom.message(context, spelled(command, IMPLICIT), data_set))

    def message(self):
        """Returns a command set, and a data set if one follows, or None."""
        command = read(self.fragments(True), IMPLICIT)
        return command, None if command.CommandDataSetType == 0x0101 else read(self.fragments(False), self.syntax)

    def ask(self, context, elements, given=None):
        """Sends a request, and returns the responses to it."""
        self.number += 1
        self.send(CONTEXTS[context], {**elements, "MessageID": self.number}, given)
        responses = [self.message()]
        while responses[-1][0].Status in (0xFF00, 0xFF01):
            responses.append(self.message())
        return responses


def open_association(port, contexts, syntax, seconds=LIMIT):
    wire = Wire(socket.create_connection(("127.0.0.1", port), seconds), syntax)
    wire.socket.sendall(dicom.associate([(abstract, syntax) for abstract in contexts]))
    kind, _ = wire.pdu()
    assert kind == 2, f"the association is answered with a PDU of type {kind}"
    return wire


# the requests: the SOP class of the context, the command set, the data set

def create(uid, **changes):
    return PUSH, {"AffectedSOPClassUID": PUSH, "CommandField": 0x0140, "AffectedSOPInstanceUID": uid}, {**STEP, **changes}


def find(context, **keys):
    return context, {"AffectedSOPClassUID": context, "CommandField": 0x0020, "Priority": 0}, keys


def get(context, uid, *tags):
    listed = {"AttributeIdentifierList": list(tags)} if tags else {}
    return context, {"RequestedSOPClassUID": PUSH, "CommandField": 0x0110, "RequestedSOPInstanceUID": uid, **listed}, None


def change(uid, **attributes):
    return PULL, {"RequestedSOPClassUID": PUSH, "CommandField": 0x0120, "RequestedSOPInstanceUID": uid}, attributes


def act(context, action, uid, **attributes):
    return context, {"RequestedSOPClassUID": PUSH, "CommandField": 0x0130, "RequestedSOPInstanceUID": uid, "ActionTypeID": action}, attributes


def move(uid, state, transaction="1.2.9.1"):
    return act(PULL, 1, uid, ProcedureStepState=state, TransactionUID=transaction)


def cancel(context, uid, **attributes):
    return act(context, 2, uid, **attributes)


def subscribe(uid, watcher="WATCHER", lock="FALSE"):
    return act(WATCH, 3, uid, ReceivingAE=watcher, DeletionLock=lock)


def unsubscribe(uid):
    return act(WATCH, 4, uid, ReceivingAE="WATCHER")


def suspend():
    return act(WATCH, 5, GLOBAL, ReceivingAE="WATCHER")


def state(uid, now, readiness="READY", **more):
    """Returns the event that reports the state of a step."""
    return 1, uid, {"ProcedureStepState": now, "InputReadinessState": readiness, **more}


A, B, C, D, E = (f"1.2.3.{i}" for i in range(1, 6))
OWN = {"TransactionUID": "1.2.9.1"}
CODE = [{"CodeValue": "C1", "CodingSchemeDesignator": "99A", "CodeMeaning": "A code"}]
STEP = {"PatientName": "DOE^JANE", "PatientID": "P1", "ScheduledProcedureStepStartDateTime": "20240229120000",
        "ScheduledWorkitemCodeSequence": CODE, "InputReadinessState": "READY", "ProcedureStepState": "SCHEDULED",
        "ScheduledProcedureStepPriority": "MEDIUM", "ProcedureStepLabel": "CT READ", "WorklistLabel": "READS"}
PROGRESS = {"ProcedureStepProgressInformationSequence": [{"ProcedureStepProgress": "50"}]}
GIVEN_UP = {"ProcedureStepProgressInformationSequence": [{"ProcedureStepCancellationDateTime": "20240229120300"}]}
STATION = {"ScheduledStationNameCodeSequence": CODE}
HUMAN = {"HumanPerformerCodeSequence": CODE, "HumanPerformerOrganization": "RADIOLOGY"}
PERFORMED = {"UnifiedProcedureStepPerformedProcedureSequence": [
    {"PerformedProcedureStepStartDateTime": "20240229120100", "PerformedProcedureStepEndDateTime": "20240229120200"}]}
WHY = {"ReasonForCancellation": "ILL", "ProcedureStepDiscontinuationReasonCodeSequence": CODE}
WHOM = {"ContactURI": "tel:1", "ContactDisplayName": "DOE"}
STATE, LABEL = 0x00741000, 0x00741204

# the trials of pydicom: a name, the request, the status, the data sets of the answer, and the events of the watcher
LIFE = [
    ("subscribe to all", subscribe(GLOBAL), 0, [], []),
    ("subscribe a stranger", subscribe(GLOBAL, "STRANGER"), 0xC308, [], []),
    ("create", create(A, InputReadinessState="INCOMPLETE"), 0, [], [state(A, "SCHEDULED", "INCOMPLETE")]),
    ("create again", create(A), 0x0111, [], []),
    ("set before the claim", change(A, InputReadinessState="READY"), 0, [], [state(A, "SCHEDULED")]),
    ("get", get(PUSH, A), 0, [{"SOPClassUID": PUSH, "SOPInstanceUID": A, **STEP}], []),
    ("get two attributes", get(PULL, A, STATE, LABEL), 0, [{"ProcedureStepState": "SCHEDULED", "ProcedureStepLabel": "CT READ"}], []),
    ("find", find(PULL, SOPInstanceUID="", ProcedureStepState="SCHEDULED", ProcedureStepLabel="CT*"), 0,
     [{"SOPInstanceUID": A, "ProcedureStepState": "SCHEDULED", "ProcedureStepLabel": "CT READ"}], []),
    ("find nothing", find(WATCH, ProcedureStepLabel="MR*"), 0, [], []),
    ("claim", move(A, "IN PROGRESS"), 0, [], [state(A, "IN PROGRESS")]),
    ("claim what is claimed", move(A, "IN PROGRESS", "1.2.9.2"), 0xC302, [], []),
    ("set without the claim", change(A, **PROGRESS), 0xC301, [], []),
    ("set the progress", change(A, **OWN, **PROGRESS), 0, [], [(3, A, PROGRESS)]),
    ("assign", change(A, **OWN, **STATION, ScheduledHumanPerformersSequence=[HUMAN]), 0, [], [(5, A, {**STATION, **HUMAN})]),
    ("complete too early", move(A, "COMPLETED"), 0xC304, [], []),
    ("set what was performed", change(A, **OWN, **PERFORMED), 0, [], []),
    ("complete", move(A, "COMPLETED"), 0, [], [state(A, "COMPLETED")]),
    ("complete again", move(A, "COMPLETED"), 0xB306, [], []),
    ("request to cancel what is completed", cancel(WATCH, A), 0xC311, [], []),
    ("get what is completed", get(WATCH, A, STATE, 0x00741216), 0, [{"ProcedureStepState": "COMPLETED", **PERFORMED}], []),
    ("create another", create(B), 0, [], [state(B, "SCHEDULED")]),
    ("request to cancel what is scheduled", cancel(PUSH, B, **WHY), 0, [],
     [state(B, "IN PROGRESS"), state(B, "CANCELED", **WHY)]),
    ("get what is canceled", get(PUSH, B, STATE), 0, [{"ProcedureStepState": "CANCELED"}], []),
    ("create a third", create(C), 0, [], [state(C, "SCHEDULED")]),
    ("claim the third", move(C, "IN PROGRESS"), 0, [], [state(C, "IN PROGRESS")]),
    ("request to cancel what is claimed", cancel(WATCH, C, **WHY, **WHOM), 0, [],
     [(2, C, {"RequestingAE": "BENCH", **WHY, **WHOM})]),
    ("get what is claimed", get(PUSH, C, STATE), 0, [{"ProcedureStepState": "IN PROGRESS"}], []),
    ("set the cancellation", change(C, **OWN, **GIVEN_UP), 0, [], [(3, C, GIVEN_UP)]),
    ("cancel", move(C, "CANCELED"), 0, [], [state(C, "CANCELED")]),
    ("unsubscribe from all", unsubscribe(GLOBAL), 0, [], []),
    ("create unwatched", create(D), 0, [], []),
    ("subscribe to one with a lock that is not given", subscribe(D, lock="TRUE"), 0xB301, [], [state(D, "SCHEDULED")]),
    ("claim the fourth", move(D, "IN PROGRESS"), 0, [], [state(D, "IN PROGRESS")]),
    ("unsubscribe from one", unsubscribe(D), 0, [], []),
    ("set unwatched", change(D, **OWN, **PROGRESS), 0, [], []),
    ("subscribe to all again", subscribe(GLOBAL), 0, [],
     [state(A, "COMPLETED"), state(B, "CANCELED"), state(C, "CANCELED"), state(D, "IN PROGRESS")]),
    ("suspend", suspend(), 0, [], []),
    ("create when suspended", create(E), 0, [], []),
    ("set what is still watched", change(D, **OWN, InputReadinessState="UNAVAILABLE", **PROGRESS, **STATION), 0, [],
     [state(D, "IN PROGRESS", "UNAVAILABLE"), (3, D, PROGRESS), (5, D, STATION)]),
]


def plain(found):
    """Returns a data set in a form that can be compared and printed."""
    return (found if hasattr(found, "to_json_dict") else made(found)).to_json_dict()


def wrong(responses, asked, number, status, answers):
    """Returns what is wrong with the responses to a request, or None."""
    last, _ = responses[-1]
    if last.Status != status:
        return f"the status is {last.Status:04X} and not {status:04X}"
    for command, _ in responses:
        told = [command.CommandField, command.MessageIDBeingRespondedTo, command.get("AffectedSOPClassUID"),
                command.get("AffectedSOPInstanceUID"), command.get("ActionTypeID")]
        wanted = [asked["CommandField"] | 0x8000, number, asked.get("AffectedSOPClassUID") or asked["RequestedSOPClassUID"],
                  asked.get("AffectedSOPInstanceUID") or asked.get("RequestedSOPInstanceUID"), asked.get("ActionTypeID")]
        if told != wanted:
            return f"the response is {told} and not {wanted}"
    found = [plain(data_set) for _, data_set in responses if data_set is not None]
    wanted = [plain(each) for each in answers]
    return None if found == wanted else f"the answer is {found} and not {wanted}"


class Watcher:
    """A peer that listens, takes one association after the other, and keeps the reports and what is wrong with them."""

    def __init__(self, syntax, longest=16384):
        self.syntax, self.longest, self.reports, self.faults, self.released = syntax, longest, [], [], 0
        self.listener = socket.create_server(("127.0.0.1", 0))
        self.peer = f"WATCHER=127.0.0.1:{self.listener.getsockname()[1]}"
        threading.Thread(target=self.listen, daemon=True).start()

    def listen(self):
        while True:
            wire = Wire(self.listener.accept()[0], self.syntax)
            wire.socket.settimeout(LIMIT)
            try:
                self.accept(wire)
                while wire.ahead() != 5:
                    self.take(wire)
                wire.pdu()
                wire.socket.sendall(pdu(6, bytes(4)))
                if wire.longest > self.longest:
                    self.faults.append(f"a P-DATA-TF has {wire.longest} bytes")
                self.released += 1
            except Exception as fault:
                self.faults.append(f"an association was not released: {fault!r}")
            wire.socket.close()

    def expect(self, what, told, wanted):
        if told != wanted:
            self.faults.append(f"{what} is {told} and not {wanted}")

    def accept(self, wire):
        """Answers an association request, in the watcher's transfer syntax if it is offered."""
        kind, body = wire.pdu()
        self.expect("the type of the first PDU", kind, 1)
        self.expect("the called and the calling title", (body[4:20].strip(), body[20:36].strip()), (b"WATCHER", b"UPSD"))
        parts = list(items(body[68:]))
        contexts = [(content[0], list(items(content[4:]))) for kind, content in parts if kind == 0x20]
        self.expect("the contexts", [(number, dict(inner)[0x30]) for number, inner in contexts], [(1, EVENT)])
        offered = [content for kind, content in contexts[0][1] if kind == 0x40]
        self.expect("the offer of the default transfer syntax", IMPLICIT in offered, True)
        roles = [content for kind, content in items(dict(parts)[0x50]) if kind == 0x54]
        role = struct.pack(">H", len(EVENT)) + EVENT + bytes([0, 1])
        self.expect("the role selection", roles, [role])
        wire.syntax = self.syntax if self.syntax in offered else offered[0]
        user = item(0x51, struct.pack(">I", self.longest)) + item(0x52, b"1.2.3") + item(0x54, role)
        context = item(0x21, bytes([contexts[0][0], 0, 0, 0]) + item(0x40, wire.syntax))
        wire.socket.sendall(pdu(2, body[:68] + item(0x10, b"1.2.840.10008.3.1.1.1") + context + item(0x50, user)))

    def take(self, wire):
        """Takes a report, and answers it with 0000."""
        command, data_set = wire.message()
        wire.number += 1
        self.expect("the Command Field", command.CommandField, 0x0100)
        self.expect("the SOP class of a report", command.AffectedSOPClassUID, PUSH)
        self.expect("the Message ID of a report", command.MessageID, wire.number)
        self.reports.append((command.EventTypeID, command.AffectedSOPInstanceUID, plain(data_set or {})))
        wire.send(1, {"AffectedSOPClassUID": PUSH, "CommandField": 0x8100, "MessageIDBeingRespondedTo": command.MessageID,
                      "Status": 0, "AffectedSOPInstanceUID": command.AffectedSOPInstanceUID, "EventTypeID": command.EventTypeID})


def items(body):
    """Yields the type and the content of the items of an association request, or of one of its items."""
    while body:
        length = struct.unpack(">H", body[2:4])[0]
        yield body[0], body[4:4 + length]
        body = body[4 + length:]


def live(server, syntax, results, name):
    """Tries the life of the steps."""
    wire = None
    for what, (context, elements, given), status, answers, _ in LIFE:
        try:
            wire = wire or open_association(server.port, [it.encode() for it in CONTEXTS], syntax)
            fault = wrong(wire.ask(context, elements, given), elements, wire.number, status, answers)
        except Exception as it:
            fault, wire = repr(it), None
        results.tell(f"{name}, {what}", fault)
    try:
        fault = wire.release()
    except Exception as it:
        fault = repr(it)
    results.tell(f"{name}, release", fault)


def watch(watcher, results, name):
    """Tries the reports of that life: all in order, but for State Reports that later ones of their steps superseded in time."""
    wanted = [(what, (number, uid, plain(attributes))) for what, *_, events in LIFE for number, uid, attributes in events]
    holds(lambda: watcher.reports[-1:] == [wanted[-1][1]], LIMIT)
    time.sleep(2)  # for those that should not come, and for the release
    left, faults, later = list(watcher.reports), [], set()
    for what, event in reversed(wanted):
        came = left[-1:] == [event]
        is_state, found = event[0] == STATE_REPORT, left[-1] if left else None
        faults.append((what, None if came or is_state and event[1] in later else f"it is {found} and not {event}"))
        if came:
            left.pop()
        if is_state:
            later.add(event[1])
    for at, (what, fault) in enumerate(reversed(faults)):
        results.tell(f"{name}, report {at + 1} ({what})", fault)
    results.tell(f"{name}, further reports", f"there are {left}" if left else None)
    unreleased = None if watcher.released else "none was released"
    results.tell(f"{name}, associations of the watcher", "; ".join(watcher.faults) or unreleased)


def main():
    parser = described(__doc__, "*")
    parser.add_argument("--no-reports", action="store_true", help="leave the trials of the watcher out: the server sends no reports")
    asked = parser.parse_args()
    install({"echoscu": "dcmtk", "findscu": "dcmtk"})
    signal.signal(signal.SIGALRM, lambda *_: sys.exit(f"stock.py: not done in {ALL} seconds"))
    signal.alarm(ALL)
    results = Results(tells_passed=False)
    with Server(asked.program, "--associations", "2", "--timeout", "10") as server:
        for name, *trial in TRIALS:
            results.tell(name, by_dcmtk(server, *trial))
        ended = server.process.poll()
        results.tell("the server goes on", None if ended is None else f"it ended with {ended}")
    for syntax, name in ((IMPLICIT, "Implicit"), (EXPLICIT, "Explicit")):
        watcher = Watcher(syntax)
        with Server(asked.program, "--associations", "2", "--timeout", "10", "--keep", "3600", watcher.peer) as server:
            live(server, syntax, results, name)
            if not asked.no_reports:
                watch(watcher, results, name)
    live_by_client(asked.program, results, not asked.no_reports)
    import pydicom
    version = subprocess.run(["echoscu", "--version"], capture_output=True, text=True).stdout.split("\n")[0]
    results.end(f"{version.strip('$ ')}, pydicom {pydicom.__version__}")


if __name__ == "__main__":
    main()
