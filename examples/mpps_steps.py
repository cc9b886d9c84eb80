#!/usr/bin/python3
"""Claims and ends steps by what modalities report: the SCP of Modality Performed Procedure Step (PS3.4 annex F) beside a UPS manager.

    mpps_steps.py --listen 11115 --address 0.0.0.0 [--ae MPPS] [--allow 10.1.0.0/16] [--state /var/lib/ups-mpps] [--every 10]

A modality says by N-CREATE that it has begun: its step is claimed. By N-SET it says that it is done, or has stopped: the step gets what
was performed, and is COMPLETED, or CANCELED with the reason. Its step is that which mwl_steps.py makes of the Study Instance UID and the
Scheduled Procedure Step ID, or else the only SCHEDULED one whose Referenced Request Sequence has the study, or else the Accession
Number, and which is for this station or on the worklist of this modality.

The modality is answered once its words are in a file, also while the manager is away; each --every seconds the manager is asked for what
is not done yet. If there is no step, or another performer has it, the answer is success too, so that nothing stops the modality, and a
line on standard error says so. Each Transaction UID is in a file, synced, before its step is claimed: no restart loses a claim.

It needs python3-pydicom and the modules of the client `ups`, whose options name the manager, and TLS; --ae is the title for both sides.
"""

from __future__ import annotations

import argparse
import json
import os
import re
import sys
import threading
import time
import uuid
from typing import Any, NamedTuple

sys.path[:0] = [os.path.join(os.path.dirname(os.path.dirname(os.path.realpath(__file__))), "client"), "/usr/share/ups"]
from pydicom.dataset import Dataset

from ups.association import Association, associated
from ups.datasets import made, read
from ups.dicom_json import json_of_element, of_json
from ups.faults import Broken, Refused, Unexpected, complain, printable
from ups.files import write_whole
from ups.finishing import begun, canceled, end_step, in_characters_of, text_for
from ups.listening import listener_of, request_of, take_in_threads
from ups.messages import number_of_command, uid_of_command
from ups.moments import dt_of_parts
from ups.operations import FIND, change, get_step, update
from ups.options import add_listening, common, of_environment
from ups.terms import EXPLICIT, IMPLICIT, PULL, STATES, VERIFICATION, is_done, new_uid, told
from ups.words import duration_word

Json = dict[str, Any]
MPPS = "1.2.840.10008.3.1.2.3.3"
ECHO, SET, CREATE, RESPONSE = 0x0030, 0x0120, 0x0140, 0x8000  # Command Fields (PS3.7 section E.1)
BEGUN, DONE, STOPPED = "IN PROGRESS", "COMPLETED", "DISCONTINUED"  # Performed Procedure Step Status
# statuses of responses (PS3.7 annex C)
INVALID, FAILED, CREATED_BEFORE, NOT_THERE, WRONG_CLASS, MISSING, UNKNOWN = 0x0106, 0x0110, 0x0111, 0x0112, 0x0118, 0x0120, 0x0211
FINAL = 0xA710  # Error ID: the MPPS may no longer be updated (PS3.4 section F.7.2.2)
CLAIMED, FULL = 0xC302, (0x0213, 0xA700)  # of the manager: the step is claimed; there is no room for now
AT_ONCE = 64  # associations
LONGEST = 16 << 20  # bytes of a message: an MPPS names each image
MOST = 4000  # instances that a step names: of more it names the series alone, since a step has 1 MiB at most
KEPT = 30 * 86400  # seconds for which an MPPS that is over is known
STATUS, ITEMS = "00400252", "00400270"
KEYWORDS = ("ScheduledStepAttributesSequence", "PerformedStationAETitle", "PerformedStationName", "Modality", "TimezoneOffsetFromUTC",
            "PerformedProcedureStepStartDate", "PerformedProcedureStepStartTime", "PerformedProcedureStepEndDate",
            "PerformedProcedureStepEndTime", "PerformedProcedureStepStatus", "ProcedureCodeSequence", "PerformedSeriesSequence",
            "PerformedProcedureStepDiscontinuationReasonCodeSequence")


class Claim(NamedTuple):
    """A step, its study, the Transaction UID of its claim, and whether it is held, and over."""

    step: str
    study: str
    transaction: str
    is_held: bool = False
    is_over: bool = False


class Report(NamedTuple):
    """An MPPS: what was said, as DICOM JSON; a claim, at most, for each item of Scheduled Step Attributes Sequence; and when all was
    done, in seconds since 1970."""

    said: Json
    claims: dict[str, Claim]
    over: float = 0

    def status(self) -> str:
        return str(self.said.get(STATUS, {}).get("Value", [""])[0])

    def waits(self) -> bool:
        """Returns whether the manager is to be asked for something."""
        is_lacking = len(self.claims) < len(self.said.get(ITEMS, {}).get("Value", []))
        return not self.over and (is_lacking or self.status() != BEGUN or not all(it.is_held or it.is_over for it in self.claims.values()))


class Reports:
    """All MPPS, each in a file of a folder."""

    def __init__(self, folder: str) -> None:
        self.folder, self.lock, self.woken = folder, threading.RLock(), threading.Event()
        self.all: dict[str, Report] = {}
        os.makedirs(folder, mode=0o700, exist_ok=True)
        for name in os.listdir(folder):
            if name.endswith(".json"):
                with open(os.path.join(folder, name), encoding="utf-8") as file:
                    said, claims, over = json.load(file).values()
                self.all[name[:-5]] = Report(said, {place: Claim(**it) for place, it in claims.items()}, over)

    def put(self, uid: str, **changes: Any) -> None:
        """Changes an MPPS, or adds it: in its file first, which is synced."""
        with self.lock:
            report = self.all.get(uid, Report({}, {}))._replace(**changes)
            claims = {place: it._asdict() for place, it in report.claims.items()}
            write_whole(os.path.join(self.folder, f"{uid}.json"), json.dumps({**report._asdict(), "claims": claims}), 0o600)
            self.all[uid] = report

    def take(self, kind: int, uid: str, given: Dataset) -> int:
        """Takes an N-CREATE or an N-SET, and returns its status (PS3.4 section F.7.2)."""
        said = {f"{int(given[it].tag):08X}": json_of_element(given[it]) for it in KEYWORDS if given.get(it)}
        status = given.get("PerformedProcedureStepStatus") or ""
        with self.lock:
            before = self.all.get(uid)
            if kind == CREATE and (before or status != BEGUN):
                return CREATED_BEFORE if before else INVALID if status else MISSING
            if kind == SET and (before is None or before.status() != BEGUN or status not in ("", BEGUN, DONE, STOPPED)):
                return NOT_THERE if before is None else FAILED if before.status() != BEGUN else INVALID
            self.put(uid, said={**(before.said if before else {}), **said})
        self.woken.set()
        return 0

    def forget(self) -> None:
        """Forgets each MPPS that has been over for long."""
        with self.lock:
            for uid in [uid for uid, it in self.all.items() if 0 < it.over < time.time() - KEPT]:
                os.unlink(os.path.join(self.folder, f"{uid}.json"))
                del self.all[uid]


def answer_to(reports: Reports, command: Dataset, of: str, given: Dataset) -> Json:
    """Does what a modality asks for, and returns the response."""
    kind = number_of_command(command, "CommandField")
    said = {"AffectedSOPClassUID": of, "CommandField": kind | RESPONSE, "MessageIDBeingRespondedTo": number_of_command(command, "MessageID")}
    if of == VERIFICATION or kind not in (CREATE, SET):
        return {**said, "Status": 0 if of == VERIFICATION and kind == ECHO else UNKNOWN}
    side = "Affected" if kind == CREATE else "Requested"
    uid = uid_of_command(command, f"{side}SOPInstanceUID")
    status = reports.take(kind, uid, given) if command.get(f"{side}SOPClassUID") == MPPS else WRONG_CLASS
    return {**said, "AffectedSOPInstanceUID": uid, "Status": status, **({"ErrorID": FINAL} if status == FAILED else {})}


def take(association: Association, reports: Reports, asked: argparse.Namespace) -> None:
    """Takes what a modality says over an association."""
    request, caller = request_of(association, asked)
    association.most = LONGEST
    association.accept(request, (MPPS, VERIFICATION), (EXPLICIT, IMPLICIT), b"")
    while (found := association.message()) is not None:
        context, command, data = found
        if context not in association.accepted:
            raise Unexpected(f"a message on presentation context {context}, which was not accepted")
        of, implicit = association.accepted[context]
        given = Dataset() if data is None else read(data, implicit)
        answer = answer_to(reports, command, of, given)
        if uid := answer.get("AffectedSOPInstanceUID"):
            print(printable(f"{caller} {uid} {given.get('PerformedProcedureStepStatus') or '-'}: {answer['Status']:04X}"), flush=True)
        association.send(context, answer)


def moment_of(said: Dataset, what: str) -> str:
    """Returns when it has begun (Start) or ended (End), as a DT."""
    names = (f"PerformedProcedureStep{what}Date", f"PerformedProcedureStep{what}Time", "TimezoneOffsetFromUTC")
    return dt_of_parts(*(str(said.get(it) or "") for it in names))


def output_of(said: Dataset, study: str) -> list[Dataset]:
    """Returns Output Information Sequence: each series, its instances, and where it is retrieved (PS3.3 table 10-3b)."""
    found, count = [], 0
    for series in said.get("PerformedSeriesSequence") or []:
        instances = [one for it in ("ReferencedImageSequence", "ReferencedNonImageCompositeSOPInstanceSequence") for one in series.get(it) or []]
        titles = re.findall(r"[^\[\]',\\]+", str(series.get("RetrieveAETitle") or ""))
        one = made({"TypeOfInstances": "DICOM", "StudyInstanceUID": study, "SeriesInstanceUID": series.get("SeriesInstanceUID", ""),
                    "DICOMRetrievalSequence": [{"RetrieveAETitle": it} for it in titles[:1]]})
        names, count = ("ReferencedSOPClassUID", "ReferencedSOPInstanceUID"), count + len(instances)
        one.ReferencedSOPSequence = [made({it: each.get(it, "") for it in names}) for each in instances]
        found.append(one)
    for one in found if count > MOST else ():
        del one.ReferencedSOPSequence
    return found


def codes_of(given: list[Dataset], step: Dataset) -> list[Dataset]:
    """Returns codes for a step."""
    names = ("CodeValue", "CodingSchemeDesignator", "CodingSchemeVersion", "CodeMeaning")
    return [made({it: text_for(step, str(each.get(it))) for it in names if each.get(it)}) for each in given]


def performed(said: Dataset, study: str, step: Dataset) -> Dataset:
    """Returns the Performed Procedure Sequence of a step (PS3.4 table CC.2.5-3), by what its modality has said so far."""
    title = str(said.get("PerformedStationAETitle") or "MODALITY")
    station = made({"CodeValue": title, "CodingSchemeDesignator": "99LOCAL", "CodeMeaning": said.get("PerformedStationName") or title})
    found = begun(step, title)
    found.PerformedStationNameCodeSequence = codes_of([station], step)
    found.PerformedProcedureStepStartDateTime = moment_of(said, "Start")
    found.OutputInformationSequence = output_of(said, study)
    if said.get("ProcedureCodeSequence"):
        found.PerformedWorkitemCodeSequence = codes_of(said.ProcedureCodeSequence, step)
    if said.PerformedProcedureStepStatus != BEGUN:
        found.PerformedProcedureStepEndDateTime = moment_of(said, "End")
    return in_characters_of(step, "UnifiedProcedureStepPerformedProcedureSequence", found)


def stopped(said: Dataset, study: str, step: Dataset) -> Dataset:
    """Returns what was performed until it stopped, and when and why that was."""
    why = codes_of(said.get("PerformedProcedureStepDiscontinuationReasonCodeSequence") or [], step)
    found = canceled(step, str(why[0].get("CodeMeaning", "")) if why else None)
    one = found.ProcedureStepProgressInformationSequence[0]
    one.ProcedureStepCancellationDateTime = moment_of(said, "End")
    one.ProcedureStepDiscontinuationReasonCodeSequence = why or one.ProcedureStepDiscontinuationReasonCodeSequence
    found.update(performed(said, study, step))
    return found


def is_for(step: Dataset, said: Dataset) -> bool:
    """Returns whether a step is for the station of an MPPS, or on the worklist of its modality."""
    stations = [it.get("CodeValue") for it in step.get("ScheduledStationNameCodeSequence") or []]
    return said.get("PerformedStationAETitle") in stations or step.get("WorklistLabel") == (said.get("Modality") or None)


def step_for(association: Association, said: Dataset, item: Dataset) -> str:
    """Returns the UID of the step of an item of Scheduled Step Attributes Sequence. Raises LookupError if there is none, or several."""
    study, number, accession = (str(item.get(it) or "") for it in ("StudyInstanceUID", "ScheduledProcedureStepID", "AccessionNumber"))
    uid = f"2.25.{uuid.uuid5(uuid.NAMESPACE_OID, f'{study} {number}').int}"
    found: list[str] = []
    if is_done(get_step(association, uid)[0]):
        return uid
    for keyword, value in (("StudyInstanceUID", study), ("AccessionNumber", accession)):
        if value and not found:
            keys = {"SOPInstanceUID": "", "ProcedureStepState": STATES[0], "WorklistLabel": "", "ScheduledStationNameCodeSequence": [],
                    "ReferencedRequestSequence": [{keyword: value}]}
            answers = association.ask(PULL, FIND, made(keys))
            if status := number_of_command(answers[-1][0], "Status"):
                raise (Refused if status in FULL else LookupError)(told(status))
            found = [str(it.SOPInstanceUID) for _, it in answers if it is not None and is_for(it, said)]
    if len(found) != 1:
        raise LookupError(f"{len(found) or 'no'} steps for the study {study or '-'} and the accession number {accession or '-'}")
    return found[0]


class Follower:
    """Has the steps of the manager follow what modalities say."""

    def __init__(self, reports: Reports, asked: argparse.Namespace) -> None:
        self.reports, self.asked = reports, asked
        self.complaints: dict[str, str] = {}

    def complain(self, about: str, why: str) -> None:
        """Says why something is not done, unless that was said before."""
        if self.complaints.get(about) != why:
            self.complaints = {**(self.complaints if len(self.complaints) < 1000 else {}), about: why}
            complain(f"{about}: {why}")

    def find(self, association: Association, uid: str, said: Dataset) -> None:
        """Finds the steps of items that have none yet, and keeps a Transaction UID for each."""
        for place, item in enumerate(said.get("ScheduledStepAttributesSequence") or []):
            claims = self.reports.all[uid].claims
            try:
                if str(place) not in claims:
                    step, study = step_for(association, said, item), str(item.get("StudyInstanceUID") or "")
                    claim = Claim(step, study, new_uid(), is_over=step in [it.step for it in claims.values()])
                    self.reports.put(uid, claims={**claims, str(place): claim})
            except LookupError as fault:
                self.complain(f"{uid}, item {place + 1}", str(fault))

    def note(self, uid: str, place: str, claim: Claim, what: str, status: int) -> Claim:
        """Keeps what became of a claim, and tells it."""
        if status in FULL:
            raise Refused(told(status))
        self.reports.put(uid, claims={**self.reports.all[uid].claims, place: claim})
        if is_done(status):
            print(f"{uid}: {claim.step} is {what}: {told(status)}", flush=True)
        else:
            complain(f"{uid}: {claim.step} is not {what} with {claim.transaction}: {told(status)}")
        return claim

    def begin(self, association: Association, said: Dataset, claim: Claim) -> int:
        """Claims a step, also if the answer to an earlier claim was lost, and sets when and where it has begun."""
        status = change(association, claim.step, claim.transaction, STATES[1])
        if status == CLAIMED:
            status = update(association, claim.step, claim.transaction, Dataset())  # which is refused if another performer has it
        step = get_step(association, claim.step)[1] if is_done(status) else None
        if step is not None:
            update(association, claim.step, claim.transaction, performed(said, claim.study, step))
        return status

    def advance(self, association: Association, uid: str, said: Dataset, place: str) -> None:
        """Claims a step, and ends it once its MPPS is final."""
        claim = self.reports.all[uid].claims[place]
        if not (claim.is_held or claim.is_over):
            status = self.begin(association, said, claim)
            claim = self.note(uid, place, claim._replace(is_held=is_done(status), is_over=not is_done(status)), "claimed", status)
        if said.PerformedProcedureStepStatus != BEGUN and not claim.is_over:
            needed, state = (performed, STATES[2]) if said.PerformedProcedureStepStatus == DONE else (stopped, STATES[3])
            status = end_step(association, claim.step, claim.transaction, lambda step: needed(said, claim.study, step), state)
            self.note(uid, place, claim._replace(is_over=True), state, status)

    def follow(self, association: Association, uid: str) -> None:
        """Does what is yet to be done for an MPPS."""
        said = of_json(self.reports.all[uid].said)
        self.find(association, uid, said)
        for place in self.reports.all[uid].claims:
            self.advance(association, uid, said, place)
        if said.PerformedProcedureStepStatus != BEGUN:
            self.reports.put(uid, said={STATUS: self.reports.all[uid].said[STATUS]}, over=time.time())
            self.reports.forget()

    def run(self) -> None:
        """Follows each MPPS that waits, over an association of its own, as long as there is a manager."""
        while True:
            self.reports.woken.clear()
            for uid in [uid for uid, it in list(self.reports.all.items()) if it.waits()]:
                try:
                    with associated(self.asked, [PULL]) as association:
                        self.follow(association, uid)
                    self.complaints.pop("not done yet", None)
                except (Broken, OSError) as fault:
                    self.complain("not done yet", str(fault))
                    break
                except Exception as fault:  # pydicom raises exceptions of many classes
                    self.complain(uid, str(fault) if isinstance(fault, Refused) else repr(fault))
            self.reports.woken.wait(self.asked.every)


def main() -> None:
    about, _, more = (__doc__ or "").partition("\n\n")
    asked = argparse.ArgumentParser(description=about, epilog=more, formatter_class=argparse.RawDescriptionHelpFormatter, parents=[common()])
    add_listening(asked, 11115, "the port that modalities have for it (11115)")
    asked.add_argument("--state", default="/var/lib/ups-mpps", metavar="FOLDER", help="where each MPPS has a file (/var/lib/ups-mpps)")
    asked.add_argument("--every", type=duration_word, default=10, metavar="S", help="seconds between two looks for steps (10)")
    asked.add_argument("--idle", type=duration_word, default=600, metavar="S", help="seconds of silence of a modality (600)")
    try:
        asked.set_defaults(**{"ae": "MPPS", "begun": time.monotonic(), **of_environment()})
        given = asked.parse_args()
        listening, reports = argparse.Namespace(**{**vars(given), "timeout": given.idle}), Reports(given.state)
        with listener_of(given) as listener:
            print(f"{given.ae} takes MPPS on {given.address}:{listener.getsockname()[1]}", flush=True)
            take_in_threads(listener, listening, lambda _, association: take(association, reports, listening), AT_ONCE)
            Follower(reports, given).run()
    except (OSError, Refused) as fault:
        sys.exit(f"mpps_steps.py: {fault}")


if __name__ == "__main__":
    main()
