#!/usr/bin/python3
"""Makes steps of a modality worklist: a scheduler beside an archive or an order system that has one.

    mwl_steps.py ARCHIVE=10.1.2.3:104 [--every 60] [--ae CLIENT] [--modality CT] [--days 1] [--worklist LABEL]

It asks for the scheduled procedure steps of today, and of the next days with --days, by `findscu -W` of DCMTK each minute, and
creates a step for each. The UID of a step is made of the study's and of the Scheduled Procedure Step ID, so that an entry that is
found again is one step. Nothing is canceled: an entry leaves a worklist when it is done as well as when it is canceled.

It needs dcmtk, python3-pydicom and the client `ups`. UPS_SERVER=HOST:PORT, UPS_CALLED, UPS_AE and so on are as for `ups`, and
UPS_COMMAND is the client itself (ups).
"""

from __future__ import annotations

import argparse
import datetime
import json
import os
import subprocess
import sys
import tempfile
import time
import uuid
from typing import Any, Iterator, Optional

from pydicom import dcmread
from pydicom.dataset import Dataset

Json = dict[str, Any]
COMMAND = os.environ.get("UPS_COMMAND", "ups").split()
CREATED_BEFORE = "0111"
SECONDS = 120  # for a command
PRIORITIES = {"STAT": "HIGH", "HIGH": "HIGH", "LOW": "LOW"}  # of Requested Procedure Priority (PS3.3 table C.4-11), others MEDIUM
STEP = "ScheduledProcedureStepSequence[0]."
# what is asked for (PS3.4 table K.6-1)
KEYS = ["SpecificCharacterSet", "AccessionNumber", "PatientName", "PatientID", "IssuerOfPatientID", "PatientBirthDate", "PatientSex",
        "AdmissionID", "StudyInstanceUID", "RequestedProcedureID", "RequestedProcedureDescription", "RequestedProcedurePriority",
        *(STEP + it for it in ("Modality", "ScheduledStationAETitle", "ScheduledStationName", "ScheduledProcedureStepStartDate",
                               "ScheduledProcedureStepStartTime", "ScheduledProcedureStepDescription", "ScheduledProcedureStepID",
                               "ScheduledProtocolCodeSequence"))]
COPIED = ("PatientName", "PatientID", "IssuerOfPatientID", "PatientBirthDate", "PatientSex", "AdmissionID")
REQUEST = ("AccessionNumber", "StudyInstanceUID", "RequestedProcedureID", "RequestedProcedureDescription")


def asked_for(asked: argparse.Namespace) -> list[str]:
    """Returns the keys of the query."""
    first = datetime.date.today()
    days = f"{first:%Y%m%d}-{first + datetime.timedelta(days=asked.days):%Y%m%d}"
    values = {STEP + "ScheduledProcedureStepStartDate": days, STEP + "Modality": asked.modality}
    return [word for key in KEYS for word in ("-k", f"{key}={values.get(key, '')}")]


def entries(asked: argparse.Namespace) -> Iterator[Dataset]:
    """Yields the entries of the worklist."""
    title, _, place = asked.archive.partition("=")
    host, _, port = place.rpartition(":")
    with tempfile.TemporaryDirectory() as folder:
        words = ["findscu", "-W", "-aet", asked.ae, "-aec", title, *asked_for(asked), "-X", "-od", folder, host, port]
        subprocess.run(words, check=True, timeout=SECONDS, capture_output=True)
        for name in sorted(os.listdir(folder)):
            entry = dcmread(os.path.join(folder, name), force=True)
            entry.decode()
            yield entry


def moment_of(step: Dataset) -> str:
    """Returns the start of an entry as a DT with the offset of this machine."""
    day, clock = str(step.get("ScheduledProcedureStepStartDate") or ""), str(step.get("ScheduledProcedureStepStartTime") or "")
    if not day:
        return datetime.datetime.now().astimezone().strftime("%Y%m%d%H%M%S%z")
    digits = (day + clock.partition(".")[0]).ljust(14, "0")
    return datetime.datetime.strptime(digits, "%Y%m%d%H%M%S").astimezone().strftime("%Y%m%d%H%M%S%z")


def code(value: str, meaning: str) -> Dataset:
    found = Dataset()
    found.CodeValue, found.CodingSchemeDesignator, found.CodeMeaning = value[:16], "99LOCAL", meaning or value
    return found


def chosen(entry: Dataset, keywords: tuple[str, ...]) -> Dataset:
    """Returns a data set with those of these attributes that have a value."""
    found = Dataset()
    for keyword in keywords:
        if entry.get(keyword):
            setattr(found, keyword, entry.get(keyword))
    return found


def step_of(entry: Dataset, worklist: str) -> tuple[str, Dataset]:
    """Returns the UID of a step and its attributes, for an entry of the worklist."""
    scheduled = (entry.get("ScheduledProcedureStepSequence") or [Dataset()])[0]
    found = chosen(entry, COPIED)
    found.SpecificCharacterSet = "ISO_IR 192"
    found.ScheduledProcedureStepStartDateTime = moment_of(scheduled)
    found.ScheduledProcedureStepPriority = PRIORITIES.get(str(entry.get("RequestedProcedurePriority") or ""), "MEDIUM")
    words = (scheduled.get("ScheduledProcedureStepDescription"), entry.get("RequestedProcedureDescription"), scheduled.get("Modality"))
    found.ProcedureStepLabel = str(next(filter(None, words), "READ"))[:64]
    found.WorklistLabel = worklist or str(scheduled.get("Modality") or "MWL")
    if title := str(scheduled.get("ScheduledStationAETitle") or ""):
        found.ScheduledStationNameCodeSequence = [code(title, str(scheduled.get("ScheduledStationName") or ""))]
    if scheduled.get("ScheduledProtocolCodeSequence"):
        found.ScheduledWorkitemCodeSequence = scheduled.ScheduledProtocolCodeSequence
    found.ReferencedRequestSequence = [chosen(entry, REQUEST)]
    words_of_uid = f"{entry.get('StudyInstanceUID')} {scheduled.get('ScheduledProcedureStepID')}"
    return f"2.25.{uuid.uuid5(uuid.NAMESPACE_OID, words_of_uid).int}", found


def create(uid: str, step: Dataset) -> Optional[str]:
    """Creates a step, and returns why it is not there, or None."""
    ran = subprocess.run([*COMMAND, "create", uid, "--from", "-"], input=json.dumps(step.to_json_dict()).encode(), capture_output=True,
                         check=False, timeout=SECONDS)
    said = (ran.stdout + ran.stderr).decode("utf8", "replace").strip()
    return said if ran.returncode and not said.startswith(CREATED_BEFORE) else None


def walk(asked: argparse.Namespace, known: set[str]) -> None:
    """Creates the steps of entries that are not known yet."""
    for entry in entries(asked):
        uid, step = step_of(entry, asked.worklist)
        if uid not in known:
            if fault := create(uid, step):
                raise OSError(f"{uid}: {fault}")
            print(f"{uid}: {step.ProcedureStepLabel}", flush=True)
            known.add(uid)


def main() -> None:
    about, _, more = (__doc__ or "").partition("\n\n")
    asked = argparse.ArgumentParser(description=about, epilog=more, formatter_class=argparse.RawDescriptionHelpFormatter)
    asked.add_argument("archive", metavar="AE=HOST:PORT", help="who has the modality worklist")
    asked.add_argument("--every", type=float, metavar="S", help="asks again after so many seconds (asks once)")
    asked.add_argument("--ae", default=os.environ.get("UPS_AE", "CLIENT"), help="the title of this side (UPS_AE, or CLIENT)")
    asked.add_argument("--modality", default="", help="of one modality alone")
    asked.add_argument("--days", type=int, default=0, metavar="N", help="also of the next N days (0)")
    asked.add_argument("--worklist", default="", metavar="LABEL", help="the Worklist Label of all steps (their modality)")
    given = asked.parse_args()
    known: set[str] = set()
    while True:
        try:
            walk(given, known)
        except (OSError, subprocess.SubprocessError) as fault:
            print(f"mwl_steps.py: {fault}", file=sys.stderr, flush=True)
            if given.every is None:
                sys.exit(1)
        if given.every is None:
            return
        time.sleep(given.every)


if __name__ == "__main__":
    main()
