"""A plugin of Orthanc that pushes a step to a UPS manager for each study that is stable (PS3.4 section CC.2.5).

It needs the Debian packages orthanc, orthanc-python and ups. In Orthanc's configuration:

    "PythonScript": "/usr/share/doc/ups/examples/orthanc_steps.py", "StableAge": 60

Environment of Orthanc: UPS_SERVER=HOST:PORT, UPS_CALLED and UPS_AE as for `ups`, UPS_WORKLIST, the label of the worklist
(ORTHANC), UPS_COMMAND, the client (ups), UPS_STATE, the file with the number of the last change that is done with
(/var/lib/orthanc/ups-changes), and UPS_EVERY, the seconds after which it walks the changes again (60).

The step has the patient, the study, and where to get it: an item of Input Information Sequence (0040,4021) for each series, with
its instances and the title of Orthanc. The UID is made of the study's and of its instances, so that a study that is pushed twice is
one step, and one that becomes stable once more makes a new step only if it has changed.
"""

from __future__ import annotations

import json
import os
import subprocess
import threading
import uuid
from typing import Any

import orthanc

Json = dict[str, Any]

COMMAND = os.environ.get("UPS_COMMAND", "ups").split()
WORKLIST = os.environ.get("UPS_WORKLIST", "ORTHANC")
STATE = os.environ.get("UPS_STATE", "/var/lib/orthanc/ups-changes")
EVERY = float(os.environ.get("UPS_EVERY", "60"))
REFUSED = 1  # the exit status of the client if the manager refuses
MOST = 4000  # instances that a step names: of a larger study it names the series alone, since a step has 1 MiB at most
CREATED_BEFORE = "0111"
PATIENT = {"PatientName": ("00100010", "PN"), "PatientID": ("00100020", "LO"), "PatientBirthDate": ("00100030", "DA"),
           "PatientSex": ("00100040", "CS")}


def get(path: str) -> Any:
    return json.loads(orthanc.RestApiGet(path))


def get_word(path: str) -> str:
    found = orthanc.RestApiGet(path)
    return found.decode() if isinstance(found, bytes) else found


def text(kind: str, *values: str) -> Json:
    """Returns an attribute of DICOM JSON (PS3.18 annex F)."""
    if not any(values):
        return {"vr": kind}
    return {"vr": kind, "Value": [{"Alphabetic": it} if kind == "PN" else it for it in values]}


def items(*found: Json) -> Json:
    return {"vr": "SQ", "Value": list(found)}


def referenced(instance: Json) -> Json:
    """Returns an item of Referenced SOP Sequence, of metadata alone: no file is read."""
    sop_class = get_word(f"/instances/{instance['ID']}/metadata/SopClassUid")
    return {"00081150": text("UI", sop_class), "00081155": text("UI", instance["MainDicomTags"]["SOPInstanceUID"])}


def input_of(study: str, series: Json, is_small: bool) -> Json:
    """Returns an item of Input Information Sequence: a series, and where it is retrieved (PS3.3 table 10-3b)."""
    found = {"0020000D": text("UI", study), "0020000E": text("UI", series["MainDicomTags"]["SeriesInstanceUID"]),
             "0040E020": text("CS", "DICOM"), "0040E021": items({"00080054": text("AE", get("/system")["DicomAet"])})}
    if is_small:
        found["00081199"] = items(*(referenced(it) for it in get(f"/series/{series['ID']}/instances")))
    return found


def step_of(study: Json) -> tuple[str, Json]:
    """Returns the UID of a step and its attributes, for a study as Orthanc describes it."""
    tags, patient = study["MainDicomTags"], study["PatientMainDicomTags"]
    series = [get(f"/series/{it}") for it in study["Series"]]
    instances = sorted(it for each in series for it in each["Instances"])
    uid = uuid.uuid5(uuid.NAMESPACE_OID, " ".join([tags["StudyInstanceUID"], *instances]))
    step = {tag: text(kind, patient.get(name, "")) for name, (tag, kind) in PATIENT.items()}
    request = {"00080050": text("SH", tags.get("AccessionNumber", "")), "0020000D": text("UI", tags["StudyInstanceUID"])}
    step.update({
        "00080005": text("CS", "ISO_IR 192"), "00741202": text("LO", WORKLIST),
        "00741204": text("LO", (tags.get("StudyDescription") or "READ")[:64]), "0040A370": items(request),
        "00404021": items(*(input_of(tags["StudyInstanceUID"], it, len(instances) <= MOST) for it in series))})
    return f"2.25.{uid.int}", step


def push(study: Json) -> bool:
    """Pushes the step of a study, and returns whether the manager has it: `ups` adds the start (now), the priority and the states."""
    uid, step = step_of(study)
    name, words = study["MainDicomTags"]["StudyInstanceUID"], json.dumps(step).encode()
    ran = subprocess.run([*COMMAND, "create", uid, "--from", "-"], input=words, capture_output=True, check=False)
    said = (ran.stdout + ran.stderr).decode("utf8", "replace").strip()
    if ran.returncode and not said.startswith(CREATED_BEFORE):
        orthanc.LogError(f"no step for the study {name} yet: {said}")
        return ran.returncode == REFUSED  # which it would be again
    orthanc.LogWarning(f"the step {uid} for the study {name}: {said}")
    return True


class Walker(threading.Thread):
    """Walks Orthanc's changes, and keeps the number of the last one whose study has its step in a file. So a study is pushed at least
    once, also if the manager, Orthanc or this machine was away, and its UID makes that one step."""

    def __init__(self) -> None:
        super().__init__(daemon=True)
        self.woken, self.stopped = threading.Event(), False

    def last(self) -> int:
        """Returns the number in the file; without a file the last change, so that studies of before make no steps."""
        try:
            with open(STATE, encoding="ascii") as file:
                return int(file.read())
        except FileNotFoundError:
            return self.keep(int(get("/changes?last")["Last"]))

    def keep(self, number: int) -> int:
        with open(f"{STATE}.new", "w", encoding="ascii") as file:
            file.write(f"{number}\n")
            file.flush()
            os.fsync(file.fileno())
        os.replace(f"{STATE}.new", STATE)
        return number

    def walk(self) -> None:
        """Pushes the studies that have become stable since the last number, until one gets no answer."""
        number, is_done = self.last(), False
        while not (is_done or self.stopped):
            found = get(f"/changes?since={number}&limit=100")
            for change in found["Changes"]:
                if change["ChangeType"] == "StableStudy" and not self.push(change["ID"]):
                    self.keep(number)
                    return
                number = int(change["Seq"])
            is_done = bool(found["Done"])
            self.keep(number)

    def push(self, study: str) -> bool:
        try:
            found = get(f"/studies/{study}")
        except orthanc.OrthancException:
            return True  # it was deleted meanwhile
        return push(found)

    def run(self) -> None:
        while not self.stopped:
            self.woken.clear()
            try:
                self.walk()
            except Exception as fault:  # what Orthanc or the disk says; the next walk begins at the same number
                orthanc.LogError(f"the changes were not walked: {type(fault).__name__}: {fault}")
            self.woken.wait(EVERY)


WALKER = Walker()


def on_change(kind: int, _level: int, _resource: str) -> None:
    if kind == orthanc.ChangeType.ORTHANC_STARTED:
        WALKER.start()
    elif kind == orthanc.ChangeType.ORTHANC_STOPPED:
        WALKER.stopped = True
        WALKER.woken.set()
    elif kind == orthanc.ChangeType.STABLE_STUDY:
        WALKER.woken.set()


orthanc.RegisterOnChangeCallback(on_change)
