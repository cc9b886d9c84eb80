"""The commands that create and change steps: create, import, claim, set, cancel."""

from __future__ import annotations

import argparse
import collections
from typing import Optional

from pydicom.dataset import Dataset

from ups.association import Association, associated
from ups.attributes import attributes_of
from ups.datasets import made
from ups.faults import Refused
from ups.files import as_new, data_sets, is_scheduled
from ups.moments import moment_now
from ups.operations import act, change, create_step, update
from ups.terms import PUSH, SOP_CLASS, SOP_INSTANCE, STATE, STATES, TRANSACTION, is_done, new_uid, told

# what a new step has if neither an option nor a file says otherwise
NEW = {"InputReadinessState": "READY", "ScheduledProcedureStepPriority": "MEDIUM", "ProcedureStepLabel": "READ"}


def only_data_set(path: Optional[str]) -> Dataset:
    """Returns the only data set of a file; without a file an empty one."""
    found = data_sets(path) if path else [Dataset()]
    if len(found) != 1:
        raise Refused(f"{path} has {len(found)} data sets: `ups import` creates several steps")
    return found[0]


def create(association: Association, asked: argparse.Namespace) -> int:
    """Creates a step: of the file, then the options, and then the defaults for what neither has."""
    step = as_new(only_data_set(asked.source))
    given = {"PatientName": asked.patient_name, "PatientID": asked.patient_id, "WorklistLabel": asked.worklist,
             "ScheduledProcedureStepStartDateTime": asked.start, "InputReadinessState": asked.readiness,
             "ScheduledProcedureStepPriority": asked.priority, "ProcedureStepLabel": asked.label}
    defaults = {**NEW, "ScheduledProcedureStepStartDateTime": moment_now()}
    for keyword, value in given.items():
        if value or keyword in defaults and not step.get(keyword):
            setattr(step, keyword, value or defaults[keyword])
    attributes_of(asked.attributes, step)
    uid = asked.step or new_uid()
    if not asked.step:
        print(uid, flush=True)
    return create_step(association, uid, step)


def import_one(association: Association, given: Dataset, asked: argparse.Namespace, name: str) -> str:
    """Creates a step as SCHEDULED, and returns what became of it; one that was claimed or is final is left, without `--all`."""
    uid, state = str(given.get("SOPInstanceUID") or ""), given.get("ProcedureStepState")
    if not uid:
        print(f"{name}: it has no SOP Instance UID", flush=True)
        return "refused"
    if not (asked.all or is_scheduled(given)):
        print(f"{uid}: left, since it is {state}", flush=True)
        return "left"
    status = create_step(association, uid, as_new(given))
    print(f"{uid}: {told(status)}", flush=True)
    return "created" if is_done(status) else "refused"


def import_steps(asked: argparse.Namespace) -> int:
    """Creates the steps of files, after all of these have been read."""
    steps = [(f"{path}, data set {number}", given) for path in asked.files for number, given in enumerate(data_sets(path), 1)]
    became: collections.Counter[str] = collections.Counter()
    with associated(asked, [PUSH]) as association:
        for name, given in steps:
            became[import_one(association, given, asked, name)] += 1
    print(f"{became['created']} created, {became['left']} left, {became['refused']} refused")
    return min(1, became["refused"])


def claim(association: Association, asked: argparse.Namespace) -> int:
    """Claims a step. A Transaction UID that is made here is printed before the request: its answer may be lost."""
    if not asked.transaction:
        asked.transaction = new_uid()
        print(asked.transaction, flush=True)
    return change(association, asked.step, asked.transaction, STATES[1])


def set_attributes(association: Association, asked: argparse.Namespace) -> int:
    """Sets the attributes of a file, and then those of the options; not what tells the step itself, which none may set."""
    given = only_data_set(asked.source)
    for tag in (SOP_CLASS, SOP_INSTANCE, TRANSACTION, STATE):
        given.pop(tag, None)
    return update(association, asked.step, asked.transaction, attributes_of(asked.attributes, given))


def cancel(association: Association, asked: argparse.Namespace) -> int:
    return act(association, PUSH, 2, asked.step, made({"ReasonForCancellation": asked.reason} if asked.reason else {}))
