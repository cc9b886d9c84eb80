"""The commands that change nothing: echo, find, get, export."""

from __future__ import annotations

import argparse
import itertools
import sys
from typing import Optional

from pydicom.datadict import keyword_for_tag
from pydicom.dataelem import DataElement
from pydicom.dataset import Dataset

from ups import operations
from ups.association import Association, associated
from ups.datasets import read
from ups.dicom_json import as_json, json_line
from ups.faults import Unwritable
from ups.operations import get_step, matched
from ups.tables import is_for_people, table
from ups.terms import (
    CHARACTER_SET, LABEL, PATIENT, PATIENT_ID, PRIORITY, PULL, SOP_INSTANCE, START, STATE, is_done, told)

# what `find` shows besides the keys that it is given
COLUMNS = ("PatientName", "PatientID", "ScheduledProcedureStepStartDateTime", "ProcedureStepState",
           "ScheduledProcedureStepPriority", "ProcedureStepLabel")
# how their columns are called on a terminal; others have their keyword
HEADINGS = {SOP_INSTANCE: "STEP", PATIENT: "PATIENT", PATIENT_ID: "PATIENT ID", START: "START", STATE: "STATE", PRIORITY: "PRIORITY",
            LABEL: "LABEL"}


def echo(association: Association, _: argparse.Namespace) -> int:
    return operations.echo(association)


def shown(element: DataElement) -> str:
    """Returns the value of an element as text; for a sequence the values of its items, in braces."""
    if element.VR != "SQ":
        return str(element.value) or "-"
    return "{" + ", ".join(" ".join(shown(each) for each in one) for one in element.value) + "}" if element.value else "-"


def find(association: Association, asked: argparse.Namespace) -> int:
    """Prints the matches of a query, or the first of them: a server answers a whole query."""
    steps, status = matched(association, asked, COLUMNS)
    first = [read(data, association.implicit) for data in itertools.islice(steps.values(), asked.limit)]
    if asked.json:
        print(as_json(first))
    elif first and is_for_people():
        print(as_table(first))
    else:
        for each in first:
            print("  ".join(shown(element) for element in each if element.tag != CHARACTER_SET))
    of = f"{len(first)} of " if len(first) < len(steps) else ""
    print(f"{of}{len(steps)} found", file=asked.aside)
    return status


def as_table(steps: list[Dataset]) -> str:
    """Returns the attributes of steps as a table: a column for each that one of them has, by its tag."""
    tags = sorted({element.tag for step in steps for element in step if element.tag != CHARACTER_SET})
    heading = [HEADINGS.get(int(tag)) or str(keyword_for_tag(tag) or tag) for tag in tags]
    return table(heading, ([shown(step[tag]) if tag in step else "-" for tag in tags] for step in steps))


def line_of(association: Association, uid: str) -> tuple[Optional[str], str]:
    """Returns all attributes of a step as DICOM JSON, or None and why there are none."""
    status, found = get_step(association, uid)
    if found is None or not is_done(status):
        return None, told(status)
    try:
        return json_line(found), ""
    except Unwritable as fault:
        return None, str(fault)


def export(asked: argparse.Namespace) -> int:
    """Prints all attributes of the steps that match, as an array of DICOM JSON, each on a line."""
    count, left = 0, 0
    with associated(asked, [PULL]) as association:
        steps, status = matched(association, asked, ())
        for uid in steps:
            line, why = line_of(association, uid)
            if line is None:
                left += 1
                print(f"{uid}: {why}", file=sys.stderr)
            else:
                sys.stdout.write(("," if count else "[") + ("\n" if count else "") + line)
                count += 1
    print("]" if count else "[]")
    print(f"{count} exported, {left} left\n{told(status)}", file=sys.stderr)
    return 0 if is_done(status) and not left else 1


def get(association: Association, asked: argparse.Namespace) -> int:
    status, found = get_step(association, asked.step)
    if found is not None:
        print(as_json([found]) if asked.json else found)
    return status
