"""The requests of the service, as an SCU of UPS Push, Pull and Watch."""

from __future__ import annotations

import argparse
from typing import Iterable, Optional

from pydicom.dataset import Dataset

from ups.association import Association
from ups.attributes import attributes_of
from ups.datasets import made
from ups.elements import plain, value_at
from ups.messages import number_of_command
from ups.terms import PULL, PUSH, SOP_INSTANCE, VERIFICATION, is_done

FIND = {"AffectedSOPClassUID": PULL, "CommandField": 0x0020, "Priority": 0}  # the command set of a C-FIND-RQ


def echo(association: Association) -> int:
    return association.status_of(VERIFICATION, {"AffectedSOPClassUID": VERIFICATION, "CommandField": 0x0030})


def create_step(association: Association, uid: str, step: Dataset) -> int:
    """Sends an N-CREATE."""
    elements = {"AffectedSOPClassUID": PUSH, "CommandField": 0x0140, "AffectedSOPInstanceUID": uid}
    return association.status_of(PUSH, elements, step)


def get_step(association: Association, step: str) -> tuple[int, Optional[Dataset]]:
    """Returns the status and the data set of an N-GET of all attributes."""
    elements = {"RequestedSOPClassUID": PUSH, "CommandField": 0x0110, "RequestedSOPInstanceUID": step}
    answer, found = association.ask(PULL, elements)[0]
    return number_of_command(answer, "Status"), found


def act(association: Association, context: str, kind: int, instance: str, information: Dataset) -> int:
    """Sends an N-ACTION of a type (PS3.4 table CC.2.1-1 and similar ones)."""
    elements = {"RequestedSOPClassUID": PUSH, "CommandField": 0x0130, "RequestedSOPInstanceUID": instance, "ActionTypeID": kind}
    return association.status_of(context, elements, information)


def change(association: Association, step: str, transaction: str, state: str) -> int:
    return act(association, PULL, 1, step, made({"ProcedureStepState": state, "TransactionUID": transaction}))


def update(association: Association, step: str, transaction: Optional[str], given: Dataset) -> int:
    """Sends an N-SET."""
    if transaction:
        given.TransactionUID = transaction
    elements = {"RequestedSOPClassUID": PUSH, "CommandField": 0x0120, "RequestedSOPInstanceUID": step}
    return association.status_of(PULL, elements, given)


def keys_of(asked: argparse.Namespace, station: Optional[str], columns: Iterable[str]) -> Dataset:
    """Returns the identifier of a query, for a station if one is given: the keys that are asked for, and these columns."""
    given = {"ProcedureStepState": asked.state, "ProcedureStepLabel": asked.label, "WorklistLabel": asked.worklist,
             "PatientID": asked.patient_id, "PatientName": asked.name, "ScheduledProcedureStepStartDateTime": asked.start}
    keys = made({**dict.fromkeys(("SpecificCharacterSet", "SOPInstanceUID", *columns), ""),
                 **{keyword: value for keyword, value in given.items() if value}})
    if station is not None:
        keys.ScheduledStationNameCodeSequence = [made({"CodeValue": station})]
    return attributes_of(asked.attributes, keys)


def matched(association: Association, asked: argparse.Namespace, columns: Iterable[str]) -> tuple[dict[str, bytes], int]:
    """Returns the data sets that answer a query, or one for each station, by UID, and the last status: a sequence key has one item,
    a code one value (PS3.4 C.2.2.2)."""
    found: dict[str, bytes] = {}
    status = 0
    for station in asked.station or [None]:
        for command, data in association.answers(PULL, FIND, keys_of(asked, station, columns)):
            status = command.Status
            if data is not None:
                found[value_at(plain(data, association.implicit), SOP_INSTANCE)] = data
        if not is_done(status):
            break
    return found, status
