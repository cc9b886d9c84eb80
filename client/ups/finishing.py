"""What a final state needs (PS3.4 table CC.2.5-3), and the command finish."""

from __future__ import annotations

import argparse
import copy
import socket
from typing import Any, Callable, Optional

from pydicom.dataset import Dataset

from ups.association import Association
from ups.datasets import made
from ups.moments import moment_now
from ups.operations import change, get_step, update
from ups.terms import STATES, UTF_8, is_done

UNSPECIFIED = {"CodeValue": "110513", "CodingSchemeDesignator": "DCM", "CodeMeaning": "Discontinued for unspecified reason"}


def only_item(step: Dataset, keyword: str) -> Dataset:
    """Returns the first item of a sequence, a new one if there is none."""
    found = step.get(keyword)
    return found[0] if found else Dataset()


def add_missing(to: Dataset, values: dict[str, Any]) -> None:
    """Sets each attribute that is absent."""
    for element in made({keyword: value for keyword, value in values.items() if keyword not in to}):
        to.add(element)


def work_of(step: Dataset) -> list[Any]:
    """Returns Performed Workitem Code Sequence: what was scheduled, or else a code for the label."""
    if step.get("ScheduledWorkitemCodeSequence"):
        return list(copy.deepcopy(step.ScheduledWorkitemCodeSequence))
    return [{"CodeValue": "STEP", "CodingSchemeDesignator": "99LOCAL", "CodeMeaning": step.get("ProcedureStepLabel") or "step"}]


def begun(step: Dataset, station: str) -> Dataset:
    """Returns the item of the Performed Procedure Sequence with its beginning: that of the step, or now at this station."""
    found = only_item(step, "UnifiedProcedureStepPerformedProcedureSequence")
    here = {"CodeValue": station, "CodingSchemeDesignator": "99LOCAL", "CodeMeaning": socket.gethostname()[:64] or station}
    add_missing(found, {"PerformedStationNameCodeSequence": [here], "PerformedProcedureStepStartDateTime": moment_now(),
                        "PerformedWorkitemCodeSequence": work_of(step), "OutputInformationSequence": []})
    return found


def completed(step: Dataset, station: str) -> Dataset:
    """Returns what an N-SET before COMPLETED has to say of a step, with what the step says already."""
    found = begun(step, station)
    add_missing(found, {"PerformedProcedureStepEndDateTime": moment_now()})
    return in_characters_of(step, "UnifiedProcedureStepPerformedProcedureSequence", found)


def canceled(step: Dataset, reason: Optional[str]) -> Dataset:
    """Returns what an N-SET before CANCELED has to say of a step, with what the step says already."""
    found = only_item(step, "ProcedureStepProgressInformationSequence")
    add_missing(found, {"ProcedureStepCancellationDateTime": moment_now(), **({"ReasonForCancellation": reason} if reason else {}),
                        "ProcedureStepDiscontinuationReasonCodeSequence": [UNSPECIFIED]})
    return in_characters_of(step, "ProcedureStepProgressInformationSequence", found)


def text_for(step: Dataset, text: str) -> str:
    """Returns a text as a step can have it: in ASCII, unless the step is in UTF-8 or names no character set."""
    return text if step.get("SpecificCharacterSet") in (None, "", UTF_8) else text.encode("ascii", "replace").decode()


def in_characters_of(step: Dataset, keyword: str, one: Dataset) -> Dataset:
    """Returns a data set with a sequence of one item, in the character set of the step."""
    found = Dataset()
    if step.get("SpecificCharacterSet"):
        found.SpecificCharacterSet = step.SpecificCharacterSet
    setattr(found, keyword, [one])
    return found


def end_step(association: Association, uid: str, transaction: str, needed: Callable[[Dataset], Dataset], state: str) -> int:
    """Sets what a final state needs and the step lacks, and changes the step to that state. One that has it already is only asked to
    have it: the answer to an earlier request may have been lost."""
    status, step = get_step(association, uid)
    if step is None or not is_done(status):
        return status
    if step.get("ProcedureStepState") == state:
        return change(association, uid, transaction, state)
    status = update(association, uid, transaction, needed(step))
    return change(association, uid, transaction, state) if is_done(status) else status


def finish(association: Association, asked: argparse.Namespace) -> int:
    if asked.canceled:
        return end_step(association, asked.step, asked.transaction, lambda step: canceled(step, asked.reason), STATES[3])
    station = asked.as_station or asked.ae
    return end_step(association, asked.step, asked.transaction, lambda step: completed(step, station), STATES[2])
