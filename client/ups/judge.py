"""The command check: what the server would answer to a data set, judged without a server."""

from __future__ import annotations

import argparse
import re
import warnings
from typing import Iterator, Optional

from pydicom.datadict import dictionary_description
from pydicom.dataset import Dataset

from ups.datasets import spelled
from ups.elements import Elements, elements_of, first_item, text_in, with_lengths
from ups.files import data_sets
from ups.moments import dt_of
from ups.terms import (
    BEGUN, ENDED, FILTERED, GLOBAL, PERFORMED, PROGRESS, READINESS, SOP_CLASS, SOP_INSTANCE, START, STATE, TRANSACTION, told)

MOST = 1_048_576  # bytes of a message, and of a step's attributes
DEEPEST = 8  # levels of nested items
ANY = ()
# the checked attributes of an N-CREATE (PS3.4 table CC.2.5-3), and their allowed texts: a DT (None), one of these words, or any
# that isn't empty (ANY)
CHECKED: dict[int, Optional[tuple[str, ...]]] = {
    START: None, READINESS: ("INCOMPLETE", "UNAVAILABLE", "READY"), 0x0074_1200: ("HIGH", "MEDIUM", "LOW"), 0x0074_1204: ANY}
# what a final state needs: a sequence with one item, in which each of these attributes has a text
NEEDED = {"COMPLETED": (PERFORMED, (BEGUN, ENDED)), "CANCELED": (PROGRESS, (0x0040_4052,))}
Reason = tuple[Optional[int], str]  # no status if the association ends without an answer


def tag_and_name(tag: int) -> str:
    return f"({tag >> 16:04X},{tag & 0xFFFF:04X}) {dictionary_description(tag)}"


def is_uid(text: str) -> bool:
    """Returns whether a text is a UID (PS3.5 section 9.1): components of digits, of which none but 0 begins with a zero."""
    return len(text) <= 64 and re.fullmatch(r"(0|[1-9][0-9]*)(\.(0|[1-9][0-9]*))*", text, re.ASCII) is not None


def value_reason(elements: Elements, tag: int) -> Optional[Reason]:
    """Returns why the value of a checked attribute that is present would be refused, or None."""
    text, allowed = text_in(elements, tag), CHECKED[tag]
    if text is None:
        return 0x0106, f"{tag_and_name(tag)} is a sequence"
    if not text:
        return 0x0121, f"{tag_and_name(tag)} is empty"
    if allowed is None and dt_of(text) is None:
        return 0x0106, f"{tag_and_name(tag)} is {text!r}, which is no date and time"
    if allowed and text not in allowed:
        return 0x0106, f"{tag_and_name(tag)} is {text!r}, and not one of {', '.join(allowed)}"
    return None


def create_reasons(elements: Elements) -> Iterator[Reason]:
    """Yields why an N-CREATE would be refused, in the order of the server's checks."""
    instance = text_in(elements, SOP_INSTANCE)
    if SOP_INSTANCE in elements and (instance in (GLOBAL, FILTERED) or not is_uid(instance or "")):
        yield 0x0117, f"{tag_and_name(SOP_INSTANCE)} is {instance!r}, which can't be that of a step"
    if text_in(elements, STATE) != "SCHEDULED":
        yield 0xC309, f"{tag_and_name(STATE)} is {text_in(elements, STATE)!r}" if STATE in elements else f"{tag_and_name(STATE)} is absent"
    if TRANSACTION in elements and text_in(elements, TRANSACTION) != "":
        yield 0x0106, f"{tag_and_name(TRANSACTION)} has a value"
    for tag in CHECKED:
        reason = value_reason(elements, tag) if tag in elements else (0x0120, f"{tag_and_name(tag)} is absent")
        if reason:
            yield reason


def set_reasons(elements: Elements) -> Iterator[Reason]:
    """Yields why an N-SET would be refused, whatever the state of the step."""
    for tag in (SOP_CLASS, SOP_INSTANCE, STATE):
        if tag in elements:
            yield 0x0106, f"{tag_and_name(tag)} is set by the server alone"
    for tag in CHECKED:
        reason = value_reason(elements, tag) if tag in elements else None
        if reason:
            yield reason


def final_reasons(elements: Elements, state: str) -> Iterator[Reason]:
    """Yields what a step lacks for a final state."""
    sequence, tags = NEEDED[state]
    vr, value = elements.get(sequence, (b"SQ", b""))
    item_content = first_item(value) if vr == b"SQ" else b""
    if vr != b"SQ" or not value or len(item_content) + 8 != len(value):
        yield 0xC304, f"{tag_and_name(sequence)} hasn't exactly one item"
        return
    inner = elements_of(item_content)
    for tag in tags:
        if not text_in(inner, tag):
            yield 0xC304, f"{tag_and_name(tag)} has no value in {tag_and_name(sequence)}"


def depth(given: Dataset) -> int:
    """Returns how deeply items are nested."""
    return max((1 + depth(one) for element in given if element.VR == "SQ" for one in element.value), default=0)


def reasons(given: Dataset, asked: argparse.Namespace) -> list[Reason]:
    """Returns why a data set would be refused, as far as it alone shows; the status is that of the first reason."""
    found = spelled(with_lengths(given), False)
    size = len(found if not asked.implicit else spelled(given, True)) + 200  # with a command set, which takes no more
    why: list[Reason] = []
    if size > MOST:
        why.append((None, f"a message of some {size:,} bytes, and not {MOST:,} at most"))
    if depth(given) > DEEPEST:
        return [*why, (0x0110, f"items lie {depth(given)} deep in one another, and not {DEEPEST} at most")]
    elements = elements_of(found)
    if asked.final:
        return list(final_reasons(elements, asked.final))
    why += set_reasons(elements) if asked.set else create_reasons(elements)
    if len(found) > MOST:
        why.append((0x0213, f"{len(found):,} bytes of attributes in Explicit VR, and not {MOST:,} at most"))
    return why


def check(asked: argparse.Namespace) -> int:
    """Prints what the server would answer to each data set, and why; returns 1 if one would be refused."""
    warnings.simplefilter("ignore")  # pydicom warns of values that are reported here
    refused, sets = 0, data_sets(asked.file)
    for number, given in enumerate(sets, 1):
        why = reasons(given, asked)
        refused += bool(why)
        answer = told(0) if not why else told(why[0][0]) if why[0][0] is not None else "the association would end"
        print(f"{given.get('SOPInstanceUID') or f'data set {number}'}: {answer}")
        for status, reason in why:
            print(f"    {'----' if status is None else f'{status:04X}'} {reason}")
    print(f"{refused} of {len(sets)} would be refused")
    return min(refused, 1)
