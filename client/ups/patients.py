"""The patient and the study of each step, by the accepted requests in a store."""

from __future__ import annotations

from typing import NamedTuple

from ups.elements import elements_of, value_at
from ups.stores import unescaped
from ups.terms import PATIENT_ID

REQUESTS, STUDY = 0x0040_A370, 0x0020_000D  # Referenced Request Sequence, Study Instance UID
NAMED_STUDY = f"{REQUESTS:08X}/{STUDY:08X}="


class Patient(NamedTuple):
    """The Patient ID of a step, and the Study Instance UID of its first request; empty if it has none."""

    identifier: str
    study: str


def patient_in(words: list[str]) -> Patient:
    """Reads the attributes of a line that creates a step: `ggggeeee=value`, or the bytes of an element in hex digits behind a colon."""
    identifier, study = "", ""
    for word in words:
        if word.startswith(":"):
            element = bytes.fromhex(word[1:])
            tags = elements_of(element)
            identifier = value_at(element, PATIENT_ID) if PATIENT_ID in tags else identifier
            study = value_at(element, REQUESTS, STUDY) if REQUESTS in tags else study
        elif word.startswith(f"{PATIENT_ID:08X}="):
            identifier = unescaped(word.partition("=")[2]).rstrip(" \0")
        elif word.startswith(NAMED_STUDY):
            study = unescaped(word.partition("=")[2]).rstrip(" \0")
    return Patient(identifier, study)


def patients_of(lines: list[str]) -> dict[str, Patient]:
    """Returns the patient of each step that these requests create. None of them changes who it is (PS3.4 table CC.2.5-3)."""
    found: dict[str, Patient] = {}
    for line in lines:
        _, _, verb, *words = line.split(" ")
        if verb == "create":
            found[words[0]] = patient_in(words[1:])
    return found
