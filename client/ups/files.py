"""Steps in files."""

from __future__ import annotations

import json
import os
import sys
import tempfile

from pydicom import dcmread
from pydicom.dataset import Dataset
from pydicom.filebase import DicomBytesIO

from ups.dicom_json import of_json
from ups.faults import Refused
from ups.terms import PADDING, PERFORMED, PROGRESS, SOP_CLASS, SOP_INSTANCE, STATES, TRANSACTION


def of_file(content: bytes) -> Dataset:
    """Returns the data set of a DICOM file, or of a data set alone, without file meta information, group lengths and padding."""
    found = Dataset()
    for element in dcmread(DicomBytesIO(content), force=True):
        if element.tag.group > 2 and element.tag.element and int(element.tag) != PADDING:
            found.add(element)
    return found


def content_of(path: str) -> bytes:
    """Reads a file, or standard input for `-`."""
    if path == "-":
        return sys.stdin.buffer.read()
    with open(path, "rb") as opened:
        return opened.read()


def data_sets(path: str) -> list[Dataset]:
    """Reads the data sets of a file: one in DICOM (PS3.10, or a data set alone), or one or an array in JSON (PS3.18 annex F)."""
    try:
        content = content_of(path)
        if content.lstrip()[:1] in (b"[", b"{"):
            said = json.loads(content)
            return [of_json(each) for each in (said if isinstance(said, list) else [said])]
        return [of_file(content)]
    except Exception as fault:  # pydicom raises exceptions of many classes
        raise Refused(f"{path} can't be read: {fault}") from None


def is_scheduled(step: Dataset) -> bool:
    return step.get("ProcedureStepState") in (None, "", STATES[0])


def as_new(step: Dataset) -> Dataset:
    """Makes a data set that of a new step: SCHEDULED, without its UIDs, and without what a performer has said of one that was
    claimed (PS3.4 table CC.2.5-3)."""
    said = () if is_scheduled(step) else (PROGRESS, PERFORMED)
    for tag in (SOP_CLASS, SOP_INSTANCE, TRANSACTION, *said):
        step.pop(tag, None)
    step.ProcedureStepState = STATES[0]
    return step


def write_whole(path: str, text: str, mode: int = 0o644) -> None:
    """Writes a file, synced, so that a reader sees the old one or the new one. By default all may read it, as a textfile collector
    needs."""
    with tempfile.NamedTemporaryFile("w", dir=os.path.dirname(os.path.abspath(path)), prefix=".ups.", suffix=".tmp",
                                     delete=False) as made_file:
        try:
            made_file.write(text)
            made_file.flush()
            os.fchmod(made_file.fileno(), mode)
            os.fsync(made_file.fileno())
            os.replace(made_file.name, path)
        except BaseException:
            os.unlink(made_file.name)
            raise
    sync_folder(os.path.dirname(os.path.abspath(path)))


def sync_folder(path: str) -> None:
    """Syncs the names in a folder."""
    folder = os.open(path, os.O_RDONLY)
    try:
        os.fsync(folder)
    finally:
        os.close(folder)
