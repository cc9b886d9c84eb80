"""Data sets: made, written as bytes, read from bytes."""

from __future__ import annotations

import warnings
from typing import Any

from pydicom.dataelem import DataElement
from pydicom.dataset import Dataset
from pydicom.filebase import DicomBytesIO
from pydicom.filereader import read_dataset
from pydicom.filewriter import write_dataset

from ups.faults import Refused, Unexpected
from ups.terms import UTF_8

TEXTS = {"LO", "LT", "PN", "SH", "ST", "UC", "UT"}  # these may have other characters than ASCII (PS3.5 section 6.1.2.2)


def made(attributes: dict[str, Any]) -> Dataset:
    """Makes a data set from values by keyword; a sequence is a list of such dictionaries, or of data sets."""
    found = Dataset()
    for keyword, value in attributes.items():
        setattr(found, keyword, [each if isinstance(each, Dataset) else made(each) for each in value]
                if isinstance(value, list) and keyword.endswith("Sequence") else value)
    return found


def is_ascii(element: DataElement) -> bool:
    values = [element.value] if isinstance(element.value, str) or not hasattr(element.value, "__iter__") else element.value
    return element.VR == "SQ" or all(str(value).isascii() for value in values)


def say_characters(given: Dataset) -> None:
    """Sets Specific Character Set to UTF-8 if a text isn't ASCII and no other character set is given."""
    for element in [it for it in given.iterall() if not is_ascii(it)]:
        if element.VR not in TEXTS:
            raise Refused(f"{element.value!r} can't be {element.keyword or element.tag}: that is ASCII alone")
        if not given.get("SpecificCharacterSet"):
            given.SpecificCharacterSet = UTF_8


def spelled(given: Dataset, implicit: bool) -> bytes:
    """Returns a data set as bytes, in Implicit or Explicit VR Little Endian."""
    out = DicomBytesIO()
    out.is_little_endian, out.is_implicit_VR = True, implicit
    say_characters(given)
    with warnings.catch_warnings():
        warnings.filterwarnings("error", "Failed to encode|Unknown encoding")
        try:
            write_dataset(out, given)
        except Exception as fault:  # pydicom raises exceptions of many classes
            why = str(fault).split("\n")[0].split(" - using ")[0]
            raise Refused(f"the data set can't be written: {why}") from None
    content: bytes = out.getvalue()
    return content


def read(found: bytes, implicit: bool) -> Dataset:
    """Reads a data set, with texts in UTF-8 if it names no character set. (An event report never names one.)"""
    try:
        return read_dataset(DicomBytesIO(found), implicit, True, parent_encoding="utf8")
    except Exception as fault:  # pydicom raises exceptions of many classes, and further ones where a value is looked at
        raise Unexpected(f"a data set that can't be read: {fault}") from None
