"""Data sets as DICOM JSON (PS3.18 annex F)."""

from __future__ import annotations

import contextlib
import json
import math
from typing import Any, Iterable

from pydicom.dataelem import DataElement, empty_value_for_VR
from pydicom.dataset import Dataset

from ups.faults import Unwritable

NUMBER_TEXTS = ("DS", "IS")  # numbers as texts, which one number spells in several ways: 1.50, 007
JSON_VALUES = ("Value", "InlineBinary", "BulkDataURI")


def number_of(text: str) -> Any:
    """Returns the number that JSON writes with this text, or the text if there is none (PS3.18 table F.2.3-1 has both)."""
    with contextlib.suppress(ValueError):
        number = json.loads(text)
        if type(number) in (int, float) and math.isfinite(number) and json.dumps(number) == text:
            return number
    return text


def number_texts(element: DataElement) -> list[str]:
    values = [] if element.is_empty else element.value if element.VM > 1 else [element.value]
    return [getattr(it, "original_string", None) or str("" if it is None else it) for it in values]


def json_of_element(element: DataElement) -> dict[str, Any]:
    if element.VR == "SQ":
        return {"vr": "SQ", "Value": [json_of(one) for one in element.value]} if element.value else {"vr": "SQ"}
    if element.VR in NUMBER_TEXTS:
        texts = number_texts(element)
        return {"vr": element.VR, **({"Value": [number_of(it) if it else None for it in texts]} if texts else {})}
    found: dict[str, Any] = element.to_json_dict(None, 0)
    return found


def json_of(given: Dataset) -> dict[str, Any]:
    """Returns a data set as an object of DICOM JSON, from which `of_json` makes the same data set."""
    return {f"{int(element.tag):08X}": json_of_element(element) for element in given}


def element_of_json(name: str, said: dict[str, Any]) -> DataElement:
    kind, found = said["vr"], [it for it in JSON_VALUES if it in said]
    if "BulkDataURI" in found:
        raise ValueError(f"{name} is bulk data elsewhere, which is not fetched")
    if kind == "SQ":
        return DataElement(int(name, 16), kind, [of_json(it or {}) for it in said.get("Value", [])])
    if kind in NUMBER_TEXTS:
        texts = ["" if it is None else str(it) for it in said.get("Value", [])]
        return DataElement(int(name, 16), kind, texts[0] if len(texts) == 1 else texts or None)
    if not found:
        return DataElement(int(name, 16), kind, empty_value_for_VR(kind))
    return DataElement.from_json(Dataset, name, kind, said[found[0]], found[0])


def of_json(said: dict[str, Any]) -> Dataset:
    """Returns the data set of an object of DICOM JSON. Raises an exception of any class if it isn't one."""
    found = Dataset()
    for name, each in said.items():
        found.add(element_of_json(name, each))
    return found


def as_json(found: Iterable[Dataset]) -> str:
    """Returns data sets as an array of DICOM JSON, each on a line."""
    return "[" + ",\n".join(json_line(each) for each in found) + "]"


def json_line(given: Dataset) -> str:
    try:
        return json.dumps(json_of(given), ensure_ascii=False)
    except Exception as fault:  # pydicom raises exceptions of many classes
        raise Unwritable(f"this can't be written as JSON: {fault}") from None
