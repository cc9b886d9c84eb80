"""Attributes as words of the command line."""

from __future__ import annotations

import re
from typing import Optional

from pydicom.datadict import dictionary_VR, tag_for_keyword
from pydicom.dataset import Dataset

from ups.faults import Refused

NUMBERS = {"SL", "SS", "UL", "US"}


def tag_of(name: str) -> int:
    """Returns the tag of a keyword, or of hex digits such as (0010,0020) or 00100020."""
    return name and tag_for_keyword(name) or int(re.sub(r"^\(?([0-9A-Fa-f]{4}),([0-9A-Fa-f]{4})\)?$", r"\1\2", name), 16)


def item_of(given: Dataset, part: str) -> Dataset:
    """Returns the item that a part of a path names, as `(0040,4025)[0]`; adds it if it is the next of its sequence."""
    name, _, place = part.removesuffix("]").partition("[")
    tag, number = tag_of(name), int(place)
    if dictionary_VR(tag) != "SQ" or not part.endswith("]"):
        raise ValueError("no item of a sequence")
    if tag not in given:
        given.add_new(tag, "SQ", [])
    items_there = given[tag].value
    if number == len(items_there):
        items_there.append(Dataset())
    return items_there[number]


def give(given: Dataset, word: str) -> None:
    """Adds the attribute of a word to a data set: the word is a path, `=` and a value. A sequence has no value."""
    path, _, value = word.partition("=")
    *outer, last = path.split(".")
    for part in outer:
        given = item_of(given, part)
    if last.endswith("]"):
        item_of(given, last)
        is_sequence = True
    else:
        tag = tag_of(last)
        kind = dictionary_VR(tag)
        is_sequence = kind == "SQ"
        given.add_new(tag, kind, [] if is_sequence else int(value) if kind in NUMBERS and value else value)
    if is_sequence and value:
        raise ValueError("a value of a sequence")


def attributes_of(words: list[str], given: Optional[Dataset] = None) -> Dataset:
    """Adds the attributes of words to a data set, a new one by default, and returns it."""
    found = Dataset() if given is None else given
    for word in words:
        try:
            give(found, word)
        except (IndexError, KeyError, TypeError, ValueError):
            raise Refused(f"{word!r} is no attribute that can be given: write it as PatientID=P1, 00100020=P1 or (0010,0020)=P1, "
                          "and what is within a sequence as (0040,4025)[0].(0008,0100)=R1, its items in the order 0, 1 and "
                          "so on") from None
    return found
