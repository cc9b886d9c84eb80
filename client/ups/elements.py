"""Data sets as bytes, for the board and the monitor, which read many steps, and for `check`."""

from __future__ import annotations

import struct
from typing import Iterator, Optional

from pydicom.dataset import Dataset

from ups.datasets import read, spelled
from ups.faults import Refused, Unexpected
from ups.terms import CHARACTER_SET, CODE, MEANING, UTF_8

LONG = {b"OB", b"OD", b"OF", b"OL", b"OV", b"OW", b"SQ", b"SV", b"UC", b"UN", b"UR", b"UT", b"UV"}  # PS3.5 section 7.1.2
PLAIN = (b"", b"ISO_IR 6", UTF_8.encode())  # character sets whose bytes are UTF-8
Elements = dict[int, tuple[bytes, bytes]]


def elements_of(found: bytes) -> dict[int, tuple[bytes, bytes]]:
    """Returns the value representation and the value of each element, by tag, of a data set in Explicit VR Little Endian whose
    sequences have explicit lengths."""
    elements, at = {}, 0
    try:
        while at < len(found):
            group, number, vr, length = struct.unpack_from("<HH2sH", found, at)
            at += 8
            if vr in LONG:
                (length,) = struct.unpack_from("<I", found, at)
                at += 4
            elements[group << 16 | number] = vr, found[at : at + length]
            at += length
    except struct.error:
        raise Unexpected("a data set whose lengths do not fit its bytes") from None
    return elements


def first_item(sequence: bytes) -> bytes:
    """Returns the content of the first item of a sequence of explicit length; empty if it has none."""
    return sequence[8 : 8 + int.from_bytes(sequence[4:8], "little")]


def items_of(sequence: bytes) -> Iterator[bytes]:
    """Yields the content of each item of a sequence of explicit length."""
    while sequence:
        length = int.from_bytes(sequence[4:8], "little")
        yield sequence[8 : 8 + length]
        sequence = sequence[8 + length :]


def value_at(found: bytes, *path: int) -> str:
    """Returns the text at the end of a path of tags, through the first item of each sequence; empty if there is none."""
    *outer, last = path
    for tag in outer:
        found = first_item(elements_of(found).get(tag, (b"", b""))[1])
    return elements_of(found).get(last, (b"", b""))[1].rstrip(b"\0 ").decode("utf8", "replace")


def code_at(found: bytes, *path: int) -> str:
    """Returns the Code Value at a path, or the Code Meaning if it is empty."""
    return value_at(found, *path, CODE) or value_at(found, *path, MEANING)


def text_in(elements: Elements, tag: int) -> Optional[str]:
    """Returns the text of an attribute without padding; None if it is absent or a sequence."""
    vr, value = elements.get(tag, (b"SQ", b""))
    return None if vr == b"SQ" else value.rstrip(b"\0 ").decode("utf8", "replace")


def character_set_of(found: bytes) -> bytes:
    """Returns Specific Character Set of a data set in Explicit VR Little Endian; empty if it is not the first element."""
    group, number, vr, length = struct.unpack_from("<HH2sH", found) if len(found) >= 8 else (0, 0, b"", 0)
    return found[8 : 8 + length].strip() if group << 16 | number == CHARACTER_SET and vr == b"CS" else b""


def plain(found: bytes, implicit: bool) -> bytes:
    """Converts a data set to Explicit VR Little Endian, with sequences of explicit length and texts in UTF-8."""
    if not implicit and b"\xff\xff\xff\xff" not in found and character_set_of(found) in PLAIN:
        return found
    given = read(found, implicit)
    try:
        given.decode()
        given.SpecificCharacterSet = UTF_8
        return spelled(with_lengths(given), False)
    except Refused:
        raise
    except Exception as fault:  # pydicom raises exceptions of many classes
        raise Unexpected(f"a data set that can't be read: {fault}") from None


def with_lengths(given: Dataset) -> Dataset:
    """Has the sequences and items of a data set written with explicit lengths, and returns it."""
    for element in given.iterall():
        if element.VR == "SQ":
            element.is_undefined_length = False
            for one in element.value:
                one.is_undefined_length_sequence_item = False
    return given
