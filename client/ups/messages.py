"""Command sets (PS3.7 section 6.3.1)."""

from __future__ import annotations

import functools
import re
import struct
from typing import Any

from pydicom.datadict import tag_for_keyword
from pydicom.dataset import Dataset

from ups.datasets import read
from ups.faults import Unexpected
from ups.pdus import unpacked


def command_set(elements: dict[str, Any]) -> bytes:
    """Returns a command set (PS3.7 section 6.3.1) of these elements by keyword: UIDs and numbers of two bytes."""
    spelled_out = b""
    for tag, value in sorted((tag_for_keyword(keyword) or 0, value) for keyword, value in elements.items()):
        content = struct.pack("<H", value) if isinstance(value, int) else value.encode(errors="surrogateescape")
        content += b"\0" * (len(content) % 2)
        spelled_out += struct.pack("<HHI", 0, tag, len(content)) + content
    return struct.pack("<HHII", 0, 0, 4, len(spelled_out)) + spelled_out


def whole_command(found: bytes) -> Dataset:
    """Reads a command set. Raises Unexpected if the lengths of its elements do not fit it, which pydicom takes."""
    at = 0
    while at < len(found):
        at += 8 + unpacked("<I", found[at + 4 : at + 8])[0]
    if at > len(found):
        raise Unexpected("a command set that is cut off")
    return read(found, True)


usual_command = functools.lru_cache(maxsize=64)(whole_command)


def command_of(found: bytes) -> Dataset:
    """Reads a command set. That of a usual length is cached, as all responses to a query but the last are the same."""
    return usual_command(found) if len(found) <= 512 else whole_command(found)


def number_of_command(command: Dataset, keyword: str) -> int:
    """Returns a number of a command set. Raises Unexpected if the command set has none there."""
    try:
        number = command.get(keyword)
    except Exception:  # pydicom raises exceptions of many classes
        raise Unexpected(f"a command set whose {keyword} can't be read") from None
    if not isinstance(number, int):
        raise Unexpected(f"a command set without {keyword}")
    return number


def uid_of_command(command: Dataset, keyword: str) -> str:
    """Returns a UID of a command set. Raises Unexpected if the command set has none there."""
    try:
        uid = str(command.get(keyword) or "")
    except Exception:  # pydicom raises exceptions of many classes
        raise Unexpected(f"a command set whose {keyword} can't be read") from None
    if not re.fullmatch(r"[0-9.]{1,64}", uid, re.ASCII):
        raise Unexpected(f"a command set whose {keyword} is no UID: {uid[:64]!r}")
    return uid
