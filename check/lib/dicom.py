"""Encodes what DICOM sends: PDUs, command sets and data sets, and bytes written as words that a person can read."""

from __future__ import annotations

import os
import re
import struct
from collections.abc import Iterable, Mapping, Sequence
from typing import Optional

from machine import HERE

PUSH = b"1.2.840.10008.5.1.4.34.6.1"
WATCH = b"1.2.840.10008.5.1.4.34.6.2"
PULL = b"1.2.840.10008.5.1.4.34.6.3"
EVENT = b"1.2.840.10008.5.1.4.34.6.4"
VERIFICATION = b"1.2.840.10008.1.1"
IMPLICIT = b"1.2.840.10008.1.2"
EXPLICIT = b"1.2.840.10008.1.2.1"
LONG = {b"OB", b"SQ", b"UN"}
UIDS = {"VERIFICATION": VERIFICATION, "PUSH": PUSH, "WATCH": WATCH, "PULL": PULL, "EVENT": EVENT}  # words that stand for a UID
VECTORS = os.path.join(HERE, "crates/fixtures/src/vectors.rt")


Tag = tuple[int, int]  # group and element
Elements = Sequence[tuple[int, bytes]]  # of a command set: the number of each, and its value
Contexts = Sequence[tuple[bytes, bytes]]  # the abstract and the transfer syntax of each presentation context


def item(kind: int, content: bytes) -> bytes:
    return struct.pack(">BBH", kind, 0, len(content)) + content


def pdu(kind: int, body: bytes) -> bytes:
    return struct.pack(">BBI", kind, 0, len(body)) + body


def associate(contexts: Contexts, calling: bytes = b"BENCH") -> bytes:
    """Returns an A-ASSOCIATE-RQ with a presentation context for each (abstract syntax, transfer syntax), IDs 1, 3, .."""
    body = struct.pack(">HH", 1, 0) + b"UPSD".ljust(16) + calling.ljust(16) + bytes(32)
    body += item(0x10, b"1.2.840.10008.3.1.1.1")
    for i, (abstract, transfer) in enumerate(contexts):
        body += item(0x20, bytes([2 * i + 1, 0, 0, 0]) + item(0x30, abstract) + item(0x40, transfer))
    body += item(0x50, item(0x51, struct.pack(">I", 16384)) + item(0x52, b"1.2.3"))
    return pdu(1, body)


RELEASE = pdu(5, bytes(4))


def even(value: bytes, pad: bytes = b"\0") -> bytes:
    return value if len(value) % 2 == 0 else value + pad


def element(number: int, value: bytes) -> bytes:
    """Returns an element of a command set."""
    return struct.pack("<HHI", 0, number, len(value)) + value


def command(elements: Elements) -> bytes:
    rest = b"".join(element(n, v) for n, v in elements)
    return element(0, struct.pack("<I", len(rest))) + rest


def us(number: int) -> bytes:
    return struct.pack("<H", number)


def message(context: int, command_set: bytes, data_set: Optional[bytes] = None) -> bytes:
    """Returns a message in PDUs of at most 16,384 bytes."""
    out = b""
    for control, last, part in ((1, 3, command_set), (0, 2, data_set)):
        if part is None:
            continue
        at = 0
        while True:
            piece = part[at : at + 16378]
            at += 16378
            ended = at >= len(part)
            out += pdu(4, struct.pack(">IBB", len(piece) + 2, context, last if ended else control) + piece)
            if ended:
                break
    return out


def echo(number: int, context: int = 1) -> bytes:
    return message(context, command([(0x0002, even(VERIFICATION)), (0x0100, us(0x0030)), (0x0110, us(number)), (0x0800, us(0x0101))]))


def create(context: int, number: int, instance: bytes, data_set: bytes) -> bytes:
    elements = [(0x0002, even(PUSH)), (0x0100, us(0x0140)), (0x0110, us(number)), (0x0800, us(1)), (0x1000, even(instance))]
    return message(context, command(elements), data_set)


def get(context: int, number: int, instance: bytes) -> bytes:
    elements = [(0x0003, even(PUSH)), (0x0100, us(0x0110)), (0x0110, us(number)), (0x0800, us(0x0101)), (0x1001, even(instance))]
    return message(context, command(elements))


def set_attributes(context: int, number: int, instance: bytes, data_set: bytes) -> bytes:
    """Returns an N-SET request."""
    elements = [(0x0003, even(PUSH)), (0x0100, us(0x0120)), (0x0110, us(number)), (0x0800, us(1)), (0x1001, even(instance))]
    return message(context, command(elements), data_set)


def act(context: int, number: int, instance: bytes, action: int, data_set: bytes) -> bytes:
    """Returns an N-ACTION request of a type."""
    elements = [(0x0003, even(PUSH)), (0x0100, us(0x0130)), (0x0110, us(number)), (0x0800, us(1)), (0x1001, even(instance)), (0x1008, us(action))]
    return message(context, command(elements), data_set)


def find(context: int, number: int, identifier: bytes) -> bytes:
    """Returns a C-FIND request of medium priority."""
    elements = [(0x0002, even(PULL)), (0x0100, us(0x0020)), (0x0110, us(number)), (0x0700, us(0)), (0x0800, us(1))]
    return message(context, command(elements), identifier)


def give_up(context: int, number: int) -> bytes:
    """Returns a C-CANCEL request for a C-FIND."""
    return message(context, command([(0x0100, us(0x0FFF)), (0x0120, us(number)), (0x0800, us(0x0101))]))


def data(explicit: bool, group: int, number: int, vr: bytes, value: bytes) -> bytes:
    """Returns an element of a data set."""
    tag = struct.pack("<HH", group, number)
    if not explicit:
        return tag + struct.pack("<I", len(value)) + value
    if vr in LONG:
        return tag + vr + struct.pack("<HI", 0, len(value)) + value
    return tag + vr + struct.pack("<H", len(value)) + value


def items(elements: Iterable[bytes]) -> bytes:
    return b"".join(struct.pack("<HHI", 0xFFFE, 0xE000, len(e)) + e for e in elements)


def step(explicit: bool, more: Mapping[Tag, tuple[bytes, bytes]] = {}) -> bytes:
    """Returns the attributes of a step that is accepted: 20 of them, one a sequence, updated by `more`."""
    row: dict[Tag, tuple[bytes, bytes]] = {
        (0x0010, 0x0010): (b"PN", b"DOE^JANE"),
        (0x0010, 0x0020): (b"LO", b"P1"),
        (0x0010, 0x0030): (b"DA", b"19700101"),
        (0x0010, 0x0040): (b"CS", b"F "),
        (0x0032, 0x1060): (b"LO", b"CT CHEST"),
        (0x0038, 0x0010): (b"LO", b"ADM1"),
        (0x0040, 0x4005): (b"DT", b"20240229120000"),
        (0x0040, 0x4010): (b"DT", b"20240229120000"),
        (0x0040, 0x4011): (b"DT", b"20240229130000"),
        (0x0040, 0x4036): (b"LO", b"RADIOLOGY "),
        (0x0040, 0x4037): (b"PN", b"ROE^JOHN"),
        (0x0040, 0x4041): (b"CS", b"READY "),
        (0x0074, 0x1000): (b"CS", b"SCHEDULED "),
        (0x0074, 0x1200): (b"CS", b"MEDIUM"),
        (0x0074, 0x1202): (b"LO", b"READS "),
        (0x0074, 0x1204): (b"LO", b"CT READ "),
        (0x0008, 0x0050): (b"SH", b"A1"),
        (0x0008, 0x0090): (b"PN", b"POE^ANN "),
        (0x0020, 0x000D): (b"UI", b"1.2.3.4\0"),
        (0x0040, 0x4018): (b"SQ", items([data(explicit, 8, 0x0100, b"SH", b"C1") + data(explicit, 8, 0x0102, b"SH", b"99A ")])),
    }
    row.update(more)
    return b"".join(data(explicit, g, e, vr, value) for (g, e), (vr, value) in sorted(row.items()))


# bytes written as words

def stored() -> dict[str, str]:
    """Returns the stored PDUs that the tests of the crates use too, as texts by name."""
    with open(VECTORS, encoding="utf-8") as text:
        found = re.findall(r'pub const (\w+): &str =\s*"((?:[^"\\]|\\")*)";', text.read())
    return {name: spelled.replace('\\"', '"') for name, spelled in found}


def bytes_of(names: Mapping[str, str], text: str) -> bytes:
    """Returns the bytes of a text: those in quotes, and what each other word stands for."""
    parts = re.findall(r'"([^"]*)"|([^\s"]+)', text)
    return b"".join(bytes_of_word(names, word) if word else quoted.encode() for quoted, word in parts)


def bytes_of_word(names: Mapping[str, str], word: str) -> bytes:
    """Returns the bytes of a word: of a name, a UID or hex digits, as often as a number after `*` says."""
    name, _, count = word.partition("*")
    times = int(count or 1)
    if name not in names:
        return (UIDS[name] if name in UIDS else bytes.fromhex(name)) * times
    if "#" in names[name]:
        return b"".join(bytes_of(names, text) for text in numbered(names[name], times))
    return bytes_of(names, names[name]) * times


def numbered(text: str, times: int) -> list[str]:
    """Returns a text that many times, with two or more hex digits in place of a `#`: 01, 03, 05 and so on."""
    return [text.replace("#", f"{number:02x}") for number in range(1, 2 * times, 2)]
