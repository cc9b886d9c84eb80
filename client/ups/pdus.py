"""The parts of PDUs (PS3.8 section 9.3)."""

from __future__ import annotations

import struct
from typing import Any, Iterator

from ups.faults import Unexpected
from ups.terms import EVENT

APPLICATION_CONTEXT = "1.2.840.10008.3.1.1.1"
IMPLEMENTATION = "2.25.7002"
LONGEST = 16_384  # bytes of the longest P-DATA-TF that this side receives or sends
MOST_CONTEXTS = 128  # presentation contexts of an association: their IDs are the odd numbers of a byte (PS3.8 section 9.3.2.2)
# PDU types (PS3.8 section 9.3.1)
ASSOCIATE_RQ, ASSOCIATE_AC, ASSOCIATE_RJ, P_DATA_TF, RELEASE_RQ, RELEASE_RP, ABORT = range(1, 8)


def item(kind: int, content: bytes) -> bytes:
    return struct.pack(">BBH", kind, 0, len(content)) + content


def pdu(kind: int, body: bytes) -> bytes:
    return struct.pack(">BBI", kind, 0, len(body)) + body


EVENT_ROLE = item(0x54, struct.pack(">H", len(EVENT)) + EVENT.encode() + bytes([0, 1]))  # the acceptor is the SCU of UPS Event


def unpacked(form: str, text: bytes) -> tuple[Any, ...]:
    """Unpacks numbers. Raises Unexpected if there are too few bytes for them."""
    try:
        return struct.unpack(form, text)
    except struct.error:
        raise Unexpected("lengths that do not fit the bytes") from None


def longest_of(associate: bytes) -> int:
    """Returns the number of bytes of the longest P-DATA-TF to send to the sender of an associate PDU (PS3.8 annex D.1)."""
    user = dict(items(associate[68:])).get(0x50, b"")
    most = unpacked(">I", dict(items(user)).get(0x51, bytes(4)))[0] or LONGEST  # 0 stands for no limit
    if most < 8:
        raise Unexpected(f"the peer takes PDUs of {most} bytes at most")
    return min(most, LONGEST)


def contexts_of(associate: bytes, kind: int) -> list[bytes]:
    """Returns the presentation context items of an associate PDU, or those with the results of its answer."""
    found = [content for number, content in items(associate[68:]) if number == kind]
    if len(found) > MOST_CONTEXTS or any(len(content) < 4 for content in found):
        raise Unexpected("presentation contexts that can't be read")
    return found


def items(text: bytes) -> Iterator[tuple[int, bytes]]:
    """Yields the type and the content of each item of an associate PDU, or of one of its items."""
    at = 0
    while at < len(text):
        kind, _, length = unpacked(">BBH", text[at : at + 4])
        at += 4 + length
        if at > len(text):
            raise Unexpected("an item that is longer than its PDU")
        yield kind, text[at - length : at]


def fragments(body: bytes) -> Iterator[tuple[int, int, bytes]]:
    """Yields the PDVs of a P-DATA-TF: presentation context ID, message control header, fragment."""
    at = 0
    while at < len(body):
        length, context, control = unpacked(">IBB", body[at : at + 6])
        at += 4 + length
        if length < 2 or at > len(body):
            raise Unexpected(f"a PDV of {length:,} bytes, which does not fit its PDU")
        yield context, control, body[at + 2 - length : at]
