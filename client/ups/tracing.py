"""What -v tells of an association: what was negotiated, and each PDU in a line, without any value of a data set."""

from __future__ import annotations

import sys
import time
from typing import Iterator

from ups.faults import Refused, printable
from ups.pdus import (
    ABORT, ASSOCIATE_AC, ASSOCIATE_RJ, ASSOCIATE_RQ, P_DATA_TF, RELEASE_RP, RELEASE_RQ, contexts_of, fragments, items, unpacked)
from ups.terms import EVENT, EXPLICIT, IMPLICIT, PULL, PUSH, VERIFICATION, WATCH

NAMES = {ASSOCIATE_RQ: "A-ASSOCIATE-RQ", ASSOCIATE_AC: "A-ASSOCIATE-AC", ASSOCIATE_RJ: "A-ASSOCIATE-RJ", P_DATA_TF: "P-DATA-TF",
         RELEASE_RQ: "A-RELEASE-RQ", RELEASE_RP: "A-RELEASE-RP", ABORT: "A-ABORT"}
UIDS = {VERIFICATION: "Verification", PUSH: "UPS Push", WATCH: "UPS Watch", PULL: "UPS Pull", EVENT: "UPS Event",
        EXPLICIT: "Explicit VR Little Endian", IMPLICIT: "Implicit VR Little Endian"}
RESULTS = ("accepted", "rejected by the user", "rejected without a reason", "no such abstract syntax", "no such transfer syntax")
COMMANDS = {0x0020: "C-FIND", 0x0030: "C-ECHO", 0x0100: "N-EVENT-REPORT", 0x0110: "N-GET", 0x0120: "N-SET", 0x0130: "N-ACTION",
            0x0140: "N-CREATE"}
COMMAND_FIELD, STATUS, RESPONSE = 0x0000_0100, 0x0000_0900, 0x8000


def trace(begun: float, place: str, words: str) -> None:
    """Prints a line on standard error, with the time since the client has begun."""
    print(f"{time.monotonic() - begun:8.3f} s  {place} {printable(words)}", file=sys.stderr, flush=True)


def words_of(kind: int, body: bytes) -> str:
    """Returns a PDU in a line."""
    try:
        more = "; ".join(parts_of(kind, body))
    except Refused as fault:
        more = str(fault)
    return f"{NAMES.get(kind, f'PDU of type {kind:02X}')}, {len(body) + 6:,} bytes{more and ': '}{more}"


def parts_of(kind: int, body: bytes) -> Iterator[str]:
    if kind in (ASSOCIATE_RQ, ASSOCIATE_AC):
        called, calling = (body[at:at + 16].decode("latin-1").strip() for at in (4, 20))
        yield f"{calling} calls {called}"
        yield from (asked_words(it) for it in contexts_of(body, 0x20))
        yield from (answered_words(it) for it in contexts_of(body, 0x21))
        yield user_words(dict(items(dict(items(body[68:])).get(0x50, b""))))
    elif kind == P_DATA_TF:
        yield from (fragment_words(*it) for it in fragments(body))
    elif kind == ASSOCIATE_RJ and len(body) == 4:
        yield f"result {body[1]}, source {body[2]}, reason {body[3]}"
    elif kind == ABORT and len(body) == 4:
        yield f"source {body[2]}, reason {body[3]}"


def uid_words(uid: bytes) -> str:
    text = uid.rstrip(b"\0").decode("latin-1")
    return UIDS.get(text, text)


def asked_words(context: bytes) -> str:
    """Returns a presentation context that is asked for: its number, its SOP class, its transfer syntaxes."""
    found = list(items(context[4:]))
    named = [uid_words(uid) for kind, uid in found if kind == 0x30]
    return f"{context[0]} {' '.join(named)} in {', '.join(uid_words(uid) for kind, uid in found if kind == 0x40)}"


def answered_words(context: bytes) -> str:
    """Returns a presentation context that is answered; the transfer syntax counts only if it is accepted (PS3.8 section 9.3.3.2)."""
    result = RESULTS[context[2]] if context[2] < len(RESULTS) else f"result {context[2]}"
    syntax = dict(items(context[4:])).get(0x40, b"")
    return f"{context[0]} {result}" + (f" in {uid_words(syntax)}" if context[2] == 0 else "")


def user_words(found: dict[int, bytes]) -> str:
    """Returns the user information: the longest PDU, and the name of the implementation."""
    longest = unpacked(">I", found.get(0x51, bytes(4)))[0]
    named = " ".join(found[it].decode("latin-1") for it in (0x52, 0x55) if it in found)
    return f"PDUs of {f'{longest:,} bytes at most' if longest else 'any length'}, implementation {named or 'without a name'}"


def fragment_words(context: int, control: int, piece: bytes) -> str:
    last = "" if control & 2 else ", to be continued"
    if not control & 1:
        return f"{context} data set, {len(piece):,} bytes{last}"
    return f"{context} {command_words(piece)}{last}"


def command_words(piece: bytes) -> str:
    """Returns what a command set is, if its beginning says so: the request or the response, and its status."""
    numbers = dict(numbers_in(piece))
    field = numbers.get(COMMAND_FIELD, 0)
    name = COMMANDS.get(field & ~RESPONSE, f"command {field:04X}H")
    status = f", status {numbers[STATUS]:04X}" if STATUS in numbers else ""
    return f"{name}-{'RSP' if field & RESPONSE else 'RQ'}{status}"


def numbers_in(piece: bytes) -> Iterator[tuple[int, int]]:
    """Yields the tags and the values of the numbers of two bytes in a command set, as far as it goes."""
    at = 0
    while at + 8 <= len(piece):
        group, number, length = unpacked("<HHI", piece[at:at + 8])
        at += 8 + length
        if length == 2 and at <= len(piece):
            yield group << 16 | number, int.from_bytes(piece[at - 2:at], "little")
