"""A modality that reports what it does: Modality Performed Procedure Step as its SCU, in bytes made by hand from PS3.4 annex F."""

from __future__ import annotations

import os
import sys
from typing import NamedTuple

sys.path.insert(0, os.path.join(os.path.dirname(os.path.dirname(os.path.dirname(os.path.abspath(__file__)))), "check/lib"))
from dicom import EXPLICIT, VERIFICATION, associate, command, data, echo, even, items, message, us
from peer import Peer, connect

MPPS = b"1.2.840.10008.3.1.2.3.3"
CT_IMAGE = b"1.2.840.10008.5.1.4.1.1.2"
ECHO_ON = 3  # the presentation context of a C-ECHO
LIMIT = 30  # seconds for an answer
Row = tuple[int, int, bytes, bytes]  # group, element, VR, value


class Scheduled(NamedTuple):
    """What an entry of a modality worklist says of a step."""

    study: str
    number: str = ""
    accession: str = ""


def spelled(explicit: bool, rows: list[Row]) -> bytes:
    return b"".join(data(explicit, group, number, kind, value if kind == b"SQ" else even(value, b"\0" if kind == b"UI" else b" "))
                    for group, number, kind, value in rows)


def begun(explicit: bool, scheduled: list[Scheduled], station: str = "CT1", status: bytes = b"IN PROGRESS") -> bytes:
    """Returns the attributes of an N-CREATE: those that table F.7.2-1 has as types 1 and 2 for the SCU."""
    steps = [spelled(explicit, [
        (0x0008, 0x0050, b"SH", it.accession.encode()), (0x0008, 0x1110, b"SQ", b""), (0x0020, 0x000D, b"UI", it.study.encode()),
        (0x0032, 0x1060, b"LO", b"CT head"), (0x0040, 0x0007, b"LO", b""), (0x0040, 0x0008, b"SQ", b""),
        (0x0040, 0x0009, b"SH", it.number.encode()), (0x0040, 0x1001, b"SH", b"R1")]) for it in scheduled]
    return spelled(explicit, [
        (0x0008, 0x0005, b"CS", b"ISO_IR 100"), (0x0008, 0x0060, b"CS", b"CT"), (0x0008, 0x1032, b"SQ", b""), (0x0008, 0x1120, b"SQ", b""),
        (0x0010, 0x0010, b"PN", "MÜLLER^JÜRGEN".encode("latin-1")), (0x0010, 0x0020, b"LO", b"P0"), (0x0010, 0x0030, b"DA", b"19610504"),
        (0x0010, 0x0040, b"CS", b"M"), (0x0020, 0x0010, b"SH", b""), (0x0040, 0x0241, b"AE", station.encode()),
        (0x0040, 0x0242, b"SH", "Röhre 1".encode("latin-1")), (0x0040, 0x0243, b"SH", b""), (0x0040, 0x0244, b"DA", b"20261126"),
        (0x0040, 0x0245, b"TM", b"101500.25"), (0x0040, 0x0250, b"DA", b""), (0x0040, 0x0251, b"TM", b""), (0x0040, 0x0252, b"CS", status),
        (0x0040, 0x0253, b"SH", b"PPS1"), (0x0040, 0x0254, b"LO", b""), (0x0040, 0x0255, b"LO", b""), (0x0040, 0x0260, b"SQ", b""),
        (0x0040, 0x0270, b"SQ", items(steps)), (0x0040, 0x0340, b"SQ", b"")])


def ended(explicit: bool, status: bytes, study: str, images: int = 2, reason: bytes = b"") -> bytes:
    """Returns the modification list of the last N-SET, with a series of images."""
    named = [spelled(explicit, [(0x0008, 0x1150, b"UI", CT_IMAGE), (0x0008, 0x1155, b"UI", f"{study}.1.{it}".encode())]) for it in range(images)]
    series = spelled(explicit, [
        (0x0008, 0x0054, b"AE", b"ARCHIVE"), (0x0008, 0x103E, b"LO", b""), (0x0008, 0x1050, b"PN", b""), (0x0008, 0x1070, b"PN", b""),
        (0x0008, 0x1140, b"SQ", items(named)), (0x0018, 0x1030, b"LO", b"HEAD"), (0x0020, 0x000E, b"UI", f"{study}.1".encode()),
        (0x0040, 0x0220, b"SQ", b"")])
    code = spelled(explicit, [(0x0008, 0x0100, b"SH", b"110514"), (0x0008, 0x0102, b"SH", b"DCM"), (0x0008, 0x0104, b"LO", reason)])
    return spelled(explicit, [
        (0x0040, 0x0250, b"DA", b"20261126"), (0x0040, 0x0251, b"TM", b"1030"), (0x0040, 0x0252, b"CS", status),
        *([(0x0040, 0x0281, b"SQ", items([code]))] if reason else []), (0x0040, 0x0340, b"SQ", items([series]))])


class Modality(Peer):
    """An association with an SCP of MPPS, in one transfer syntax."""

    def __init__(self, port: int, syntax: bytes = EXPLICIT, called: bytes = b"MPPS") -> None:
        self.use(connect(port, LIMIT))
        self.explicit = syntax == EXPLICIT
        asked = associate([(MPPS, syntax), (VERIFICATION, syntax)], b"CT1")
        self.socket.sendall(asked.replace(b"UPSD".ljust(16), called.ljust(16), 1))
        self.kind, self.answered = self.pdu()

    def begin(self, uid: bytes, *scheduled: Scheduled, status: bytes = b"IN PROGRESS", station: str = "CT1") -> int:
        """Sends an N-CREATE, and returns its status."""
        words = [(0x0002, even(MPPS)), (0x0100, us(0x0140)), (0x0110, us(1)), (0x0800, us(1)), (0x1000, even(uid))]
        return self.ask(message(1, command(words), begun(self.explicit, list(scheduled), station, status)))

    def end(self, uid: bytes, status: bytes, study: str, **more: object) -> int:
        """Sends an N-SET, and returns its status."""
        words = [(0x0003, even(MPPS)), (0x0100, us(0x0120)), (0x0110, us(2)), (0x0800, us(1)), (0x1001, even(uid))]
        return self.ask(message(1, command(words), ended(self.explicit, status, study, **more)))  # type: ignore[arg-type]

    def echo(self) -> int:
        return self.ask(echo(3, ECHO_ON))
