#!/usr/bin/python3
"""Makes steps of HL7 orders, which come by MLLP: the scheduler between an order system and a UPS manager.

    hl7_steps.py [--port 2575] [--address 127.0.0.1] [--table FILE] [--worklist LABEL]

It takes OMI^O23 and ORM^O01, and does what ORC-1 asks for each order in a message: NW creates a step, XO sets its attributes, CA, OC
and DC cancel it. The UID of a step is made of the number of its order, so that an order that comes twice is one step. Which field
becomes which attribute says the table (hl7_steps.json, beside this file): a path of tags, a VR, the fields of which the first with
a value counts, and what becomes of its words.

The answer is AA once the manager has answered each order of a message. It is AE where no answer came, so that the sender sends the
message again, and AR, with the reason, where the manager refuses or the message can't be read.

It needs python3-hl7 and the client `ups` (Debian's and this project's packages). UPS_SERVER=HOST:PORT, UPS_CALLED, UPS_AE and so on
are as for `ups`, and UPS_COMMAND is the client itself (ups).
"""

from __future__ import annotations

import argparse
import contextlib
import datetime
import json
import os
import re
import socketserver
import subprocess
import sys
import uuid
from typing import Any, Iterator, Optional

import hl7

Json = dict[str, Any]
COMMAND = os.environ.get("UPS_COMMAND", "ups").split()
BEGIN, END = b"\x0b", b"\x1c\r"  # of a message (HL7's Minimal Lower Layer Protocol)
MOST = 1 << 20  # bytes of a message
PATIENCE = 600  # seconds of silence after which a sender is given up
TYPES = ("OMI^O23", "ORM^O01")
CREATED_BEFORE = "0111"
ENCODINGS = {"ASCII": "ascii", "UNICODE UTF-8": "utf-8", **{f"8859/{it}": f"iso8859_{it}" for it in range(1, 16)}}  # of MSH-18


class Refused(Exception):
    """What can't be done, with the reason; `again` if it may succeed later."""

    def __init__(self, why: str, again: bool = False) -> None:
        super().__init__(why)
        self.again = again


# the fields of an order

class Order:
    """An order: its own segments, which begin with its ORC, and those of the message before the first one."""

    def __init__(self, message: hl7.Message, segments: list[hl7.Segment]) -> None:
        self.message, self.segments = message, segments

    def field(self, place: str) -> str:
        """Returns the text of a place such as PID-5 or PID-3.1: of the first repetition, whole or one component."""
        name, number, component = re.fullmatch(r"(\w+)-(\d+)(?:\.(\d+))?", place).groups()  # type: ignore[union-attr]
        separators = self.message.separators
        for segment in self.segments:
            if str(segment[0]) == name and len(segment) > int(number):
                text = str(segment[int(number)]).split(separators[2])[0]
                parts = text.split(separators[3])
                if component:
                    text = parts[int(component) - 1].split(separators[4])[0] if len(parts) >= int(component) else ""
                return "" if text == '""' else self.message.unescape(text).strip() if component else text
        return ""

    def first(self, places: list[str]) -> str:
        return next((text for it in places if (text := self.field(it))), "")


def orders_of(message: hl7.Message) -> Iterator[Order]:
    common: list[hl7.Segment] = []
    own: list[hl7.Segment] = []
    for segment in message:
        if str(segment[0]) == "ORC" and own:
            yield Order(message, common + own)
            own = []
        (own if own or str(segment[0]) == "ORC" else common).append(segment)
    if own:
        yield Order(message, common + own)


# attributes, as DICOM JSON (PS3.18 annex F)

def name_of(text: str, order: Order) -> str:
    """Converts a name: HL7 has the suffix before the prefix, and DICOM behind it."""
    parts = [order.message.unescape(it.split(order.message.separators[4])[0]) for it in text.split(order.message.separators[3])]
    family, given, middle, suffix, prefix = (parts + [""] * 5)[:5]
    return "^".join([family, given, middle, prefix, suffix]).rstrip("^")


def moment_of(text: str) -> str:
    """Converts a date and time; one with hours and without an offset gets that of this machine."""
    digits = re.match(r"\d*", text)[0]  # type: ignore[index]
    if len(digits) < 10 or re.search(r"[+-]\d{4}$", text):
        return text
    moment = datetime.datetime.strptime(digits[:14].ljust(14, "0"), "%Y%m%d%H%M%S").astimezone()
    return moment.strftime("%Y%m%d%H%M%S%z")


def value_of(kind: str, text: str, words: dict[str, str], order: Order) -> Any:
    """Returns the value of an attribute; empty if its field says nothing."""
    if words:
        return words.get(text, "")
    if kind == "PN":
        return {"Alphabetic": name} if (name := name_of(text, order)) else ""
    return moment_of(text) if kind == "DT" else text[:8] if kind == "DA" else text[:64] if kind == "LO" else text


def give(step: Json, path: str, kind: str, value: Any) -> None:
    """Sets an attribute at a path of tags, in the first item of each sequence."""
    *outer, last = [re.sub(r"\W", "", it.partition("[")[0]) for it in path.split(".")]
    for tag in outer:
        step = step.setdefault(tag, {"vr": "SQ", "Value": [{}]})["Value"][0]
    step[last] = {"vr": kind, "Value": [value]}


def attributes_of(order: Order, table: Json) -> Json:
    step: Json = {"00080005": {"vr": "CS", "Value": ["ISO_IR 192"]}}
    for path, kind, places, *words in table["attributes"]:
        text = order.first(places)
        value = value_of(kind, text, words[0] if words else {}, order) if text else ""
        if value:
            give(step, path, kind, value)
    for sequence in step.values():  # a code without a scheme is a local one
        for code in sequence["Value"] if sequence["vr"] == "SQ" else ():
            if "00080100" in code:
                code.setdefault("00080102", {"vr": "SH", "Value": ["99LOCAL"]})
    return step


def uid_of(order: Order, table: Json) -> str:
    number = order.first(table["number"])
    if not number:
        raise Refused("an order without a number")
    words = f"{order.first(table['authority'])} {number}"
    return f"2.25.{uuid.uuid5(uuid.NAMESPACE_OID, words).int}"


# the manager

def ask(words: list[str], given: str = "") -> str:
    """Runs the client, and returns what it says. Raises Refused unless the manager accepts."""
    try:
        ran = subprocess.run([*COMMAND, *words], input=given.encode(), capture_output=True, check=False, timeout=PATIENCE)
    except (OSError, subprocess.TimeoutExpired) as fault:
        raise Refused(str(fault), again=True) from None
    said = (ran.stdout + ran.stderr).decode("utf8", "replace").strip()
    if ran.returncode and not (words[0] == "create" and said.startswith(CREATED_BEFORE)):
        raise Refused(said.splitlines()[-1] if said else f"ups ended with {ran.returncode}", again=ran.returncode != 1)
    return said


def do(order: Order, table: Json, worklist: str) -> None:
    """Does what an order asks for."""
    control = order.field("ORC-1")
    what, uid = table["orders"].get(control), uid_of(order, table)
    if what is None:
        raise Refused(f"the order control {control!r} is none of {', '.join(table['orders'])}")
    if what == "cancel":
        said = ask(["cancel", uid, "--reason", f"order {control}"])
    else:
        words = ["create", uid, *(["--worklist", worklist] if worklist else [])] if what == "create" else ["set", uid]
        said = ask([*words, "--from", "-"], json.dumps(attributes_of(order, table)))
    print(f"{order.first(table['number'])} {control}: {uid}: {said}", flush=True)


# messages

def encoding_of(content: bytes) -> Optional[str]:
    """Returns the encoding of a message by its MSH-18, or by what it is if that says nothing; None if it can't be read so."""
    named = (content.split(b"\r")[0].split(content[3:4]) + [b""] * 18)[17].decode("latin-1").split("~")[0]
    for encoding in ("utf-8", "latin-1") if not named else (ENCODINGS.get(named),):
        with contextlib.suppress(UnicodeDecodeError):
            if encoding is not None and content.decode(encoding) is not None:
                return encoding
    return None


def answer_to(content: bytes, table: Json, worklist: str) -> bytes:
    """Does the orders of a message, and returns its answer."""
    encoding = encoding_of(content)
    message = hl7.parse(content.decode(encoding or "latin-1", "replace").replace("\n", "\r"))
    code, why = "AA", ""
    try:
        if encoding is None:
            raise Refused("the character set in MSH-18 is not known, or the message is not in it")
        kind = "^".join(str(message.segment("MSH")[9]).split("^")[:2])
        if kind not in TYPES:
            raise Refused(f"{kind} is none of {', '.join(TYPES)}")
        orders = list(orders_of(message))
        if not orders:
            raise Refused("a message without an order")
        for order in orders:
            do(order, table, worklist)
    except Refused as fault:
        code, why = "AE" if fault.again else "AR", str(fault)
        print(f"{code}: {why}", file=sys.stderr, flush=True)
    answer = str(message.create_ack(code)).rstrip("\r")
    return (answer + (f"|{message.escape(why[:200])}" if why else "") + "\r").encode(encoding or "ascii", "replace")


class Sender(socketserver.StreamRequestHandler):
    """A connection of an order system: its messages come one after the other, each after the answer to the last one."""

    timeout = PATIENCE
    table: Json
    worklist: str

    def messages(self) -> Iterator[bytes]:
        found = b""
        while len(found) <= MOST and (more := self.request.recv(1 << 16)):
            found += more
            while END in found:
                message, found = found.split(END, 1)
                yield message.partition(BEGIN)[2]

    def handle(self) -> None:
        try:
            for message in self.messages():
                self.request.sendall(BEGIN + answer_to(message, self.table, self.worklist) + END)
        except (OSError, hl7.HL7Exception, LookupError, ValueError) as fault:
            print(f"{self.client_address[0]}: {type(fault).__name__}: {fault}", file=sys.stderr, flush=True)


class Server(socketserver.ThreadingTCPServer):
    allow_reuse_address = daemon_threads = True


def main() -> None:
    about, _, more = (__doc__ or "").partition("\n\n")
    asked = argparse.ArgumentParser(description=about, epilog=more, formatter_class=argparse.RawDescriptionHelpFormatter)
    asked.add_argument("--port", type=int, default=2575)
    asked.add_argument("--address", default="127.0.0.1")
    asked.add_argument("--table", default=os.path.join(os.path.dirname(os.path.abspath(__file__)), "hl7_steps.json"), metavar="FILE")
    asked.add_argument("--worklist", default="", metavar="LABEL", help="the Worklist Label of all steps, in place of the table's")
    given = asked.parse_args()
    with open(given.table, encoding="utf-8") as file:
        kind = type("SenderOfOrders", (Sender,), {"table": json.load(file), "worklist": given.worklist})
    with Server((given.address, given.port), kind) as server:
        print(f"orders are taken on {given.address}:{server.server_address[1]}", flush=True)
        server.serve_forever()


if __name__ == "__main__":
    main()
