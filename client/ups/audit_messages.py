"""Audit messages (PS3.15 section A.5)."""

from __future__ import annotations

import base64
import re
import struct
import xml.etree.ElementTree as ElementTree
from typing import Optional

from ups.audit_lines import GRANTED, OPERATIONS, REFUSAL, Audited, LogLine
from ups.patients import Patient
from ups.terms import IMPLICIT, PUSH

TAGGED = re.compile(r"\(([0-9A-F]{4}),([0-9A-F]{4})\)")
OWN = "99UPSD"  # the coding scheme of what DICOM has no code for


def add_code(to: ElementTree.Element, name: str, code: str, scheme: str, meaning: str) -> None:
    ElementTree.SubElement(to, name, {"csd-code": code, "codeSystemName": scheme, "originalText": meaning})


def add_event(to: ElementTree.Element, line: Audited) -> None:
    action, name = OPERATIONS.get(line.name, ("E", line.name))
    event = ElementTree.SubElement(to, "EventIdentification", {
        "EventActionCode": action, "EventDateTime": line.moment, "EventOutcomeIndicator": line.outcome})
    code, meaning = ("110112", "Query") if line.name == "Find" else ("110103", "DICOM Instances Accessed")
    add_code(event, "EventID", code, "DCM", meaning)
    add_code(event, "EventTypeCode", line.name, OWN, name)
    if line.description:
        ElementTree.SubElement(event, "EventOutcomeDescription").text = line.description


def add_participant(to: ElementTree.Element, entity: str, requests: bool, role: tuple[str, str], place: tuple[str, str]) -> None:
    """Adds an application entity; `place` is its address and the code of the kind of that."""
    address, kind = place
    where = {"NetworkAccessPointID": address, "NetworkAccessPointTypeCode": kind} if address else {}
    it = ElementTree.SubElement(to, "ActiveParticipant", {"UserID": entity, "UserIsRequestor": str(requests).lower(), **where})
    add_code(it, "RoleIDCode", role[0], "DCM", role[1])


def details_of(line: Audited) -> list[tuple[str, str]]:
    """Returns what a line says of the change, with a name for each part."""
    words, _, receiver = line.done.partition("for ")
    details: list[tuple[str, str]] = []
    if line.name == "Change" and line.done:
        before, _, after = line.done.partition(" to ")
        details = [("Former Procedure Step State", before), ("Procedure Step State", after)]
    elif line.name == "Cancel" and line.done:
        details = [("Requested Procedure Step State", line.done.removeprefix("asks for "))]
        details += [("Procedure Step State", "IN PROGRESS")] if line.is_held else []
    elif line.name == "Set" and line.done:
        details = [("Attributes", line.done.removeprefix("sets").strip())]
    elif line.name == "Subscribe" and line.done:
        details = [("Receiving AE", receiver), ("Deletion Lock", "TRUE" if words else "FALSE")]
    elif line.name in ("Unsubscribe", "Suspend") and line.done:
        details = [("Receiving AE", receiver)]
    elif line.name == "Find" and line.done:
        details = [("Answers", line.done.partition(" ")[0])]
    return details + ([] if line.number is None else [("Accepted Requests", str(line.number))])


def in_base64(content: bytes) -> str:
    return base64.b64encode(content).decode()


def add_query(to: ElementTree.Element, line: Audited) -> None:
    """Adds the keys of a query as a data set, with the tags of a line and without values, which the line lacks."""
    keys = b"".join(struct.pack("<HHI", int(group, 16), int(number, 16), 0) for group, number in TAGGED.findall(line.done))
    ElementTree.SubElement(to, "ParticipantObjectQuery").text = in_base64(keys)
    add_details(to, [("TransferSyntax", IMPLICIT), *details_of(line)])
    more = line.done.partition(" and ")[2]
    ElementTree.SubElement(to, "ParticipantObjectDescription").text = f"keys without values{more and f', and {more}'}"


def add_details(to: ElementTree.Element, details: list[tuple[str, str]]) -> None:
    for kind, value in details:
        ElementTree.SubElement(to, "ParticipantObjectDetail", {"type": kind, "value": in_base64(value.encode())})


def add_object(to: ElementTree.Element, line: Audited) -> None:
    """Adds the step, or of a query and a sweep the class of the steps."""
    is_class = line.instance == "-"
    it = ElementTree.SubElement(to, "ParticipantObjectIdentification", {
        "ParticipantObjectID": PUSH if is_class else line.instance,
        "ParticipantObjectTypeCode": "2", "ParticipantObjectTypeCodeRole": "3"})  # a system object, a report
    if is_class:
        add_code(it, "ParticipantObjectIDTypeCode", "110181", "DCM", "SOP Class UID")
    else:
        add_code(it, "ParticipantObjectIDTypeCode", "SOP Instance UID", OWN, "SOP Instance UID")
    if line.name == "Find" and line.done:
        add_query(it, line)
        return
    ElementTree.SubElement(it, "ParticipantObjectName").text = "Unified Procedure Step"
    add_details(it, details_of(line))
    steps = ElementTree.SubElement(it, "SOPClass", {"UID": PUSH, "NumberOfInstances": line.done or "0" if is_class else "1"})
    if not is_class:
        ElementTree.SubElement(steps, "Instance", {"UID": line.instance})


def add_patient(to: ElementTree.Element, patient: Patient) -> None:
    """Adds the study and the patient of a step (PS3.15 section A.5.3), as far as it has them."""
    for identifier, type_code, role, id_type in ((patient.study, "2", "3", ("110180", "Study Instance UID")),
                                                 (patient.identifier, "1", "1", None)):  # a report of a system; a person, a patient
        if identifier:
            it = ElementTree.SubElement(to, "ParticipantObjectIdentification", {
                "ParticipantObjectID": identifier, "ParticipantObjectTypeCode": type_code, "ParticipantObjectTypeCodeRole": role})
            code, scheme, meaning = (id_type[0], "DCM", id_type[1]) if id_type else ("2", "RFC-3881", "Patient Number")
            add_code(it, "ParticipantObjectIDTypeCode", code, scheme, meaning)
            ElementTree.SubElement(it, "ParticipantObjectName").text = meaning


def add_source(to: ElementTree.Element, server: str) -> None:
    source = ElementTree.SubElement(to, "AuditSourceIdentification", {"AuditSourceID": server})
    ElementTree.SubElement(source, "AuditSourceTypeCode", {"csd-code": "4"})  # an application server


def audit_message(line: Audited, server: str, patient: Optional[Patient] = None) -> str:
    """Returns what a line of a server tells of a request as an audit message in one line, of the event Query, or else DICOM
    Instances Accessed; with the patient of the step, if one is given."""
    message = ElementTree.Element("AuditMessage")
    add_event(message, line)
    if line.title is not None:
        add_participant(message, line.title, True, ("110153", "Source Role ID"), (line.address, "2"))
    add_participant(message, server, line.title is None, ("110152", "Destination Role ID"), (line.machine or "", "1"))
    add_source(message, server)
    add_object(message, line)
    if patient is not None:
        add_patient(message, patient)
    return ElementTree.tostring(message, encoding="unicode")


def activity_message(line: LogLine, server: str, kind: tuple[str, str], fault: Optional[str] = None) -> str:
    """Returns the start or the end of a server as an audit message in one line, of the event Application Activity."""
    message = ElementTree.Element("AuditMessage")
    event = ElementTree.SubElement(message, "EventIdentification", {
        "EventActionCode": "E", "EventDateTime": line.moment, "EventOutcomeIndicator": REFUSAL if fault else GRANTED})
    add_code(event, "EventID", "110100", "DCM", "Application Activity")
    add_code(event, "EventTypeCode", kind[0], "DCM", kind[1])
    if fault:
        ElementTree.SubElement(event, "EventOutcomeDescription").text = fault
    add_participant(message, server, False, ("110150", "Application"), (line.machine or "", "1"))
    add_source(message, server)
    return ElementTree.tostring(message, encoding="unicode")
