"""What DICOM names of the service: SOP classes, tags, states, statuses, events (PS3.4 annex CC, PS3.6)."""

from __future__ import annotations

import uuid

VERIFICATION = "1.2.840.10008.1.1"
PUSH = "1.2.840.10008.5.1.4.34.6.1"
WATCH = "1.2.840.10008.5.1.4.34.6.2"
PULL = "1.2.840.10008.5.1.4.34.6.3"
EVENT = "1.2.840.10008.5.1.4.34.6.4"
GLOBAL = "1.2.840.10008.5.1.4.34.5"
FILTERED = "1.2.840.10008.5.1.4.34.5.1"
EXPLICIT = "1.2.840.10008.1.2.1"
IMPLICIT = "1.2.840.10008.1.2"
UTF_8 = "ISO_IR 192"
CHARACTER_SET, PADDING = 0x0008_0005, 0xFFFC_FFFC  # the tags of Specific Character Set and Data Set Trailing Padding
SOP_CLASS, SOP_INSTANCE, TRANSACTION = 0x0008_0016, 0x0008_0018, 0x0008_1195
STATE, START, MODIFIED, READINESS = 0x0074_1000, 0x0040_4005, 0x0040_4010, 0x0040_4041
PROGRESS, PERFORMED, BEGUN, ENDED = 0x0074_1002, 0x0074_1216, 0x0040_4050, 0x0040_4051
LABEL, PATIENT, PATIENT_ID, PRIORITY, WORKLIST = 0x0074_1204, 0x0010_0010, 0x0010_0020, 0x0074_1200, 0x0074_1202
STATION, PERFORMED_AT, PERFORMERS, PERFORMER = 0x0040_4025, 0x0040_4028, 0x0040_4035, 0x0040_4037
BIRTH_DATE = 0x0010_0030
CODE, MEANING = 0x0008_0100, 0x0008_0104
PENDING = (0xFF00, 0xFF01)
STATES = ("SCHEDULED", "IN PROGRESS", "COMPLETED", "CANCELED")
PRIORITIES = ("HIGH", "MEDIUM", "LOW")
# the name of each Event Type ID (PS3.4 table CC.2.4-1)
EVENTS = {1: "state", 2: "cancel requested", 3: "progress", 4: "server status", 5: "assigned"}
# the meaning of each status (PS3.4 annex CC)
STATUSES = {
    0x0000: "success", 0x0001: "success, but listed attributes are not there", 0x0106: "an attribute may not have this value",
    0x0110: "the data set can't be read", 0x0111: "a step was created under this UID before",
    0x0114: "a filter has keys that match each step", 0x0115: "an argument may not have this value",
    0x0117: "this is no instance for that", 0x0118: "this SOP class may not be named here",
    0x0120: "a required attribute is absent",
    0x0121: "a required attribute is empty", 0x0123: "there is no such action", 0x0211: "there is no such service here",
    0x0213: "there is no room", 0xA700: "memory ran out", 0xA900: "a key can't be read", 0xC000: "the keys can't be read",
    0xB301: "done, but without the deletion lock", 0xB304: "the step is canceled already",
    0xB306: "the step is completed already",
    0xC300: "the step is final", 0xC301: "this is not the Transaction UID of the claim", 0xC302: "the step is claimed already",
    0xC303: "a step becomes scheduled by its creation alone", 0xC304: "what the final state needs is not there",
    0xC307: "there is no such step", 0xC308: "the receiver is none of the server's peers",
    0xC309: "a new step has to be scheduled",
    0xC310: "the step is not claimed", 0xC311: "the step is completed", 0xC314: "not for this instance",
}
GONE = 0xC307


def told(status: int) -> str:
    return f"{status:04X} {STATUSES.get(status, '')}".rstrip()


def is_done(status: int) -> bool:
    return status == 0 or status == 1 or status >> 12 == 0xB


def new_uid() -> str:
    """Makes a UID from a random UUID (PS3.5 section B.2)."""
    return f"2.25.{uuid.uuid4().int}"
