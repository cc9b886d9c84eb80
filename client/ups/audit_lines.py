"""The lines of a server's log: its audit lines, refusals, starts and stops."""

from __future__ import annotations

import re
from typing import NamedTuple, Optional

from ups.faults import Refused
from ups.terms import told

# a line as `upsd` writes it, or as `journalctl -o short-iso` shows it; there the lines of systemd say when the server ends
LOGGED = re.compile(r"(\d{4}-\d\d-\d\dT[\d:]{8}(?:\.\d+)?)(Z|[+-]\d\d:?\d\d) (?:(\S+) [^\s:]+: )?"
                    r"(\[(?:INFO |WARN ) upsd\] .*|upsd(?:@\S+)?\.service: .*)", re.ASCII)
SAID = re.compile(r"\[(?:INFO |WARN ) upsd\] (?:audit|serve|store|upsd [0-9.]+(?:, commit [0-9a-f]+, [a-z]+ proved)?): (.*)")
CALLER = r"#\d+ ([ -~]{1,16}) (\[[0-9A-Fa-f:.%]+\]|[0-9.]+):\d+"
DONE = re.compile(rf"([A-Z][a-z]+) {CALLER}, ([0-9.]+|-), ([0-9A-F]{{4}})(?:, (?!at \d+\Z)(.*?))?(?:, at (\d+))?")
SWEPT = re.compile(r"Sweep [ -~]{1,16}, (\d+) steps(?:, at (\d+))?")
REFUSED = re.compile(rf"([A-Za-z-]+) {CALLER}(?:, ([0-9.]+))?, ([0-9A-F]{{4}})")
MORE_REFUSED = re.compile(r"(\d+ more requests) of (?:others|([ -~]{1,16}) ([0-9A-Fa-f:.%]+)) (were refused in the last minute)")
# the action code of each operation (PS3.15 section A.5.1), and its name
OPERATIONS = {
    "Create": ("C", "N-CREATE"), "Change": ("U", "Change UPS State"), "Cancel": ("U", "Request UPS Cancel"), "Set": ("U", "N-SET"),
    "Subscribe": ("U", "Subscribe to Receive UPS Event Reports"), "Unsubscribe": ("U", "Unsubscribe from Receiving UPS Event Reports"),
    "Suspend": ("U", "Suspend Global Subscription"), "Get": ("R", "N-GET"), "Find": ("E", "C-FIND"), "Sweep": ("D", "Sweep"),
}
REFUSED_AS = {"N-CREATE": "Create", "N-SET": "Set", "N-GET": "Get", "C-FIND": "Find"}  # the names of requests in a refusal
GRANTED, IN_PART, REFUSAL = "0", "4", "8"  # outcomes: success; a minor failure, done without the deletion lock; not done


class Audited(NamedTuple):
    """What a line tells of a request: when, on which machine, which operation, who from where, on which instance, the status, what
    was done, the number of accepted requests behind the answer, its outcome, and a description of that."""

    moment: str
    machine: Optional[str]
    name: str
    title: Optional[str] = None
    address: str = ""
    instance: str = "-"
    status: int = 0
    done: str = ""
    number: Optional[int] = None
    outcome: str = GRANTED
    description: str = ""
    is_held: bool = False  # of a request to cancel: an earlier line says that the step is IN PROGRESS


class LogLine(NamedTuple):
    """A line of a log: when, on which machine, its text as it stands behind the time, and without its level and its kind."""

    moment: str
    machine: Optional[str]
    text: str
    said: str


def logged_of(line: str) -> Optional[LogLine]:
    """Reads a line of a log; None if it is none of `upsd` at the level INFO or WARN, nor of its unit."""
    found = LOGGED.fullmatch(line)
    if not found:
        return None
    time_of_day, offset, machine, text = found.groups()
    moment = time_of_day + (offset if offset == "Z" or ":" in offset else f"{offset[:3]}:{offset[3:]}")
    said = SAID.fullmatch(text)
    return LogLine(moment, machine, text, said[1] if said else "")


def number_in(text: Optional[str]) -> Optional[int]:
    return None if text is None else int(text)


def audited_of(line: LogLine) -> Audited:
    """Reads an audit line. A title never hides the fields behind it: the longest one counts."""
    if swept := SWEPT.fullmatch(line.said):
        return Audited(line.moment, line.machine, "Sweep", done=swept[1], number=number_in(swept[2]))
    done = DONE.fullmatch(line.said)
    if not done or done[1] not in OPERATIONS:
        raise Refused(f"this audit line can't be read: {' '.join(filter(None, (line.moment, line.machine, line.text)))}")
    name, caller, address, instance, status, more, number = done.groups()
    code = int(status, 16)
    return Audited(line.moment, line.machine, name, caller, address.strip("[]"), instance, code, more or "", number_in(number),
                   GRANTED if code in (0x0000, 0x0001) else IN_PART, told(code) if code else "")


def refusal_of(line: LogLine) -> Optional[Audited]:
    """Reads a warning of a refused request, or of how many more were refused; None if it is another line."""
    if more := MORE_REFUSED.fullmatch(line.said):
        return Audited(line.moment, line.machine, "Refusals", more[2], more[3] or "", outcome=REFUSAL, description=f"{more[1]} {more[4]}")
    refused = REFUSED.fullmatch(line.said)
    if not refused:
        return None
    name, caller, address, instance, status = refused.groups()
    code = int(status, 16)
    return Audited(line.moment, line.machine, REFUSED_AS.get(name, name), caller, address.strip("[]"), instance or "-", code,
                   outcome=REFUSAL, description=told(code))
