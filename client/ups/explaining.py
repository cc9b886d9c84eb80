"""The command explain: why each step is in the answer to a query, or is not, by the requests in a copy of the server's store."""

from __future__ import annotations

import argparse
import dataclasses
import re
import subprocess
from collections.abc import Iterator
from typing import NamedTuple, Optional

from pydicom.datadict import keyword_for_tag
from pydicom.dataelem import DataElement
from pydicom.dataset import Dataset

from ups.audit_lines import OPERATIONS
from ups.datasets import say_characters, spelled
from ups.faults import Refused
from ups.operations import keys_of
from ups.stores import Told, requests_of, unescaped
from ups.terms import CHARACTER_SET, SOP_INSTANCE

CHANGES = {"create", "change", "set", "cancel"}  # the verbs of lines that name a step and may change it
FOUND = re.compile(r"[\[ ]00080018=([0-9.]+)")  # a step of the answer to a query


class Decided(NamedTuple):
    """The request that decided something: its number, its operation and who asked for it."""

    number: int
    operation: str
    title: str

    def __str__(self) -> str:
        return f"{self.number}, {self.operation} by {self.title}"


@dataclasses.dataclass
class Step:
    """What the requests so far say of a step: for each key whether it matches, and which request decided that; which one removed it."""

    matches: list[bool]
    decided: list[Decided]
    removed: Optional[Decided] = None

    def is_found(self) -> bool:
        return self.removed is None and all(self.matches)


class History:
    """The accepted requests of a store as lines, and `upsd script --history`, which answers behind those that it was told."""

    def __init__(self, told: Told) -> None:
        self.lines = told.lines
        self.script = subprocess.Popen(told.command, stdin=subprocess.PIPE, stdout=subprocess.PIPE, text=True)

    def answer(self, line: str) -> str:
        """Returns the reply to a line, without its status."""
        assert self.script.stdin and self.script.stdout
        self.script.stdin.write(f"{line}\n")
        self.script.stdin.flush()
        status, _, words = self.script.stdout.readline().rstrip("\n").partition(" ")
        if status not in ("0000", "0001", "B301"):
            raise Refused(f"upsd script answers {status or 'nothing'} to {line[:100]}")
        return words

    def found(self, keys: Dataset) -> set[str]:
        return set(FOUND.findall(self.answer(f"0 EXPLAIN find :{spelled(keys, False).hex().upper()}")))

    def requests(self) -> Iterator[tuple[Decided, str, str]]:
        """Tells the script one request after the other, and yields each with its verb and the word behind it."""
        for number, line in enumerate(self.lines, 1):
            self.answer(line)
            _, title, verb, *more = line.split(" ")
            operation = OPERATIONS.get(verb.capitalize(), ("", verb))[1]
            yield Decided(number, operation, unescaped(title)), verb, more[0] if more else ""

    def end(self) -> None:
        self.script.kill()
        self.script.communicate()


def parts_of(identifier: Dataset) -> list[DataElement]:
    """Returns the keys of a query that have a value."""
    return [it for it in identifier if it.value and it.tag not in (CHARACTER_SET, SOP_INSTANCE)]


def only(key: DataElement, identifier: Dataset, step: str) -> Dataset:
    """Returns a query by one of the keys for one step."""
    found = Dataset()
    if identifier.get("SpecificCharacterSet"):
        found.SpecificCharacterSet = identifier.SpecificCharacterSet
    found.SOPInstanceUID = step
    found.add(key)
    return found


def look(history: History, identifier: Dataset, keys: list[DataElement], uid: str, by: Decided, before: Optional[Step]) -> Step:
    """Asks by each key alone whether a step matches now, and returns what is so; what was so before keeps its request."""
    matches = [uid in history.found(only(it, identifier, uid)) for it in keys]
    decided = [before.decided[at] if before and before.matches[at] == it else by for at, it in enumerate(matches)]
    return Step(matches, decided)


def steps_behind(history: History, identifier: Dataset, keys: list[DataElement], only_step: Optional[str]) -> dict[str, Step]:
    """Goes through the requests, and returns what they say in the end of each step that is held, or of that one, if it was removed."""
    steps: dict[str, Step] = {}
    for by, verb, uid in history.requests():
        if verb in CHANGES and only_step in (None, uid):
            before = steps.get(uid)
            steps[uid] = look(history, identifier, keys, uid, by, before) if keys else before or Step([True], [by])
        elif verb == "sweep":
            held = set(history.answer("0 EXPLAIN held").split(" "))
            removed = [it for it, step in steps.items() if it not in held and step.removed is None]
            for it in removed:
                steps[it].removed = by
            if only_step is None:
                steps = {it: step for it, step in steps.items() if it in held}
    return steps


def value_of(history: History, uid: str, key: DataElement) -> str:
    """Returns what a step has of a key's attribute, as `upsd script` writes it."""
    words = history.answer(f"0 EXPLAIN get {uid} {int(key.tag):08X}").split(" ")
    prefix = f"{int(key.tag):08X}"
    values = [unescaped(it.removeprefix(f"{prefix}=")) for it in words if it.startswith(prefix)]
    return " ".join(values) or "nothing"


def why(history: History, uid: str, step: Step, keys: list[DataElement]) -> str:
    """Returns the line of a step: the request since which it is in the answer, or since which it is gone or a key doesn't match."""
    if step.removed is not None:
        return f"{uid}  not: removed by {step.removed}"
    if step.is_found():
        return f"{uid}  in the answer since {max(step.decided)}"
    at = step.matches.index(False)
    name = keyword_for_tag(keys[at].tag) or str(keys[at].tag)
    return f"{uid}  not: {name} is {value_of(history, uid, keys[at])} since {step.decided[at]}"


def explain_by(history: History, asked: argparse.Namespace) -> int:
    """Prints a line for each step, and returns the exit status."""
    identifier = keys_of(asked, asked.station[0] if asked.station else None, ())
    say_characters(identifier)
    keys = parts_of(identifier)
    steps = steps_behind(history, identifier, keys, asked.step)
    for uid, step in steps.items():
        print(why(history, uid, step, keys))
    if asked.step and not steps:
        print(f"{asked.step}  not: no request has created it")
    answer, found = history.found(identifier), {it for it, step in steps.items() if step.is_found()}
    if (answer if asked.step is None else answer & {asked.step}) != found:
        raise Refused("the whole query finds other steps than its keys one by one")
    print(f"{len(found)} in the answer, {len(steps) - len(found)} not, at {len(history.lines)}")
    return 0


def explain(asked: argparse.Namespace) -> int:
    """Says of each step held why a query finds it, or doesn't, behind the first requests of a store."""
    if asked.station and len(asked.station) > 1:
        raise Refused("explain takes one station: each of several is a query of its own")
    history = History(requests_of(asked.upsd, asked.store, asked.at))
    try:
        return explain_by(history, asked)
    finally:
        history.end()
