"""The state of the server, measured, and in words."""

from __future__ import annotations

import argparse
import math
import time
from typing import Any, Optional

from ups.association import Association
from ups.datasets import made
from ups.elements import code_at, plain, value_at
from ups.moments import moment_of
from ups.operations import FIND
from ups.terms import (
    BEGUN, LABEL, MODIFIED, PERFORMED, PERFORMED_AT, PERFORMER, PERFORMERS, PULL, SOP_INSTANCE, START, STATE, STATES, WORKLIST,
    is_done, new_uid)

AGES = {"start": START, "modification": MODIFIED}
# what is asked of each step that is claimed: its claim began when its performer says so, or else at another moment
CLAIM: dict[str, Any] = {
    "SpecificCharacterSet": "", "SOPInstanceUID": "", "ProcedureStepState": STATES[1], "ProcedureStepLabel": "",
    "ScheduledProcedureStepStartDateTime": "", "ScheduledProcedureStepModificationDateTime": "",
    "UnifiedProcedureStepPerformedProcedureSequence": []}
BEGINNINGS = {"begun": (PERFORMED, BEGUN), "modified": (MODIFIED,), "scheduled": (START,)}


class Health:
    """The result of `status`: steps by state and by worklist, the moment and the text of the oldest, the claims, and how long it
    took."""

    def __init__(self) -> None:
        self.counts = dict.fromkeys(STATES, 0)
        self.oldest: dict[tuple[str, str], tuple[float, str]] = {}
        self.worklists: dict[tuple[str, str], list[tuple[float, str]]] = {}
        self.claims: list[tuple[float, str, str]] = []  # the moment, how it is known, and the rest of the line
        self.look_up = self.total = 0.0

    def add(self, found: bytes, asked: argparse.Namespace) -> None:
        step = plain(found, asked.implicit)
        state, start = value_at(step, STATE), (math.inf, "")
        self.counts[state] = self.counts.get(state, 0) + 1
        for what, tag in AGES.items() if state in STATES[:2] else ():
            text = value_at(step, tag)
            moment = moment_of(text, asked.offset) if text else None
            if moment is not None:
                self.oldest[state, what] = min(self.oldest.get((state, what), (math.inf, text)), (moment, text))
                start = (moment, text) if what == "start" else start
        if asked.worklists:
            self.worklists.setdefault((value_at(step, WORKLIST), state), []).append(start)

    def add_claim(self, found: bytes, asked: argparse.Namespace) -> None:
        """Notes a claim that is as old as is asked for; one of an unknown age is."""
        step = plain(found, asked.implicit)
        texts = {how: value_at(step, *path) for how, path in BEGINNINGS.items()}
        known = [(moment, how) for how, text in texts.items() if (moment := text and moment_of(text, asked.offset))]
        moment, how = known[0] if known else (-math.inf, "at an unknown time")
        if time.time() - moment >= asked.claimed:
            holder = code_at(step, PERFORMED, PERFORMED_AT) or value_at(step, PERFORMED, PERFORMERS, PERFORMER) or "-"
            self.claims.append((moment, how, f"{value_at(step, SOP_INSTANCE)}  {holder}  {value_at(step, LABEL)}"))

    def age(self, state: str, what: str = "start") -> Optional[float]:
        """Returns how many seconds ago the oldest was: 0 if it is yet to come, None if there is none."""
        return max(0.0, time.time() - self.oldest[state, what][0]) if (state, what) in self.oldest else None


def measured(association: Association, asked: argparse.Namespace) -> tuple[Health, int]:
    """Queries a UID of no step, which is one look-up in the server's index, and then all steps, with no more attributes than are
    needed; also returns the last status."""
    health = Health()
    nobody = made({"SOPInstanceUID": new_uid(), "ProcedureStepState": ""})
    clock = time.monotonic()
    status = association.status_of(PULL, FIND, nobody)
    health.look_up = time.monotonic() - clock
    wanted = {"ScheduledProcedureStepStartDateTime": "", "ScheduledProcedureStepModificationDateTime": "", "ProcedureStepState": ""}
    if asked.worklists:
        wanted.update(SpecificCharacterSet="", WorklistLabel="")
    queries = [(wanted, health.add), *([(CLAIM, health.add_claim)] if asked.claimed is not None else [])]
    for keys, add in queries if is_done(status) else ():
        for command, data in association.answers(PULL, FIND, made(keys)):
            status = command.Status
            if data is not None:
                add(data, asked)
        if not is_done(status):
            break
    health.total = time.monotonic() - asked.begun
    return health, status


def in_words(health: Health) -> str:
    """Returns lines for people: one for each state, and the times."""
    lines = []
    for state, count in health.counts.items():
        oldest = [f"oldest {what} {health.oldest[state, what][1]}, {health.age(state, what):,.0f} s ago"
                  for what in AGES if (state, what) in health.oldest]
        lines.append("  ".join([f"{state:12} {count:7,}", *oldest]))
    lines += lines_of_worklists(health) + lines_of_claims(health)
    return "\n".join([*lines, f"look-up by UID {1e3 * health.look_up:.1f} ms, all {1e3 * health.total:.1f} ms"])


def lines_of_worklists(health: Health) -> list[str]:
    """Returns a line for each worklist label and state."""
    lines = []
    for (worklist, state), starts in sorted(health.worklists.items(), key=lambda it: it[0]):
        moment, text = min(starts)
        oldest = [f"oldest start {text}, {max(0.0, time.time() - moment):,.0f} s ago"] if text else []
        lines.append("  ".join([f"{worklist or '-':20} {state:12} {len(starts):7,}", *oldest]))
    return lines


def lines_of_claims(health: Health) -> list[str]:
    """Returns a line for each claim, the oldest first."""
    return [f"claimed: {rest}  {how}" + ("" if math.isinf(moment) else f" {max(0.0, time.time() - moment):,.0f} s ago")
            for moment, how, rest in sorted(health.claims)]
