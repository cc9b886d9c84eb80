"""The board as a watcher."""

from __future__ import annotations

import argparse
import contextlib
import queue
import time
from typing import Any, Iterator, Optional

from pydicom.datadict import keyword_for_tag
from pydicom.dataset import Dataset

from ups.association import Association, associated
from ups.datasets import made
from ups.elements import plain, value_at
from ups.faults import Refused
from ups.operations import FIND, act, echo, get_step
from ups.terms import GLOBAL, PULL, SOP_INSTANCE, VERIFICATION, WATCH, is_done, told
from ups.worklist import ROW, Worklist

QUIET = 20  # seconds of silence before an echo: a server ends an association that asks nothing for long


def attributes_shown(found: Dataset, deep: int = 0) -> Iterator[dict[str, Any]]:
    """Yields the attributes of a data set, and after each sequence those of its items."""
    for element in found:
        tag = f"({element.tag.group:04X},{element.tag.elem:04X})"
        row = {"deep": deep, "tag": tag, "name": element.name, "value": "" if element.VR == "SQ" else str(element.value)}
        yield row
        for number, one in enumerate(element.value if element.VR == "SQ" else [], 1):
            yield {"deep": deep + 1, "tag": "", "name": f"Item {number}", "value": ""}
            yield from attributes_shown(one, deep + 2)


class Watching:
    """The board as a watcher: it subscribes, takes reports, and queries the worklist."""

    def __init__(self, asked: argparse.Namespace) -> None:
        self.asked, self.worklist = asked, Worklist()
        self.questions: queue.Queue[str] = queue.Queue()
        self.queued: set[str] = set()
        self.newest, self.due, self.one = 0, 0.0, 0.0
        self.subscribed: Optional[int] = None  # the status of the subscription, once it is answered

    def report(self, number: int, command: Dataset, data: Optional[bytes]) -> None:
        """Folds in a report. One of an older association is skipped: the newest brings it again, and its order may be wrong."""
        if number < self.newest:
            return
        self.newest, kind = number, command.EventTypeID
        found = plain(data or b"", self.asked.implicit)
        if kind == 4:
            told_of = f"{value_at(found, 0x0074_1242)} {value_at(found, 0x0074_1244)}".strip()
            self.worklist.notice = f"SCP Status Change at {time.strftime('%H:%M:%S')}: {told_of}"
            self.question("")
        elif self.worklist.fold(str(command.AffectedSOPInstanceUID), kind, found):
            self.question(str(command.AffectedSOPInstanceUID))

    def question(self, uid: str) -> None:
        """Queues a query for a step, once; an empty UID stands for a new subscription."""
        if uid not in self.queued:
            self.queued.add(uid)
            self.questions.put(uid)

    def query(self, association: Association, uid: str) -> dict[str, bytes]:
        """Queries a step, or all if the UID is empty; returns the data sets by UID."""
        keys = made({"SpecificCharacterSet": "", "SOPInstanceUID": uid,
                     **{str(keyword_for_tag(tag)): "" for tag in ROW.values()}})
        keys.ScheduledStationNameCodeSequence = []
        keys.UnifiedProcedureStepPerformedProcedureSequence = []
        found = {}
        for command, data in association.answers(PULL, FIND, keys):
            if data is not None:
                step = plain(data, self.asked.implicit)
                found[value_at(step, SOP_INSTANCE)] = step
        if not is_done(command.Status):
            raise Refused(told(command.Status))
        return found

    def ask_for_one(self, association: Association, uid: str) -> None:
        began, clock = time.time(), time.monotonic()
        found = self.query(association, uid)
        self.one = time.monotonic() - clock
        self.worklist.enter(found)
        if not found:
            self.worklist.leave([uid], began)

    def ask_for_all(self, association: Association) -> None:
        """Queries the whole worklist; the next time in `every` seconds, or in ten times as long as it took, if that is longer."""
        began, clock = time.time(), time.monotonic()
        found = self.query(association, "")
        self.worklist.enter(found)
        known = {*self.worklist.rows, *(uid for uid, fold in list(self.worklist.folds.items()) if fold.came < began)}
        self.worklist.leave(known - set(found), began)
        took = time.monotonic() - clock
        with self.worklist.changed:
            self.worklist.asked, self.worklist.took = began, took
            self.worklist.first = set(found) if self.worklist.first is None else self.worklist.first
        self.tell_subscription()
        self.due = time.monotonic() + max(self.asked.every, 10 * took)

    def tell_subscription(self) -> None:
        self.worklist.say("" if self.subscribed is None or is_done(self.subscribed)
                          else f"No reports come: the subscription was answered {told(self.subscribed)}.")

    def named(self, seconds: float) -> list[str]:
        """Returns the steps that reports have named as soon as there is one, or none after `seconds`."""
        found: list[str] = []
        with contextlib.suppress(queue.Empty):
            found.append(self.questions.get(timeout=seconds))
            while True:
                found.append(self.questions.get_nowait())
        self.queued.difference_update(found)
        return found

    def work(self, association: Association) -> None:
        """Subscribes, and queries steps as reports name them; or all, if that takes less time, or is due and none is named."""
        self.worklist.begin()
        self.ask_for_all(association)
        self.subscribed = act(association, WATCH, 3, GLOBAL, made({"ReceivingAE": self.asked.ae, "DeletionLock": "FALSE"}))
        self.tell_subscription()
        while True:
            wait = self.due - time.monotonic()
            named = self.named(max(0.01, min(wait, QUIET)))
            if "" in named:
                return
            if not named and wait > QUIET:
                echo(association)
            elif len(named) * self.one > self.worklist.took or wait <= 0 and (not named or wait < -30):
                self.ask_for_all(association)
            else:
                for uid in named:
                    self.ask_for_one(association, uid)

    def ask(self) -> None:
        """Keeps an association with the server; after it ends, a new one queries all steps and subscribes again."""
        while True:
            try:
                with associated(self.asked, [WATCH, PULL, VERIFICATION]) as association:
                    self.work(association)
            except (OSError, Refused) as fault:
                self.worklist.say(f"The server does not answer: {fault}.")
                time.sleep(1)

    def step(self, uid: str) -> dict[str, Any]:
        """Returns all of one step: its attributes by an N-GET, and its life by its reports."""
        with associated(self.asked, [PULL]) as association:
            status, found = get_step(association, uid)
        with self.worklist.changed:
            row, fold = self.worklist.rows.get(uid), self.worklist.folds.get(uid)
            life = [] if fold is None else list(fold.life)
            told_of = fold and {"state": fold.state, "readiness": fold.readiness, "since": fold.since, "held": fold.held}
            return {"uid": uid, "status": told(status), "row": row, "told": told_of, "life": life,
                    "mark": self.worklist.mark(uid),
                    "attributes": [] if found is None else list(attributes_shown(found))}

    def end(self) -> None:
        """Ends the subscription, so that no report waits for a board that is gone."""
        asked = argparse.Namespace(**{**vars(self.asked), "timeout": min(3, self.asked.timeout)})
        with contextlib.suppress(OSError, Refused), associated(asked, [WATCH]) as association:
            act(association, WATCH, 4, GLOBAL, made({"ReceivingAE": self.asked.ae}))
