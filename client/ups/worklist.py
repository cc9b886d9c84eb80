"""What the board knows: the worklist, next to what the event reports alone say."""

from __future__ import annotations

import collections
import itertools
import threading
import time
from typing import Any, Iterable, Optional

from ups.day import Day, Row
from ups.elements import code_at, elements_of, items_of, text_in, value_at
from ups.moments import moment_of
from ups.terms import (
    BEGUN, BIRTH_DATE, ENDED, EVENTS, LABEL, PATIENT, PATIENT_ID, PERFORMED, PERFORMED_AT, PERFORMER, PERFORMERS, PRIORITY,
    READINESS, START, STATE, STATES, STATION, WORKLIST)

FINAL = STATES[2:]
LIFE = 100  # kept reports of a step
SETTLES = 3  # seconds that a report may take before a difference is shown
ROW = {"state": STATE, "readiness": READINESS, "label": LABEL, "patient": PATIENT, "id": PATIENT_ID, "birth": BIRTH_DATE,
       "priority": PRIORITY, "worklist": WORKLIST, "start": START}


def row_of(uid: str, found: bytes) -> Row:
    """Returns what the page shows of a step: texts, by the names that the page uses."""
    elements = elements_of(found)
    row: Row = {"uid": uid, **{word: text_in(elements, tag) or "" for word, tag in ROW.items()}}
    for word, path in (("due", (START,)), ("begun", (PERFORMED, BEGUN)), ("ended", (PERFORMED, ENDED))):
        row[word] = moment_of(value_at(found, *path), None)
    row["station"] = code_at(found, STATION)
    performed_at = code_at(found, PERFORMED, PERFORMED_AT)
    stations = [code_at(it) for it in items_of(elements.get(STATION, (b"", b""))[1])]
    row["stations"] = [it for it in dict.fromkeys([*stations, performed_at]) if it]
    row["holder"] = performed_at or value_at(found, PERFORMED, PERFORMERS, PERFORMER) or row["station"]
    return row


class Fold:
    """A step as the event reports alone describe it."""

    def __init__(self) -> None:
        self.state = self.readiness = ""
        self.since: Optional[float] = None  # when the report of its state came; None if it had that state before the board
        self.held: Optional[float] = None
        self.came = 0.0
        self.life: collections.deque[dict[str, Any]] = collections.deque(maxlen=LIFE)


def event_text(kind: int, data: bytes) -> str:
    """Returns what a report says, in a line."""
    if kind == 1:
        return ", ".join(filter(None, [value_at(data, STATE), value_at(data, READINESS), value_at(data, 0x0074_1238)]))
    if kind == 2:
        return ", ".join(filter(None, ["by " + value_at(data, 0x0074_1236), value_at(data, 0x0074_1238)]))
    if kind == 3:
        share, words = value_at(data, 0x0074_1002, 0x0074_1004), value_at(data, 0x0074_1002, 0x0074_1006)
        return ", ".join(filter(None, [share and share + " %", words]))
    return ", ".join(filter(None, [code_at(data, STATION), code_at(data, 0x0040_4009), value_at(data, 0x0040_4036)]))


class Worklist:
    """The same steps by two sources: answers to queries, and event reports. Each change makes a new version."""

    def __init__(self) -> None:
        self.changed = threading.Condition()
        self.version = 1
        self.rows: dict[str, Row] = {}
        self.found: dict[str, bytes] = {}
        self.folds: dict[str, Fold] = {}
        self.before: dict[str, Fold] = {}  # those of the previous subscription
        self.differing: dict[str, float] = {}
        self.first: Optional[set[str]] = None  # the steps that the board found when it began
        self.trouble, self.notice = "The server has not answered yet.", ""
        self.began, self.asked, self.took, self.reported = time.time(), 0.0, 0.0, 0.0
        self.moves = itertools.count(1)
        self.day = Day()

    def judge(self, uid: str) -> None:
        """Notes whether the two sources agree on a step, and what was done of it today."""
        row, fold = self.rows.get(uid), self.folds.get(uid)
        if row and row["state"] != STATES[0]:
            told_of = fold if fold and fold.state == row["state"] else Fold()
            self.day.note(row, told_of.held, told_of.since)
        same = row and fold and (row["state"], row["readiness"]) == (fold.state, fold.readiness)
        if same or not (row or fold):
            self.differing.pop(uid, None)
        else:
            self.differing.setdefault(uid, time.time())
        self.version += 1
        self.changed.notify_all()

    def say(self, trouble: str) -> None:
        with self.changed:
            if trouble != self.trouble:
                self.trouble, self.version = trouble, self.version + 1
                self.changed.notify_all()

    def enter(self, found: dict[str, bytes]) -> None:
        """Enters the answers of a query for these steps, and skips unchanged ones."""
        fresh = {uid: row_of(uid, data) for uid, data in found.items() if self.found.get(uid) != data}
        with self.changed:
            for uid, row in fresh.items():
                before = self.rows.get(uid)
                row["moved"] = before["moved"] if before and before["state"] == row["state"] else next(self.moves)
                self.rows[uid], self.found[uid] = row, found[uid]
                self.judge(uid)

    def leave(self, gone: Iterable[str], began: float) -> None:
        """Forgets steps that a query did not find, and the reports of a final one: no report tells of a removal (CC.2.4)."""
        with self.changed:
            for uid in list(gone):
                self.rows.pop(uid, None)
                self.found.pop(uid, None)
                fold = self.folds.get(uid)
                if fold and fold.state in FINAL and fold.came < began:
                    del self.folds[uid]
                self.judge(uid)

    def fold(self, uid: str, kind: int, data: bytes) -> bool:
        """Takes a report, and returns whether the step has to be queried."""
        moment = time.time()
        with self.changed:
            self.reported = moment
            fold = self.folds.get(uid) or self.before.pop(uid, None) or Fold()
            self.folds[uid] = fold
            fold.came = moment
            fold.life.append({"moment": moment, "event": EVENTS.get(kind, str(kind)), "text": event_text(kind, data)})
            if kind == 1:
                self.fold_state(uid, fold, value_at(data, STATE), moment)
                fold.readiness = value_at(data, READINESS)
            self.judge(uid)
            return kind != 1 or uid in self.differing

    def fold_state(self, uid: str, fold: Fold, state: str, moment: float) -> None:
        if state == fold.state:
            return
        is_new = fold.state or self.first is not None and uid not in self.first
        fold.state, fold.since = state, moment if is_new else None
        if state == STATES[1]:
            fold.held = fold.since

    def begin(self) -> None:
        """Begins a new subscription, which reports each step held again: until then its earlier reports don't count."""
        with self.changed:
            self.folds, self.before, self.first = {}, self.folds, None
            self.differing = dict.fromkeys(self.rows, time.time())
            self.version += 1

    def mark(self, uid: str) -> str:
        """Returns whether the sources agree on a step; `differ` only after SETTLES seconds, and a second after the last report."""
        if uid not in self.differing:
            return "agree"
        return "differ" if time.time() - max(self.differing[uid] + SETTLES, self.reported + 1) > 0 else "waiting"
