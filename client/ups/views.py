"""What the page of the board shows: a part of the worklist, in the order in which it is to be done."""

from __future__ import annotations

import collections
import heapq
import math
import time
from typing import Any, Callable, NamedTuple, Optional, Union

from ups.day import Done, Row, counts_of, median_of
from ups.terms import PRIORITIES, STATES
from ups.worklist import Worklist

SHOWN = 200  # steps of each state on the page
NAMED = 5  # steps that wait longest, or are held longest, on the page
CHOICES = 200  # worklists, and stations, that the page lets choose from
SEARCHED = ("uid", "label", "patient", "id", "birth", "station", "worklist", "holder")
Order = tuple[float, float, str]


class Part(NamedTuple):
    """The part of the worklist that a page shows: some worklists, some stations (all if none is named), a text."""

    worklists: frozenset[str] = frozenset()
    stations: frozenset[str] = frozenset()
    text: str = ""

    def has_place(self, worklist: str, stations: Union[tuple[str, ...], list[str]]) -> bool:
        return (not self.worklists or worklist in self.worklists) and (not self.stations or not self.stations.isdisjoint(stations))

    def has(self, row: Row) -> bool:
        return self.has_place(row["worklist"], row["stations"]) and (
            not self.text or any(self.text in row[word].casefold() for word in SEARCHED))

    def has_done(self, it: Done) -> bool:
        return self.has_place(it.worklist, it.stations)


def drawn(worklist: Worklist, row: Row) -> Row:
    """Returns a step as the page shows it, with what the reports say of it."""
    fold = worklist.folds.get(row["uid"])
    return {**row, "since": fold and fold.since, "claimed": claimed(worklist, row), "mark": worklist.mark(row["uid"])}


def claimed(worklist: Worklist, row: Row) -> Optional[float]:
    """Returns when the claim of a step began: when its performer says so, or else when it was reported."""
    fold = worklist.folds.get(row["uid"])
    begun: Optional[float] = row["begun"]
    return begun if begun is not None or fold is None else fold.held


def order_of(worklist: Worklist, state: str) -> Callable[[Row], Order]:
    """Returns what orders the steps of a state: those that wait by priority and start, those that are held by their claim, the
    oldest first; those that have ended by their end, the newest first."""
    def waiting(row: Row) -> Order:
        priority, due = row["priority"], row["due"]
        rank = PRIORITIES.index(priority) if priority in PRIORITIES else len(PRIORITIES)
        return rank, math.inf if due is None else due, row["uid"]

    def held(row: Row) -> Order:
        return claimed(worklist, row) or worklist.began, row["moved"], row["uid"]

    def ended(row: Row) -> Order:
        return 0.0, -row["moved"], row["uid"]

    return waiting if state == STATES[0] else held if state == STATES[1] else ended


def longest_waits(worklist: Worklist, rows: list[Row]) -> list[Row]:
    """Returns the steps that have waited longest: SCHEDULED and READY, with a start that is past."""
    moment = time.time()
    waiting = [row for row in rows if row["readiness"] == "READY" and (row["due"] or moment) < moment]
    return heapq.nsmallest(NAMED, waiting, key=lambda row: (float(row["due"]), str(row["uid"])))


def old_claims(worklist: Worklist, rows: list[Row], most: float) -> list[Row]:
    """Returns the steps whose claims are older than `most` seconds, the oldest first."""
    moment = time.time()
    old = [row for row in rows if moment - (claimed(worklist, row) or worklist.began) > most]
    return sorted(old, key=order_of(worklist, STATES[1]))


def choices(rows: list[Row], part: Part) -> dict[str, list[str]]:
    """Returns the worklists and the stations that a page may choose, with those that it has chosen."""
    worklists = {row["worklist"] for row in rows if row["worklist"]} | part.worklists
    stations = {station for row in rows for station in row["stations"]} | part.stations
    return {"worklists": sorted(worklists)[:CHOICES], "stations": sorted(stations)[:CHOICES]}


def snapshot(worklist: Worklist, part: Part, most: float) -> Row:
    """Returns what the page shows of a part of the worklist: counts, the steps of each state, those that wait longest, claims that are
    older than `most` seconds, and what was done today."""
    with worklist.changed:
        by_state: dict[str, list[Row]] = {state: [] for state in STATES}
        for row in worklist.rows.values():
            if part.has(row):
                by_state.setdefault(row["state"], []).append(row)
        first = {state: heapq.nsmallest(SHOWN, rows, key=order_of(worklist, state)) for state, rows in by_state.items()}
        old = old_claims(worklist, by_state[STATES[1]], most)
        return {**agreement(worklist), **today(worklist, part), **choices(list(worklist.rows.values()), part),
                "found": {state: len(rows) for state, rows in by_state.items()},
                "rows": {state: [drawn(worklist, row) for row in rows] for state, rows in first.items()},
                "longest": longest_waits(worklist, by_state[STATES[0]]), "old": [drawn(worklist, row) for row in old[:NAMED]],
                "oldCount": len(old), "oldest": most}


def today(worklist: Worklist, part: Part) -> dict[str, Any]:
    """Returns the counts of the day, and the median wait."""
    day = worklist.day
    return {"day": counts_of(filter(part.has_done, day.ended.values())), "begun": sum(map(part.has_done, day.begun.values())),
            "wait": median_of(filter(part.has_done, day.begun.values()))}


def agreement(worklist: Worklist) -> dict[str, Any]:
    """Returns how far queries and reports agree, of all steps."""
    counts = collections.Counter(row["state"] for row in worklist.rows.values())
    told_counts = collections.Counter(fold.state for fold in worklist.folds.values())
    differing = [uid for uid in worklist.differing if worklist.mark(uid) == "differ"]
    return {"version": worklist.version, "trouble": worklist.trouble, "notice": worklist.notice, "began": worklist.began,
            "asked": worklist.asked, "took": worklist.took, "steps": len(worklist.rows), "told": len(worklist.folds),
            "counts": counts, "toldCounts": told_counts, "waiting": len(worklist.differing), "differing": differing[:20]}
