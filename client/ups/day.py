"""What was done since midnight, of which the server keeps nothing for long: it removes what is done with."""

from __future__ import annotations

import datetime
import statistics
from typing import Any, Iterable, NamedTuple, Optional

from ups.terms import STATES

MOST = 200_000  # steps of a day that are kept; more are counted in no median
Row = dict[str, Any]  # what the page shows of a step


class Done(NamedTuple):
    """A step that was begun or ended today: its worklist, its stations, and its final state or how long it had waited."""

    worklist: str
    stations: tuple[str, ...]
    state: str = ""
    wait: float = 0.0


class Day:
    """The steps that were begun and ended since midnight of this machine."""

    def __init__(self) -> None:
        self.date = datetime.date.today()
        self.ended: dict[str, Done] = {}
        self.begun: dict[str, Done] = {}

    def note(self, row: Row, held: Optional[float], since: Optional[float]) -> None:
        """Notes a step, with the moments at which reports told its claim and its state, if they did."""
        if (today := datetime.date.today()) != self.date:
            self.date, self.ended, self.begun = today, {}, {}
        begun, ended = row["begun"] or held, row["ended"] or since
        place = row["worklist"], tuple(row["stations"])
        if row["state"] != STATES[0] and row["due"] is not None and is_on(begun, today) and len(self.begun) < MOST:
            self.begun[row["uid"]] = Done(*place, wait=max(0.0, (begun or 0.0) - row["due"]))
        if row["state"] in STATES[2:] and is_on(ended, today) and len(self.ended) < MOST:
            self.ended[row["uid"]] = Done(*place, row["state"])


def is_on(moment: Optional[float], day: datetime.date) -> bool:
    return moment is not None and datetime.date.fromtimestamp(moment) == day


def counts_of(ended: Iterable[Done]) -> dict[str, int]:
    """Returns how many steps have each final state."""
    counts = dict.fromkeys(STATES[2:], 0)
    for it in ended:
        counts[it.state] += 1
    return counts


def median_of(begun: Iterable[Done]) -> Optional[float]:
    """Returns the median wait, in seconds; None if no step was begun."""
    waits = [it.wait for it in begun]
    return statistics.median(waits) if waits else None
