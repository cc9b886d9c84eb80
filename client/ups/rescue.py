"""The command rescue: who holds a step, by a copy of the server's store, and its end for a performer that is gone."""

from __future__ import annotations

import argparse
import contextlib
import datetime
import functools
import sqlite3
from typing import NamedTuple, Optional

from ups.association import associated
from ups.faults import Refused
from ups.finishing import canceled, end_step
from ups.stores import copied, tried
from ups.tables import is_for_people, table
from ups.terms import PULL, STATES, is_done, told

HEADING = ["STEP", "HELD BY", "SINCE", "TRANSACTION UID"]
CHANGES = "SELECT instance, title, moment, transaction_uid, state FROM request WHERE operation = 'change state' ORDER BY number"


class Claim(NamedTuple):
    """The claim of a step: the title that asked for it, the moment, and its Transaction UID."""

    step: str
    title: str
    moment: int
    transaction: str

    def words(self) -> list[str]:
        since = datetime.datetime.fromtimestamp(self.moment).astimezone().isoformat(sep=" ", timespec="seconds")
        return [self.step, self.title, since, self.transaction]


def claims_in(path: str) -> list[Claim]:
    """Returns the claims in a store that no process has open, in their order."""
    found: dict[str, Claim] = {}
    with contextlib.closing(sqlite3.connect(path)) as opened:
        for step, title, moment, transaction, state in opened.execute(CHANGES):
            if state == STATES[1]:
                found[step] = Claim(step, title, moment, transaction)
            else:
                found.pop(step, None)
    return list(found.values())


def claims_once(store: str) -> list[Claim]:
    """Returns the claims in a copy of a store. Raises Refused if it can't be read."""
    with copied(store) as copy:
        try:
            return claims_in(copy)
        except sqlite3.Error as fault:
            raise Refused(f"{store} can't be read: {fault}") from None


def claims_of(store: str) -> list[Claim]:
    """Returns the claims in a store, of which a server may be the only reader; that a claim still holds says the server."""
    return tried(lambda: claims_once(store))


def cancel_claim(asked: argparse.Namespace, claim: Claim) -> int:
    """Ends a claim as its performer would, and returns the exit status."""
    with associated(asked, [PULL]) as association:
        needed = functools.partial(canceled, reason=asked.reason)
        status = end_step(association, claim.step, claim.transaction, needed, STATES[3])
    print(told(status))
    return 0 if is_done(status) else 1


def rescue(asked: argparse.Namespace) -> int:
    """Prints the claims of all steps, or of one, and ends that one if this is asked for."""
    if asked.canceled and not asked.step:
        raise Refused("--canceled needs a step")
    claims = [it for it in claims_of(asked.store) if asked.step in (None, it.step)]
    rows = [it.words() for it in claims]
    if rows:
        print(table(HEADING, rows) if is_for_people() else "\n".join("  ".join(row) for row in rows), flush=True)
    if asked.step and not claims:
        print(f"{asked.step} is not claimed")
        return 1
    return cancel_claim(asked, claims[0]) if asked.canceled else 0
