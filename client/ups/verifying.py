"""The command verify: whether event reports and queries tell the same of each step held."""

from __future__ import annotations

import argparse
import threading
import time
from typing import Optional

from ups.board_watcher import Watching
from ups.faults import Refused
from ups.listening import listener_of
from ups.reports import take_reports_in_threads
from ups.terms import is_done
from ups.worklist import Worklist

SHOWN = 3  # steps that the line of a plugin names


def said(state: str, readiness: str) -> str:
    return f"{state}, {readiness}" if state else "nothing"


def difference(worklist: Worklist, uid: str) -> str:
    """Returns what the two sources say of a step."""
    row, fold = worklist.rows.get(uid), worklist.folds.get(uid)
    reported = said(fold.state, fold.readiness) if fold else "nothing"
    found = said(row["state"], row["readiness"]) if row else "nothing"
    return f"{uid}: reports say {reported}, the worklist {found}"


def await_agreement(watching: Watching, within: float) -> tuple[int, list[str]]:
    """Waits until the reports of a new subscription have agreed with the worklist on each step once, for `within` seconds at most.
    Returns the number of steps, and what differs then. Raises Refused if the server does not answer, or refuses the subscription."""
    worklist, until = watching.worklist, time.monotonic() + within
    left: Optional[set[str]] = None
    with worklist.changed:
        while (now := time.monotonic()) < until and left != set():
            if watching.subscribed is not None:
                if not is_done(watching.subscribed):
                    break
                left = set(worklist.differing) if left is None else left & set(worklist.differing)
            if left != set():
                worklist.changed.wait(min(1.0, until - now))
        if left is None:
            raise Refused(worklist.trouble or f"no subscription within {within:g} s")
        return len(worklist.rows), [difference(worklist, uid) for uid in sorted(left)]


def tell_people(steps: int, differing: list[str]) -> int:
    if not differing:
        print(f"{steps} steps: reports and worklist agree")
        return 0
    for it in differing:
        print(it)
    print(f"{steps} steps: reports and worklist differ on {len(differing)}")
    return 1


def tell_monitor(steps: int, differing: list[str], took: float) -> int:
    """Prints the line of a plugin, and returns its status: 0 OK, 2 CRITICAL."""
    named = "; ".join([*differing[:SHOWN], *([".."] if differing[SHOWN:] else [])])
    verdict = f"CRITICAL - reports and worklist differ on {len(differing)} of {steps} steps: {named}" if differing else \
        f"OK - reports and worklist agree on {steps} steps"
    print(f"UPS {verdict} | steps={steps};;;0 differing={len(differing)};;0;0 took={took:.1f}s;;;0")
    return 2 if differing else 0


def verify(asked: argparse.Namespace) -> int:
    """Subscribes to all steps, which has the state of each one held reported, and compares the reports with what queries find."""
    watching = Watching(asked)
    try:
        with listener_of(asked) as listener:
            take_reports_in_threads(listener, asked, watching.report)
            threading.Thread(target=watching.ask, daemon=True).start()
            try:
                steps, differing = await_agreement(watching, asked.within)
            finally:
                watching.end()
    except (OSError, Refused) as fault:
        if not asked.nagios:
            raise
        print(f"UPS CRITICAL - {fault}")
        return 2
    return tell_monitor(steps, differing, time.monotonic() - asked.begun) if asked.nagios else tell_people(steps, differing)
