"""The commands status and health, for people and for monitors."""

from __future__ import annotations

import argparse
import math
import signal
import time
from typing import Any, Iterable, Optional

from ups.association import Association, associated
from ups.faults import Over, Refused
from ups.files import write_whole
from ups.operations import get_step
from ups.status import Health, in_words, measured
from ups.terms import GONE, PULL, STATES, is_done, new_uid, told

LEVELS = ("OK", "WARNING", "CRITICAL")  # by the exit status of a plugin


def level_of(value: Optional[float], asked: argparse.Namespace, place: int) -> int:
    """Returns 2 if a value is above its critical limit, 1 if it is above that of a warning, and 0 otherwise."""
    if value is None:
        return 0
    return 2 if value > asked.critical[place] else 1 if value > asked.warning[place] else 0


def limit_of(value: float) -> str:
    return "" if math.isinf(value) else f"{value:.6f}".rstrip("0").rstrip(".")


def word_of(state: str) -> str:
    return state.lower().replace(" ", "_")


def by_nagios(health: Health, asked: argparse.Namespace) -> int:
    """Prints a line with performance data, and returns the exit status of a plugin: 0 OK, 1 WARNING, 2 CRITICAL."""
    ages = {state: health.age(state) for state in STATES[:2]}
    level = max(level_of(health.look_up, asked, 0), *(level_of(age, asked, 1) for age in ages.values()))
    words = [f"{count} {state}" for state, count in health.counts.items()]
    limits = [f"{limit_of(asked.warning[place])};{limit_of(asked.critical[place])};0" for place in (0, 1)]
    data = [f"lookup={health.look_up:.6f}s;{limits[0]}", f"total={health.total:.6f}s;;;0"]
    data += [f"{word_of(state)}={count};;;0" for state, count in health.counts.items()]
    for state, age in ages.items():
        data.append(f"oldest_{word_of(state)}={'U' if age is None else f'{age:.0f}s;{limits[1]}'}")
    oldest = ", ".join(f"oldest {state} {age:.0f} s" for state, age in ages.items() if age is not None)
    told_of = ", ".join([*words, f"look-up {1e3 * health.look_up:.1f} ms", *([oldest] if oldest else [])])
    print(f"UPS {LEVELS[level]} - {told_of} | {' '.join(data)}")
    return level


def by_prometheus(health: Optional[Health]) -> str:
    """Returns the result in the text format of Prometheus, for a textfile collector; without one only that a query failed."""
    def metric(name: str, what: str, values: Iterable[tuple[str, Any]]) -> str:
        rows = [f"{name}{labels} {value}" for labels, value in values]
        return "\n".join([f"# HELP {name} {what}", f"# TYPE {name} gauge", *rows, ""])

    text = metric("ups_up", "Whether the server answered a query with success.", [("", int(health is not None))])
    if health is None:
        return text
    text += metric("ups_steps", "Steps held, by Procedure Step State.",
                   ((f'{{state="{state}"}}', count) for state, count in health.counts.items()))
    for what, name in (("start", "Scheduled Procedure Step Start"), ("modification", "Scheduled Procedure Step Modification")):
        ages = [(f'{{state="{state}"}}', f"{health.oldest[state, what][0]:.0f}") for state in STATES[:2]
                if (state, what) in health.oldest]
        if ages:
            text += metric(f"ups_oldest_{what}_timestamp_seconds", f"The oldest {name} DateTime, in seconds since 1970.", ages)
    text += metric("ups_lookup_seconds", "How long a look-up by SOP Instance UID took.", [("", f"{health.look_up:.6f}")])
    return text + metric("ups_status_seconds", "How long the whole of it took.", [("", f"{health.total:.6f}")])


def put_metrics(asked: argparse.Namespace, health: Optional[Health]) -> None:
    if asked.output:
        write_whole(asked.output, by_prometheus(health))
    else:
        print(by_prometheus(health), end="")


def server_status(association: Association, asked: argparse.Namespace) -> int:
    health, status = measured(association, asked)
    asked.health = health if is_done(status) else None
    if asked.prometheus:
        put_metrics(asked, asked.health)
    elif not asked.nagios and asked.health:
        print(in_words(health))
    return status


def ended_by_nagios(asked: argparse.Namespace, status: Optional[int], fault: Optional[Exception]) -> int:
    """Prints the line of a plugin, and returns its exit status, CRITICAL also if the server doesn't answer with success."""
    if status is not None and asked.health:
        return by_nagios(asked.health, asked)
    print(f"UPS CRITICAL - {fault if status is None else told(status)}")
    return 2


def out_of_time(*_: Any) -> None:
    raise Over("no answer came in time")


def asked_for_nobody(asked: argparse.Namespace) -> int:
    """Returns the status of an N-GET of a step that nobody has. Raises Over if its association takes longer than --within."""
    signal.signal(signal.SIGALRM, out_of_time)
    signal.setitimer(signal.ITIMER_REAL, asked.within)
    try:
        with associated(asked, [PULL]) as association:
            return get_step(association, new_uid())[0]
    finally:
        signal.setitimer(signal.ITIMER_REAL, 0)


def server_health(asked: argparse.Namespace) -> int:
    """Prints a plugin's line, and returns a plugin's status. The answer to an N-GET waits until all changes before it are on the
    disk: none comes once a change waits for a store that takes none, while a C-ECHO is answered."""
    try:
        status = asked_for_nobody(asked)
    except (OSError, Refused) as fault:
        print(f"UPS CRITICAL - {fault}")
        return 2
    took = time.monotonic() - asked.begun
    level = 2 if status != GONE else 1 if took > asked.warning else 0
    answer = f"the service answers after {1e3 * took:.1f} ms" if status == GONE else told(status)
    print(f"UPS {LEVELS[level]} - {answer} | answer={took:.6f}s;{limit_of(asked.warning)};{limit_of(asked.within)};0")
    return level
