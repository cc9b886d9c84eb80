"""Dates and times (PS3.5 section 6.2, DT)."""

from __future__ import annotations

import datetime
import re
from typing import Optional


def moment_now() -> str:
    """Returns this moment as a DT with its offset."""
    return datetime.datetime.now().astimezone().strftime("%Y%m%d%H%M%S%z")


def dt_of_parts(day: str, clock: str, offset: str = "") -> str:
    """Returns a date and a time (DA, TM) as a DT with this offset, or else that of this machine then; this moment if they are none."""
    try:
        moment = datetime.datetime.strptime((day + clock.partition(".")[0]).ljust(14, "0"), "%Y%m%d%H%M%S")
    except ValueError:
        return moment_now()
    return f"{moment:%Y%m%d%H%M%S}{offset if re.fullmatch('[+-][0-9]{4}', offset) else f'{moment.astimezone():%z}'}"


DT = re.compile(r"(\d{4})(?:(\d\d)(?:(\d\d)(?:(\d\d)(?:(\d\d)(?:(\d\d)(\.\d{1,6})?)?)?)?)?)?([+-]\d{4})?", re.ASCII)


def offset_of(sign: str, is_whole: bool) -> int:
    """Returns the minutes east of UTC of a suffix, up to +1400 or, after seconds only, down to -1200."""
    hours, minutes = int(sign[1:3]), int(sign[3:])
    most = 840 if sign[0] == "+" else 720 if is_whole else -1
    if minutes > 59 or 60 * hours + minutes > most:
        raise ValueError("no offset")
    return (60 * hours + minutes) * (1 if sign[0] == "+" else -1)


def dt_of(text: str) -> Optional[tuple[datetime.datetime, Optional[int]]]:
    """Returns the first moment of a date and time (PS3.5 section 6.2, DT), to the second, and its offset in minutes; or None."""
    found = DT.fullmatch(text)
    if not found:
        return None
    least = (1, 1, 1, 0, 0, 0)
    year, month, day, hour, minute, second = (low if part is None else int(part) for low, part in zip(least, found.groups()))
    try:
        if second > 60:
            return None
        moment = datetime.datetime(year, month, day, hour, minute, min(second, 59))
        return moment, offset_of(found[8], found[6] is not None) if found[8] else None
    except ValueError:
        return None


def moment_of(text: str, offset: Optional[int]) -> Optional[float]:
    """Returns the first moment of a DT in seconds since 1970. Without its own offset it has `offset`, or else this machine's."""
    found = dt_of(text)
    if found is None:
        return None
    moment, own = found
    minutes = offset if own is None else own
    zone = None if minutes is None else datetime.timezone(datetime.timedelta(minutes=minutes))
    try:
        return moment.replace(tzinfo=zone).timestamp()
    except (OverflowError, OSError, ValueError):
        return None
