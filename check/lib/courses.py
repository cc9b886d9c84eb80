"""Courses: parts that one service handles, one after the other, and what is expected if one growth of its memory is refused.

A part is an association that a peer requests (`serve`), one whose input ends without a release (`cut`), one that this side
requests from the watcher W1 (`deliver`), or a script. Its rows are what is asked and what is answered, one after the other. The
program `refusals` runs a course.
"""

from __future__ import annotations

import copy
import functools
import re
from collections.abc import Callable, Iterable, Mapping, Sequence
from typing import Optional

import dicom
import runs

ENDS = {"serve": "Released", "cut": "Closed", "deliver": "Released", "script": "Done"}
# the verbs of a script whose requests are entered in the history, and the statuses that verbs answer for lack of memory
ENTERED = ("create", "set", "change", "cancel", "subscribe", "unsubscribe", "suspend", "ack")
TOLD = {"find": "A700", **dict.fromkeys(("get", "pending", "sweep", *ENTERED), "0213")}
BATCH = 200
Told = tuple[bytes, str, int]  # what is reported of a part: what was written, how it ended, how many requests the history has


class Row:
    """What is asked, what is answered, what is answered for lack of memory (None if that never happens), and how many requests
    the history has then."""

    def __init__(self, asked: Callable[[int], bytes], answered: Callable[[int], bytes], lacking: Optional[Callable[[int], bytes]],
                 entries: int) -> None:
        self.asked, self.answered, self.lacking, self.entries = asked, answered, lacking, entries


class Part:
    """A part of a course: its kind, how many requests the history has before it, and its rows."""

    def __init__(self, kind: str, before: int, rows: Iterable[Row] = ()) -> None:
        self.kind, self.before, self.rows = kind, before, list(rows)

    def asked(self) -> bytes:
        """Returns all that is asked."""
        return b"".join(it.asked(number) for number, it in enumerate(self.rows))

    def answered(self) -> bytes:
        """Returns all that is answered."""
        return b"".join(self.answers())

    def answers(self) -> list[bytes]:
        """Returns the answer to each row."""
        return [it.answered(number) for number, it in enumerate(self.rows)]

    def entries(self) -> int:
        """Returns how many requests the history has after it."""
        return self.rows[-1].entries if self.rows else self.before

    def due(self) -> Told:
        """Returns what is reported of it if nothing is refused."""
        return self.answered(), ENDS[self.kind], self.entries()

    def words(self) -> str:
        """Returns the word that asks for it."""
        kind = "serve" if self.kind == "cut" else self.kind
        return f"{kind}:{self.asked().hex()}"

    def entries_before(self, place: int) -> int:
        """Returns how many requests the history has before a row."""
        return self.rows[place - 1].entries if place else self.before

    def from_row(self, place: int) -> Part:
        """Returns the part that asks for the rest, from a row on. An association begins anew, a delivery with that report."""
        if self.kind == "script":
            return Part(self.kind, self.entries_before(place), self.rows[place:])
        if place == 0:
            return copy.copy(self)
        if self.kind in ("serve", "cut"):
            first = copy.copy(self.rows[0])
            first.entries = self.entries_before(place)
            return Part(self.kind, first.entries, [first, *self.rows[place:]])
        return self.from_report(place)

    def from_report(self, place: int) -> Part:
        """Returns the delivery that begins with the report in the answer to a row."""
        first, agreed = copy.copy(self.rows[0]), copy.copy(self.rows[place])
        first.entries = agreed.entries
        agreed.asked = self.rows[1].asked
        return Part(self.kind, agreed.entries, [first, agreed, *self.rows[place + 1:]])

    def twice(self, place: int) -> Part:
        """Returns the part in which a row is asked twice, and is first answered with a lack of memory."""
        row = self.rows[place]
        assert row.lacking
        refused = Row(row.asked, row.lacking, None, self.entries_before(place))
        return Part(self.kind, self.before, [*self.rows[:place], refused, *self.rows[place:]])


def rows_of_part(names: Mapping[str, str], kind: str, texts: Iterable[str], before: int) -> list[Row]:
    """Returns the rows of a part."""
    rows: list[Row] = []
    for text in texts:
        rows.append(row_of_line(text, before) if kind == "script" else row_of_message(names, text))
        before = rows[-1].entries
    return rows


def row_of_message(names: Mapping[str, str], text: str) -> Row:
    """Returns the row of a message. ID is the Message ID of the report that is answered, which counts the reports."""
    asked, answered, lacking, entries = text.split(" | ")

    @functools.cache
    def bytes_at(words: str, place: int) -> bytes:
        return dicom.bytes_of(names, re.sub(r"\bID\b", f"{place:02x}00", words))

    return Row(
        lambda place: bytes_at(asked, place - 1),
        lambda place: bytes_at(answered, place),
        (lambda place: bytes_at(lacking, place)) if lacking else None,
        int(entries),
    )


def row_of_line(text: str, before: int) -> Row:
    """Returns the row of a line of a script and its reply."""
    line, reply = text.split(" -> ")
    verb, status = line.split(" ")[2], reply.split(" ")[0]
    is_entered = verb in ENTERED and status in ("0000", "B301") or verb == "sweep" and reply > "0000 0"
    told = f"{TOLD[verb]}\n".encode() if verb in TOLD else b""
    return Row(
        lambda _: f"{line}\n".encode(),
        lambda _: f"{reply}\n".encode(),
        (lambda _: told) if told else None,
        before + is_entered,
    )


def parts_of(names: Mapping[str, str], rows: Iterable[str], spelled: Callable[[str], str]) -> list[Part]:
    """Returns the parts of rows: a word for the kind of each part precedes its rows. In a script, `spelled` replaces the words
    by what they stand for."""
    parts: list[tuple[str, list[str]]] = []
    for text in rows:
        if text in ENDS:
            parts.append((text, []))
        else:
            parts[-1][1].append(spelled(text) if parts[-1][0] == "script" else text)
    before = 0
    found: list[Part] = []
    for kind, texts in parts:
        found.append(Part(kind, before, rows_of_part(names, kind, texts, before)))
        before = found[-1].entries()
    return found


def run(program: str, courses: Iterable[tuple[int, Sequence[Part]]]) -> list[tuple[list[Told], bool]]:
    """Runs courses, and returns for each what the program reports of its parts, and whether the growth was refused."""
    lines = [" ".join([str(number), *(it.words() for it in parts)]) for number, parts in courses]
    ran = runs.run([program], "\n".join([*lines, ""]).encode())
    if ran.status or ran.said:
        raise ValueError(f"it ends with status {ran.status}, saying {ran.said.decode(errors='replace')!r}")
    return [told_in(line) for line in ran.output.decode().splitlines()]


def told_in(line: str) -> tuple[list[Told], bool]:
    """Returns what a line of output reports."""
    *parts, last = line.split(" | ")
    told = []
    for part in parts:
        digits, end, entries = part.split(" ")
        told.append((bytes.fromhex(digits), end, int(entries)))
    return told, last == "refused"


class Fault(Exception):
    """An outcome of a course that is not an expected one."""


def different(parts: Sequence[Part], told: Sequence[Told]) -> Optional[int]:
    """Returns the place of the first part with another report than if nothing is refused; None if there is none."""
    return next((place for place, part in enumerate(parts) if told[place] != part.due()), None)


def rest_of(parts: Sequence[Part], told: Sequence[Told]) -> tuple[list[Part], list[Told]]:
    """Returns the parts to run with the same growth refused, after a report that differs from that without a refusal, and what
    each should then report. What was not done is asked once more: in the same part if it was answered with a lack of memory, or
    else in another one after it.

    Raises Fault if what is reported is not expected.
    """
    place = different(parts, told)
    assert place is not None
    part, (written, end, entries) = parts[place], told[place]
    before, behind = parts[:place], parts[place + 1:]
    if part.kind != "deliver" and end != "Memory":
        asked = [*before, part.twice(row_told(part, written)), *behind]
        return asked, [it.due() for it in asked]
    if part.kind == "deliver":
        again = after_delivery(part, written, end, entries)
    else:
        again = part.from_row(row_after_end(part, written, entries))
    asked = [*before, part, again, *behind]
    due = [it.due() for it in asked]
    due[place] = told[place]
    return asked, due


def answered_rows(part: Part, written: bytes) -> tuple[int, int]:
    """Returns how many rows are answered as expected, and how many bytes that takes."""
    at = 0
    for place, answer in enumerate(part.answers()):
        if not written.startswith(answer, at):
            return place, at
        at += len(answer)
    return len(part.rows), at


def row_told(part: Part, written: bytes) -> int:
    """Returns the place of the row that is answered with a lack of memory."""
    place, at = answered_rows(part, written)
    if place == len(part.rows):
        raise Fault(f"{part.kind}: more is answered than is due, or it ends otherwise")
    row = part.rows[place]
    if row.lacking is None or not written.startswith(row.lacking(place), at):
        raise Fault(f"{part.kind}: row {place + 1} is answered {written[at:at + 120]!r}")
    return place


def row_after_end(part: Part, written: bytes, entries: int) -> int:
    """Returns the row to go on with after a part ended for lack of memory: the unanswered one, or the next if that is entered."""
    place, at = answered_rows(part, written)
    if place == len(part.rows) or not part.answers()[place].startswith(written[at:]):
        raise Fault(f"{part.kind}: it ends for lack of memory, and row {place + 1} is answered {written[at:at + 99]!r}")
    if entries == part.entries_before(place):
        return place
    if entries == part.rows[place].entries and part.kind != "script":
        return place + 1
    raise Fault(f"{part.kind}: it ends for lack of memory at row {place + 1} with {entries} requests in the history")


def after_delivery(part: Part, written: bytes, end: str, entries: int) -> Part:
    """Returns the delivery of the reports that are not acknowledged, after one that ran out of memory or was released early."""
    place, at = answered_rows(part, written)
    is_released = end == "Released" and written[at:] in (b"", part.rows[-2].answered(0))
    if not is_released and (end != "Memory" or not part.answered().startswith(written)):
        raise Fault(f"deliver: it ends as {end}, and row {place + 1} is answered {written[at:at + 99]!r}")
    reports = max(0, min(place, len(part.rows) - 2) - 1)
    taken = entries - part.before
    if taken not in (reports - 1, reports) or taken < 0:
        raise Fault(f"deliver: {reports} reports were made, and {taken} are acknowledged")
    return part.from_report(taken + 1) if place else copy.copy(part)


class Course:
    """A course: its heading and its parts."""

    program = "refusals"

    def __init__(self, name: str, parts: list[Part]) -> None:
        self.name, self.parts = name, parts

    def spoiled(self) -> list[Course]:
        """Returns the same with another answer at its end, and with another number of entries."""
        answer, entry = copy.deepcopy(self), copy.deepcopy(self)
        last = answer.parts[-1].rows[-1].answered
        answer.parts[-1].rows[-1].answered = lambda place: last(place) + b"X"
        entry.parts[-1].rows[-1].entries += 1
        return [answer, entry]

    def difference(self, program: str) -> Optional[str]:
        """Returns how the program's report differs from the course if nothing is refused; None if it doesn't."""
        told, _ = run(program, [(0, self.parts)])[0]
        place = different(self.parts, told)
        return None if place is None else f"of part {place + 1} is told {told[place]} and not {self.parts[place].due()}"

    def failures(self, program: str) -> tuple[int, dict[str, int]]:
        """Refuses each growth in turn, and returns how many there are, and how often each kind of outcome occurred.

        Raises Fault if an outcome is not expected.
        """
        number = 0
        fates: dict[str, int] = {}
        while True:
            courses = [(number + it, self.parts) for it in range(1, BATCH + 1)]
            told = run(program, courses)
            left = next((it for it, (_, refused) in enumerate(told) if not refused), BATCH)
            self.judge(program, number, [it for it, _ in told[:left + 1]], fates)
            number += left
            if left < BATCH:
                return number, fates

    def judge(self, program: str, before: int, told: Iterable[list[Told]], fates: dict[str, int]) -> None:
        """Checks the outcomes of growths, the first of which has the number after `before`, and asks once more for what was
        not done."""
        due = []
        for number, it in enumerate(told, before + 1):
            fate = "not begun" if not it else "as due" if different(self.parts, it) is None else "told or ended"
            fates[fate] = fates.get(fate, 0) + 1
            if fate == "told or ended":
                try:
                    due.append((number, *rest_of(self.parts, it)))
                except Fault as fault:
                    raise Fault(f"growth {number}: {fault}") from fault
        again = run(program, [(number, parts) for number, parts, _ in due])
        for (number, _, expected), (found, refused) in zip(due, again):
            if found != expected or not refused:
                other = next((pair for pair in zip(found, expected) if pair[0] != pair[1]), (found, expected))
                raise Fault(f"growth {number}: then is told {other[0]} and not {other[1]}")
