"""Services: what one service answers in an association or a script, how that ends, and what is then reported of the service.

The program `refusals` runs them, with failing devices, a full history and given moments. It reports the calls of the gate, what
the history holds, which events are pending, what the plain programs list, and how large a step is.
"""

from __future__ import annotations

import copy
import re
from collections.abc import Callable, Iterable, Iterator, Mapping, Sequence
from typing import Optional, Union

import dicom
import runs

OPTIONS = {"fails": "fails", "reads": "reads", "writes": "writes", "in full": "full"}
LIMITS = {"turns": ",turns={}", "room": ",room={}"}
SETTINGS = {"history": ",history={}", "offset": ",offset={}"}
STEPS = ("1.2.3.1", "1.2.3.2", "1.2.3.3")
# the attributes that are shown of each step, except long values, and the lines that report all of three steps
SHOWN = "00080018 00100010 00404005 00404041 00741000 00741002 00741200 00741202 00741204 00741216"
LISTS = "0 P1 held\n0 W1 watches\n0 W2 watches\n0 W3 watches\n"
ALL = "".join(f"0 P1 get {it} {SHOWN}\n0 P1 holder {it}\n" for it in STEPS) + LISTS + "0 W1 pending 99\n0 W2 pending 99\n"

Befores = Mapping[str, list[str]]  # by the name of each: the texts of the associations before a service
Report = tuple[bytes, str]  # what is written in a part, and what follows that


class Heading:
    """The brackets of a heading: what is asked before, the kind of its rows, its settings, and the options of a part."""

    def __init__(self, text: str, befores: Befores) -> None:
        self.before: list[str]
        self.before, self.kind, self.settings, self.options = [], "serve", "", ""
        for words in re.findall(r"\(([^()]*)\)", text):
            name, _, number = words.partition(" ")
            if words in befores:
                self.before = befores[words]
            elif words in ("delivers", "script", "line by line"):
                self.kind = "deliver" if words == "delivers" else words
            elif words in OPTIONS:
                self.options += f",{OPTIONS[words]}"
            elif name in LIMITS:
                self.options += LIMITS[name].format(int(number))
            elif name in SETTINGS:
                self.settings += SETTINGS[name].format(int(number))
            else:
                raise ValueError(f"{text}: no option ({words})")


def word_of(kind: str, given: bytes) -> str:
    """Returns the word of a part."""
    return f"{kind}:{given.hex()}"


def told(program: str, lines: Iterable[str]) -> list[list[Report]]:
    """Returns what the program reports of lines: for each part what is written, and what follows that."""
    ran = runs.run([program], "".join(f"{it}\n" for it in lines).encode())
    if ran.status or ran.said:
        raise ValueError(f"it ends with status {ran.status}, saying {ran.said.decode(errors='replace')!r}")
    return [[part_of(it) for it in line.split(" | ")[:-1]] for line in ran.output.decode().splitlines()]


def part_of(text: str) -> Report:
    """Returns what is written in a part, and what follows that."""
    digits, _, rest = text.partition(" ")
    return bytes.fromhex(digits), rest


class Service:
    """An association or a script in bytes: what is given and written, and what is reported after that. It is tried for each
    number of what is short: the input ends or breaks off after that many bytes, or the output has room for that many."""

    program = "refusals"

    def __init__(self, names: Mapping[str, str], heading: Heading, row: str) -> None:
        short, bar, words = row.rpartition(" | ")
        asked, answered = words.split(" -> ")
        answered, self.ended = answered.split(" : ")
        self.name, self.heading = row, heading
        self.what, *numbers = short.split(" ") if bar else [""]
        self.first, self.last = (int(it) for it in numbers) if bar else (0, 0)
        if self.what not in ("", "end", "break", "room") or self.last < self.first:
            raise ValueError(row)
        self.asked, self.answered = dicom.bytes_of(names, asked), dicom.bytes_of(names, answered)
        self.before = [word_of("serve,timed", dicom.bytes_of(names, it)) for it in heading.before]

    def spoiled(self) -> list[Service]:
        """Returns the same with another answer, and with another report after it."""
        answer, end = copy.copy(self), copy.copy(self)
        answer.answered, end.ended = b"X" + self.answered, f"{self.ended}X"
        return [answer, end]

    def line(self, number: int) -> str:
        """Returns the line that asks for the row at a number."""
        more = {"break": ",fails", "room": f",room={number}"}.get(self.what, "")
        more += "" if self.heading.kind == "script" else ",timed"
        more += ",pending" if self.heading.kind == "deliver" else ""
        given = self.asked[:number] if self.what in ("end", "break") else self.asked
        last = word_of(f"{self.heading.kind}{self.heading.options}{more}", given)
        return " ".join([f"0{self.heading.settings}", *self.before, last])

    def difference(self, program: str) -> Optional[str]:
        """Returns how the program's report differs from the row, at the first number for which it does; None if there is none."""
        numbers = range(self.first, self.last + 1)
        for number, (*before, last) in zip(numbers, told(program, [self.line(it) for it in numbers]), strict=True):
            if not all(rest.startswith("Released ") for _, rest in before):
                return f"before it is told {before}"
            answered = self.answered[:number] if self.what == "room" else self.answered
            if last != (answered, self.ended):
                return f"at {number} is told {last} and not {(answered, self.ended)}"
        return None


class Lines:
    """Lines of a script, and questions about the service, each with its answer. A line that enters no request has to leave the
    replies to some others as they were, and the plain programs have to list what the service lists."""

    program = "refusals"

    def __init__(self, name: str, heading: Heading, rows: Sequence[str], spelled: Callable[[str], str]) -> None:
        self.name, self.heading, self.lists = name, heading, LISTS
        self.rows = [spelled(row).split(" -> ") for row in rows]

    def spoiled(self) -> list[Lines]:
        """Returns the same with another last reply, and with one more list than the plain programs give."""
        answer, lists = copy.deepcopy(self), copy.copy(self)
        answer.rows[-1][1] += "X"
        lists.lists += "0 P1 held\n"
        return [answer, lists]

    def line(self) -> str:
        """Returns the line that asks for the rows: before and after each one all is reported, and after the last the lists."""
        every = word_of("script", ALL.encode())
        parts = [it for line, _ in self.rows for it in (every, part_for(line))]
        return " ".join([f"0{self.heading.settings}", *parts, every, word_of("script", self.lists.encode()), "plain:"])

    def difference(self, program: str) -> Optional[str]:
        """Returns how the program's report differs from the rows; None if it doesn't."""
        *parts, lists, plain = told(program, [self.line()])[0]
        for place, (line, answer) in enumerate(self.rows):
            before, found, behind = parts[2 * place:2 * place + 3]
            if why := unlike(line, answer, found):
                return f"row {place + 1}: {why}"
            if before[1] == behind[1] and before != behind:
                return f"row {place + 1}: it enters nothing, and then is told {behind} and not {before}"
        return None if lists == plain else f"the plain programs list {plain} and not {lists}"


def part_for(line: str) -> str:
    """Returns the part that a line of a row asks for. Each part reports how many requests are entered."""
    verb, _, rest = line.partition(" ")
    if verb in ("due", "size"):
        return word_of(verb, rest.encode())
    return word_of("script", b"" if line == "entries" else f"{line}\n".encode())


def unlike(line: str, answer: str, found: Report) -> Optional[str]:
    """Returns how the report of a line differs from its answer; None if it doesn't."""
    written, ended = found
    end, _, entries = ended.partition(" ")
    told_of = entries if line == "entries" else written.decode(errors="replace").removesuffix("\n")
    if end == "Done" and told_of == answer:
        return None
    return f"{told_of!r} is answered, and it ends as {end}; {answer!r} is due"


def rows_of(names: Mapping[str, str], befores: Befores, heading: str, rows: Sequence[str],
            spelled: Callable[[str], str]) -> Iterator[Union[Service, Lines]]:
    """Yields what is to be run of a section."""
    options = Heading(heading, befores)
    if options.kind == "line by line":
        yield Lines(heading, options, rows, spelled)
    else:
        yield from (Service(names, options, row) for row in rows)
