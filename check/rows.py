#!/usr/bin/env python3
"""Runs rows and the examples with the built programs, and lists those that fail.

    check/rows.py rows/*.rows examples              runs them with what rt ci proves and builds: crates/upsd/out/upsd,
                                                    crates/readings/out/readings and crates/refusals/out/refusals
    check/rows.py --self-test rows/*.rows examples  spoils what each expects, in each way, and checks that this is found

A file of rows has sections. The first line of a section is `# ` and a heading; its rows follow. The first line of the file
may say what the rows are: `sessions`, `commands`, `deliveries`, `readings`, `courses` or `services`. Otherwise each section
is a script.

A row of a script is a line of it, ` -> ` and its reply; or a line without a reply; or `! ` and what the program says on
standard error if the script ends early. `N times: ` repeats a row, with the number of the repetition in place of a `#` in
the line; after that, `{N: text}` repeats a text of the line or of the reply in the same way. In a heading, `(peers)` names
the peers W1, which may lock steps, and W2, which may not; `(offset N)` sets the local time, in minutes east of UTC;
`(without its line feed)` removes the line feed of the last line; `(as it is typed)` gives each line after the reply to the one
before. In a row U1 to U3 stand for three steps, B for the attributes of a new one, IP for the state in progress, `=x*N` for a
value of N letters x, and `\\r` for a carriage return.

A row of `sessions` is `FORM | ASKED | ANSWERED | ENDED`, an association of `upsd pipe` as UPSD, without peers: in `bytes`; or
in hex digits, which a `text` spells out, or which are the `digits` of the words, with a line for each word that is answered,
or the same in `capitals`, or `shaky`. An association that ends well also runs with `upsd serve`, which has to answer the
same, and to log how it ends. After its first word the form may say what is short, as below.

A row of `commands` is `WORDS | INPUT | OUTPUT | ERRORS | STATUS`: the words after the program's name, in which `%hh` is the
byte of two hex digits, and a word with `*N` at its end is repeated N times; what is read; what is written, and what is said
on standard error, or after `..` a part of either; and the exit status. What is short precedes the words, in brackets.
`no memory` in place of the words means that there is no memory to read them.

What is short is given by a word and a number, or the first and the last of several, which are tried in turn: the input has
that many bytes (`end`), or fails after them (`break`); the program does not wait for that many of its last bytes (`left`);
the output has that much `room`, and the first bytes are written; the data have that many kilobytes of `memory`. What is
`shaky` comes and leaves byte by byte, with a signal that interrupts each call.

A row of `deliveries` is `PEERS | HOST | ASKED | TAKEN | HEARD | ENDED`: the words of `upsd serve` that name peers, in which
PORT stands for a port on which the watcher W1 listens at the host; what the server is asked in one association; what the
watcher then sends, and what it hears; and how the association with it ends.

A row of `readings` is `KIND | GIVEN | TOLD | WRITTEN`: the kind of some bytes (crates/readings/src/main.rt has the kinds),
which are given to the program `readings`; how it describes them, with bytes between `<` and `>` as hex digits, or after `..`
a part of that; and the bytes that it writes for them: `=` stands for those that are given, `..` for any, and without this
column there are none. After its first words the kind may say where the bytes `end`.

A section of `courses` is what one service handles, in parts: associations that a peer requests, after a row `serve`, or after
`cut` if the input ends without a release; those that this side requests from W1, after `deliver`; and scripts, after `script`,
whose rows are as above. A row of an association is `ASKED | ANSWERED | LACKING | ENTRIES`: what is asked, what is answered,
what is answered for lack of memory, if that ever happens, and how many requests the history has then. In a delivery, ID is
the Message ID of a report, which counts them.

A row of `services` is `ASKED -> ANSWERED : ENDED N`, by the program `refusals`: what a new service is asked in an association,
and what it answers; how that ends, and how many requests the history has then. In its heading, `(delivers)` means that this
side requests the association from W1: the row then ends in `, pending` and the numbers of the events that are left pending for
W1; `(script)`, that a script is asked and answered. `(two events)` or another name stands for what is asked before: an
association for each row of the section whose heading is `before: ` and that name. `(turns N)` limits the PDUs or lines that are
read, `(history N)` the requests that are entered, and `(room N)` the bytes that the output takes; `(offset N)` is the local
time, as above. With `(fails)` the input fails after its bytes; with `(reads)` or `(writes)` each of these is interrupted once;
and `(in full)` adds after the number the calls of the gate, and for each request in the history the caller, the title and the
moment. A row may begin with what is short, as above, and ` | `: `end`, `break` or `room`, with the first and the last number.

A section of `services` that goes `(line by line)` has lines of a script with their replies. Three other lines ask the program:
`entries`, how many requests the history has; `size U1`, how many bytes the row of a step takes; `due N U1`, whether that step
is to be removed at a moment, as the plain program says. A line that enters no request has to leave all that is reported of
the steps U1 to U3 as it was; and after the last line the plain programs list the steps that are held, and those that the
peers W1, W2 and W3 watch.

Bytes are written as words: hex digits, as often as a number after `*` says; text in quotes; the names of the SOP classes, such
as PUSH; and the names of bytes: of the stored PDUs in crates/fixtures/src/vectors.rt, and of the sections whose heading begins
with `names: `, where a row is a name, `: ` and bytes. A heading `names of ` and a file imports the names of that file of rows.
A `#` in these is an odd number, which goes up by two if the name is repeated.

A folder has examples: a script in NAME, the words of the command line in NAME.args, one per line, and what the program
writes in NAME.stdout.

The last line is `N passed, M failed`, counting scripts, examples and other rows. The status is 1 if one failed.
"""

from __future__ import annotations

import copy
import os
import re
import sys
from collections.abc import Iterable, Iterator, Mapping, Sequence
from subprocess import TimeoutExpired
from typing import Optional, Protocol, Union

sys.path.insert(0, os.path.join(os.path.dirname(os.path.dirname(os.path.abspath(__file__))), "check/lib"))
import courses
import dicom
import results
import runs
import services
from machine import described

WORDS = {
    "U1": "1.2.3.1",
    "U2": "1.2.3.2",
    "U3": "1.2.3.3",
    "B": "00404005=20240229120000 00404041=READY 00741000=SCHEDULED 00741200=MEDIUM 00741204=CT%20READ",
    "IP": "IN%20PROGRESS",
}
PEERS = ["W1=127.0.0.1:11112,lock", "W2=127.0.0.1:11112"]
SHORT = ("", "end", "break", "left", "room", "memory", "shaky")
NO_MEMORY = ["x" * 100_000] * 15  # words that take more than the kilobytes of:
MEMORY = 1024
# what is said of a session that stops: its exit status, and how it ended
FAULTS = {
    "a read failed, or the input ended inside a PDU": (2, "Read"),
    "what was read is neither a hex digit nor white space": (2, "Read"),
    "more than 1,000,000 white space characters in a row were read": (2, "Read"),
    "the hex digits end within a byte": (2, "Read"),
    "a write failed": (2, "Write"),
    "the association did not end within the number of PDUs that are read at most": (2, "Turns"),
    "out of memory": (3, "Memory"),
}


class Runnable(Protocol):
    """What is run: it has a name, says by which program, and tells how that differs from what is expected."""

    name: str

    @property
    def program(self) -> str: ...

    def difference(self, program: str) -> Optional[str]: ...

    def spoiled(self) -> Sequence[Runnable]: ...


def spelled(line: str) -> str:
    """Returns a line of a script with its words replaced by what they stand for."""
    words = " ".join(WORDS.get(it, it) for it in line.split(" "))
    return re.sub(r"=x\*(\d+)", lambda it: "=" + "x" * int(it[1]), words).replace("\\r", "\r")


def repeated(text: str, times: int) -> str:
    """Returns a text that many times, with the number of the repetition in place of a `#`."""
    return "".join(text.replace("#", str(number)) for number in range(1, times + 1))


def unfolded(text: str) -> str:
    """Returns a text in which each part of the form `{N: text}` is repeated N times."""
    return re.sub(r"\{(\d+): ([^{}]*)\}", lambda it: repeated(it[2], int(it[1])), text)


def apart(what: str, found: Union[str, bytes], expected: Union[str, bytes]) -> str:
    """Describes where what was found differs from what was expected."""
    pairs = enumerate(zip(found, expected))
    at = next((place for place, (one, other) in pairs if one != other), min(len(found), len(expected)))
    return f"{what} is {found[at:at + 20]!r} and not {expected[at:at + 20]!r} from byte {at} on"


class Script:
    """A script, the words of its command line, the replies, and what the program says on standard error."""

    program = "upsd"

    def __init__(self, heading: str, rows: Iterable[str]) -> None:
        self.name, self.script, self.replies, self.said = heading, "", "", ""
        for row in rows:
            self.add(row)
        if heading.endswith("(without its line feed)"):
            self.script = self.script.removesuffix("\n")
        offset = re.search(r"\(offset (-?\d+)\)", heading)
        self.words = ["script", *([f"--offset={offset[1]}"] if offset else []), *(PEERS if "(peers)" in heading else [])]

    def add(self, row: str) -> None:
        """Adds a row, as often as it says."""
        if row.startswith("! "):
            self.said += f"upsd: {row[2:]}\n"
            return
        times, _, row = row.rpartition(" times: ")
        line, arrow, reply = row.partition(" -> ")
        line, reply = spelled(line) + "\n", unfolded(spelled(reply)) + "\n"
        self.script += unfolded(repeated(line, int(times)) if times else line)
        self.replies += reply * int(times or 1) if arrow else ""

    def spoiled(self) -> list[Script]:
        """Returns the same with another last reply; or, if there is none, with something else on standard error."""
        other = copy.copy(self)
        if self.replies:
            other.replies = self.replies[:-1] + "X\n"
        else:
            other.said = "X\n"
        return [other]

    def run(self, words: Sequence[str], script: bytes) -> runs.Ran:
        """Runs the program on the script, at once or line by line."""
        if self.name.endswith("(as it is typed)"):
            return runs.run_typed(words, script.splitlines(keepends=True))
        return runs.run(words, script)

    def difference(self, program: str) -> Optional[str]:
        """Returns how the program differs from the script; None if it doesn't."""
        ran = self.run([program, *self.words], self.script.encode())
        found, said = ran.output.decode(errors="replace"), ran.said.decode(errors="replace")
        if found != self.replies:
            pairs = zip([*found.split("\n"), ""], [*self.replies.split("\n"), ""])
            at, (one, other) = next(((number, pair) for number, pair in enumerate(pairs, 1) if pair[0] != pair[1]), (0, ("", "")))
            return f"reply {at} is {one!r} and not {other!r}"
        if said != self.said:
            return f"it says {said!r} and not {self.said!r}"
        if (ran.status == 0) != (not self.said):
            return f"it ends with status {ran.status}"
        return None


class Row:
    """A row that is run for each number of what is short in it."""

    program = "upsd"

    def __init__(self, row: str, short: Sequence[str]) -> None:
        self.name, (self.what, *numbers) = row, short
        self.first, self.last = (int(numbers[0]), int(numbers[-1])) if numbers else (0, 0)
        if self.what not in SHORT or self.last < self.first:
            raise ValueError(row)

    def difference(self, program: str) -> Optional[str]:
        """Returns how the program differs from the row, at the first number for which it does; None if there is none."""
        for number in range(self.first, self.last + 1):
            if why := self.difference_at(program, number):
                return f"at {number}: {why}" if self.what else why
        return None

    def difference_at(self, program: str, number: int) -> Optional[str]:
        """Returns how the program differs from the row at a number; None if it doesn't."""
        raise NotImplementedError

    def spoiled(self) -> Sequence[Row]:
        raise NotImplementedError

    def run(self, words: Sequence[runs.Word], given: bytes, number: int) -> runs.Ran:
        """Runs a program on what it is given, with what is short at a number."""
        if self.what == "shaky":
            return runs.run_shaken(words, given)
        if self.what in ("break", "left"):
            with (runs.broken if self.what == "break" else runs.lasting)(self.cut(given, number)) as source:
                return runs.run(words, source=source)
        room, memory = (number if self.what == it else None for it in ("room", "memory"))
        return runs.run(words, self.cut(given, number), room=room, memory=memory)

    def cut(self, given: bytes, number: int) -> bytes:
        """Returns what is given, as far as it goes."""
        if self.what == "left":
            return given[:-number]
        return given[:number] if self.what in ("end", "break") else given

    def written(self, output: bytes, number: int) -> bytes:
        """Returns what is written of an output, as far as there is room."""
        return output[:number] if self.what == "room" else output


class Session(Row):
    """An association: what is asked and answered, and how it ends."""

    def __init__(self, names: Mapping[str, str], row: str) -> None:
        form, asked, answered, self.ended = row.split(" | ")
        form, *short = form.split(" ")
        super().__init__(row, ["shaky"] if form == "shaky" else short or [""])
        self.is_hexadecimal = form != "bytes"
        self.asked, self.answered = dicom.bytes_of(names, asked), dicom.bytes_of(names, answered)
        if form in ("digits", "capitals", "shaky"):
            lines = [dicom.bytes_of(names, word).hex() + "\n" for word in answered.split()]
            self.asked, self.answered = self.asked.hex().encode(), "".join(lines).encode()
        if form == "capitals":
            self.asked = self.asked.upper()

    def spoiled(self) -> list[Session]:
        """Returns the same with another answer, and with another end."""
        answer, end = copy.copy(self), copy.copy(self)
        answer.answered, end.ended = b"X" + self.answered, self.ended + "X"
        return [answer, end]

    def difference_at(self, program: str, number: int) -> Optional[str]:
        words = [program, "pipe", "--ae", "UPSD", *(["--hex"] if self.is_hexadecimal else [])]
        ran, answered = self.run(words, self.asked, number), self.written(self.answered, number)
        if ran.output != answered:
            return apart("the answer", ran.output, answered)
        ended = ended_of(ran)
        if ended == "Ok":
            answer, end = runs.serve(program, self.plain(self.cut(self.asked, number)), lasts=self.what == "left")
            if answer != self.plain(answered):
                return apart("the server's answer", answer, self.plain(answered))
            ended = f"Ok({end})"
        return None if ended == self.ended else f"it ends as {ended}"

    def plain(self, text: bytes) -> bytes:
        """Returns the bytes of what is asked or answered."""
        return bytes.fromhex(text.decode()) if self.is_hexadecimal else text


def ended_of(ran: runs.Ran) -> str:
    """Returns how a session ended, by what the program says and its exit status: well, or with a fault."""
    said = ran.said.decode(errors="replace")
    if ran.status == 0 and not said:
        return "Ok"
    status, fault = FAULTS.get(said.removeprefix("upsd: ").removesuffix("\n"), (None, None))
    return f"Err({fault})" if ran.status == status else f"status {ran.status}, saying {said!r}"


class Command(Row):
    """A command line, what is read, and the outcome."""

    def __init__(self, names: Mapping[str, str], row: str) -> None:
        words, given, self.output, self.said, status = row.split(" | ")
        if found := re.match(r"\((.+?)\) ", words):
            words = words[found.end():]
        is_lacking = words == "no memory"
        super().__init__(row, ["memory", str(MEMORY)] if is_lacking else (found[1] if found else "").split(" "))
        self.words: list[runs.Word] = [*NO_MEMORY] if is_lacking else [it for word in words.split(" ") for it in often(word)]
        self.names, self.given, self.status = names, dicom.bytes_of(names, given), int(status)

    def spoiled(self) -> list[Command]:
        """Returns the same with another output, with something else on standard error, and with another status."""
        output, said, status = copy.copy(self), copy.copy(self), copy.copy(self)
        output.output, said.said, status.status = f'{self.output}"X"', f'{self.said}"X"', self.status + 1
        if self.what == "room":
            output.output = f'"X"{self.output}'
        return [output, said, status]

    def difference_at(self, program: str, number: int) -> Optional[str]:
        ran = self.run([program, *self.words], self.given, number)
        if why := self.unlike("the output", ran.output, self.output, number) or self.unlike("what it says", ran.said, self.said):
            return why
        return None if ran.status == self.status else f"it ends with status {ran.status}"

    def unlike(self, what: str, found: bytes, column: str, room: Optional[int] = None) -> Optional[str]:
        """Returns how what is written differs from a column, as far as there is room; None if it doesn't."""
        if column.startswith(".."):
            return None if column[2:].encode() in found else f"{what} is {found!r}"
        expected = dicom.bytes_of(self.names, column)
        expected = expected if room is None else self.written(expected, room)
        return None if found == expected else apart(what, found, expected)


def often(word: str) -> list[bytes]:
    """Returns a word of a command line with its escapes replaced, as often as it says."""
    found = re.fullmatch(r"(.*)\*(\d+)", word)
    words = dicom.numbered(found[1], int(found[2])) if found else [word]
    return [re.sub(rb"%([0-9a-f]{2})", lambda it: bytes.fromhex(it[1].decode()), it.encode()) for it in words]


class Delivery:
    """The peers of a server, the host of its watcher, what the server is asked, what the watcher sends and hears, and the end."""

    program = "upsd"

    def __init__(self, names: Mapping[str, str], row: str) -> None:
        words, self.host, *said, self.ended = row.split(" | ")
        self.name, self.peers = row, words.split(" ")
        self.asked, self.taken, self.heard = (dicom.bytes_of(names, it) for it in said)

    def spoiled(self) -> list[Delivery]:
        """Returns the same with something else that is heard, and with another end."""
        heard, end = copy.copy(self), copy.copy(self)
        heard.heard, end.ended = b"X" + self.heard, self.ended + "X"
        return [heard, end]

    def difference(self, program: str) -> Optional[str]:
        """Returns how the server differs from the row; None if it doesn't."""
        heard, ended = runs.deliver(program, self.peers, self.host, self.asked, self.taken)
        if heard != self.heard:
            return apart("what the watcher hears", heard, self.heard)
        return None if ended == self.ended else f"it ends as {ended}"


class Reading(Row):
    """Bytes of a kind, how they are described, and what is written for them: None if that may be any bytes."""

    program = "readings"

    def __init__(self, names: Mapping[str, str], row: str) -> None:
        kind, given, told, *written = row.split(" | ")
        self.kind, _, numbers = kind.partition(" end ")
        super().__init__(row, ["end", *numbers.split(" ")] if numbers else [""])
        self.given = dicom.bytes_of(names, given)
        self.told = re.sub(r"<(.*?)>", lambda it: f"<{dicom.bytes_of(names, it[1]).hex()}>", told)
        self.due = written_for(names, self.given, "".join(written))

    def spoiled(self) -> list[Reading]:
        """Returns the same with another description; and, unless any bytes may be written, with other bytes."""
        told, written = copy.copy(self), copy.copy(self)
        told.told = f"{self.told}X"
        if self.due is None:
            return [told]
        written.due = b"X" + self.due
        return [told, written]

    def difference_at(self, program: str, number: int) -> Optional[str]:
        """Returns how the program's output differs from the row at a number; None if it doesn't."""
        ran = runs.run([program], f"{self.kind} {self.cut(self.given, number).hex()}\n".encode())
        if ran.status or ran.said:
            return f"it ends with status {ran.status}, saying {ran.said.decode(errors='replace')!r}"
        told, _, digits = ran.output.decode(errors="replace").removesuffix("\n").partition(" | ")
        if self.told.startswith(".."):
            if self.told[2:] not in told:
                return f"it is told to be {told!r}"
        elif told.rstrip(" ") != self.told:
            return apart("what it is told to be", told, self.told)
        if self.due is None or digits == self.due.hex():
            return None
        return apart("what is written", digits, self.due.hex())


def written_for(names: Mapping[str, str], given: bytes, column: str) -> Optional[bytes]:
    """Returns the bytes that are written for what is given, by a column; None if they may be any."""
    if column == "=":
        return given
    return None if column == ".." else dicom.bytes_of(names, column)


KINDS: dict[str, type[Union[Session, Command, Delivery, Reading]]] = {
    "sessions": Session, "commands": Command, "deliveries": Delivery, "readings": Reading}


def rows_of(file: str) -> Iterator[Runnable]:
    """Yields what is to be run of a file: its scripts, or its rows."""
    kind, *sections = re.split(r"(?m)^# ", content(file))
    kind = kind.removesuffix("\n")
    if kind not in ("", "courses", "services", *KINDS) or not sections:
        sys.exit(f"{file}: no section at its beginning")
    names = dicom.stored() if kind else {}
    befores: dict[str, list[str]] = {}
    for section in sections:
        heading, *rows = section.removesuffix("\n").split("\n")
        what, _, name = heading.partition(": ")
        if kind and what == "names":
            names.update(names_of(rows))
        elif kind and heading.startswith("names of "):
            names.update(names_in(os.path.join(os.path.dirname(file), heading.removeprefix("names of "))))
        elif kind == "services" and what == "before":
            befores[name] = rows
        else:
            yield from rows_of_section(kind, heading, rows, names, befores)


def rows_of_section(kind: str, heading: str, rows: list[str], names: Mapping[str, str], befores: services.Befores) -> Iterator[Runnable]:
    """Yields what is to be run of a section."""
    if not kind:
        yield Script(heading, rows)
    elif kind == "courses":
        yield courses.Course(heading, courses.parts_of(names, rows, spelled))
    elif kind == "services":
        yield from services.rows_of(names, befores, heading, rows, lambda row: unfolded(spelled(row)))
    else:
        yield from (KINDS[kind](names, row) for row in rows)


def names_of(rows: Iterable[str]) -> dict[str, str]:
    """Returns the texts of names, a row for each."""
    return {name: text for name, _, text in (row.partition(": ") for row in rows)}


def names_in(file: str) -> dict[str, str]:
    """Returns the texts of the names that a file of rows defines."""
    sections = re.findall(r"(?m)^# names: .*\n((?:[^#].*\n)*)", content(file))
    return names_of(row for section in sections for row in section.splitlines())


def examples_of(folder: str) -> Iterator[Script]:
    """Yields the examples of a folder."""
    for name in sorted(os.listdir(folder)):
        if name.endswith(".args"):
            path = f"{folder}/{name.removesuffix('.args')}"
            script = Script(path, [])
            script.words = content(f"{path}.args").splitlines()
            script.script, script.replies = content(path), content(f"{path}.stdout")
            yield script


def content(file: str) -> str:
    """Returns the text of a file."""
    with open(file, encoding="utf-8", newline="\n") as text:
        return text.read()


def fault_of(program: str, row: Runnable, is_spoiled: bool) -> Optional[str]:
    """Returns why a row fails; None if it passes."""
    try:
        if not is_spoiled:
            return row.difference(program)
        return None if all(it.difference(program) for it in row.spoiled()) else "a wrong row is not found"
    except (TimeoutExpired, OSError, ValueError) as fault:
        return f"{type(fault).__name__}: {fault}"


def main() -> None:
    asked = described(__doc__)
    asked.add_argument("files", nargs="+", metavar="FILE", help="a file of rows, or a folder of examples")
    asked.add_argument("--program", default="crates/upsd/out/upsd", help="the program (default: %(default)s)")
    asked.add_argument("--readings", default="crates/readings/out/readings", help="that of readings (default: %(default)s)")
    asked.add_argument("--refusals", default="crates/refusals/out/refusals", help="that of courses (default: %(default)s)")
    asked.add_argument("--self-test", action="store_true", help="spoil what each row expects: it has to fail")
    given = asked.parse_args()
    programs = {it: os.path.abspath(vars(given)[it]) for it in ("readings", "refusals")}
    programs["upsd"] = os.path.abspath(given.program)
    counts = results.Results(tells_passed=False)
    for file in given.files:
        for row in examples_of(file) if os.path.isdir(file) else rows_of(file):
            counts.tell(f"{file}: {row.name}", fault_of(programs[row.program], row, given.self_test))
    counts.end()


if __name__ == "__main__":
    main()
