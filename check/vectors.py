#!/usr/bin/env python3
"""Sends the program the requests of rows/vectors.txt, byte by byte, and compares what it answers with the bytes that stand there.

    check/vectors.py               runs crates/upsd/out/upsd, which rt ci proves and builds
    check/vectors.py --self-test   spoils each answer, length and reply, and checks that it is found

The file has the bytes of the profile, which this program did not make; they are spelled out here, and by nothing that other
scripts share. A line `NAME = WORDS` gives bytes a name; a line `TEXT, N bytes: WORDS` has one PDU or several, and their length.
A line `pipe | ASKED | ANSWERED` is an association of `upsd pipe --ae UPSD --hex`, whose output has a line of hex digits for each
PDU; the lines `script | LINE | REPLY` are one script. Each PDU has to be as long as its header says.

The last line is `N passed, M failed`. The status is 1 if one failed.
"""

from __future__ import annotations

import dataclasses
import itertools
import os
import re
import sys
from typing import Optional

HERE = os.path.dirname(os.path.dirname(os.path.abspath(__file__)))
sys.path.insert(0, os.path.join(HERE, "check/lib"))
import results  # noqa: E402
import runs  # noqa: E402
from machine import described

FILE = "rows/vectors.txt"
WORD = re.compile(r'"([^"]*)"|([0-9a-f]{2})\*(\d+)|((?:[0-9a-f]{2})+)|([A-Z][A-Z_0-9]*)')
HEADER = 6  # bytes before the body of a PDU


@dataclasses.dataclass
class Vectors:
    """The PDUs by their texts, with the length that the file tells of them; the associations, as what is asked and answered; and
    the script, with its replies."""

    pdus: dict[str, list[bytes]]
    lengths: dict[str, int]
    pipes: list[tuple[list[str], list[str]]]
    script: list[tuple[str, str]]


def bytes_of(names: dict[str, bytes], text: str) -> bytes:
    """Returns the bytes that a text spells."""
    found, at = b"", 0
    for word in WORD.finditer(text):
        if text[at:word.start()].strip():
            break
        quoted, byte, count, digits, name = word.groups()
        found += (quoted.encode("ascii") if quoted is not None else bytes.fromhex(byte) * int(count) if byte
                  else bytes.fromhex(digits) if digits else names[name])
        at = word.end()
    if text[at:].strip():
        raise ValueError(f"{text[at:].strip()[:20]!r} spells no bytes")
    return found


def vectors_of(text: str) -> Vectors:
    """Returns what the file says."""
    names: dict[str, bytes] = {}
    found = Vectors({}, {}, [], [])
    for line in text.splitlines():
        if not line or line.startswith("#"):
            continue
        if named := re.fullmatch(r"([A-Z][A-Z_0-9]*) = (.*)", line):
            names[named[1]] = bytes_of(names, named[2])
        elif told := re.fullmatch(r"([^|]*), (\d+) bytes: (.*)", line):
            found.pdus[told[1]] = [bytes_of(names, it) for it in told[3].split(" then ")]
            found.lengths[told[1]] = int(told[2])
        elif asked := re.fullmatch(r"pipe \| (.*) \| (.*)", line):
            found.pipes.append((asked[1].split(", "), asked[2].split(", ")))
        elif asked := re.fullmatch(r"script \| (.*) \| (.*)", line):
            found.script.append((asked[1], asked[2]))
        else:
            raise ValueError(f"{FILE}: {line[:40]!r} is no line of it")
    return found


def fault_of_lengths(pdus: list[bytes], told: int) -> Optional[str]:
    """Returns how PDUs are not as long as is told, or as one of their headers says; None if they are."""
    if sum(map(len, pdus)) != told:
        return f"it has {sum(map(len, pdus))} bytes and not {told}"
    wrong = [it for it in pdus if len(it) != HEADER + int.from_bytes(it[2:HEADER], "big")]
    return f"a PDU of {len(wrong[0])} bytes begins with {wrong[0][:HEADER].hex()}" if wrong else None


def lines_of(pdus: dict[str, list[bytes]], texts: list[str]) -> list[str]:
    """Returns PDUs as lines of hex digits."""
    return [pdu.hex() for text in texts for pdu in pdus[text]]


def fault_of(ran: runs.Ran, expected: list[str]) -> Optional[str]:
    """Returns how a run differs from the lines that it has to write; None if it does not."""
    if ran.status or ran.said:
        return f"it ends with status {ran.status}, saying {ran.said.decode(errors='replace')!r}"
    found, wanted = ran.output.decode(errors="replace"), "".join(f"{it}\n" for it in expected)
    if found == wanted:
        return None
    pairs = itertools.zip_longest(found.split("\n"), wanted.split("\n"), fillvalue="(no line)")
    number, (one, other) = next((number, pair) for number, pair in enumerate(pairs, 1) if pair[0] != pair[1])
    at = len(os.path.commonprefix([one, other]))
    told, due = (f"{it[at:at + 20]!r} at {at} of {len(it)} letters" for it in (one, other))
    return f"line {number} has {told}, and {due} is due"


def runs_of(program: str, vectors: Vectors) -> list[tuple[str, runs.Ran, list[str]]]:
    """Runs the program, and returns what each run is, how it ended, and the lines that it had to write."""
    done = []
    for asked, answered in vectors.pipes:
        given = "".join(f"{it}\n" for it in lines_of(vectors.pdus, asked))
        ran = runs.run([program, "pipe", "--ae", "UPSD", "--hex"], given.encode())
        done.append((f"pipe: {', '.join(asked)}", ran, lines_of(vectors.pdus, answered)))
    script = "".join(f"{line}\n" for line, _ in vectors.script)
    done.append(("script", runs.run([program, "script"], script.encode()), [reply for _, reply in vectors.script]))
    return done


def check(program: str, vectors: Vectors) -> None:
    """Compares all, and ends the program."""
    counts = results.Results(tells_passed=False)
    for text, pdus in vectors.pdus.items():
        counts.tell(text, fault_of_lengths(pdus, vectors.lengths[text]))
    for name, ran, expected in runs_of(program, vectors):
        counts.tell(name, fault_of(ran, expected))
    counts.end()


# the self-test

def spoiled(lines: list[str]) -> list[list[str]]:
    """Returns the lines with one digit of each changed, without each, and with one more."""
    changed = []
    for at, line in enumerate(lines):
        for place in range(0, len(line), 7):
            other = "1" if line[place] == "0" else "0"
            changed.append([*lines[:at], line[:place] + other + line[place + 1:], *lines[at + 1:]])
        changed += [[*lines[:at], *lines[at + 1:]], [*lines[:at], line + "00", *lines[at + 1:]], [*lines[:at], line, *lines[at:]]]
    return changed


def self_test(program: str, vectors: Vectors) -> None:
    """Checks that wrong bytes, lengths, replies and ends are found, and ends the program."""
    counts = results.Results(tells_passed=False)
    for text, pdus in vectors.pdus.items():
        told = vectors.lengths[text]
        longer, header = [*pdus[:-1], pdus[-1] + b"\0"], [*pdus[:-1], pdus[-1][:5] + b"\xff" + pdus[-1][6:]]
        for wrong in ((pdus, told + 1), (longer, told), (longer, told + 1), (header, told)):
            counts.tell(text, None if fault_of_lengths(*wrong) else "a wrong length is not found")
    for name, ran, expected in runs_of(program, vectors):
        for lines in spoiled(expected):
            counts.tell(name, None if fault_of(ran, lines) else "a wrong answer is not found")
        ends = [runs.Ran(2, ran.output, ran.said), runs.Ran(ran.status, ran.output, b"X")]
        for ended in [*ends, *(runs.Ran(ran.status, it, ran.said) for it in (ran.output[:-1], ran.output + b"0", b""))]:
            counts.tell(name, None if fault_of(ended, expected) else "a wrong end is not found")
    for word in ("ABSENT", "0", "zz", '"'):
        counts.tell(word, None if is_refused(word) else "words that spell no bytes are not found")
    counts.end()


def is_refused(text: str) -> bool:
    """Returns whether a text spells no bytes."""
    try:
        bytes_of({}, text)
    except (KeyError, ValueError):
        return True
    return False


def main() -> None:
    asked = described(__doc__)
    asked.add_argument("--program", default="crates/upsd/out/upsd", help="the program (default: %(default)s)")
    asked.add_argument("--file", default=os.path.join(HERE, FILE), help=f"the vectors (default: {FILE})")
    asked.add_argument("--self-test", action="store_true", help="spoil what is expected: it has to be found")
    given = asked.parse_args()
    with open(given.file, encoding="utf-8") as opened:
        vectors = vectors_of(opened.read())
    (self_test if given.self_test else check)(os.path.abspath(given.program), vectors)


if __name__ == "__main__":
    main()
