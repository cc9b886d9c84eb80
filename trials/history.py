#!/usr/bin/env python3
"""Tries whether answers can be checked: asks a server, ends it, and asks `upsd script --history` the same, behind the lines that
`upsd history` prints of its store.

    trials/history.py [PROGRAM] [--histories N] [--requests N] [--seed N] [--lines N]
                                                                (default: crates/upsd/out/upsd, 4, 60, 1 and 200)

A day has each kind of request: a step with a private element and a sequence whose last item has no elements, one that is
claimed, set and completed, one that is canceled, subscriptions to one step, to all, and by keys, with a lock and without, by
watchers one of whom has a quote in its title, their ends, and generated lives of steps. After each comes a query, whose audit line
has the number of requests behind it: with as many lines of the history the same query has to get the same steps. A history of more
requests than there are ends with status 2, as does one of a store that a server has open.

A busy server has four performers, and two peers that ask by state, by label and for a step: each of their audit lines (--lines, half of
each kind) has the number at which a script, told as many requests and no more, gives the answer that the peer got.

Generated histories, with sweeps, acknowledgements and reports that wait, are told whole, and behind `upsd compact`, whose count of
requests is the number of lines: both give what a server that starts on the store gives: the steps, their attributes, the events
that wait for each watcher, the answers to requests of holders and of others, what these requests tell the watchers, and the steps
that are left. In a compacted history only removed steps are reserved. What a server accepts on a compacted store is told behind it.

It prints a line for each check, and in the end how many passed. It ends with status 1 if any failed.
"""

from __future__ import annotations

import argparse
import dataclasses
import os
import random
import re
import shlex
import subprocess
import sys
import threading
import time
from collections.abc import Callable
from multiprocessing.pool import ThreadPool
from typing import NamedTuple, Optional

sys.path.insert(0, os.path.join(os.path.dirname(os.path.dirname(os.path.abspath(__file__))), "check/lib"))
from dicom import data, items, step
from ledger import LABEL, SOP_INSTANCE, STATE, TRANSACTION, Attributes
from machine import HERE, free_port, holds
from peer import FILTERED, GLOBAL, told
from results import Results
from stored import (FAULTS, READINESS, SECONDS, Client, Ended, Report, Stored, a_step_of, compacted, copy_of, ended, folder_for,
                    performed, text_in)
from stored_days import KEEP, NAMES, Day, Picture, ask_holders, current, finish_some, live, picture_of, spend_day, work

TITLE = "BENCH"  # of the client that asks behind a history
SHOWN = (SOP_INSTANCE, STATE, READINESS, LABEL)
FIND, GET = "find 00080018= 00741000= 00741204=", "00080018 00404041 00741000 00741204"
QUOTED = "O'NEIL"
PRIVATE = {(0x0009, 0x0010): (b"LO", b"ACME"), (0x0009, 0x1001): (b"US", b"\7\0")}
BARE = data(True, 0x0074, 0x1210, b"SQ", items([b"", b""]))
LIVES = 8  # generated lives of a day
LATER = 1000  # seconds between the last request of a history and what is asked behind it: finished steps are due by then
MOST = 100_000  # events
Event = tuple[bytes, ...]  # step and kind, and of a State Report state and readiness
Shown = dict[str, object]


def history(program: list[str], file: str, *options: str) -> Ended:
    return ended([*program, "history", *options, file])


def lines_of(program: list[str], file: str, *options: str) -> Ended:
    """Returns a history that has to be told to its end."""
    come = history(program, file, *options)
    assert come.status == 0 and come.said.count("\n") == 1, come
    return come


class Behind(Client):
    """A client of `upsd script --history`, which answers it behind the lines of a history, by the command that came with them."""

    def __init__(self, program: list[str], told_of: Ended) -> None:
        words, lines = shlex.split(told_of.said), told_of.output.splitlines()
        assert words[:3] == ["upsd", "script", "--history"], words
        self.moment = max((int(it.split(" ", 1)[0]) for it in lines), default=0)
        self.script = subprocess.Popen([*program, *words[1:]], stdin=subprocess.PIPE, stdout=subprocess.PIPE, text=True)
        self.replies = [self.reply_to(it) for it in lines]

    def reply_to(self, line: str) -> str:
        assert self.script.stdin and self.script.stdout
        self.script.stdin.write(line + "\n")
        self.script.stdin.flush()
        return self.script.stdout.readline().rstrip("\n")

    def replied(self, words: str, title: str = TITLE) -> str:
        """Returns the reply to a request at its moment."""
        return self.reply_to(f"{self.moment} {title} {words}")

    def status_to(self, words: str) -> int:
        return int(self.replied(words)[:4], 16)

    def create(self, uid: bytes, data_set: bytes) -> int:
        return self.status_to(f"create {uid.decode()} :{data_set.hex()}")

    def change(self, uid: bytes, state: bytes, transaction: bytes) -> int:
        return self.status_to(f"change {uid.decode()} {state.decode().replace(' ', '%20')} {transaction.decode()}")

    def set(self, uid: bytes, data_set: bytes, transaction: Optional[bytes]) -> int:
        holder = told(*TRANSACTION, b"UI", transaction) if transaction else b""
        return self.status_to(f"set {uid.decode()} - :{(holder + data_set).hex()}")

    def got(self, uid: bytes) -> Optional[Attributes]:
        reply = self.replied(f"get {uid.decode()} {GET}")
        return None if reply.startswith("C307") else attributes_in(reply)

    def found(self, *keys: tuple[tuple[int, int], bytes]) -> list[Attributes]:
        return [attributes_in(it) for it in re.findall(r"\[([^\]]*)\]", self.replied(" ".join([FIND, *(f"{a:04X}{b:04X}={it.decode()}" for (a, b), it in keys)])))]

    def events(self, title: str) -> list[Event]:
        """Returns the events that wait for a watcher, and acknowledges them."""
        told_of = [it.split(":") for it in self.replied(f"pending {MOST}", title).split(" ")[1:]]
        if told_of:
            self.replied(f"ack {told_of[-1][0]}", title)
        return [(uid.encode(), kind.encode(), *((unescaped(state), unescaped(ready)) if kind == "1" else ()))
                for _, kind, uid, state, ready in told_of]

    def close(self) -> int:
        """Ends the script, and returns its status."""
        self.script.communicate(timeout=SECONDS)
        return self.script.returncode


def unescaped(text: str) -> bytes:
    return re.sub(rb"%(..)", lambda it: bytes([int(it[1], 16)]), text.encode())


def attributes_in(text: str) -> Attributes:
    """Returns the attributes of a reply that are in no item."""
    found = re.findall(r"(?:^|(?<= ))([0-9A-F]{4})([0-9A-F]{4})=(\S*)", text)
    return {(int(group, 16), int(number, 16)): (b"", unescaped(value)) for group, number, value in found}


def texts(attributes: Optional[Attributes]) -> Optional[list[bytes]]:
    return None if attributes is None else [text_in(attributes, it) for it in SHOWN]


def steps_of(found: list[Attributes]) -> list[tuple[bytes, ...]]:
    """Returns the steps that a query finds: UID, state and label of each."""
    return [tuple(text_in(it, tag) for tag in (SOP_INSTANCE, STATE, LABEL)) for it in found]


# a day, with a query behind each request

def kinds_of(client: Client) -> list[Callable[[], int]]:
    """Returns requests of each kind."""
    performer, other = b"2.25.7", QUOTED.encode()
    return [
        lambda: client.create(b"1.2.3.1", step(True, PRIVATE)),
        lambda: client.subscribe(GLOBAL, b"W1", b"FALSE"),
        lambda: client.subscribe(b"1.2.3.1", other, b"TRUE"),
        lambda: client.subscribe(FILTERED, b"W1", b"FALSE", data(True, *STATE, b"CS", b"SCHEDULED ")),
        lambda: client.create(b"1.2.3.2", a_step_of(b"P2")),
        lambda: client.change(b"1.2.3.1", b"IN PROGRESS", performer),
        lambda: client.set(b"1.2.3.1", performed(1), performer),
        lambda: client.set(b"1.2.3.2", data(True, *LABEL, b"LO", b"A   ") + BARE, None),
        lambda: client.cancel(b"1.2.3.2"),
        lambda: client.change(b"1.2.3.1", b"COMPLETED", performer),
        lambda: client.unsubscribe(b"1.2.3.1", other),
        lambda: client.unsubscribe(GLOBAL, b"W1"),
    ]


def spend(client: Client, seed: int) -> tuple[list[int], list[list[tuple[bytes, ...]]], Day]:
    """Spends a day: requests of each kind, and lives of steps. Returns the statuses of the first, and what is shown behind each."""
    day, chance = Day(), random.Random(f"{seed} history")
    statuses, answers = [], []
    for request in kinds_of(client):
        statuses.append(request())
        answers.append(steps_of(client.found()))
    for number in range(LIVES):
        live(client, b"1.2.4.%d" % number, chance, day)
        answers.append(steps_of(client.found()))
    return statuses, answers, day


def queries(server: Stored) -> list[int]:
    """Returns how many requests were behind each query, by the audit lines."""
    return [int(it) for line in server.lines("audit: Find") for it in re.findall(r", at (\d+)$", line)]


def await_queries(server: Stored, count: int) -> list[int]:
    """Returns the same once there are so many."""
    holds(lambda: len(queries(server)) >= count, 5)
    return queries(server)


def check_day(program: list[str], folder: str, seed: int, results: Results) -> None:
    """Checks the answer to each query of a day, and what is refused."""
    file = os.path.join(folder, "day")
    peers = [f"{it}=127.0.0.1:{free_port()},lock" for it in (QUOTED, *NAMES)]
    options = ("--keep", "86400", "--offset", "60", "--audit", *peers)
    with Stored(program, file, *options) as server:
        client = Client(server.port, b"PERFORM1")
        statuses, answers, day = spend(client, seed)
        client.release()
        behind = await_queries(server, len(answers))
        come = history(program, file)
        results.tell("a store in use is refused", None if come.status == 2 and "another process" in come.said else f"{come}")
    results.tell("the day is accepted", None if not any(statuses) else f"{statuses}")
    results.tell("each query has its line", None if len(behind) == len(answers) else f"{len(behind)} of {len(answers)} have one")
    whole = lines_of(program, file)
    results.tell("each request has a line", None if len(whole.output.splitlines()) == behind[-1] else f"{whole}")
    for number, answer in zip(behind, answers):
        check_answer(program, file, number, answer, results)
    check_holders(Behind(program, whole), day, results)
    come = history(program, file, "--until", str(behind[-1] + 1))
    results.tell("there are no more", None if come.status == 2 and f"it has {behind[-1]} requests" in come.said else f"{come}")
    check_later(program, copy_of(file, folder, "later"), options, results)


def check_answer(program: list[str], file: str, number: int, answer: list[tuple[bytes, ...]], results: Results) -> None:
    """Checks the answer of a server behind so many requests."""
    script = Behind(program, lines_of(program, file, "--until", str(number)))
    refused = [it for it in script.replies if not it.startswith("0000")]
    again = steps_of(script.found())
    fault = None if again == answer and not refused else f"{again} in place of {answer}, and {refused[:3]}"
    results.tell(f"the answer behind {number} requests comes again", fault or (None if script.close() == 0 else "the script fails"))


def check_holders(script: Behind, day: Day, results: Results) -> None:
    """Checks who holds the steps that are in progress, and that a query as it is asked in a message is answered alike."""
    busy = [text_in(it, SOP_INSTANCE) for it in script.found() if text_in(it, STATE) == b"IN PROGRESS"]
    held = {uid: script.replied(f"holder {uid.decode()}") for uid in day.claims if uid in busy}
    wrong = {uid: it for uid, it in held.items() if it != "0000 PERFORM1"}
    results.tell(f"the {len(held)} steps in progress have their holder", f"{wrong}" if wrong or not held else None)
    exact = script.replied(f"find : :{data(True, *SOP_INSTANCE, b'UI', b'').hex()} 00741000=IN%20PROGRESS%20")
    found = [text_in(attributes_in(it), SOP_INSTANCE) for it in re.findall(r"\[([^\]]*)\]", exact)]
    results.tell("an exact query finds them", None if found == busy and script.close() == 0 else f"{found} in place of {busy}")


def check_later(program: list[str], file: str, options: tuple[str, ...], results: Results) -> None:
    """Checks that a compacted store is told, and what a server accepts on it behind that."""
    come = compacted(program, file)
    count = int(re.findall(r": (\d+) requests, ", come.output)[0])
    with Stored(program, file, *options) as server:
        client = Client(server.port, b"PERFORM1")
        status, answer = client.create(b"1.2.5.1", a_step_of(b"P3")), steps_of(client.found())
        client.release()
        behind = await_queries(server, 1)
    results.tell("a compacted store goes on", None if status == 0 and behind == [count + 1] else f"{status:04X}, {behind}, {count}")
    check_answer(program, file, count + 1, answer, results)


# a busy server

class Answered(NamedTuple):
    """A question of a peer in the words of a script, and what was shown to it."""

    words: str
    shown: object


def ask_one(client: Client, chance: random.Random, uids: list[bytes]) -> Answered:
    """Asks for a step that was created, or by a key that some steps have."""
    kind = chance.random()
    if kind < 0.5 and uids:
        uid = chance.choice(uids)
        return Answered(f"get {uid.decode()} {GET}", texts(client.got(uid)))
    tag, value = chance.choice(((STATE, b"IN PROGRESS"), (STATE, b"COMPLETED"), (LABEL, b"*"), (LABEL, b"NONE")))
    found = steps_of(client.found((tag, value)))
    return Answered(f"{FIND} {tag[0]:04X}{tag[1]:04X}={value.decode().replace(' ', '%20')}", found)


def ask_on(port: int, title: bytes, seed: int, count: int, day: Day) -> list[Answered]:
    """Asks so many questions, one after the other."""
    client, chance = Client(port, title), random.Random(f"{seed} asks {title!r}")
    asked = [ask_one(client, chance, list(day.uids)) for _ in range(count)]
    client.release()
    return asked


def numbers_of(server: Stored, title: bytes) -> list[int]:
    """Returns the numbers in the audit lines of the questions of a peer, in their order."""
    form = re.compile(rf"audit: (?:Find|Get) #\d+ {title.decode()} .*, at (\d+)$")
    return [int(it[1]) for line in server.lines("audit: (Find|Get)") if (it := form.search(line))]


def differing_behind(program: list[str], whole: Ended, asked: list[tuple[int, Answered]]) -> list[str]:
    """Asks each question again, behind as many requests as its line has, and returns which answers differ."""
    script = Behind(program, dataclasses.replace(whole, output=""))
    script.moment, wrong, lines = LATER, list[str](), whole.output.splitlines()
    for number, it in sorted(asked, key=lambda pair: pair[0]):
        while len(script.replies) < number:
            script.replies.append(script.reply_to(lines[len(script.replies)]))
        reply = script.replied(it.words)
        if it.words.startswith("get"):
            again: object = None if reply.startswith("C307") else texts(attributes_in(reply))
        else:
            again = steps_of([attributes_in(each) for each in re.findall(r"\[([^\]]*)\]", reply)])
        if again != it.shown:
            wrong.append(f"{it.words} at {number}: {again!r:.200} in place of {it.shown!r:.200}")
    return wrong if script.close() == 0 else [*wrong, "the script fails"]


def check_busy(program: list[str], folder: str, given: argparse.Namespace, results: Results) -> None:
    """Checks what a busy server answered, line by line."""
    file, day = os.path.join(folder, "busy"), Day()
    peers = [f"{it}=127.0.0.1:{free_port()},lock" for it in NAMES]
    titles, each = (b"ASKER1", b"ASKER2"), given.lines // 2
    with Stored(program, file, "--keep", "86400", "--audit", *peers) as server:
        performers = [threading.Thread(target=work, args=(server.port, it, 0, given.lines, given.seed, day)) for it in range(4)]
        for it in performers:
            it.start()
        with ThreadPool(len(titles)) as pool:
            answers = pool.starmap(ask_on, [(server.port, it, given.seed, each, day) for it in titles])
        for it in performers:
            it.join()
        holds(lambda: all(len(numbers_of(server, it)) >= each for it in titles), 5)
        numbers = [numbers_of(server, it) for it in titles]
    asked = [pair for behind, told_to in zip(numbers, answers) for pair in zip(behind, told_to)]
    results.tell("each question has its line", None if [len(it) for it in numbers] == [each] * 2 else str([len(it) for it in numbers]))
    wrong = [*day.faults, *differing_behind(program, lines_of(program, file), asked)]
    apart = len({number for number, _ in asked})
    results.tell(f"{len(asked)} answers, behind {apart} numbers of requests, come again", "; ".join(wrong[:5]) or None)
    results.tell("they were asked meanwhile", None if apart > given.lines // 10 else f"at {apart} numbers alone")


# generated histories

def events_told(reports: list[Report]) -> list[Event]:
    return [(it.uid, b"%d" % it.event, *(it.shown() if it.is_state() else ())) for it in current(reports)]


def shown_by(picture: Picture) -> Shown:
    """Returns what a server shows, in the words of a script."""
    shown: Shown = {"the worklist": steps_of(picture.found), "each step": {uid: texts(it) for uid, it in picture.got.items()}}
    shown |= {f"answers: {what}": it for what, it in picture.answers.items()}
    shown |= {f"pending for {name}": events_told(it) for name, it in picture.reports.items()}
    return shown | {f"told {name} then": events_told(it) for name, it in picture.provoked.items()}


def shown_behind(program: list[str], told_of: Ended, day: Day) -> Shown:
    """Returns the same of a script of the lines of a history: it is asked what `picture_of` asks a server."""
    script = Behind(program, told_of)
    script.moment += LATER
    pending = {f"pending for {name}": script.events(name) for name in NAMES}
    script.replied("sweep")
    found = script.found()
    picture = Picture(found, {uid: script.got(uid) for uid in day.uids}, {}, 0, [])
    picture.answers = ask_holders(script, picture, day)
    then = {f"told {name} then": script.events(name) for name in NAMES}
    picture.answers["swept"] = finish_some(script, picture, day)
    script.moment += LATER
    script.replied("sweep")
    picture.answers["left"] = [(text_in(it, SOP_INSTANCE), 0) for it in script.found()]
    wrong = [it for it in script.replies if not it.startswith("0000")]
    return shown_by(picture) | pending | then | {"replies that refuse": wrong, "status": script.close()}


def differing(served: Shown, shown: Shown) -> list[str]:
    """Returns in what a script of a history differs from the server, shortly."""
    wanted: Shown = served | {"replies that refuse": [], "status": 0}
    return [f"{what}: {shown.get(what)!r:.300} in place of {it!r:.300}" for what, it in wanted.items() if shown.get(what) != it]


def fault_of_compacted(told_of: Ended, come: Ended, served: Picture) -> Optional[str]:
    """Returns why the lines of a compacted store are not as many as were left, or reserve a step that is there, or None."""
    lines = [it.split(" ") for it in told_of.output.splitlines()]
    if f": {len(lines)} requests, " not in come.output:
        return f"{len(lines)} lines, and {come.output!r}"
    there = {uid.decode() for uid, it in served.got.items() if it is not None}
    reserved = {it[3] for it in lines if it[2] == "reserve"}
    return f"{reserved & there} are reserved" if reserved & there else None


def fault_of(program: list[str], folder: str, requests: int, seed: int) -> Optional[str]:
    """Returns in what the history of a generated day differs from the server that had it, or None."""
    try:
        file, left = os.path.join(folder, f"history {seed}"), os.path.join(folder, f"left {seed}")
        day = spend_day(program, file, argparse.Namespace(requests=requests, seed=seed))
        copy_of(file, folder, os.path.basename(left))
        picture, come = picture_of(program, copy_of(file, folder, f"served {seed}"), day), compacted(program, left)
        whole, less = lines_of(program, file), lines_of(program, left)
        faults = [differing(shown_by(picture), shown_behind(program, it, day)) for it in (whole, less)]
        found = [*faults[0], *(f"compacted: {it}" for it in faults[1])]
        if fault := fault_of_compacted(less, come, picture):
            found.append(fault)
    except (*FAULTS, ValueError, IndexError) as fault_:
        return f"history {seed}: {fault_!r}"
    return f"history {seed}: {'; '.join(found)}" if found else None


def check_histories(program: list[str], folder: str, given: argparse.Namespace, results: Results) -> None:
    """Tries generated histories, all at once: a server mostly waits for what is due by the clock."""
    began, seeds = time.monotonic(), range(given.seed, given.seed + given.histories)
    with ThreadPool(max(1, given.histories)) as pool:
        faults = [it for it in pool.starmap(fault_of, [(program, folder, given.requests, it) for it in seeds], chunksize=1) if it]
    results.tell(f"{given.histories} generated histories, and behind a compaction, in {time.monotonic() - began:.0f} s", "; ".join(faults) or None)


def main() -> None:
    about, _, more = (__doc__ or "").partition("\n\n")
    parser = argparse.ArgumentParser(description=about, epilog=more, formatter_class=argparse.RawDescriptionHelpFormatter)
    parser.add_argument("program", nargs="?", default=os.path.join(HERE, "crates/upsd/out/upsd"),
                        help="the program (default: crates/upsd/out/upsd, which `rt run` builds)")
    numbers: list[tuple[str, int, str]] = [("histories", 4, "how many histories are generated"), ("requests", 60, "how many requests each has"),
                                           ("seed", 1, "what the first is generated from"),
                                           ("lines", 200, "how many audit lines of a busy server are asked again")]
    for name, default, about in numbers:
        parser.add_argument(f"--{name}", type=int, default=default, help=f"{about} (default: {default})")
    given, results = parser.parse_args(), Results()
    with folder_for(None) as folder:
        try:
            check_day([given.program], folder, given.seed, results)
        except (*FAULTS, ValueError, IndexError) as fault:
            results.tell("the day", repr(fault))
        check_busy([given.program], folder, given, results)
        check_histories([given.program], folder, given, results)
    results.end("answers that are checked")


if __name__ == "__main__":
    main()
