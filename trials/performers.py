#!/usr/bin/env python3
"""Tries `ups work`: performers that share a worklist.

    trials/performers.py [--steps 500] [--program PROGRAM [WORD..]]      (crates/upsd/out/upsd, which `rt run` builds)

It installs pydicom if it is missing (`apt-get install -y python3-pydicom`, which needs root), starts servers on free ports of this
machine, and ends by itself. It prints a line for each trial, and then `N passed, M failed`; the exit status is 1 if any failed.

    a step       in the order of priority and start; what its command gets; what a final state needs; a command that fails, that is
                 not there, and that is stopped; steps that are not ready, and of other worklists; a request to cancel the step;
                 a server that comes later
    strangers    what they send to a performer that listens, and requests to cancel that they forge, end no command; a request whose
                 reason the step's character set lacks does
    many         four performers do 500 steps, each once; one of them is killed in the middle of a step, and `ups status` names that
                 step, which a supervisor then cancels by the Transaction UID that the performer printed
"""

from __future__ import annotations

import collections
import json
import os
import signal
import subprocess
import sys
import tempfile
import time
from typing import Any, Optional

TOP = os.path.dirname(os.path.dirname(os.path.abspath(__file__)))
sys.path[:0] = [os.path.join(TOP, it) for it in ("check/lib", "trials/lib")]
import dicom
import strangers
from machine import HERE, described, free_port, holds, install, listens
from peer import PUSH_ON, Peer, a_step
from results import Results
from server import Server

CLIENT = [sys.executable, os.path.join(HERE, "client/bin/ups")]
LIMIT = 60  # seconds for a command
ALL = 900  # seconds for all trials
PERFORMERS = 4
STOPS_AT = 25  # the share of all steps after which the first performer hangs, and is killed: 20 of 500
DONE, FAILED, NO_ANSWER, NO_STEP = 0, 1, 2, 3
STATE, PRIORITY, UID, TRANSACTION = "00741000", "00741200", "00080018", "00081195"
PERFORMED, PROGRESS = "00741216", "00741002"


def ups(port: int, *words: str) -> subprocess.CompletedProcess[str]:
    return subprocess.run([*CLIENT, words[0], "--port", str(port), *words[1:]], capture_output=True, encoding="utf-8", timeout=LIMIT,
                          check=False)


def started(port: int, *words: str, **more: Any) -> subprocess.Popen[str]:
    return subprocess.Popen([*CLIENT, words[0], "--port", str(port), *words[1:]], encoding="utf-8", start_new_session=True, **more)


def wrong(ran: subprocess.CompletedProcess[str], status: int, *told: str) -> Optional[str]:
    said = ran.stdout + ran.stderr
    if ran.returncode != status:
        return f"it ended with {ran.returncode} and not {status}: {said}"
    return next((f"it did not tell {each!r}: {said}" for each in told if each not in said), None)


def steps(port: int) -> dict[str, dict[str, Any]]:
    """Returns the steps by UID, in DICOM JSON."""
    return {each[UID]["Value"][0]: each for each in json.loads(ups(port, "export").stdout)}


def first(found: Any, *tags: str) -> Any:
    """Returns the first value at a path of tags, or None."""
    for tag in tags:
        found = ((found or {}).get(tag, {}).get("Value") or [None])[0]
    return found


# a name, the priority, the start, and what else `ups create` is told; in the order in which they are to be done
ORDER = [
    ("1.2.20.4", "HIGH", "20260102", []), ("1.2.20.2", "HIGH", "20260103120000+0500", []),
    ("1.2.20.3", "HIGH", "20260103120000+0100", []), ("1.2.20.1", "MEDIUM", "2025", []), ("1.2.20.5", "LOW", "2024", []),
]
LEFT = [("1.2.20.6", "HIGH", "2020", ["--readiness", "INCOMPLETE"]), ("1.2.20.7", "HIGH", "2020", ["--worklist", "OTHER"])]


def try_order(results: Results, port: int) -> None:
    for uid, priority, start, words in sorted(ORDER + LEFT):
        ups(port, "create", uid, "--priority", priority, "--start", start, "--worklist", "READS", *words)
    ran = ups(port, "work", "--worklist", "READS", "--steps", "0", "--", "true")
    lines = [json.loads(line) for line in ran.stdout.splitlines()]
    told, wanted = [first(each, UID) for each in lines], [uid for uid, *_ in ORDER]
    results.tell("steps are done by priority and start", wrong(ran, DONE) or (None if told == wanted else f"{told}, and not {wanted}"))
    found = steps(port)
    states = {uid: first(step, STATE) for uid, step in found.items()}
    wanted_states = {**{uid: "COMPLETED" for uid in wanted}, **{uid: "SCHEDULED" for uid, *_ in LEFT}}
    results.tell("and others are left", None if states == wanted_states else str(states))
    performed = first(found[wanted[0]], PERFORMED)
    lacks = [tag for tag in ("00404019", "00404028", "00404033", "00404050", "00404051") if tag not in performed]
    results.tell("a completed step has what that needs", f"it lacks {lacks}" if lacks else None)
    results.tell("nothing is left to do", wrong(ups(port, "work", "--worklist", "READS", "--", "true"), NO_STEP))
    ups(port, "create", "1.2.20.8", "--start", "29990101", "--worklist", "READS")
    results.tell("nothing that is due", wrong(ups(port, "work", "--due", "--worklist", "READS", "--", "true"), NO_STEP))
    results.tell("but a step of another day", wrong(ups(port, "work", "--worklist", "READS", "--", "true"), DONE, "1.2.20.8: COMPLETED"))


def try_command(results: Results, port: int) -> None:
    """Tries what a command gets, and what it may do."""
    ups(port, "create", "1.2.21.1", "--patient-name", "MÜLLER", "-k", "(0040,4018)[0].(0008,0100)=C1")
    script = f'cat {{}}; cat; {" ".join(CLIENT)} set "$UPS_STEP" --transaction "$UPS_TRANSACTION" -k ProcedureStepLabel=SET'
    ran = ups(port, "work", "--ae", "PERFORM1", "--", "sh", "-c", script)
    line = ran.stdout.splitlines()[0] if ran.stdout else "{}"
    results.tell("the command gets the step as a file and on standard input",
                 wrong(ran, DONE) or (None if ran.stderr.count(line + "\n") == 2 else ran.stderr))
    results.tell("and may set attributes of it", None if ran.stderr.count("0000 success") == 2 else ran.stderr)
    step = steps(port)["1.2.21.1"]
    told = (first(step, STATE), first(step, "00741204"), first(step, PERFORMED, "00404019", "00080100"),
            first(step, PERFORMED, "00404028", "00080100"), first(step, "00100010"))
    wanted = ("COMPLETED", "SET", "C1", "PERFORM1", {"Alphabetic": "MÜLLER"})
    results.tell("which are there in the end", None if told == wanted else str(told))


def try_failure(results: Results, port: int) -> None:
    """Tries commands that fail, that are not there, and that are stopped, and a step that is only claimed."""
    ups(port, "create", "1.2.22.1")
    ran = ups(port, "work", "--", "./no-such-command", "{}")
    state = first(steps(port)["1.2.22.1"], STATE)
    results.tell("a command that is not there claims nothing",
                 wrong(ran, NO_ANSWER, "there is no command") or (None if state == "SCHEDULED" else state))
    results.tell("a command that fails", wrong(ups(port, "work", "--", "sh", "-c", "exit 4"), FAILED, "CANCELED, sh ended with 4"))
    canceled = first(steps(port)["1.2.22.1"], PROGRESS)
    told = (first(canceled, "00741238"), first(canceled, "0074100E", "00080100"), bool(first(canceled, "00404052")))
    results.tell("cancels the step, and says why", None if told == ("sh ended with 4", "110513", True) else str(canceled))
    ups(port, "create", "1.2.22.2")
    performer = started(port, "work", "--every", "1", "--steps", "0", "--", "sleep", "600", stdout=subprocess.DEVNULL,
                        stderr=subprocess.DEVNULL)
    holds(lambda: first(steps(port)["1.2.22.2"], STATE) == "IN PROGRESS", 30)
    time.sleep(1)
    performer.terminate()
    ended = performer.wait(LIMIT)
    state = first(steps(port)["1.2.22.2"], STATE)
    fault = None if (ended, state) == (FAILED, "CANCELED") else f"{ended}, {state}"
    results.tell("a performer that is stopped cancels its step", fault)
    ups(port, "create", "1.2.22.3")
    held = json.loads(ups(port, "work").stdout)
    ran = ups(port, "finish", "1.2.22.3", "--transaction", first(held, TRANSACTION))
    results.tell("without a command it is claimed alone, and finished by hand", wrong(ran, DONE))


def try_request(results: Results, port: int, listen: int, folder: str) -> None:
    """Tries a request to cancel a step that is being done."""
    path = os.path.join(folder, "begun")
    ups(port, "create", "1.2.23.1")
    ran = ups(port, "work", "--ae", "STRANGER", "--listen", str(listen), "--", "true")
    results.tell("a performer that is no watcher claims nothing", wrong(ran, NO_ANSWER, "as a watcher: C308"))
    performer = started(port, "work", "--ae", "PERFORM1", "--listen", str(listen), "--", "sh", "-c", f"touch {path}; exec sleep 600",
                        stdout=subprocess.DEVNULL, stderr=subprocess.DEVNULL)
    holds(lambda: os.path.exists(path), LIMIT)
    results.tell("a request to cancel", wrong(ups(port, "cancel", "1.2.23.1", "--reason", "patient has left"), DONE))
    ended = performer.wait(LIMIT)
    step = steps(port)["1.2.23.1"]
    told = (ended, first(step, STATE), first(step, PROGRESS, "00741238"))
    results.tell("ends the command and cancels the step",
                 None if told == (FAILED, "CANCELED", "asked for, patient has left") else str(told))


def try_strangers(results: Results, port: int, listen: int, folder: str) -> None:
    """Tries what strangers send to a performer that does a step, and then a right request."""
    path, uid = os.path.join(folder, "held"), "1.2.23.2"
    ups(port, "create", uid, "-k", "SpecificCharacterSet=ISO_IR 100", "--patient-name", "MÜLLER")
    performer = started(port, "work", "--ae", "PERFORM1", "--listen", str(listen), "--allow", "127.0.0.1", "--", "sh", "-c",
                        f"touch {path}; exec sleep 600", stdout=subprocess.DEVNULL, stderr=subprocess.DEVNULL)
    holds(lambda: os.path.exists(path), LIMIT)
    for each in strangers.STRANGERS:
        results.tell(f"{each.name} ends its association alone", strangers.sent(listen, b"PERFORM1", each))
    for called, calling, why in ((b"OTHER", b"UPSD", strangers.TITLE_UNKNOWN), (b"PERFORM1", b"OTHER", strangers.CALLER_UNKNOWN)):
        fault = strangers.rejected(listen, called, calling, why)
        results.tell(f"{calling!r} that calls {called!r} is rejected", fault)
    fault = strangers.told(listen, b"PERFORM1", b"1.2.23.9", strangers.CANCEL)
    results.tell("a request about another step is taken", fault)
    fault = strangers.told(listen, b"PERFORM1", uid.encode(), strangers.CANCEL, source="127.0.0.2")
    results.tell("a forged one of an address that --allow does not name is not", None if fault else "it is")
    time.sleep(1)
    results.tell("the command goes on", None if performer.poll() is None else f"it ended with {performer.poll()}")
    results.tell("a right request behind all", wrong(ups(port, "cancel", uid, "--reason", "nüchtern, 断食"), DONE))
    ended = performer.wait(LIMIT)
    step = steps(port)[uid]
    told = (ended, first(step, STATE), first(step, PROGRESS, "00741238"))
    fault = None if told == (FAILED, "CANCELED", "asked for, n?chtern, ??") else str(told)
    results.tell("ends the command, with what the step's character set can say of the reason", fault)


def try_restart(results: Results, program: list[str]) -> None:
    """Tries a performer that goes on while its server is away."""
    port = free_port()
    performer = started(port, "work", "--every", "0.2", "--", "true", stdout=subprocess.DEVNULL, stderr=subprocess.PIPE)
    first_line = performer.stderr.readline()
    with Server(program, "--keep", "3600", port=port):
        holds(lambda: listens(port), LIMIT)
        ups(port, "create", "1.2.24.1")
        said = performer.communicate(timeout=LIMIT)[1]
        told = "refused" in first_line and "1.2.24.1: COMPLETED" in said and performer.returncode == DONE
        results.tell("a performer waits for its server", None if told else f"{performer.returncode}: {first_line}{said}")


def fill(port: int, many: int) -> None:
    """Creates that many steps."""
    peer = Peer(port)
    for number in range(many):
        assert peer.ask(dicom.create(PUSH_ON, 1, b"1.2.30.%d" % number, a_step(b"P%d" % number))) == 0
    peer.release()


def performers(port: int, folder: str, stops_at: int) -> list[subprocess.Popen[str]]:
    """Starts the performers. Each writes the steps that it has done into a file of its own; the first hangs at a step."""
    found = []
    for place in range(PERFORMERS):
        path, hangs = os.path.join(folder, f"done.{place}"), f'[ "$(wc -l < "$0")" = {stops_at} ] && exec sleep 600; true'
        script = 'echo "$UPS_STEP" >> "$0"; ' + (hangs if place == 0 else "true")
        with open(os.path.join(folder, f"told.{place}"), "w", encoding="utf-8") as told:
            found.append(started(port, "work", "--ae", f"PERFORM{place}", "--steps", "0", "--", "sh", "-c", script, path,
                                 stdout=told, stderr=subprocess.PIPE))
    return found


def lines_of(path: str) -> list[str]:
    if not os.path.exists(path):
        return []
    with open(path, encoding="utf-8") as file:
        return file.read().split("\n")[:-1]


def kill_first(folder: str, performer: subprocess.Popen[str], stops_at: int) -> Optional[str]:
    """Kills the performer that hangs, with its command, and returns the step that it held."""
    path = os.path.join(folder, "done.0")
    found = holds(lambda: len(lines_of(path)) == stops_at, 300)
    os.killpg(performer.pid, signal.SIGKILL)
    performer.wait(LIMIT)
    return lines_of(path)[-1] if found else None


def try_many(results: Results, port: int, many: int, folder: str) -> None:
    fill(port, many)
    begun, stops_at = time.monotonic(), max(1, many // STOPS_AT)
    running = performers(port, folder, stops_at)
    held = kill_first(folder, running[0], stops_at)
    statuses = [each.wait(ALL) for each in running[1:]]
    took = time.monotonic() - begun
    results.tell("one performer is killed in the middle of a step", None if held else "it does not come so far")
    results.tell(f"the others end ({took:.1f} s)", str(statuses) if any(statuses) else None)
    done = collections.Counter(uid for place in range(PERFORMERS) for uid in lines_of(os.path.join(folder, f"done.{place}")))
    twice = [uid for uid, count in done.items() if count != 1]
    fault = f"{len(done)} steps, and twice {twice[:5]}" if twice or len(done) != many else None
    results.tell(f"{many} steps are done, each once", fault)
    shares = [len(lines_of(os.path.join(folder, f"done.{place}"))) for place in range(PERFORMERS)]
    results.tell(f"by all performers ({shares})", None if all(shares) else "one has done none")
    states = collections.Counter(first(step, STATE) for step in steps(port).values())
    wanted = {"COMPLETED": many - 1, "IN PROGRESS": 1}
    results.tell("all but one are completed", None if states == wanted else str(states))
    if held:
        try_killed(results, port, held, os.path.join(folder, "told.0"))


def try_killed(results: Results, port: int, held: str, told: str) -> None:
    """Tries whether a supervisor finds the step of a performer that was killed, and can end it."""
    ran = ups(port, "status", "--claimed", "1")
    results.tell("status names the step that is claimed and old", wrong(ran, DONE, f"claimed: {held}  PERFORM0  ", "  begun "))
    ran = ups(port, "status", "--claimed", "3600")
    results.tell("and not as older than it is", "it does" if "claimed: " in ran.stdout else wrong(ran, DONE))
    transaction = first(json.loads(lines_of(told)[-1]), TRANSACTION)
    ran = ups(port, "finish", held, "--transaction", transaction, "--canceled", "--reason", "its performer was killed")
    results.tell("and it can be canceled", wrong(ran, DONE))


def main() -> None:
    parser = described(__doc__)
    parser.add_argument("--program", nargs="+", default=[os.path.join(HERE, "crates/upsd/out/upsd")],
                        help="the program, and words before those of `serve` (crates/upsd/out/upsd, which `rt run` builds)")
    parser.add_argument("--steps", type=int, default=500, help="steps of the performers (500)")
    asked = parser.parse_args()
    install({})
    signal.signal(signal.SIGALRM, lambda *_: sys.exit(f"performers.py: not done in {ALL} seconds"))
    signal.alarm(ALL)
    results, listen = Results(), free_port()
    with tempfile.TemporaryDirectory() as folder, Server(asked.program, "--keep", "3600", f"PERFORM1=127.0.0.1:{listen}") as server:
        try_order(results, server.port)
        for uid in [uid for uid, *_ in LEFT]:
            ups(server.port, "cancel", uid)
        try_command(results, server.port)
        try_failure(results, server.port)
        try_request(results, server.port, listen, folder)
        try_strangers(results, server.port, listen, folder)
    try_restart(results, asked.program)
    with tempfile.TemporaryDirectory() as folder, Server(asked.program, "--keep", "3600") as server:
        try_many(results, server.port, asked.steps, folder)
    results.end("performers")


if __name__ == "__main__":
    main()
