#!/usr/bin/env python3
"""Makes histories of calls by hypothesis, and compares what a service answers in them with what it has to.

    check/histories.py [PROGRAM]       from the top of the checkout (default: crates/refusals/out/refusals, which `rt run` builds)
    check/histories.py --self-test     alters answers, and dulls the histories, and checks that this is found
    check/histories.py --anew [-n N]   makes other histories each time, N of each kind

A history is made of the words below, each of which stands for one of the lines under it. The program `refusals` makes its calls to a
service, and asks it all that it tells. That has to be what the plain programs find, which walk the history entry by entry, and the
events have to be those of the changes. Besides, a twin lets requests leave memory, or has its history compacted, and no answer may
tell it apart. Each kind has the least number of requests that are accepted and of answers that are compared, so that histories that
have become dull fail. The histories of a kind are made from a few starts, on all processors.

Of a history that fails the shortest form found is printed: calls as lines of a script, in which `go N` lets the requests before
index N leave memory, and an `ack` has how many of the newest events it leaves out, plus 1. The status is then 1. Without `--anew` the
histories are the same in each run. `hypothesis` is installed from the Debian package `python3-hypothesis` if it is missing.
"""

from __future__ import annotations

import argparse
import concurrent.futures
import dataclasses
import importlib.util
import os
import subprocess
import sys
from collections.abc import Callable, Sequence
from typing import Any, Optional, TypeVar

TOP = os.path.dirname(os.path.dirname(os.path.abspath(__file__)))
sys.path.insert(0, os.path.join(TOP, "check/lib"))
import machine
from history import (PEERS, Asked, Call, Counts, Difference, History, Told, check_compacting, check_leaving, check_plain, is_entered,
                     run, shifted)
from results import Results

STEP = "00404005=20240229120000 00404041=READY 00741000=SCHEDULED 00741200=MEDIUM"
LABEL = "00741204=CT%20READ"
SPAN = "00741216/00404050=20240229120100 00741216/00404051=20240229120200"
OVER = "00741002/00404052=20240229120300"
PLACES = [0] * 24 + [60_000, 60_000, 9]  # before each call, the place before which requests leave: none, all, the first nine
SHORT = 10  # the most calls of a history that shows an altered answer
T = TypeVar("T")
STARTS = 4  # from which the histories of a kind are made, side by side
# keys, and after an arrow the first indexed key of each alone, or a universal key if there is none
QUERIES = r"""00080018= 00741000= -> 00080018=
00080018= 00741000=SCHEDULED -> 00741000=SCHEDULED
00080018= 00741000=IN%20PROGRESS -> 00741000=IN%20PROGRESS
00080018= 00741000=C* -> 00080018=
00080018=1.2.3.2\1.2.3.11 00741000= -> 00080018=
00741202=RE?D* 00741000= -> 00080018=
00741202=READS 00741000=SCHEDULED -> 00741202=READS
00741202=*C 00404005=20240301- -> 00404005=20240301-
00741202= 00404005=-20240229 -> 00404005=-20240229
00741202= 00404005=20240229-202402 -> 00404005=20240229-202402
00080018= 00741200=HIGH -> 00741200=HIGH
00404005=20240301- 00741200=HIGH -> 00741200=HIGH
00100010= 00741204=CT* -> 00080018=
00100010=DOE* 00741000= -> 00080018=
00100020=P1 00741202=READS -> 00100020=P1
00080018=1.2.3.2 00100020=P1 -> 00080018=1.2.3.2
00080018=1.2.3.41 00741000= -> 00080018=1.2.3.41"""
# Of the rows the last two are refused, and of the sets the last. The filters have keys of each kind that there is. Of the Transaction
# UIDs one is malformed; NOBODY is not a peer, and W2 may not lock. A finished step is kept for 60 seconds.
ANY = rf"""CALL
create |STEP| |ROW|
create |STEP| |ROW|
change |STEP| IN%20PROGRESS |UID|
change |STEP| IN%20PROGRESS |UID|
change |STEP| COMPLETED |UID|
change |STEP| COMPLETED |UID|
change |STEP| CANCELED |UID|
change |STEP| CANCELED |UID|
cancel |STEP| 00741238=stop
set |STEP| - |SET|
set |STEP| |UID| |SET|
subscribe |STEP| |RECEIVER| |LOCK|
subscribe global |RECEIVER| |LOCK|
subscribe filtered |RECEIVER| |LOCK| |FILTER|
unsubscribe |STEP| |RECEIVER|
unsubscribe global |RECEIVER|
suspend global |RECEIVER|
ack |NUMBER|
sweep
sweep
# STEP
1.2.3.1
1.2.3.2
1.2.3.3
1.2.3.4
1.2.3.5
1.2.3.6
# ROW
{STEP} {LABEL} 00741202=READS
{STEP} {LABEL} 00741200=HIGH 00100010=DOE^JOHN 00100020=P1
{STEP} {LABEL} 00741202=REPROC 00404005=20240301 {SPAN}
{STEP} {LABEL} 00404041=INCOMPLETE 00404025/00080100=CT1 {SPAN}
{STEP} {LABEL} {OVER}
{STEP} {LABEL} {OVER} 00100010=ROE^JANE
{STEP} {LABEL} {OVER} {SPAN}
{STEP} {LABEL} {OVER} {SPAN} 00741202=READS
{STEP} {LABEL} 00741000=COMPLETED
{STEP}
# SET
00741202=READS
00741202=REPROC
00404005=20240301
00741200=LOW
00100020=P1
00404041=UNAVAILABLE
00404041=READY
00741002/00741004=50
00404025/00080100=CT1
00404034/00404036=HOSP
{SPAN}
{OVER}
00741000=COMPLETED
# FILTER
00741202=READS
00741202=RE?D*
00741202=*C 00741204=
00080018=1.2.3.2\1.2.3.5
00404005=20240301-
00404005=-20240229
00404005=20240229-202402
00100010=DOE*
00741200=HIGH
00741000=SCHEDULED 00741202=
00404025/00080100=CT1
00741216/00404050=20240229-
# UID
2.1
2.1
2.1
2.2
01
-
# RECEIVER
W1
W3
W2
NOBODY
# LOCK
TRUE
FALSE
FALSE
# NUMBER
1
2
3
6
0
99
# TITLE
W1
W2
W3
P1
# MOMENT
1709208000
1709208030
1709208060
1709208090
1709208120
1709208150
1709208180
1709208210"""
# The sets change what the filters look at, so that steps come to match them and cease to, and subscriptions end at one step and
# everywhere.
FILTERS = f"""CALL
create |STEP| |ROW|
create |STEP| |ROW|
change |STEP| IN%20PROGRESS 2.1
set |STEP| - |SET|
set |STEP| - |SET|
set |STEP| - |SET|
set |STEP| - |SET|
set |STEP| 2.1 |SET|
subscribe |STEP| |RECEIVER| |LOCK|
subscribe filtered |RECEIVER| |LOCK| |FILTER|
subscribe filtered |RECEIVER| |LOCK| |FILTER|
subscribe filtered |RECEIVER| |LOCK| |FILTER|
unsubscribe |STEP| |RECEIVER|
unsubscribe |STEP| |RECEIVER|
unsubscribe global |RECEIVER|
suspend global |RECEIVER|
ack |NUMBER|
sweep
# STEP
1.2.3.1
1.2.3.2
1.2.3.3
# ROW
{STEP} {LABEL} 00741202=READS {SPAN}
{STEP} {LABEL} 00741202=REPROC {SPAN}
# SET
00741202=READS
00741202=REPROC
00741200=LOW
00741200=HIGH
00404025/00080100=CT1
00404025/00080100=CT2
00404041=INCOMPLETE
# FILTER
00741202=READS
00741202=*C
00741200=LOW
00404025/00080100=CT1
00741202=READS 00741200=HIGH
# RECEIVER
W1
W2
# LOCK
TRUE
FALSE
# NUMBER
1
2
4
# TITLE
W1
W2
# MOMENT
1709208000
1709208030
1709208060
1709208090"""
# Steps end and are removed soon, mostly while reports of them are pending, watchers acknowledge some or all of their events, and the
# UIDs of removed steps are asked for again.
LASTING = rf"""CALL
create |STEP| |ROW|
create |STEP| |ROW|
create |STEP| |ROW|
change |STEP| IN%20PROGRESS 2.1
change |STEP| IN%20PROGRESS |UID|
change |STEP| COMPLETED 2.1
change |STEP| COMPLETED |UID|
change |STEP| CANCELED 2.1
cancel |STEP| 00741238=|REASON| 0074100C=DOE
cancel |STEP| 00741238=|REASON| 0074100C=DOE
set |STEP| - |SET|
set |STEP| 2.1 |SET|
subscribe |STEP| |RECEIVER| |LOCK|
subscribe global |RECEIVER| |LOCK|
subscribe filtered |RECEIVER| |LOCK| |FILTER|
unsubscribe |STEP| |RECEIVER|
unsubscribe global |RECEIVER|
suspend global |RECEIVER|
ack |NUMBER|
ack |NUMBER|
sweep
sweep
# STEP
1.2.3.1
1.2.3.2
1.2.3.3
1.2.3.4
1.2.3.5
1.2.3.6
1.2.3.7
1.2.3.8
1.2.3.9
1.2.3.10
1.2.3.11
1.2.3.12
# ROW
{STEP} {LABEL} 00741202=READS 00100020=P1 {SPAN} {OVER}
{STEP} {LABEL} 00741202=REPROC 00741200=HIGH {SPAN} {OVER}
# SET
00741202=READS
00741202=REPROC
00741002/00741004=50
00741002/00741004=100
00404025/00080100=CT1
00404034/00404036=HOSP
00404041=UNAVAILABLE
00404041=READY
# FILTER
00741202=READS
00741202=RE?D*
00404025/00080100=CT1
# UID
2.1
2.2
# REASON
stop
wrong_patient
# RECEIVER
W1
W2
W3
# LOCK
TRUE
FALSE
FALSE
FALSE
# NUMBER
1
1
2
4
0
# TITLE
W1
W2
W3
P1
# MOMENT
1709208000
1709208060
1709208120
1709208180"""


@dataclasses.dataclass(frozen=True)
class Kind:
    """How histories are made: their number, that of their calls, the words, the local time, the twins, and the least of each count."""

    name: str
    histories: int
    calls: int
    words: str
    offset: int
    twins: tuple[str, ...]
    least: str


# The least of each count is half of what is seen, or less; what comes in bursts has more room.
LEAST_OF_ALL = """1500 create
500 change IN%20PROGRESS
30 change COMPLETED
50 change CANCELED
500 cancel
400 set
400 subscribe step
1100 subscribe global
1000 subscribe filtered
400 unsubscribe step
1200 unsubscribe global
1100 suspend
250 ack
150 sweep
3500 used again
9000 held
3200 found
11000 watched
15000 pending
3000 compactions
50 fewer
20 reports compared
40 leaving
400 reports of those that left
100 first reports of W1"""
LEAST_ABOUT_FILTERS = """850 create
200 change IN%20PROGRESS
1100 set
350 subscribe step
2000 subscribe filtered
550 unsubscribe step
600 unsubscribe global
800 suspend
80 ack
2400 held
800 found
1400 watched
1900 pending
70 begun by a set"""
LEAST_OF_STEPS = """2600 create
850 change IN%20PROGRESS
40 change COMPLETED
80 change CANCELED
950 cancel
400 set
1100 subscribe global
1000 subscribe filtered
1100 suspend
750 ack
220 sweep
280 removed
4500 used again
16000 held
6500 found
19000 watched
23000 pending
2800 compactions
200 fewer
200 reports compared
300 first reports of W1"""
LEAST_OF_LONG = """850 create
370 change IN%20PROGRESS
150 change COMPLETED
40 change CANCELED
600 cancel
270 set
700 subscribe global
600 subscribe filtered
700 suspend
600 ack
200 sweep
300 removed
11000 held
4600 found
16000 watched
21000 pending
140 leaving
5500 reports of those that left
900 first reports of W1"""
KINDS = (
    Kind("of all requests", 1000, 100, ANY, 60, ("leaves", "compacts"), LEAST_OF_ALL),
    Kind("about filters", 1000, 40, FILTERS, 0, (), LEAST_ABOUT_FILTERS),
    Kind("of steps that come and go", 1000, 100, LASTING, 0, ("compacts",), LEAST_OF_STEPS),
    Kind("that are long", 200, 250, LASTING, 0, ("leaves",), LEAST_OF_LONG),
)


def install() -> None:
    """Goes on with hypothesis, of the system's Python if this one lacks it; it is installed if it is missing."""
    if importlib.util.find_spec("hypothesis"):
        return
    lacks = [machine.PYTHON, "-c", "import hypothesis"]
    for words in (["update"], ["install", "-y", "python3-hypothesis"]):
        if subprocess.run(lacks, stderr=subprocess.DEVNULL).returncode:
            subprocess.run(["apt-get", *words], stdout=subprocess.DEVNULL)
    if sys.executable == machine.PYTHON or subprocess.run(lacks, stderr=subprocess.DEVNULL).returncode:
        sys.exit("no histories are made: hypothesis is missing, and can't be installed (`apt-get install -y python3-hypothesis`)")
    os.execv(machine.PYTHON, [machine.PYTHON, *sys.argv])


def words_in(text: str) -> dict[str, list[str]]:
    """Returns what each word of a text may stand for."""
    return {lines[0]: lines[1:] for lines in (section.split("\n") for section in text.split("\n# "))}


def call_by(words: dict[str, list[str]], form: str, number: int) -> Call:
    """Returns the call of a form that a number chooses: what each word stands for, who calls, when, and whether the twins act before."""
    def chosen(lines: Sequence[T]) -> T:
        nonlocal number
        number, place = divmod(number, len(lines))
        return lines[place]

    text = "".join(chosen(words[part]) if place % 2 else part for place, part in enumerate(form.split("|")))
    moment, title, leaves = chosen(words["MOMENT"]), chosen(words["TITLE"]), chosen(PLACES)
    return Call(int(moment), title, text, leaves, leaves > 0)


def histories_of(kind: Kind) -> Any:
    """Returns the strategy for the histories of a kind. A call is made of two numbers, and most histories are long, but each may be
    short: so the calls that a failure doesn't need are soon left out."""
    from hypothesis import strategies as st

    words = words_in(kind.words)
    queries = [(keys, first) for keys, _, first in (it.partition(" -> ") for it in QUERIES.split("\n"))]
    forms, numbers = st.sampled_from(words["CALL"]), st.sampled_from(range(1 << 24))

    @st.composite
    def call_of(draw: Callable[[Any], Any]) -> Call:
        return call_by(words, draw(forms), draw(numbers))

    @st.composite
    def history_of(draw: Callable[[Any], Any]) -> History:
        least = draw(st.sampled_from([0, *[3 * kind.calls // 4] * 7]))
        first = draw(st.integers(0, len(queries) - 1))
        made = draw(st.lists(call_of(), min_size=least, max_size=kind.calls))
        return History(made, words["STEP"], kind.offset, queries[first:] + queries[:first])

    return history_of()


Run = Callable[[Asked, History, str], list[Told]]
Failure = tuple[Counts, Optional[History], str]  # the counts; and the shortest history found that fails, and why it does


def compare(asked: Asked, kind: Kind, history: History, counts: Counts, run_one: Run) -> None:
    """Runs the courses of a history, and compares what is told. Raises Difference."""
    plain = run_one(asked, history, "")
    waits = check_plain(history, plain, counts)
    for twin in kind.twins:
        rounds = run_one(asked, history, twin)
        if twin == "leaves":
            check_leaving(plain, rounds, waits, counts)
        else:
            check_compacting(plain, rounds, counts)


def failed_by(program: str, kind: Kind, start: Optional[int], number: int, run_one: Run) -> Failure:
    """Makes a number of histories of a kind, the same ones from the same start."""
    from hypothesis import HealthCheck, Phase, Verbosity, given, seed, settings

    counts, asked = Counts(), Asked(program)
    last: list[History] = []

    @settings(max_examples=number, database=None, deadline=None, print_blob=False, phases=(Phase.generate, Phase.shrink),
              suppress_health_check=list(HealthCheck), verbosity=Verbosity.quiet, report_multiple_bugs=False)
    @given(histories_of(kind))
    def try_one(history: History) -> None:
        last[:] = [history]
        if history.calls:
            compare(asked, kind, history, counts, run_one)

    try:
        (try_one if start is None else seed(start)(try_one))()
    except Difference as difference:
        return counts, last[0], str(difference)
    finally:
        asked.end()
    return counts, None, ""


def failed(program: str, kind: Kind, anew: bool = False, run_one: Run = run) -> Failure:
    """Makes the histories of a kind, some on each processor, until one fails."""
    counts, worst = Counts(), []
    with concurrent.futures.ProcessPoolExecutor(len(os.sched_getaffinity(0))) as pool:
        each = [pool.submit(failed_by, program, kind, None if anew else start, -(-kind.histories // STARTS), run_one)
                for start in range(STARTS)]
        for done in concurrent.futures.as_completed(each):
            if done.cancelled():
                continue
            some, history, why = done.result()
            counts += some
            if history:
                worst.append((history, why))
                pool.shutdown(wait=False, cancel_futures=True)
    history, why = min(worst, key=lambda it: len(it[0].calls), default=(None, ""))
    return counts, history, why


def dull(kind: Kind, counts: Counts, histories: int) -> Optional[str]:
    """Returns the counts that are too small for so many histories; None if none is."""
    least = [(name, int(number) * histories // kind.histories) for number, name in (it.split(" ", 1) for it in kind.least.splitlines())]
    return ", ".join(f"{counts[name]} of {name}, and not {number}" for name, number in least if counts[name] < number) or None


def frees_locks(asked: Asked, history: History, twin: str) -> list[Told]:
    """Runs a course, and alters it as if the end of a global subscription freed the steps that the watcher has locked."""
    rounds = run(asked, history, twin)
    free: set[str] = set()
    for call, told in zip(history.calls, rounds):
        if call.verb() == "suspend" and is_entered(call, told["call"]):
            free.add(call.receiver())
        for name in free & set(PEERS):
            told[f"watches {name}"] = told[f"watches {name}"].replace(":locked", ":free")
    return rounds


def finds_less(asked: Asked, history: History, twin: str) -> list[Told]:
    """Runs a course, and alters it as if a query did not find the last step."""
    rounds = run(asked, history, twin)
    for told in rounds:
        if not twin and "find" in told:
            told["find"] = told["find"].rpartition(" [")[0] or told["find"]
    return rounds


def forgets(asked: Asked, history: History, twin: str) -> list[Told]:
    """Runs a course, and alters it as if a twin whose requests leave memory lost the events of W1."""
    rounds = run(asked, history, twin)
    for told in rounds:
        if twin == "leaves" and "pending W1" in told:
            told["pending W1"] = "0000"
    return rounds


def counts_on(asked: Asked, history: History, twin: str) -> list[Told]:
    """Runs a course, and alters it as if the events of a compacted twin had numbers greater by one."""
    rounds = run(asked, history, twin)
    for told in rounds:
        for name in told.keys() & {f"pending {peer}" for peer in PEERS} if twin == "compacts" else ():
            told[name] = shifted(told[name], 1)
    return rounds


def tells_more(asked: Asked, history: History, twin: str) -> list[Told]:
    """Runs a course, and alters it as if a claim made no event."""
    rounds = run(asked, history, twin)
    for told in rounds:
        for name in told.keys() & {f"pending {peer}" for peer in PEERS}:
            told[name] = " ".join(it for it in told[name].split(" ") if ":IN%20PROGRESS:" not in it)
    return rounds


def informs(asked: Asked, history: History, twin: str) -> list[Told]:
    """Runs a course, and alters it as if a compacted twin reported something else of the first event of W1."""
    rounds = run(asked, history, twin)
    for told in rounds:
        if twin == "compacts" and "delivery" in told:
            told["delivery"] = told["delivery"].replace(b"READS".hex(), b"READY".hex()).replace(b"SCHEDULED".hex(), b"STARTED".hex())
    return rounds


def sweeps_more(asked: Asked, history: History, twin: str) -> list[Told]:
    """Runs a course, and alters it as if a sweep said of one step more that it is removed."""
    rounds = run(asked, history, twin)
    for call, told in zip(history.calls, rounds):
        if call.verb() == "sweep" and is_entered(call, told["call"]):
            told["call"] = f"0000 {int(told['call'].split(' ')[1]) + 1}"
    return rounds


ALTERED = (frees_locks, 0), (finds_less, 0), (tells_more, 0), (sweeps_more, 2), (counts_on, 2), (informs, 2), (forgets, 0)


def self_test(program: str, results: Results) -> None:
    """Alters answers in each way, and dulls the histories, and checks that it is found, each by a short history."""
    dulled = [dataclasses.replace(kind, words=kind.words.replace("create |STEP|", "suspend global W1")) for kind in KINDS]
    with concurrent.futures.ProcessPoolExecutor(len(os.sched_getaffinity(0))) as pool:
        found = [pool.submit(failed_by, program, KINDS[place], 0, KINDS[place].histories, alter) for alter, place in ALTERED]
        made = [pool.submit(failed_by, program, kind, 0, kind.histories // 20, run) for kind in dulled]
        for (alter, _), done in zip(ALTERED, found):
            _, history, _ = done.result()
            long = f"its shortest history has {len(history.calls)} calls" if history and len(history.calls) > SHORT else None
            results.tell(f"{alter.__name__} is found", long if history else "it isn't")
        for kind, done in zip(dulled, made):
            counts, _, _ = done.result()
            results.tell(f"dull histories {kind.name} are found", None if dull(kind, counts, kind.histories // 20) else "they aren't")


def main() -> None:
    about, _, more = (__doc__ or "").partition("\n\n")
    asked = argparse.ArgumentParser(description=about, epilog=more, formatter_class=argparse.RawDescriptionHelpFormatter)
    asked.add_argument("program", nargs="?", default="crates/refusals/out/refusals", help="default: %(default)s, which `rt run` builds")
    asked.add_argument("--self-test", action="store_true", help="alter answers, and see that it is found")
    asked.add_argument("--anew", action="store_true", help="make other histories than those of the gate")
    asked.add_argument("--counts", action="store_true", help="print the counts")
    asked.add_argument("-n", "--number", type=int, help="how many histories of each kind; their counts may then be small")
    given = asked.parse_args()
    install()
    program, results = os.path.abspath(given.program), Results()
    if given.self_test:
        self_test(program, results)
        results.end()
    for kind in KINDS:
        counts, history, why = failed(program, dataclasses.replace(kind, histories=given.number or kind.histories), given.anew)
        if given.counts:
            print("\n".join(f"{number} {name}" for name, number in sorted(counts.items())))
        if history:
            why = f"{why}, after these {len(history.calls)} calls:\n{history.script()}"
        results.tell(f"histories {kind.name}", why or (None if given.number else dull(kind, counts, kind.histories)))
    results.end()


if __name__ == "__main__":
    main()
