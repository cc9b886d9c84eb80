#!/usr/bin/env python3
"""Tries the numbers that `upsd serve --metrics FILE` writes for Prometheus.

    trials/metrics.py [PROGRAM]      (default: crates/upsd/out/upsd)

A client makes requests, of which some are refused, and a watcher that nobody plays is away: the file has to have these numbers,
with each label escaped, for everybody to read, whatever the umask is, and whole whenever it is read; each status that an
operation may have is there from the start. A link in the place of the file beside it stays as it is where it leads. A server
with a store has to tell what is committed, when its store fails, and how many rows it has, fewer once it was compacted. A
server whose file can't be written has to warn once a minute, to serve as ever, and to write once the folder is there.
`promtool` (Debian's package `prometheus`) has to accept the file and the alert rules, and the alerts have to come as they
should; the rules and the dashboard of packaging/monitoring may name no other numbers.

It prints a line for each check, and then `N passed, M failed`. The status is 1 if any failed. What needs promtool or strace is left
out without them.
"""

from __future__ import annotations

import contextlib
import glob
import json
import os
import pathlib
import re
import resource
import shutil
import stat
import subprocess
import sys
import tempfile
import time
from collections.abc import Iterator, Mapping
from typing import Optional

sys.path[:0] = [os.path.join(os.path.dirname(os.path.dirname(os.path.abspath(__file__))), it) for it in ("check/lib", "trials")]
from disks import SERVES, Failing, Failure, attached
from machine import HERE, described, free_port, holds, pid_of, source
from peer import GLOBAL
from results import Results
from server import Server
from stored import Client, a_step_of, make_store

PAUSE = 25.0  # seconds within which a page has to show what was asked before: one comes each 15
COUNTED = 64.0  # seconds between two counts of what waits for watchers
FOR_ALL = 0o644
LIMIT = 1 << 46  # bytes of addresses of a server, more than a program that is built with checks sets aside
STEPS = 40  # that are created and canceled before a compaction
SWEPT = 2.5  # seconds in which canceled steps are removed
LINE = re.compile(r'(\w+)(?:\{((?:\w+="(?:[^"\\\n]|\\["\\n])*",?)+)\})? (\d+(?:\.\d+)?)')
LABEL = re.compile(r'(\w+)="((?:[^"\\]|\\.)*)"')
NAME = re.compile(r"upsd_\w+")
MONITORING = os.path.join(HERE, "packaging/monitoring")
UNWRITTEN = "the numbers can't be written to"
Sample = tuple[str, tuple[tuple[str, str], ...]]  # its name, and its labels


def unescaped(value: str) -> str:
    return re.sub(r"\\(.)", lambda it: "\n" if it[1] == "n" else it[1], value)


def sample(name: str, **labels: str) -> Sample:
    return name, tuple(labels.items())


def page_in(file: str) -> Optional[str]:
    """Returns the page in a file, or None if there is no file."""
    try:
        return pathlib.Path(file).read_text(encoding="ascii")
    except FileNotFoundError:
        return None


def numbers_in(page: str) -> dict[Sample, float]:
    """Returns the numbers of a page; those that are no number of the format are left out, with their line as the name and -1."""
    found = {}
    for line in page.splitlines():
        if line.startswith("# "):
            continue
        if not (told := LINE.fullmatch(line)):
            found[sample(line)] = -1
            continue
        labels = {it[1]: unescaped(it[2]) for it in LABEL.finditer(told[2] or "")}
        found[sample(told[1], **labels)] = float(told[3])
    return found


def numbers_of(file: str) -> dict[Sample, float]:
    return numbers_in(page_in(file) or "")


def differences(file: str, wanted: Mapping[Sample, float], seconds: float = PAUSE) -> Optional[str]:
    """Waits until a file has these numbers, and returns those that it does not get in time."""
    def missing() -> dict[Sample, tuple[float, Optional[float]]]:
        now = numbers_of(file)
        return {it: (number, now.get(it)) for it, number in wanted.items() if now.get(it) != number}

    return None if holds(lambda: not missing(), seconds) else f"wanted, and found: {missing()}"


def requests(client: Client) -> None:
    """Makes requests, of which two are refused, and subscribes two watchers to all steps."""
    for at in (1, 2, 3):
        client.create(b"1.2.3.%d" % at, a_step_of(b"P"))
    client.create(b"1.2.3.3", a_step_of(b"P"))  # 0111
    client.change(b"1.2.3.1", b"IN PROGRESS", b"1.2.4")
    client.change(b"1.2.3.1", b"IN PROGRESS", b"1.2.5")  # C302
    client.subscribe(GLOBAL, b"W1", b"FALSE")
    client.subscribe(GLOBAL, b'W"2', b"FALSE")
    client.got(b"1.2.3.2")
    client.found()
    client.found()
    client.echo()


ANSWERED = {"N-CREATE": 4, "N-GET": 1, "N-SET": 0, "Change": 2, "Cancel": 0, "Subscribe": 2, "Unsubscribe": 0, "Suspend": 0,
            "N-ACTION": 0, "C-FIND": 2, "C-ECHO": 1, "other": 0}
NUMBERS = {
    sample("upsd_history_entries"): 6, sample("upsd_workers"): 7, sample("upsd_workers_taken"): 1,
    sample("upsd_associations_total"): 1, sample("upsd_connections_waiting"): 0,
    **{sample("upsd_requests_total", operation=name): number for name, number in ANSWERED.items()},
    sample("upsd_refusals_total", operation="N-CREATE", status="0111"): 1,
    sample("upsd_refusals_total", operation="Change", status="C302"): 1,
    sample("upsd_refusals_total", operation="N-CREATE", status="0213"): 0,
    sample("upsd_refusals_total", operation="N-SET", status="C301"): 0,
    sample("upsd_refusals_total", operation="C-FIND", status="A900"): 0,
    sample("upsd_steps_held"): 3,
    sample("upsd_watcher_away", watcher="W1"): 1, sample("upsd_watcher_away", watcher='W"2'): 1,
    sample("upsd_reports_delivered_total", watcher="W1"): 0, sample("upsd_reports_delivered_total", watcher='W"2'): 0,
}
PENDING = {sample("upsd_reports_pending", watcher=it): 3 for it in ("W1", 'W"2')}  # the last State Report of each step


def watchers() -> list[str]:
    """Returns the words for two watchers that nobody plays."""
    return [f"W1=127.0.0.1:{free_port()}", f'W"2=127.0.0.1:{free_port()}']


def accepted(words: list[str], text: str = "") -> Optional[str]:
    """Returns what promtool finds wrong, or None."""
    ran = subprocess.run(["promtool", *words], input=text, capture_output=True, text=True)
    return f"status {ran.returncode}: {ran.stdout}{ran.stderr}" if ran.returncode or ran.stderr else None


def broken_pages(file: str, seconds: float) -> Optional[str]:
    """Reads a file again and again, and returns a page that is not whole, if there is one."""
    whole = numbers_of(file).keys()
    until = time.monotonic() + seconds
    while time.monotonic() < until:
        now = numbers_of(file)
        if not whole <= now.keys():
            return f"{sorted(whole - now.keys())[:3]} are missing"
        time.sleep(0.0005)
    return None


def fault_of_memory(now: Mapping[Sample, float], pid: int) -> Optional[str]:
    """Returns how the memory of a page differs from what the system tells by more than a tenth, or None."""
    with open(f"/proc/{pid}/statm", encoding="ascii") as opened:
        pages = [int(it) * os.sysconf("SC_PAGE_SIZE") for it in opened.read().split()]
    for name, wanted in (("upsd_virtual_memory_bytes", pages[0]), ("upsd_resident_memory_bytes", pages[1])):
        if not 0.9 * wanted <= now.get(sample(name), 0) <= 1.1 * wanted:
            return f"{name} is {now.get(sample(name))}, and {wanted} is so"
    return None


def leaves_links_alone(program: list[str], folder: str, results: Results) -> None:
    """Checks that no page is written through a link beside its file, and that a limit of addresses is told."""
    file, other = os.path.join(folder, "upsd.prom"), os.path.join(folder, "other")
    pathlib.Path(other).write_text("other", encoding="ascii")
    os.symlink(other, file + ".new")
    with Server(program, "--metrics", file, prepare=lambda: resource.setrlimit(resource.RLIMIT_AS, (LIMIT, LIMIT))):
        results.tell("a page comes in spite of a link beside it", differences(file, {sample("upsd_virtual_memory_max_bytes"): LIMIT}))
    with open(other, encoding="ascii") as opened:
        results.tell("nothing is written through the link", None if opened.read() == "other" else "something is")
    left = sorted(os.listdir(folder))
    results.tell("the link is gone", None if left == ["other", "upsd.prom"] else f"{left}")


def tells_of_requests(program: list[str], folder: str, results: Results) -> None:
    """Checks the numbers of a server without a store, whose umask lets nobody read its files."""
    file = os.path.join(folder, "upsd.prom")
    before = int(time.time())
    with Server(program, "--associations", "7", "--metrics", file, *watchers(), prepare=lambda: os.umask(0o077) and None) as server:
        first = holds(lambda: page_in(file), 5)
        results.tell("a page comes at the start", None if first else f"{server.log[-2:]}")
        requests(client := Client(server.port))
        results.tell("the numbers of requests, workers and watchers", differences(file, NUMBERS))
        now = numbers_of(file)
        results.tell("each line is a number of the format", next((f"{it}" for it, number in now.items() if number < 0), None))
        started = now.get(sample("upsd_start_time_seconds"), 0)
        results.tell("the start", None if before <= started <= before + 5 else f"{started}, and it began at {before}")
        stored = [it for it, _ in now if it.startswith("upsd_store")]
        results.tell("nothing is told of a store", f"{stored}" if stored else None)
        mode = stat.S_IMODE(os.stat(file).st_mode)
        told = {kind for (it, labels), number in now.items() if it == "upsd_refusals_total" for name, kind in labels if name == "operation"}
        results.tell("each operation has its statuses from the start", None if told == ANSWERED.keys() - {"other"} else f"{sorted(told)}")
        results.tell("the memory in use", fault_of_memory(now, pid_of(server.process)))
        results.tell("everybody may read the file", None if mode == FOR_ALL else f"{mode:o}")
        results.tell("each page is whole", broken_pages(file, PAUSE))
        results.tell("the reports that wait, once they are counted", differences(file, PENDING, COUNTED + PAUSE))
        results.tell("no other file stays", None if os.listdir(folder) == ["upsd.prom"] else f"{os.listdir(folder)}")
        results.tell("the log has no line about the file", next((it for it in server.log if UNWRITTEN in it), None))
        if shutil.which("promtool"):
            results.tell("promtool check metrics", accepted(["check", "metrics"], page_in(file) or ""))
        client.socket.close()


def version_of(program: list[str]) -> str:
    return subprocess.run([*program, "--version"], capture_output=True, text=True, check=True).stdout.split()[1]


def tells_of_a_store(program: list[str], folder: str, results: Results) -> str:
    """Checks the numbers of a server with a store, and returns its page."""
    file, store = os.path.join(folder, "stored.prom"), os.path.join(folder, "store")
    make_store(program, store)
    with Server(program, "--associations", "7", "--metrics", file, "--store", store, *watchers()) as server:
        requests(client := Client(server.port))
        wanted = {sample("upsd_store_run"): 1, sample("upsd_store_committed_entries"): 6, sample("upsd_store_failing"): 0,
                  sample("upsd_store_rows"): 6, sample("upsd_store_compactions_total"): 0, sample("upsd_store_compaction_failing"): 0,
                  sample("upsd_store_last_compaction_timestamp_seconds"): 0,
                  sample("upsd_store_lost"): 0, sample("upsd_build_info", version=version_of(program)): 1}
        results.tell("the numbers with a store", differences(file, {**NUMBERS, **wanted}))
        client.socket.close()
        return page_in(file) or ""


def tells_of_a_compaction(program: list[str], folder: str, results: Results) -> None:
    """Checks that the rows of a store fall once it was compacted, while what is committed does not, and begin there at a restart."""
    file, store = os.path.join(folder, "compacted.prom"), os.path.join(folder, "compacted")
    make_store(program, store)
    words = ["--metrics", file, "--store", store, "--keep", "0", "--compact-at", f"{STEPS}"]
    with Server(program, *words) as server:
        client = Client(server.port)
        for at in range(3 * STEPS):  # the first compaction begins while its steps are held: a later one drops them
            client.create(b"1.2.3.%d" % at, a_step_of(b"P"))
            client.cancel(b"1.2.3.%d" % at)
            if at == STEPS:
                time.sleep(SWEPT)
        is_done = holds(lambda: numbers_of(file).get(sample("upsd_store_compactions_total"), 0) > 1, PAUSE)
        now = numbers_of(file)
        rows, committed = (now.get(sample(it), 0) for it in ("upsd_store_rows", "upsd_store_committed_entries"))
        results.tell("a compaction is told", None if is_done else f"{server.log[-3:]}")
        fell = committed >= 2 * STEPS and 0 < rows <= committed - STEPS // 2
        results.tell("the rows fall, and what is committed does not", None if fell else f"{rows} rows, {committed} committed")
        last = now.get(sample("upsd_store_last_compaction_timestamp_seconds"), 0)
        results.tell("when it was", None if abs(last - time.time()) < 2 * PAUSE else f"{last}")
        results.tell("no step is held", differences(file, {sample("upsd_steps_held"): 0}))
        client.socket.close()
        time.sleep(1.5 + PAUSE)
        rows = numbers_of(file).get(sample("upsd_store_rows"), 0)
    with Server(program, *words) as server:
        begun = [int(it) for line in server.log for it in re.findall(r"run \d+ begins with (\d+) requests", line)]
        results.tell("a restart reads as many requests", None if begun == [rows] else f"{begun} read, {rows} rows told")


@contextlib.contextmanager
def syncs_fail(server: Server, store: str, step: bytes) -> Iterator[None]:
    """Lets each sync of a store fail meanwhile, and asks for a step, which gets no answer."""
    strace = attached(Failure((Failing("fdatasync", "EIO", "1+"),), SERVES), store, pid_of(server.process))
    with contextlib.suppress(OSError, EOFError):
        Client(server.port, seconds=2).create(step, a_step_of(b"P"))
    yield
    strace.terminate()
    strace.wait()


def store_numbers(failing: int, lost: int, committed: int, entries: int) -> dict[Sample, int]:
    """Returns the numbers about a store."""
    return {sample("upsd_store_failing"): failing, sample("upsd_store_lost"): lost,
            sample("upsd_store_committed_entries"): committed, sample("upsd_history_entries"): entries}


def put_in_place(store: str, other: str) -> None:
    """Puts another store in the place of one that a server has."""
    for end in ("", "-wal"):
        with contextlib.suppress(FileNotFoundError):
            os.remove(store + end)
        with contextlib.suppress(FileNotFoundError):
            os.rename(other + end, store + end)


def tells_of_a_failing_store(program: list[str], folder: str, results: Results) -> None:
    """Checks the numbers while syncs fail, after that, and once a sync failed while another store was in the place of the file."""
    file, store, other = (os.path.join(folder, it) for it in ("failing.prom", "failing", "other"))
    for it in (store, other):
        make_store(program, it)
    with Server(program, "--metrics", file, "--store", store) as server:
        Client(server.port).create(b"1.2.3.1", a_step_of(b"P"))
        with syncs_fail(server, store, b"1.2.3.2"):
            results.tell("a store whose syncs fail is told", differences(file, store_numbers(1, 0, 1, 2)))
        results.tell("so is that they succeed again", differences(file, store_numbers(0, 0, 2, 2)))
        put_in_place(store, other)
        with syncs_fail(server, store, b"1.2.3.3"):
            pass
        results.tell("a lost store is told", differences(file, store_numbers(1, 1, 2, 3)))


def goes_on_without_a_file(program: list[str], folder: str, results: Results) -> None:
    """Checks a server whose file is in a folder that is missing, and comes later."""
    missing = os.path.join(folder, "missing")
    file = os.path.join(missing, "upsd.prom")
    with Server(program, "--metrics", file) as server:
        client = Client(server.port)
        is_told = holds(lambda: any(UNWRITTEN in it for it in server.log), 5)
        results.tell("a missing folder is told", None if is_told else f"{server.log[-2:]}")
        time.sleep(PAUSE)
        lines = [it for it in server.log if UNWRITTEN in it]
        named = len(lines) == 1 and lines[0].endswith(f"WARN  upsd] serve: {UNWRITTEN} {file}: entity not found")
        results.tell("it is told once a minute, with the file", None if named else f"{lines}")
        status = client.create(b"1.2.3.1", a_step_of(b"P"))
        results.tell("a step is created meanwhile", None if status == 0 else f"{status:04X}")
        os.mkdir(missing)
        results.tell("the page comes once the folder is there", differences(file, {sample("upsd_history_entries"): 1}))


def names_no_other(page: str, results: Results) -> None:
    """Checks that what is made for a monitor names no number that a page lacks, but those of a limit and of backups."""
    told = {*NAME.findall(page), *NAME.findall(source("packaging/upsd-backup")), "upsd_virtual_memory_max_bytes"}
    for path in sorted(glob.glob(os.path.join(MONITORING, "*"))):
        text = pathlib.Path(path).read_text(encoding="utf-8")
        unknown = {it for it in NAME.findall(text) if it not in told}
        results.tell(f"{os.path.basename(path)} names no other number", f"{sorted(unknown)}" if unknown else None)
        if path.endswith(".json"):
            json.loads(text)


CALM = """\
      - {series: 'upsd_build_info{instance="A", version="0.3.0"}', values: '1x120'}
      - {series: 'node_textfile_mtime_seconds{instance="A", file="/run/upsd.prom"}', values: '0+60x120'}
      - {series: 'upsd_store_failing{instance="A"}', values: '0x120'}
      - {series: 'upsd_store_lost{instance="A"}', values: '0x120'}
      - {series: 'upsd_start_time_seconds{instance="A"}', values: '0x120'}
      - {series: 'upsd_history_entries{instance="A"}', values: '4000000+100x120'}
      - {series: 'upsd_store_committed_entries{instance="A"}', values: '4000000+100x120'}
      - {series: 'upsd_store_rows{instance="A"}', values: '300000x120'}
      - {series: 'upsd_store_compaction_failing{instance="A"}', values: '0x120'}
      - {series: 'upsd_virtual_memory_bytes{instance="A"}', values: '1e9x120'}
      - {series: 'upsd_virtual_memory_max_bytes{instance="A"}', values: '3e9x120'}
      - {series: 'upsd_workers{instance="A"}', values: '16x120'}
      - {series: 'upsd_workers_taken{instance="A"}', values: '3x120'}
      - {series: 'upsd_watcher_away{instance="A", watcher="W1"}', values: '0x120'}
      - {series: 'upsd_reports_pending{instance="A", watcher="W1"}', values: '10x120'}
      - {series: 'upsd_requests_total{instance="A", operation="N-SET"}', values: '0+100x120'}
      - {series: 'upsd_refusals_total{instance="A", operation="N-SET", status="C301"}', values: '0+1x120'}
      - {series: 'upsd_backup_timestamp_seconds{instance="A"}', values: '0+60x120'}
"""
ALARMS = {  # what is otherwise when each alert comes: a number, and its values over two hours
    "UpsdStoreLost": ("upsd_store_lost", "0x60 1x60"), "UpsdStoreFailing": ("upsd_store_failing", "0x60 1x60"),
    "UpsdNotCommitted": ("upsd_store_committed_entries", "4000000+100x60 4006000x60"), "UpsdStale": ("node_textfile_mtime_seconds", "0+60x60 3600x60"),
    "UpsdAbsent": ("upsd_build_info", "1x60 stale"), "UpsdRestarts": ("upsd_start_time_seconds", "0+60x120"),
    "UpsdWorkersTaken": ("upsd_workers_taken", "3x60 16x60"), "UpsdWatcherAway": ("upsd_watcher_away", "0x30 1x90"),
    "UpsdReportsPending": ("upsd_reports_pending", "10x60 10001x60"), "UpsdRefusals": ("upsd_refusals_total", "0+20x120"),
    "UpsdLargeStore": ("upsd_store_rows", "4000000x120"), "UpsdNotCompacted": ("upsd_store_compaction_failing", "0x60 1x60"),
    "UpsdMemory": ("upsd_virtual_memory_bytes", "1e9x60 2.8e9x60"), "UpsdBackupOld": ("upsd_backup_timestamp_seconds", "-100000x120"),
}


def case_of(alert: str, spoiled: bool) -> str:
    """Returns the test of an alert: it comes if its number is otherwise, and does not if all is calm."""
    name, values = ALARMS[alert]
    series = "".join(re.sub("values: '.*'", f"values: '{values}'", it) if spoiled and f"'{name}{{" in it else it
                     for it in CALM.splitlines(keepends=True))
    query = f"count(ALERTS{{alertname=\"{alert}\", alertstate=\"firing\"}}) or vector(0)"
    return (f"  - name: {alert}\n    interval: 1m\n    input_series:\n{series}    promql_expr_test:\n"
            f"      - {{expr: '{query}', eval_time: 115m, exp_samples: [{{labels: '{{}}', value: {int(spoiled)}}}]}}\n")


def alerts_come(folder: str, results: Results) -> None:
    """Checks the alert rules by promtool, each with numbers for which its alert has to come, and with calm ones."""
    rules = os.path.join(MONITORING, "upsd.rules.yml")
    results.tell("promtool check rules", accepted(["check", "rules", rules]))
    with open(rules, encoding="utf-8") as opened:
        alerts = re.findall(r"alert: (\w+)", opened.read())
    results.tell("each alert is tried", None if sorted(alerts) == sorted(ALARMS) else f"{sorted(set(alerts) ^ set(ALARMS))}")
    for alert in ALARMS:
        for spoiled in (True, False):
            test = os.path.join(folder, "test.yml")
            with open(test, "w", encoding="utf-8") as opened:
                opened.write(f"rule_files: [{rules}]\nevaluation_interval: 1m\ntests:\n{case_of(alert, spoiled)}")
            fault = accepted(["test", "rules", test])
            results.tell(f"{alert} {'comes' if spoiled else 'does not come while all is calm'}", fault)


def main() -> None:
    asked = described(__doc__, "?")
    program, results = [os.path.abspath(asked.parse_args().program)], Results()
    with tempfile.TemporaryDirectory() as folder:
        if shutil.which("promtool"):
            alerts_come(folder, results)
        for name, trial in (("requests", tells_of_requests), ("file", goes_on_without_a_file), ("links", leaves_links_alone),
                            ("compaction", tells_of_a_compaction)):
            os.mkdir(os.path.join(folder, name))
            trial(program, os.path.join(folder, name), results)
        names_no_other(tells_of_a_store(program, folder, results), results)
        if shutil.which("strace"):
            tells_of_a_failing_store(program, folder, results)
    results.end()


if __name__ == "__main__":
    main()
