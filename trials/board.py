#!/usr/bin/env python3
"""Tries the board of the client `ups` in headless Chromium, with a server and three workstations.

    trials/board.py [--program PROGRAM [WORD..]] [--steps 200] [--many 10000] [--picture FILE]

It installs what is missing (`apt-get install -y chromium nginx-light node-css-tree nodejs openssl python3-html5lib
python3-pydicom python3-websocket tidy`, which needs root), starts a server and a board on free ports of this machine, and ends by
itself. It prints a line for each trial, and then `N passed, M failed`; the exit status is 1 if any failed.

    lives        three workstations take steps through their lives: created, claimed, progress set, and completed or canceled by
                 the performer or by request. The page must show each state of each step within a second of the server's
                 answer; in the end both tellings, of queries and of reports, have the states that the workstations gave
    a step       the page shows the attributes of a chosen step, who holds it, and its reports in their order
    a reader     of the screen is told the name of each control, list and mark, and what is a status and an alert
    a search     part of a patient's name leaves that patient's steps
    an event 4   `ups announce` is shown, and makes the board subscribe again
    a restart    the server is stopped: the page says so; it is started again, and both tellings agree on what it holds
    many         a server holds 10,000 steps: the page draws the first 200 of a state within 2 seconds, while reports are coming
                 and at rest
    waiting      the page names the steps that have waited longest, the age of a claim as its performer tells it, and claims that are
                 old; it counts what was completed and canceled today, and has the median wait
    an order     SCHEDULED has the urgent and the oldest first; a card has the whole patient ID and the birth date beside a long name; a
                 worklist and a station are chosen by the address and by the page, a step by the keyboard
    elsewhere    a request without the token of the board, or with another one, or that names another host or comes from the page of
                 one gets nothing, and the port is open to this machine alone; no page may have the board in a frame
    a proxy      nginx, as docs/use/operating.md has it: who logs in sees the page, without a token, and nobody else does
    no report    a board to which no report comes says that worklist and reports differ, in red
    the files    tidy and html5lib find no fault in the page, nor css-tree in its style
    the console  has no error
"""

from __future__ import annotations

import argparse
import base64
import contextlib
import importlib.util
import json
import os
import pathlib
import re
import shutil
import signal
import ssl
import subprocess
import sys
import tempfile
import threading
import time
import urllib.error
import urllib.parse
import urllib.request
from typing import Any, Iterator, Optional

sys.path.insert(0, os.path.join(os.path.dirname(os.path.dirname(os.path.abspath(__file__))), "check/lib"))
import dicom
import stock
from machine import HERE, described, free_port, holds, install, listens, source
from peer import PUSH_ON, Peer, a_step
from results import Results
from server import Server
from stock import PUSH

CLIENT = os.path.join(HERE, "client", "bin", "ups")
LIMIT = 1.0  # seconds within which the page shows a state
LOADS = 2.0  # seconds within which the page of many steps is drawn
HELD = 1.2  # seconds that a step stays in a state
BATCH = 8  # steps that a workstation has at a time
STATIONS = ("CT1", "CT2", "MR1")
PATIENTS = ("DOE^JANE", "MÜLLER^JÜRGEN", "OKAFOR^ADA", "NOVÁK^PETR", "SILVA^ANA", "ROSSI^LUCA", "YILMAZ^ELIF", "LARSEN^NILS")
LABELS = ("CT head", "CT thorax", "CT abdomen", "MR knee", "MR spine", "CT angiography")
WAITING = 7  # steps of try_waiting
ALL = 900  # seconds for all trials
NODE, CSS_TREE = "/usr/bin/node", "/usr/share/nodejs/css-tree"

# notes when a card appears in the column of a state
OBSERVER = """
window.noted = {};
new MutationObserver(changes => {
  for (const change of changes) for (const node of change.addedNodes) {
    if (!(node instanceof Element)) continue;
    for (const card of node.querySelectorAll("[data-uid]")) {
      const column = card.closest("[data-state]");
      if (column) window.noted[card.dataset.uid + " " + column.dataset.state] ??= Date.now() / 1000;
    }
  }
}).observe(document, {childList: true, subtree: true});
"""


class Browser:
    """Headless Chromium with one page, driven over its debugging port."""

    def __init__(self) -> None:
        self.folder = tempfile.mkdtemp()
        words = [shutil.which("chromium") or "chromium", "--headless=new", "--no-sandbox", "--disable-gpu",
                 "--disable-dev-shm-usage", "--disable-background-networking", "--no-first-run", "--remote-debugging-port=0",
                 f"--user-data-dir={self.folder}", "about:blank"]
        self.process = subprocess.Popen(words, stderr=subprocess.PIPE, text=True, start_new_session=True)
        self.errors: list[str] = []
        self.numbers = 0
        port = next(found[1] for line in self.process.stderr or [] if (found := re.search(r"ws://127\.0\.0\.1:(\d+)/", line)))
        threading.Thread(target=self.process.stderr.read, daemon=True).start()
        with urllib.request.urlopen(f"http://127.0.0.1:{port}/json") as told:
            page = next(each for each in json.load(told) if each["type"] == "page")
        import websocket
        self.socket = websocket.create_connection(page["webSocketDebuggerUrl"], timeout=60, suppress_origin=True)
        for name in ("Page.enable", "Runtime.enable", "Log.enable"):
            self.ask(name)
        self.size(1200, 800)
        self.ask("Page.addScriptToEvaluateOnNewDocument", source=OBSERVER)

    def note(self, told: dict[str, Any]) -> None:
        """Keeps the message if it is an error of the console."""
        what, more = told.get("method"), told.get("params", {})
        is_error = what == "Runtime.consoleAPICalled" and more["type"] in ("error", "assert")
        if is_error or what == "Runtime.exceptionThrown" or what == "Log.entryAdded" and more["entry"]["level"] == "error":
            self.errors.append(json.dumps(more)[:300])

    def ask(self, method: str, **words: Any) -> dict[str, Any]:
        self.numbers += 1
        self.socket.send(json.dumps({"id": self.numbers, "method": method, "params": words}))
        while True:
            told = json.loads(self.socket.recv())
            if told.get("id") == self.numbers:
                return told.get("result", {})
            self.note(told)

    def run(self, script: str) -> Any:
        """Returns the value of a script in the page."""
        return self.ask("Runtime.evaluate", expression=script, returnByValue=True, awaitPromise=True)["result"].get("value")

    def size(self, width: int, height: int) -> None:
        self.ask("Emulation.setDeviceMetricsOverride", width=width, height=height, deviceScaleFactor=1, mobile=False)

    def go(self, address: str, done: str, seconds: float) -> Optional[float]:
        """Opens a page, and returns how long it took until the script `done` says that it is, or None after `seconds`."""
        begun = time.monotonic()
        self.ask("Page.navigate", url=address)
        while time.monotonic() < begun + seconds:
            if self.run(done):
                return time.monotonic() - begun
            time.sleep(0.02)
        return None

    def key(self, name: str) -> None:
        """Presses a key, and lets it go."""
        for kind in ("rawKeyDown", "char", "keyUp") if name == "Enter" else ("rawKeyDown", "keyUp"):
            code = {"Enter": 13, "Escape": 27}[name]
            text = {"text": "\r"} if kind == "char" else {}
            self.ask("Input.dispatchKeyEvent", type=kind, key=name, code=name, windowsVirtualKeyCode=code, **text)
        time.sleep(0.2)

    def scheme(self, word: str) -> None:
        """Sets light or dark colors."""
        self.ask("Emulation.setEmulatedMedia", features=[{"name": "prefers-color-scheme", "value": word}])
        time.sleep(0.3)

    def picture(self, path: str) -> None:
        """Takes a picture of the page, with 128 colors if Pillow is installed."""
        pathlib.Path(path).write_bytes(base64.b64decode(self.ask("Page.captureScreenshot", format="png")["data"]))
        if importlib.util.find_spec("PIL"):  # Debian's python3-pil
            from PIL import Image
            Image.open(path).convert("RGB").quantize(128).save(path, optimize=True)

    def end(self) -> None:
        self.socket.close()
        self.process.terminate()
        self.process.wait(20)
        shutil.rmtree(self.folder, ignore_errors=True)


class Board:
    """`ups board` on a free port, for a server."""

    def __init__(self, server_port: int, listen: int, *words: str, place: Optional[tuple[int, str]] = None) -> None:
        """Starts it. `place` has the port of a proxy, and the token, where the board prints the proxy's address and no token."""
        own = free_port()
        command = [sys.executable, CLIENT, "board", "--server-port", str(server_port), "--port", str(own), "--ae", "BOARD",
                   "--listen", str(listen), *words]
        self.process = subprocess.Popen(command, stdout=subprocess.PIPE, text=True)
        line = self.process.stdout.readline()
        self.top, self.port = f"http://127.0.0.1:{own}/", own
        found = re.fullmatch(r"the board is at (https?://127\.0\.0\.1:\d+/)(?:\?token=([\w-]+))?\n", line)
        if not found or found[1] != (f"https://127.0.0.1:{place[0]}/" if place else self.top) or bool(found[2]) == bool(place):
            sys.exit(f"the board printed {line!r}")
        self.token = place[1] if place else found[2]
        self.address = f"{self.top}?token={self.token}"

    def path(self, path: str, **words: str) -> str:
        """Returns the address of a request."""
        return f"{self.top}{path}?{urllib.parse.urlencode({'token': self.token, **words})}"

    def state(self, **words: str) -> dict[str, Any]:
        with urllib.request.urlopen(self.path("state", **words), timeout=30) as told:
            return json.load(told)

    def agrees(self, steps: int) -> bool:
        """Returns whether both tellings have that many steps and agree on each."""
        told = self.state()
        same = told["steps"] == told["told"] == steps and told["counts"] == told["toldCounts"]
        return same and not told["waiting"] and not told["trouble"]

    def end(self) -> int:
        self.process.terminate()
        return self.process.wait(20)


class Workstation(threading.Thread):
    """A workstation that takes its steps through their lives, and notes when the server answered each change."""

    def __init__(self, port: int, place: int, count: int, held: float = HELD) -> None:
        super().__init__(daemon=True)
        self.port, self.place, self.station, self.count, self.held = port, place, STATIONS[place], count, held
        self.answered: dict[str, float] = {}
        self.final: dict[str, str] = {}
        self.fault: Optional[str] = None

    def ask(self, request: tuple[str, dict[str, Any], Any], uid: str, state: str = "") -> None:
        status = self.wire.ask(*request)[-1][0].Status
        assert status == 0, f"{uid}, {state}: {status:04X}"
        if state:
            self.answered.setdefault(f"{uid} {state}", time.time())

    def create(self, number: int) -> str:
        uid = f"1.2.3.{self.place + 1}.{number + 1}"
        patient = (number * 3 + self.place) % len(PATIENTS)
        code = [{"CodeValue": self.station, "CodingSchemeDesignator": "99HOSP", "CodeMeaning": f"Room {self.station}"}]
        label = LABELS[(number + 2 * self.place) % len(LABELS)]
        self.ask(stock.create(uid, SpecificCharacterSet="ISO_IR 192", PatientName=PATIENTS[patient],
                              PatientID=f"P{1000 + patient}", PatientBirthDate=f"{1940 + 7 * patient}0{patient + 1}12", WorklistLabel=label[:2],
                              ProcedureStepLabel=label, ScheduledStationNameCodeSequence=code,
                              ScheduledProcedureStepStartDateTime=time.strftime("%Y%m%d%H%M%S"),
                              ScheduledProcedureStepPriority="HIGH" if number % 6 == 2 else "MEDIUM"), uid, "SCHEDULED")
        return uid

    def claim(self, uid: str) -> None:
        self.ask(stock.move(uid, "IN PROGRESS"), uid, "IN PROGRESS")
        progress = {"ProcedureStepProgressInformationSequence": [
            {"ProcedureStepProgress": "50", "ProcedureStepProgressDescription": "series 2 of 4"}]}
        self.ask(stock.change(uid, **stock.OWN, **self.performed(), **progress), uid)

    def performed(self, **more: str) -> dict[str, Any]:
        """Returns what the workstation tells of its work: where it is done, and when it began."""
        station = [{"CodeValue": self.station, "CodingSchemeDesignator": "99HOSP", "CodeMeaning": f"Room {self.station}"}]
        return {"UnifiedProcedureStepPerformedProcedureSequence": [
            {"PerformedStationNameCodeSequence": station, "PerformedProcedureStepStartDateTime": time.strftime("%Y%m%d%H%M%S"),
             **more}]}

    def finish(self, uid: str, number: int) -> None:
        state = "CANCELED" if number % 9 == 3 else "COMPLETED"
        ended = self.performed(PerformedProcedureStepEndDateTime=time.strftime("%Y%m%d%H%M%S"))
        self.ask(stock.change(uid, **stock.OWN, **(stock.GIVEN_UP if state == "CANCELED" else ended)), uid)
        self.ask(stock.move(uid, state), uid, state)
        self.final[uid] = state

    def batch(self, numbers: range) -> None:
        steps = {number: self.create(number) for number in numbers}
        time.sleep(self.held)
        for number, uid in list(steps.items()):
            if number % 13 == 5:
                self.ask(stock.cancel(PUSH, uid, ReasonForCancellation="patient has left"), uid, "CANCELED")
                self.final[steps.pop(number)] = "CANCELED"
        for uid in steps.values():
            self.claim(uid)
        time.sleep(self.held)
        for number, uid in steps.items():
            self.finish(uid, number)

    def run(self) -> None:
        try:
            self.wire = stock.open_association(self.port, [it.encode() for it in stock.CONTEXTS], stock.EXPLICIT)
            time.sleep(self.place * self.held * 2 / 3)
            for begin in range(0, self.count, BATCH):
                self.batch(range(begin, min(begin + BATCH, self.count)))
            self.wire.release()
        except (AssertionError, OSError, EOFError) as fault:
            self.fault = f"{self.station}: {fault!r}"


def lateness(stations: list[Workstation], noted: dict[str, float]) -> tuple[list[str], list[float]]:
    """Returns the states that the page did not show within a second, and how late each state that it showed was, sorted."""
    answered = {what: moment for each in stations for what, moment in each.answered.items()}
    late = {what: noted[what] - moment if what in noted else None for what, moment in answered.items()}
    missed = [f"{what} {'never' if seconds is None else f'after {seconds:.2f} s'}" for what, seconds in late.items()
              if seconds is None or seconds > LIMIT]
    return missed, sorted(max(0.0, seconds) for seconds in late.values() if seconds is not None)


def try_lives(board: Board, browser: Browser, port: int, steps: int, results: Results) -> list[Workstation]:
    """Tries whether the page shows the lives of steps, and returns the workstations."""
    share = [steps // 3 + (place < steps % 3) for place in range(3)]
    stations = [Workstation(port, place, count) for place, count in enumerate(share)]
    for each in stations:
        each.start()
    for each in stations:
        each.join(ALL)
    results.tell("the workstations", "; ".join(each.fault for each in stations if each.fault) or None)
    at_rest = holds(lambda: board.agrees(steps), 30)
    time.sleep(1)
    missed, seconds = lateness(stations, browser.run("window.noted") or {})
    median, most = (1e3 * seconds[len(seconds) // 2], 1e3 * seconds[-1]) if seconds else (0, 0)
    figures = f"{len(seconds)} states, {median:.0f} ms in the median, {most:.0f} ms at most"
    results.tell(f"the page shows each state within a second ({figures})", "; ".join(missed[:5]) or None)
    told = board.state()
    wanted = {state: sum(final == state for each in stations for final in each.final.values())
              for state in ("COMPLETED", "CANCELED")}
    results.tell("both tellings agree at rest", None if at_rest
                 else f"{told['waiting']} of {told['steps']} steps differ: {told['differing']}")
    results.tell("both have what the workstations did", None if told["counts"] == told["toldCounts"] == wanted
                 else f"{told['counts']}, not {wanted}")
    verdict = "document.getElementById('verdict').textContent"
    shown = holds(lambda: browser.run(verdict) == f"Worklist and reports agree on {steps} steps", 5)
    results.tell("the page says so", None if shown else f"it says {browser.run(verdict)!r}")
    return stations


def try_step(browser: Browser, uid: str, results: Results) -> None:
    """Tries what the page shows of a completed step that is chosen by a click."""
    browser.run(f"document.querySelector('[data-uid=\"{uid}\"]').click()")
    holds(lambda: browser.run("document.querySelectorAll('#life li').length"), 5)
    life = browser.run("[...document.querySelectorAll('#life li span:not(.soft)')].map(each => each.lastChild.textContent)")
    wanted = ["SCHEDULED, READY", "IN PROGRESS, READY", "50 %, series 2 of 4", "COMPLETED, READY"]
    told = [each for each in wanted if each in life]
    in_order = told == [each for each in life if each in wanted] and life[-1:] == wanted[-1:]
    results.tell("a step has its reports in their order", None if in_order else str(life))
    text = browser.run("document.getElementById('detail').innerText")
    lacks = [each for each in (uid, "Performed Station Name Code Sequence", "CT1", "held by CT1", "(0074,1204)")
             if each not in text]
    results.tell("a step has its attributes and its holder", f"it lacks {lacks}: {text[:400]}" if lacks else None)
    browser.run("document.getElementById('close').click()")


def try_day(board: Board, stations: list[Workstation], results: Results) -> None:
    """Tries the counts of the day, and the median wait."""
    final = [state for each in stations for state in each.final.values()]
    wanted, told = {state: final.count(state) for state in ("COMPLETED", "CANCELED")}, board.state()
    results.tell("the counts of the day", None if told["day"] == wanted else f"{told['day']}, and not {wanted}")
    results.tell("the median wait", None if told["wait"] is not None and HELD - 1.5 <= told["wait"] <= 60 else str(told["wait"]))


LONG_NAME = "VON DER SCHULENBURG-WOLFENBÜTTEL^MAXIMILIAN ALEXANDER FERDINAND"
ORDERED = {"1.2.7.1": ("LOW", "2020", "CT9"), "1.2.7.2": ("HIGH", "20990101", "CT8"), "1.2.7.3": ("HIGH", "20210101", "CT9"),
           "1.2.7.4": ("MEDIUM", "2019", "CT8")}  # a step, its priority, its start, its station


def try_order(board: Board, browser: Browser, port: int, results: Results) -> None:
    """Tries the order of SCHEDULED, what a card shows of a patient, and the parts of a worklist."""
    wire = stock.open_association(port, [it.encode() for it in stock.CONTEXTS], stock.EXPLICIT)
    for uid, (priority, start, station) in ORDERED.items():
        code = [{"CodeValue": station, "CodingSchemeDesignator": "99HOSP", "CodeMeaning": station}]
        wire.ask(*stock.create(uid, SpecificCharacterSet="ISO_IR 192", ScheduledProcedureStepPriority=priority, PatientName=LONG_NAME,
                               PatientID=f"ID-{uid}-0123456789-0123456789-0123456789", PatientBirthDate="19610504", WorklistLabel="ORDER",
                               ScheduledProcedureStepStartDateTime=start, ScheduledStationNameCodeSequence=code))
    cards = "[...document.querySelectorAll('[data-state=SCHEDULED] .card')].map(each => each.dataset.uid)"
    drawn = f"({cards}).length == 4"
    browser.go(board.path("", worklist="ORDER"), drawn, 20)
    wanted = ["1.2.7.3", "1.2.7.2", "1.2.7.4", "1.2.7.1"]
    results.tell("the urgent and the oldest come first", None if browser.run(cards) == wanted else str(browser.run(cards)))
    who = "(() => { const it = document.querySelector('.card .who'); return [it.textContent, it.scrollWidth <= it.clientWidth]; })()"
    told = ["ID-1.2.7.3-0123456789-0123456789-0123456789 born 1961-05-04", True]
    results.tell("a card has the whole patient ID, and the birth date", None if browser.run(who) == told else str(browser.run(who)))
    shown = browser.run("document.getElementById('worklist').value")
    results.tell("the page says which worklist it shows", None if shown == "ORDER" else str(shown))
    choose = "{ const it = document.getElementById('station'); it.value = 'CT8'; it.dispatchEvent(new Event('change')); }"
    browser.run(choose)
    found = holds(lambda: browser.run(cards) == ["1.2.7.2", "1.2.7.4"], 5) and "station=CT8" in browser.run("location.search")
    results.tell("and of a station, also in its address", None if found else f"{browser.run(cards)}, {browser.run('location.search')}")
    browser.run("document.querySelector('.card').focus()")
    browser.key("Enter")
    found = holds(lambda: "1.2.7.2" in (browser.run("document.getElementById('detail').innerText") or ""), 5)
    browser.key("Escape")
    results.tell("a step is chosen by the keyboard, and left", None if found and browser.run("document.getElementById('detail').hidden")
                 else "it isn't")
    for uid in ORDERED:
        wire.ask(*stock.cancel(stock.PUSH, uid))
    wire.release()
    browser.go(board.address, "document.querySelectorAll('.card').length > 4", 20)


def try_reader(browser: Browser, results: Results) -> None:
    """Tries what a screen reader is told: a name for each of these roles."""
    named = ("button", "searchbox", "combobox", "image", "img", "list")
    told = [(it["role"]["value"], it.get("name", {}).get("value", "").strip()) for it in browser.ask("Accessibility.getFullAXTree")["nodes"]
            if not it.get("ignored")]
    nameless = [role for role, name in told if role in named and not name]
    lacks = [role for role in ("button", "searchbox", "combobox", "list", "status", "search") if role not in [it for it, _ in told]]
    results.tell("a screen reader is told what each control is", f"without a name {nameless}, not there {lacks}" if nameless or lacks else None)


def try_search(browser: Browser, results: Results) -> None:
    type_in = "const it = document.getElementById('find'); it.value = '{}'; it.dispatchEvent(new Event('input')); 0"
    patients = "[...new Set([...document.querySelectorAll('.card .patient')].map(each => each.textContent))]"
    browser.run(f"{{ {type_in.format('müll')} }}")
    found = holds(lambda: browser.run(patients) == ["MÜLLER, JÜRGEN"], 5)
    results.tell("a search leaves one patient's steps", None if found else f"it leaves {browser.run(patients)}")
    browser.run(f"{{ {type_in.format('')} }}")
    results.tell("and none all of them", None if holds(lambda: len(browser.run(patients)) == len(PATIENTS), 5)
                 else str(browser.run(patients)))


def try_announcement(board: Board, browser: Browser, listen: int, steps: int, results: Results) -> None:
    """Tries a change of the server's status, which makes the board subscribe again."""
    subprocess.run([sys.executable, CLIENT, "announce", f"BOARD=127.0.0.1:{listen}"], stdout=subprocess.DEVNULL, timeout=60)
    found = holds(lambda: ": RESTARTED COLD START" in browser.run("document.getElementById('asked').textContent"), 10)
    results.tell("the page tells a change of the server's status", None if found else "it doesn't")
    results.tell("and both tellings agree behind it", None if holds(lambda: board.agrees(steps), 30)
                 else json.dumps(board.state())[:300])


def code_of(address: str, **headers: str) -> int:
    """Returns the status of the answer to a request."""
    try:
        with urllib.request.urlopen(urllib.request.Request(address, headers=headers)) as told:
            return told.status
    except urllib.error.HTTPError as refused:
        return refused.code


def try_elsewhere(board: Board, results: Results) -> None:
    codes = [code_of(board.path("state"), Host="elsewhere.example"), code_of(board.path("state"), Origin="https://elsewhere.example"),
             code_of(board.path("state"), Origin=board.top.rstrip("/"))]
    results.tell("another host name, or origin, gets nothing", None if codes == [403, 403, 200] else f"{codes}")
    with urllib.request.urlopen(board.path(""), timeout=30) as told:
        policy = told.headers["Content-Security-Policy"]
    lacks = [it for it in ("default-src 'none'", "frame-ancestors 'none'", "base-uri 'none'", "form-action 'none'", "script-src 'self'")
             if it not in policy]
    results.tell("no page may have it in a frame, and it takes nothing from elsewhere", f"the policy lacks {lacks}" if lacks else None)
    codes = {path: [code_of(board.path(path)), code_of(board.top + path), code_of(board.path(path, token=board.token[:-1] + "~")),
                    code_of(board.path(path, token=""))] for path in ("", "state", "step", "none")}
    wanted = {path: [404 if path == "none" else 200, 403, 403, 403] for path in codes}
    results.tell("no request gets anything without the token", None if codes == wanted else str(codes))
    listeners = subprocess.run(["ss", "-Hltn", f"sport = :{board.port}"], capture_output=True, text=True).stdout.split()
    results.tell("the page is on 127.0.0.1 alone", None if f"127.0.0.1:{board.port}" in listeners and len(listeners) == 5
                 else str(listeners))


def proxied(folder: str, board_port: int, port: int) -> str:
    """Returns the configuration of docs/use/operating.md for nginx, with the files of a folder and these ports."""
    server = re.search(r"(?ms)^```nginx\n(.*?)^```$", source("docs/use/operating.md"))
    assert server, "docs/use/operating.md has no configuration of nginx"
    text = server[1].replace("/etc/nginx/", f"{folder}/").replace("listen 443 ssl", f"listen 127.0.0.1:{port} ssl")
    text = text.replace("127.0.0.1:8080", f"127.0.0.1:{board_port}")
    places = "".join(f"{it}_temp_path {folder}/{it};\n" for it in ("client_body", "proxy", "fastcgi", "uwsgi", "scgi"))
    return (f"user root;\npid {folder}/pid;\nerror_log {folder}/errors;\ndaemon off;\nevents {{}}\n"
            f"http {{\naccess_log off;\n{places}{text}}}\n")


@contextlib.contextmanager
def proxy(folder: str, board: Board, port: int) -> Iterator[None]:
    """Runs nginx in front of a board, with a login."""
    subprocess.run(["openssl", "req", "-x509", "-newkey", "rsa:2048", "-nodes", "-days", "1", "-subj", "/CN=127.0.0.1", "-keyout",
                    f"{folder}/board.key", "-out", f"{folder}/board.crt"], check=True, capture_output=True)
    word = subprocess.run(["openssl", "passwd", "-apr1", "secret"], check=True, capture_output=True, text=True).stdout
    for name, text in (("board.users", f"reader:{word}"), ("board.token", f'proxy_set_header Authorization "Bearer {board.token}";\n'),
                       ("nginx.conf", proxied(folder, board.port, port))):
        pathlib.Path(os.path.join(folder, name)).write_text(text, encoding="utf-8")
    nginx = shutil.which("nginx") or "/usr/sbin/nginx"
    with subprocess.Popen([nginx, "-p", folder, "-c", f"{folder}/nginx.conf"], stderr=subprocess.PIPE, text=True) as process:
        try:
            if not holds(lambda: listens(port) or process.poll() is not None, 10) or process.poll() is not None:
                sys.exit(f"board.py: nginx does not listen: {process.stderr.read() if process.stderr else ''}")
            yield
        finally:
            process.terminate()


def try_proxy(port: int, listen: int, results: Results) -> None:
    """Tries a board behind nginx."""
    entry = free_port()
    origin = f"https://127.0.0.1:{entry}"
    with tempfile.TemporaryDirectory() as folder:
        path, token = os.path.join(folder, "token"), "a-token-of-a-trial-in-a-file"
        pathlib.Path(path).write_text(token + "\n", encoding="utf-8")
        board = Board(port, listen, "--origin", origin, "--token-file", path, place=(entry, token))
        try:
            with proxy(folder, board, entry):
                ask = urllib.request.build_opener(urllib.request.HTTPSHandler(context=ssl._create_unverified_context())).open
                login = {"Authorization": "Basic " + base64.b64encode(b"reader:secret").decode()}
                codes = []
                for address, headers in ((f"{origin}/", {}), (f"{origin}/?token={token}", {}), (f"{origin}/", login), (f"{origin}/board.js", login),
                                         (f"{origin}/state", login), (f"{origin}/state", {**login, "Host": "elsewhere.example"})):
                    try:
                        with ask(urllib.request.Request(address, headers=headers), timeout=30) as told:
                            codes.append(told.status)
                    except urllib.error.HTTPError as refused:
                        codes.append(refused.code)
                results.tell("behind nginx who logs in sees the page, and nobody else", None if codes == [401, 401, 200, 200, 200, 403] else str(codes))
        finally:
            results.tell("a board behind a proxy ends at SIGTERM", None if (ended := board.end()) == 0 else f"it ended with {ended}")


def try_no_report(port: int, listen: int, browser: Browser, results: Results) -> None:
    """Tries a board to which no report comes, as --allow names another address than the server's."""
    board = Board(port, listen, "--allow", "192.0.2.1")
    color = "getComputedStyle(document.getElementById('verdict')).backgroundColor"
    browser.go(board.address, "document.readyState == 'complete'", 10)
    found = holds(lambda: browser.run(color) == "rgb(179, 38, 30)", 20)
    told = browser.run("document.getElementById('verdict').textContent")
    results.tell("a board without reports says so, in red", None if found and "Worklist and reports differ on" in told
                 else f"{browser.run(color)}, {told!r}")
    browser.go("about:blank", "document.readyState == 'complete'", 10)
    board.end()


def try_files(results: Results) -> None:
    """Tries the files of the page with what Debian has to check them."""
    import html5lib
    page, style = (os.path.join(HERE, "client/ups/page", it) for it in ("board.html", "board.css"))
    ran = subprocess.run(["tidy", "-e", "-q", page], capture_output=True, text=True)
    results.tell("tidy, of the page", ran.stderr.strip() or None)
    reader = html5lib.HTMLParser()
    with open(page, encoding="utf-8") as file:
        reader.parse(file.read())
    results.tell("html5lib, of the page", "; ".join(f"line {at[0]}: {name}" for at, name, _ in reader.errors) or None)
    words = [NODE, os.path.join(HERE, "trials/lib/css_faults.js"), style]
    ran = subprocess.run(words, capture_output=True, text=True, env={**os.environ, "NODE_PATH": "/usr/share/nodejs"})
    results.tell("css-tree, of its style", (ran.stdout + ran.stderr).strip() or None)


def try_waiting(board: Board, browser: Browser, port: int, results: Results) -> None:
    """Tries the steps that wait longest, and the age of a claim."""
    wire = stock.open_association(port, [it.encode() for it in stock.CONTEXTS], stock.EXPLICIT)
    moments = [time.strftime("%Y%m%d%H%M%S", time.localtime(time.time() - seconds))
               for seconds in (7500, 90_000, 600, 30, 90, 3700)]
    uids = [f"1.2.6.{number}" for number in range(len(moments))]
    begun = {"UnifiedProcedureStepPerformedProcedureSequence": [{"PerformedProcedureStepStartDateTime": moments[0]}]}
    requests = [stock.create(uid, ScheduledProcedureStepStartDateTime=moment, ProcedureStepLabel=f"wait {number}")
                for number, (uid, moment) in enumerate(zip(uids, moments))]
    requests += [stock.create("1.2.6.8", ScheduledProcedureStepStartDateTime="2020", InputReadinessState="INCOMPLETE"),
                 stock.move(uids[0], "IN PROGRESS"), stock.change(uids[0], **stock.OWN, **begun)]
    statuses = [wire.ask(*request)[-1][0].Status for request in requests]
    plain = "textContent.replaceAll('\\u00a0', ' ')"  # a duration has no spaces at which a line breaks
    texts = f"[...document.querySelectorAll('#longest button')].map(each => each.{plain})"
    wanted = ["25 h: wait 1", "1 h 1 min: wait 5", "10 min: wait 2", "1 min: wait 4"]
    found = not any(statuses) and holds(lambda: [it.partition(",")[0] for it in browser.run(texts)][:4] == wanted, 10)
    results.tell("the page names the steps that wait longest", None if found else f"{statuses}, {browser.run(texts)}")
    claim = f"document.querySelector('[data-uid=\"{uids[0]}\"] .where').{plain}"
    found = holds(lambda: (browser.run(claim) or "").endswith(", 2 h 5 min"), 10)
    results.tell("and the age of a claim", None if found else f"it says {browser.run(claim)!r}")
    old = f"[...document.querySelectorAll('#old button')].map(each => each.{plain})"
    found = holds(lambda: (browser.run(old) or [""])[0].startswith("2 h 5 min: wait 0"), 10) and len(browser.run(old)) == 1
    results.tell("and a claim that is old", None if found else str(browser.run(old)))
    browser.run("document.querySelector('#longest button').click()")
    found = holds(lambda: uids[1] in browser.run("document.getElementById('detail').innerText"), 5)
    results.tell("and one of them at a click", None if found else "it doesn't")
    browser.run("document.getElementById('close').click()")
    for request in ([stock.cancel(stock.PUSH, uid) for uid in [*uids[1:], "1.2.6.8"]]
                    + [stock.change(uids[0], **stock.OWN, **stock.GIVEN_UP), stock.move(uids[0], "CANCELED")]):
        wire.ask(*request)
    wire.release()
    hidden = holds(lambda: browser.run("document.getElementById('longest').hidden"), 10)
    results.tell("and none when none waits", None if hidden else str(browser.run(texts)))


@contextlib.contextmanager
def tried(program: list[str], port: int, listen: int) -> Iterator[subprocess.Popen]:
    """Runs a server on this port."""
    words = [*program, "serve", "--ae", "UPSD", "--port", str(port), "--keep", "86400", f"BOARD=127.0.0.1:{listen}"]
    process = subprocess.Popen(words, stdout=subprocess.DEVNULL, stderr=subprocess.DEVNULL, start_new_session=True)
    try:
        holds(lambda: listens(port), ALL)
        yield process
    finally:
        process.terminate()
        process.wait(20)


def try_restart(program: list[str], board: Board, browser: Browser, port: int, listen: int, results: Results) -> None:
    """Tries a new server in place of the one that the board knew."""
    says = "document.getElementById('trouble').hidden ? '' : document.getElementById('trouble').textContent"
    found = holds(lambda: "does not answer" in (browser.run(says) or ""), 10)
    results.tell("the page says that the server is gone", None if found else f"it says {browser.run(says)!r}")
    with tried(program, port, listen):
        wire = stock.open_association(port, [it.encode() for it in stock.CONTEXTS], stock.EXPLICIT)
        statuses = [wire.ask(*stock.create(f"1.2.4.{number}"))[-1][0].Status for number in range(5)]
        wire.release()
        found = not any(statuses) and holds(lambda: board.agrees(5), 30)
        results.tell("and both tellings agree behind a restart", None if found else json.dumps(board.state())[:300])
        found = holds(lambda: browser.run(f"document.querySelectorAll('.card').length == 5 && ({says}) == ''"), 10)
        results.tell("which the page shows", None if found else f"it says {browser.run(says)!r}")


def load(board: Board, browser: Browser, when: str, drawn: str, results: Results) -> None:
    """Fails if the page takes too long to be drawn."""
    told = board.state()
    took = browser.go(board.address, drawn, 30)
    what = f"{told['steps']:,} steps, {when} ({told['told']:,} told), the page is drawn within {LOADS:.0f} s"
    results.tell(f"{what} ({took or 0:.2f} s; all are asked for in {told['took']:.2f} s)",
                 None if took is not None and took <= LOADS else "it took longer")


def fill(port: int, many: int) -> None:
    """Creates that many steps."""
    peer = Peer(port)
    for number in range(many):
        assert peer.ask(dicom.create(PUSH_ON, 1, b"1.2.0.%d" % number, a_step(b"P%d" % number))) == 0
    peer.release()


def try_many(program: list[str], browser: Browser, many: int, results: Results) -> None:
    """Tries the page with a server that has many steps."""
    listen = free_port()
    with Server(program, "--keep", "86400", f"BOARD=127.0.0.1:{listen}") as server:
        fill(server.port, many)
        board = Board(server.port, listen)
        drawn = "document.querySelectorAll('.card').length == 200 && document.body.innerText.includes('the first 200 of')"
        try:
            holds(lambda: board.state()["steps"] == many, 60)
            holds(lambda: board.state()["told"] > 0, 60)
            load(board, browser, "while reports are coming", drawn, results)
            begun = time.monotonic()
            found = holds(lambda: board.agrees(many), 300)
            results.tell(f"both tellings agree on each, {time.monotonic() - begun:.1f} s later", None if found
                         else json.dumps(board.state())[:200])
            load(board, browser, "at rest", drawn, results)
        finally:
            browser.go("about:blank", "document.readyState == 'complete'", 10)
            results.tell("the board ends at SIGTERM", None if (ended := board.end()) == 0 else f"it ended with {ended}")


# of a picture: a state, and how many minutes before it each of its steps was to begin
SCENE = {"SCHEDULED": (96, 41, 28, 17, 12, 5, -10, -25, -40, -55), "IN PROGRESS": (151, 74, 55, 43, 38, 31), "CANCELED": (170, 120, 66),
         "COMPLETED": (240, 225, 214, 190, 181, 166, 158, 149, 133, 127, 112, 104, 92, 87)}


def scene(port: int) -> int:
    """Makes the steps of a picture, and returns how many there are."""
    wire = stock.open_association(port, [it.encode() for it in stock.CONTEXTS], stock.EXPLICIT)
    before = lambda minutes: time.strftime("%Y%m%d%H%M%S%z", time.localtime(time.time() - 60 * minutes))
    places = [(state, minutes) for state, starts in SCENE.items() for minutes in starts]
    for number, (state, minutes) in enumerate(places):
        uid, patient, station, label = f"1.2.8.{number + 1}", number * 3 % len(PATIENTS), STATIONS[number % 3], LABELS[number * 5 % len(LABELS)]
        code = [{"CodeValue": station, "CodingSchemeDesignator": "99HOSP", "CodeMeaning": f"Room {station}"}]
        performed = {"PerformedStationNameCodeSequence": code, "PerformedProcedureStepStartDateTime": before(minutes - 9 - number % 5)}
        requests = [stock.create(uid, SpecificCharacterSet="ISO_IR 192", PatientName=PATIENTS[patient], PatientID=f"P{1000 + patient}",
                                 PatientBirthDate=f"{1940 + 7 * patient}0{patient + 1}12", ProcedureStepLabel=label, WorklistLabel=label[:2],
                                 ScheduledStationNameCodeSequence=code, ScheduledProcedureStepStartDateTime=before(minutes),
                                 ScheduledProcedureStepPriority="HIGH" if number % 5 == 3 else "MEDIUM")]
        if state != "SCHEDULED":
            requests += [stock.move(uid, "IN PROGRESS"), stock.change(uid, **stock.OWN, UnifiedProcedureStepPerformedProcedureSequence=[performed])]
        if state == "IN PROGRESS":
            requests.append(stock.change(uid, **stock.OWN, ProcedureStepProgressInformationSequence=[
                {"ProcedureStepProgress": "50", "ProcedureStepProgressDescription": "series 2 of 4"}]))
        if state == "COMPLETED":
            ended = {**performed, "PerformedProcedureStepEndDateTime": before(max(1, minutes - 40))}
            requests += [stock.change(uid, **stock.OWN, UnifiedProcedureStepPerformedProcedureSequence=[ended]), stock.move(uid, state)]
        if state == "CANCELED":
            requests += [stock.change(uid, **stock.OWN, **stock.GIVEN_UP), stock.move(uid, state)]
        statuses = [wire.ask(*request)[-1][0].Status for request in requests]
        assert not any(statuses), statuses
    wire.release()
    return len(places)


def take_picture(program: list[str], browser: Browser, path: str) -> Optional[str]:
    """Takes pictures of the page, with a held step chosen, and in dark colors without one."""
    port, listen = free_port(), free_port()
    with tried(program, port, listen):
        board = Board(port, listen)
        browser.go(board.address, "document.readyState == 'complete'", 10)
        count = scene(port)
        fault = None if holds(lambda: board.agrees(count), 120) else "the tellings do not agree"
        holds(lambda: browser.run("!!document.querySelector('.verdict.agree')"), 20)
        browser.run("document.querySelector('[data-state=\"IN PROGRESS\"] li:nth-child(2) .card').click()")
        holds(lambda: browser.run("document.querySelectorAll('#life li').length > 2"), 20)
        browser.picture(path)
        browser.run("document.getElementById('close').click()")
        browser.scheme("dark")
        browser.picture(re.sub(r"\.png$", "-dark.png", path))
        browser.go("about:blank", "document.readyState == 'complete'", 10)
        board.end()
    return fault or (None if os.path.getsize(path) < 150_000 else f"{path} has {os.path.getsize(path):,} bytes")


def try_all(asked: argparse.Namespace, browser: Browser, results: Results) -> None:
    port, listen = free_port(), free_port()
    with tried(asked.program, port, listen):
        board = Board(port, listen)
        browser.go(board.address, "document.readyState == 'complete'", 10)
        stations = try_lives(board, browser, port, asked.steps, results)
        try_step(browser, next(uid for uid, state in stations[0].final.items() if state == "COMPLETED"), results)
        try_day(board, stations, results)
        try_reader(browser, results)
        try_search(browser, results)
        try_elsewhere(board, results)
        try_waiting(board, browser, port, results)
        try_order(board, browser, port, results)
        try_announcement(board, browser, listen, asked.steps + WAITING + len(ORDERED), results)
        browser.go("about:blank", "document.readyState == 'complete'", 10)
        board.end()
        try_proxy(port, listen, results)
        try_no_report(port, listen, browser, results)
        board = Board(port, listen)
        browser.go(board.address, "document.readyState == 'complete'", 10)
    try_restart(asked.program, board, browser, port, listen, results)
    browser.go("about:blank", "document.readyState == 'complete'", 10)  # before the board ends, which the page would report as an error
    board.end()
    try_files(results)
    if asked.many:
        try_many(asked.program, browser, asked.many, results)
    browser.run("0")
    results.tell("the console", "; ".join(browser.errors) or None)


def main() -> None:
    parser = described(__doc__)
    parser.add_argument("--program", nargs="+", default=[os.path.join(HERE, "crates/upsd/out/upsd")],
                        help="the program, and words before those of `serve` (crates/upsd/out/upsd, which `rt run` builds)")
    parser.add_argument("--steps", type=int, default=200, help="steps that live (200)")
    parser.add_argument("--many", type=int, default=10_000, help="steps of a large worklist (10,000; 0 leaves it out)")
    parser.add_argument("--picture", metavar="FILE", help="takes a picture of the page and one in dark colors, and no trial")
    asked = parser.parse_args()
    install({"chromium": "chromium", "/usr/sbin/nginx": "nginx-light", "openssl": "openssl", "tidy": "tidy", NODE: "nodejs"})
    if not os.path.exists(CSS_TREE):
        subprocess.run(["apt-get", "install", "-y", "node-css-tree"], check=True, stdout=subprocess.DEVNULL)
    for module, package in (("websocket", "python3-websocket"), ("html5lib", "python3-html5lib")):
        if not importlib.util.find_spec(module):
            subprocess.run(["apt-get", "install", "-y", package], check=True, stdout=subprocess.DEVNULL)
    signal.signal(signal.SIGALRM, lambda *_: sys.exit(f"board.py: not done in {ALL} seconds"))
    signal.alarm(ALL)
    results, browser = Results(), Browser()
    try:
        if asked.picture:
            results.tell("a picture", take_picture(asked.program, browser, asked.picture))
        else:
            try_all(asked, browser, results)
    finally:
        browser.end()
    results.end()


if __name__ == "__main__":
    main()
