#!/usr/bin/env python3
"""Tries the recipes of examples with Debian's Orthanc, DCMTK and python3-hl7: studies, orders and worklists become steps.

    trials/recipes.py [PROGRAM [WORD..]]      (crates/upsd/out/upsd, which `rt run` builds)

It installs what is missing (`apt-get install -y orthanc orthanc-python dcmtk python3-hl7 python3-pydicom`, which needs root), starts a
server and Orthanc on free ports of this machine, and ends by itself. It prints a line for each trial, and then `N passed, M failed`; the
exit status is 1 if any failed.

    a study      is sent to Orthanc, with two series and a name that isn't ASCII; once it is stable, examples/orthanc_steps.py has
                 pushed a step with the patient, the study, the instances of each series, and the title of Orthanc
    a performer  (`ups work`, examples/fetch_study.py) claims the step and fetches what it names; the step is COMPLETED, with what
                 its final state needs
    one more     instance makes a second step; the performer is told of another place, and cancels it
    no manager   while the server is away a study is stable: Orthanc's log names it, and once the server is there it is one step
    orders       HL7 messages of both types come to examples/hl7_steps.py: new orders are steps, with what the table says, also a second
                 time and in another character set; a change sets, a cancellation cancels; what is refused is told to the sender, who
                 hears AE while the server is away
    a worklist   of wlmscpfs (DCMTK) is asked for by examples/mwl_steps.py, twice: each entry of today is one step
    MPPS         of a modality (lib/modality.py, bytes by hand) comes to examples/mpps_steps.py: its step is claimed, and COMPLETED with
                 what was performed, or CANCELED with the reason; by the worklist's UID, by the study, by the Accession Number; several
                 at once; twice; of no step, and of another performer's; while the server is away, and over restarts of both
"""

from __future__ import annotations

import contextlib
import datetime
import importlib.util
import json
import os
import pathlib
import re
import signal
import socket
import subprocess
import sys
import tempfile
import warnings
from typing import Any, Iterator, Optional

TOP = os.path.dirname(os.path.dirname(os.path.abspath(__file__)))
sys.path[:0] = [os.path.join(TOP, it) for it in ("check/lib", "trials/lib")]
import dicom
from dicom import IMPLICIT, create, even, get, items
from machine import HERE, described, free_port, holds, install, listens
from modality import Modality, Scheduled, spelled
from peer import PULL_ON, PUSH_ON, Peer
from results import Results
from server import Server

ALL = 600  # seconds for all trials
CLIENT = [sys.executable, os.path.join(HERE, "client/bin/ups")]
STUDY, OTHER = "1.2.826.0.1.3680043.8.498.1", "1.2.826.0.1.3680043.8.498.2"
NAME = "MÜLLER^JÜRGEN"
SECONDARY_CAPTURE = "1.2.840.10008.5.1.4.1.1.7"
ORTHANC, PLUGIN = "/usr/sbin/Orthanc", "/usr/share/orthanc/plugins/libOrthancPython.so"


def write_image(path: str, study: str, series: int, number: int) -> str:
    """Writes a small image as a DICOM file, and returns its SOP Instance UID."""
    from pydicom.dataset import Dataset, FileMetaDataset
    from pydicom.uid import ExplicitVRLittleEndian
    uid = f"{study}.{series}.{number}"
    meta, image = FileMetaDataset(), Dataset()
    meta.MediaStorageSOPClassUID, meta.MediaStorageSOPInstanceUID = SECONDARY_CAPTURE, uid
    meta.TransferSyntaxUID = ExplicitVRLittleEndian
    for keyword, value in {
            "SpecificCharacterSet": "ISO_IR 100", "SOPClassUID": SECONDARY_CAPTURE, "SOPInstanceUID": uid, "StudyInstanceUID": study,
            "SeriesInstanceUID": f"{study}.{series}", "PatientName": NAME, "PatientID": "P7", "AccessionNumber": "A7",
            "StudyDescription": "CT head", "Modality": "OT", "InstanceNumber": str(number), "Rows": 1, "Columns": 2,
            "BitsAllocated": 8, "BitsStored": 8, "HighBit": 7, "PixelRepresentation": 0, "SamplesPerPixel": 1,
            "PhotometricInterpretation": "MONOCHROME2", "PixelData": b"\1\2"}.items():
        setattr(image, keyword, value)
    image.file_meta, image.is_little_endian, image.is_implicit_VR = meta, True, False
    image["PixelData"].VR = "OB"
    image.save_as(path, write_like_original=False)
    return uid


class Orthanc:
    """Debian's Orthanc with the plugin of examples, for a server of steps."""

    def __init__(self, folder: str, server: int, listen: int) -> None:
        self.folder, self.port, self.log = folder, free_port(), os.path.join(folder, "log")
        words = {"Name": "trial", "DicomAet": "ORTHANC", "DicomPort": self.port, "HttpServerEnabled": False, "StableAge": 2,
                 "StorageDirectory": os.path.join(folder, "store"), "IndexDirectory": os.path.join(folder, "store"),
                 "DicomModalities": {"performer": ["PERFORM1", "127.0.0.1", listen]},
                 "Plugins": [PLUGIN],
                 "PythonScript": os.path.join(HERE, "examples/orthanc_steps.py")}
        path = os.path.join(folder, "orthanc.json")
        with open(path, "w", encoding="utf-8") as file:
            json.dump(words, file)
        variables = {"UPS_SERVER": f"127.0.0.1:{server}", "UPS_COMMAND": " ".join(CLIENT), "UPS_WORKLIST": "READS", "UPS_EVERY": "3",
                     "UPS_STATE": os.path.join(folder, "changes")}
        with open(self.log, "w", encoding="utf-8") as log:
            self.process = subprocess.Popen([ORTHANC, path], stdout=log, stderr=log, env={**os.environ, **variables})

    def has_logged(self, text: str) -> bool:
        return text in pathlib.Path(self.log).read_text(encoding="utf-8", errors="replace")

    def end(self) -> None:
        self.process.terminate()
        self.process.wait(60)


@contextlib.contextmanager
def running(server: int) -> Iterator[Orthanc]:
    with tempfile.TemporaryDirectory() as folder:
        orthanc = Orthanc(folder, server, free_port())
        try:
            if not holds(lambda: listens(orthanc.port), 60):
                sys.exit("Orthanc does not listen: " + open(orthanc.log, encoding="utf-8").read()[-2000:])
            yield orthanc
        finally:
            orthanc.end()


def send(orthanc: Orthanc, study: str, *numbers: tuple[int, int]) -> list[str]:
    """Sends images to Orthanc, each named by its series and its number, and returns their UIDs."""
    with tempfile.TemporaryDirectory() as folder:
        paths = [os.path.join(folder, f"{series}.{number}.dcm") for series, number in numbers]
        uids = [write_image(path, study, *each) for path, each in zip(paths, numbers)]
        subprocess.run(["storescu", "-aec", "ORTHANC", "127.0.0.1", str(orthanc.port), *paths], check=True, timeout=60)
    return uids


def ups(port: int, *words: str) -> subprocess.CompletedProcess[str]:
    return subprocess.run([*CLIENT, *words[:1], "--port", str(port), *words[1:]], capture_output=True, encoding="utf-8", timeout=120,
                          check=False)


def steps(port: int, *keys: str) -> list[dict[str, Any]]:
    return json.loads(ups(port, "export", *keys).stdout)


def first(found: dict[str, Any], *tags: str) -> Any:
    """Returns the first value at a path of tags, or None."""
    for tag in tags:
        value = (found or {}).get(tag, {}).get("Value") or [None]
        found = value[0]
    return found


def named(step: dict[str, Any]) -> set[str]:
    """Returns the instances that Input Information Sequence names."""
    return {first(each, "00081155") for item in step["00404021"]["Value"] for each in item["00081199"]["Value"]}


def fault_of_step(step: dict[str, Any], uids: set[str]) -> Optional[str]:
    told = {"the instances": named(step), "the series": {first(it, "0020000E") for it in step["00404021"]["Value"]},
            "the study": {first(it, "0020000D") for it in step["00404021"]["Value"]},
            "the title": {first(it, "0040E021", "00080054") for it in step["00404021"]["Value"]},
            "the patient": first(step, "00100010"), "the label": first(step, "00741204"), "the worklist": first(step, "00741202"),
            "the request": (first(step, "0040A370", "0020000D"), first(step, "0040A370", "00080050"))}
    wanted = {"the instances": uids, "the series": {f"{STUDY}.1", f"{STUDY}.2"}, "the study": {STUDY}, "the title": {"ORTHANC"},
              "the patient": {"Alphabetic": NAME}, "the label": "CT head", "the worklist": "READS", "the request": (STUDY, "A7")}
    return next((f"{what} is {told[what]}, and not {it}" for what, it in wanted.items() if told[what] != it), None)


def try_study(results: Results, port: int, orthanc: Orthanc) -> set[str]:
    uids = set(send(orthanc, STUDY, (1, 1), (1, 2), (2, 1)))
    found = holds(lambda: len(steps(port, "--worklist", "READS")) == 1, 60)
    results.tell("a stable study is a step", None if found else "there is none")
    results.tell("which says what to fetch and where", fault_of_step(steps(port)[0], uids) if found else "there is none")
    return uids


def perform(port: int, folder: str, place: str) -> subprocess.CompletedProcess[str]:
    return ups(port, "work", "--ae", "PERFORM1", "--worklist", "READS", "--as", "WS1", "--",
               sys.executable, os.path.join(HERE, "examples/fetch_study.py"), "{}", folder, place)


def files_in(folder: str) -> set[str]:
    return {name.partition(".")[2] for _, _, names in os.walk(folder) for name in names}


def try_performer(results: Results, port: int, orthanc: Orthanc, uids: set[str]) -> None:
    with tempfile.TemporaryDirectory() as folder:
        ran = perform(port, folder, f"ORTHANC=127.0.0.1:{orthanc.port}")
        results.tell("a performer fetches it", None if ran.returncode == 0 else ran.stdout + ran.stderr)
        results.tell("with each instance", None if files_in(folder) == uids else f"{files_in(folder)}, and not {uids}")
    done = steps(port, "--state", "COMPLETED")
    performed = first(done[0], "00741216") if len(done) == 1 else {}
    lacks = [tag for tag in ("00404019", "00404028", "00404033", "00404050", "00404051") if tag not in (performed or {})]
    results.tell("the step is completed, with what that needs", f"it lacks {lacks}: {done}" if lacks else None)
    results.tell("by this station", None if first(performed, "00404028", "00080100") == "WS1" else str(performed))
    ran = perform(port, folder, "ORTHANC=127.0.0.1:1")
    results.tell("then nothing is left", None if ran.returncode == 3 else f"{ran.returncode}: {ran.stdout}{ran.stderr}")


def try_one_more(results: Results, port: int, orthanc: Orthanc) -> None:
    uid = send(orthanc, STUDY, (2, 2))[0]
    found = holds(lambda: len(steps(port, "--state", "SCHEDULED")) == 1, 60)
    step = steps(port, "--state", "SCHEDULED")[0] if found else {}
    results.tell("one more instance makes a second step", None if found and uid in named(step) else str(step)[:300])
    with tempfile.TemporaryDirectory() as folder:
        ran = perform(port, folder, "ORTHANC=127.0.0.1:1")
    canceled = steps(port, "--state", "CANCELED")
    reason = first(canceled[0], "00741002", "00741238") if canceled else None
    results.tell("which is canceled if it can't be fetched",
                 None if ran.returncode == 1 and " ended with 1" in (reason or "") else f"{ran.returncode}, {reason}: {ran.stderr}")


def try_away(results: Results, program: list[str], server: Server, orthanc: Orthanc) -> None:
    """Tries a study that is stable while the server is away, and comes when it is back."""
    server.stop()
    send(orthanc, OTHER, (1, 1))
    found = holds(lambda: orthanc.has_logged(f"no step for the study {OTHER} yet: "), 60)
    results.tell("a study that gets no step is in Orthanc's log", None if found else "it isn't")
    with Server(program, "--keep", "3600", port=server.port):
        found = holds(lambda: len(steps(server.port)) == 1, 60)
        results.tell("once the server is back it is a step", None if found else str(steps(server.port))[:300])
        pathlib.Path(os.path.join(orthanc.folder, "changes")).write_text("0\n", encoding="ascii")
        holds(lambda: len(steps(server.port)) == 2, 60)
        named_so = sorted(first(it, "0040A370", "0020000D") for it in steps(server.port))
        results.tell("a walk from the first change makes each study one step", None if named_so == [STUDY, OTHER] else str(named_so))


# HL7 orders

SEGMENTS = {
    "MSH": "MSH|^~\\&|HIS|HOSP|UPS|HOSP|20261126101500||{kind}|{number}|P|2.5.1||||||{characters}",
    "PID": "PID|||P4711^^^HOSP||MÜLLER^JÜRGEN^KARL^JR^DR||19610504|M", "PV1": "PV1||I|||||||||||||||||V77",
    "ORC": "ORC|{control}|{order}^HIS|F{order}", "TQ1": "TQ1|||||||20261126101500+0100||S",
    "OBR": "OBR||{order}^HIS|F{order}|CTH^{label}^LOCAL||||||||||||||A{order}||||||CT", "IPC": "IPC|A{order}|R{order}|1.2.3.4.{order}|S1||||^CT|CT1"}


def message(kind: str, control: str, *orders: int, label: str = "CT head & neck", characters: str = "UNICODE UTF-8") -> bytes:
    """Returns an HL7 message with orders."""
    escaped = label.replace("&", "\\T\\")
    words = {"kind": kind, "number": "1", "characters": characters, "control": control, "label": escaped}
    lines = [SEGMENTS[it] for it in ("MSH", "PID", "PV1")]
    text = "\r".join(it.format(**words) for it in lines)
    for order in orders:
        text += "\r" + "\r".join(SEGMENTS[it].format(**words, order=order) for it in ("ORC", "TQ1", "OBR", "IPC"))
    return (text + "\r").encode("utf-8" if "UTF" in characters else "latin-1")


class Orders:
    """examples/hl7_steps.py for a server, and a sender of messages."""

    def __init__(self, server: int) -> None:
        self.port = free_port()
        variables = {"UPS_SERVER": f"127.0.0.1:{server}", "UPS_COMMAND": " ".join(CLIENT), "UPS_AE": "ORDERS"}
        words = [sys.executable, os.path.join(HERE, "examples/hl7_steps.py"), "--port", str(self.port)]
        self.process = subprocess.Popen(words, stdout=subprocess.DEVNULL, env={**os.environ, **variables})
        holds(lambda: listens(self.port), 60)

    def send(self, *messages: bytes) -> list[str]:
        """Sends messages over one connection, each after the answer to the last one; returns the codes, with what is told."""
        codes = []
        with socket.create_connection(("127.0.0.1", self.port), 120) as wire:
            for each in messages:
                wire.sendall(b"\x0b" + each + b"\x1c\r")
                found = b""
                while not found.endswith(b"\x1c\r"):
                    found += wire.recv(1 << 16) or b"\x1c\r"
                told = re.search(rb"\rMSA\|(\w\w)\|1(?:\|(.*?))?\r", found)
                codes.append("" if told is None else (told[1] + b" " + (told[2] or b"")).decode("utf8", "replace").strip())
        return codes

    def end(self) -> None:
        self.process.terminate()
        self.process.wait(20)


WANTED = {  # of a step of an order: a path of tags, and its value
    ("00100010",): {"Alphabetic": "MÜLLER^JÜRGEN^KARL^DR^JR"}, ("00100020",): "P4711", ("00100021",): "HOSP", ("00100030",): "19610504",
    ("00100040",): "M", ("00380010",): "V77", ("00404005",): "20261126101500+0100", ("00741200",): "HIGH", ("00741202",): "CT",
    ("00741204",): "CT head & neck", ("00404018", "00080100"): "CTH", ("00404018", "00080102"): "LOCAL", ("00404025", "00080100"): "CT1",
    ("00404025", "00080102"): "99LOCAL", ("0040A370", "00080050"): "A1", ("0040A370", "0020000D"): "1.2.3.4.1",
    ("0040A370", "00402016"): "1", ("0040A370", "00402017"): "F1", ("0040A370", "00401001"): "R1"}


def try_orders(results: Results, program: list[str]) -> None:
    with Server(program, "--keep", "3600") as server:
        orders = Orders(server.port)
        try:
            codes = orders.send(message("ORM^O01", "NW", 1, 2), message("OMI^O23^OMI_O23", "NW", 3),
                                message("ORM^O01", "NW", 4, characters="8859/1"))
            results.tell("new orders are taken", None if codes == ["AA"] * 3 else str(codes))
            found = {first(it, "0040A370", "00402016"): it for it in steps(server.port)}
            told = {path: first(found.get("1", {}), *path) for path in WANTED}
            wrong = {path: it for path, it in told.items() if it != WANTED[path]}
            results.tell("each is a step, with what the table says", f"{sorted(found)}, {wrong}" if wrong or len(found) != 4 else None)
            name = first(found.get("4", {}), "00100010")
            results.tell("also in another character set", None if name == WANTED["00100010",] else str(name))
            codes = orders.send(message("ORM^O01", "NW", 1, 2), message("ORM^O01", "XO", 2, label="CT neck"), message("ORM^O01", "CA", 1))
            states = {first(it, "0040A370", "00402016"): (first(it, "00741000"), first(it, "00741204")) for it in steps(server.port)}
            wanted = {"1": ("CANCELED", "CT head & neck"), "2": ("SCHEDULED", "CT neck"), **dict.fromkeys("34", ("SCHEDULED", "CT head & neck"))}
            results.tell("twice is once, a change sets, a cancellation cancels", None if codes == ["AA"] * 3 and states == wanted else f"{codes}, {states}")
            codes = orders.send(message("ORM^O01", "CA", 99), message("ORM^O01", "SC", 1), message("ADT^A01", "NW", 5), message("ORM^O01", "NW"))
            fits = [it.startswith(f"AR {why}") for it, why in zip(codes, ("C307", "the order control", "ADT", "a message without"))]
            results.tell("what can't be done is refused, with the reason", None if all(fits) else str(codes))
            server.stop()
            codes = orders.send(message("ORM^O01", "NW", 6))
            results.tell("without the server a sender is to send again", None if codes[0].startswith("AE") else str(codes))
        finally:
            orders.end()


# a modality worklist

ENTRY = """(0008,0005) CS [ISO_IR 100]
(0008,0050) SH [A{number}]
(0010,0010) PN [M\xfcLLER^J\xdcRGEN]
(0010,0020) LO [P{number}]
(0010,0030) DA [19610504]
(0010,0040) CS [M]
(0020,000d) UI [1.2.3.9.{number}]
(0032,1060) LO [CT head]
(0040,0100) SQ
(fffe,e000) -
(0008,0060) CS [CT]
(0040,0001) AE [CT1]
(0040,0002) DA [{day}]
(0040,0003) TM [101500]
(0040,0007) LO [CT head native]
(0040,0009) SH [S{number}]
(0040,0010) SH [Room 1]
(fffe,e00d) -
(fffe,e0dd) -
(0040,1001) SH [R{number}]
(0040,1003) SH [{priority}]
"""


@contextlib.contextmanager
def worklist(folder: str, days: list[str]) -> Iterator[int]:
    """Runs wlmscpfs with an entry for each day, and yields its port."""
    os.mkdir(os.path.join(folder, "MWL"))
    open(os.path.join(folder, "MWL", "lockfile"), "w", encoding="ascii").close()
    for number, day in enumerate(days):
        text = ENTRY.format(number=number, day=day, priority="STAT" if number == 0 else "ROUTINE")
        pathlib.Path(os.path.join(folder, "entry")).write_text(text, encoding="latin-1")
        subprocess.run(["dump2dcm", "--quiet", os.path.join(folder, "entry"), os.path.join(folder, "MWL", f"{number}.wl")], check=True)
    port = free_port()
    with subprocess.Popen(["wlmscpfs", "-dfp", folder, str(port)], stderr=subprocess.DEVNULL) as process:
        try:
            holds(lambda: listens(port), 20)
            yield port
        finally:
            process.terminate()


def try_worklist(results: Results, program: list[str]) -> None:
    today, later = (f"{datetime.date.today() + datetime.timedelta(days=it):%Y%m%d}" for it in (0, 40))
    with tempfile.TemporaryDirectory() as folder, Server(program, "--keep", "3600") as server, worklist(folder, [today, today, later]) as port:
        variables = {"UPS_SERVER": f"127.0.0.1:{server.port}", "UPS_COMMAND": " ".join(CLIENT)}
        words = [sys.executable, os.path.join(HERE, "examples/mwl_steps.py"), f"MWL=127.0.0.1:{port}"]
        for _ in range(2):
            ran = subprocess.run(words, capture_output=True, text=True, env={**os.environ, **variables}, timeout=120, check=False)
            results.tell("a worklist is walked", None if ran.returncode == 0 else ran.stdout + ran.stderr)
        found = {first(it, "00100020"): it for it in steps(server.port)}
        step = found.get("P0", {})
        told = (sorted(found), len(steps(server.port)), first(step, "00100010"), first(step, "00404005"), first(step, "00741200"), first(step, "00741202"),
                first(step, "00741204"), first(step, "00404025", "00080100"), first(step, "0040A370", "0020000D"), first(step, "0040A370", "00080050"))
        start = datetime.datetime.strptime(f"{today}101500", "%Y%m%d%H%M%S").astimezone().strftime("%Y%m%d%H%M%S%z")
        wanted = (["P0", "P1"], 2, {"Alphabetic": "MüLLER^JÜRGEN"}, start, "HIGH", "CT", "CT head native", "CT1", "1.2.3.9.0", "A0")
        results.tell("each entry of today is one step, also the second time", None if told == wanted else f"{told}, and not {wanted}")
        try_performed_worklist(results, server.port)


# what modalities say of their work

class Performed:
    """examples/mpps_steps.py for a server."""

    def __init__(self, server: int, folder: str) -> None:
        self.server, self.folder, self.port = server, folder, free_port()
        self.log = os.path.join(folder, "log")
        self.begin()

    def begin(self) -> None:
        words = [sys.executable, os.path.join(HERE, "examples/mpps_steps.py"), "--listen", str(self.port), "--every", "1"]
        variables = {"UPS_SERVER": f"127.0.0.1:{self.server}", "PYTHONIOENCODING": "utf-8"}
        with open(self.log, "a", encoding="utf-8") as log:
            self.process = subprocess.Popen([*words, "--state", os.path.join(self.folder, "state")], stdout=log, stderr=log, env={**os.environ, **variables})
        holds(lambda: listens(self.port), 60)

    def kill(self) -> None:
        self.process.kill()
        self.process.wait()

    def says(self, words: str) -> bool:
        def found() -> bool:
            return words in pathlib.Path(self.log).read_text(encoding="utf-8")
        return holds(found, 60)

    def file(self, uid: bytes) -> str:
        return os.path.join(self.folder, "state", f"{uid.decode()}.json")

    def begins(self, uid: bytes, *scheduled: Scheduled, **more: Any) -> int:
        """Sends an N-CREATE over an association of its own, and returns its status."""
        modality = Modality(self.port, **({"syntax": more.pop("syntax")} if "syntax" in more else {}))
        status = modality.begin(uid, *scheduled, **more)
        modality.release()
        return status

    def ends(self, uid: bytes, status: bytes, study: str, **more: Any) -> int:
        modality = Modality(self.port, **({"syntax": more.pop("syntax")} if "syntax" in more else {}))
        answer = modality.end(uid, status, study, **more)
        modality.release()
        return answer


@contextlib.contextmanager
def performed(server: int) -> Iterator[Performed]:
    with tempfile.TemporaryDirectory() as folder:
        it = Performed(server, folder)
        try:
            yield it
        finally:
            it.kill()


def step_of(port: int, uid: str) -> dict[str, Any]:
    return next(iter(steps(port, "-k", f"SOPInstanceUID={uid}")), {})


def state_of(port: int, uid: str) -> str:
    peer = Peer(port)
    status = peer.ask(get(PULL_ON, 1, uid.encode()))
    found = re.search(rb"\x74\0\0\x10CS.\0([A-Z ]+?) *(?![A-Z ])", peer.sets[0], re.DOTALL) if peer.sets else None
    peer.release()
    return found[1].decode() if found else f"{status:04X}"


def becomes(port: int, uid: str, state: str) -> Optional[str]:
    """Waits until a step has a state, and returns why it has not, or None."""
    found = holds(lambda: state_of(port, uid) == state, 60)
    return None if found else f"{uid} is {state_of(port, uid)}, and not {state}"


def offset_then() -> str:
    """Returns the offset of this machine at the moment that the modality names."""
    return datetime.datetime(2026, 11, 26, 10, 15).astimezone().strftime("%z")


def try_performed_worklist(results: Results, port: int) -> None:
    """Tries MPPS for the steps of a modality worklist: one is done, and one stops."""
    uids = {first(it, "00100020"): first(it, "00080018") for it in steps(port)}
    with performed(port) as it:
        modality = Modality(it.port)
        results.tell("MPPS: an echo", None if modality.echo() == 0 else "it is not answered")
        told = modality.begin(b"1.2.7.1", Scheduled("1.2.3.9.0", "S0", "A0")), modality.begin(b"1.2.7.1", Scheduled("1.2.3.9.0", "S0", "A0"))
        results.tell("MPPS: an N-CREATE, and again", None if told == (0, 0x0111) else str(told))
        results.tell("MPPS: its step is claimed", becomes(port, uids["P0"], "IN PROGRESS"))
        told = modality.end(b"1.2.7.1", b"COMPLETED", "1.2.3.9.0"), modality.end(b"1.2.7.1", b"COMPLETED", "1.2.3.9.0")
        results.tell("MPPS: an N-SET, and again", None if told == (0, 0x0110) else str(told))
        modality.release()
        results.tell("MPPS: and completed", becomes(port, uids["P0"], "COMPLETED"))
        found = first(step_of(port, uids["P0"]), "00741216") or {}
        output = first(found, "00404033") or {}
        told = (first(found, "00404028", "00080100"), first(found, "00404028", "00080104"), first(found, "00404050"), first(found, "00404051"),
                first(output, "0020000D"), first(output, "0020000E"), first(output, "0040E021", "00080054"),
                [first(each, "00081155") for each in output.get("00081199", {}).get("Value", [])])
        wanted = ("CT1", "Röhre 1", f"20261126101500{offset_then()}", f"20261126103000{offset_then()}", "1.2.3.9.0", "1.2.3.9.0.1", "ARCHIVE",
                  ["1.2.3.9.0.1.0", "1.2.3.9.0.1.1"])
        results.tell("MPPS: with what was performed", None if told == wanted else f"{told}, and not {wanted}")
        told = it.begins(b"1.2.7.2", Scheduled("1.2.3.9.1", "S1", "A1"), syntax=IMPLICIT)
        told = told, it.ends(b"1.2.7.2", b"DISCONTINUED", "1.2.3.9.1", reason=b"Incorrect worklist entry selected", syntax=IMPLICIT)
        results.tell("MPPS: one that stops, in Implicit VR", str(told) if any(told) else becomes(port, uids["P1"], "CANCELED"))
        found = first(step_of(port, uids["P1"]), "00741002") or {}
        told = first(found, "00741238"), first(found, "0074100E", "00080100"), first(found, "00404052")
        wanted = "Incorrect worklist entry selected", "110514", f"20261126103000{offset_then()}"
        results.tell("MPPS: with the reason", None if told == wanted else f"{told}, and not {wanted}")


def schedule(port: int, uid: str, worklist: str, station: str, study: str, accession: str = "") -> None:
    """Creates a step of a study, for a station or for none."""
    words = [(0x0008, 0x0050, b"SH", accession.encode()), (0x0020, 0x000D, b"UI", study.encode())]
    more = {(0x0074, 0x1202): (b"LO", even(worklist.encode(), b" ")), (0x0040, 0xA370): (b"SQ", items([spelled(True, words)])),
            **({(0x0040, 0x4025): (b"SQ", items([spelled(True, [(0x0008, 0x0100, b"SH", station.encode())])]))} if station else {})}
    peer = Peer(port)
    assert peer.ask(create(PUSH_ON, 1, uid.encode(), dicom.step(True, more))) == 0, uid
    peer.release()


def try_performed(results: Results, program: list[str]) -> None:
    """Tries MPPS for other steps than those of a worklist, and restarts."""
    with tempfile.TemporaryDirectory() as folder:
        options = ["--keep", "3600", "--store", os.path.join(folder, "upsd.db")]
        subprocess.run([*program, "init", options[-1]], check=True)
        with Server(program, *options) as server, performed(server.port) as it:
            for number in range(10):
                place = ("MR", "CT2") if number == 3 else ("CT", "CT1")
                schedule(server.port, f"1.2.20.{number}", *place, f"1.2.21.{number}", f"A{number}")
            schedule(server.port, "1.2.20.10", "READS", "", "1.2.21.0")
            try_found(results, it)
            try_not_found(results, it)
            try_restarts(results, it)
            server.stop()
            try_manager_away(results, it, program, options)


def try_found(results: Results, it: Performed) -> None:
    told = it.begins(b"1.2.7.10", Scheduled("1.2.21.0")), it.begins(b"1.2.7.11", Scheduled("1.2.99.1", "", "A1"))
    results.tell("MPPS: by the study, beside a step of another worklist", str(told) if any(told) else becomes(it.server, "1.2.20.0", "IN PROGRESS"))
    results.tell("MPPS: which is left", becomes(it.server, "1.2.20.10", "SCHEDULED"))
    results.tell("MPPS: by the Accession Number", becomes(it.server, "1.2.20.1", "IN PROGRESS"))
    told = it.begins(b"1.2.7.12", Scheduled("1.2.21.4"), Scheduled("1.2.21.5")), it.ends(b"1.2.7.12", b"COMPLETED", "1.2.21.4", images=5_000)
    faults = [becomes(it.server, uid, "COMPLETED") for uid in ("1.2.20.4", "1.2.20.5")]
    results.tell("MPPS: two steps at once", str(told) if any(told) else faults[0] or faults[1])
    output = first(step_of(it.server, "1.2.20.4"), "00741216", "00404033") or {}
    told = first(output, "0020000E"), first(output, "00081199")
    results.tell("MPPS: of 5,000 images the series alone", None if told == ("1.2.21.4.1", None) else str(told))


def try_not_found(results: Results, it: Performed) -> None:
    told = it.begins(b"1.2.7.20", Scheduled("1.2.99.2", "", "A99")), it.ends(b"1.2.7.20", b"COMPLETED", "1.2.99.2")
    results.tell("MPPS: of no step, which stops no modality", str(told) if any(told) else None)
    results.tell("MPPS: and is told", None if it.says("1.2.7.20, item 1: no steps for the study 1.2.99.2 and the accession number A99") else "it is not")
    told = it.begins(b"1.2.7.21", Scheduled("1.2.21.3")), it.ends(b"1.2.7.21", b"COMPLETED", "1.2.21.3")
    results.tell("MPPS: of a step of another station and worklist", str(told) if any(told) else becomes(it.server, "1.2.20.3", "SCHEDULED"))
    ups(it.server, "claim", "1.2.20.2", "--transaction", "2.25.9")
    told = it.begins(b"1.2.7.22", Scheduled("1.2.21.2")), it.begins(b"1.2.7.23", Scheduled("1.2.21.1"))
    results.tell("MPPS: of steps that others hold", str(told) if any(told) else None)
    told = it.ends(b"1.2.7.23", b"COMPLETED", "1.2.21.1"), it.ends(b"1.2.7.11", b"COMPLETED", "1.2.99.1")
    results.tell("MPPS: the first one ends it", str(told) if any(told) else becomes(it.server, "1.2.20.1", "COMPLETED"))
    results.tell("MPPS: and another performer's is left", becomes(it.server, "1.2.20.2", "IN PROGRESS"))
    later = it.begins(b"1.2.7.24", Scheduled("1.2.21.30"))
    schedule(it.server, "1.2.20.30", "CT", "", "1.2.21.30")
    results.tell("MPPS: a step that comes later", str(later) if later else becomes(it.server, "1.2.20.30", "IN PROGRESS"))
    told = it.ends(b"1.2.7.99", b"COMPLETED", "1.2.3"), it.begins(b"1.2.7.25", Scheduled("1.2.3"), status=b"COMPLETED"), it.begins(b"1.2.7.25", Scheduled("1.2.3"), status=b"")
    results.tell("MPPS: what is wrong is refused", None if told == (0x0112, 0x0106, 0x0120) else str([f"{status:04X}" for status in told]))
    results.tell("MPPS: and another title", None if Modality(it.port, called=b"OTHER").kind == 3 else "it is not rejected")
    stranger = Modality(it.port)
    stranger.socket.sendall(bytes(range(100)))
    results.tell("MPPS: what can't be read ends its association alone", None if stranger.pdu()[0] == 7 and it.begins(b"1.2.7.10") == 0x0111 else "no")


def try_restarts(results: Results, it: Performed) -> None:
    """Kills the SCP: between an N-CREATE and an N-SET, and as if it had not noted the answer to a claim."""
    it.kill()
    it.begin()
    told = it.ends(b"1.2.7.10", b"COMPLETED", "1.2.21.0")
    results.tell("MPPS: a restart keeps the claim", str(told) if told else becomes(it.server, "1.2.20.0", "COMPLETED"))
    told = it.begins(b"1.2.7.10", Scheduled("1.2.21.0"))
    results.tell("MPPS: and what was there before", None if told == 0x0111 else str(told))
    it.begins(b"1.2.7.30", Scheduled("1.2.21.6"))
    fault = becomes(it.server, "1.2.20.6", "IN PROGRESS")
    it.kill()
    with open(it.file(b"1.2.7.30"), encoding="utf-8") as file:
        said = json.load(file)
    said["claims"]["0"]["is_held"] = False
    with open(it.file(b"1.2.7.30"), "w", encoding="utf-8") as file:
        json.dump(said, file)
    it.begin()
    told = it.ends(b"1.2.7.30", b"COMPLETED", "1.2.21.6")
    results.tell("MPPS: a claim whose answer was lost", fault or (str(told) if told else becomes(it.server, "1.2.20.6", "COMPLETED")))
    mode = os.stat(it.file(b"1.2.7.30")).st_mode & 0o777
    results.tell("MPPS: the files are for their owner alone", None if mode == 0o600 else oct(mode))


def try_manager_away(results: Results, it: Performed, program: list[str], options: list[str]) -> None:
    told = it.begins(b"1.2.7.40", Scheduled("1.2.21.7")), it.begins(b"1.2.7.41", Scheduled("1.2.21.8")), it.ends(b"1.2.7.41", b"COMPLETED", "1.2.21.8")
    results.tell("MPPS: the server is away, and modalities go on", str(told) if any(told) or not it.says("not done yet: ") else None)
    it.kill()
    it.begin()
    with Server(program, *options, port=it.server):
        holds(lambda: listens(it.server), 60)
        results.tell("MPPS: then a step is claimed", becomes(it.server, "1.2.20.7", "IN PROGRESS"))
        results.tell("MPPS: and one is completed", becomes(it.server, "1.2.20.8", "COMPLETED"))
        results.tell("MPPS: all else is as it was", becomes(it.server, "1.2.20.9", "SCHEDULED"))


def main() -> None:
    parser = described(__doc__, "*")
    asked = parser.parse_args()
    hl7 = importlib.util.find_spec("hl7") or not subprocess.run(["/usr/bin/python3", "-c", "import hl7"], stderr=subprocess.DEVNULL).returncode
    install({ORTHANC: "orthanc", "storescu": "dcmtk", **({} if hl7 else {"python3 with hl7": "python3-hl7"}), **({} if os.path.exists(PLUGIN) else {PLUGIN: "orthanc-python"})})
    warnings.simplefilter("ignore")
    signal.signal(signal.SIGALRM, lambda *_: sys.exit(f"recipes.py: not done in {ALL} seconds"))
    signal.alarm(ALL)
    results = Results()
    with Server(asked.program, "--keep", "3600") as server:
        with running(server.port) as orthanc:
            uids = try_study(results, server.port, orthanc)
            try_performer(results, server.port, orthanc, uids)
            try_one_more(results, server.port, orthanc)
            try_away(results, asked.program, server, orthanc)
    try_orders(results, asked.program)
    try_worklist(results, asked.program)
    try_performed(results, asked.program)
    results.end("recipes")


if __name__ == "__main__":
    main()
