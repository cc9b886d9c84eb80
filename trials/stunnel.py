#!/usr/bin/env python3
"""Tries `upsd serve` behind TLS: `stunnel` on both sides, with the two configurations of docs/use/operating.md.

    trials/stunnel.py [PROGRAM]

It takes the configurations as the page has them, with free ports of this machine in place of theirs and with certificates
that `openssl` makes in a temporary folder. Through both tunnels client/bin/ups then asks for an echo, creates a step, claims
and finishes it, and takes its report. A client without a certificate, and one with a certificate that the server doesn't
know, get no answer. The client then does the same by a TLS of its own, without a tunnel at the workstation: it takes no other
certificate of the server, and no other name in it; a listener of it takes no peer without a certificate, and goes on.

It installs what is missing (`apt-get install -y stunnel4 openssl python3-pydicom`, which needs root), and ends by itself. It
prints a line for each trial, and then `N passed, M failed`. The exit status is 1 if any failed.
"""

from __future__ import annotations

import contextlib
import os
import re
import shutil
import socket
import ssl
import subprocess
import sys
import tempfile
import threading
from typing import Iterator

sys.path.insert(0, os.path.join(os.path.dirname(os.path.dirname(os.path.abspath(__file__))), "check/lib"))
from machine import described, free_port, holds, install, listens, source
from results import Results
from server import Server
from stock import DONE, NO_ANSWER, by_client

STEP, OTHER_STEP = "1.2.3.1", "1.2.3.2"
HOLDER = ["--transaction", "2.25.7"]
# the ports of the page: of the server, of TLS before it, of the tunnel to the watcher, of TLS before the watcher, of the watcher
SERVER, SERVER_TLS, TUNNEL, WATCHER_TLS, WATCHER = 11112, 2762, 11121, 2763, 11113

# the trials through both tunnels, in order: a name, the words, and part of what is printed
LIFE = [
    ("echo", ["echo"], "0000 success"),
    ("subscribe", ["subscribe", "--receiver", "WATCH1"], "0000 success"),
    ("create", ["create", STEP], "0000 success"),
    ("claim", ["claim", STEP, *HOLDER], "0000 success"),
    ("finish", ["finish", STEP, *HOLDER], "0000 success"),
    ("find", ["find", "--state", "COMPLETED"], "1 found"),
]
REPORT = f"{STEP} state: InputReadinessState=READY  ProcedureStepState=COMPLETED"


def configurations() -> list[str]:
    """Returns the configurations of the page: the server's and the workstation's."""
    section = source("docs/use/operating.md").partition("\n## TLS\n")[2].partition("\n## ")[0]
    found = re.findall(r"(?ms)^```ini\n(.*?)^```$", section)
    if len(found) != 2:
        sys.exit(f"stunnel.py: docs/use/operating.md has {len(found)} configurations of stunnel, and not 2")
    return found


def placed(configuration: str, folder: str, ports: dict[int, int]) -> str:
    """Returns a configuration with the files of a folder, and with other ports, all of this machine."""
    text = configuration.replace("/etc/stunnel/", f"{folder}/")
    text = re.sub(r"(?m)^(accept|connect) = (?:\S+:)?(\d+)$", lambda it: f"{it[1]} = 127.0.0.1:{ports[int(it[2])]}", text)
    return f"foreground = yes\npid =\nsyslog = no\n{text}"


def certify(folder: str, name: str) -> None:
    """Makes a key and a self-signed certificate."""
    words = ["openssl", "req", "-x509", "-newkey", "rsa:2048", "-nodes", "-days", "1", "-subj", f"/CN={name}", "-addext", f"subjectAltName=DNS:{name}",
             "-keyout", f"{folder}/{name}.key", "-out", f"{folder}/{name}.crt"]
    subprocess.run(words, check=True, capture_output=True)


@contextlib.contextmanager
def tunnel(folder: str, name: str, configuration: str, port: int) -> Iterator[None]:
    """Runs a stunnel, which listens on this port."""
    path = f"{folder}/{name}.conf"
    with open(path, "w", encoding="utf-8") as text:
        text.write(configuration)
    with open(f"{folder}/{name}.log", "w+", encoding="utf-8") as log, subprocess.Popen(["stunnel4", path], stderr=log) as process:
        try:
            if not holds(lambda: listens(port) or process.poll() is not None, 10) or process.poll() is not None:
                log.seek(0)
                sys.exit(f"stunnel.py: the tunnel {name} does not listen: {log.read()}")
            yield
        finally:
            process.terminate()


def clients(configuration: str) -> list[tuple[str, str, int]]:
    """Returns three forms of the part of a workstation's configuration that connects to the server, each with a name and the
    exit status of a client."""
    own = configuration.partition("[watch1]")[0]
    return [
        ("a client with its certificate", own, DONE),
        ("a client without a certificate", re.sub(r"(?m)^(cert|key) = .*\n", "", own), NO_ANSWER),
        ("a client with another certificate", own.replace("station.", "stranger."), NO_ANSWER),
    ]


def live(port: int, watcher: int, results: Results) -> None:
    """Tries the life of a step through both tunnels, and its report."""
    for name, words, told in LIFE:
        results.tell(name, by_client([*words, "--port", str(port)], DONE, told))
    watch = ["watch", "--ae", "WATCH1", "--associations", "1", "--listen", str(watcher)]
    results.tell("watch", by_client(watch, DONE, REPORT))


def own(folder: str, *more: str, ca: str = "server", name: str = "station") -> list[str]:
    """Returns the options of a client that speaks TLS itself."""
    return ["--tls-ca", f"{folder}/{ca}.crt", "--tls-certificate", f"{folder}/{name}.crt", "--tls-key", f"{folder}/{name}.key",
            "--tls-name", "server", *more]


def live_by_itself(folder: str, port: int, watcher: int, results: Results) -> None:
    """Tries the life of a step by the client's own TLS, and its report, which comes through the tunnel of the server."""
    place = ["--port", str(port)]
    for name, words, told in LIFE:
        step = [it.replace(STEP, OTHER_STEP) for it in words]
        results.tell(f"{name}, by itself", by_client([*step, *place, *own(folder)], DONE, told))
    watch = ["watch", "--ae", "WATCH1", "--associations", "1", "--listen", str(watcher)]
    results.tell("who listens needs a certificate", by_client([*watch, "--tls"], NO_ANSWER, "needs --tls-certificate"))
    strangers = threading.Thread(target=knock, args=(watcher, folder))
    strangers.start()
    results.tell("watch, by itself", by_client([*watch, *own(folder)], DONE, REPORT.replace(STEP, OTHER_STEP)))
    strangers.join()
    wrong = [("another certificate of the server", own(folder, ca="stranger"), "TLS: the certificate of the peer is not taken"),
             ("another name in it", own(folder, "--tls-name", "127.0.0.1"), "is not valid for '127.0.0.1'"),
             ("no certificate of its own", ["--tls-ca", f"{folder}/server.crt", "--tls-name", "*"], f"127.0.0.1:{port}: "),
             ("a certificate that the server does not know", own(folder, name="stranger"), f"127.0.0.1:{port}: "),
             ("no TLS", [], f"127.0.0.1:{port}: "), ("a file that is missing", ["--tls-ca", f"{folder}/none"], "No such file")]
    for name, words, told in wrong:
        results.tell(f"by itself, with {name}", by_client(["echo", *place, *words, "--timeout", "10"], NO_ANSWER, told))
    said = by_client(["echo", *place, *own(folder), "-v"], DONE, "TLSv1.3, ")
    results.tell("-v says what is negotiated", said or by_client(["echo", *place, *own(folder), "-v"], DONE, "the peer is server"))


def knock(port: int, folder: str) -> None:
    """Sends a listener what is no TLS, and TLS without a certificate and with one that it does not know."""
    holds(lambda: listens(port), 20)
    with contextlib.suppress(OSError), socket.create_connection(("127.0.0.1", port), 5) as plain:
        plain.sendall(b"\1\0\0\0\0\4none")
        plain.recv(1)
    for certificate in ("", "stranger"):
        context = ssl.SSLContext(ssl.PROTOCOL_TLS_CLIENT)
        context.check_hostname, context.verify_mode = False, ssl.CERT_NONE
        if certificate:
            context.load_cert_chain(f"{folder}/{certificate}.crt", f"{folder}/{certificate}.key")
        with contextlib.suppress(OSError), socket.create_connection(("127.0.0.1", port), 5) as plain, context.wrap_socket(plain) as wire:
            wire.sendall(b"none")
            wire.recv(1)


def call(folder: str, name: str, configuration: str, status: int, ports: dict[int, int], results: Results) -> None:
    """Tries an echo through a tunnel of its own to the server's."""
    port = free_port()
    with tunnel(folder, name.replace(" ", "-"), placed(configuration, folder, {**ports, SERVER: port}), port):
        results.tell(name, by_client(["echo", "--port", str(port)], status, ""))


def trials(program: list[str], folder: str, results: Results) -> None:
    """Starts the server and the tunnels, and tries them."""
    for name in ("server", "station", "stranger"):
        certify(folder, name)
    shutil.copy(f"{folder}/station.crt", f"{folder}/stations.crt")
    server_side, station_side = configurations()
    ports = {named: free_port() for named in (SERVER_TLS, TUNNEL, WATCHER_TLS, WATCHER)}
    entry = free_port()  # the port of the workstation's tunnel to the server
    with contextlib.ExitStack() as stack:
        server = stack.enter_context(Server(program, "--timeout", "10", f"WATCH1=127.0.0.1:{ports[TUNNEL]}"))
        at_server = placed(server_side, folder, {**ports, SERVER: server.port})
        stack.enter_context(tunnel(folder, "server", at_server, ports[SERVER_TLS]))
        stack.enter_context(tunnel(folder, "station", placed(station_side, folder, {**ports, SERVER: entry}), entry))
        live(entry, ports[WATCHER], results)
        for name, configuration, status in clients(station_side):
            call(folder, name, configuration, status, ports, results)
    with contextlib.ExitStack() as stack:
        server = stack.enter_context(Server(program, "--timeout", "10", f"WATCH1=127.0.0.1:{ports[TUNNEL]}"))
        at_server = placed(server_side, folder, {**ports, SERVER: server.port})
        stack.enter_context(tunnel(folder, "server", at_server, ports[SERVER_TLS]))
        live_by_itself(folder, ports[SERVER_TLS], ports[WATCHER_TLS], results)


def main() -> None:
    asked = described(__doc__, "?")
    given = asked.parse_args()
    install({"stunnel4": "stunnel4", "openssl": "openssl"})
    results = Results()
    with tempfile.TemporaryDirectory(prefix="upsd-stunnel-") as folder:
        trials([given.program], folder, results)
    results.end()


if __name__ == "__main__":
    main()
