#!/usr/bin/env python3
"""Tries two servers behind HAProxy, with packaging/haproxy.cfg.

    trials/haproxy.py [PROGRAM]

It takes the configuration as it is, with free ports of this machine in place of its own, with certificates that `openssl` makes
in a temporary folder, and with checks each second. Through HAProxy client/bin/ups then works at both servers, by the called
title; by plain TCP from the address of its title, and by TLS with a certificate of its title, through a tunnel of `stunnel`, which
also takes the report that HAProxy sends to the watcher. Other titles, addresses, certificates and bytes get no answer and don't
reach a server. A server that stands still, and one whose store takes no change, is down until it goes on. A full house, of more
associations than a server has workers, from several addresses, which ask each few seconds, is up, and those beyond HAProxy's share
wait. An address has no more connections than it may have.

It installs what is missing (`apt-get install -y haproxy stunnel4 openssl python3-pydicom`, which needs root), and ends by itself.
It prints a line for each trial, and then `N passed, M failed`. The exit status is 1 if any failed.
"""

from __future__ import annotations

import contextlib
import os
import pathlib
import re
import resource
import signal
import socket
import subprocess
import sys
import tempfile
import time
from typing import Iterator, Optional

TOP = os.path.dirname(os.path.dirname(os.path.abspath(__file__)))
sys.path[:0] = [os.path.join(TOP, it) for it in ("check/lib", "trials/lib")]
from client import no_file_grows
from dicom import IMPLICIT, PULL, associate, get
from house import House
from machine import HERE, described, free_port, holds, install, listens
from peer import connect
from results import Results
from server import Server
from stock import DONE, NO_ANSWER, by_client
from stunnel import certify, tunnel

CONFIGURATION = os.path.join(HERE, "packaging/haproxy.cfg")
# the ports of the configuration: of plain TCP, of TLS, of both servers, of the way to the watcher, and of its TLS
PLAIN, TLS, CT, MR, WATCH, WATCHER_TLS = 11112, 2762, 11131, 11132, 11121, 2763
TITLES = {CT: "UPSD_CT", MR: "UPSD_MR"}
CALLING = "CT1"  # whose address and certificate are known
WORKERS, SERVED = 16, 14  # of a server, and how many connections HAProxy gives it
GUESTS = 18  # of a full house: on four at an address
PEERS = f"{CALLING}=127.0.0.1\nCT2=192.0.2.22\n" + "".join(f"GUEST{at}=127.0.1.{at // 4 + 1}\n" for at in range(GUESTS))
HOLDER = ["--transaction", "2.25.7"]
CONNECTIONS, BEGUN, SECONDS = 4, 60, 10  # how many an address may have, and begin in so many seconds
HOUSE = 20.0  # seconds of a full house
SILENT = 5  # seconds for an association request
CHECKED = 8  # seconds in which a check tells a server that is down from one that is up

# the life of a step: a name, the words, and part of what is printed
LIFE = [
    ("subscribe", ["subscribe", "--receiver", "WATCH1"], "0000 success"),
    ("create", ["create", "1.2.3.1"], "0000 success"),
    ("claim", ["claim", "1.2.3.1", *HOLDER], "0000 success"),
    ("finish", ["finish", "1.2.3.1", *HOLDER], "0000 success"),
    ("find", ["find", "--state", "COMPLETED"], "1 found"),
]


class Titled(Server):
    """`upsd serve` with a title, on a port, with a store."""

    def __init__(self, program: list[str], title: str, port: int, store: str, *options: str) -> None:
        subprocess.run([*program, "init", store], check=True)
        words = [*program, "serve", "--ae", title, "--port", str(port), "--store", store, "--timeout", "2", *options]
        self.begin(words, prepare=no_file_grows)
        self.port = port
        if not holds(lambda: listens(port), 20):
            self.stop()
            sys.exit(f"haproxy.py: {title} does not listen: {self.log}")

    def associations(self) -> int:
        """Returns how many associations ended, by the log, without those of checks."""
        return sum(" serve: " in line and " HAPROXY " not in line for line in self.log)


def spelled_checks() -> list[str]:
    """Returns the bytes of a check in hex digits, around the called title: the association request, and the N-GET."""
    asked = associate([(PULL, IMPLICIT)], calling=b"HAPROXY").hex().upper()
    title = b"UPSD".ljust(16).hex().upper()
    return [*asked.split(title), get(1, 1, b"2.25.1").hex().upper()]


def configuration(folder: str, ports: dict[int, int]) -> str:
    """Returns the configuration with the files of a folder, with other ports, all of this machine, and with quick checks."""
    text = pathlib.Path(CONFIGURATION).read_text(encoding="utf-8")
    text = text.replace("/etc/haproxy/", f"{folder}/").replace("station.example:", "127.0.0.1:").replace("bind :", "bind 127.0.0.1:")
    text = re.sub(r"127\.0\.0\.1:(\d+)(?=\s)", lambda it: f"127.0.0.1:{ports[int(it[1])]}", text)
    text = text.replace("inter 10s fall 3", "inter 1s fall 2").replace("timeout check 10s", "timeout check 3s")
    return f"global\n    log stderr format raw local0\n    stats socket {folder}/admin.sock mode 600 level admin\n\n{text}"


class Proxy:
    """HAProxy with a configuration, and its log."""

    def __init__(self, folder: str, text: str) -> None:
        self.folder, self.path = folder, f"{folder}/haproxy.cfg"
        pathlib.Path(self.path).write_text(text, encoding="utf-8")

    def fault(self) -> Optional[str]:
        """Returns what HAProxy says of the configuration if it does not take it, or None."""
        ran = subprocess.run(["haproxy", "-c", "-f", self.path], capture_output=True, text=True)
        return None if ran.returncode == 0 and "[WARNING]" not in ran.stderr else ran.stderr

    @contextlib.contextmanager
    def running(self, port: int) -> Iterator[None]:
        """Runs it until it is left; it listens on this port."""
        with open(f"{self.folder}/haproxy.log", "w", encoding="utf-8") as log, \
                subprocess.Popen(["haproxy", "-f", self.path], stdout=log, stderr=log) as process:
            try:
                if not holds(lambda: listens(port) or process.poll() is not None, 10) or process.poll() is not None:
                    sys.exit(f"haproxy.py: it does not listen: {self.log()}")
                yield
            finally:
                process.terminate()

    def log(self) -> str:
        return pathlib.Path(f"{self.folder}/haproxy.log").read_text(encoding="utf-8")

    def asked(self, command: str) -> str:
        """Returns the answer of its socket to a command."""
        with socket.socket(socket.AF_UNIX) as wire:
            wire.connect(f"{self.folder}/admin.sock")
            wire.sendall(f"{command}\n".encode())
            return b"".join(iter(lambda: wire.recv(65536), b"")).decode()

    def is_up(self, title: str) -> bool:
        """Returns whether a server is up, by its checks: `UP 1/2` is one that the next check may find down."""
        rows = [it.split(",") for it in self.asked("show stat").splitlines()]
        at = rows[0].index("status")
        return any(row[1] == title and row[at].startswith("UP") for row in rows[1:] if len(row) > at)


def words_for(port: int, called: str = TITLES[CT], ae: str = CALLING) -> list[str]:
    return ["--port", str(port), "--called", called, "--ae", ae]


def live(entry: int, port: int, results: Results) -> None:
    """Tries the life of a step at one server through HAProxy, and whether the other has a worklist of its own."""
    for name, words, told in LIFE:
        results.tell(f"{name}, by port {port}", by_client([*words, *words_for(entry)], DONE, told))
    results.tell(f"the other server, by port {port}", by_client(["find", *words_for(entry, TITLES[MR])], DONE, "0 found"))


def refusals(entry: int, servers: list[Titled], results: Results) -> None:
    """Tries who may not call by plain TCP, and whether such calls reach a server."""
    time.sleep(0.5)
    before = [it.associations() for it in servers]
    for name, words in (("an unknown title", words_for(entry, ae="STRANGER")), ("a title of another address", words_for(entry, ae="CT2")),
                        ("another called title", words_for(entry, "UPSD"))):
        results.tell(name, by_client(["echo", *words], NO_ANSWER, ""))
    for name, said, seconds in (("bytes that are no request", b"GET / HTTP/1.0\r\n\r\n" + bytes(40), 1.0), ("silence", b"", SILENT + 2.0),
                                ("half a request", b"\1\0" + bytes(20), SILENT + 2.0)):
        results.tell(f"{name} ends the connection", ending(entry, said, seconds))
    after = [it.associations() for it in servers]
    results.tell("none of these reaches a server", None if after == before else f"{before} associations, and then {after}")


def ending(port: int, said: bytes, seconds: float) -> Optional[str]:
    """Returns why a connection does not end within some seconds after these bytes, without an answer; or None."""
    with socket.create_connection(("127.0.0.1", port), seconds) as wire:
        wire.settimeout(seconds)
        wire.sendall(said)
        try:
            answer = wire.recv(100)
        except ConnectionResetError:
            return None
        except OSError as fault:
            return repr(fault)
    return f"it is answered {answer!r}" if answer else None


def station_tunnel(folder: str, certificate: Optional[str], accept: int, connect: int) -> str:
    """Returns the configuration of a station's tunnel to TLS, with a certificate or without one."""
    own = f"cert = {folder}/{certificate}.crt\nkey = {folder}/{certificate}.key\n" if certificate else ""
    return (f"foreground = yes\npid =\nsyslog = no\n{own}CAfile = {folder}/server.crt\nverifyPeer = yes\n[upsd]\nclient = yes\n"
            f"accept = 127.0.0.1:{accept}\nconnect = 127.0.0.1:{connect}\n")


def watcher_tunnel(folder: str, accept: int, connect: int) -> str:
    """Returns the configuration of a station's tunnel from TLS to its watcher."""
    return (f"foreground = yes\npid =\nsyslog = no\ncert = {folder}/{CALLING}.crt\nkey = {folder}/{CALLING}.key\n"
            f"CAfile = {folder}/server.crt\nverifyPeer = yes\n[watch1]\naccept = 127.0.0.1:{accept}\nconnect = 127.0.0.1:{connect}\n")


def over_tls(folder: str, ports: dict[int, int], results: Results) -> None:
    """Tries who may call by TLS."""
    for name, certificate, ae, status in (
            ("TLS with the certificate of a title", CALLING, CALLING, DONE), ("TLS with another's certificate", CALLING, "CT2", NO_ANSWER),
            ("TLS without a certificate", None, CALLING, NO_ANSWER), ("TLS with an unknown certificate", "stranger", "stranger", NO_ANSWER)):
        port = free_port()
        with tunnel(folder, name.replace(" ", "-"), station_tunnel(folder, certificate, port, ports[TLS]), port):
            results.tell(name, by_client(["echo", *words_for(port, ae=ae)], status, ""))


def report(folder: str, ports: dict[int, int], results: Results) -> None:
    """Tries whether the report of a step reaches the station over TLS."""
    watcher = free_port()
    with tunnel(folder, "watcher", watcher_tunnel(folder, ports[WATCHER_TLS], watcher), ports[WATCHER_TLS]):
        words = ["watch", "--ae", "WATCH1", "--associations", "1", "--listen", str(watcher)]
        results.tell("the report over TLS", by_client(words, DONE, "1.2.3.1 state: InputReadinessState=READY  ProcedureStepState=COMPLETED"))


def checks(proxy: Proxy, servers: list[Titled], entry: int, results: Results) -> None:
    """Tries how checks find a server that stands still, and one whose store takes no change."""
    ct, mr = servers
    results.tell("both servers are up", None if holds(lambda: all(map(proxy.is_up, TITLES.values())), CHECKED) else proxy.asked("show stat"))
    mr.process.send_signal(signal.SIGSTOP)
    results.tell("one that stands still is down", None if holds(lambda: not proxy.is_up(TITLES[MR]), 2 * CHECKED) else "it is up")
    began = time.monotonic()
    fault = by_client(["echo", *words_for(entry, TITLES[MR])], NO_ANSWER, "")
    results.tell("and is refused at once", fault or (None if time.monotonic() - began < 2 else f"after {time.monotonic() - began:.1f} s"))
    results.tell("while the other one answers", by_client(["echo", *words_for(entry)], DONE, "0000"))
    mr.process.send_signal(signal.SIGCONT)
    results.tell("it is up when it goes on", None if holds(lambda: proxy.is_up(TITLES[MR]), CHECKED) else "it is down")
    resource.prlimit(ct.process.pid, resource.RLIMIT_FSIZE, (1, resource.RLIM_INFINITY))
    by_client(["create", "1.2.3.2", *words_for(entry)], NO_ANSWER, "")
    results.tell("one whose store takes no change is down", None if holds(lambda: not proxy.is_up(TITLES[CT]), 2 * CHECKED) else "it is up")
    resource.prlimit(ct.process.pid, resource.RLIMIT_FSIZE, (resource.RLIM_INFINITY, resource.RLIM_INFINITY))
    results.tell("it is up when its store goes on", None if holds(lambda: proxy.is_up(TITLES[CT]), 2 * CHECKED) else "it is down")


def full_house(proxy: Proxy, entry: int, results: Results) -> None:
    """Tries whether a server stays up whose associations ask each few seconds, and take all that HAProxy has for them."""
    house = House([(lambda at=at: connect(entry, 120, source=f"127.0.1.{at // 4 + 1}"), b"GUEST%d" % at, TITLES[MR].encode())
                   for at in range(GUESTS)], 3.0)
    try:
        is_full = holds(lambda: house.count() == SERVED, 10)
        results.tell("a full house: as many are served as HAProxy gives", None if is_full else f"{house.count()}: {house.faults[:2]}")
        before, up, until = sum(house.answers), [], time.monotonic() + HOUSE
        while time.monotonic() < until:
            up.append(proxy.is_up(TITLES[MR]))
            time.sleep(0.5)
        results.tell("a full house stays up", None if all(up) else f"it is down in {up.count(False)} of {len(up)} looks")
        results.tell("none of it ends", "; ".join(house.faults[:3]) or None)
        asked = sum(house.answers) - before
        results.tell("and each is answered", None if asked >= SERVED * (HOUSE / 3 - 2) else f"{asked} answers in {HOUSE:g} s")
        results.tell("the others wait", None if house.count() == SERVED else f"{house.count()} are served")
    finally:
        house.stop()


def begun(entry: int, stack: contextlib.ExitStack) -> Optional[socket.socket]:
    """Begins a connection, and returns it, or None if it is refused."""
    try:
        return stack.enter_context(socket.create_connection(("127.0.0.1", entry), 5))
    except OSError:
        return None


def is_open(wire: Optional[socket.socket]) -> bool:
    """Returns whether HAProxy keeps a connection on which nothing was said."""
    if wire is None:
        return False
    wire.settimeout(0.3)
    try:
        return wire.recv(1) != b""
    except TimeoutError:
        return True
    except OSError:
        return False


def rates(entry: int, results: Results) -> None:
    """Tries how many connections an address may have, and how many it may begin."""
    time.sleep(SECONDS + 1)  # what came before does not count any more
    with contextlib.ExitStack() as stack:
        wires = [begun(entry, stack) for _ in range(CONNECTIONS + 4)]
        kept = sum(map(is_open, wires))
        results.tell("an address has so many connections", None if kept == CONNECTIONS else f"{kept} of {len(wires)} stay")
    time.sleep(1)
    for _ in range(BEGUN):
        with contextlib.ExitStack() as stack:
            begun(entry, stack)
    results.tell("an address that begins too many gets no answer", by_client(["echo", *words_for(entry)], NO_ANSWER, ""))
    is_back = holds(lambda: by_client(["echo", *words_for(entry)], DONE, "0000") is None, 2.5 * SECONDS)
    results.tell("and gets one again later", None if is_back else "it does not")


def trials(program: list[str], folder: str, results: Results) -> None:
    """Starts the servers and HAProxy, and tries them."""
    spelled = pathlib.Path(CONFIGURATION).read_text(encoding="utf-8")
    results.tell("the bytes of a check", None if all(it in spelled for it in spelled_checks()) else "they are not those of check/lib")
    for name in ("server", CALLING, "stranger"):
        certify(folder, name)
    for target, sources in (("server.pem", ["server.crt", "server.key"]), ("stations.crt", [f"{CALLING}.crt"])):
        with open(f"{folder}/{target}", "w", encoding="utf-8") as out:
            for it in sources:
                with open(f"{folder}/{it}", encoding="utf-8") as source:
                    out.write(source.read())
    pathlib.Path(f"{folder}/upsd.peers").write_text(PEERS, encoding="utf-8")
    ports = {it: free_port() for it in (PLAIN, TLS, CT, MR, WATCH, WATCHER_TLS)}
    proxy = Proxy(folder, configuration(folder, ports))
    results.tell("haproxy -c", proxy.fault())
    with contextlib.ExitStack() as stack:
        servers = [stack.enter_context(Titled(program, TITLES[it], ports[it], f"{folder}/store{it}",
                                              *([f"WATCH1=127.0.0.1:{ports[WATCH]}"] if it == CT else []))) for it in (CT, MR)]
        stack.enter_context(proxy.running(ports[PLAIN]))
        holds(lambda: all(map(proxy.is_up, TITLES.values())), CHECKED)
        live(ports[PLAIN], PLAIN, results)
        report(folder, ports, results)
        refusals(ports[PLAIN], servers, results)
        over_tls(folder, ports, results)
        checks(proxy, servers, ports[PLAIN], results)
        full_house(proxy, ports[PLAIN], results)
        rates(ports[PLAIN], results)
        line = rf"{CALLING} calls {TITLES[CT]} {TITLES[CT]} as (127\.0\.0\.1:\d+) "
        told = re.findall(line, proxy.log())
        results.tell("the log has both titles", None if told else proxy.log()[-500:])
        joined = [it for it in told if any(f" {CALLING} {it}" in known for known in servers[0].log)]
        results.tell("and the address that the server's log has", None if joined else f"{told[:3]}, and {servers[0].log[-3:]}")


def main() -> None:
    asked = described(__doc__, "?")
    given = asked.parse_args()
    install({"haproxy": "haproxy", "stunnel4": "stunnel4", "openssl": "openssl"})
    results = Results()
    with tempfile.TemporaryDirectory(prefix="upsd-haproxy-") as folder:
        trials([given.program], folder, results)
    results.end()


if __name__ == "__main__":
    main()
