#!/usr/bin/env python3
"""Tries `upsd serve --check`, which looks at what a start would find, and files of peers (`--peers`).

    trials/check.py [PROGRAM]      (default: crates/upsd/out/upsd)

A look at a right command line ends with status 0, prints no port, serves nothing, and logs the settings, and for each watcher
whether its host has an address; it may change neither the store nor its log. A wrong command line ends with status 1; an
address of another machine, and a store that a start would refuse, with status 2. Beside a running server it has to refuse what
the start behind it would refuse: terms that permit less than that server's, and another port that is taken; and the server goes
on. A file of peers has to count like the words of the command line; a file that can't be read, and a line that is no peer, have
to be told, with status 1.

It prints a line for each check, and then `N passed, M failed`. The status is 1 if any failed.
"""

from __future__ import annotations

import os
import re
import shutil
import socket
import subprocess
import sys
import tempfile
import time
from typing import Optional

sys.path[:0] = [os.path.join(os.path.dirname(os.path.dirname(os.path.abspath(__file__))), it) for it in ("check/lib", "check", "trials")]
from machine import arguments, holds, listens
from making import EARLIER, ITS_SETTINGS
from results import Results
from server import Server
from stored import Client, Stored, a_step_of

SERVE = ("serve", "--ae", "UPSD", "--port", "0", "--check")
NOWHERE = "nowhere.invalid"  # a name that no name server may know (RFC 6761)
ELSEWHERE = "192.0.2.1"  # an address that no machine may have (RFC 5737)
WATCH = "0 P1 subscribe global {} {}\n"
MOST_PEERS, MOST_BYTES = 1_000, 1_048_576
COPIED = 3  # seconds until the log of a store without requests is copied into it
SECONDS = 60


class Trial:
    """The program, a folder for files, and what passed and failed."""

    def __init__(self, program: list[str], folder: str) -> None:
        self.program, self.folder, self.results = program, folder, Results()

    def path(self, name: str) -> str:
        return os.path.join(self.folder, name)

    def file(self, name: str, content: bytes) -> str:
        with open(self.path(name), "wb") as opened:
            opened.write(content)
        return self.path(name)

    def run(self, *words: str, given: str = "") -> subprocess.CompletedProcess[str]:
        return subprocess.run([*self.program, *words], input=given, capture_output=True, text=True, timeout=SECONDS)

    def ends(self, name: str, status: int, told: str, *words: str, given: str = "", written: str = "") -> None:
        """Checks how the program ends with these words, what it says on standard error, by a pattern, and what it writes."""
        ran = self.run(*words, given=given)
        fault = None
        if ran.returncode != status:
            fault = f"status {ran.returncode}, not {status}: {ran.stderr.strip()}"
        elif not re.search(told, ran.stderr):
            fault = f"{told!r} is not told: {ran.stderr.strip()}"
        elif ran.stdout != written:
            fault = f"it writes {ran.stdout!r}, not {written!r}"
        self.results.tell(name, fault)


def content(file: str) -> tuple[Optional[bytes], Optional[bytes]]:
    """Returns what a store and its log have."""
    found = []
    for path in (file, f"{file}-wal"):
        found.append(open(path, "rb").read() if os.path.exists(path) else None)
    return found[0], found[1]


def try_words(trial: Trial) -> None:
    """Looks at command lines without a store."""
    trial.ends("a right command line", 0, r"INFO .*upsd [\d.]+, commit [0-9a-f]+, [a-z]+ proved: ae=UPSD .* peers=0 watchers=0 store=none", *SERVE)
    trial.ends("a watcher has an address", 0, r"INFO .*watcher W1: localhost is (127\.0\.0\.1|\[::1\]):104", *SERVE, "W1=localhost:104")
    trial.ends("an address is one", 0, r"INFO .*watcher W1: ::1 is \[::1\]:104", *SERVE, "W1=::1:104")
    trial.ends("a watcher has none", 0, rf"WARN .*watcher W2: {NOWHERE} has no address", *SERVE, "W1=localhost:104", f"W2={NOWHERE}:104")
    trial.ends("an address of another machine", 2, f"upsd: it can't listen on {ELSEWHERE}", *SERVE, "--bind", ELSEWHERE)
    trial.ends("a host without an address", 2, f"upsd: it can't listen on {NOWHERE}", *SERVE, "--bind", NOWHERE)
    trial.ends("an unknown option", 1, "--strange", *SERVE, "--strange")
    trial.ends("a wrong number", 1, "--associations takes", *SERVE, "--associations", "0")
    trial.ends("a wrong peer", 1, "is no PEER", *SERVE, "W1=localhost")
    trial.ends("no title", 1, "--ae", "serve", "--port", "0", "--check")
    with Server(trial.program) as server:
        trial.ends("the port of a server", 0, "INFO", "serve", "--ae", "UPSD", "--port", str(server.port), "--check")
        trial.results.tell("which goes on", None if listens(server.port) else "it does not listen")


def try_stores(trial: Trial) -> None:
    """Looks at files that a start refuses."""
    missing = trial.path("missing")
    trial.ends("a missing store", 2, "the file is missing or blank", *SERVE, "--store", missing)
    trial.results.tell("which is not made", f"there is {missing}" if os.path.exists(missing) else None)
    trial.ends("a blank store", 2, "the file is missing or blank", *SERVE, "--store", trial.file("blank", b""))
    trial.ends("a text", 2, "upsd: the store ", *SERVE, "--store", trial.file("text", b"no store\n" * 1000))
    trial.ends("a folder", 2, "the store can't be opened", *SERVE, "--store", trial.folder)
    store = trial.path("damaged")
    with Stored(trial.program, store) as server:
        Client(server.port).create(b"1.2.3.1", a_step_of(b"P"))
        time.sleep(COPIED)
    os.remove(f"{store}-wal")
    with open(store, "r+b") as opened:
        opened.write(b"\0" * 100)
    trial.ends("a damaged header", 2, "upsd: the store ", *SERVE, "--store", store)
    other = trial.path("other")
    subprocess.run(["/usr/bin/python3", "-c", "import sqlite3, sys; sqlite3.connect(sys.argv[1]).execute('CREATE TABLE t (a)')", other], check=True)
    trial.ends("another database", 2, "upsd: the store ", *SERVE, "--store", other)


def try_used(trial: Trial) -> None:
    """Looks at a store that a server has, and had."""
    store = trial.path("store")
    peers = ("W1=localhost:104,lock", "W2=localhost:105")
    here = (*SERVE, "--store", store)
    with Stored(trial.program, store, "--keep", "60", *peers) as server:
        client = Client(server.port)
        client.create(b"1.2.3.1", a_step_of(b"P"))
        try_beside(trial, store, peers)
        again = client.create(b"1.2.3.2", a_step_of(b"P"))
        trial.results.tell("and the server goes on", None if again == 0 else f"{again:04X}")
    before = content(store)
    trial.ends("a store that nobody has", 0, "INFO .*store: it can be used", *here, *peers)
    trial.ends("with one peer more", 0, "INFO .*store: it can be used", *here, *peers, "W3=localhost:106")
    trial.ends("with another --keep", 2, OTHERS, *here, "--keep", "61", *peers)
    trial.ends("without a peer", 2, OTHERS, *here)
    trial.ends("which is allowed", 0, "WARN .*store: the terms of the service", *here, "--store-other-settings")
    trial.results.tell("no look changes it", None if content(store) == before else "it does")
    with Stored(trial.program, store, *peers) as server:
        found = [Client(server.port).got(it) is not None for it in (b"1.2.3.1", b"1.2.3.2")]
        begins = server.lines("store: run 2 begins with 2 requests")
        trial.results.tell("a start finds all, and is the second run", None if all(found) and begins else f"{found}, {server.log[-3:]}")


OTHERS = r"upsd: the store .*terms of the service are not those of the last run: .+ \(--store-other-settings takes the new ones\)"


def try_beside(trial: Trial, store: str, peers: tuple[str, ...]) -> None:
    """Looks at a store while a server has it, with terms that permit as much, and with others."""
    here, terms = (*SERVE, "--store", store), f"{store}-terms"
    trial.ends("beside a server, what it has", 0, "INFO .*store: it is in use", *here, *peers)
    trial.ends("beside it, one peer more", 0, "INFO .*store: it is in use", *here, *peers, "W3=localhost:106")
    trial.ends("beside it, one right more", 0, "INFO .*store: it is in use", *here, peers[0], f"{peers[1]},lock")
    trial.ends("beside it, other addresses", 0, "INFO .*store: it is in use", *here, "W1=localhost:1,lock", "W2=localhost:2")
    for name, words, told in (("another --keep", ("--keep", "61", *peers), "kept for 60 seconds"), ("another --offset", ("--offset", "60", *peers), "0 minutes"),
                              ("a peer less", peers[:1], "W2 was a peer"), ("a right less", ("W1=localhost:104", peers[1]), "W1 had the right")):
        trial.ends(f"beside it, {name}", 2, OTHERS, *here, *words)
        trial.ends(f"beside it, {name}, which is told", 2, told, *here, *words)
    trial.ends("beside it, other terms that are allowed", 0, "WARN .*store: the terms of the service", *here, "--keep", "61", *peers, "--store-other-settings")
    mode = os.stat(terms).st_mode & 0o777
    trial.results.tell("its terms are for the owner alone", None if mode == 0o600 else f"{mode:o}")
    kept = open(terms, "rb").read()
    for name, text in (("damaged", b"port=x\n"), ("empty", b""), ("cut", kept[:-1])):
        trial.file("store-terms", text)
        trial.ends(f"beside it, {name} terms", 2, "upsd: the store .*terms", *here, *peers)
    os.remove(terms)
    trial.ends("beside it, no terms", 2, "upsd: the store .*another process uses it, and its terms can't be read", *here, *peers)
    os.symlink(trial.file("elsewhere", kept), terms)
    trial.ends("beside it, a link", 2, "upsd: the store .*it is not what a server writes", *here, *peers)
    os.remove(terms)
    trial.file("store-terms", kept)
    trial.ends("beside it, its terms again", 0, "INFO .*store: it is in use", *here, *peers)


def free_port() -> int:
    with socket.socket() as found:
        found.bind(("127.0.0.1", 0))
        return int(found.getsockname()[1])


def try_ports(trial: Trial) -> None:
    """Looks at ports beside a server that listens on one; starts a server with links in the place of its terms; and starts one on
    a port that is taken, which may not touch the store."""
    store, port = trial.path("ported"), free_port()
    made = trial.run("init", store)
    trial.results.tell("a store is made", made.stderr or None)
    victim = trial.file("victim", b"kept")
    os.symlink(victim, f"{store}-terms")
    os.symlink(victim, f"{store}-terms.new")
    words = ("serve", "--ae", "UPSD", "--bind", "127.0.0.1", "--store", store)
    with subprocess.Popen([*trial.program, *words, "--port", str(port)], stderr=subprocess.DEVNULL) as server, socket.socket() as other:
        other.bind(("127.0.0.1", 0))
        other.listen()
        taken = other.getsockname()[1]
        holds(lambda: listens(port), SECONDS)
        is_own = not os.path.islink(f"{store}-terms") and not os.path.lexists(f"{store}-terms.new")
        trial.results.tell("no link is followed", None if is_own and open(victim, "rb").read() == b"kept" else "one is")
        trial.ends("beside it, its own port", 0, "INFO", *words, "--check", "--port", str(port))
        trial.ends("beside it, a free port", 0, "INFO", *words, "--check", "--port", str(free_port()))
        trial.ends("beside it, a port that is taken", 2, f"upsd: it can't listen on 127.0.0.1, port {taken}", *words, "--check", "--port", str(taken))
        server.kill()
        server.wait()
        shutil.copyfile(EARLIER, store)
        os.remove(f"{store}-wal")
        before = content(store)
        trial.ends("a start on a port that is taken", 2, f"upsd: it can't listen on 127.0.0.1, port {taken}", *words, "--port", str(taken), *ITS_SETTINGS)
        trial.results.tell("leaves a store of an earlier format as it was", None if content(store) == before else "it does not")


def try_files(trial: Trial) -> None:
    """Gives good files of peers."""
    asked = WATCH.format("W1", "TRUE") + WATCH.format("W2", "TRUE") + WATCH.format("W3", "FALSE") + WATCH.format("-W4", "FALSE")
    lines = b"# watchers\n\n  W1=localhost:104,lock \r\n\t# W3=localhost:1\nW2=localhost:105\n-W4=localhost:106"
    good = trial.file("good", lines)
    granted = "0000\nB301\nC308\n0000\n"
    trial.ends("a file of peers", 0, "^$", "script", "--peers", good, given=asked, written=granted)
    trial.ends("with = before it", 0, "^$", "script", f"--peers={good}", given=asked, written=granted)
    trial.ends("and a peer of the command line", 0, "^$", "script", "--peers", good, "W3=localhost:1", given=asked, written=granted.replace("C308", "0000"))
    trial.ends("behind --", 0, "^$", "script", "--peers", good, "--", "W3=localhost:1", given=asked, written=granted.replace("C308", "0000"))
    trial.ends("of serve", 0, "peers=3 watchers=3", *SERVE, "--peers", good)
    trial.ends("of pipe", 0, "^$", "pipe", "--ae", "UPSD", "--peers", good)
    trial.ends("without a peer", 0, "peers=0 watchers=0", *SERVE, "--peers", trial.file("none", b"# none\n\n"))
    many = "".join(f"W{at}=localhost:104\n" for at in range(MOST_PEERS)).encode()
    trial.ends("as many as may be", 0, "^$", "script", "--peers", trial.file("many", many), given=WATCH.format("W999", "FALSE"), written="0000\n")
    trial.ends("as large as may be", 0, "^$", "script", "--peers", trial.file("large", b"#" * (MOST_BYTES - 1) + b"\n"))
    store = trial.path("compacted")
    with Stored(trial.program, store, "--peers", good):
        pass
    trial.ends("of compact", 0, "", "compact", "--peers", good, store, written=f"{store}: 0 requests, 0 before\n")


def try_wrong_files(trial: Trial) -> None:
    """Gives files of peers that are refused."""
    def refused(name: str, told: str, content: bytes, *words: str) -> None:
        path = trial.file("wrong", content)
        trial.ends(name, 1, f"^upsd: {told.format(path=path)}\n$", *SERVE, "--peers", path, *words)

    refused("a line that is no peer", "--peers {path}: line 3 is no PEER: AE=host:port or AE=host:port,lock", b"W1=localhost:104\n\nW2=localhost\n")
    refused("two on a line", "--peers {path}: line 1 is no PEER: .*", b"W1=localhost:104 W2=localhost:105\n")
    refused("a comment behind a peer", "--peers {path}: line 1 is no PEER: .*", b"W1=localhost:104 # the first\n")
    refused("no UTF-8", "--peers {path}: it is not UTF-8", b"W1=\xff:104\n")
    refused("a file that is too large", f"--peers {{path}}: it has more than {MOST_BYTES} bytes", b"#" * (MOST_BYTES + 1))
    refused("one peer too many", "--peers {path}: more than 1,000 PEERs are named", b"".join(b"W%d=h:1\n" % at for at in range(MOST_PEERS + 1)))
    full = b"".join(b"W%d=h:1\n" % at for at in range(MOST_PEERS))
    refused("one with that of the command line", "more than 1,000 PEERs are named", full, "V1=h:1")
    refused("a peer twice", "a PEER is named twice", b"W1=localhost:104\n", "W1=localhost:105")
    missing = trial.path("no such file")
    for name, path in (("a file that is missing", missing), ("a folder", trial.folder)):
        trial.ends(name, 1, f"^upsd: --peers {path}: it can't be read: .+\n$", *SERVE, "--peers", path)
    trial.ends("a file without end", 1, "it has more than", *SERVE, "--peers", "/dev/zero")
    trial.ends("no file", 1, "--peers", *SERVE, "--peers")
    trial.ends("an empty name", 1, "--peers", *SERVE, "--peers", "")
    trial.ends("two files", 1, "--peers", *SERVE, "--peers", missing, "--peers", missing)
    trial.ends("a file for init", 1, "--peers", "init", "--peers", missing, trial.path("made"))


def main() -> None:
    asked = arguments(__doc__)
    with tempfile.TemporaryDirectory() as folder:
        trial = Trial(asked.program.split(), folder)
        for each in (try_words, try_stores, try_used, try_ports, try_files, try_wrong_files):
            each(trial)
    trial.results.end()


if __name__ == "__main__":
    main()
