"""Runs a program whose input, output or memory runs out, or whose calls a signal interrupts; and runs it as a server."""

from __future__ import annotations

import contextlib
import dataclasses
import fcntl
import os
import re
import resource
import signal
import socket
import struct
import subprocess
import tempfile
import termios
import threading
import time
from collections.abc import Iterable, Iterator, Sequence
from subprocess import TimeoutExpired
from typing import IO, Any, Optional, Union

from server import Server

SECONDS = 30  # for one run
ACTIONS = "Change", "Cancel", "Subscribe", "Unsubscribe", "Suspend"  # how a line of the log names an N-ACTION that was refused
LIMIT = struct.pack("ll", SECONDS, 0)
PAUSE = 0.0001
Word = Union[str, bytes]  # of a command line


@dataclasses.dataclass
class Ran:
    """The outcome of a run: its exit status, its output, and what it said on standard error."""

    status: int
    output: bytes
    said: bytes


def run(words: Sequence[Word], given: bytes = b"", *, source: Optional[socket.socket] = None, room: Optional[int] = None,
        memory: Optional[int] = None) -> Ran:
    """Runs a program on an input: the bytes `given`, or those of a source. If these are given, its output has room for `room`
    bytes, and its data for `memory` kilobytes."""
    more: dict[str, Any] = {"input": given} if source is None else {"stdin": source}
    if memory is not None:
        limits = memory * 1024, memory * 1024
        more["preexec_fn"] = lambda: resource.setrlimit(resource.RLIMIT_DATA, limits)
    with tempfile.TemporaryFile() as output, files_of(room):
        ran = subprocess.run(words, **more, stdout=output, stderr=subprocess.PIPE, timeout=SECONDS, restore_signals=False)
        output.seek(0)
        return Ran(ran.returncode, output.read(), ran.stderr)


def run_typed(words: Sequence[Word], lines: Iterable[bytes]) -> Ran:
    """Runs a program that is given each line after the reply to the one before has come."""
    with subprocess.Popen(words, stdin=subprocess.PIPE, stdout=subprocess.PIPE, stderr=subprocess.PIPE) as child:
        guard = threading.Timer(SECONDS, child.kill)
        guard.start()
        output = b""
        assert child.stdin and child.stdout
        for line in lines:
            child.stdin.write(line)
            child.stdin.flush()
            output += child.stdout.readline()
        rest, said = child.communicate()
        guard.cancel()
    return Ran(child.returncode, output + rest, said)


@contextlib.contextmanager
def files_of(room: Optional[int]) -> Iterator[None]:
    """Lets programs that start within write files of `room` bytes. After these a write fails: Python, and so the program,
    ignores the signal for that."""
    soft, hard = resource.getrlimit(resource.RLIMIT_FSIZE)
    resource.setrlimit(resource.RLIMIT_FSIZE, (soft if room is None else room, hard))
    try:
        yield
    finally:
        resource.setrlimit(resource.RLIMIT_FSIZE, (soft, hard))


@contextlib.contextmanager
def broken(given: bytes) -> Iterator[socket.socket]:
    """Yields a source of these bytes, after which a read fails: a socket is reset if the other end leaves something unread."""
    source, peer = socket.socketpair()
    with source:
        with peer:
            peer.sendall(given)
            source.sendall(b"x")
        yield source


@contextlib.contextmanager
def lasting(given: bytes) -> Iterator[socket.socket]:
    """Yields a source of these bytes that does not end as long as it is read."""
    source, peer = socket.socketpair()
    with source, peer:
        peer.sendall(given)
        yield source


def run_shaken(words: Sequence[Word], given: bytes) -> Ran:
    """Runs a program that gets its input byte by byte, and room for its output byte by byte. A signal interrupts each call
    that waits for either."""
    source, giver = timed_pair(socket.SO_RCVTIMEO)
    sink, taker = timed_pair(socket.SO_SNDTIMEO)
    taker.settimeout(SECONDS)
    with source, giver, taker:
        with sink:
            before = fill(sink)
            child = subprocess.Popen(words, stdin=source.fileno(), stdout=sink.fileno(), stderr=subprocess.PIPE)
        with child:
            assert child.stderr
            output = shake(child, given, source, giver, taker)
            said = child.stderr.read()
        return Ran(child.returncode, output[before:], said)


def timed_pair(what: int) -> tuple[socket.socket, socket.socket]:
    """Returns a socket with a time limit, and its peer. A call that a signal interrupts fails only if there is a limit."""
    one, other = socket.socketpair()
    one.setsockopt(socket.SOL_SOCKET, what, LIMIT)
    return one, other


def fill(sink: socket.socket) -> int:
    """Fills a socket so that it has no room, and returns how many bytes that took."""
    sink.setsockopt(socket.SOL_SOCKET, socket.SO_SNDBUF, 1)
    sink.setblocking(False)
    count = 0
    with contextlib.suppress(BlockingIOError):
        while True:
            count += sink.send(b"x")
    sink.setblocking(True)
    return count


def shake(child: subprocess.Popen[bytes], given: bytes, source: socket.socket, giver: socket.socket, taker: socket.socket) -> bytes:
    """Stops a program each time that it waits, and lets it go on after giving it a byte, or the end; or after taking one from
    it, if it has not read the last one yet, and so waits for room. Returns its output."""
    output, place = b"", 0
    while stops(child):
        if place <= len(given) and not unread(source):
            giver.send(given[place:place + 1]) if place < len(given) else giver.shutdown(socket.SHUT_WR)
            place += 1
        else:
            output += taker.recv(1)
        os.kill(child.pid, signal.SIGCONT)
    return output + rest_of(taker)


def unread(source: socket.socket) -> int:
    """Returns how many bytes wait to be read."""
    count: int = struct.unpack("i", fcntl.ioctl(source, termios.FIONREAD, bytes(4)))[0]
    return count


def stops(child: subprocess.Popen[bytes]) -> bool:
    """Waits until a program waits, and then stops it; returns False if it has ended."""
    end = time.monotonic() + SECONDS
    while state_of(child.pid) not in "SZ":
        if time.monotonic() > end:
            child.kill()
            raise TimeoutExpired(child.args, SECONDS)
        time.sleep(PAUSE)
    os.kill(child.pid, signal.SIGSTOP)
    how = os.waitid(os.P_PID, child.pid, os.WSTOPPED | os.WEXITED | os.WNOWAIT)
    return how.si_code == os.CLD_STOPPED


def state_of(pid: int) -> str:
    """Returns the state of a process, as the letter in /proc: S if it waits, Z if it has ended."""
    with open(f"/proc/{pid}/stat", encoding="utf-8") as told:
        return told.read().rpartition(") ")[2][0]


def rest_of(connection: socket.socket) -> bytes:
    """Returns all that comes over a connection until it is closed."""
    found = b""
    with contextlib.suppress(ConnectionResetError):
        while more := connection.recv(65536):
            found += more
    return found


@contextlib.contextmanager
def serving(program: str, peers: Sequence[str] = ()) -> Iterator[tuple[IO[bytes], Server]]:
    """Yields the log of a new server with these peers, and the server, which ends within SECONDS."""
    with logging(program, peers) as (log, server):
        guard = threading.Timer(SECONDS, server.process.kill)
        guard.start()
        try:
            yield log, server
        finally:
            guard.cancel()


@contextlib.contextmanager
def logging(program: str, words: Sequence[str] = ()) -> Iterator[tuple[IO[bytes], Server]]:
    """Yields the log of a new server, which goes to a file, and the server, which also gets these words."""
    with tempfile.NamedTemporaryFile() as log, open(log.name, "rb") as told, Server([program], *words, error=log) as server:
        yield told, server


def serve(program: str, given: bytes, lasts: bool = False) -> tuple[bytes, str]:
    """Returns what a new server answers to these bytes, and how the association ended, by its log. The input ends after them,
    or lasts."""
    with serving(program) as (log, server), connected(server.port) as connection:
        return exchange(connection, given, lasts), end_in(log, server, "serve")


def deliver(program: str, peers: Sequence[str], host: str, asked: bytes, given: bytes) -> tuple[bytes, str]:
    """Returns what a watcher hears, and how its association ended, by the log. It listens at a host, on the port that PORT
    stands for in the words that name peers. A new server is first sent `asked`, and then `given` by the watcher."""
    with socket.create_server((host, 0)) as listener:
        listener.settimeout(SECONDS)
        place = str(listener.getsockname()[1])
        with serving(program, [it.replace("PORT", place) for it in peers]) as (log, server):
            with connected(server.port) as connection:
                exchange(connection, asked)
            with listener.accept()[0] as connection:
                return exchange(connection, given), end_in(log, server, "deliver W1")


def connected(port: int) -> socket.socket:
    """Returns a connection with a port of this machine."""
    return socket.create_connection(("127.0.0.1", port), SECONDS)


def exchange(connection: socket.socket, given: bytes, lasts: bool = False) -> bytes:
    """Sends these bytes over a connection, and returns what comes until it is closed."""
    with contextlib.suppress(OSError):  # the other side may hang up before all is sent
        connection.sendall(given)
        if not lasts:
            connection.shutdown(socket.SHUT_WR)
    return rest_of(connection)


def end_in(log: IO[bytes], server: Server, who: str) -> str:
    """Waits until the log of a server says how an association of this kind ended, and returns how the first did. Lines of
    refused requests do not count."""
    while True:
        is_over = server.process.poll() is not None
        log.seek(0)
        for line in log.read().decode().split("\n")[:-1]:
            found = re.search(rf"{who}: (\w+)( #.*|, .*)?$", line)
            if found and found[1] not in ACTIONS:
                return found[1]
        if is_over:
            return "nothing"
        time.sleep(10 * PAUSE)
