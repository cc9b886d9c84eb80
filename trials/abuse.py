#!/usr/bin/env python3
"""Tries `upsd serve` with hostile peers: 4 workers, and limits of 3 seconds (`--idle`, `--timeout`).

After each kind, 4 working peers must be served with C-ECHO at the same time, which shows that each worker is back: within
2 limits while the hostile peers still hold their connections, and within one limit after they are gone. In the end the
server's memory (VmHWM) must have stayed under 100 MB, no thread may be lost, and SIGTERM must end it.

    say nothing         such a connection is closed within 2 limits, even if nobody else connects
    close in a PDU      in the header, in the body, in an association and in a message of a megabyte; half of them with a reset
    garbage             random bytes, other protocols, PDUs out of place or with wrong lengths, before and in an association:
                        the server hangs up on each within one limit
    a byte a second     from the first byte, in the body of an association request, and in the header and in the body of a
                        P-DATA-TF: such a peer loses its worker within 2 limits
    never read          200 C-FINDs with 50 answers of 10 KB each, none of which the peer reads: it loses its worker within 2
                        limits
    1,000 silent peers  connect at the same time and say nothing. A silent connection is closed if another one waits, so a
                        working peer that comes after them is served within one limit of 10 seconds

Then come the crowds: 200 peers of one kind at the same time, on a server of their own with limits of 2 seconds.

    opens, never asks   opens an association, and does nothing more
    half open           the same, but then vanishes without a word (by TCP_REPAIR, as root; otherwise it stays and is silent)
    slow sender         sends a byte of a P-DATA-TF every 0.7 seconds
    empty fragments     sends P-DATA-TFs forever, each with one empty PDV of a command set that never ends
    asks, never reads   sends 200 C-FINDs with 20 answers of 10 KB each, and reads none of them
    slow taker          the same, but reads a byte a second
    storm               connections that are closed at once, half of them with a reset, as fast as 8 threads make them

First all kinds come at the same time, each to a server of its own with 4 workers. The peers are served in order, 4 at a
time, and make way after half a second; so a working peer after all of them is served within 40 seconds, and one beside the
storm, which retries if it can't connect, within 2 limits. The last thing that a peer of `opens, never asks` or `slow sender`
hears before it is cut off is an A-ABORT of the service provider; for each kind but the storm, the log says why. Then they
come, twice, to servers with a worker for each of them and 4 more, one kind after the other: 4 working peers beside them are
served at the same time within 2 limits.

Then a peer asks for steps by a pattern of 32,500 letters that none of 4,000 labels of 65,000 letters fits, which takes the server
minutes. For ten seconds another gets each step that it asks for within 50 ms meanwhile.

After a crowd is gone, the server is done with each of its connections within 15 limits. Then 4 working peers are served within
2 limits; no thread and no descriptor may be lost, and the memory (VmRSS) must come back, but for 16 MB: to what it was before,
or with a worker for each peer to what the first crowd left.

It starts the servers on free ports of this machine and ends by itself, after six minutes. It prints a line for each
trial that fails, and in the end how many passed. The status is 1 if any failed. With --no-memory it does not judge the
memory, and lets an answer beside a slow query take a second, for a program that is built with checks.
"""

import asyncio
import contextlib
import os
import random
import resource
import select
import signal
import socket
import struct
import sys
import threading
import time

sys.path.insert(0, os.path.join(os.path.dirname(os.path.dirname(os.path.abspath(__file__))), "check/lib"))
import dicom
from dicom import EXPLICIT, IMPLICIT, PULL, PUSH, VERIFICATION, pdu
from machine import described, holds
from peer import PULL_ON, PUSH_ON, Caller, connect, told
from results import Results
from server import Server

WORKERS = 4
LIMIT = 3
SLOW = 2 * LIMIT  # how long a peer that sends or reads slowly may hold its worker
SILENT = 1000
QUEUE = 10  # the time limit of the server that silent peers crowd
MEMORY = 100_000_000
CROWD = 200
SHORT = 2  # the limits of a server that a crowd attacks
BEHIND = 40  # seconds that a peer that comes after a crowd may wait: half a second for each four of them, and a look at the door
LABEL, LABELS, LETTERS = (0x0074, 0x1204), 4_000, 65_000  # the labels of the steps that a slow query is compared with
BESIDE, PROMPT = 10, 0.05  # seconds for which others ask beside it, and within which each is answered
LEFT = 15 * SHORT  # how long the connections of a crowd that is gone may remain
PACE = 0.35 * SHORT  # seconds between two bytes of a slow sender: none comes just as a limit ends
STEPS, FEW_STEPS = 50, 20  # of 10 KB each, that a peer asks for, and a peer of a crowd
SEGMENT = 536  # bytes of a segment to a peer of a crowd: the system then holds some 100 KB that the peer doesn't read
GROWTH = 16_000_000  # bytes by which the memory may grow with a crowd
STORM = 4  # seconds
TCP_REPAIR = 19
ABORT = bytes.fromhex("07000000000400000200")  # by the service provider, reason not specified
FAULTS = (OSError, EOFError, AssertionError)

REQUEST = dicom.associate([(VERIFICATION, IMPLICIT), (PULL, EXPLICIT)])
ECHO = dicom.echo(1)


def begin(port, opened):
    """Returns a connection, with an association on it if `opened`."""
    return Caller(port, LIMIT, ((VERIFICATION, IMPLICIT), (PULL, EXPLICIT))).socket if opened else connect(port, LIMIT)


def all_back(port, seconds):
    """Returns why working peers, one for each worker, are not served at the same time within that many seconds, or None."""
    served, faults, over = [], [], threading.Event()

    def work():
        try:
            peer = Caller(port, seconds)
            assert peer.ask(ECHO) == 0
            served.append(peer)
            while not over.wait(LIMIT / 10):
                assert peer.ask(ECHO) == 0
            peer.release()
        except FAULTS as fault:
            faults.append(repr(fault))

    threads = [threading.Thread(target=work, daemon=True) for _ in range(WORKERS)]
    for it in threads:
        it.start()
    good = holds(lambda: len(served) == WORKERS, seconds)
    over.set()
    for it in threads:
        it.join(seconds + LIMIT)
    return None if good else f"{len(served)} of {WORKERS} workers are back after {seconds} s {faults}"


# the hostile peers: each function lets them say what they say; the stack closes what they hold

def say_nothing(port, stack):
    peers = [stack.enter_context(connect(port, LIMIT)) for _ in range(WORKERS)]
    deadline = time.monotonic() + SLOW
    closed = sum(hung_up(it, deadline) for it in peers)
    assert closed == len(peers), f"{closed} of {len(peers)} silent connections are closed after {SLOW} s"


def close_inside(port, stack):
    for opened, said in ((False, REQUEST[:1]), (False, REQUEST[:5]), (False, REQUEST[:6]), (False, REQUEST[:-1]), (True, ECHO[:3]),
                         (True, ECHO[:6]), (True, ECHO[:-1]), (True, pdu(4, bytes(16384))[:9000]), (True, a_large_message())):
        for reset in (False, True) * 5:
            with begin(port, opened) as peer:
                peer.sendall(said)
                if reset:
                    peer.setsockopt(socket.SOL_SOCKET, socket.SO_LINGER, struct.pack("ii", 1, 0))


def a_large_message():
    """Returns an N-CREATE of a megabyte without its last byte."""
    return dicom.create(3, 1, b"1.2.3", bytes(1_000_000))[:-1]


def garbage():
    """Yields whether it is said in an association, and what is said."""
    chance = random.Random(1)
    fixed = [b"GET / HTTP/1.1\r\nHost: a\r\n\r\n", bytes.fromhex("16030100c8010000c40303") + bytes(200), bytes(1000), b"\xff" * 1000,
             struct.pack(">BBI", 1, 0, 0xFFFFFFFF), struct.pack(">BBI", 4, 0, 0xFFFFFFFF), struct.pack(">BBI", 4, 0, 16385),
             pdu(1, b""), pdu(1, bytes(68)), pdu(2, bytes(68)), pdu(5, b""), pdu(4, b""), pdu(4, bytes(4)), pdu(4, b"\xff" * 16384),
             pdu(4, struct.pack(">IBB", 2, 9, 3)), pdu(4, struct.pack(">IBB", 2, 1, 0)), pdu(4, struct.pack(">IBB", 2, 1, 3)),
             dicom.message(1, b"\xff" * 100), dicom.message(1, dicom.command([(0x0100, b"\x30\x00")])), REQUEST[:100] + b"\xff" * (len(REQUEST) - 100)]
    for opened in (False, True):
        for said in fixed:
            yield opened, said
        for _ in range(30):
            yield opened, bytes([chance.randrange(8, 256)]) + chance.randbytes(chance.randrange(6, 2000))
            yield opened, pdu(1 if not opened else 4, chance.randbytes(chance.randrange(68, 2000)))


def hung_up(peer, deadline):
    """Returns whether the server hangs up on a peer before the deadline."""
    try:
        while True:
            peer.settimeout(max(deadline - time.monotonic(), 0.001))
            if not peer.recv(65536):
                return True
    except TimeoutError:
        return False
    except OSError:
        return True


def say_garbage(port, stack):
    for opened, said in garbage():
        with begin(port, opened) as peer:
            with contextlib.suppress(ConnectionError):
                peer.sendall(said)
            assert hung_up(peer, time.monotonic() + LIMIT), f"not hung up on {'in' if opened else 'before'} an association after {said[:20].hex()}"


def slowly(opened, said, at_once):
    """Returns a function for peers, one for each worker, that say the first `at_once` bytes at once and then a byte a second."""
    def drip(peer, over):
        with contextlib.suppress(OSError):
            peer.sendall(said[:at_once])
            for i in range(at_once, len(said)):
                if over.wait(1):
                    break
                peer.sendall(said[i:i + 1])

    def hostile(port, stack):
        over = threading.Event()
        for _ in range(WORKERS):
            peer = stack.enter_context(begin(port, opened))
            threading.Thread(target=drip, args=(peer, over), daemon=True).start()
        stack.callback(over.set)
        time.sleep(0.5)  # so that they have the workers before others come

    return hostile


COMMENT = 0x0040, 0x1400  # Requested Procedure Comments
BOTH = (PUSH, EXPLICIT), (PULL, EXPLICIT)


def create_steps(port, count):
    """Creates that many steps of 10 KB each."""
    peer = Caller(port, SLOW, BOTH)
    for i in range(count):
        assert peer.ask(dicom.create(PUSH_ON, 1, b"1.2.0.%d" % i, dicom.step(True, {COMMENT: (b"LT", bytes(10_000))}))) == 0
    peer.release()


def finds():
    """Returns 200 C-FINDs, each for all of the steps."""
    return dicom.find(PULL_ON, 1, told(0x0008, 0x0018, b"UI", b"") + told(*COMMENT, b"LT", b"")) * 200


def never_read(port, stack):
    """Creates steps, and peers that ask for all of them again and again."""
    create_steps(port, STEPS)
    for _ in range(WORKERS):
        peer = Caller(port, LIMIT, BOTH, 4096)
        stack.enter_context(peer.socket)
        peer.socket.sendall(finds())
    before, now = None, unsent(port)
    while now != before:  # the limit of a write begins when the kernel takes no more
        time.sleep(LIMIT / 2)
        before, now = now, unsent(port)


def connections(port):
    """Returns the kernel's rows of the connections to the server that are open, or that the peer alone has closed."""
    with open("/proc/net/tcp") as it:
        rows = [line.split() for line in it][1:]
    return [row for row in rows if row[1].endswith(f":{port:04X}") and row[3] in ("01", "08")]


def unsent(port):
    """Returns how many bytes of what the server has written the kernel still holds, by connection."""
    return sorted((row[2], row[4].split(":")[0]) for row in connections(port) if row[3] == "01")


def silent(port, count, stack):
    """Opens that many connections that say nothing."""
    peers = []
    for _ in range(count):
        peer = stack.enter_context(socket.socket())
        peer.setblocking(False)
        peer.connect_ex(("127.0.0.1", port))
        peers.append(peer)
    return peers


def leave_silently(port, stack):
    with contextlib.ExitStack() as own:
        silent(port, SILENT, own)
        time.sleep(LIMIT / 2)


def hostile_trial(server, results, name, hostile, seconds):
    """Fails if not all workers are back that many seconds after the hostile peers have said what they say, or after they are gone."""
    with contextlib.ExitStack() as stack:
        try:
            hostile(server.port, stack)
            fault = all_back(server.port, seconds)
        except FAULTS as it:
            fault = repr(it)
        results.tell(name, fault)
    results.tell(f"{name}, when they are gone", all_back(server.port, LIMIT))


def served(port, seconds, to_connect):
    """Returns after how many seconds a working peer is served, or None if it isn't in time. It tries again if it can't connect
    within `to_connect` seconds, and then waits for its turn."""
    began = time.monotonic()
    while (left := began + seconds - time.monotonic()) > 0:
        with contextlib.suppress(*FAULTS):
            peer = Caller(port, left, to_connect=min(left, to_connect))
            assert peer.ask(ECHO) == 0
            waited = time.monotonic() - began
            peer.release()
            return waited if waited <= seconds else None
    return None


def silent_trial(program, results):
    """Tries silent peers on a server of their own, and a working peer after them: returns after how long that one was served,
    and the memory."""
    with Server(program, "--associations", str(WORKERS), "--timeout", str(QUEUE), "--idle", str(QUEUE)) as server, contextlib.ExitStack() as stack:
        silent(server.port, SILENT, stack)
        waited = served(server.port, QUEUE, QUEUE)
        results.tell(f"a peer behind {SILENT} silent ones", None if waited else f"it is not served within {QUEUE} s")
        results.tell(f"{SILENT} silent peers, all workers", all_back(server.port, QUEUE))
        return waited, status(server, "VmHWM")


def status(server, field):
    with open(f"/proc/{server.process.pid}/status") as it:
        return next(int(line.split()[1]) for line in it if line.startswith(field))


def threads(server):
    return len(os.listdir(f"/proc/{server.process.pid}/task"))


def descriptors(server):
    return len(os.listdir(f"/proc/{server.process.pid}/fd"))


# a crowd: each function lets one of its peers do what it does, until it is cut off

class Holder:
    """A peer of a crowd, what it has heard, and whether it was cut off."""

    def __init__(self):
        self.socket, self.heard, self.is_cut = socket.socket(), b"", False
        self.socket.setblocking(False)
        self.socket.setsockopt(socket.SOL_SOCKET, socket.SO_RCVBUF, 4096)
        self.socket.setsockopt(socket.IPPROTO_TCP, socket.TCP_MAXSEG, SEGMENT)

    async def connect(self, port):
        await asyncio.get_running_loop().sock_connect(self.socket, ("127.0.0.1", port))

    async def say(self, said):
        await asyncio.get_running_loop().sock_sendall(self.socket, said)

    async def hear(self, count=65536):
        more = await asyncio.get_running_loop().sock_recv(self.socket, count)
        if not more:
            self.is_cut = True
            raise EOFError
        self.heard += more

    async def hear_all(self):
        while True:
            await self.hear()


async def opens_alone(holder):
    await holder.say(REQUEST)
    await holder.hear_all()


async def goes_away(holder):
    await holder.say(REQUEST)
    await holder.hear()
    with contextlib.suppress(PermissionError):
        holder.socket.setsockopt(socket.IPPROTO_TCP, TCP_REPAIR, 1)
        holder.socket.close()
    await asyncio.sleep(BEHIND)


async def sends_slowly(holder):
    await holder.say(REQUEST)
    await holder.hear()
    with contextlib.suppress(ConnectionError):
        for i in pdu(4, bytes(16384)):
            await holder.say(bytes([i]))
            await asyncio.sleep(PACE)
    await holder.hear_all()


async def sends_nothing(holder):
    await holder.say(REQUEST)
    await holder.hear()
    with contextlib.suppress(ConnectionError):
        while True:
            await holder.say(pdu(4, struct.pack(">IBB", 2, 1, 1)))
            await asyncio.sleep(0.02)
    await holder.hear_all()


async def never_reads(holder):
    await holder.say(dicom.associate(BOTH))
    await holder.say(finds())
    await asyncio.sleep(BEHIND)


async def takes_slowly(holder):
    await holder.say(dicom.associate(BOTH))
    await holder.say(finds())
    while True:
        await holder.hear(1)
        await asyncio.sleep(1)


async def hold(port, kind, holders, over):
    """Lets peers of a kind come at the same time, until all are cut off or it is over."""
    async def one(holder):
        with contextlib.suppress(*FAULTS):
            await holder.connect(port)
            await kind(holder)

    tasks = [asyncio.create_task(one(it)) for it in holders]
    while not over.is_set() and not all(it.done() for it in tasks):
        await asyncio.sleep(0.1)
    for it in tasks:
        it.cancel()
    await asyncio.gather(*tasks, return_exceptions=True)


@contextlib.contextmanager
def crowd(port, kind, holders):
    over = threading.Event()
    thread = threading.Thread(target=asyncio.run, args=(hold(port, kind, holders, over),), daemon=True)
    thread.start()
    time.sleep(1)  # so that they have the workers, or wait for one, before others come
    try:
        yield
    finally:
        over.set()
        thread.join()
        for it in holders:
            it.socket.close()


@contextlib.contextmanager
def storm(port):
    """Makes connections that are closed at once. Each thread has an address of its own, since one address has too few ports."""
    end = time.monotonic() + STORM

    def blow(source):
        while time.monotonic() < end:
            with contextlib.suppress(OSError), connect(port, LIMIT, source=source) as peer:
                if random.random() < 0.5:
                    peer.setsockopt(socket.SOL_SOCKET, socket.SO_LINGER, struct.pack("ii", 1, 0))

    blowing = [threading.Thread(target=blow, args=(f"127.0.0.{2 + i}",), daemon=True) for i in range(8)]
    for it in blowing:
        it.start()
    time.sleep(1)
    try:
        yield
    finally:
        for it in blowing:
            it.join()


def is_left(port):
    """Returns whether in time no connection to the server is open or waits."""
    return holds(lambda: not connections(port), LEFT)


def resources_of(server):
    """Returns how many threads, descriptors and bytes of memory the server has."""
    return threads(server), descriptors(server), status(server, "VmRSS") * 1024


def what_is_lost(server, before, growth):
    """Returns why threads, descriptors or memory are not what they were, or None. The memory may grow by `growth` bytes."""
    def is_back():
        now = resources_of(server)
        return now[0] == before[0] and now[1] <= before[1] and now[2] <= before[2] + growth

    if holds(is_back, SHORT):
        return None
    return "threads, descriptors and memory are {}, {} and {:,}, and were {}, {} and {:,}".format(*resources_of(server), *before)


def settled(server):
    """Returns the same when nobody is connected, with the fewest descriptors in a second: one may be about to be closed."""
    is_left(server.port)
    looks = []
    for _ in range(10):
        looks.append(resources_of(server))
        time.sleep(0.1)
    return looks[-1][0], min(it[1] for it in looks), looks[-1][2]


def server_of(program, workers):
    return Server(program, "--associations", str(workers), "--timeout", str(SHORT), "--idle", str(SHORT))


def behind_trial(program, results, growth, name, kind, limit, is_aborted):
    """Tries a crowd of a kind, which runs into a limit, on a server with few workers."""
    with server_of(program, WORKERS) as server:
        create_steps(server.port, FEW_STEPS)
        results.tell(f"{name}, before", all_back(server.port, SHORT))
        before = settled(server)
        holders = [Holder() for _ in range(CROWD if kind else 0)]
        with crowd(server.port, kind, holders) if kind else storm(server.port):
            seconds, to_connect = (BEHIND, 1) if kind else (2 * SHORT, 0.1)
            waited = served(server.port, seconds, to_connect)
            results.tell(f"a peer behind {CROWD} of: {name}", None if waited else f"it is not served within {seconds} s")
        if is_aborted:
            cut = [it.heard for it in holders if it.is_cut]
            aborted = sum(it.endswith(ABORT) for it in cut)
            good = len(cut) > CROWD // 2 and aborted == len(cut)
            results.tell(f"{name}, A-ABORT", None if good else f"heard by {aborted} of {len(cut)} that were cut off")
        tell_gone(server, results, f"{name}, when they are gone", before, growth)
        if limit:
            results.tell(f"{name}, log", None if any(f" serve: {limit} #" in it for it in server.log) else f"no line tells {limit}")


def beside_trial(program, results, growth, name, kind):
    """Tries a crowd of a kind on a server that has a worker for each of them, and more; and then another crowd."""
    with server_of(program, CROWD + WORKERS) as server:
        create_steps(server.port, FEW_STEPS)
        for turn in ("the first", "the second"):
            before = settled(server)
            holders = [Holder() for _ in range(CROWD if kind else 0)]
            with crowd(server.port, kind, holders) if kind else storm(server.port):
                results.tell(f"peers beside {turn} {CROWD} of: {name}", all_back(server.port, 2 * SHORT))
            tell_gone(server, results, f"{name}, when {turn} beside workers are gone", before, growth if turn == "the second" else sys.maxsize)


def tell_gone(server, results, name, before, growth):
    """Fails if connections, workers or resources are not back after a crowd is gone."""
    results.tell(f"{name}, all connections", None if is_left(server.port) else f"{len(connections(server.port))} are left after {LEFT} s")
    results.tell(f"{name}, all workers", all_back(server.port, 2 * SHORT))
    is_left(server.port)
    results.tell(f"{name}, what is lost", what_is_lost(server, before, growth))


KINDS = (
    ("opens, never asks", opens_alone, "MadeWay", True),
    ("half open", goes_away, "MadeWay", False),
    ("slow sender", sends_slowly, "MadeWay", True),
    ("empty fragments", sends_nothing, "MadeWay", False),
    ("asks, never reads", never_reads, "Timeout", False),
    ("slow taker", takes_slowly, "Timeout", False),
    ("storm", None, None, False),
)


def crowd_trials(program, results, growth):
    """Tries each kind of crowd: all at once in threads, on servers with few workers, and then one after the other."""
    def attempt(trial, name, *more):
        try:
            trial(program, results, growth, name, *more)
        except FAULTS as fault:
            results.tell(name, repr(fault))

    running = [threading.Thread(target=attempt, args=(behind_trial, *it), daemon=True) for it in KINDS]
    for it in running:
        it.start()
    for it in running:
        it.join()
    for name, kind, *_ in KINDS:
        attempt(beside_trial, name, kind)


def slow_query_trial(program, results, most):
    """Sends a query that is matched for minutes, and asks for steps beside it."""
    step = dicom.step(True, {LABEL: (b"LO", b"A" * LETTERS)})
    with Server(program, "--associations", "8") as server:
        filler = Caller(server.port, SLOW, BOTH)
        refused = [at for at in range(LABELS) if filler.ask(dicom.create(PUSH_ON, 1, b"1.2.3.%d" % at, step))]
        results.tell(f"{LABELS} steps with long labels", f"{len(refused)} were refused" if refused else None)
        asker, took = Caller(server.port, SLOW, BOTH), []
        asker.socket.sendall(dicom.find(PULL_ON, 1, told(*LABEL, b"LO", b"*?" + b"A" * (LETTERS // 2) + b"B*")))
        until = time.monotonic() + BESIDE
        while time.monotonic() < until:
            begun = time.monotonic()
            filler.ask(dicom.get(PUSH_ON, 1, b"1.2.3.%d" % (len(took) % LABELS)))
            took.append(time.monotonic() - begun)
        is_answered = select.select([asker.socket], [], [], 0)[0]
        results.tell("a slow query is matched all the while", "it was answered" if is_answered else None)
        results.tell(f"{len(took)} N-GETs beside it", f"one took {max(took):.3f} s" if max(took) > most else None)
        server.process.kill()


def end_trial(server, results):
    """Sends SIGTERM while hostile peers have all workers."""
    with contextlib.ExitStack() as stack:
        silent(server.port, 2 * WORKERS, stack)
        server.process.send_signal(signal.SIGTERM)
        ended = holds(lambda: server.process.poll() is not None, LIMIT)
        results.tell("SIGTERM", None if ended and server.process.returncode == -signal.SIGTERM else f"it ended with {server.process.poll()}")


def main():
    parser = described(__doc__, "*")
    parser.add_argument("--no-memory", action="store_true", help="don't judge the memory: the program is built with checks")
    asked = parser.parse_args()
    most = resource.getrlimit(resource.RLIMIT_NOFILE)[1]
    resource.setrlimit(resource.RLIMIT_NOFILE, (most, most))
    signal.signal(signal.SIGALRM, lambda *_: sys.exit("abuse.py: it does not end"))
    signal.alarm(1800)
    results = Results(tells_passed=False)
    with Server(asked.program, "--associations", str(WORKERS), "--timeout", str(LIMIT), "--idle", str(LIMIT)) as server:
        results.tell("before all", all_back(server.port, LIMIT))
        before, first = threads(server), status(server, "VmHWM")
        for name, hostile, seconds in (
            ("say nothing", say_nothing, LIMIT),
            ("close in a PDU", close_inside, LIMIT),
            ("garbage", say_garbage, LIMIT),
            ("a byte a second from the first", slowly(False, REQUEST, 0), SLOW),
            ("a byte a second in the body of a request", slowly(False, REQUEST, 20), SLOW),
            ("a byte a second in the header of a P-DATA-TF", slowly(True, pdu(4, bytes(16384)), 0), SLOW),
            ("a byte a second in the body of a P-DATA-TF", slowly(True, pdu(4, bytes(16384)), 20), SLOW),
            ("never read", never_read, SLOW),
            (f"{SILENT} silent peers that leave", leave_silently, LIMIT),
        ):
            hostile_trial(server, results, name, hostile, seconds)
        most = status(server, "VmHWM")
        results.tell("threads", None if holds(lambda: threads(server) == before, LIMIT) else f"{threads(server)}, and {before} at the start")
        end_trial(server, results)
    waited, crowded = silent_trial(asked.program, results)
    most = max(most, crowded)
    crowd_trials(asked.program, results, sys.maxsize if asked.no_memory else GROWTH)
    slow_query_trial(asked.program, results, 1 if asked.no_memory else PROMPT)
    if not asked.no_memory:
        results.tell("memory", None if most * 1024 < MEMORY else f"VmHWM is {most * 1024:,} bytes")
    waited = f", a peer behind {SILENT} silent ones served after {waited:.1f} s" if waited else ""
    results.end(f"VmHWM {first / 1024:.1f} MiB at the start, {most / 1024:.1f} MiB in the end{waited}")


if __name__ == "__main__":
    main()
