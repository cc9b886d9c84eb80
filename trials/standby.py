#!/usr/bin/env python3
"""Tries `upsd` with a standby: two machines that share a store by DRBD, and a third that has a vote.

    trials/standby.py make    a Debian 12 with the package of upsd, DRBD, Corosync, Pacemaker and SBD (600 MB of Debian packages)
    trials/standby.py up      starts the machines a, b and c, and makes the cluster
    trials/standby.py try     tries what follows, or what is named (hypervisor: alone, and after `down`)
    trials/standby.py down    ends the machines
    trials/standby.py all     does all of this in one go, from nothing, and then tries hypervisor

The machines are virtual (QEMU), with the files of packaging/cluster, and all is in a network namespace: nothing is sent to any
other machine. 192.0.2.0/24 is the network of the cluster, with the floating address 192.0.2.10 and the clients at 192.0.2.100.
198.51.100.0/24 is a second network, over which this script reaches machines, and two of the workstations the first server: so they
still reach it when it is cut off.

    power        the process of the primary's QEMU is killed: a machine without power
    cut          the primary's cable to the network of the cluster is pulled, and two workstations still reach it
    server       the server is killed
    house        a full house: each worker has an association that asks every few seconds, for two and a half minutes. Nothing moves
    peer         the standby's QEMU is killed, and started again
    full         the volume is filled, and emptied again
    switch       the primary becomes the standby by a command
    pause        the time of the primary stands still for a minute and a half, as a hypervisor may do it, and then goes on
    disk         the primary's disk is taken away: it goes on with that of the standby
    old          the standby is killed, work goes on, the primary is killed, and the standby started: it has old data
    every        all three machines are killed at once, and started again
    hypervisor   a machine without a cluster: it is killed and another one started on the same disks

After each, check/kills.py checks that all that was answered is there, that each holder is the holder, and that each watcher learns
what each step is.

What was run, on emulated processors (a host without KVM) that proofs shared, whose times are no hospital's: on 2026-11-29 `all`, from
nothing in one go, in 46 minutes, with a program built without its proofs. 131 checks passed and none failed; 14,308 requests were
answered before the faults. Reads were answered again within 79 s after power, 84 after cut, 9 after server, 55 after peer, 35 after
full, 66 after switch, 51 after hypervisor, and 296 after pause, where two servers are found and both are stopped. The volume was
mounted at the store's folder then, and belonged to the server's account.

On 2026-12-01 make, up and house by itself, with a proved program and the volume where it is mounted now: each worker was taken for
150 s, the server stayed the same, at the same machine, and one guest of 16 made way for a question asked as the house filled.

Not run: KVM, and all of it with the volume where it is mounted now.

It needs root, and qemu-system-x86, qemu-utils, debootstrap, e2fsprogs, openssh-client and python3-pydicom. --work names the folder
for the machines (one in memory, if the disk is busy), --program the program; --kvm runs the machines by KVM, and otherwise they are
emulated: give them processors of their own then, or a machine that is late is taken for one that is lost.
"""

from __future__ import annotations

import argparse
import os
import signal
import socket
import subprocess
import sys
import threading
import time
from collections.abc import Callable

TOP = os.path.dirname(os.path.dirname(os.path.abspath(__file__)))
sys.path[:0] = [os.path.join(TOP, it) for it in ("check/lib", "check", "trials/lib")]
import kills
import stored
from house import CALLED, House
from machine import HERE, described, holds
from machines import (CLIENTS, FLOATING, OFFICE, PATIENCE, PORT, SPACE, STORE, VOLUME, Machine, are_alike, await_up, make, network, run,
                      up)
from results import Results
from stored import FAULTS, Client, a_step_of

WATCHERS = iter(range(11121, 11130))  # the ports of the watchers W1, W2 and W3, in this order
OPTIONS = f"--ae UPSD --port {PORT} --bind 0.0.0.0 --keep {kills.KEEP} --store {STORE} " + " ".join(
    f"W{it}={CLIENTS}:{11120 + it}{',lock' if it == 2 else ''}" for it in (1, 2, 3))
ANSWER = 20.0  # seconds that a client waits for an answer
PAUSED, FILLED, TAKEOVER = 90.0, 30.0, 120.0  # seconds of `pause`, of `full`, and for watchers behind a takeover
GUESTS, STAYED = 16, 150.0  # of `house`: as many as workers, and seconds, in which the monitor of the server comes to its limit twice
PARTS = {"the loss is noticed": "Members left", "the other machine is shut out": "peer is fenced", "the disk takes writes": "Secondary -> Primary",
         "the file system is mounted": "(drbd0): mounted", "the address is there": "Adding inet address", "the server listens": "listens on"}
STILL_REACHED = ("cut", "pause")  # the trials in which a probe reaches the first server over the second network


def tell(*words: object) -> None:
    print(time.strftime("%H:%M:%S"), *words, flush=True)


# clients: those of check/lib call this machine, and are to call the floating address

connect, listen, source_addresses = socket.create_connection, socket.create_server, set()
HOSTS: dict[threading.Thread, str] = {}  # what a thread calls in place of the floating address


def call(place: tuple[str, int], seconds: float = ANSWER, **more: object) -> socket.socket:
    """Connects to the floating address in place of this machine."""
    host = HOSTS.get(threading.current_thread(), FLOATING) if place[0] == "127.0.0.1" else place[0]
    return connect((host, place[1]), min(seconds, ANSWER), **more)


class Hearing(stored.Hearing):
    """A watcher at a fixed port, which keeps from where the associations come."""

    def serve(self, connected: socket.socket) -> None:
        source_addresses.add(connected.getpeername()[0])
        super().serve(connected)


def redirect() -> None:
    """Lets clients call the floating address, and watchers listen where the server looks for them."""
    socket.create_connection = call
    socket.create_server = lambda place, **more: listen((CLIENTS, next(WATCHERS)) if place[1] == 0 else place, **more)
    kills.Hearing = Hearing


def answers(seconds: float = 2.0) -> bool:
    """Returns whether a server at the floating address answers an N-GET."""
    try:
        return Client(PORT, b"PROBE", seconds).got(b"1.2.3.4.5") is None
    except FAULTS:
        return False


class Probe:
    """A client that asks ten times a second, over a new association each time; it may create steps."""

    def __init__(self, host: str, creates: bool) -> None:
        self.host, self.creates, self.over = host, creates, threading.Event()
        self.reads: list[tuple[float, float]] = []  # when it was asked, and answered
        self.created: list[tuple[float, float, bytes]] = []
        self.number = 0
        self.thread = threading.Thread(target=self.run, daemon=True)
        self.thread.start()

    def run(self) -> None:
        while not self.over.wait(0.1):
            try:
                with connect((self.host, PORT), 1.0) as wire:
                    self.ask(wire)
            except FAULTS:
                pass

    def ask(self, wire: socket.socket) -> None:
        """Reads a step that nobody has, and may create one."""
        began = time.monotonic()
        client = Client.__new__(Client)
        client.number = 0
        client.use(wire)
        client.associate([(it, stored.EXPLICIT) for it in (stored.PUSH, stored.PULL)], b"PROBE")
        client.got(b"1.2.3.4.5")
        self.reads.append((began, time.monotonic()))
        self.number += 1
        uid = b"1.2.99.%d.%d" % (int(time.time()), self.number)
        if self.creates and client.create(uid, a_step_of(b"PROBE")) == 0:
            self.created.append((began, time.monotonic(), uid))

    def stop(self) -> None:
        self.over.set()
        self.thread.join()

    def gap(self, moment: float) -> tuple[float, float]:
        """Returns from when on to when, in seconds after a moment, reads had no answer: the longest such time after it."""
        times = [answered - moment for _, answered in self.reads]
        gaps = [(one, two) for one, two in zip(times, times[1:]) if two > 0]
        return max(gaps, key=lambda it: it[1] - it[0], default=(0.0, 0.0))


class Cluster(kills.Trial):
    """The trial of check/kills.py on the server at the floating address."""

    port, took, pid = PORT, 0.0, 0

    def __init__(self, machines: dict[str, Machine], given: argparse.Namespace) -> None:
        super().__init__([], "", given.seed, given)
        self.machines, self.most = machines, TAKEOVER
        self.plan.created = self.plan.transactions = int(time.time()) * 10**6  # UIDs that no trial before used
        self.fault: Callable[[Cluster], None] = lambda _: None
        note = self.reader.note
        self.reader.note = lambda told_of: note(self.own(told_of))

    def own(self, told_of: list[stored.Attributes]) -> list[stored.Attributes]:
        """Returns those of this run: the store has the steps of earlier ones too."""
        return [it for it in told_of if stored.text_in(it, stored.SOP_INSTANCE) in self.plan.steps]

    def judge_all(self, client: Client) -> None:
        found = client.found
        client.found = lambda *keys: self.own(found(*keys))
        super().judge_all(client)
        del client.found

    def primary(self) -> Machine:
        """Returns the machine that has the floating address, once one has it."""
        found: list[Machine] = []

        def looks() -> bool:
            found[:] = [self.machines[it] for it in "ab" if f"{FLOATING}/" in self.machines[it].says("ip -4 addr show eth0")]
            return bool(found)

        if not holds(looks, PATIENCE):
            raise OSError("no machine has the floating address")
        return found[0]

    def standby(self) -> Machine:
        primary = self.primary().name
        return self.machines["b" if primary == "a" else "a"]

    def server(self, waits: bool = True) -> Cluster:
        if not holds(answers, PATIENCE):
            raise OSError("no server answers")
        return self

    def __enter__(self) -> Cluster:
        return self

    def __exit__(self, *_: object) -> None:
        pass

    def kill(self) -> None:
        """Does the fault of the trial."""
        self.fault(self)


# the trials

def round_of(cluster: Cluster, results: Results, name: str, fault: Callable[[Cluster], None], seconds: float = 8.0) -> None:
    """Lets all work, does a fault, waits until a server answers again, and checks that all that was answered is there."""
    before = cluster.primary()
    asked, answered, hung = cluster.plan.asked, cluster.plan.answered, {}
    probes = [Probe(FLOATING, True), Probe(f"{OFFICE}.{before.number}", name in STILL_REACHED)]
    cluster.fault = lambda it: (hung.update(at=time.monotonic(), moment=time.time()), fault(it))
    cluster.counts.clear()
    cluster.faults.clear()
    cluster.live(seconds, 0.0)
    tell(f"{name}: {cluster.plan.asked - asked} requests asked, {cluster.plan.answered - answered} answered; then the fault")
    is_back = holds(answers, PATIENCE)
    time.sleep(3)
    for it in probes:
        it.stop()
    began, ended = probes[0].gap(hung["at"])
    after = cluster.primary() if cluster.machines else before
    tell(f"{name}: {before.name} served, now {after.name}; no read was answered from {began:.2f} s to {ended:.2f} s after the fault")
    if after is not before:
        tell_parts(name, after, hung["moment"])
    if name in STILL_REACHED:
        tell_late(name, probes[1], hung["at"])
    results.tell(f"{name}: a server answers again", None if is_back else "none does")
    judge_created(results, name, probes)
    judged(cluster, results, name)


def tell_parts(name: str, machine: Machine, moment: float) -> None:
    """Tells when each part of a takeover was done, in seconds after a moment, by the journal of the machine that serves now."""
    ahead = float(machine.says("date +%s.%N")) - time.time()
    lines = machine.says(f"journalctl -b --no-pager -o short-unix --since @{moment + ahead:.0f}").splitlines()
    for part, words in PARTS.items():
        if line := next((it for it in lines if words in it), None):
            tell(f"{name}: {part} after {float(line.split()[0]) - ahead - moment:.1f} s")


def tell_late(name: str, probe: Probe, moment: float) -> None:
    """Tells what the first server still answered after the fault."""
    reads = [answered - moment for _, answered in probe.reads if answered > moment]
    creations = [done - moment for _, done, _ in probe.created if done > moment]
    tell(f"{name}: at the first server {len(reads)} reads were answered until {max(reads, default=0):.2f} s, "
         f"and {len(creations)} creations until {max(creations, default=0):.2f} s")


def judge_created(results: Results, name: str, probes: list[Probe]) -> None:
    """Checks that the steps are there whose creation a probe had answered."""
    client = Client(PORT, b"JUDGE")
    created = [uid for it in probes for _, _, uid in it.created]
    lost = [uid for uid in created if client.got(uid) is None]
    results.tell(f"{name}: the {len(created)} steps that were created beside are there", f"{len(lost)} are lost: {lost[:3]}" if lost else None)
    client.release()


def judged(cluster: Cluster, results: Results, name: str) -> None:
    """Checks what the server has, as check/kills.py does, with all watchers."""
    heard = {title: len(it.reports) for title, it in cluster.watchers.items()}
    try:
        cluster.judge(cluster.server())
    except FAULTS as fault:
        cluster.told("each server serves", repr(fault))
    for kind, count in cluster.counts.items():
        if kind != "starts":
            faults = cluster.faults[kind]
            results.tell(f"{name}: {kind}, {count} times", f"{len(faults)} are wrong: {faults[0]}" if faults else None)
    tell(f"{name}: reports since:", {title.decode(): len(it.reports) - heard[title] for title, it in cluster.watchers.items()},
         "from", sorted(source_addresses))
    source_addresses.clear()


def await_whole(cluster: Cluster, results: Results, name: str) -> None:
    """Starts the machines that are down, and waits until both disks are alike."""
    began = time.monotonic()
    for it in cluster.machines.values():
        if not it.pid():
            it.start()
    fine = holds(lambda: are_alike(cluster.machines["a"], cluster.machines["b"]), PATIENCE)
    results.tell(f"{name}: both disks are alike again", None if fine else cluster.machines["a"].says("cat /proc/drbd; crm_mon -1rf"))
    tell(f"{name}: alike after {time.monotonic() - began:.0f} s")


def power(cluster: Cluster, results: Results) -> None:
    primary = cluster.primary()
    round_of(cluster, results, "power", lambda _: primary.kill())
    await_whole(cluster, results, "power")


def cut(cluster: Cluster, results: Results) -> None:
    """Two of the workstations reach the first server over the second network, also when it is cut off."""
    primary = cluster.primary()
    for it in cluster.workstations[:2]:
        it.run = lambda port, over, it=it: (HOSTS.update({threading.current_thread(): f"{OFFICE}.{primary.number}"}),
                                            kills.Workstation.run(it, port, over))
    round_of(cluster, results, "cut", lambda _: primary.cable(False))
    for it in cluster.workstations[:2]:
        del it.run
    primary.cable(True)
    await_whole(cluster, results, "cut")


def server(cluster: Cluster, results: Results) -> None:
    primary = cluster.primary()
    round_of(cluster, results, "server", lambda _: primary.says("pkill -9 -x upsd"))


def house(cluster: Cluster, results: Results) -> None:
    """The monitor waits behind the guests. It must not take the server for dead."""
    primary = cluster.server().primary()
    before = primary.says("systemctl show --property=MainPID --value upsd")
    guests = House([(lambda: call(("127.0.0.1", PORT)), b"GUEST%d" % at, CALLED) for at in range(GUESTS)], 5.0)
    is_full = holds(lambda: "16 of 16 workers" in primary.says("systemctl show --property=StatusText upsd"), PATIENCE)
    results.tell("house: each worker is taken", None if is_full else f"{guests.count()} guests: {guests.faults[:2]}")
    time.sleep(STAYED)
    after = primary.says("systemctl show --property=MainPID --value upsd")
    results.tell("house: the server is the same", None if after == before else primary.says("crm_mon -1rf"))
    results.tell("house: at the same machine", None if cluster.primary() is primary else cluster.primary().name)
    # a question that the monitor asked as the house filled waits like each peer, and one guest may make way for it
    results.tell("house: none of it ended but for a question before", "; ".join(guests.faults[:3]) if len(guests.faults) > 1 else None)
    guests.stop()
    round_of(cluster, results, "house", lambda _: None)


def switch(cluster: Cluster, results: Results) -> None:
    primary = cluster.primary()
    round_of(cluster, results, "switch", lambda _: primary.says(f"crm_resource --ban -r upsd -N {primary.name}"))
    primary.says(f"crm_resource --clear -r upsd -N {primary.name}")
    await_whole(cluster, results, "switch")


def peer(cluster: Cluster, results: Results) -> None:
    standby = cluster.standby()
    round_of(cluster, results, "peer", lambda _: standby.kill())
    await_whole(cluster, results, "peer")


def full(cluster: Cluster, results: Results) -> None:
    primary = cluster.primary()

    def fault(_: Cluster) -> None:
        primary.says(f"cd {VOLUME} && fallocate -l $(df --output=avail -B1 . | tail -1) ballast; sync")
        time.sleep(FILLED)
        log = "journalctl -u upsd -o cat --no-pager -p warning --since -1min | grep store | tail -2"
        tell("full:", primary.says(f"df {VOLUME} | tail -1; {log}"))
        primary.says(f"rm {VOLUME}/ballast; sync")

    round_of(cluster, results, "full", fault)


def pause(cluster: Cluster, results: Results) -> None:
    """A probe reaches the first server over the second network, also after it has paused."""
    primary = cluster.primary()

    def fault(_: Cluster) -> None:
        primary.signal(signal.SIGSTOP)
        time.sleep(PAUSED)
        primary.signal(signal.SIGCONT)

    round_of(cluster, results, "pause", fault)
    await_whole(cluster, results, "pause")


def disk(cluster: Cluster, results: Results) -> None:
    primary = cluster.primary()
    round_of(cluster, results, "disk", lambda _: primary.says("drbdadm detach --force upsd"))
    primary.says("drbdadm attach upsd")
    await_whole(cluster, results, "disk")


def old(cluster: Cluster, results: Results) -> None:
    primary, standby = cluster.primary(), cluster.standby()

    def fault(_: Cluster) -> None:
        primary.kill()
        standby.start()
        await_up([standby])
        serves = holds(answers, 100)
        results.tell("old: the standby with old data does not serve", "it does" if serves else None)
        tell("old:", standby.says("crm_mon -1r; cat /proc/drbd"))
        primary.start()

    standby.kill()
    holds(lambda: "UpToDate/Outdated" in primary.says("cat /proc/drbd"), 120)
    round_of(cluster, results, "old", fault)
    await_whole(cluster, results, "old")


def every(cluster: Cluster, results: Results) -> None:
    def fault(_: Cluster) -> None:
        for it in cluster.machines.values():
            it.kill()
        for it in cluster.machines.values():
            it.start()

    round_of(cluster, results, "every", fault)
    await_whole(cluster, results, "every")


def second_machine(path: str) -> str:
    """Starts a second QEMU on a disk, and returns what it says if it ends: it should be refused."""
    try:
        ran = subprocess.run(["qemu-system-x86_64", "-display", "none", "-drive", f"file={path},format=qcow2"], capture_output=True,
                             text=True, timeout=60)
    except subprocess.TimeoutExpired:
        return "it runs"
    return ran.stderr


def hypervisor(solo: Machine, given: argparse.Namespace, results: Results) -> None:
    """Kills a machine without a cluster, and starts another one on the same disks."""
    network()
    if not solo.pid():
        solo.start()
    await_up([solo])
    if "lost+found" not in solo.says(f"ls {VOLUME}"):
        solo.says(f"mkfs.ext4 -q /dev/vdb; echo '/dev/vdb {VOLUME} ext4 noatime 0 2' >> /etc/fstab; mount {VOLUME}", check=True)
        solo.fill_volume(VOLUME, OPTIONS)
        solo.says("systemctl enable --now upsd", check=True)
    cluster: Cluster = Cluster({}, given)
    cluster.primary = lambda: solo
    said: list[str] = []

    def fault(_: Cluster) -> None:
        said.append(second_machine(solo.path("qcow2")))
        solo.kill()
        solo.start()

    round_of(cluster, results, "hypervisor", fault)
    results.tell("hypervisor: a second machine on the disks is refused", None if "lock" in said[0] else said[0])
    solo.kill()


TRIALS = {"power": power, "cut": cut, "server": server, "house": house, "peer": peer, "full": full, "switch": switch, "pause": pause, "disk": disk,
          "old": old, "every": every}
IN_ONE_GO = (("make",), ("up",), ("try",), ("down",), ("try", "hypervisor"), ("down",))


def arguments() -> argparse.Namespace:
    asked = described(__doc__)
    asked.add_argument("command", choices=("make", "up", "try", "down", "all"))
    asked.add_argument("trials", nargs="*", metavar="TRIAL", help="what is tried (all but hypervisor)")
    asked.add_argument("--work", default="standby-machines", help="the folder for the machines (%(default)s)")
    asked.add_argument("--program", default=os.path.join(HERE, "crates/upsd/out/upsd"), help="the program (%(default)s)")
    asked.add_argument("--seed", type=int, default=1, help="by which what is random is chosen (%(default)s)")
    asked.add_argument("--checked", action="store_true", help="the program is built with checks (`rt try`), and gets no LimitAS")
    asked.add_argument("--kvm", action="store_true", help="run the machines by KVM")
    return asked.parse_args()


def in_space() -> None:
    """Goes on in the network namespace, which is made if it is missing."""
    if SPACE not in run("ip", "netns", "identify", str(os.getpid())):
        run("ip", "netns", "add", SPACE, check=False)
        os.execvp("ip", ["ip", "netns", "exec", SPACE, sys.executable, *sys.argv])


def run_trials(machines: dict[str, Machine], solo: Machine, given: argparse.Namespace) -> None:
    """Runs the trials that are named, or all that have a cluster."""
    results, names = Results(), given.trials or list(TRIALS)
    if names == ["hypervisor"]:
        hypervisor(solo, given, results)
    else:
        cluster = Cluster(machines, given)
        for name in names:
            try:
                TRIALS[name](cluster, results)
            except FAULTS as fault:
                results.tell(f"{name}: it goes on to its end", repr(fault))
                await_whole(cluster, results, name)
    results.end("a standby")


def run_all() -> None:
    """Runs each command in turn, with the options that were given."""
    options, statuses = [it for it in sys.argv[1:] if it != "all"], []
    for words in IN_ONE_GO:
        tell(*words)
        statuses.append(subprocess.run([sys.executable, sys.argv[0], *words, *options]).returncode)
        if statuses[-1] and words[0] in ("make", "up"):
            break
    sys.exit(max(statuses))


def main() -> None:
    given = arguments()
    os.makedirs(given.work, exist_ok=True)
    if given.command == "all":
        run_all()
    if given.command == "make":
        make(given.work, os.path.abspath(given.program), given.checked)
        return
    in_space()
    redirect()
    machines = {it: Machine(given.work, it, given.kvm) for it in "abc"}
    solo = Machine(given.work, "solo", given.kvm)
    if given.command == "up":
        up(machines, OPTIONS, answers)
    elif given.command == "down":
        for it in (*machines.values(), solo):
            it.kill()
        run("ip", "netns", "delete", SPACE)
    else:
        run_trials(machines, solo, given)


if __name__ == "__main__":
    main()
