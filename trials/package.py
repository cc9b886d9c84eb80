#!/usr/bin/env python3
"""Makes the Debian packages of server and client, installs them in a bare Debian that it boots, tries them there, and removes them.

    trials/package.py                  with crates/upsd/out/upsd, which `rt run` builds
    trials/package.py --program PATH   with another program
    trials/package.py --checked        with a program that is built with checks (`rt try`): LimitAS is too little for it
    trials/package.py --root FOLDER    takes the bare Debian of a folder, and makes it there if there is none

Two builds must be equal, `lintian` may find no error and no warning, `systemd-analyze security` may say at most 2.0, and the
synopsis of upsd(8) must have the options of each --help. The program has to say of what commit it was proved, or that it was
not, as the package's file PROVED does. Then `debootstrap` makes a Debian 12 with systemd (some 300 MB from deb.debian.org), and
`systemd-nspawn` boots it, with a network of its own. There the package is installed with what it depends on; the unit, as it is
but for the words in /etc/default/upsd, runs the tour of README.md through `ups`; that of the board shows its step; a restart, an
upgrade, a hangup, a wrong word, a removal and a purge must do what the package says. A reload must leave the server alone if a start would refuse its options
(other terms, a port that is taken, a wrong word), and else restart it: with a further watcher, another store, a right that is
given, and a watcher that is retired. `systemd-analyze verify` may say nothing of the units. The unit of the backup makes one,
which is restored, and leaves a server that goes on if it is killed. With the lines for a cluster the unit starts on a mounted
volume alone, and the resource agent starts, asks and stops it (without a cluster): a full house runs, and one whose store takes
nothing does not. A package with a stand-in for an earlier version, on the stored store of 0.2.0, is upgraded, which makes a
backup before, and that one brings both back; the earlier server goes on until it is restarted, since it has told no terms. In
the end nothing of the package may be left but the store and a locked account.

It installs what is missing (debhelper, lintian, debootstrap, systemd-container, man-db, python3-pydicom ..) and needs root. It prints a line
for each trial, and then `N passed, M failed`. The exit status is 1 if any failed.
"""

from __future__ import annotations

import contextlib
import glob
import hashlib
import os
import pathlib
import re
import shlex
import shutil
import subprocess
import sys
import tempfile
import time
from typing import Iterator, Optional
from xml.etree import ElementTree

sys.path.insert(0, os.path.join(os.path.dirname(os.path.dirname(os.path.abspath(__file__))), "check/lib"))
from machine import HERE, PYTHON, described, holds, install, source
from results import Results
import tour

TOOLS = {"dh": "debhelper", "dh_python3": "dh-python", "lowdown": "lowdown", "dpkg-buildpackage": "dpkg-dev", "lintian": "lintian",
         "debootstrap": "debootstrap", "systemd-nspawn": "systemd-container", "systemd-analyze": "systemd", "man": "man-db",
         "nsenter": "util-linux"}
MIRROR = "http://deb.debian.org/debian"
MOST_EXPOSED = 2.0
STORE = "/var/lib/upsd/upsd.db"
VOLUME = "/var/lib/upsd-volume"  # of a cluster
BACKUPS = "/var/backups/upsd"
COLLECTED = "/var/lib/prometheus/node-exporter"
KEPT = "--keep 86400"
STORED = os.path.join(HERE, "rows/stores/0.2.0/store")
STORED_WORDS = f"--ae UPSD --port {tour.SERVER_PORT} --bind 127.0.0.1 --keep 1 --offset 60 --store {STORE} WATCH1=127.0.0.1:35611,lock"
LOADED = "/root/loaded"  # where a program of root's would write what it loads, if the unit's environment told it to
TAKEN = tour.WATCHER_PORT + 1  # a port that something else has
UNITS = ("upsd-backup.service", "upsd-backup.timer", "upsd.service", "ups-board.service")
BESIDES = ("dbus", "iproute2")  # what a Debian has: `systemctl freeze` calls the one, and a cluster's unit has `ss` of the other
AGENT = "/usr/lib/ocf/resource.d/upsd/upsd"
DROP_INS = "/etc/systemd/system/{}.d"
RUNS, FAILS, RUNS_NOT = 0, 1, 7  # exit statuses of a resource agent
PORTS = {port: port for port in (tour.SERVER_PORT, tour.WATCHER_PORT)}  # all are free: the booted Debian has its own network
BOOT = 60  # seconds until it has booted
LISTENS = 60.0  # seconds until a server answers: it may begin for the second time, five seconds after the first
DOWN = 30.0  # seconds until the agent finds that a server has ended
ROUND = 25.0  # seconds of a full house: an association makes way within 20 for one that waits
QUIET = {**os.environ, "LC_ALL": "C.UTF-8", "DEBIAN_FRONTEND": "noninteractive", "PATH": "/usr/sbin:/usr/bin:/sbin:/bin"}
NOT_COMPARED = ("var/log", "var/cache", "var/lib/dpkg", "var/lib/apt", "var/tmp", "var/lib/systemd", "tmp", "run", "proc", "sys",
                "dev", "root", "etc/passwd-", "etc/group-", "etc/shadow-", "etc/gshadow-", "etc/.pwd.lock")


def run(*words: str) -> subprocess.CompletedProcess[str]:
    return subprocess.run(words, capture_output=True, text=True, env=QUIET, cwd=HERE)


def fault_of(ran: subprocess.CompletedProcess[str]) -> Optional[str]:
    """Returns why a command failed, or None."""
    return None if ran.returncode == 0 else f"status {ran.returncode}: {tour.last_line(ran.stderr or ran.stdout)}"


def unless(holds_so: bool, fault: str) -> Optional[str]:
    return None if holds_so else fault


# the package by itself

def built(program: str, folder: str) -> list[str]:
    """Builds the packages into a folder, and returns their paths: that of the client, and that of the server."""
    with_rt = {**QUIET, "PATH": f"{QUIET['PATH']}:{os.environ['PATH']}"}  # which tells whether the program is proved
    ran = subprocess.run(["packaging/build", "--source", "--program", program, "--output", folder], capture_output=True, text=True, env=with_rt, cwd=HERE)
    if ran.returncode:
        sys.exit(f"package.py: it can't be built: {tour.last_line(ran.stderr)}")
    return ran.stdout.strip().splitlines()[-2:]


def content(path: str) -> bytes:
    return pathlib.Path(path).read_bytes()


def lint(package: str) -> Optional[str]:
    found = [it for it in run("lintian", package).stdout.split("\n") if it[:2] in ("E:", "W:")]
    return unless(not found, "; ".join(found))


def exposure(unit: str) -> Optional[str]:
    """Returns why a unit is too exposed, or None."""
    said = run("systemd-analyze", "security", "--offline=true", unit).stdout
    found = re.search(r"exposure level for \S+: ([\d.]+)", said)
    return unless(found is not None and float(found[1]) <= MOST_EXPOSED, found[0] if found else "no level is told")


def options_in(text: str) -> set[str]:
    return set(re.findall(r"(?<![\w-])--([a-z][\w-]*)", text)) - {"help", "version"}


def synopsis(program: str) -> Optional[str]:
    """Returns which options of the program's commands the synopsis of its man page lacks, or has in excess; or None."""
    page = source("packaging/man/upsd.8").partition(".Sh SYNOPSIS\n")[2].partition(".Sh ")[0]
    faults = []
    for name, text in re.findall(r"(?s)\.Cm (\w+)\n(.*?)(?=\.Nm|\Z)", page):
        told, asked = {it for it in re.findall(r"Fl -([\w-]+)", text)}, options_in(run(program, name, "--help").stdout)
        faults += [f"{name}: --{it}" for it in sorted(told ^ asked)]
    return unless(not faults, ", ".join(faults))


def man_pages(root: str) -> Optional[str]:
    """Returns what `man` warns about in the pages that are installed below a root, or None."""
    faults = []
    for page in ("man1/ups.1.gz", "man5/upsd-script.5.gz", "man8/upsd.8dicom.gz", "man8/upsd-backup.8.gz"):
        ran = run("man", "--warnings", "-l", "-Tutf8", "-Z", os.path.join(root, "usr/share/man", page))
        faults += [f"{page}: {tour.last_line(ran.stderr)}"] if ran.stderr or ran.returncode else []
    return unless(not faults, "; ".join(faults))


def try_packages(program: str, folder: str, results: Results) -> list[str]:
    """Builds the packages, checks them, and returns their paths."""
    packages, others = built(program, folder), built(program, os.path.join(folder, "again"))
    for package, other in zip(packages, others):
        name = os.path.basename(package).partition("_")[0]
        results.tell(f"two builds of {name} are equal", unless(content(package) == content(other), "they differ"))
        results.tell(f"lintian, of {name}", lint(package))
    results.tell("lintian, of the sources", lint(glob.glob(os.path.join(folder, "*.dsc"))[0]))
    for unit in ("upsd.service", "ups-board.service"):
        results.tell(f"systemd-analyze security {unit}", exposure(os.path.join(HERE, "packaging", unit)))
    results.tell("the synopsis of upsd(8)", synopsis(program))
    return packages


# a booted Debian

def bare(folder: str) -> None:
    """Makes a Debian with systemd and nothing more in a folder, unless it is there already."""
    if not os.path.exists(os.path.join(folder, "usr/bin/dpkg")):
        ran = run("debootstrap", "--variant=minbase", "--include=systemd-sysv", "bookworm", folder, MIRROR)
        if ran.returncode:
            sys.exit(f"package.py: debootstrap: {tour.last_line(ran.stdout)}")


class Machine:
    """A Debian below a folder, which may be booted."""

    def __init__(self, root: str) -> None:
        self.root = root
        self.leader = ""  # the process that is process 1 in it

    def path(self, name: str) -> str:
        return os.path.join(self.root, name.lstrip("/"))

    def words(self) -> list[str]:
        """Returns the words that go before a command to run it there."""
        return ["nsenter", "-t", self.leader, "-m", "-u", "-i", "-n", "-p", "-C"] if self.leader else ["chroot", self.root]

    def run(self, *words: str) -> subprocess.CompletedProcess[str]:
        return run(*self.words(), *words)

    def says(self, *words: str) -> str:
        return self.run(*words).stdout.strip()

    def of_unit(self, name: str) -> str:
        """Returns a property of the unit."""
        return self.says("systemctl", "show", "--property", name, "--value", "upsd.service")

    @contextlib.contextmanager
    def full_house(self, *more: str) -> Iterator[list[str]]:
        """Keeps a full house at the server, by a script of this machine in the other's network; yields its first line, and behind it
        in the end those about guests that ended."""
        words = ["nsenter", "-t", self.leader, "-n", PYTHON, os.path.join(HERE, "trials/lib/house.py"), str(tour.SERVER_PORT), *more]
        with subprocess.Popen(words, stdin=subprocess.PIPE, stdout=subprocess.PIPE, text=True, env=QUIET) as house:
            assert house.stdin and house.stdout
            try:
                said = [house.stdout.readline().strip()]
                yield said
            finally:
                house.stdin.close()
                with contextlib.suppress(subprocess.TimeoutExpired):
                    house.wait(5)
                house.kill()
                said += house.stdout.read().splitlines()

    def has_booted(self, pid: int) -> bool:
        children = run("pgrep", "-P", str(pid)).stdout.split()
        self.leader = children[0] if children else ""
        return bool(children) and self.says("systemctl", "is-system-running") in ("running", "degraded")

    def paths(self) -> set[str]:
        """Returns the files and folders in it, but for those that a running system or a package manager writes."""
        found = set()
        for path, folders, names in os.walk(self.root):
            here = os.path.relpath(path, self.root).removeprefix(".")
            folders[:] = [it for it in folders if os.path.join(here, it) not in NOT_COMPARED]
            found |= {os.path.join(here, it) for it in (*folders, *names)}
        return {it for it in found if not it.startswith(NOT_COMPARED) and "__pycache__" not in it}

    @contextlib.contextmanager
    def booted(self) -> Iterator[None]:
        words = ["systemd-nspawn", "--boot", "--private-network", "--register=no", "--keep-unit", "--console=pipe"]
        silent = {it: subprocess.DEVNULL for it in ("stdin", "stdout", "stderr")}
        unified = {**os.environ, "SYSTEMD_NSPAWN_UNIFIED_HIERARCHY": "1"}  # as a Debian 12 has it: its units can be frozen
        with subprocess.Popen([*words, f"--directory={self.root}"], **silent, env=unified) as process:
            try:
                holds(lambda: process.poll() is not None or self.has_booted(process.pid), BOOT)
                if not self.leader or process.poll() is not None:
                    sys.exit("package.py: the Debian does not boot")
                yield
            finally:
                self.leader = ""
                process.terminate()
                with contextlib.suppress(subprocess.TimeoutExpired):
                    process.wait(20)
                process.kill()


def write(path: str, text: str) -> None:
    os.makedirs(os.path.dirname(path), exist_ok=True)
    pathlib.Path(path).write_text(text, encoding="utf-8")


def depend(machine: Machine, packages: list[str]) -> None:
    """Installs what the packages depend on, besides one another."""
    said = [run("dpkg-deb", "-f", it, "Depends").stdout for it in packages]
    depends = sorted({it for each in said for it in re.findall(r"([a-z][\w.-]*)", re.sub(r"\([^)]*\)|:any", "", each))} - {"ups"})
    shutil.copy("/etc/resolv.conf", machine.path("etc/resolv.conf"))
    ran = machine.run("apt-get", "install", "-y", "--no-install-recommends", *depends, *BESIDES)
    if ran.returncode:
        sys.exit(f"package.py: {' '.join(depends)}: {tour.last_line(ran.stderr)}")
    for package, name in zip(packages, ("ups", "upsd")):
        shutil.copy(package, machine.path(f"root/{name}.deb"))


def try_installation(machine: Machine, results: Results) -> None:
    """Installs the client by itself, and then the server."""
    results.tell("install the client", fault_of(machine.run("dpkg", "--install", "/root/ups.deb")))
    said = machine.says("ups", "--version")
    results.tell("which runs, without a server", unless(said.startswith("ups ") and machine.run("id", "upsd").returncode != 0, said))
    results.tell("install", fault_of(machine.run("dpkg", "--install", "/root/upsd.deb")))
    states = [*machine.says("systemctl", "is-enabled", *UNITS[1:]).split(), machine.of_unit("ActiveState")]
    results.tell("nothing is enabled or started", unless(states == ["disabled"] * 3 + ["inactive"], " ".join(states)))
    ran = machine.run("systemd-analyze", "verify", "--man=no", *UNITS)
    results.tell("systemd-analyze verify", fault_of(ran) or unless(not ran.stderr, ran.stderr))
    results.tell("the system user", fault_of(machine.run("id", "upsd")))
    results.tell("the man pages", man_pages(machine.root))
    owner = owners(machine)
    results.tell("the first installation makes a store", unless(owner == "upsd 600\nupsd 700", owner))
    said, told = machine.says("upsd", "--version"), machine.says("cat", "/usr/share/doc/upsd/PROVED")
    commit = re.search(r"(?m)^commit: ([0-9a-f]{40})$", told)
    wanted = f"commit {commit[1]}, all proved" if commit else f"commit {40 * '0'}, not proved"
    results.tell("the program says of what it was proved", unless(wanted in said, f"{said!r} lacks {wanted!r}"))
    total = hashlib.sha256(content(machine.path("usr/bin/upsd"))).hexdigest()
    results.tell("PROVED has its sum", unless(f"sha256 of /usr/bin/upsd: {total}\n" in f"{told}\n", told))
    found = machine.of_unit("LogRateLimitIntervalUSec"), machine.of_unit("TimeoutStartUSec")
    results.tell("no line is dropped, and a long start goes on", unless(found == ("0", "15min"), str(found)))


def owners(machine: Machine) -> str:
    """Returns who owns the store and its folder, and the mode of each."""
    return machine.says("stat", "--format=%U %a", STORE, os.path.dirname(STORE))


# the trials in it

def serve_words(commands: list[tour.Command]) -> str:
    """Returns the words of the README's server, with a store, which keeps what is finished for longer than a trial takes."""
    command = next(it.text for it in commands if it.is_server)
    return f"{re.search(r' serve (.*?)(?: 2>.*)? &$', command)[1]} --store {STORE} {KEPT}"


def has_words(machine: Machine, words: str) -> None:
    write(machine.path("etc/default/upsd"), f'UPSD_OPTIONS="{words}"\n')


def comes_to(machine: Machine, state: str, seconds: float = 20) -> Optional[str]:
    """Returns why the unit does not come to a state in time, or None."""
    holds(lambda: machine.of_unit("ActiveState") == state, seconds)
    found = machine.of_unit("ActiveState"), machine.of_unit("Result"), machine.of_unit("ExecMainStatus")
    return unless(found[0] == state, f"it is {found[0]}, {found[1]}, with status {found[2]}")


def has_line(machine: Machine, name: str, line: str) -> None:
    """Adds a line to the unit, until the next boot."""
    folder = "/run/systemd/system/upsd.service.d"
    machine.run("mkdir", "-p", folder)
    machine.run("sh", "-c", f"printf '[Service]\\n{line}\\n' > {folder}/{name}.conf")
    machine.run("systemctl", "daemon-reload")


def listens(machine: Machine, *options: str) -> Optional[str]:
    """Returns why the server does not answer within some seconds, or None."""
    has_answered = holds(lambda: machine.run("ups", "echo", *options).returncode == 0, LISTENS)
    return None if has_answered else machine.says("journalctl", "--quiet", "--lines=3", "--unit=upsd")


def take_tour(machine: Machine, commands: list[tour.Command], results: Results) -> None:
    """Runs the client's commands of the README, and compares what they print."""
    enter = shlex.join(machine.words())
    for command in commands:
        if not command.is_server:
            words = f"{enter} ups{command.text.removeprefix(tour.CLIENT).removeprefix('ups')}"
            results.tell(f"tour: {command.text}", tour.difference(command, words, PORTS))


def try_unit(machine: Machine, commands: list[tour.Command], results: Results) -> None:
    """Starts the unit, takes the tour, and restarts it."""
    has_words(machine, serve_words(commands))
    results.tell("start", fault_of(machine.run("systemctl", "start", "upsd.service")) or listens(machine))
    owner = owners(machine)
    results.tell("the store is the user's alone", unless(owner == "upsd 600\nupsd 700", owner))
    take_tour(machine, commands, results)
    held = machine.says("ups", "find")
    results.tell("restart", fault_of(machine.run("systemctl", "restart", "upsd.service")) or listens(machine))
    found = machine.says("ups", "find")
    results.tell("a restart loses nothing", unless(found == held and "1 found" in held, f"{found!r} and not {held!r}"))
    try_reload(machine, commands, results)
    try_terms(machine, commands, results)
    before = machine.of_unit("MainPID")
    results.tell("upgrade", fault_of(machine.run("dpkg", "--install", "--force-confold", "/root/upsd.deb")))
    is_new = holds(lambda: machine.of_unit("MainPID") not in (before, "0"), 20)
    results.tell("an upgrade restarts what runs", unless(is_new, f"it is still {before}") or listens(machine))
    made = machine.says("ls", BACKUPS).split()
    results.tell("and backs it up before", unless(len(made) == 1, " ".join(made)))
    before = machine.of_unit("MainPID")
    has_words(machine, serve_words(commands).replace(KEPT, "--keep 61"))
    ran = installs(machine, "upsd")
    is_told = machine.of_unit("MainPID") == before and "'systemctl reload upsd' says what this one refuses" in ran.stderr
    results.tell("an upgrade whose options are refused leaves the server alone", fault_of(ran) or unless(is_told, ran.stderr))
    has_words(machine, serve_words(commands))
    machine.run("rm", "-r", BACKUPS)
    errors = machine.says("journalctl", "--quiet", "--unit=upsd", "--priority=err", "_COMM=upsd")
    results.tell("the log has no error", unless(not errors, errors))
    ran = machine.run("runuser", "-u", "upsd", "--", "upsd", "compact", STORE)
    results.tell("a store that is open is not compacted", unless(ran.returncode == 2, f"status {ran.returncode}"))


def try_reload(machine: Machine, commands: list[tour.Command], results: Results) -> None:
    """Reloads the unit with wrong options, which has to leave the server alone, and with right ones, which restarts it."""
    before = machine.of_unit("MainPID")
    has_words(machine, serve_words(commands).replace(KEPT, "--keep never"))
    ran = machine.run("systemctl", "reload", "upsd.service")
    results.tell("a reload with a wrong option fails", unless(ran.returncode != 0, "it succeeds"))
    results.tell("and the server goes on", unless(machine.of_unit("MainPID") == before, "it was restarted") or listens(machine))
    has_words(machine, serve_words(commands))
    results.tell("reload", fault_of(machine.run("systemctl", "reload", "upsd.service")) or listens(machine))
    holds(lambda: machine.of_unit("MainPID") not in (before, "0"), 20)
    found = machine.of_unit("MainPID"), machine.of_unit("NRestarts")
    results.tell("a reload is a restart", unless(found[0] not in (before, "0") and found[1] == "0", f"{found}, and {before} before"))
    write(machine.path("etc/default/upsd"), f'UPSD_OPTIONS="{serve_words(commands)}"\nLD_DEBUG=libs\nLD_DEBUG_OUTPUT={LOADED}\n')
    for _ in range(2):  # the first one gives the server this environment
        results.tell("reload with an environment", fault_of(machine.run("systemctl", "reload", "upsd.service")) or listens(machine))
        time.sleep(1)
    found = machine.says("sh", "-c", f"ls {LOADED}*").split()
    results.tell("root loads and writes nothing that it names", unless(not found, " ".join(found)))
    has_words(machine, serve_words(commands))


def leaves_alone(machine: Machine, words: str, why: str) -> Optional[str]:
    """Reloads the unit with options that a start would refuse. Returns why that does not leave the server alone, or does not tell
    the reason; or None."""
    before = machine.of_unit("MainPID")
    has_words(machine, words)
    ran = machine.run("systemctl", "reload", "upsd.service")
    if ran.returncode == 0 or machine.of_unit("MainPID") != before:
        return f"status {ran.returncode}, {machine.of_unit('MainPID')}, and {before} before"
    said = machine.says("journalctl", "--quiet", "--unit=upsd", "--output=cat", "--lines=9")
    return unless(why in said, f"{why!r} is not told: {said}") or listens(machine)


def restarts(machine: Machine, words: str) -> Optional[str]:
    """Reloads the unit with options that a start takes. Returns why that does not restart the server, or None."""
    before = machine.of_unit("MainPID")
    has_words(machine, words)
    ran = machine.run("systemctl", "reload", "upsd.service")
    is_new = holds(lambda: machine.of_unit("MainPID") not in (before, "0"), 20)
    return fault_of(ran) or unless(is_new, f"it is still {before}") or listens(machine)


def try_terms(machine: Machine, commands: list[tour.Command], results: Results) -> None:
    """Reloads a server on a store of its own with options of each kind, gives its watcher a right, and retires it."""
    store, watcher = f"{os.path.dirname(STORE)}/terms.db", f"WATCH1=127.0.0.1:{tour.WATCHER_PORT}"
    words = serve_words(commands).replace(STORE, store).replace(KEPT, "--keep 1")
    machine.run("runuser", "-u", "upsd", "--", "upsd", "init", store)
    results.tell("a reload with another store", restarts(machine, words))
    machine.run("systemd-run", "--unit=taken", PYTHON, "-m", "http.server", "--bind", "127.0.0.1", f"{TAKEN}")
    calls = f"import socket; socket.create_connection(('127.0.0.1', {TAKEN}), 1)"
    holds(lambda: machine.run(PYTHON, "-c", calls).returncode == 0, 10)
    for name, others, why in (("another time to keep", words.replace("--keep 1", "--keep 2"), "kept for 1 seconds"),
                              ("another offset", f"{words} --offset 60", "0 minutes"),
                              ("a watcher less", words.replace(watcher, ""), "WATCH1 was a peer"),
                              ("a port that is taken", words.replace(f"{tour.SERVER_PORT}", f"{TAKEN}"), f"port {TAKEN}"),
                              ("numbers in its store", f"{words} --metrics {store}", "--metrics takes a file apart from the store")):
        results.tell(f"a reload with {name} leaves the server alone", leaves_alone(machine, others, why))
    machine.run("systemctl", "stop", "taken.service")
    for name, others in (("the same options", words), ("a further watcher", f"{words} WATCH2=127.0.0.1:1"),
                         ("another address of it", f"{words} WATCH2=127.0.0.1:2")):
        results.tell(f"a reload with {name}", restarts(machine, others))
    words = f"{words} WATCH2=127.0.0.1:2"
    try_right(machine, words, watcher, results)
    results.tell("a reload that retires a watcher", restarts(machine, words.replace(watcher, "WATCH1=-,lock")))
    told = holds(lambda: "reports for WATCH1 were given up" in machine.says("journalctl", "--quiet", "--unit=upsd", "--output=cat"), 90)
    results.tell("what waited for it is given up, and told", unless(told, machine.says("journalctl", "--quiet", "--lines=3", "--unit=upsd")))
    results.tell("and it is a watcher again", restarts(machine, words.replace(watcher, f"{watcher},lock")))
    results.tell("a reload with the store of before", restarts(machine, serve_words(commands)))
    machine.run("sh", "-c", f"rm {store}*")


def try_right(machine: Machine, words: str, watcher: str, results: Results) -> None:
    """Gives a watcher the right to lock steps, once a step is removed for which it had asked for a lock in vain; takes it away."""
    asked = machine.says("ups", "subscribe", "--receiver", "WATCH1", "--lock")
    results.tell("a lock without the right", unless("B301" in asked, asked))
    machine.run("ups", "create", "1.2.9.1")
    machine.run("ups", "cancel", "1.2.9.1")
    gone = holds(lambda: "0 found" in machine.says("ups", "find"), 20)
    results.tell("a step is removed in spite of it", unless(gone, machine.says("ups", "find")))
    results.tell("a reload with a right more", restarts(machine, words.replace(watcher, f"{watcher},lock")))
    found = machine.says("ups", "find")
    results.tell("brings no step back", unless("0 found" in found, found))
    results.tell("a reload with a right less leaves the server alone", leaves_alone(machine, words, "WATCH1 had the right"))
    results.tell("another start takes the right", restarts(machine, words.replace(watcher, f"{watcher},lock")))


def try_ends(machine: Machine, commands: list[tour.Command], results: Results) -> None:
    """Tries how the unit ends, by the exit statuses of docs/use/command-line.md."""
    killed = machine.run("systemctl", "kill", "--kill-whom=main", "--signal=KILL", "upsd.service")
    begins = holds(lambda: machine.of_unit("NRestarts") == "1", 20)
    results.tell("a crash is mended", fault_of(killed) or unless(begins, "no restart") or listens(machine))
    killed = machine.run("systemctl", "kill", "--kill-whom=main", "--signal=HUP", "upsd.service")
    begins = holds(lambda: machine.of_unit("NRestarts") == "2", 20)
    results.tell("and so is a hangup", fault_of(killed) or unless(begins, "no restart") or listens(machine))
    limit = re.search(r"Max core file size +(\d+|unlimited)", machine.says("cat", f"/proc/{machine.of_unit('MainPID')}/limits"))
    results.tell("no core file", unless(bool(limit) and limit[1] == "0", str(limit)))
    results.tell("stop", fault_of(machine.run("systemctl", "stop", "upsd.service")) or comes_to(machine, "inactive"))
    strange = f"--ae UPSD --port {tour.SERVER_PORT} --bind 192.0.2.1"
    for name, words, status, restarts in (("a wrong word ends it for good", "--ae UPSD", "1", False),
                                          ("an address of another machine is tried again", strange, "2", True)):
        has_words(machine, words)
        machine.run("systemctl", "start", "upsd.service")
        ends = holds(lambda: machine.of_unit("ExecMainStatus") == status, 10)
        again = holds(lambda: int(machine.of_unit("NRestarts")) > 0, 10)
        results.tell(name, unless(ends and again == restarts, f"status {machine.of_unit('ExecMainStatus')}, restarted: {again}"))
        machine.run("systemctl", "stop", "upsd.service")
        machine.run("systemctl", "reset-failed", "upsd.service")
    try_port(machine, results)
    has_words(machine, serve_words(commands))
    try_missing(machine, results)
    machine.run("systemctl", "start", "upsd.service")
    results.tell("start again", listens(machine))


# backups

def service_of_backup(machine: Machine) -> str:
    return machine.says("systemctl", "show", "--property=Result", "--value", "upsd-backup.service")


def try_backup(machine: Machine, results: Results) -> None:
    """Makes a backup by its unit, restores it, and kills the program that makes one."""
    held = machine.says("ups", "find")
    machine.run("mkdir", "-p", COLLECTED)
    before = time.time() - 1
    ran = machine.run("systemctl", "start", "upsd-backup.service")
    said = machine.says("journalctl", "--quiet", "--unit=upsd-backup", "--output=cat", "--lines=5")
    results.tell("a backup", fault_of(ran) and f"{fault_of(ran)}: {said}")
    told = re.search(r"(?m)^upsd_backup_timestamp_seconds (\d+)$", machine.says("cat", f"{COLLECTED}/ups-backup.prom"))
    results.tell("its time is told", unless(bool(told) and before <= int(told[1]) + 1 <= time.time() + 1, str(told)))
    made = machine.says("ls", BACKUPS).split()
    results.tell("there is one", unless(len(made) == 1, " ".join(made)))
    backup = f"{BACKUPS}/{made[0] if made else 'none'}"
    modes = machine.says("stat", "--format=%U %a", backup, f"{backup}/upsd.db")
    results.tell("which is root's alone", unless(modes == "root 700\nroot 600", modes))
    machine.run("ups", "create", "1.2.9.9")
    before = machine.of_unit("MainPID")
    # the log too: with its own first page the store would be whole
    machine.run("sh", "-c", f"cp -a {backup} {BACKUPS}/damaged && cd {BACKUPS}/damaged && "
                "for it in upsd.db upsd.db-wal; do dd if=/dev/zero of=$it bs=100 count=9 conv=notrunc; done")
    ran = machine.run("upsd-backup", "restore", f"{BACKUPS}/damaged")
    results.tell("a damaged backup is refused", unless(ran.returncode == 1 and "does not take" in ran.stderr, ran.stderr))
    results.tell("and the server goes on", unless(machine.of_unit("MainPID") == before, "it was restarted") or listens(machine))
    results.tell("restore", fault_of(machine.run("upsd-backup", "restore", backup)) or listens(machine))
    found = machine.says("ups", "find")
    results.tell("what was backed up is there, and nothing else", unless(found == held, f"{found!r} and not {held!r}"))
    owner = owners(machine)
    results.tell("the restored store is the user's alone", unless(owner == "upsd 600\nupsd 700", owner))
    try_killed_backup(machine, results)
    machine.run("systemctl", "stop", "upsd.service")
    ran = machine.run("systemctl", "start", "upsd-backup.service")
    results.tell("a server that is stopped is backed up", fault_of(ran) or unless(len(machine.says("ls", BACKUPS).split()) >= 3, "it is not"))
    results.tell("and starts again", fault_of(machine.run("systemctl", "start", "upsd.service")) or listens(machine))
    machine.run("sh", "-c", f"rm -r {BACKUPS} {STORE}.before-* {STORE}-wal.before-*")
    results.tell("the timer", fault_of(machine.run("systemctl", "enable", "--now", "upsd-backup.timer")))


def try_killed_backup(machine: Machine, results: Results) -> None:
    """Kills the program that makes a backup while the server stands still, with a `cp` that takes long."""
    folder = DROP_INS.format("upsd-backup.service").replace("/etc/", "/run/")
    slow = "mkdir -p /run/slow && printf '#!/bin/sh\\nsleep 60\\n' > /run/slow/cp && chmod 755 /run/slow/cp"
    lines = r"[Service]\nEnvironment=PATH=/run/slow:/usr/sbin:/usr/bin\n"
    machine.run("sh", "-c", f"{slow} && mkdir -p {folder} && printf '{lines}' > {folder}/slow.conf")
    machine.run("systemctl", "daemon-reload")
    machine.run("systemctl", "start", "--no-block", "upsd-backup.service")
    stands = holds(lambda: machine.run("ups", "health", "--within", "1").returncode == 2, 10)
    results.tell("a backup freezes the unit", unless(machine.of_unit("FreezerState") == "frozen", machine.of_unit("FreezerState")))
    machine.run("systemctl", "kill", "--signal=KILL", "upsd-backup.service")
    goes_on = holds(lambda: machine.run("ups", "health", "--within", "1").returncode == 0, 10)
    results.tell("a backup that is killed lets the server go on", unless(stands and goes_on, f"it stood still: {stands}, it goes on: {goes_on}"))
    results.tell("and has failed", unless(service_of_backup(machine) != "success", service_of_backup(machine)))
    machine.run("sh", "-c", f"rm -r {folder} /run/slow && systemctl daemon-reload && systemctl reset-failed upsd-backup.service")


# a cluster's lines

def agent(machine: Machine, action: str, within: int = 20) -> int:
    """Returns the exit status of the resource agent."""
    return machine.run("env", f"OCF_RESKEY_within={within}", AGENT, action).returncode


def try_cluster(machine: Machine, commands: list[tour.Command], results: Results) -> None:
    """Tries the unit with the lines for a cluster, and the resource agent, without a cluster."""
    said = machine.says(AGENT, "meta-data")
    results.tell("the agent's metadata", unless(ElementTree.fromstring(said).get("name") == "upsd", said))
    folder, store = DROP_INS.format("upsd.service"), f"{VOLUME}/upsd/upsd.db"
    machine.run("systemctl", "stop", "upsd.service")
    has_words(machine, "--ae UPSD")  # which would end a start: the options are those of the volume
    machine.run("sh", "-c", f"mkdir -p {folder} {VOLUME} && cp /usr/share/doc/upsd/examples/cluster/cluster.conf {folder} && systemctl daemon-reload")
    ran = machine.run("systemd-analyze", "verify", "--man=no", "upsd.service")
    results.tell("a cluster's lines: systemd-analyze verify", fault_of(ran) or unless(not ran.stderr, ran.stderr))
    statuses = agent(machine, "monitor"), agent(machine, "start"), agent(machine, "stop")
    results.tell("no start without the volume", unless(statuses == (RUNS_NOT, FAILS, RUNS), str(statuses)))
    ran = machine.run("systemctl", "start", "upsd-backup.service")
    said = machine.says("journalctl", "--quiet", "--unit=upsd-backup", "--output=cat", "--lines=5")
    results.tell("a backup has nothing to do there", fault_of(ran) or unless(f"nothing is mounted at {VOLUME}" in said, said))
    is_there = os.path.exists(machine.path(f"{COLLECTED}/ups-backup.prom"))
    results.tell("and tells no time", unless(not is_there, "it does"))
    ran = machine.run("sh", "-c", f"mount -t tmpfs -o mode=755,size=40m none {VOLUME} && install -d -o upsd -g upsd -m 700 {VOLUME}/upsd && "
                      f"cp -p {STORE} {STORE}-wal {VOLUME}/upsd")
    results.tell("the volume is mounted", fault_of(ran))
    write(machine.path("root/upsd.options"), f'UPSD_OPTIONS="{serve_words(commands).replace(STORE, store)}"\n')
    machine.run("cp", "/root/upsd.options", f"{VOLUME}/upsd.options")
    statuses = agent(machine, "start"), agent(machine, "monitor")
    results.tell("a start on the volume", unless(statuses == (RUNS, RUNS), f"{statuses}"))
    ran = machine.run("systemctl", "start", "upsd-backup.service")
    results.tell("a backup of the volume", fault_of(ran))
    machine.run("systemctl", "kill", "--signal=STOP", "upsd.service")
    found = agent(machine, "monitor", 2)
    machine.run("systemctl", "kill", "--signal=CONT", "upsd.service")
    results.tell("a server that stands still fails its monitor", unless(found == FAILS, f"status {found}"))
    results.tell("one that goes on does not", unless(agent(machine, "monitor") == RUNS, "it does"))
    try_full_house(machine, results)
    machine.run("systemctl", "kill", "--kill-whom=main", "--signal=KILL", "upsd.service")
    is_down = holds(lambda: agent(machine, "monitor") == RUNS_NOT, DOWN)
    results.tell("systemd does not restart it", unless(is_down, machine.of_unit("ActiveState")))
    statuses = agent(machine, "start"), agent(machine, "stop"), agent(machine, "monitor")
    results.tell("the agent does, and stops it", unless(statuses == (RUNS, RUNS, RUNS_NOT), str(statuses)))
    machine.run("sh", "-c", f"umount {VOLUME}; rm -r {folder} {VOLUME} /root/upsd.options {BACKUPS} {os.path.dirname(COLLECTED)}; "
                "systemctl daemon-reload; systemctl reset-failed upsd.service")


def try_full_house(machine: Machine, results: Results) -> None:
    """Tries the agent while each worker has an association that asks every few seconds, and while each waits for the store."""
    before = machine.of_unit("MainPID")
    with machine.full_house("--every", "4") as said:
        is_full = holds(lambda: "16 of 16 workers" in machine.of_unit("StatusText"), 10)
        results.tell("a full house", unless(is_full, f"{said}: {machine.of_unit('StatusText')}"))
        found = agent(machine, "monitor", 40), agent(machine, "start", 5)
        results.tell("it is running, for the agent", unless(found == (RUNS, RUNS), f"{found}: {machine.of_unit('StatusText')}"))
        time.sleep(ROUND)
        found = agent(machine, "monitor", 40), agent(machine, "monitor", 40)
        results.tell("and goes on to run", unless(found == (RUNS, RUNS), f"{found}: {machine.of_unit('StatusText')}"))
    results.tell("no guest makes way for the agent", unless(not said[1:], "; ".join(said[1:3])))
    results.tell("it was not restarted", unless(machine.of_unit("MainPID") == before, "it was"))
    holds(lambda: "; 0 of 16 workers" in machine.of_unit("StatusText"), 70)
    machine.run("sh", "-c", f"head -c 60m /dev/zero > {VOLUME}/ballast")
    with machine.full_house("--create") as said:
        holds(lambda: "16 of 16 workers" in machine.of_unit("StatusText"), 20)
        found = agent(machine, "monitor", 5)
        results.tell("a full house whose store takes nothing fails its monitor", unless(found == FAILS, f"{found}: {machine.of_unit('StatusText')}"))
        machine.run("rm", f"{VOLUME}/ballast")
    goes_on = holds(lambda: agent(machine, "monitor", 5) == RUNS, 90)
    results.tell("and runs once there is room", unless(goes_on, machine.of_unit("StatusText")))


# the board

ASKS = """import json, sys, urllib.request
asked = urllib.request.Request("http://127.0.0.1:8080/state", headers={"Host": "board.example", "Authorization": "Bearer " + sys.argv[1]})
print(json.load(urllib.request.urlopen(asked, timeout=10))["steps"])
"""


def try_board(machine: Machine, results: Results) -> None:
    """Tries the unit of the board, with a token that is root's, and as what a proxy says to it."""
    token = "0123456789abcdef0123456789abcdef"
    write(machine.path("etc/ups-board.token"), f"{token}\n")
    os.chmod(machine.path("etc/ups-board.token"), 0o600)
    options = f"--ae WATCH1 --listen {tour.WATCHER_PORT} --server-port {tour.SERVER_PORT} --origin https://board.example"
    write(machine.path("etc/default/ups-board"), f'UPS_BOARD_OPTIONS="{options}"\n')
    ran = machine.run("systemctl", "start", "ups-board.service")
    shows = holds(lambda: machine.says("python3", "-c", ASKS, token) == "1", 60)
    said = machine.says("journalctl", "--quiet", "--unit=ups-board", "--output=cat")
    results.tell("the board", fault_of(ran) or unless(shows, said))
    results.tell("shows nothing without its token", unless(machine.run("python3", "-c", ASKS, "none").returncode != 0, "it does"))
    pid = machine.says("systemctl", "show", "--property=MainPID", "--value", "ups-board.service")
    owner = machine.says("ps", "-o", "user=", "-p", pid) or machine.says("stat", "--format=%U", f"/proc/{pid}")
    results.tell("has a user of its own", unless(owner not in ("", "root", "upsd"), owner))
    results.tell("and does not log its token", unless("the board is at https://board.example/" in said and token not in said, said))
    ran = machine.run("systemctl", "stop", "ups-board.service")
    machine.run("rm", "/etc/ups-board.token")
    results.tell("stops", fault_of(ran))


# an upgrade, and back

def make_earlier(machine: Machine) -> None:
    """Makes the package of an earlier version there: that of this one with a stand-in for the program, which is a script."""
    with tempfile.TemporaryDirectory(prefix="upsd-earlier-") as folder:
        tree = os.path.join(folder, "tree")
        subprocess.run(["dpkg-deb", "--raw-extract", machine.path("root/upsd.deb"), tree], check=True)
        shutil.copy(os.path.join(HERE, "trials/lib/earlier.py"), os.path.join(tree, "usr/bin/upsd"))
        os.chmod(os.path.join(tree, "usr/bin/upsd"), 0o755)
        for path, pattern, new in (("DEBIAN/control", r"(?m)^Version: .*$", "Version: 0.3.0~earlier"),
                                   ("lib/systemd/system/upsd.service", r"(?m)^(NoExec|Exec)Paths=.*\n", "")):
            with open(os.path.join(tree, path), encoding="utf-8") as text:
                changed = re.sub(pattern, new, text.read())
            write(os.path.join(tree, path), changed)
        subprocess.run(["dpkg-deb", "--build", "--root-owner-group", tree, machine.path("root/earlier.deb")], check=True, stdout=subprocess.DEVNULL)


def has_store(machine: Machine, path: str) -> None:
    """Puts a stored store in the place of the machine's."""
    shutil.copy(path, machine.path("root/stored"))
    machine.run("sh", "-c", f"rm -f {STORE}*; cp /root/stored {STORE}; : > {STORE}-wal; chmod 600 {STORE}*; chown upsd: {STORE}*; rm /root/stored")


def installs(machine: Machine, name: str) -> subprocess.CompletedProcess[str]:
    return machine.run("dpkg", "--install", "--force-confold", "--force-downgrade", f"/root/{name}.deb")


def try_upgrade(machine: Machine, results: Results) -> None:
    """Upgrades a package with a stand-in for an earlier version, on a store of 0.2.0, and goes back."""
    machine.run("systemctl", "stop", "upsd.service")
    make_earlier(machine)
    has_store(machine, STORED)
    has_words(machine, STORED_WORDS)
    results.tell("an earlier version", fault_of(installs(machine, "earlier")) or fault_of(machine.run("systemctl", "start", "upsd.service")))
    before = machine.of_unit("MainPID")
    has_words(machine, f"{STORED_WORDS} --keep never")
    ran = installs(machine, "upsd")
    results.tell("an upgrade whose options are refused", fault_of(ran) or unless("goes on with the version from before" in ran.stderr, ran.stderr))
    results.tell("the earlier server goes on", unless(machine.of_unit("MainPID") == before, machine.of_unit("ActiveState")))
    has_words(machine, STORED_WORDS)
    installs(machine, "earlier")
    machine.run("sh", "-c", f"systemctl restart upsd.service; rm -r {BACKUPS}")
    before = machine.of_unit("MainPID")
    ran = installs(machine, "upsd")
    is_told = machine.of_unit("MainPID") == before and "run 'systemctl restart upsd'" in ran.stderr
    results.tell("an upgrade of 0.2.0, which tells no terms, says what to do", fault_of(ran) or unless(is_told, ran.stderr))
    results.tell("its restart", fault_of(machine.run("systemctl", "restart", "upsd.service")) or listens(machine))
    found = machine.says("ups", "find")
    results.tell("has the steps of its store", unless("1.2.3.4.4" in found, found))
    backup = f"{BACKUPS}/{machine.says('ls', BACKUPS)}"
    is_same = content(machine.path(f"{backup}/upsd.db")) == content(STORED)
    results.tell("there is a backup of before", unless(is_same, backup))
    results.tell("which this version takes", fault_of(machine.run("upsd-backup", "check", backup)))
    machine.run("systemctl", "stop", "upsd.service")
    results.tell("the earlier version again", fault_of(installs(machine, "earlier")))
    ran = machine.run("systemctl", "start", "upsd.service")
    refused = holds(lambda: machine.of_unit("ExecMainStatus") == "2", 10)
    results.tell("refuses the new format", unless(refused, machine.of_unit("ActiveState")))
    results.tell("and has its store back", fault_of(machine.run("upsd-backup", "restore", backup)) or comes_to(machine, "active"))
    is_same = content(machine.path(STORE)) == content(STORED)
    results.tell("as it was", unless(is_same, "it is another one"))
    machine.run("systemctl", "stop", "upsd.service")
    results.tell("the version of today", fault_of(installs(machine, "upsd")))
    machine.run("sh", "-c", f"rm -r {BACKUPS} {STORE}* /root/earlier.deb; runuser -u upsd -- upsd init {STORE}; systemctl reset-failed upsd.service")


def try_missing(machine: Machine, results: Results) -> None:
    """Tries a store that is missing: an upgrade makes none, and the unit does not serve before it is back."""
    machine.run("sh", "-c", f"mkdir /root/away && mv {STORE} {STORE}-wal /root/away")
    results.tell("an upgrade without its store", fault_of(machine.run("dpkg", "--install", "--force-confold", "/root/upsd.deb")))
    machine.run("systemctl", "start", "upsd.service")
    refused = holds(lambda: machine.of_unit("ExecMainStatus") == "2", 10)
    results.tell("a missing store is refused", unless(refused, machine.of_unit("ActiveState")))
    is_made = not os.path.exists(machine.path(STORE))
    results.tell("and neither makes one", unless(is_made, f"there is {STORE}"))
    machine.run("sh", "-c", f"mv /root/away/* {os.path.dirname(STORE)} && rmdir /root/away")
    results.tell("it serves once the store is back", listens(machine))
    machine.run("systemctl", "stop", "upsd.service")
    machine.run("systemctl", "reset-failed", "upsd.service")


def try_port(machine: Machine, results: Results) -> None:
    """Tries whether the unit takes DICOM's port, without the lines that it names for that and with them."""
    has_words(machine, "--ae UPSD --port 104")
    machine.run("systemctl", "start", "upsd.service")
    refused = holds(lambda: machine.of_unit("ExecMainStatus") == "2", 10)
    results.tell("port 104 wants a capability", unless(refused, machine.of_unit("ActiveState")))
    has_line(machine, "port", r"AmbientCapabilities=CAP_NET_BIND_SERVICE\nCapabilityBoundingSet=CAP_NET_BIND_SERVICE\nPrivateUsers=no")
    machine.run("systemctl", "restart", "upsd.service")
    results.tell("port 104", listens(machine, "--port", "104"))
    machine.run("systemctl", "stop", "upsd.service")


def try_removal(machine: Machine, before: set[str], results: Results) -> None:
    """Removes the package, and purges it."""
    results.tell("remove", fault_of(machine.run("dpkg", "--remove", "upsd", "ups")))
    left = machine.paths() - before
    stored = {"var/lib/upsd", *(f"var/lib/upsd/upsd.db{it}" for it in ("", "-wal", "-terms"))}
    kept = {"etc/default/upsd", "etc/default/ups-board", *stored,
            "etc/systemd/system/timers.target.wants/upsd-backup.timer"}
    results.tell("a removal keeps words, store and what was enabled alone", unless(left == kept, f"{sorted(left ^ kept)}"))
    runs = "upsd" in machine.says("sh", "-c", "cat /proc/[0-9]*/comm").split()
    results.tell("a removal ends the server", unless(not runs, "it runs"))
    ran = machine.run("dpkg", "--purge", "upsd", "ups")
    results.tell("purge", fault_of(ran) or unless("/var/lib/upsd stays" in ran.stderr, ran.stderr))
    left = machine.paths() ^ before
    results.tell("a purge leaves the store", unless(left == stored, f"{sorted(left)}"))
    expires = machine.says("getent", "shadow", "upsd").split(":")
    results.tell("and the account, which is locked", unless(expires[7:8] == ["1"], ":".join(expires)))


def try_in(root: str, packages: list[str], is_checked: bool, results: Results) -> None:
    """Tries the packages in a Debian below a folder."""
    commands = [it for it in tour.commands_of(source("README.md")) if it.is_server or it.text.startswith((tour.CLIENT, "ups "))]
    machine = Machine(root)
    depend(machine, packages)
    with machine.booted():
        if is_checked:
            has_line(machine, "limits", "LimitAS=infinity")
        before = machine.paths()
        try_installation(machine, results)
        try_unit(machine, commands, results)
        try_board(machine, results)
        try_backup(machine, results)
        try_ends(machine, commands, results)
        try_cluster(machine, commands, results)
        try_upgrade(machine, results)
        has_words(machine, serve_words(commands))
        results.tell("start without the cluster's lines", fault_of(machine.run("systemctl", "start", "upsd.service")) or listens(machine))
        try_removal(machine, before, results)


@contextlib.contextmanager
def copied(folder: Optional[str]) -> Iterator[str]:
    """Makes a temporary copy of the bare Debian of a folder, or of a new one if no folder is named."""
    with tempfile.TemporaryDirectory(prefix="upsd-debian-") as place:
        bare(folder or os.path.join(place, "bare"))
        subprocess.run(["cp", "-a", folder or os.path.join(place, "bare"), os.path.join(place, "root")], check=True)
        yield os.path.join(place, "root")


def main() -> None:
    asked = described(__doc__)
    asked.add_argument("--program", metavar="PATH", default=tour.PROGRAM, help=f"the program ({tour.PROGRAM})")
    asked.add_argument("--checked", action="store_true", help="the program is built with checks, and gets no LimitAS")
    asked.add_argument("--root", metavar="FOLDER", help="a bare Debian, which is copied (made anew)")
    given = asked.parse_args()
    install(TOOLS)
    results = Results()
    with tempfile.TemporaryDirectory(prefix="upsd-trial-") as folder:
        packages = try_packages(os.path.join(HERE, given.program), folder, results)
        with copied(given.root) as root:
            try_in(root, packages, given.checked, results)
    results.end()


if __name__ == "__main__":
    main()
