"""What scripts need of this machine: the checkout, programs, packages, ports, and what a process takes."""

from __future__ import annotations

import argparse
import importlib.util
import os
import pathlib
import shutil
import socket
import subprocess
import sys
import time
from collections.abc import Callable
from typing import Any, Optional

HERE = os.path.dirname(os.path.dirname(os.path.dirname(os.path.abspath(__file__))))  # the top of the checkout
BUILT = "crates/upsd/out/upsd"  # the program that `rt run` builds there
PYTHON = "/usr/bin/python3"
SHELLS = ("sh", "bash", "dash", "env", "strace", "nice", "time")


def source(path: str) -> str:
    """Returns the text of a file of the checkout."""
    return pathlib.Path(HERE, path).read_text(encoding="utf-8")


def described(doc: Optional[str], program: str = "") -> argparse.ArgumentParser:
    """Returns the parser of a script with this docstring. It may take a program: one word (?), or several, with what goes before
    those of `serve` (*)."""
    about, _, more = (doc or "").partition("\n\n")
    parser = argparse.ArgumentParser(description=about, epilog=more, formatter_class=argparse.RawDescriptionHelpFormatter)
    built = os.path.join(HERE, BUILT)
    if program:
        parser.add_argument("program", nargs=program, default=[built] if program == "*" else built,
                            help=f"the program{', and words before those of `serve`' * (program == '*')} ({BUILT}, which `rt run` builds)")
    return parser


def arguments(about: Optional[str], *numbers: tuple[str, int, str]) -> argparse.Namespace:
    """Returns the program and the numbers of the command line; each number is given here by name, default and meaning."""
    parser = described(about, "?")
    for name, default, what in numbers:
        parser.add_argument(name, nargs="?", type=int, default=default, help=f"{what} ({default:,})")
    return parser.parse_args()


def install(packages: dict[str, str]) -> None:
    """Installs pydicom and these commands if they are missing, each from the Debian package that is named with it."""
    own = importlib.util.find_spec("pydicom")
    missing = sorted({package for command, package in packages.items() if not shutil.which(command)})
    if not own and subprocess.run([PYTHON, "-c", "import pydicom"], stderr=subprocess.DEVNULL).returncode:
        missing.append("python3-pydicom")
    if missing:
        subprocess.run(["apt-get", "update"], check=True, stdout=subprocess.DEVNULL)
        subprocess.run(["apt-get", "install", "-y", *missing], check=True, stdout=subprocess.DEVNULL)
    if not own:
        os.execv(PYTHON, [PYTHON, *sys.argv])


def holds(what: Callable[[], object], seconds: float) -> bool:
    """Waits until `what` holds; returns False if it does not in that many seconds."""
    deadline = time.monotonic() + seconds
    while not what():
        if time.monotonic() > deadline:
            return False
        time.sleep(0.05)
    return True


def free_port() -> int:
    """Returns a free port of this machine."""
    with socket.create_server(("127.0.0.1", 0)) as listener:
        port: int = listener.getsockname()[1]
        return port


def listens(port: int) -> bool:
    """Returns whether anything listens on a port of this machine."""
    try:
        socket.create_connection(("127.0.0.1", port), 1).close()
        return True
    except OSError:
        return False


def processor(pid: int) -> float:
    """Returns the processor seconds of a process and all of its threads, by the clock that the system keeps for it."""
    return time.clock_gettime(~pid << 3 | 2)


def used_by(pid: int, task: int) -> int:
    """Returns the nanoseconds that a thread has run; 0 if it has ended."""
    try:
        with open(f"/proc/{pid}/task/{task}/schedstat", encoding="ascii") as it:
            return int(it.read().split()[0])
    except OSError:
        return 0


def resident(pid: int) -> int:
    """Returns the memory of a process, in bytes."""
    with open(f"/proc/{pid}/status", encoding="ascii") as lines:
        return next(int(line.split()[1]) * 1024 for line in lines if line.startswith("VmRSS"))


def pid_of(started: subprocess.Popen[Any]) -> int:
    """Returns the process ID of a program, which a script or strace may have started."""
    pid = started.pid
    for _ in range(500):
        try:
            with open(f"/proc/{pid}/comm", encoding="ascii") as it:
                name = it.read().strip()
            with open(f"/proc/{pid}/task/{pid}/children", encoding="ascii") as it:
                children = it.read().split()
        except OSError:
            return started.pid
        if name not in SHELLS:
            return pid
        if children:
            pid = int(children[0])
        else:
            time.sleep(0.01)
    return pid
