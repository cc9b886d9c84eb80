#!/usr/bin/env python3
"""Runs the commands of README.md in order, and compares what they print with what it shows.

    trials/tour.py                  proves and builds the program first, as the README does: an hour or more on a new machine
    trials/tour.py --program PATH   uses a program that is built already, and leaves out the commands of `rt`

A command is a line that begins with `$ ` in a `console` block. The lines below it are what it prints; if there are none, its
exit status must be 0. A time of 14 digits matches any other. A command that ends with `&` is the server: it runs to the end
of the tour, and the next command waits until it listens. If a port of the README is not free, a free one takes its place,
and the clients are told. `rt ci` is left out: it is the gate.

It installs pydicom if it is missing (`apt-get install -y python3-pydicom`, which needs root). It prints a line for each
command, and then `N passed, M failed`. The exit status is 1 if any failed.
"""

from __future__ import annotations

import contextlib
import dataclasses
import os
import re
import shlex
import signal
import socket
import subprocess
import sys
from typing import Iterator, Optional

sys.path.insert(0, os.path.join(os.path.dirname(os.path.dirname(os.path.abspath(__file__))), "check/lib"))
from machine import HERE, described, holds, install, listens, source
from results import Results

PROGRAM = "crates/upsd/out/upsd"
CLIENT = "client/bin/ups"
SERVER_PORT, WATCHER_PORT = 11112, 11113  # the ports that the README names
LIMIT = 60  # seconds for a command, except those of `rt`


@dataclasses.dataclass
class Command:
    """A command of the README, and the lines that it shows below it."""

    text: str
    shown: list[str]

    @property
    def is_server(self) -> bool:
        return self.text.endswith(" &")

    @property
    def is_of_rt(self) -> bool:
        return re.search(r"(^|&& )rt ", self.text) is not None

    @property
    def is_gate(self) -> bool:
        return self.text == "rt ci"


def commands_of(text: str) -> Iterator[Command]:
    """Yields the commands of a text in Markdown."""
    for block in re.findall(r"(?ms)^```console\n(.*?)^```$", text):
        for part in re.split(r"(?m)^\$ ", block)[1:]:
            first, *shown = part.removesuffix("\n").split("\n")
            yield Command(first, shown)


def port_for(named: int) -> int:
    """Returns the port that the README names if it is free, otherwise a free one."""
    for port in (named, 0):
        with contextlib.suppress(OSError), socket.create_server(("127.0.0.1", port)) as listener:
            return listener.getsockname()[1]
    sys.exit("tour.py: no port is free")


def moved(text: str, ports: dict[int, int]) -> str:
    """Returns a text with other ports."""
    return re.sub(r"\b\d{5}\b", lambda it: str(ports.get(int(it[0]), it[0])), text)


def runnable(command: Command, program: str, ports: dict[int, int]) -> str:
    """Returns the command as it is run: with the program, and with other ports if they are not those of the README."""
    words = moved(command.text.removesuffix(" &"), ports).replace(PROGRAM, shlex.quote(program))
    if not command.text.startswith(CLIENT):
        return words
    if ports[SERVER_PORT] != SERVER_PORT:
        words += f" --port {ports[SERVER_PORT]}"
    if ports[WATCHER_PORT] != WATCHER_PORT and command.text.startswith(f"{CLIENT} watch"):
        words += f" --listen {ports[WATCHER_PORT]}"
    return words


def environment() -> dict[str, str]:
    """Returns the environment of the commands: the Python that runs this, which has pydicom, comes first."""
    return {**os.environ, "PATH": f"{os.path.dirname(sys.executable)}:{os.environ['PATH']}"}


def plain(lines: list[str]) -> list[str]:
    """Returns the lines with the same word in place of each time."""
    return [re.sub(r"\b\d{14}[+-]\d{4}\b", "<moment>", line) for line in lines]


def last_line(said: str) -> str:
    """Returns the last line of what a command says."""
    return said.strip().rpartition("\n")[2]


def difference(command: Command, words: str, ports: dict[int, int]) -> Optional[str]:
    """Returns how what a command does differs from what the README shows, or None."""
    try:
        limit = None if command.is_of_rt else LIMIT
        ran = subprocess.run(["bash", "-c", words], cwd=HERE, env=environment(), capture_output=True, text=True, timeout=limit)
    except subprocess.TimeoutExpired:
        return f"it does not end within {LIMIT} s"
    if not command.shown:
        return None if ran.returncode == 0 else f"it ends with status {ran.returncode}: {last_line(ran.stderr)}"
    shown = [moved(line, ports) for line in command.shown]
    found = ran.stdout.splitlines()
    if plain(found) == plain(shown):
        return None
    said = f", and says {last_line(ran.stderr)!r}" if ran.stderr else ""
    return f"it prints {found} and not {shown}{said}"


@contextlib.contextmanager
def started(words: str) -> Iterator[subprocess.Popen[bytes]]:
    """Runs a command while the body runs."""
    with subprocess.Popen(["bash", "-c", words], cwd=HERE, env=environment(), stdin=subprocess.DEVNULL, start_new_session=True) as process:
        try:
            yield process
        finally:
            with contextlib.suppress(ProcessLookupError):
                os.killpg(process.pid, signal.SIGTERM)


def serve(words: str, port: int, stack: contextlib.ExitStack) -> Optional[str]:
    """Starts a server that ends with the stack, and returns why it doesn't listen, or None."""
    process = stack.enter_context(started(words))
    if holds(lambda: listens(port) or process.poll() is not None, 10) and process.poll() is None:
        return None
    return f"it does not listen on port {port}" if process.poll() is None else f"it ends with status {process.returncode}"


def tour(commands: list[Command], program: str, results: Results) -> None:
    """Runs the commands, and tells how each went."""
    ports = {named: port_for(named) for named in (SERVER_PORT, WATCHER_PORT)}
    with contextlib.ExitStack() as stack:
        for command in commands:
            words = runnable(command, program, ports)
            if command.is_server:
                results.tell(command.text, serve(words, ports[SERVER_PORT], stack))
            else:
                results.tell(command.text, difference(command, words, ports))


def main() -> None:
    asked = described(__doc__)
    asked.add_argument("--program", metavar="PATH", help=f"a program that is built already (default: {PROGRAM}, built by `rt run`)")
    given = asked.parse_args()
    install({})
    commands = [it for it in commands_of(source("README.md")) if not it.is_gate and not (given.program and it.is_of_rt)]
    if not commands:
        sys.exit("tour.py: README.md shows no command")
    results = Results()
    tour(commands, os.path.abspath(given.program) if given.program else PROGRAM, results)
    results.end()


if __name__ == "__main__":
    main()
