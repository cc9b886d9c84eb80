"""Starts the program as a server on this machine."""

from __future__ import annotations

import os
import re
import select
import subprocess
import sys
import threading
import time
from collections.abc import Mapping
from typing import IO, Callable, Optional, TypeVar, Union

UNIT = os.path.join(os.path.dirname(os.path.abspath(__file__)), "../../packaging/upsd.service")
Sink = Union[int, IO[bytes]]  # where standard error goes
S = TypeVar("S", bound="Server")


def as_service(program: str) -> list[str]:
    """Returns the words that start a program with the environment that the unit of the package gives it."""
    with open(UNIT, encoding="utf-8") as unit:
        return ["env", *re.findall(r"^Environment=(\S+)$", unit.read(), re.MULTILINE), program]


class Server:
    """`upsd serve` on a free port, which it prints, or on a given one; it has a log."""

    limit: Optional[float] = None  # the seconds within which it has to print its port

    def __init__(self, program: list[str], *options: str, port: int = 0, error: Sink = subprocess.PIPE,
                 prepare: Optional[Callable[[], None]] = None, **variables: str) -> None:
        self.begin([*program, "serve", "--ae", "UPSD", "--port", str(port), *options], error, prepare, variables=variables)
        try:
            self.port = port or self.printed()
        except BaseException:
            self.stop()
            raise

    def begin(self, words: list[str], error: Sink = subprocess.PIPE, prepare: Optional[Callable[[], None]] = None,
              is_group: bool = False, variables: Mapping[str, str] = {}) -> None:
        """Starts a process, in which `prepare` is called first, and which may be a group of its own. What it says on standard
        error is the log, unless that goes elsewhere."""
        self.began = time.monotonic()
        self.process = subprocess.Popen(words, stdin=subprocess.DEVNULL, stdout=subprocess.PIPE, stderr=error, text=True,
                                        preexec_fn=prepare, start_new_session=is_group, env={**os.environ, **variables})
        assert self.process.stdout
        self.output = self.process.stdout
        self.log: list[str] = []
        self.times: list[float] = []  # when each line of the log came
        self.reader = threading.Thread(target=self.read_log, daemon=True)
        self.reader.start()

    def read_log(self) -> None:
        for line in self.process.stderr or ():
            self.times.append(time.monotonic())
            self.log.append(line.rstrip())

    def printed(self) -> int:
        """Returns the port that it prints."""
        line = ""
        if select.select([self.output], [], [], self.limit)[0]:
            line = self.output.readline()
        self.took = time.monotonic() - self.began
        return int(line) if re.fullmatch(r"\d+\s*", line) else self.without_port(line)

    def without_port(self, line: str) -> int:
        """Ends the script, since the server prints no port."""
        sys.exit(f"the server printed {line!r} for a port: {' '.join(self.log)}")

    def stop(self) -> None:
        self.process.terminate()
        try:
            self.process.wait(10)
        except subprocess.TimeoutExpired:
            self.process.kill()
            self.process.wait()
        self.output.close()

    def __enter__(self: S) -> S:
        return self

    def __exit__(self, *_: object) -> None:
        self.stop()
