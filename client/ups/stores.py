"""Copies of a server's store, and the accepted requests in one, which `upsd history` tells."""

from __future__ import annotations

import contextlib
import os
import re
import shlex
import shutil
import subprocess
import tempfile
import time
from collections.abc import Callable, Iterator
from typing import NamedTuple, Optional, TypeVar

from ups.faults import Refused

STORE = "/var/lib/upsd/upsd.db"  # that of the package
TRIES = 5  # copies of a store that a server writes meanwhile
T = TypeVar("T")
ESCAPED = re.compile(r"%([0-9A-Fa-f]{2})")


@contextlib.contextmanager
def copied(store: str) -> Iterator[str]:
    """Copies the files of a store, which a server may have open, and yields the path of the copy, which goes with the block. What is
    copied while the server writes may not be readable."""
    with tempfile.TemporaryDirectory(prefix="ups-") as folder:
        copy = os.path.join(folder, "store")
        try:
            shutil.copyfile(store, copy)
            if os.path.exists(f"{store}-wal"):
                shutil.copyfile(f"{store}-wal", f"{copy}-wal")
        except OSError as it:
            raise Refused(f"{it.filename or store}: {it.strerror}") from None
        yield copy


class Told(NamedTuple):
    """The accepted requests of a store, a line of a script each, and the words of the command that answers behind them."""

    lines: list[str]
    command: list[str]


def told_once(program: str, store: str, at: Optional[int]) -> Told:
    """Returns the requests of a store, or the first of them, by a copy of its files. Raises Refused, also for a torn copy."""
    with copied(store) as copy:
        until = [] if at is None else ["--until", str(at)]
        told = subprocess.run([program, "history", *until, copy], capture_output=True, text=True)
    if told.returncode:
        raise Refused(told.stderr.strip().rsplit("\n", 1)[-1].replace(copy, store) or f"upsd history ends with status {told.returncode}")
    return Told(told.stdout.splitlines(), [program, *shlex.split(told.stderr)[1:]])


def requests_of(program: str, store: str, at: Optional[int] = None) -> Told:
    """Returns the requests of a store, or the first of them, by a copy of its files."""
    return tried(lambda: told_once(program, store, at))


def tried(read: Callable[[], T]) -> T:
    """Reads a copy of a store, and another one where it can't be read, since the server may have written meanwhile."""
    for attempt in range(TRIES - 1):
        try:
            return read()
        except Refused:
            time.sleep((attempt + 1) / 5)
    return read()


def unescaped(word: str) -> str:
    """Returns what a word of a script stands for."""
    return ESCAPED.sub(lambda it: chr(int(it[1], 16)), word)
