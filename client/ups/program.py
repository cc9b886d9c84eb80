"""A run of the client, from its words to its exit status."""

from __future__ import annotations

import argparse
import io
import os
import sys
from typing import Optional

from ups import NAME
from ups.association import associated
from ups.command_line import read_words
from ups.faults import Refused
from ups.monitoring import ended_by_nagios, put_metrics
from ups.terms import is_done, told

UNREAD = 141  # the exit status that a shell has for SIGPIPE


def asked_of_server(asked: argparse.Namespace) -> int:
    """Runs a command over its own association, prints its status, and returns the exit status."""
    status = 0
    fault: Optional[Exception] = None
    try:
        with associated(asked, [asked.over]) as association:
            status = asked.run(association, asked)
    except (OSError, Refused) as it:
        fault = it
    if asked.nagios:
        return ended_by_nagios(asked, None if fault else status, fault)
    if fault is not None:
        if asked.prometheus:
            put_metrics(asked, None)
        raise fault
    if not (asked.prometheus and is_done(status)):
        print(told(status), file=asked.aside)
    return 0 if is_done(status) else 1


def run() -> int:
    for stream in (sys.stdout, sys.stderr):
        if isinstance(stream, io.TextIOWrapper):
            stream.reconfigure(errors="backslashreplace")  # a terminal may lack a character
    try:
        asked = read_words()
        status: int = asked_of_server(asked) if asked.over else asked.run(asked)
        sys.stdout.flush()
        return status
    except BrokenPipeError:
        os.dup2(os.open(os.devnull, os.O_WRONLY), sys.stdout.fileno())  # which is flushed again at the end
        return UNREAD
    except (OSError, Refused) as fault:
        print(f"{NAME}: {fault}", file=sys.stderr)
        return 2
