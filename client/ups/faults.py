"""Failures of a peer or of given data, and lines about them."""

from __future__ import annotations

import contextlib
import ssl
import sys

from ups.moments import moment_now


class Refused(Exception):
    """A failure of the peer or of the given data, with a line that says why."""


class Unwritable(Refused):
    """A data set that JSON has no form for."""


class Unexpected(Refused):
    """Something of a peer that can't be read, or that has no place there; an A-ABORT follows it."""


class Over(Refused):
    """The end of an association by its peer, or by a rejection, behind which no A-ABORT is sent."""


class Broken(Over):
    """The end of a connection."""


LONGEST_LINE = 1_000  # characters of a line about a fault, which may have words of a peer


def why(fault: OSError) -> str:
    """Returns why a call of the system, or a step of TLS, failed, in words without numbers."""
    if isinstance(fault, ssl.SSLCertVerificationError):
        return f"the certificate of the peer is not taken: {fault.verify_message}"
    if isinstance(fault, ssl.SSLError) and fault.reason:
        return fault.reason.replace("_", " ").lower()
    return fault.strerror or str(fault) or type(fault).__name__


def printable(text: str) -> str:
    """Returns a text of a peer for a line: what isn't printable is escaped, and so neither ends the line nor moves the cursor."""
    if text.isprintable():
        return text
    return "".join(it if it.isprintable() else it.encode("unicode_escape").decode() for it in text)


def complain(text: str) -> None:
    """Prints a line on standard error, with the moment, if anybody reads it."""
    with contextlib.suppress(OSError):
        print(f"{moment_now()} {printable(text[:LONGEST_LINE])}", file=sys.stderr, flush=True)
