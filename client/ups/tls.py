"""TLS (PS3.15 annex B): connections that this side opens, and those that it takes."""

from __future__ import annotations

import argparse
import socket
import ssl
from typing import Any, Optional

from ups.faults import Broken, Refused, why

ANY_NAME = "*"  # of --tls-name: the certificate may have any


def is_asked(asked: argparse.Namespace) -> bool:
    """Returns whether connections are by TLS: each of its options says so, so that nothing goes out plainly by mistake."""
    return any((asked.tls, asked.tls_ca, asked.tls_certificate, asked.tls_key, asked.tls_name))


def context_of(asked: argparse.Namespace, kind: int) -> ssl.SSLContext:
    """Returns what connections of a kind have in common. The files are read each time: they may have been renewed."""
    context = ssl.SSLContext(kind)
    context.minimum_version = ssl.TLSVersion.TLSv1_2
    named = ""
    try:
        if asked.tls_ca:
            named = f"--tls-ca {asked.tls_ca}"
            context.load_verify_locations(asked.tls_ca)
        if asked.tls_certificate:
            named = " ".join(["--tls-certificate", asked.tls_certificate, *(["--tls-key", asked.tls_key] if asked.tls_key else [])])
            context.load_cert_chain(asked.tls_certificate, asked.tls_key)
    except OSError as fault:
        raise Refused(f"{named}: {why(fault)}") from None
    return context


def opened(connection: socket.socket, asked: argparse.Namespace, host: str) -> socket.socket:
    """Begins TLS on a connection to a host, whose certificate has to be one of --tls-ca, or of the system, and to have its name."""
    context = context_of(asked, ssl.PROTOCOL_TLS_CLIENT)
    context.check_hostname = asked.tls_name != ANY_NAME
    if not asked.tls_ca:
        context.load_default_certs(ssl.Purpose.SERVER_AUTH)
    return wrapped(connection, context, (asked.tls_name or host) if context.check_hostname else None)


def taken(connection: socket.socket, asked: argparse.Namespace) -> socket.socket:
    """Begins TLS on a connection that a peer has opened. With --tls-ca the peer has to have a certificate of one of these."""
    context = context_of(asked, ssl.PROTOCOL_TLS_SERVER)
    context.verify_mode = ssl.CERT_REQUIRED if asked.tls_ca else ssl.CERT_NONE
    connection.settimeout(asked.timeout)
    return wrapped(connection, context, None)


def wrapped(connection: socket.socket, context: ssl.SSLContext, name: Optional[str]) -> ssl.SSLSocket:
    try:
        return context.wrap_socket(connection, server_side=context.protocol == ssl.PROTOCOL_TLS_SERVER, server_hostname=name)
    except OSError as fault:
        connection.close()
        raise Broken(f"TLS: {why(fault)}") from None


def check_for_listener(asked: argparse.Namespace) -> None:
    """Raises Refused if a listener could take no connection."""
    if is_asked(asked):
        if not asked.tls_certificate:
            raise Refused("who listens by TLS needs --tls-certificate")
        context_of(asked, ssl.PROTOCOL_TLS_SERVER)


def told(connection: socket.socket) -> str:
    """Returns what TLS has negotiated on a connection; empty without TLS."""
    if not isinstance(connection, ssl.SSLSocket):
        return ""
    cipher = connection.cipher()
    return f"{connection.version()}, {cipher[0] if cipher else 'no cipher'}{subject_of(connection)}"


def subject_of(connection: ssl.SSLSocket) -> str:
    """Returns the name in the certificate of a peer that was checked, for the end of a line."""
    parts: Any = (connection.getpeercert() or {}).get("subject", ())
    names = [str(value) for part in parts for name, value in part if name == "commonName"]
    return f", the peer is {names[0]}" if names else ""
