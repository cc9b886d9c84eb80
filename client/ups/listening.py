"""Associations that peers request, taken as the options of a listener say."""

from __future__ import annotations

import argparse
import ipaddress
import socket
import threading
import time
import warnings
from typing import Callable, Iterator

from ups import tls
from ups.association import Association
from ups.faults import Over, Refused, Unexpected, complain, why
from ups.pdus import ASSOCIATE_RQ

AT_ONCE = 8  # associations that `board` and `work` take at once; a server has one for each watcher


def listener_of(asked: argparse.Namespace) -> socket.socket:
    """Listens where the options say."""
    tls.check_for_listener(asked)
    warnings.simplefilter("ignore")  # pydicom warns of values that anybody may send, and each warning would be kept
    try:
        family = socket.AF_INET6 if ":" in asked.address else socket.AF_INET
        return socket.create_server((asked.address, asked.listen), family=family)
    except OSError as fault:
        raise Refused(f"{asked.address}:{asked.listen}: {why(fault)}") from None
    except UnicodeError:
        raise Refused(f"{asked.address!r} is no address") from None


def connections(listener: socket.socket, asked: argparse.Namespace) -> Iterator[tuple[socket.socket, str]]:
    """Yields each connection, and where it comes from, as long as the listener is open. One of an address that may not connect is
    closed before anything of it is read."""
    while listener.fileno() >= 0:
        try:
            connection, (host, port, *_) = listener.accept()
        except OSError as fault:  # such as too many open files
            if listener.fileno() >= 0:
                complain(f"a connection was not taken: {fault}")
                time.sleep(1)
            continue
        where = f"[{host}]:{port}" if ":" in host else f"{host}:{port}"
        if asked.allow is None or any(ipaddress.ip_address(host) in each for each in asked.allow):
            yield connection, where
        else:
            connection.close()
            complain(f"{where}: it is none of the addresses that --allow names")


def take_association(asked: argparse.Namespace, connection: socket.socket, where: str, take: Callable[[Association], None]) -> bool:
    """Has `take` serve one association, and returns whether its peer released it. Whatever the peer sends ends this association
    alone, with a line that says why."""
    try:
        with tls.taken(connection, asked) if tls.is_asked(asked) else connection as taken:
            return take_over(Association(taken, asked, where), take)
    except Refused as fault:  # of TLS
        complain(f"{where}: {fault}")
    return False


def take_over(association: Association, take: Callable[[Association], None]) -> bool:
    """Serves an association over its connection."""
    where = association.place
    try:
        take(association)
        return True
    except Over as fault:
        complain(f"{where}: {fault}")
    except Refused as fault:
        complain(f"{where}: aborted: {fault}")
        association.abort()
    except Exception as fault:  # pydicom raises exceptions of many classes, some where a value is looked at
        complain(f"{where}: aborted: {type(fault).__name__}: {fault}")
        association.abort()
    return False


def take_in_threads(listener: socket.socket, asked: argparse.Namespace, take: Callable[[int, Association], None],
                    at_once: int = AT_ONCE) -> None:
    """Begins to take associations, each in a thread and so many of them at a time; `take` is also given the number of each."""
    room = threading.Semaphore(at_once)

    def serve(number: int, connection: socket.socket, where: str) -> None:
        try:
            take_association(asked, connection, where, lambda association: take(number, association))
        finally:
            room.release()

    def listen() -> None:
        for number, (connection, where) in enumerate(connections(listener, asked), 1):
            room.acquire()
            threading.Thread(target=serve, args=(number, connection, where), daemon=True).start()

    threading.Thread(target=listen, daemon=True).start()


def request_of(association: Association, asked: argparse.Namespace, caller: str = "") -> tuple[bytes, str]:
    """Receives the request for an association, and returns it with the title of who calls. Who calls another title than that of this
    side is rejected, and so is who has another one than `caller`, unless that is empty."""
    kind, request = association.pdu()
    if kind != ASSOCIATE_RQ or len(request) < 68:
        raise Unexpected(f"a PDU of type {kind:02X} and {len(request):,} bytes in the place of an association request")
    called, calling = (request[at : at + 16].decode("latin-1").strip(" ") for at in (4, 20))
    if called != asked.ae.strip(" "):
        association.reject(7, f"it calls {called!r}, and this is {asked.ae}")
    if caller and calling != caller.strip(" "):
        association.reject(3, f"it is {calling!r}, and the server is {caller}")
    return request, calling
