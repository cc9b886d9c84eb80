"""Event reports, received as a watcher."""

from __future__ import annotations

import argparse
import functools
import socket
import time
from typing import Any, Callable, Optional

from pydicom.dataset import Dataset

from ups.association import Association
from ups.faults import Unexpected
from ups.listening import request_of, take_in_threads
from ups.messages import number_of_command, uid_of_command
from ups.terms import PUSH

Tell = Callable[[Dataset, Optional[bytes]], None]


def take_reports_in_threads(listener: socket.socket, asked: argparse.Namespace,
                            tell: Callable[[int, Dataset, Optional[bytes]], None]) -> None:
    """Begins to take the reports of the server that --called names; `tell` is also given the number of the association."""
    take_in_threads(listener, asked, lambda number, association: take_reports(association, asked, functools.partial(tell, number),
                                                                              asked.called))


def take_reports(association: Association, asked: argparse.Namespace, tell: Tell, caller: str = "") -> None:
    """Takes the reports of an association that the server requests, and calls `tell` with each before it answers."""
    request, _ = request_of(association, asked, caller)
    association.accept(request)
    while (found := association.message()) is not None:
        context, command, data = found
        answer = answer_to(association, context, command, asked.status)
        tell(command, data)
        time.sleep(asked.delay)
        association.send(context, answer)


def answer_to(association: Association, context: int, command: Dataset, status: int) -> dict[str, Any]:
    """Returns the response to an N-EVENT-REPORT (PS3.7 section 10.3.1.1). Raises Unexpected if the request isn't one."""
    if context not in association.accepted:
        raise Unexpected(f"a message on presentation context {context}, which was not accepted")
    if (kind := number_of_command(command, "CommandField")) != 0x0100:
        raise Unexpected(f"a message with Command Field {kind:04X}H in the place of a report")
    return {"AffectedSOPClassUID": PUSH, "CommandField": 0x8100, "Status": status,
            "MessageIDBeingRespondedTo": number_of_command(command, "MessageID"),
            "EventTypeID": number_of_command(command, "EventTypeID"),
            "AffectedSOPInstanceUID": uid_of_command(command, "AffectedSOPInstanceUID")}
