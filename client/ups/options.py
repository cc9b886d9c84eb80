"""Options that several commands have, and the defaults that the environment gives."""

from __future__ import annotations

import argparse
import os
from typing import Any, Callable, Optional

from ups.faults import Refused
from ups.stores import STORE
from ups.words import addresses_word, duration_word, flag_word, own_port_word, port_word, server_word, title_word


# what the environment says in the place of options: the name of each, and how its word is read
VARIABLES: dict[str, tuple[str, Callable[[str], Any]]] = {
    "UPS_CALLED": ("called", title_word), "UPS_AE": ("ae", title_word), "UPS_TLS": ("tls", flag_word), "UPS_TLS_CA": ("tls_ca", str),
    "UPS_TLS_CERTIFICATE": ("tls_certificate", str), "UPS_TLS_KEY": ("tls_key", str), "UPS_TLS_NAME": ("tls_name", str)}


def of_environment() -> dict[str, Any]:
    """Returns the defaults that the environment gives: UPS_SERVER, and those of VARIABLES."""
    found: dict[str, Any] = {}
    for name, (option, read_word) in {"UPS_SERVER": ("", server_word), **VARIABLES}.items():
        try:
            value = read_word(os.environ[name]) if os.environ.get(name) else None
        except argparse.ArgumentTypeError as fault:
            raise Refused(f"{name}: {fault}") from None
        if isinstance(value, tuple):
            found["host"], found["port"] = value
        elif value is not None:
            found[option] = value
    return found


def environment_of(asked: argparse.Namespace) -> dict[str, str]:
    """Returns the environment that says to another client what these options say."""
    found = {name: getattr(asked, option) for name, (option, _) in VARIABLES.items()}
    words = {name: "1" if value is True else value for name, value in found.items() if value}
    return {"UPS_SERVER": f"{asked.host}:{asked.port}", **words}


def common(of_a_board: bool = False) -> argparse.ArgumentParser:
    """Returns a parser of the options of every command. `--port` of a board is that of its page."""
    found = argparse.ArgumentParser(add_help=False)
    found.add_argument("--host", default="127.0.0.1", help="where the server is; UPS_SERVER=HOST:PORT (127.0.0.1)")
    found.add_argument("--server-port" if of_a_board else "--port", dest="port", type=port_word, default=11112,
                       help="the server's port (11112)")
    found.add_argument("--called", type=title_word, default="UPSD", help="the server's title; UPS_CALLED (UPSD)")
    found.add_argument("--ae", type=title_word, default="CLIENT", help="the title of this side; UPS_AE (CLIENT)")
    found.add_argument("--timeout", type=duration_word, default=30, metavar="S", help="seconds for an answer (30)")
    found.add_argument("--implicit", action="store_true", help="Implicit VR Little Endian in place of Explicit VR Little Endian")
    found.add_argument("-v", "--verbose", action="store_true",
                       help="says on standard error what is negotiated, and names each PDU; no value of a data set")
    add_tls(found)
    return found


def add_tls(of: argparse.ArgumentParser) -> None:
    """Adds the options of TLS, of which each asks for it."""
    of.add_argument("--tls", action="store_true", help="TLS 1.2 or later, also of what listens; UPS_TLS=1")
    of.add_argument("--tls-ca", metavar="FILE",
                    help="by which the peer's certificate is checked, in PEM; UPS_TLS_CA (those of the system; of what listens: not at all)")
    of.add_argument("--tls-certificate", metavar="FILE", help="the certificate of this side, in PEM; UPS_TLS_CERTIFICATE")
    of.add_argument("--tls-key", metavar="FILE", help="its key, in PEM; UPS_TLS_KEY (in the file of the certificate)")
    of.add_argument("--tls-name", metavar="NAME",
                    help="the name in the server's certificate, * for any; UPS_TLS_NAME (what --host says)")


def add_attributes(of: argparse.ArgumentParser, what: str) -> None:
    what += ": PatientID=P1, (0010,0020)=P1, or in a sequence (0040,4025)[0].(0008,0100)=R1"
    of.add_argument("-k", "--key", dest="attributes", action="append", default=[], metavar="KEY=VALUE", help=what)


def add_step(of: argparse.ArgumentParser) -> argparse.ArgumentParser:
    of.add_argument("step", help="the SOP Instance UID of the step")
    return of


def add_transaction(of: argparse.ArgumentParser, required: bool = True) -> argparse.ArgumentParser:
    of.add_argument("--transaction", required=required, metavar="UID", help="the Transaction UID of the claim")
    return of


def add_performer(of: argparse.ArgumentParser) -> argparse.ArgumentParser:
    of.add_argument("--as", dest="as_station", metavar="CODE",
                    help="the Code Value of the performing station, if the step has none yet (that of --ae)")
    return of


def add_keys(of: argparse.ArgumentParser, state: bool = True) -> argparse.ArgumentParser:
    """Adds the keys of a query."""
    if state:
        of.add_argument("--state", default="", help="Procedure Step State")
    of.add_argument("--worklist", default="", metavar="LABEL", help="Worklist Label, with * and ? as wild cards")
    of.add_argument("--label", default="", help="Procedure Step Label, with * and ? as wild cards")
    of.add_argument("--patient-id", default="", help="Patient ID")
    of.add_argument("--name", default="", help="Patient's Name, with * and ? as wild cards: DOE^*")
    of.add_argument("--start", default="", help="Scheduled Procedure Step Start DateTime, or a range of it, as 20240229-")
    of.add_argument("--station", action="append", metavar="CODE",
                    help="the worklist of a station: a Code Value of Scheduled Station Name Code Sequence; several, of each of them")
    add_attributes(of, "a further key")
    return of


def add_store(of: argparse.ArgumentParser) -> None:
    """Adds the store whose requests `upsd history` tells."""
    of.add_argument("--store", default=STORE, metavar="FILE", help=f"that of the server's --store ({STORE})")
    of.add_argument("--upsd", default="upsd", metavar="PROGRAM", help="the program that tells its requests (upsd)")


def add_receiver(of: argparse.ArgumentParser, step: bool = True) -> argparse.ArgumentParser:
    if step:
        of.add_argument("--step", help="the SOP Instance UID of a step (all steps)")
    of.add_argument("--receiver", type=title_word, metavar="AE", help="the title of the watcher (that of --ae)")
    return of


def add_listening(of: argparse.ArgumentParser, default: Optional[int], what: str) -> None:
    of.add_argument("--listen", type=own_port_word, default=default, metavar="PORT", help=what)
    of.add_argument("--address", default="127.0.0.1", help="the address to listen on (127.0.0.1)")
    of.add_argument("--allow", type=addresses_word, metavar="ADDRESS[,ADDRESS]",
                    help="who may connect there, by address or network: name the server (anybody, who may then forge reports)")
