"""Words of the command line, read."""

from __future__ import annotations

import argparse
import ipaddress
import re
from typing import Union

LONGEST_WAIT = 1_000_000  # seconds of a time limit


def title_word(word: str) -> str:
    """Reads an application entity title."""
    if not (word.isascii() and word.isprintable() and 1 <= len(word) <= 16):
        raise argparse.ArgumentTypeError(f"{word!r} is no title: that is 1 to 16 characters of ASCII")
    return word


def status_word(word: str) -> int:
    """Reads a status in four hex digits."""
    if not re.fullmatch("[0-9A-Fa-f]{4}", word):
        raise argparse.ArgumentTypeError(f"{word!r} is no status: that is four hex digits, as 0110")
    return int(word, 16)


def count_word(word: str) -> int:
    if not re.fullmatch(r"\d{1,9}", word, re.ASCII):
        raise argparse.ArgumentTypeError(f"{word!r} is no count")
    return int(word)


def seconds_word(word: str) -> float:
    if not re.fullmatch(r"\d{1,9}(\.\d{1,9})?", word, re.ASCII):
        raise argparse.ArgumentTypeError(f"{word!r} is no number of seconds")
    return float(word)


def duration_word(word: str) -> float:
    """Reads a number of seconds above 0."""
    if not 0.000_001 <= seconds_word(word) <= LONGEST_WAIT:
        raise argparse.ArgumentTypeError(f"{word!r} is no duration: seconds are more than 0, and {LONGEST_WAIT:,} at most")
    return seconds_word(word)


def port_word(word: str) -> int:
    """Reads a port to connect to."""
    if not re.fullmatch(r"[0-9]{1,5}", word) or not 1 <= int(word) <= 65535:
        raise argparse.ArgumentTypeError(f"{word!r} is no port: that is 1 to 65535")
    return int(word)


def own_port_word(word: str) -> int:
    """Reads a port to listen on; 0 stands for a free one."""
    return 0 if word == "0" else port_word(word)


def minutes_word(word: str) -> int:
    """Reads an offset from UTC."""
    if not re.fullmatch(r"[+-]?[0-9]{1,3}", word) or not -720 <= int(word) <= 840:
        raise argparse.ArgumentTypeError(f"{word!r} is no offset: that is -720 to 840 minutes")
    return int(word)


Network = Union[ipaddress.IPv4Network, ipaddress.IPv6Network]


def addresses_word(word: str) -> list[Network]:
    """Reads addresses, or networks such as 10.1.0.0/16, with commas between them."""
    try:
        return [ipaddress.ip_network(each, strict=False) for each in word.split(",")]
    except ValueError:
        raise argparse.ArgumentTypeError(f"{word!r} is no address: write it as 10.1.2.3 or 10.1.2.3,10.1.2.0/24") from None


def origin_word(word: str) -> str:
    """Reads the address of a page without its path, as a browser names it as the origin of a request."""
    found = re.fullmatch(r"(https?)://([\w.-]+|\[[0-9A-Fa-f:.]+\])(?::(\d{1,5}))?/?", word, re.ASCII)
    if not found:
        raise argparse.ArgumentTypeError(f"{word!r} is no origin: write it as https://board.example or http://10.1.2.3:8080")
    kind, host, port = found.groups()
    is_usual = port is None or (kind, port) in (("http", "80"), ("https", "443"))
    return f"{kind}://{host.lower()}{'' if is_usual else f':{port_word(port)}'}"


def peer_word(word: str) -> tuple[str, str, int]:
    """Reads a watcher as the server's command line names it: its title, host and port."""
    called_title, _, address = word.partition("=")
    host, _, port = address.removesuffix(",lock").rpartition(":")
    if not host or not re.fullmatch("[0-9]{1,5}", port) or not 1 <= int(port) <= 65535:
        raise argparse.ArgumentTypeError(f"{word!r} is no watcher: write it as WATCH1=127.0.0.1:11113")
    return title_word(called_title), host, int(port)


def flag_word(word: str) -> bool:
    if word not in ("0", "1"):
        raise argparse.ArgumentTypeError(f"{word!r} is neither 1 nor 0")
    return word == "1"


def server_word(word: str) -> tuple[str, int]:
    """Reads a server as UPS_SERVER names it: a host and a port, after the last colon."""
    host, _, port = word.rpartition(":")
    if not host or not re.fullmatch("[0-9]{1,5}", port) or not 1 <= int(port) <= 65535:
        raise argparse.ArgumentTypeError(f"{word!r} is no server: write it as 127.0.0.1:11112")
    return host, int(port)


def limits_word(word: str) -> tuple[float, float]:
    """Reads a limit in seconds for the look-up, and after a comma one for the oldest step; a missing one is infinite."""
    look_up, _, oldest = word.partition(",")
    try:
        found = float(look_up or "inf"), float(oldest or "inf")
    except ValueError:
        raise argparse.ArgumentTypeError(f"{word!r} is no limit: write it as 0.5 or 0.5,86400 or ,86400") from None
    if not all(each >= 0 for each in found):
        raise argparse.ArgumentTypeError(f"{word!r} is no limit: seconds are 0 or more")
    return found
