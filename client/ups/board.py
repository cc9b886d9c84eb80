"""The command board: the page, and the requests of the page."""

from __future__ import annotations

import argparse
import contextlib
import hmac
import http.server
import ipaddress
import json
import os
import re
import secrets
import signal
import socket
import sys
import threading
import urllib.parse
from typing import Any, Optional

from ups.board_watcher import Watching
from ups.faults import Refused, why
from ups.files import content_of
from ups.listening import listener_of
from ups.reports import take_reports_in_threads
from ups.views import Part, snapshot


PAGE = os.path.join(os.path.dirname(os.path.abspath(__file__)), "page")
FILES = {"/": ("board.html", "text/html"), "/board.css": ("board.css", "text/css"), "/board.js": ("board.js", "text/javascript")}
NONE = "default-src 'none'; base-uri 'none'; form-action 'none'; frame-ancestors 'none'"
POLICY = f"{NONE}; connect-src 'self'; img-src data:; style-src 'self'; script-src 'self'"
LEAST_TOKEN = 16  # characters of the token


class Pages(http.server.BaseHTTPRequestHandler):
    """The handler of the page, of its style and its script, which say nothing of a server, and of the requests of the page: /state,
    which waits up to two seconds for a change, and /step. The page and its requests name the token of the board, in their address or
    as a proxy does, in their header: any account of this machine can reach the port."""

    protocol_version = "HTTP/1.1"
    timeout = 60  # seconds for a request, and between two
    watching: Watching
    token: str
    origins: set[str]  # those under which the page is open, besides this machine's own name

    def log_message(self, *_: Any) -> None:
        """Logs nothing."""

    def put(self, kind: str, text: str, policy: str = NONE, status: int = 200) -> None:
        content = text.encode()
        self.send_response(status)
        for name, value in (("Content-Type", kind), ("Content-Length", str(len(content))), ("Cache-Control", "no-store"),
                            ("Content-Security-Policy", policy), ("X-Content-Type-Options", "nosniff"),
                            ("Referrer-Policy", "no-referrer")):
            self.send_header(name, value)
        self.end_headers()
        self.wfile.write(content)

    def put_file(self, path: str) -> None:
        name, kind = FILES[path]
        with open(os.path.join(PAGE, name), encoding="utf-8") as opened:
            self.put(f"{kind}; charset=utf-8", opened.read(), POLICY)

    def put_state(self, words: dict[str, list[str]]) -> None:
        worklist, seen = self.watching.worklist, words.get("seen", ["0"])[0]
        with worklist.changed:
            is_new = worklist.changed.wait_for(lambda: str(worklist.version) != seen, timeout=2) or worklist.differing
        part = Part(frozenset(words.get("worklist", [])), frozenset(words.get("station", [])),
                    words.get("find", [""])[0].strip().casefold())
        told = {**self.place(), **snapshot(worklist, part, self.watching.asked.claimed)} if is_new else {"version": worklist.version}
        self.put("application/json", json.dumps(told))

    def place(self) -> dict[str, Any]:
        """Returns the title of the page, and whose worklist it shows."""
        asked = self.watching.asked
        return {"title": f"Worklist of {asked.called}", "where": f"{asked.called} at {asked.host}:{asked.port}, watched as {asked.ae}"}

    def put_step(self, words: dict[str, list[str]]) -> None:
        try:
            self.put("application/json", json.dumps(self.watching.step(words.get("uid", [""])[0])))
        except (OSError, Refused) as fault:
            self.put("application/json", json.dumps({"status": f"the server does not answer: {fault}"}))

    def is_of_origin(self) -> bool:
        """Returns whether a request names an address of the board, so that no page from elsewhere can ask for patients."""
        port = self.connection.getsockname()[1]
        origins = self.origins | {f"http://{host}:{port}" for host in ("127.0.0.1", "localhost", "[::1]")}
        asked_by = self.headers.get("Origin")
        return self.headers.get("Host") in {host_of(it) for it in origins} and (asked_by is None or asked_by in origins)

    def has_token(self, words: dict[str, list[str]]) -> bool:
        kind, _, given = self.headers.get("Authorization", "").partition(" ")
        token = given.strip() if kind == "Bearer" else words.get("token", [""])[0]
        return hmac.compare_digest(token.encode(), self.token.encode())

    def do_GET(self) -> None:
        path, _, text = self.path.partition("?")
        words = urllib.parse.parse_qs(text, max_num_fields=100)
        with contextlib.suppress(ConnectionError, TimeoutError):
            if not self.is_of_origin():
                self.put("text/plain", "the board is not open under this address: see --origin\n", status=403)
            elif path != "/" and path in FILES:
                self.put_file(path)
            elif not self.has_token(words):
                self.put("text/plain", "use the address that the board printed when it began: its token is missing here\n", status=403)
            elif path == "/":
                self.put_file(path)
            elif path == "/state":
                self.put_state(words)
            elif path == "/step":
                self.put_step(words)
            else:
                self.put("text/plain", "there is no such page\n", status=404)


def host_of(origin: str) -> str:
    return origin.partition("://")[2]


def token_of_board(path: Optional[str]) -> str:
    """Returns what each request to a board has to name: the content of a file, or UPS_TOKEN, or a new one."""
    if path:
        token = content_of(path).decode("ascii", "replace").strip()
    else:
        token = os.environ.get("UPS_TOKEN") or secrets.token_urlsafe(24)
    if not re.fullmatch(rf"[\w-]{{{LEAST_TOKEN},}}", token, re.ASCII):
        raise Refused(f"{path or 'UPS_TOKEN'} has fewer than {LEAST_TOKEN} letters and digits, or others")
    return token


class Server(http.server.ThreadingHTTPServer):
    daemon_threads = True


def page_server(asked: argparse.Namespace, pages: type[Pages]) -> http.server.ThreadingHTTPServer:
    """Listens for the page of a board. At every address of the machine none would be its own, so that others have to be named."""
    where = f"{asked.bind}:{asked.page}"
    try:
        if ipaddress.ip_address(asked.bind).is_unspecified and not asked.origin:
            raise Refused(f"--bind {asked.bind} needs --origin: the address under which browsers open the page")
        kind = type("ServerOfBoard", (Server,), {"address_family": socket.AF_INET6 if ":" in asked.bind else socket.AF_INET})
        server: http.server.ThreadingHTTPServer = kind((asked.bind, asked.page), pages)
        return server
    except ValueError:
        raise Refused(f"{asked.bind!r} is no address") from None
    except OSError as fault:
        raise Refused(f"{where}: {why(fault)}") from None


def addresses_of(asked: argparse.Namespace, port: int) -> list[str]:
    """Returns the addresses of a page, the one to print first: what --origin says, and what --bind does."""
    bound = f"[{asked.bind}]" if ":" in asked.bind else asked.bind
    return [*asked.origin, f"http://{bound}:{port}"]


def board(asked: argparse.Namespace) -> int:
    """Runs the board until it is interrupted."""
    signal.signal(signal.SIGTERM, lambda *_: sys.exit(0))
    token = token_of_board(asked.token_file)
    with listener_of(asked) as listener:
        watching = Watching(asked)
        origins: set[str] = set()
        pages = type("PagesOfBoard", (Pages,), {"watching": watching, "token": token, "origins": origins})
        with page_server(asked, pages) as server:
            addresses = addresses_of(asked, server.server_port)
            origins.update(addresses)
            take_reports_in_threads(listener, asked, watching.report)
            threading.Thread(target=watching.ask, daemon=True).start()
            print(f"the board is at {addresses[0]}/{'' if asked.token_file else f'?token={token}'}", flush=True)
            try:
                server.serve_forever()
            finally:
                watching.end()
    return 0
