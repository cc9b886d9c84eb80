#!/usr/bin/python3
"""Stands in for an upsd that knows stores of format 1 alone, as 0.2.0 made them: `serve` has its store open, listens, tells systemd,
and answers nothing. A store of another format is refused, as an earlier version refuses it."""

import fcntl
import os
import socket
import sys
import time

words = sys.argv[1:]
if words != ["--version"] and words[:1] != ["serve"]:
    sys.exit(1)
if words == ["--version"]:
    print("upsd 0.1.0")
    sys.exit(0)
if "never" in words:
    sys.exit(1)
given = {name: value for name, value in zip(words, words[1:]) if name.startswith("--")}
with open(given["--store"], "r+b") as store:
    try:
        fcntl.lockf(store, fcntl.LOCK_EX | fcntl.LOCK_NB, 512, 1 << 30)
    except BlockingIOError:
        sys.exit("upsd: the store is held by another process") if "--check" not in words else sys.exit(0)
    store.seek(60)
    if store.read(4) != bytes(4):  # the user version of the file, which is that of its format
        print(f"upsd: the store {given['--store']}: the store has another format: start a later version", file=sys.stderr)
        sys.exit(2)
    if "--check" in words:
        sys.exit(0)
    with socket.create_server(("127.0.0.1", int(given["--port"]))) as listener:
        print("store: run 2 begins with 26 requests", file=sys.stderr, flush=True)
        print(listener.getsockname()[1], flush=True)
        told = os.environ.get("NOTIFY_SOCKET", "")
        with socket.socket(socket.AF_UNIX, socket.SOCK_DGRAM) as supervisor:
            while True:
                if told:
                    supervisor.sendto(b"READY=1\nWATCHDOG=1", told.replace("@", "\0", 1))
                time.sleep(1)
