"""Tries that `upsd init` makes a store, once and for its owner alone, that nothing else makes one, and that a store of each earlier
version is read."""

from __future__ import annotations

import os
import shutil
from typing import Optional

from ledger import SOP_INSTANCE
from machine import HERE
from results import Results
from stored import (Client, Stored, a_step_of, bytes_in, compacted, files_of, folder_for, initialized, refused, rows_of, runs_of, started_on,
                    text_in, tried)

NOT_MADE, ONCE, ALONE = "missing or blank: upsd init makes a store", "not blank", "emptied or replaced"
EARLIER = os.path.join(HERE, "rows/stores/0.2.0/store")
ITS_SETTINGS = ("--keep", "1", "--offset", "60", "WATCH1=127.0.0.1:1,lock")  # of its run, by the page next to it
ITS_STEPS, REMOVED = {b"1.2.3.4.3", b"1.2.3.4.4"}, b"1.2.3.4.2"


def run(program: list[str], results: Results) -> None:
    with folder_for(None) as folder:
        missing, blank, alone = (os.path.join(folder, it) for it in ("missing", "blank", "alone"))
        refuse_missing(program, missing, results)
        refuse_blank(program, blank, results)
        for name, file in (("in a blank file", blank), ("where there is no file", missing)):
            results.tell(f"a store is made {name}, and only once", tried(fault_of_init, program, file))
        in_no_folder = os.path.join(folder, "none", "store")
        results.tell("no store is made in no folder", refused(initialized(program, in_no_folder), "no such folder", {}, in_no_folder))
        refuse_alone(program, alone, results)
        results.tell("a store of version 0.2.0 is read, continued and compacted", tried(fault_of_earlier, program, os.path.join(folder, "earlier")))


def refuse_missing(program: list[str], file: str, results: Results) -> None:
    for name, come in (("a start", started_on(program, file)), ("a compaction", compacted(program, file))):
        made = f"it makes {files_of(file)}" if files_of(file) else None
        results.tell(f"{name} on a missing file is refused", refused(come, NOT_MADE, {}, file) or made)


def refuse_blank(program: list[str], file: str, results: Results) -> None:
    with open(file, "wb"):
        pass
    for name, come in (("a start", started_on(program, file)), ("a compaction", compacted(program, file))):
        results.tell(f"{name} on a blank file is refused", refused(come, NOT_MADE, {file: b""}, file))


def refuse_alone(program: list[str], file: str, results: Results) -> None:
    """Tries a store whose file was emptied."""
    results.tell("a store whose file will be emptied", tried(fault_of_first, program, file))
    os.truncate(file, 0)
    before = bytes_in(file)
    for name, come in (("a start", started_on(program, file)), ("a compaction", compacted(program, file)), ("init", initialized(program, file))):
        results.tell(f"{name} on a blank file next to a log is refused", refused(come, ALONE, before, file))


def fault_of_init(program: list[str], file: str) -> Optional[str]:
    """Returns what is wrong with making a store in a file, or None."""
    is_missing = not os.path.exists(file)
    come = initialized(program, file)
    if come.status != 0 or come.output or come.said:
        return f"it ends with {come.status}: {come.output!r} {come.said[-300:]!r}"
    modes = {it: oct(os.stat(it).st_mode & 0o777) for it in files_of(file)}
    if is_missing and set(modes.values()) != {"0o600"}:
        return f"the modes are {modes}"
    again = refused(initialized(program, file), ONCE, bytes_in(file), file)
    return f"once more: {again}" if again else fault_of_first(program, file)


def fault_of_first(program: list[str], file: str) -> Optional[str]:
    """Returns why a server on a new store has a step, or does not keep one; or None."""
    with Stored(program, file) as server:
        client = Client(server.port)
        there, status = len(client.found()), client.create(b"1.2.3", a_step_of(b"P"))
    is_good = there == 0 and status == 0x0000 and len(rows_of(file)) == 1
    return None if is_good else f"{there} steps are there, a creation is answered {status:04X}, and {len(rows_of(file))} requests are kept"


def fault_of_earlier(program: list[str], file: str) -> Optional[str]:
    """Returns what is wrong with a server on a store of version 0.2.0, or with its compaction afterwards, or None."""
    shutil.copyfile(EARLIER, file)
    rows = rows_of(file)
    for again in range(2):
        with Stored(program, file, *ITS_SETTINGS) as server:
            client = Client(server.port)
            found = {text_in(it, SOP_INSTANCE) for it in client.found()}
            used = client.create(REMOVED, a_step_of(b"P"))
        if not ITS_STEPS <= found or used != 0x0111 or rows_of(file)[:len(rows)] != rows:
            return f"start {again}: the steps {sorted(found)} are there, a used UID gets {used:04X}, and {len(rows_of(file))} requests are kept"
    come, runs = compacted(program, file), runs_of(file)
    left = len(rows_of(file))
    with Stored(program, file, *ITS_SETTINGS) as server:
        used = Client(server.port).create(REMOVED, a_step_of(b"P"))
    if used != 0x0111:
        return f"behind a compaction a used UID gets {used:04X}"
    is_good = come.status == 0 and runs[0][5] is None and runs[-1][5] == "keep=1\noffset=60\nlock=WATCH1\n" and left < len(rows)
    return None if is_good else f"a compaction ends with {come.status}: {come.said[-200:]!r}, and the runs are {runs}"
