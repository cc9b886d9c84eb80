#!/usr/bin/env python3
"""Tries `upsd serve --store`: that a restart loses nothing that was answered, and what a store costs.

    check/store.py TRIAL [NUMBER] [--program PROGRAM] [--seed 1] ..      (default: crates/upsd/out/upsd)

    kills 20         tries what makes a store; kills that many servers on a file at random moments, which four workstations, a
                     reader and three watchers use
    cuts 2000        records the writes and syncs of a server with strace, and opens that many of the states that a disk may have
                     kept if the power is cut
    later 1000       the same for the first start on a store of version 0.2.0, for servers that go on after a cut, and for servers
                     whose syncs fail, if each failure loses pages
    full             fills a small tmpfs, and makes room again (as root)
    failing 6        makes the first, second and so on write and sync of a server fail, with strace
    million 1000000  starts a server on that many requests: how long that takes, and its memory
    settings         starts servers with other settings, on a file that is held, on files that are no store, and on damaged ones
    compact 5000     compares what a store of that many requests shows before and after a compaction
    histories 1000   compares the same for that many generated histories of 60 requests
    cost             measures the processor time of a request with a store and without one, and requests per second

After each start on a file, each request that was answered as accepted has to be there: each step as it was last set, or as a
later request would leave it, whole; each holder is still the holder, no UID that was used is free, each subscription and each
Deletion Lock is in force, and each watcher learns the state of each step. What was shown or reported of a step has to be there
too.

A line reports each check that passed or failed, and the last line is `N passed, M failed`. The status is 1 if one failed. With
--self-test, `kills` and `cuts` take for answered what was not, and check that this is found. --folder names the folder for the
stores (where they stay), on the disk to be tried. `check/store.py TRIAL --help` lists the arguments of a trial.
"""

from __future__ import annotations

import argparse
import os
import signal
import sys

TOP = os.path.dirname(os.path.dirname(os.path.abspath(__file__)))
sys.path[:0] = [os.path.join(TOP, it) for it in ("check/lib", "trials", "bench")]
import cuts
import disks
import kills
import later_cuts
import restarts
import store_cost
import stored_days
from machine import HERE, described
from results import Results
from stored import FAULTS


def options_of(trials: argparse._SubParsersAction[argparse.ArgumentParser], name: str, perform: object, *numbers: tuple[str, int, str], positional: bool = False,
               flags: tuple[tuple[str, str], ...] = ()) -> None:
    """Adds a trial with its numbers, the first of which may be given without a name, and its flags."""
    it = trials.add_parser(name)
    for at, (number, default, about) in enumerate(numbers):
        if at == 0 and positional:
            it.add_argument(number, nargs="?", type=int, default=default, help=f"{about} (default: %(default)s)")
        else:
            it.add_argument(f"--{number}", type=int, default=default, help=f"{about} (default: %(default)s)")
    for flag, about in flags:
        it.add_argument(f"--{flag}", action="store_true", help=about)
    it.add_argument("--program", default=os.path.join(HERE, "crates/upsd/out/upsd"), help="the program (default: crates/upsd/out/upsd)")
    it.add_argument("--seed", type=int, default=1, help="by which what is random is chosen (default: %(default)s)")
    it.add_argument("--folder", help="where the stores are laid, and stay (default: a temporary folder)")
    it.add_argument("--limit", type=int, default=0, help="seconds by which it has to end (default: none)")
    it.set_defaults(perform=perform)


SELF_TEST = ("self-test", "take for answered what was not, and see that this is found")


def arguments() -> argparse.Namespace:
    asked = described(__doc__)
    trials = asked.add_subparsers(dest="trial", required=True, metavar="TRIAL")
    options_of(trials, "kills", kills.run, ("kills", 20, "how many servers are killed"), ("each", 250, "how many of them on one store"),
               positional=True, flags=(SELF_TEST,))
    options_of(trials, "cuts", cuts.run, ("cuts", 2_000, "how many states are tried"), ("requests", 200, "how many requests are recorded, about"),
               ("opened", 100, "how many of the states the program opens, beside sqlite3"), positional=True, flags=(SELF_TEST,))
    options_of(trials, "later", later_cuts.run, ("cuts", 1_000, "of how many states these are parts"), ("requests", 100, "how many requests are recorded, about"),
               ("opened", 60, "how many of the states the program opens, beside sqlite3"), positional=True)
    options_of(trials, "full", disks.run_full, ("size", 16, "MiB of the file system"), ("minutes", 1, "how often the log has to tell of it again"))
    options_of(trials, "failing", disks.run_failing, ("calls", 6, "how many writes, and how many syncs, fail in turn"), positional=True)
    options_of(trials, "million", stored_days.run_million, ("requests", 1_000_000, "how many requests the store has"),
               ("seconds", 30, "how long a start may take"), positional=True)
    options_of(trials, "settings", restarts.run, ("flips", 20, "how many bits are flipped, in the file and in the log"))
    options_of(trials, "compact", stored_days.run_compact, ("requests", 5_000, "how many requests the day has"), positional=True)
    options_of(trials, "histories", stored_days.run_histories, ("histories", 1_000, "how many histories are compacted"),
               ("requests", 60, "how many requests each has, about"), ("beside", 32, "how many are tried at the same time"), positional=True)
    options_of(trials, "cost", store_cost.run, ("requests", 2_000, "how many requests each association asks"), ("rounds", 3, "how often"),
               ("slow", 0, "by how many microseconds each sync of the server is slowed down, by strace"),
               flags=(("judge", "judge what is measured, on a machine that does nothing else"),))
    return asked.parse_args()


def main() -> None:
    given, results = arguments(), Results()
    signal.signal(signal.SIGTERM, lambda *_: sys.exit(f"store.py: {given.trial} was ended"))  # which ends its servers too
    if given.limit:
        signal.signal(signal.SIGALRM, lambda *_: sys.exit(f"store.py: {given.trial} does not end in {given.limit} s"))
        signal.alarm(given.limit)
    try:
        given.perform([os.path.abspath(given.program)], given, results)
    except FAULTS as fault:
        results.tell(f"{given.trial} comes to its end", repr(fault))
    results.end()


if __name__ == "__main__":
    main()
