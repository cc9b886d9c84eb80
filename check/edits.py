#!/usr/bin/env python3
"""Checks that the prover refuses edits: wrong bodies of functions, each by the contract of its own function.

    check/edits.py                     tries those of the gate that `rt ci` doesn't try
    check/edits.py ups_dimse           tries each edit of a crate, after a change of it
    check/edits.py ups_dimse/EDIT      tries one
    check/edits.py --list              lists the crates, each with the number of its edits
    check/edits.py --self-test         plants an edit that means the same, and one that can't be read, and checks that both are told

An edit is a file `FUNCTION_WHAT_IT_DOES.edit` in a crate's folder `edits`, or in its folder `must-fail`: `rt ci` tries those too,
and proves the crate a second time for them. `check/edits.txt` lists the edits of the gate by what they break. The edits of a
crate are tried together on a copy of it, over the libraries that `rt ci` proved in this checkout, or on this machine. That
takes as long as the proofs of the functions that they break, and of those that these call. The status is 1 if an edit is not
refused.
"""

from __future__ import annotations

import collections
import glob
import os
import sys

TOP = os.path.dirname(os.path.dirname(os.path.abspath(__file__)))
sys.path.insert(0, f"{TOP}/check/lib")
import edit_trials
import lanes
from machine import described

LIST = f"{TOP}/check/edits.txt"
# An edit that means the same, and one that names what is not there.
SAME = ("src/cycle.rt", "StepState::InProgress => Status::AlreadyInProgress,", "StepState::InProgress => { Status::AlreadyInProgress }")
UNREADABLE = ("src/cycle.rt", "StepState::InProgress => Status::AlreadyInProgress,", "StepState::InProgress => Status::NoSuchStatus,")


def files_of(crate: str, edit: str = "*", folder: str = "*") -> list[str]:
    """Returns the files of a crate's edits, or of one, in both folders or in one."""
    found = glob.glob(f"{glob.escape(TOP)}/crates/{crate}/{folder}/{edit}.edit")
    return sorted(it for it in found if it.split("/")[-2] in ("edits", "must-fail"))


def names_of(files: list[str]) -> list[str]:
    """Returns the names of edits by their files, as CRATE/EDIT."""
    return [f"{it.split('/')[-3]}/{os.path.basename(it).removesuffix('.edit')}" for it in files]


def listed() -> list[str]:
    """Returns the edits of the gate that `rt ci` doesn't try. An edit that it tries and that the list lacks ends the program."""
    with open(LIST, encoding="utf-8") as lines:
        names = [it for it in map(str.strip, lines) if it and not it.startswith("#")]
    tried = names_of(files_of("*", folder="must-fail"))
    lost = sorted({*tried} - {*names})
    if lost:
        sys.exit(f"edits.py: check/edits.txt lacks {', '.join(lost)}")
    return [it for it in names if it not in tried]


def counts() -> dict[str, int]:
    """Returns the number of edits of each crate that has any."""
    return collections.Counter(it.partition("/")[0] for it in names_of(files_of("*")))


def named(words: list[str]) -> list[edit_trials.Edit]:
    """Returns the edits that the words name, each a crate or CRATE/EDIT."""
    found = []
    for word in words:
        crate, _, edit = word.partition("/")
        files = files_of(crate, edit or "*")
        if not files:
            sys.exit(f"edits.py: no such edit: {word}")
        found += [edit_trials.read(TOP, crate, it) for it in files]
    return found


def tell(crate: str, results: dict[str, tuple[bool, str]]) -> None:
    """Prints what a crate's edits came to."""
    for name, (is_refused, why) in results.items():
        print(f"{crate}/{name}: {'refused' if is_refused else 'NOT REFUSED'}: {why[:160]}", flush=True)


def self_test() -> int:
    """Tries the planted edits, and returns how many were taken for refused."""
    planted = [edit_trials.Edit("ups_cycle", name, [pair], "cycle::claim_status") for name, pair in (("same", SAME), ("unreadable", UNREADABLE))]
    told = {}
    for edit in planted:
        edit_trials.tried(TOP, [edit], 1, lambda _, results: told.update(results))
    wrong = [name for name, (is_refused, _) in told.items() if is_refused]
    print(f"{len(planted) - len(wrong)} planted edits told, {len(wrong)} not")
    return len(wrong)


def main() -> int:
    asked = described(__doc__)
    asked.add_argument("edits", nargs="*", metavar="CRATE[/EDIT]")
    asked.add_argument("--list", action="store_true")
    asked.add_argument("--self-test", action="store_true")
    given = asked.parse_args()
    if given.list:
        for name, count in sorted(counts().items()):
            print(f"{name} {count}")
        return 0
    if given.self_test:
        return 1 if self_test() else 0
    chosen = named(given.edits or listed())
    failed = edit_trials.tried(TOP, chosen, lanes.count(), tell)
    print(f"{len(chosen) - failed} edits refused, {failed} not")
    return 1 if failed else 0


if __name__ == "__main__":
    sys.exit(main())
