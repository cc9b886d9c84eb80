#!/usr/bin/env python3
"""Checks the types of check, of what trials share, of packaging and of the client with mypy, as mypy.ini says: each function there has them.

    check/typed.py [FILE..]     from the top of the checkout (default: all of these)
    check/typed.py --self-test  spoils some types in a copy, and checks that this is found

If mypy is missing, it is installed from the Debian package `mypy`. If that fails, it says so in a line, and nothing is checked. The
status is 1 if a type is wrong.
"""

from __future__ import annotations

import argparse
import os
import pathlib
import shutil
import subprocess
import sys
import tempfile

HERE = os.path.dirname(os.path.dirname(os.path.abspath(__file__)))
CHECKED = ["check", "trials/lib", "packaging", "client/ups"]
SECONDS = 180  # in which mypy has to be installed
SPOILED = (("check/lib/dicom.py", "def us(number: int) -> bytes:", "def us(number: int) -> str:"),
           ("check/rows.py", "def spelled(line: str) -> str:", "def spelled(line: str) -> bytes:"),
           ("trials/lib/modality.py", "def spelled(explicit: bool, rows: list[Row]) -> bytes:", "def spelled(explicit: bool, rows: list[Row]) -> str:"),
           ("packaging/pages.py", "def quoted(text: str) -> str:", "def quoted(text: str) -> bytes:"),
           ("client/ups/moments.py", "def moment_now() -> str:", "def moment_now() -> bytes:"))


def is_installed() -> bool:
    """Returns whether mypy is there; installs it if it is missing."""
    for words in (["update"], ["install", "-y", "mypy"]):
        if shutil.which("mypy"):
            return True
        try:
            ran = subprocess.run(["apt-get", *words], stdout=subprocess.DEVNULL, stderr=subprocess.PIPE, text=True, timeout=SECONDS)
        except (OSError, subprocess.TimeoutExpired) as fault:
            print(f"no types are checked: mypy is missing, and {fault}")
            return False
        if ran.returncode and words[0] == "install":
            print(f"no types are checked: `apt-get install -y mypy` ends with {ran.returncode}: {ran.stderr.strip()[-200:]}")
    return bool(shutil.which("mypy"))


def check(files: list[str], folder: str) -> subprocess.CompletedProcess[str]:
    """Checks files in a folder that has mypy.ini."""
    return subprocess.run(["mypy", "--cache-dir", os.devnull, *files], cwd=folder, stdout=subprocess.PIPE, stderr=subprocess.STDOUT, text=True)


def self_test() -> int:
    """Spoils types in a copy, and returns 1 if one is not found."""
    with tempfile.TemporaryDirectory() as folder:
        shutil.copy(os.path.join(HERE, "mypy.ini"), folder)
        for checked in CHECKED:
            shutil.copytree(os.path.join(HERE, checked), os.path.join(folder, checked), ignore=shutil.ignore_patterns("out"))
        for name, old, new in SPOILED:
            spoil(os.path.join(folder, name), old, new)
        said = check(CHECKED, folder).stdout
    missed = [name for name, _, _ in SPOILED if name not in said]
    print(f"not found: {', '.join(missed)}" if missed else f"{len(SPOILED)} spoiled types, each found")
    return 1 if missed else 0


def spoil(path: str, old: str, new: str) -> None:
    text = pathlib.Path(path).read_text(encoding="utf-8")
    assert text.count(old) == 1, f"{path} lacks {old!r}"
    pathlib.Path(path).write_text(text.replace(old, new), encoding="utf-8")


def main() -> int:
    about, _, more = (__doc__ or "").partition("\n\n")
    asked = argparse.ArgumentParser(description=about, epilog=more, formatter_class=argparse.RawDescriptionHelpFormatter)
    asked.add_argument("files", nargs="*", default=CHECKED, metavar="FILE")
    asked.add_argument("--self-test", action="store_true", help="spoil a type, and see that it is found")
    given = asked.parse_args()
    if not is_installed():
        return 0
    if given.self_test:
        return self_test()
    ran = check(given.files, HERE)
    print(ran.stdout, end="")
    return ran.returncode


if __name__ == "__main__":
    sys.exit(main())
