"""Edits of bodies that the prover has to refuse, each by the contract of the function that it breaks.

An edit is a file with a line `file: src/lib.rt` and then pairs of lines `old: ` and `new: `; each old text stands once in the
file. The edits of a crate are tried together on a copy of it, over the libraries as `rt ci` built them, with `rattle check
--only` for the functions that they break: so the crate is proved no second time as a whole, but for what these functions call.
A function that calls a broken one is not proved either, which says nothing of it, so it is tried again without the other.
"""

from __future__ import annotations

import concurrent.futures
import dataclasses
import glob
import importlib.machinery
import importlib.util
import os
import pathlib
import re
import shutil
import sys
import tempfile
from collections.abc import Callable
from typing import Any

HEADING = re.compile(r"(?:(?:pub(?:\([a-z]+\))?|final|const|unsafe) +)*fn +(\w+)")
OWNER = re.compile(r"(?:pub(?:\([a-z]+\))? +)?(?:unsafe +)?(?:impl|trait)\b(.*)")
VERDICT = re.compile(r"fn \w+::(\S+): (.*)")
NO_FUNCTION = re.compile(r"has no function `([^`]+)`")
SEVERAL = re.compile(r"several functions are named `([^`]+)`: help: write one of (.*)")

Results = dict[str, tuple[bool, str]]  # by the name of each edit: whether it is refused, and why or why not


@dataclasses.dataclass
class Edit:
    """An edit: its crate and name, its changes, the function that it breaks, and the names to check for that function."""

    crate: str
    name: str
    pairs: list[tuple[str, str, str]]
    function: str
    checked: list[str] = dataclasses.field(default_factory=list)

    def names(self) -> list[str]:
        return self.checked or [self.function]

    def __str__(self) -> str:
        return f"{self.crate}/{self.name}"


def kit() -> Any:
    """Returns the program `rt` as a module: it knows the crates, their libraries, and the words of a check."""
    path = os.path.realpath(shutil.which("rt") or sys.exit("rt is not in PATH"))
    loader = importlib.machinery.SourceFileLoader("rt", path)
    spec = importlib.util.spec_from_loader("rt", loader)
    assert spec
    found: Any = importlib.util.module_from_spec(spec)
    loader.exec_module(found)
    found.Crate.cuts_libraries = True
    return found


def pairs_of(text: str) -> list[tuple[str, str, str]]:
    """Returns the changes of an edit: the file, the old text and the new one."""
    found, file, old = [], "", ""
    for line in text.split("\n"):
        if line.startswith("file: "):
            file = line.removeprefix("file: ").strip()
        elif line.startswith("old: "):
            old = line.removeprefix("old: ")
        elif line.startswith("new:"):
            found.append((file, old, line.removeprefix("new:").removeprefix(" ")))
    return found


def type_name(words: str) -> str:
    """Returns the name of a type or a trait without its module and its parameters: `Ae` for `&ups_pdu::Ae<A>`."""
    return re.split(r"[<\s]", words.strip().lstrip("&"))[0].split("::")[-1].strip(":")


def owner(line: str) -> str:
    """Returns the name that the prover gives the type of an `impl`, or of an `impl` of a trait: `AeDisplay`."""
    head = OWNER.match(line)
    if not head:
        return ""
    rest = head[1].split("{")[0].split(" where ")[0].strip()
    depth = 0
    for place, letter in enumerate(rest if rest.startswith("<") else ""):
        depth += (letter == "<") - (letter == ">")
        if not depth:
            rest = rest[place + 1 :]
            break
    trait, is_trait, kind = rest.partition(" for ")
    return type_name(kind) + type_name(trait) if is_trait else type_name(trait)


def head_at(lines: list[str], at: int) -> str:
    """Returns the head of an `impl` in one line, as it may stand in two; any other line as it is."""
    if lines[at].startswith("impl") and "{" not in lines[at] and at + 1 < len(lines):
        return f"{lines[at]} {lines[at + 1].strip()}"
    return lines[at]


def functions_in(text: str, path: str) -> list[str]:
    """Returns the functions of a file as the prover names them: `negotiating::negotiate`, `row::Row::is_locked`."""
    module = path.removeprefix("src/").removesuffix(".rt").replace("/", "::")
    found, inside = [], ""
    lines = text.split("\n")
    for at, line in enumerate(lines):
        bare = line.strip()
        if line and not line.startswith((" ", "}", ")")):
            inside = owner(head_at(lines, at))
        heading = HEADING.match(bare)
        if heading and len(line) - len(bare) <= 4:
            parts = [module if module not in ("lib", "main") else "", inside if line != bare else "", heading[1]]
            found.append("::".join(it for it in parts if it))
    return found


def function_named(folder: str, edit: str) -> str:
    """Returns the function that an edit's name begins with: one that breaks a constant is tried by what is said of it."""
    found = []
    for file in glob.glob(f"{glob.escape(folder)}/src/**/*.rt", recursive=True):
        with open(file, encoding="utf-8") as it:
            found += functions_in(it.read(), os.path.relpath(file, folder))
    named = [it for it in found if edit.startswith(f"{it.split('::')[-1]}_")]
    return max(named, key=lambda it: len(it.split("::")[-1]), default="")


def applied(folder: str, edit: Edit, texts: dict[str, str]) -> dict[str, str] | None:
    """Returns the texts of the files with the edit made in them, or nothing if an old text doesn't stand once in its file."""
    made = dict(texts)
    for file, old, new in edit.pairs:
        if file not in made:
            made[file] = pathlib.Path(f"{folder}/{file}").read_text(encoding="utf-8")
        if made[file].count(old) != 1:
            return None
        made[file] = made[file].replace(old, new)
    return made


def read(root: str, crate: str, path: str) -> Edit:
    """Reads an edit; a fault of it ends the program."""
    name = os.path.basename(path).removesuffix(".edit")
    with open(path, encoding="utf-8") as it:
        edit = Edit(crate, name, pairs_of(it.read()), "")
    if not edit.pairs or applied(f"{root}/crates/{crate}", edit, {}) is None:
        sys.exit(f"{edit}: it changes nothing, or an old text doesn't stand once in its file")
    # (a pair that changes only the layout makes the next old text the only one of its kind)
    file, old, _ = next((it for it in edit.pairs if it[1].split() != it[2].replace("{", " {").split()), edit.pairs[0])
    text = pathlib.Path(f"{root}/crates/{crate}/{file}").read_text(encoding="utf-8")
    before = functions_in(text[: text.index(old) + len(old)], file)
    edit.function = before[-1] if before else function_named(f"{root}/crates/{crate}", name)
    return edit


def changed(folder: str, edits: list[Edit]) -> tuple[list[Edit], dict[str, str]]:
    """Returns which of the edits can be made at once, each in a function of its own, and the texts of the files with them."""
    made: list[Edit] = []
    texts: dict[str, str] = {}
    for edit in edits:
        tried = applied(folder, edit, texts)
        if tried is not None and edit.function not in [it.function for it in made]:
            made.append(edit)
            texts = tried
    return made, texts


def verdicts(said: str) -> dict[str, str]:
    """Returns what a check says of each function: `proved`, or why it is not."""
    return {found[1]: found[2] for found in map(VERDICT.match, said.split("\n")) if found}


def verdict_of(edit: Edit, told: dict[str, str]) -> str:
    """Returns what a check says of the function that an edit breaks, or nothing if it has no such function.

    Of several functions of that name it is the one that is not proved.
    """
    found = [why for name, why in told.items() if any(f"::{name}".endswith(f"::{it}") for it in edit.names())]
    return next((it for it in found if it != "proved"), found[0] if found else "")


class Trial:
    """The trial of a crate's edits: what each came to, by its name."""

    def __init__(self, rt: Any, crate: Any, edits: list[Edit]) -> None:
        self.rt, self.crate, self.left = rt, crate, edits
        self.results: Results = {}

    def check(self, edits: list[Edit], texts: dict[str, str], kept: str) -> dict[str, str]:
        """Checks the functions that these edits break, and returns what the check says of each function."""
        flags = ["--jobs", "1"]
        for function in sorted({name for it in edits for name in it.names()}):
            flags += ["--only", function]
        ran = self.rt.checked(self.crate, texts, flags, kept)
        told = verdicts(ran.stdout)
        if not told:
            lines = [it for it in ran.stdout.split("\n") if ": error" in it] or ran.stdout.split("\n")[-3:]
            told[""] = f"the check ended with status {ran.returncode}: {' '.join(lines)}"
        return told

    def is_renamed(self, edits: list[Edit], told: dict[str, str]) -> bool:
        """Returns whether the prover has no function of such a name, or several, and if so finds other names.

        The name of an `impl` of a trait may have parts that its heading doesn't show.
        """
        none, several = NO_FUNCTION.search(told.get("", "")), SEVERAL.search(told.get("", ""))
        renamed = False
        for edit in edits:
            if none and edit.names() == [none[1]] and "::" in none[1]:
                edit.checked, renamed = [none[1].split("::")[-1]], True
            elif several and edit.names() == [several[1]]:
                found = re.findall(r"`\w+::([^`]+)`", several[2])
                prefix = edit.function.rpartition("::")[0]
                edit.checked, renamed = [it for it in found if it.startswith(prefix)] or found, True
        return renamed

    def settle(self, edits: list[Edit], told: dict[str, str]) -> None:
        """Notes what the edits came to of which the check says something by itself."""
        for edit in edits:
            why = verdict_of(edit, told)
            if why == "proved":
                self.results[edit.name] = (False, "the function is still proved")
            elif why.startswith(("not proved", "no proof")) and "it calls" not in why:
                self.results[edit.name] = (True, why)
            elif len(edits) == 1:
                self.results[edit.name] = (False, why or told.get("") or f"the check has no function {edit.function}")

    def run(self) -> Results:
        """Tries the edits, as many at once as can be, and returns for each whether it is refused, and why or why not."""
        with tempfile.TemporaryDirectory(prefix="upsd-edits-") as kept:
            alone = False
            while self.left:
                made, texts = changed(self.crate.folder, self.left[:1] if alone else self.left)
                told, before = self.check(made, texts, kept), len(self.results)
                if self.is_renamed(made, told):
                    continue
                self.settle(made, told)
                alone = len(self.results) == before
                self.left = [it for it in self.left if it.name not in self.results]
        return self.results


def libraries_in_place(rt: Any, root: str, names: set[str]) -> dict[str, Any]:
    """Returns the crates by name. The libraries below those named are as the last run proved them in this checkout: this is for
    a kit that keeps none elsewhere (13b)."""
    rt.rtlib.Crate = rt.Crate
    crates = {it.name: it for it in rt.rtlib.crates_below(root)}
    lost = sorted({below.name for name in names for below in crates[name].below() if not os.path.isdir(below.rlib)})
    if lost:
        sys.exit(f"edits.py: not proved in this checkout: {', '.join(lost)}: run `rt ci` first")
    return crates


def libraries(rt: Any, root: str, to: str, names: set[str]) -> dict[str, Any]:
    """Copies the crates to a folder, with the libraries below those named as they were proved, and returns the crates by name."""
    rt.Crate.allowed = rt.handles_of(root)
    if not hasattr(rt, "Kept"):
        return libraries_in_place(rt, root, names)
    here = {it.name: it for it in rt.crates_of(root)}
    rt.copy_crates(root, to)
    os.mkdir(f"{to}/.git")
    crates = {it.name: it for it in rt.crates_of(to)}
    needed = {below.name for name in names for below in crates[name].below()}
    kept = rt.Kept(list(crates.values()))
    for name in [it for it in crates if it in needed]:
        crate = crates[name]
        if not kept.give(crate, False, kept.key(crate)):
            if not here[name].is_built():
                sys.exit(f"edits.py: {name} is not proved as it stands: run `rt ci {name}` first")
            shutil.copytree(f"{here[name].folder}/out/rlib", f"{crate.folder}/out/rlib")
        kept.is_built(crate)
    return crates


def tried(root: str, edits: list[Edit], lanes: int, tell: Callable[[str, Results], None]) -> int:
    """Tries edits, those of a crate together, and tells of each crate once it is done. Returns how many are not refused."""
    rt, failed, names = kit(), 0, sorted({it.crate for it in edits})
    # (its first call sets a signal's handler, which only the main thread may)
    rt.rtlib.guarded()
    with tempfile.TemporaryDirectory(prefix="upsd-edits-") as room, concurrent.futures.ThreadPoolExecutor(lanes) as pool:
        crates = libraries(rt, root, f"{room}/tree", {*names})
        # (the largest crates first, as they take longest)
        names.sort(key=lambda it: int(crates[it].count(rb"\n")), reverse=True)
        trials = [Trial(rt, crates[name], [it for it in edits if it.crate == name]) for name in names]
        begun = {pool.submit(it.run): it.crate.name for it in trials}
        for done in concurrent.futures.as_completed(begun):
            results = done.result()
            failed += sum(not is_refused for is_refused, _ in results.values())
            tell(begun[done], results)
    return failed
