#!/usr/bin/env python3
"""Lists the lemmas and definitions that nothing cites.

    proving/unused.py          reads all crates, from the top of the checkout
    proving/unused.py CRATE    lists those of one crate

A lemma is a definition in a module of `crates/*/proofs` or `crates/*/specs`. A name is that of the definition that it is imported
from, so two lemmas with one name in two crates are two. One is cited if it can be reached from the code, its contracts, an answer,
an invariant or a `Worked` module (rows of tests), by imports. It prints each lemma that is not with its file, its line and the
number of its lines, and then how many there are. The status is 1 if there are any.
"""

from __future__ import annotations

import argparse
import collections
import dataclasses
import glob
import os
import re
import sys
from collections.abc import Iterator
from typing import Optional

HERE = os.path.dirname(os.path.dirname(os.path.abspath(__file__)))
WORD = re.compile(r"[^\W\d][\w']*(?:-[\w']+)*")
NAME = re.compile(r"(?:(?:abbrev|unfoldable|pub) +)*(?:(?:record|data) +)?([^\W\d][\w'-]*)(.*)")
PARAMETERS = re.compile(r"\([^(){}]*\)|\{[^(){}]*\}")
BLOCK = re.compile(r"(?:abbrev +)?(?:mutual|module)\b")
NOT_NAMES = {"use", "mod", "module", "mutual", "record", "data", "abbrev"}
IMPORT = re.compile(r" *(?:pub )?(?:ghost )?use ([\w.+]+)(?:\.\{(.*)\}| as (\w+));?")
PATH = re.compile(r"\b(crate|\w+)((?:::\w+)*::(?:proofs|specs)::[\w:]+)::([\w'-]+)")
IS_PROOF = ("Answers.antt", "Invariants.antt", "Proof.antt")

def text_of(path: str) -> str:
    """Returns the text of a file without comments."""
    with open(path, encoding="utf-8") as opened:
        text = opened.read()
    return re.sub(r"--.*", "", text) if path.endswith(".antt") else re.sub(r"//.*", "", text)


def declared(line: str) -> str:
    """Returns the name that a line declares with its type; empty if it declares none, as an equation."""
    found = NAME.fullmatch(line)
    if not found or found[1] in NOT_NAMES:
        return ""
    rest = found[2]
    while PARAMETERS.search(rest):  # they may be nested
        rest = PARAMETERS.sub("", rest)
    return found[1] if rest.lstrip().startswith(":") else ""


def definitions_of(text: str) -> list[tuple[str, int, str]]:
    """Returns the definitions of a module of lemmas: the name of each, its line, and its whole text. The head of a block has no name."""
    found: list[tuple[str, int, list[str]]] = []
    blocks = [0]  # the indentations at which definitions stand: a block of a module, or of mutual ones, has its own further in
    for number, line in enumerate(text.split("\n"), 1):
        own = line.lstrip(" ")
        indent = len(line) - len(own)
        while own and indent < blocks[-1]:
            blocks.pop()
        is_here = own != "" and indent == blocks[-1]
        name = declared(own) if is_here else ""
        if is_here and BLOCK.match(own):
            blocks.append(indent + 2)
            found.append(("", number, [line]))
        elif name:
            found.append((name, number, [line]))
        elif found:
            found[-1][2].append(line)
    return [(name, number, "\n".join(lines)) for name, number, lines in found]


def words_of(text: str) -> collections.Counter[str]:
    """Returns how often each word stands in a text."""
    return collections.Counter(WORD.findall(text))


def sources() -> list[str]:
    """Returns the files that may cite a lemma."""
    found = glob.glob(f"{HERE}/crates/*/*/**/*", recursive=True)
    return [it for it in found if it.endswith((".antt", ".rt")) and not it.split("/crates/")[1].split("/")[1] == "out"]


@dataclasses.dataclass(frozen=True)
class Source:
    """A file: its text without imports, what it imports, and its definitions if it is a module of lemmas."""

    text: str
    imports: dict[str, tuple[str, str]]  # for each name, the module that has it, and its name there
    modules: dict[str, str]  # for each other name of a module, the module
    defined: dict[str, list[tuple[int, str]]]
    heads: str  # of its blocks, whose parameters are those of the definitions in them


def imports_of(text: str) -> tuple[dict[str, tuple[str, str]], dict[str, str]]:
    """Returns the names and the modules that a file imports."""
    names: dict[str, tuple[str, str]] = {}
    modules: dict[str, str] = {}
    for module, listed, other in (it.groups() for it in map(IMPORT.fullmatch, text.split("\n")) if it):
        if other:
            modules[other] = module
        for name in (listed or "").split(","):
            own, _, here = name.strip().partition(" as ")
            names[here.strip() or own] = (module, own)
    return names, modules


def read(path: str) -> Source:
    """Reads a file."""
    text = text_of(path)
    names, modules = imports_of(text)
    kept = "\n".join(line for line in text.split("\n") if not IMPORT.fullmatch(line))
    defined: dict[str, list[tuple[int, str]]] = {}
    heads = []
    if path.endswith(".antt") and os.path.basename(path) not in IS_PROOF:
        for name, line, own in definitions_of(text):
            if name:
                defined.setdefault(name, []).append((line, own))
            else:
                heads.append(own)
    return Source(kept, names, modules, defined, "\n".join(heads))


def module_of(path: str) -> str:
    """Returns the name by which a file is imported."""
    crate, _, rest = os.path.relpath(path, f"{HERE}/crates").partition("/")
    return f"Rattle.{crate}.{os.path.splitext(rest)[0].replace('/', '.')}"


class Crates:
    """All files, and which definition a name is of in each."""

    def __init__(self) -> None:
        self.files = {path: read(path) for path in sources()}
        self.paths = {module_of(path): path for path, it in self.files.items() if it.defined}

    def of(self, path: str, name: str) -> Optional[tuple[str, str]]:
        """Returns the file and the name of the definition that a name is of in a file, or None if it is none of these crates."""
        seen = set()
        while (path, name) not in seen:
            seen.add((path, name))
            it = self.files[path]
            if name in it.defined:
                return path, name
            module, name = it.imports.get(name, ("", name))
            path = self.paths.get(module, "")
            if not path:
                return None
        return None

    def cited(self, path: str, text: str) -> Iterator[tuple[str, str]]:
        """Returns the definitions that a text of a file cites."""
        for name in words_of(text):
            found = self.of(path, name)
            if found:
                yield found
        for other, module in self.files[path].modules.items():
            for name in re.findall(rf"\b{other}\.([\w'-]+)", text):
                if module in self.paths and self.of(self.paths[module], name):
                    yield self.of(self.paths[module], name) or ("", "")
        own = os.path.relpath(path, f"{HERE}/crates").partition("/")[0]
        for crate, module, name in PATH.findall(text):
            there = self.paths.get("Rattle." + (own if crate == "crate" else crate) + module.replace("::", "."), "")
            if there and self.of(there, name):
                yield self.of(there, name) or ("", "")

    def reached(self) -> set[tuple[str, str]]:
        """Returns the definitions that code, answers and worked rows reach."""
        left = [it for path, file in self.files.items() if not file.defined or "Worked" in path for it in self.cited(path, file.text)]
        left += [it for path, file in self.files.items() for it in self.cited(path, file.heads)]
        seen: set[tuple[str, str]] = set()
        while left:
            it = left.pop()
            if it in seen:
                continue
            seen.add(it)
            path, name = it
            for _, own in self.files[path].defined[name]:
                left.extend(self.cited(path, own))
        return seen


def unused(crate: Optional[str]) -> list[tuple[str, int, str, int]]:
    """Returns the lemmas of a crate, or of all, that nothing cites: the file, the line, the name and the number of lines of each."""
    crates = Crates()
    seen = crates.reached()
    found = []
    for path, file in sorted(crates.files.items()):
        if "Worked" in path or crate and f"/crates/{crate}/" not in path:
            continue
        for name, texts in file.defined.items():
            if (path, name) not in seen:
                lines = sum(len([it for it in own.split("\n") if it.strip()]) for _, own in texts)
                found.append((os.path.relpath(path, HERE), texts[0][0], name, lines))
    return found


def main() -> None:
    about, _, more = (__doc__ or "").partition("\n\n")
    asked = argparse.ArgumentParser(description=about, epilog=more, formatter_class=argparse.RawDescriptionHelpFormatter)
    asked.add_argument("crate", nargs="?", metavar="CRATE", help="the lemmas of this crate")
    found = unused(asked.parse_args().crate)
    for path, line, name, lines in found:
        print(f"{path}:{line}: {name}, {lines} lines")
    print(f"{len(found)} lemmas that nothing cites, {sum(it[3] for it in found)} lines")
    sys.exit(bool(found))


if __name__ == "__main__":
    main()
