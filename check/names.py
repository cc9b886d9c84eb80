#!/usr/bin/env python3
"""Checks that the name of a definition, and that of a type, means one thing in the whole workspace.

    check/names.py              reads crates/*/specs and crates/*/src, from the top of the checkout
    check/names.py --self-test  plants a name that is defined already, in each form, and checks that it is found

The name of a definition is that of a record, a `data` and each of its constructors, an `abbrev`, and whatever has only a type
and equations, in a module of specs, `pub` or not. Fields of records do not count, since they are written after a value. The
name of a type is that of a struct, an enum, a trait or an alias in a module of code, if it is visible outside of the module. It
prints each name that two or more modules define, with the modules, and then how many names there are and how many are defined
twice. The status is 1 if any is.
"""

from __future__ import annotations

import argparse
import collections
import glob
import os
import re
import sys
from collections.abc import Callable

HERE = os.path.dirname(os.path.dirname(os.path.abspath(__file__)))
# what may precede a name; the constructors of a `data` are below it, indented
HEAD = re.compile(r"(?:(?:abbrev|unfoldable|pub) +)*(?:(record|data) +)?([^\W\d][\w-]*)(?![\w.])(.*)")
CONSTRUCTOR = re.compile(r" +(?:pub +)?([^\W\d][\w-]*) +:")
BLOCK = re.compile(r"(?:abbrev +)?(?:mutual|module)\b.*")  # what has definitions below it, indented
PARAMETERS = re.compile(r"\([^(){}]*\)|\{[^(){}]*\}")
TYPE = re.compile(r"^ *pub(?:\([a-z ]+\))? (?:struct|enum|trait|type) (\w+)", re.MULTILINE)
OTHERS = {"use", "mod", "module", "mutual", "record", "data", "abbrev"}
PLANTED = (  # forms of a definition, with the name for {0}
    "abbrev pub {0} : ℕ\n{0} = 0",
    "{0} : ℕ\n{0} = 0",
    "unfoldable pub {0} : ℕ → ℕ\n{0} n = n",
    "pub record {0} (n : ℕ) : Type 0 where\n  pub a : ℕ",
    "record {0} : Type 0 where\n  a : ℕ",
    "pub data {0} : Type 0 where\n  zz : {0}",
    "pub data ZZ : Type 0 where\n  zz : ZZ\n  {0} : ZZ",
    "abbrev mutual\n  pub zz : ℕ\n  zz = 0\n\n  pub {0} : ℕ\n  {0} = 0",
    "module _ {{A : Type 0}} (n : ℕ) where\n  abbrev pub {0} : ℕ\n  {0} = n",
)
PLANTED_TYPES = (  # forms of a type
    "pub struct {0};",
    "pub(crate) enum {0} {{}}",
    "    pub trait {0}<A: Copy> {{",
    "pub(super) type {0} = u64;",
)


def declared(line: str) -> tuple[str, str]:
    """Returns the kind of definition that a line declares, if it is a record or a `data`, and its name; empty if there is none."""
    found = HEAD.fullmatch(line)
    if not found or found[2] in OTHERS:
        return "", ""
    rest = found[3]
    while PARAMETERS.search(rest):  # they may be nested
        rest = PARAMETERS.sub("", rest)
    before, colon, _ = rest.partition(":")
    return ("", "") if not colon or "=" in before else (found[1] or "", found[2])


def names_in(text: str) -> set[str]:
    """Returns the names that a module defines."""
    names, is_data, is_block = set(), False, False
    for line in re.sub(r"--.*", "", text).split("\n"):
        if line and not line.startswith(" "):
            is_block = bool(BLOCK.fullmatch(line))
        elif is_block:
            line = line.removeprefix("  ")
        if line and not line.startswith(" "):
            kind, name = declared(line)
            names |= {name} - {""}
            is_data = kind == "data"
        elif is_data and (found := CONSTRUCTOR.match(line)):
            names.add(found[1])
    return names


def types_in(text: str) -> set[str]:
    """Returns the names of the types that a module of code shows to others."""
    return set(TYPE.findall(text))


class Kind:
    """A kind of names: how it is called, where its modules are, how its names are read, and the forms to plant."""

    def __init__(self, word: str, pattern: str, names: Callable[[str], set[str]], planted: tuple[str, ...]) -> None:
        self.word, self.names, self.planted = word, names, planted
        self.modules = {}
        for path in sorted(glob.glob(f"{HERE}/crates/*/{pattern}", recursive=True)):
            with open(path, encoding="utf-8") as opened:
                self.modules[os.path.relpath(path, HERE)] = opened.read()

    def modules_of(self, modules: dict[str, str]) -> dict[str, list[str]]:
        """Returns the modules in which each name is defined."""
        found = collections.defaultdict(list)
        for path, text in modules.items():
            for name in self.names(text):
                found[name].append(path)
        return found

    def missed(self) -> list[str]:
        """Returns the forms in which a name that is planted in another module is not found."""
        found = self.modules_of(self.modules)
        name = min(name for name, paths in found.items() if len(paths) == 1)
        forms = []
        for form in self.planted:
            spoiled = {**self.modules, "planted": "\n" + form.format(name) + "\n"}
            if self.modules_of(spoiled)[name] != [*found[name], "planted"]:
                forms.append(form.format(name))
        return forms

    def tell(self) -> bool:
        """Prints the names that are defined twice, and returns whether there are any."""
        found = self.modules_of(self.modules)
        twice = {name: paths for name, paths in sorted(found.items()) if len(paths) > 1}
        for name, paths in twice.items():
            print(f"{name}: {', '.join(paths)}")
        print(f"{len(found):,} {self.word}, {len(twice)} twice")
        return bool(twice)


def main() -> None:
    about, _, more = (__doc__ or "").partition("\n\n")
    asked = argparse.ArgumentParser(description=about, epilog=more, formatter_class=argparse.RawDescriptionHelpFormatter)
    asked.add_argument("--self-test", action="store_true", help="plant a name, and see that it is found")
    is_test = asked.parse_args().self_test
    kinds = [
        Kind("names of definitions", "specs/**/*.antt", names_in, PLANTED),
        Kind("names of types", "src/**/*.rt", types_in, PLANTED_TYPES),
    ]
    if is_test:
        missed = [form for kind in kinds for form in kind.missed()]
        count = sum(len(kind.planted) for kind in kinds)
        print("\n".join(f"not found: {it!r}" for it in missed) or f"{count} planted names, each found")
        sys.exit(bool(missed))
    sys.exit(any([kind.tell() for kind in kinds]))


if __name__ == "__main__":
    main()
