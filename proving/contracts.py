#!/usr/bin/env python3
"""Compares contracts and definitions with those of an older commit, up to renamed definitions, and lists what says less.

    proving/contracts.py REVISION [--specs] [--names FILE]
    proving/contracts.py --self-test    drops and weakens each kind of statement in memory, and checks that it is told

A contract is that of a public function, or of a function in a trait or an `impl .. for`: its signature and its clauses. It says
less if a clause that ensures something is gone or reads otherwise, or if one is there that requires more. What it ensures
besides, the names of its clauses and their order are not told. Compared as well are the headings of traits and of these impls,
their ghost lines (`ghost NAME: ..`, `ghost NAME = ..`, as those of models: Value, view, invariant), and the ghost fields of types.

With --specs the definitions of specs are compared too, without comments and `use` lines. A definition that was renamed is found
by its body, or named by a line of FILE, `crate module old new`. A crate that was merged into another has a line `crate OLD NEW`.
What moved to another crate or module without a change is the same.

It prints what says less or differs, with its file and both texts, and then how much was compared. The status is 1 if anything
is told.
"""

from __future__ import annotations

import argparse
import dataclasses
import io
import os
import re
import subprocess
import sys
import tarfile
from collections.abc import Iterator
from typing import Callable, Optional

HERE = os.path.dirname(os.path.dirname(os.path.abspath(__file__)))
sys.path.insert(0, os.path.join(HERE, "check"))
import names as workspace  # noqa: E402

SOURCE, SPEC = re.compile(r"crates/(\w+)/src/.*\.rt"), re.compile(r"crates/(\w+)/specs/.*\.antt")
# in a source: a text, a character, a word, an arrow (which ends no list of types), or any other sign
QUOTED = r'"(?:[^"\\]|\\.)*"|\'(?:\\[^\']+|[^\'\\\n])\''
SIGN, COMMENT = re.compile(rf"{QUOTED}|\w+|->|[^\w\s]", re.DOTALL), re.compile(rf"({QUOTED})|//[^\n]*", re.DOTALL)
WORD = re.compile(r'"(?:[^"\\]|\\.)*"|\w+|[^\w\s]')
REMARK = re.compile(r'("(?:[^"\\]|\\.)*")|--.*')  # in a definition
OPENED, CLOSED, CLAUSES = set("([{"), set(")]}"), ("requires", "ensures")
LONGEST = 300  # letters of a text that are told
NONE = "no such clause"

Texts = dict[str, str]  # by path
Renamed = dict[str, set[str]]  # the new names of each old one
Key = tuple[str, str, str]  # the crate; the type, trait or module; the name


@dataclasses.dataclass
class Contract:
    """The contract of a function: the heading of its impl if that is a type's own, its signature, and its clauses with their
    names."""

    path: str
    heading: str
    signature: str
    clauses: list[tuple[str, str, str]]


@dataclasses.dataclass
class Statement:
    """A heading, a ghost line or a definition."""

    path: str
    text: str


@dataclasses.dataclass
class Said:
    """What a checkout says: the contracts, the headings and ghost lines, and the definitions, each by its key."""

    contracts: dict[Key, list[Contract]] = dataclasses.field(default_factory=dict)
    ghosts: dict[Key, list[Statement]] = dataclasses.field(default_factory=dict)
    definitions: dict[Key, list[Statement]] = dataclasses.field(default_factory=dict)
    names: set[str] = dataclasses.field(default_factory=set)


# reading sources

class Source:
    """A source, as signs, from which statements are read one after the other."""

    def __init__(self, path: str, text: str, said: Said) -> None:
        self.path, self.crate, self.said = path, path.split("/")[1], said
        self.text = COMMENT.sub(lambda it: it[1] or "", text)
        found = list(SIGN.finditer(self.text))
        self.signs, self.spans = [it[0] for it in found], [it.span() for it in found]

    def between(self, at: int, end: int) -> str:
        """Returns the text from one sign up to another."""
        return " ".join(self.text[self.spans[at][0]:self.spans[end - 1][1]].split()) if at < end else ""

    def closed(self, at: int) -> int:
        """Returns the place behind the bracket that closes the one at a place."""
        depth = 0
        for it in range(at, len(self.signs)):
            depth += (self.signs[it] in OPENED) - (self.signs[it] in CLOSED)
            if not depth:
                return it + 1
        return len(self.signs)

    def upto(self, at: int, ends: str) -> int:
        """Returns the place of the next of some signs that is in no bracket opened behind a place."""
        while at < len(self.signs) and self.signs[at] not in ends:
            at = self.closed(at) if self.signs[at] in OPENED else at + 1
        return at

    def read(self, at: int, end: int, owner: str = "", heading: str = "", is_told: bool = False) -> None:
        """Reads the items between two places: those of a module, or of a trait or an impl with a heading. Of a type's own impl
        only public functions count."""
        start = at
        while at < end:
            sign = self.signs[at]
            if sign == "#":
                start = at = self.closed(at + (2 if self.signs[at + 1] == "!" else 1))
                continue
            if sign == "fn":
                at = self.function(start, at, owner, heading, is_told)
            elif sign in ("impl", "trait", "mod", "struct", "enum") and not owner:
                at = self.block(start, at)
            elif sign == "ghost" and self.signs[at + 1] != "use":
                at = self.ghost(at, owner)
            elif sign in ("use", "type", "static", "ghost") or (sign == "const" and self.signs[at + 1] not in ("fn", "unsafe")):
                at = self.upto(at, ";") + 1
            else:
                at = self.closed(at) if sign in OPENED else at + 1
                if sign not in ("{", ";", "}"):
                    continue
            start = at

    def function(self, start: int, at: int, owner: str, heading: str, is_told: bool) -> int:
        """Reads a function, and returns the place behind it."""
        name, clauses, head = self.signs[at + 1], [], -1
        at += 2
        while at < len(self.signs) and self.signs[at] != ";":
            if self.signs[at] in CLAUSES:
                head = at if head < 0 else head
                opened = self.upto(at, "{")
                clauses.append((self.signs[at], self.between(at + 1, opened), self.between(opened, self.closed(opened))))
                at = self.closed(opened)
            elif self.signs[at] == "{":
                break
            else:
                at = self.closed(at) if self.signs[at] in OPENED else at + 1
        signature = self.between(start, at if head < 0 else head)
        if is_told or re.match(r"pub (?!\()", signature):
            contract = Contract(self.path, "" if is_told else heading, signature, clauses)
            self.said.contracts.setdefault((self.crate, owner, name), []).append(contract)
        return self.closed(at) if at < len(self.signs) and self.signs[at] == "{" else at + 1

    def block(self, start: int, at: int) -> int:
        """Reads a trait, an impl, a module or a type, and returns the place behind it."""
        kind, opened = self.signs[at], self.upto(at, "{;")
        end = self.closed(opened) if self.signs[opened] == "{" else opened + 1
        owner, heading = without_parameters(self.signs[start:opened]), self.between(start, opened)
        if kind == "mod":
            self.read(opened + 1, end - 1)
        elif kind in ("struct", "enum"):
            for it in range(opened + 1, end - 1):
                if self.signs[it] == "ghost" and self.signs[it + 1] != "use":
                    self.ghost(it, f"{kind} {self.signs[at + 1]}")
        else:
            is_told = (kind == "trait" or "for" in owner.split()) and "Drop for" not in owner  # that may be derived
            if is_told:
                self.add(owner, "heading", heading)
            self.read(opened + 1, end - 1, owner, heading, is_told)
        return end

    def ghost(self, at: int, owner: str) -> int:
        """Reads a ghost line or a ghost field, and returns the place behind it."""
        end = self.upto(at, ";,}")
        self.add(owner, f"ghost {self.signs[at + 1]}", self.between(at, end))
        return end + (self.signs[end] != "}")

    def add(self, owner: str, name: str, text: str) -> None:
        self.said.ghosts.setdefault((self.crate, owner, name), []).append(Statement(self.path, text))


def without_parameters(heading: list[str]) -> str:
    """Returns the heading of a trait, an impl or a type without its parameters, its bounds, and `pub`: of what is in angle
    brackets only what names the trait of an impl stays."""
    found, depth, is_of_trait = [], 0, False
    for at, sign in enumerate(heading):
        depth -= sign == ">"
        if not depth and sign in ("where", ":"):
            break
        if not depth and sign == "<":
            is_of_trait = heading[at - 1] != "impl" and "for" in heading[at:] and "for" not in found and "impl" in found
        if sign not in ("pub", "(", "crate", ")", "unsafe") and (is_of_trait or not (depth or sign in "<>")):
            found.append(sign)
        depth += sign == "<"
    return re.sub(r" ([<>,])", r"\1", " ".join(found)).replace("< ", "<")


# reading definitions

def definitions_in(text: str) -> Iterator[tuple[str, str]]:
    """Yields the name and the text of each definition of a module of specs, without comments and `use` lines."""
    block, name, lines = "", "", []
    for line in REMARK.sub(lambda it: it[1] or "", text).split("\n"):
        line = line.rstrip()
        if not line or re.match(r"(use|mod)\b", line):
            continue
        if not line.startswith(" "):
            block = line if workspace.BLOCK.fullmatch(line) else ""
        inner = line.removeprefix("  ") if block else line
        declared = "" if inner.startswith(" ") else workspace.declared(inner)[1]
        if declared or line == block:
            if name:
                yield name, "\n".join(lines)
            name, lines = declared, [*([block] if block and declared else [])]
        if line != block:
            lines.append(inner)
    if name:
        yield name, "\n".join(lines)


def said_by(texts: Texts) -> Said:
    """Returns what the files of a checkout say."""
    said = Said()
    for path, text in texts.items():
        if SOURCE.fullmatch(path):
            source = Source(path, text, said)
            source.read(0, len(source.signs))
        elif found := SPEC.fullmatch(path):
            module = path.partition("/specs/")[2].removesuffix(".antt")
            for name, definition in definitions_in(text):
                said.definitions.setdefault((found[1], module, name), []).append(Statement(path, definition))
            said.names |= workspace.names_in(text)
    return said


# comparing

def words(text: str) -> list[str]:
    return WORD.findall(text)


def is_same(old: str, new: str, renamed: Renamed) -> bool:
    """Returns whether two texts are the same word for word, up to renamed definitions."""
    olds, news = words(old), words(new)
    return len(olds) == len(news) and all(a == b or b in renamed.get(a, ()) for a, b in zip(olds, news))


def renamed_by_body(old: Said, new: Said, renamed: Renamed) -> Renamed:
    """Returns the new names that definitions have, with those that are known and those of which the body tells it."""
    gone, come = left_over(old, new), left_over(new, old)
    found = {name: set(it) for name, it in renamed.items()}

    def is_renamed(name: str, other: str, assumed: dict[str, str]) -> bool:
        """Returns whether a definition is another one, up to the names assumed, to which it adds. A constructor is none."""
        assumed[name] = other
        pairs = [(was, now) for was in gone[name] for now in come[other] if len(was) == len(now)]
        return not gone[name] + come[other] or any(all(is_like(*it, assumed) for it in zip(*pair)) for pair in pairs)

    def is_like(a: str, b: str, assumed: dict[str, str]) -> bool:
        return (a == b or b in found.get(a, ()) or assumed.get(a) == b
                or (a not in assumed and a in gone and b in come and is_renamed(a, b, assumed)))

    for name, other in ((name, other) for name in gone for other in come if gone[name] and come[other] and name != other):
        assumed: dict[str, str] = {}
        if other not in found.get(name, ()) and is_renamed(name, other, assumed):
            for it, now in assumed.items():
                found.setdefault(it, set()).add(now)
    return found


def left_over(one: Said, other: Said) -> dict[str, list[list[str]]]:
    """Returns the words of the definitions that one checkout has and another has not in the same module, by name; and the names
    of constructors, without any."""
    found: dict[str, list[list[str]]] = {name: [] for name in one.names - other.names}
    for key, its in one.definitions.items():
        if key not in other.definitions:
            found.setdefault(key[2], []).extend(words(it.text) for it in its)
    return found


class Comparison:
    """What says less or differs in a newer checkout, as lines."""

    def __init__(self, old: Said, new: Said, renamed: Optional[Renamed] = None, crates: Optional[dict[str, str]] = None) -> None:
        self.old, self.new, self.crates, self.told = old, new, crates or {}, []
        self.renamed = renamed_by_body(old, new, renamed or {})

    def here(self, key: Key, new: dict) -> list:
        """Returns what has the same key, up to new names."""
        crate, owner, name = key
        return [it for (at, its, called), found in new.items() for it in found
                if at == self.crates.get(crate, crate) and its in self.now(owner) and called in self.now(name)]

    def others(self, key: Key, new: dict, is_anywhere: bool) -> list:
        """Returns what may stand in the place of what had a key: by the same key, else under the same name elsewhere."""
        _, owner, name = key
        return self.here(key, new) or [it for (_, its, called), found in new.items() for it in found
                                       if called in self.now(name) and (is_anywhere or its in self.now(owner))]

    def now(self, name: str) -> set[str]:
        return {name, *self.renamed.get(name, ())}

    def tell(self, path: str, what: str, *texts: str) -> None:
        self.told.append(f"{path}: {what}" + "".join(f"\n    {it}" for it in texts))

    def contracts(self) -> None:
        for key, found in self.old.contracts.items():
            for contract in found:
                others = self.others(key, self.new.contracts, False)
                told = [self.less(contract, it) for it in others]
                if not told or (all(told) and not self.here(key, self.new.contracts)):
                    self.tell(contract.path, f"{key[1]} {key[2]} is there no more".lstrip(), f"was: {contract.signature}")
                elif all(told):
                    least = min(told, key=len)
                    how = "says less" if NONE in "".join(least) else "differs"
                    self.tell(contract.path, f"{key[1]} {key[2]} {how}".lstrip(), *least)

    def less(self, old: Contract, new: Contract) -> list[str]:
        """Returns what a contract says less than it said, as lines."""
        told = []
        for was, now in ((old.heading, new.heading), (old.signature, new.signature)):
            told += [] if is_same(was, now, self.renamed) else apart(was, now)
        for kind, name, text in old.clauses:
            if kind == "ensures" and not any(it[0] == kind and is_same(text, it[2], self.renamed) for it in new.clauses):
                told += apart(*(clause(kind, name, its) for its in (old, new)))
        for kind, name, text in new.clauses:
            if kind == "requires" and not any(it[0] == kind and is_same(it[2], text, self.renamed) for it in old.clauses):
                told += apart(*(clause(kind, name, its) for its in (old, new)))
        return told

    def statements(self, olds: dict[Key, list[Statement]], news: dict[Key, list[Statement]], is_definition: bool) -> None:
        """Compares headings and ghost lines, or definitions."""
        for key, found in olds.items():
            for statement in found:
                others, called = self.others(key, news, is_definition), " ".join(key[1:] if not is_definition else key[2:])
                if not others:
                    self.tell(statement.path, f"{called} is there no more", f"was: {cut(statement.text)}")
                elif not any(is_same(statement.text, it.text, self.renamed) for it in others):
                    self.tell(statement.path, f"{called} differs", *apart(statement.text, others[0].text))

    def run(self, has_specs: bool) -> list[str]:
        """Compares all, and returns what is told."""
        self.contracts()
        self.statements(self.old.ghosts, self.new.ghosts, False)
        if has_specs:
            self.statements(self.old.definitions, self.new.definitions, True)
        return self.told


def clause(kind: str, name: str, contract: Contract) -> str:
    """Returns the clause of a contract that has a name."""
    return next((" ".join(it).replace("  ", " ") for it in contract.clauses if it[:2] == (kind, name)), NONE)


def cut(text: str) -> str:
    text = " ".join(text.split())
    return text if len(text) <= LONGEST else f"{text[:LONGEST]} .."


def apart(old: str, new: str) -> list[str]:
    """Returns two texts as they are told: from shortly before they differ, if they are long."""
    old, new = " ".join(old.split()), " ".join(new.split())
    at = len(os.path.commonprefix([old, new]))
    start = 0 if max(len(old), len(new)) <= LONGEST else old.rfind(" ", 0, max(0, at - 60)) + 1
    return [f"{when}: {'.. ' if start else ''}{cut(text[start:])}" for when, text in (("was", old), ("now", new))]


# the checkouts

def git(*given: str) -> bytes:
    return subprocess.run(["git", "-C", HERE, *given], capture_output=True, check=True).stdout


def texts_at(revision: str) -> Texts:
    """Returns the sources and specs at a revision, or in the working tree if that is empty."""
    found: Texts = {}
    if not revision:
        for path in git("ls-files", "--cached", "--others", "--exclude-standard", "crates").decode().split("\n"):
            if (SOURCE.fullmatch(path) or SPEC.fullmatch(path)) and os.path.exists(os.path.join(HERE, path)):
                with open(os.path.join(HERE, path), encoding="utf-8") as opened:
                    found[path] = opened.read()
        return found
    with tarfile.open(fileobj=io.BytesIO(git("archive", revision, "crates"))) as archive:
        for member in archive:
            if SOURCE.fullmatch(member.name) or SPEC.fullmatch(member.name):
                found[member.name] = archive.extractfile(member).read().decode()
    return found


def names_in(file: str) -> tuple[Renamed, dict[str, str]]:
    """Returns the new names of each old one, in one crate or another; and the crates that were merged into others."""
    renamed: Renamed = {}
    crates: dict[str, str] = {}
    with open(file, encoding="utf-8") as lines:
        for line in map(str.split, lines):
            if len(line) == 4:
                renamed.setdefault(line[2], set()).add(line[3])
            elif len(line) == 3 and line[0] == "crate":
                crates[line[1]] = line[2]
    return renamed, crates


# the self-test

def replaced(form: str, by: Callable[[re.Match[str]], str]) -> Callable[[str], Iterator[str]]:
    """Returns what spoils a text in each place where it has a form, in turn."""
    def spoil(text: str) -> Iterator[str]:
        for it in re.finditer(form, text):
            if (spoiled := by(it)) != it[0]:
                yield text[:it.start()] + spoiled + text[it.end():]
    return spoil


def of_contracts(form: str, by: str) -> Callable[[str], Iterator[str]]:
    """Returns what spoils the functions of a source that are compared, by its traits and impls and by its public functions."""
    def spoil(text: str) -> Iterator[str]:
        blocks = re.finditer(r"(?ms)^(?:pub )?(?:trait \w|impl\b[^{]* for (?!.*Drop for)).*?^\}|^ *pub fn .*?(?=^ *\{$|\{$)", text)
        for block in blocks:
            if "Drop for" not in block[0].partition("{")[0]:
                for spoiled in replaced(form, lambda it: it.expand(by))(block[0]):
                    yield text[:block.start()] + spoiled + text[block.end():]
    return spoil


TOLD = {  # what spoils a source or a definition, so that it says less
    "a clause": of_contracts(r"(?m)^ +ensures .*\}(;?)$", r"\1"),
    "what a clause says": of_contracts(r"(?m)(^ +ensures(?: \w+)? \{).*(\};?)$", r"\1 Unit \2"),
    "a condition more": of_contracts(r"(?m)(^ +)(ensures )", r"\1requires more { Never }\n\1\2"),
    "the result of a function without clauses": replaced(
        r"(?m)^( *pub (?:const )?fn [^\n;{}]*?) -> [^\n;{}]+ \{$", lambda it: f"{it[1]} {{"),
    "a ghost line": replaced(r"(?m)^ +ghost (?!use)\w+(?: =|:) .*;\n", lambda it: ""),
    "a ghost field": replaced(r"(?m)^    ghost (?!use)\w+: .*,\n", lambda it: ""),
    "an invariant": replaced(r"(?m)^( +ghost (?:invariant|is_sound) = )\{.*\};", lambda it: f"{it[1]}{{ λ _. Unit }};"),
}
IN_SPECS = {
    "a definition that becomes Unit": replaced(r"(?m)^(?!use|pub|abbrev|record|--)(.*? =) (?!Unit$).*", lambda it: f"{it[1]} Unit"),
    "an equation": replaced(r"(?m)^(?!use|pub|abbrev|record)\w.* = .*\n(?=\w.* = )", lambda it: ""),
    "a field of a record": replaced(r"(?m)^  pub \w+ : .*\n", lambda it: ""),
}
SAME = {  # what changes nothing that is told
    "a remark": (r"(?m)^( *)///? .*", r"\1// Other words."), "a name of a clause": (r"ensures \w+ \{", "ensures other {"),
    "a promise more": (r"(?m)^( +)(requires .*)", r"\1\2\n\1ensures more { Unit }"),
    "a remark of a definition": (r"(?m)^-- .*", "-- Other words."), "a use line": (r"(?m)^use .*\n", ""),
}


def told_of(path: str, old: Said, text: str) -> list[str]:
    """Returns what is told of a file that has another text."""
    return Comparison(old, said_by({path: text})).run(True)


def self_test() -> None:
    """Prints what is not told, and what is told though it says the same, and ends the program."""
    texts, missed, counts = texts_at(""), [], dict.fromkeys((*TOLD, *IN_SPECS), 0)
    for path, text in texts.items():
        old = said_by({path: text})
        for name, spoil in (TOLD if SOURCE.fullmatch(path) else IN_SPECS).items():
            for spoiled in spoil(text):
                counts[name] += 1
                if not told_of(path, old, spoiled):
                    missed.append(f"not told: {name} of {path}: {' / '.join(apart(text, spoiled))}")
        for name, (form, by) in SAME.items():
            if told := told_of(path, old, re.sub(form, by, text)):
                missed.append(f"told: {name} of {path}: {told[0]}")
    missed += [f"nowhere: {name}" for name, count in counts.items() if not count] + told_of_renamed(texts)
    print("\n".join(missed) or f"{sum(counts.values()):,} statements spoiled, each told")
    sys.exit(bool(missed))


def told_of_renamed(texts: Texts) -> list[str]:
    """Returns what is told if the relations and records of a crate have other names in the whole workspace."""
    old = said_by(texts)
    given = {name for (crate, _, name) in old.definitions if crate == "ups_life" and name[0].isupper()}  # no name of a field
    form = re.compile(rf"\b(?:{'|'.join(map(re.escape, given))})\b")
    files = {path for path, text in texts.items() if path.startswith("crates/ups_life/") or "ups_life.specs" in text}
    renamed = {path: form.sub(lambda it: f"{it[0]}_now", text) if path in files and SPEC.fullmatch(path) else text
               for path, text in texts.items()}
    specs = [{path: it for path, it in found.items() if SPEC.fullmatch(path)} for found in (texts, renamed)]
    return [f"told: a renamed definition: {it}" for it in Comparison(*map(said_by, specs)).run(True)]


def main() -> None:
    about, _, more = (__doc__ or "").partition("\n\n")
    asked = argparse.ArgumentParser(description=about, epilog=more, formatter_class=argparse.RawDescriptionHelpFormatter)
    asked.add_argument("revision", nargs="?", help="the older commit")
    asked.add_argument("--specs", action="store_true", help="compare the definitions of specs too")
    asked.add_argument("--names", help="a file of names that were given anew")
    asked.add_argument("--self-test", action="store_true", help="drop and weaken statements, and see that it is told")
    given = asked.parse_args()
    if given.self_test:
        self_test()
    if not given.revision:
        asked.error("which revision?")
    old, new = said_by(texts_at(given.revision)), said_by(texts_at(""))
    told = Comparison(old, new, *(names_in(given.names) if given.names else ())).run(given.specs)
    counts = [sum(map(len, it.values())) for it in (old.contracts, old.ghosts, *([old.definitions] if given.specs else []))]
    compared = ", ".join(f"{count:,} {what}" for count, what in zip(counts, ("contracts", "headings and ghost lines", "definitions")))
    print("".join(f"{it}\n" for it in told) + f"{compared} compared, {len(told)} told")
    sys.exit(bool(told))


if __name__ == "__main__":
    main()
