#!/usr/bin/env python3
"""Checks that the rooms of crates.txt are layers: each crate uses only crates of its own room and of the rooms before it.

    check/rooms.py              reads crates.txt, from the top of the checkout, docs/work/architecture.md and the names of crates
    check/rooms.py --self-test  moves crates and rooms, and checks that it is found

A room is a comment `# NAME: what it has`, and the crates behind it. Each room stands there once, each crate of crates/ in one
room, behind all crates that it uses; and the page has a section for each room, in the same order, which names its crates.

It prints what is wrong, and then how many rooms and crates there are. The status is 1 if anything is wrong.
"""

from __future__ import annotations

import argparse
import os
import re
import sys

HERE = os.path.dirname(os.path.dirname(os.path.abspath(__file__)))
ROOM = re.compile(r"# ([a-z ]+): \S.*")
CRATE = re.compile(r"(\w+):((?: \w+)*)")
SECTION = re.compile(r"### ([a-z ]+): .*")

Crates = dict[str, list[str]]  # what each crate uses


def rooms_in(text: str) -> tuple[list[tuple[str, Crates]], list[str]]:
    """Returns the rooms in their order, each with its crates, and what is wrong with a line."""
    rooms: list[tuple[str, Crates]] = []
    wrong = []
    for line in text.splitlines()[1:]:
        if found := ROOM.fullmatch(line):
            rooms.append((found[1], {}))
        elif (found := CRATE.fullmatch(line)) and rooms:
            rooms[-1][1][found[1]] = found[2].split()
        else:
            wrong.append(f"crates.txt: neither a room nor a crate of one: {line!r}")
    return rooms, wrong


def faults_of(text: str, page: str, folders: list[str]) -> list[str]:
    """Returns what is wrong with the rooms, by the text of crates.txt, the page and the folders of the crates."""
    rooms, wrong = rooms_in(text)
    names = [name for name, _ in rooms]
    crates = [crate for _, some in rooms for crate in some]
    wrong += [f"the room {name} stands twice" for name in sorted({it for it in names if names.count(it) > 1})]
    wrong += [f"{crate} is in no room" for crate in folders if crate not in crates]
    wrong += [f"{crate} is in two rooms" for crate in sorted({it for it in crates if crates.count(it) > 1})]
    place = {crate: at for at, (_, some) in enumerate(rooms) for crate in some}
    seen: set[str] = set()
    for at, (name, some) in enumerate(rooms):
        for crate, uses in some.items():
            for used in uses:
                if place.get(used, -1) > at:
                    wrong.append(f"{crate} of {name} uses {used} of {names[place[used]]}, a room above")
                elif used in place and used not in seen:
                    wrong.append(f"{crate} stands before {used}, which it uses")
            seen.add(crate)
    return wrong + faults_of_page(rooms, page)


def faults_of_page(rooms: list[tuple[str, Crates]], page: str) -> list[str]:
    """Returns where the page has other rooms, or other crates in them."""
    sections: dict[str, str] = {}
    name = ""
    for line in page.splitlines():
        if found := SECTION.fullmatch(line):
            name = found[1]
        elif line.startswith("## "):
            name = ""
        if name:
            sections[name] = sections.get(name, "") + line + "\n"
    wrong = []
    if list(sections) != [name for name, _ in rooms]:
        wrong.append(f"architecture.md has the rooms {', '.join(sections)}")
    for name, some in rooms:
        section = sections.get(name, "")
        named = [re.sub(r"\w+(?=_tests$)", "*", crate) if "`*_tests`" in section else crate for crate in some]
        wrong += [f"architecture.md doesn't name {crate} in {name}" for crate in named if f"`{crate}`" not in section]
    return wrong


def self_test(text: str, page: str, folders: list[str]) -> list[str]:
    """Returns the spoiled texts in which nothing is found."""
    lines = text.splitlines()
    heads = [at for at, line in enumerate(lines) if at and ROOM.fullmatch(line)]
    spoiled = {
        "a crate without a room": "\n".join([*lines[:-1]]),
        "a room twice": "\n".join([*lines, lines[heads[0]]]),
        "a crate twice": "\n".join([*lines, lines[heads[0] + 1]]),
        "a line that is neither": "\n".join([*lines, "# a remark"]),
        "an edge upwards": text.replace("\nups_pdu:", "\nups_pdu: upsd", 1),
        "two crates the wrong way round": "\n".join([*lines[:heads[1] + 1], *reversed(lines[heads[1] + 1:heads[2]]), *lines[heads[2]:]]),
        "two rooms the wrong way round": "\n".join([*lines[:heads[1]], *lines[heads[2]:heads[3]], *lines[heads[1]:heads[2]], *lines[heads[3]:]]),
    }
    missed = [name for name, it in spoiled.items() if not faults_of(it + "\n", page, folders)]
    pages = {"a page without a room": page.replace("### tables: ", "### ", 1), "a page without a crate": page.replace("`ups_index`", "it")}
    return missed + [name for name, it in pages.items() if not faults_of(text, it, folders)]


def read(path: str) -> str:
    with open(os.path.join(HERE, path), encoding="utf-8") as opened:
        return opened.read()


def main() -> None:
    about, _, more = (__doc__ or "").partition("\n\n")
    asked = argparse.ArgumentParser(description=about, epilog=more, formatter_class=argparse.RawDescriptionHelpFormatter)
    asked.add_argument("--self-test", action="store_true", help="spoil the rooms, and see that it is found")
    text, page, folders = read("crates.txt"), read("docs/work/architecture.md"), sorted(os.listdir(os.path.join(HERE, "crates")))
    if asked.parse_args().self_test:
        missed = self_test(text, page, folders)
        print("\n".join(f"not found: {it}" for it in missed) or "9 spoiled rooms, each found")
        sys.exit(bool(missed))
    wrong = faults_of(text, page, folders)
    rooms, _ = rooms_in(text)
    for it in wrong:
        print(it)
    print(f"{len(rooms)} rooms, {sum(len(some) for _, some in rooms)} crates, {len(wrong)} wrong")
    sys.exit(bool(wrong))


if __name__ == "__main__":
    main()
