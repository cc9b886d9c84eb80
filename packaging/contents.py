#!/usr/bin/python3
"""Makes the files of the packages where debhelper takes them, debian/PACKAGE: debian/rules calls it.

    packaging/contents.py ups
    packaging/contents.py upsd --program PATH [--commit COMMIT]
    packaging/contents.py provenance [--commit COMMIT]

These are the files that are made of others: programs, modules, man pages, completions, pages; debian/PACKAGE.install names those that
are laid as they are. SOURCE_DATE_EPOCH dates them. With a commit, `upsd --version` tells it, and that all is proved. `provenance`
writes what the package tells of its program, which debhelper has stripped by then.
"""

from __future__ import annotations

import argparse
import glob
import hashlib
import importlib
import os
import pathlib
import re
import runpy
import subprocess
import sys
import time
from typing import Optional

import pages

sys.dont_write_bytecode = True  # beside the sources
HERE = os.path.dirname(os.path.dirname(os.path.abspath(__file__)))
UNPROVED, PROVED = "commit " + 40 * "0" + ", not proved", "commit {}, all proved"  # what `upsd --version` tells of itself
DOC = "usr/share/doc"
MODULES, PLACE = "/usr/share/ups", "os.path.dirname(os.path.dirname(os.path.realpath(__file__)))"  # of the client: there, and in its sources
RECIPES = "examples/README.md"
EXECUTABLE = 0o755
Files = dict[str, tuple[bytes, int]]  # content and mode, by the path in the package


def read(path: str) -> str:
    return pathlib.Path(os.path.join(HERE, path)).read_text(encoding="utf-8")


def version() -> str:
    found = re.search(r'const VERSION: &str = "([^"]+)"', read("crates/ups_args/src/program.rt"))
    assert found
    return found[1]


def run(*words: str, given: Optional[str] = None) -> str:
    return subprocess.run(words, check=True, capture_output=True, text=True, input=given, cwd=HERE).stdout


# the server

def stamped(server: bytes, commit: str) -> bytes:
    """Returns a program that tells of what commit it is, if it was proved."""
    if server.count(UNPROVED.encode()) != 1:
        sys.exit(f"packaging: the program has to have {UNPROVED!r} once, and has it {server.count(UNPROVED.encode())} times")
    return server.replace(UNPROVED.encode(), PROVED.format(commit).encode()) if commit else server


def provenance(server: bytes, commit: str, date: int) -> str:
    """Returns where the program of the package comes from."""
    lines = {"proved": "no: nothing shows of what it was built", "version": version()}
    if commit:
        kit, _, logic = run("rt", "version").strip().partition(" logic ")
        lines |= {"proved": "all of it, by rt run", "commit": commit, "kit": kit, "logic": logic}
    lines |= {"sha256 of /usr/bin/upsd": hashlib.sha256(server).hexdigest(), "date": time.strftime("%Y-%m-%d", time.gmtime(date))}
    return "".join(f"{name}: {value}\n" for name, value in lines.items())


def programs(program: str, commit: str) -> Files:
    """Returns the server, and what runs it in a cluster."""
    with open(program, "rb") as opened:
        server = stamped(opened.read(), commit)
    return {"usr/bin/upsd": (server, EXECUTABLE), "usr/lib/ocf/resource.d/upsd/upsd": (read("packaging/cluster/agent").encode(), EXECUTABLE)}


def manual_of_server(day: str) -> Files:
    page = re.sub(r"<!--=\w+-->", "", read("packaging/man/upsd.8").replace("@DATE@", day).replace("@VERSION@", version()))
    scripts = without_dead_links(re.sub(r"<!--.*?-->", "", read("docs/use/script.md")), "docs/use", [])
    return {**manual("upsd", "8dicom", page),
            **manual("upsd-script", "5", pages.page_of_markdown(scripts, pages.head("upsd-script", "5", "scripts for upsd script", day, version())))}


def without_dead_links(text: str, folder: str, pages_there: list[str]) -> str:
    """Returns a page in which a link to a file that is not installed is only its text; such a picture is left out."""
    def kept(link: re.Match[str]) -> str:
        target = os.path.normpath(os.path.join(folder, link["target"].partition("#")[0]))
        if link["target"].startswith(("#", "http://", "https://", "mailto:")) or target in pages_there:
            return link[0]
        return "" if link["mark"] else link["text"]

    return re.sub(r"(?P<mark>!?)\[(?P<text>[^\]]*)\]\((?P<target>[^)\s]+)\)", kept, text)


def documents() -> Files:
    """Returns the pages of docs/use and docs/rules, and the recipes, without the marks of facts and with links as the package has them."""
    paths = sorted([*glob.glob("docs/use/*.md", root_dir=HERE), *glob.glob("docs/rules/*.md", root_dir=HERE), RECIPES])
    found = {}
    for path in paths:
        text = without_dead_links(re.sub(r"<!--=\w+-->", "", read(path)), os.path.dirname(path), paths)
        text = text.replace("](../docs/", "](../").replace("](../../examples/", "](../examples/")
        found[f"{DOC}/upsd/{path.removeprefix('docs/')}"] = text.encode(), 0o644
    return found


def files_of_server(program: str, commit: str, day: str) -> Files:
    """Returns all files of the package of the server."""
    if version() not in (said := run(program, "--version")):
        sys.exit(f"packaging: the program is {said.strip()}, and the sources are {version()}")
    names = re.findall(r"(?m)^  (\w+) +(?!Print| )", run(program, "--help").partition("Commands:")[2].partition("Options:")[0])
    backup = runpy.run_path(os.path.join(HERE, "packaging/upsd-backup"))["parser"]()
    return {**programs(program, commit), **manual_of_server(day), **documents(),
            **completions("upsd", pages.commands_of_help({it: run(program, it, "--help") for it in names})),
            **manual_of_parser(backup, "8", "backups of the store of upsd", day), **completions("upsd-backup", pages.commands_of_parser(backup))}


# the client

def files_of_client(day: str) -> Files:
    """Returns all files of the package of the client: its command, and its modules and pages in a folder of their own."""
    sys.path.insert(0, os.path.join(HERE, "client"))
    parser = importlib.import_module("ups.command_line").parser()
    command = read("client/bin/ups").split("\n", 1)[1]
    if command.count(PLACE) != 1:
        sys.exit(f"packaging: client/bin/ups has to have {PLACE} once")
    found: Files = {"usr/bin/ups": (f"#!/usr/bin/python3\n{command.replace(PLACE, repr(MODULES))}".encode(), EXECUTABLE)}
    for path in [it for form in ("ups/*.py", "ups/page/*") for it in glob.glob(form, root_dir=os.path.join(HERE, "client"))]:
        found[f"{MODULES}/{path}".lstrip("/")] = read(f"client/{path}").encode(), 0o644
    return {**found, **manual_of_parser(parser, "1", "client of a DICOM Unified Procedure Step manager", day),
            **completions("ups", pages.commands_of_parser(parser))}


# both

def manual(name: str, section: str, page: str) -> Files:
    """Returns a man page, which says where to read on."""
    more = "" if name == "upsd" else ".SH SEE ALSO\n.BR upsd (8)\n"
    return {f"usr/share/man/man{section[0]}/{name}.{section}": ((page + more).encode(), 0o644)}


def manual_of_parser(parser: argparse.ArgumentParser, section: str, about: str, day: str) -> Files:
    return manual(parser.prog, section, pages.page_of_parser(parser, pages.head(parser.prog, section, about, day, version()), parser.prog))


def completions(name: str, commands: list[pages.Command]) -> Files:
    """Returns the completions of a program."""
    return {f"usr/share/bash-completion/completions/{name}": (pages.bash_of(name, commands).encode(), 0o644),
            f"usr/share/zsh/vendor-completions/_{name}": (pages.zsh_of(name, commands).encode(), 0o644)}


def write(files: Files, folder: str) -> None:
    """Writes files below a folder, each with its mode."""
    for path, (content, mode) in files.items():
        target = os.path.join(HERE, folder, path)
        os.makedirs(os.path.dirname(target), exist_ok=True)
        pathlib.Path(target).write_bytes(content)
        os.chmod(target, mode)


def main() -> None:
    about, _, more = (__doc__ or "").partition("\n\n")
    asked = argparse.ArgumentParser(description=about, epilog=more, formatter_class=argparse.RawDescriptionHelpFormatter)
    asked.add_argument("what", choices=["ups", "upsd", "provenance"])
    asked.add_argument("--program", metavar="PATH", help="the program")
    asked.add_argument("--commit", default="", help="that of which the program was proved")
    given = asked.parse_args()
    date = int(os.environ["SOURCE_DATE_EPOCH"])
    at = time.gmtime(date)
    day = f"{time.strftime('%B', at)} {at.tm_mday}, {at.tm_year}"
    if given.what == "ups":
        write(files_of_client(day), "debian/ups")
    elif given.what == "upsd":
        write(files_of_server(given.program, given.commit, day), "debian/upsd")
    else:
        with open(os.path.join(HERE, "debian/upsd/usr/bin/upsd"), "rb") as opened:
            write({f"{DOC}/upsd/PROVED": (provenance(opened.read(), given.commit, date).encode(), 0o644)}, "debian/upsd")


if __name__ == "__main__":
    main()
