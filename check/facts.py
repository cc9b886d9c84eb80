#!/usr/bin/env python3
"""Compares numbers that documents, help texts and the client repeat with the constants of the sources; measures documents.

    check/facts.py              from the top of the checkout
    check/facts.py --self-test  spoils each kind of fact in memory, in turn, and checks that it is found

A number in README.md, in a page of docs or in a man page is compared if a mark with the name of a fact precedes it:
`<!--=keep-->60`. It has commas between thousands, and is in the unit of the constant, or in MiB, or in seconds for
milliseconds. The mark `status` precedes the code of a status: a page that marks any has to mark all that `ups_cycle` has, and
no other. A `[default: N]` in a help text of the program is compared by its option, as is the default in the docstring that names
the option, and the man page of the program has to have each option with the same word and the same default, and no other. The
client has to have a text for each status except the one that more answers follow, and its options the defaults that
their help states, and those of the sources. Each `ups COMMAND --option` in the code of a page has to have a command of the client
and options of this command; an option without a command, in a page for users, is one of the client or of the program. The
implementation version name is the same in sources, specs and statement.

The table of formats in the guide to operating has each format of the store, by its number from 1 to that of the sources, with the
version that first wrote it: versions don't fall, none is later than that of the program, and the first has a store in rows/stores.
The changelog has a heading for each of them and for the version of the program, and no line "Upgrade:" before its first heading.
The failure statuses of each operation, which are numbers for a monitor from the start, are those of the table in the statement.

A paragraph and a cell of a table have at most PARAGRAPH and CELL letters without marks, docs (without pictures) and README.md at
most DOCS and README bytes; CONTRIBUTING.md says so with these numbers.

It prints each difference with its file and line, and then the number of marks. The status is 1 if anything differs.
"""

from __future__ import annotations

import argparse
import ast
import functools
import glob
import importlib
import os
import pathlib
import re
import shlex
import sys
import tempfile
from collections.abc import Iterator
from typing import Optional, Union
from unittest import mock

HERE = os.path.dirname(os.path.dirname(os.path.abspath(__file__)))
sys.path.insert(0, os.path.join(HERE, "packaging"))
from pages import commands_of_parser

Value = Union[int, str]
Texts = dict[str, str]  # by path
MILLISECONDS = {"short"}
PARAGRAPH, CELL = 600, 200  # letters
DOCS, README = 326_000, 8_000  # bytes
RULES = {  # how CONTRIBUTING.md says these
    "A paragraph has at most {} letters": f"{PARAGRAPH}", "a table cell {}.": f"{CELL}",
    "`docs` stays within {} kB without pictures": f"{DOCS // 1000}", "`README.md` within {} bytes": f"{README:,}",
}
# the constant of each fact: its crate, and its name in the sources
CONSTANTS = {
    "keep": ("ups_settings", "KEEP"), "offset": ("ups_settings", "OFFSET"),
    "max_workers": ("ups_peers", "MAX_WORKERS"), "workers": ("ups_peers", "WORKERS"),
    "idle": ("ups_peers", "IDLE"), "timeout": ("ups_peers", "TIMEOUT"), "delivery_timeout": ("ups_peers", "DELIVERY_TIMEOUT"),
    "waiting": ("ups_peers", "WAITING"),
    "max_compact_at": ("ups_peers", "MAX_COMPACT_AT"), "compact_at": ("ups_peers", "COMPACT_AT"),
    "version": ("ups_args", "VERSION"), "address": ("ups_args", "LOOPBACK"),
    "short": ("ups_transport", "QUICK_OPENING"), "crowd": ("ups_net", "CROWD"), "group": ("ups_ledger", "MOST"),
    "longest_pdu": ("ups_pdu", "MAX_DATA_LENGTH"), "longest_message": ("ups_assoc", "LONGEST_MESSAGE"),
    "max_depth": ("ups_dataset", "MAX_DEPTH"), "max_row_bytes": ("ups_life", "MAX_ROW_BYTES"),
    "max_history": ("ups_life", "MAX_HISTORY"), "max_peers": ("ups_life", "MAX_PEERS"),
    "peers_file": ("upsd", "MAX_SIZE"), "store_format": ("ups_store", "VERSION"),
    "min_offset": ("ups_life", "MIN_OFFSET"), "max_offset": ("ups_life", "MAX_OFFSET"),
}
OPTIONS = {"keep": "keep", "offset": "offset", "associations": "workers", "idle": "idle", "timeout": "timeout",
           "delivery-timeout": "delivery_timeout", "waiting": "waiting", "compact-at": "compact_at", "bind": "address"}  # the fact that is the default of each option
STATUS_FILE = "crates/ups_cycle/src/status.rt"
MAN_PAGE = "packaging/man/upsd.8"
CLIENT = "client/ups/"
SHARED = {"LONGEST": "longest_pdu", "VERSION": "version"}  # the constants of the client that are also the server's
PAGE = "planted.md"  # of the self-test
FOR_USERS = ("docs/use/", "README.md", PAGE)  # pages in which each option without a command is one of the program or the client
VERSION_NAMES = {  # where the implementation version name stands, and how
    "crates/ups_assoc/src/negotiating.rt": r'b"(UPSD_[^"]*)"', "crates/ups_assoc/specs/Negotiation.antt": r'codes "(UPSD_[^"]*)"',
    "docs/use/conformance.md": r"\| implementation version name \| (UPSD_\w*)",
}
FORMATS_PAGE, CHANGELOG, KINDS_FILE, STATEMENT = "docs/use/operating.md", "CHANGELOG.md", "crates/ups_log/src/kinds.rt", "docs/use/conformance.md"
FORMAT = re.compile(r"(?m)^\| (\d+) \| (\d+\.\d+\.\d+) \|")  # in the page: a format of the store, and the version that first wrote it
HEADING = re.compile(r"(?m)^## (\d+\.\d+\.\d+) ")  # in the changelog
OPERATIONS = {  # the kinds of requests that the log counts, and how the statement names each: the operation, and its type
    "Create": ("N-CREATE", ""), "Get": ("N-GET", ""), "Set": ("N-SET", ""), "Change": ("N-ACTION", "1"), "Cancel": ("N-ACTION", "2"),
    "Subscribe": ("N-ACTION", "3"), "Unsubscribe": ("N-ACTION", "4"), "Suspend": ("N-ACTION", "5"), "Action": ("N-ACTION", "6"),
    "Find": ("C-FIND", ""), "Echo": ("C-ECHO", ""),
}
TOLD = re.compile(r"(?m)^\| <!--=status-->([0-9A-F]{4}) \| \w+ \| ([^|]+) \|")  # in the statement: a status, and what has it
DOCUMENTS = (".md", ".8")
PENDING = 0xFF00
MARK = re.compile(r"<!--=(\w+)-->")
NUMBER = re.compile(r"-?[0-9A-Z]+(?:[.,][0-9]+)*")
OPTION = re.compile(r'\b(?:worded|flag)\(\s*alloc,\s*"([\w-]+)",\s*(?:"(\w+)",)?')  # in the sources: its name, and its word
ENTRY = re.compile(r"(?m)^\.It Fl -([\w-]+)(?: Ar (\w+))?\n((?:(?!\.It|\.El).*\n)*)")  # in the man page: the same, and its text
DEFAULT = re.compile(r"\[default: ([^\]]+)\]")
DOCSTRING = re.compile(r"after `--([\w-]+)`, or ([\w.,]+)[\s/]+without[\s/]+one\b")  # the option, and its default
CODE = re.compile(r"(?ms)^```\w*\n(.*?)^```|`([^`\n]+)`")  # in a page: the lines of a block, or a span
CALLED = re.compile(r"(?<![\w.=-])(?:[\w./-]*/)?ups(?:\.py)? ([a-z]+|--?[a-z]+)\b(.*)")  # of the client: the command, and its words
ENDS = re.compile(r"--|#|\d?>|[|;&]")  # how a word begins that ends the words of a command
NAMED = re.compile(r"--[a-z][\w-]*|-[a-z]\b")  # how a word begins that is an option
BREAK = re.compile(r" {4}|[|#]|\s*(?:[-*]|\d+\.) ")  # begins another paragraph, or what is none


def texts() -> Texts:
    """Returns the texts of the files that are compared."""
    crates = sorted({crate for crate, _ in CONSTANTS.values()} | {"ups_cycle"})
    forms = ["*.md", "*/README.md", "docs/**/*.md", f"{CLIENT}*.py", MAN_PAGE, *VERSION_NAMES]
    forms += [KINDS_FILE, *(f"crates/{it}/src/**/*.rt" for it in crates)]
    found = {}
    for path in sorted(path for form in forms for path in glob.glob(form, root_dir=HERE, recursive=True)):
        found[path] = pathlib.Path(os.path.join(HERE, path)).read_text(encoding="utf-8")
    return found


def place(path: str, text: str, at: int) -> str:
    return f"{path}:{text.count(chr(10), 0, at) + 1}"


def constant(files: Texts, crate: str, name: str) -> Optional[Value]:
    """Returns the value of the only constant of this name in a crate, or None."""
    found = [it[1] for path, text in files.items() if path.startswith(f"crates/{crate}/")
             for it in re.finditer(rf"\bconst {name}: [^=;]+ = ([^;]+);", text)]
    if len(found) != 1:
        return None
    return found[0].strip('"') if found[0].startswith('"') else int(found[0].replace("_", ""), 0)


def codes_of(files: Texts) -> set[int]:
    """Returns the codes of the statuses."""
    return {int(it, 16) for it in re.findall(r"Status::\w+ => 0x([0-9A-Fa-f]{4})\b", files.get(STATUS_FILE, ""))}


def spelled(name: str, value: Value, unit: str) -> str:
    """Returns a value as a page writes it in a unit."""
    if isinstance(value, str):
        return value
    told = value / 2**20 if unit == "MiB" else value / 1000 if name in MILLISECONDS and unit != "ms" else value
    return f"{told:,}" if told == value else f"{told:g}"


def marks(files: Texts) -> Iterator[tuple[str, str, int, re.Match[str]]]:
    """Yields each mark of a document: the path, the text, where the marked value begins, and the match."""
    for path, text in files.items():
        if path.endswith(DOCUMENTS):
            yield from ((path, text, it.end(), it) for it in MARK.finditer(text))


def faults_of_marks(files: Texts, values: dict[str, Value]) -> Iterator[str]:
    for path, text, end, mark in marks(files):
        name, told = mark[1], NUMBER.match(text, end)
        if name == "status":
            continue
        if name not in values or not told:
            yield f"{place(path, text, end)}: {mark[0]} names no fact, or has no number behind it: {text[end:end + 20]!r}"
            continue
        unit = re.findall(r"\A ?(\w*)", text[told.end():])[0]
        if told[0] != (wanted := spelled(name, values[name], unit)):
            yield f"{place(path, text, end)}: {name} is told as {told[0]} {unit}, and is {wanted}"
    for path, text in files.items():
        for it in re.finditer(r"<!--\s*=.*?-->", text) if path.endswith(DOCUMENTS) else ():
            if not MARK.fullmatch(it[0]):
                yield f"{place(path, text, it.start())}: {it[0]} is no mark: write <!--=NAME-->"


def faults_of_statuses(files: Texts, codes: set[int]) -> Iterator[str]:
    told: dict[str, set[int]] = {}
    for path, text, end, mark in marks(files):
        if mark[1] == "status":
            code = re.match(r"`?([0-9A-F]{4})\b", text[end:])
            if not code or int(code[1], 16) not in codes:
                yield f"{place(path, text, end)}: {text[end:end + 6]!r} is the code of no status"
            else:
                told.setdefault(path, set()).add(int(code[1], 16))
    for path, found in told.items():
        if missing := codes - found:
            yield f"{path}: no mark for the statuses {', '.join(f'{it:04X}' for it in sorted(missing))}"


def defaults_of(files: Texts) -> Iterator[tuple[str, str, str]]:
    """Yields the defaults in the help texts of the program: the place, the option and the default. A text is in the call that
    names the option, or in a variable before it."""
    for path, text in files.items():
        for it in re.finditer(r'"[^"]*\[default: ([^\]]+)\]"', text) if path.startswith("crates/ups_args/") else ():
            variable = re.search(r"let (\w+) =\s*$", text[:it.start()])
            call = r'worded\(\s*alloc,\s*"([\w-]+)",\s*"\w+",\s*'
            found = re.search(call + variable[1] + r"\b", text) if variable else re.search(call + "$", text[:it.start()])
            yield place(path, text, it.start()), found[1] if found else "", it[1]


def faults_of_help(files: Texts, values: dict[str, Value]) -> Iterator[str]:
    left = set(OPTIONS)
    for where, option, default in defaults_of(files):
        left.discard(option)
        if option not in OPTIONS and not default.startswith("none"):
            yield f"{where}: [default: {default}] is that of no option which is known"
        elif option in OPTIONS and default != str(values.get(OPTIONS[option])):
            yield f"{where}: --{option} has [default: {default}], and has {values.get(OPTIONS[option])}"
    if left:
        yield f"crates/ups_args/src: no help text has the default of {', '.join(f'--{it}' for it in sorted(left))}"


def faults_of_docstrings(files: Texts, values: dict[str, Value]) -> Iterator[str]:
    left = set(OPTIONS)
    for path, text in files.items():
        for it in DOCSTRING.finditer(text) if path.startswith("crates/ups_args/") else ():
            left.discard(it[1])
            default = str(values.get(OPTIONS.get(it[1], "")))
            if it[2].replace(",", "") != default:
                yield f"{place(path, text, it.start())}: --{it[1]} is {it[2]} without a word here, and {default}"
    if left:
        yield f"crates/ups_args/src: no docstring has the default of {', '.join(f'--{it}' for it in sorted(left))}"


def faults_of_man_page(files: Texts) -> Iterator[str]:
    """Yields the faults of the man page, which must have each option of the program once, with its word and its default."""
    sources = "".join(text for path, text in files.items() if path.startswith("crates/ups_args/"))
    words = {it[1]: it[2] for it in OPTION.finditer(sources)}
    defaults = {option: default for _, option, default in defaults_of(files)}
    page, left = files.get(MAN_PAGE, ""), set(words)
    for it in ENTRY.finditer(page):
        where, option, told = place(MAN_PAGE, page, it.start()), it[1], DEFAULT.findall(it[3])
        if option not in left:
            yield f"{where}: --{option} is {'told twice' if option in words else 'no option of the program'}"
        elif it[2] != words[option]:
            yield f"{where}: --{option} takes {it[2]}, and takes {words[option]} in the sources"
        if told != [default for name, default in defaults.items() if name == option]:
            yield f"{where}: --{option} has the defaults {told}, and in the sources {defaults.get(option)}"
        left.discard(option)
    yield from (f"{MAN_PAGE}: --{it} is not told" for it in sorted(left))


def faults_of_client(files: Texts, codes: set[int], values: dict[str, Value]) -> Iterator[str]:
    """Yields the faults of the client: of its statuses, its longest PDU, its version and its help."""
    has_statuses = False
    modules = {path: ast.walk(ast.parse(text)) for path, text in client_of(files)}
    for path, node in ((path, node) for path, nodes in modules.items() for node in nodes):
        if isinstance(node, ast.Dict):
            told = {it.value for it in node.keys if isinstance(it, ast.Constant)}
            is_of_statuses = {0x0000, 0xC300} <= told
            has_statuses |= is_of_statuses
            for code in sorted(told ^ (codes - {PENDING})) if is_of_statuses else ():
                yield f"{path}:{node.lineno}: the status {code:04X} {'is none of the server' if code in told else 'has no text'}"
        elif isinstance(node, ast.Assign) and (fact := SHARED.get(ast.unparse(node.targets[0]))):
            if ast.literal_eval(node.value) != values.get(fact):
                yield f"{path}:{node.lineno}: {ast.unparse(node)}, and {values.get(fact)} at the server"
        elif isinstance(node, ast.Call) and ast.unparse(node.func).endswith(".add_argument"):
            yield from faults_of_option(path, node, values)
    if not has_statuses:
        yield f"{CLIENT}: the client has no texts for statuses"


def faults_of_option(path: str, call: ast.Call, values: dict[str, Value]) -> Iterator[str]:
    """Yields the faults of an option of the client: its default must be the one in its help, in brackets, and that of --host
    the address of the server."""
    given = {it.arg: it.value.value for it in call.keywords if isinstance(it.value, ast.Constant)}
    told = re.search(r"\(([^()\s]+)\)$", str(given.get("help", "")))
    name, default = ast.unparse(call.args[0]).strip("'"), given.get("default")
    if default and told and told[1] != str(default):
        yield f"{path}:{call.lineno}: the help of {name} tells {told[1]}, and its default is {default}"
    if name == "--host" and default != values.get("address"):
        yield f"{path}:{call.lineno}: the default of --host is {default}, and a server listens on {values.get('address')}"


def client_of(files: Texts) -> tuple[tuple[str, str], ...]:
    """Returns the modules of the client: the path and the text of each."""
    return tuple((path, text) for path, text in sorted(files.items()) if path.startswith(CLIENT))


@functools.lru_cache(maxsize=None)
def commands_of(client: tuple[tuple[str, str], ...]) -> dict[str, set[str]]:
    """Returns the options of each command of the client, and those without a command under the empty name. Its modules are run, with
    nothing in the place of pydicom, of which its parser needs nothing."""
    stubs = {name: mock.MagicMock() for _, text in client for name in re.findall(r"from (pydicom[\w.]*) import", text)}
    with tempfile.TemporaryDirectory() as folder, mock.patch.object(sys, "path", [folder, *sys.path]):
        os.mkdir(os.path.join(folder, "ups"))
        for path, text in client:
            pathlib.Path(os.path.join(folder, "ups", os.path.basename(path))).write_text(text, encoding="utf-8")
        with mock.patch.dict(sys.modules, stubs), mock.patch.dict(os.environ, clear=True):
            parser = importlib.import_module("ups.command_line").parser()
    found = {it.name: {name for option in it.options for name in option.names} for it in commands_of_parser(parser)}
    return {**found, "": set(parser._option_string_actions)}


def calls_in(page: str) -> Iterator[tuple[int, str, list[str]]]:
    """Yields where each call of the client stands in the code of a page, its command and its options. A span that begins with an
    option has the command `-`."""
    for code in CODE.finditer(page):
        for line in re.finditer(".+", page[code.start():code.end()].strip("`")):
            at = code.start() + line.start()
            for call in CALLED.finditer(line[0]):
                yield at, call[1], list(options_in(call[2]))
            if code[2] and code[2].startswith("--"):
                yield at, "-", list(options_in(code[2]))


def options_in(words: str) -> Iterator[str]:
    """Yields the options among the words of a command."""
    try:
        split = shlex.split(words)
    except ValueError:  # a quotation mark of the page, around the call
        split = words.split()
    for word in split:
        if option := NAMED.match(word):
            yield option[0]
        elif ENDS.match(word):
            return


def faults_of_calls(files: Texts) -> Iterator[str]:
    """Yields each command or option of the client that a page names and the client lacks, and each option in a page for users that
    neither the client nor the program has."""
    commands = commands_of(client_of(files))
    sources = "".join(text for path, text in files.items() if path.startswith("crates/ups_args/"))
    known = set.union(*commands.values()) | {f"--{it[1]}" for it in OPTION.finditer(sources)} | {"--version"}
    for path, text in ((path, text) for path, text in files.items() if path.endswith(".md")):
        for at, name, options in calls_in(text):
            if name == "-":
                missing = set(options) - known if path.startswith(FOR_USERS) else set()
            elif name.startswith("-"):
                missing = {name} - commands[""]
            else:
                missing = set(options) - commands[name] if name in commands else {f"the command {name}"}
            told = "neither ups nor upsd has" if name == "-" else f"ups {name} has no" if name in commands else "ups has no"
            yield from (f"{place(path, text, at)}: {told} {it}" for it in sorted(missing))


def faults_of_version_names(files: Texts) -> Iterator[str]:
    """Yields a fault for each place that has the implementation version name not once, or another one than the first place."""
    told = {path: re.findall(form, files.get(path, "")) for path, form in VERSION_NAMES.items()}
    first = next(iter(told.values()))
    for path, found in told.items():
        if len(found) != 1 or found != first:
            yield f"{path}: the implementation version name is {found}, and {first} in {next(iter(told))}"


def faults_of_formats(files: Texts, values: dict[str, Value]) -> Iterator[str]:
    """Yields the faults of the table of formats, and of the headings of the changelog."""
    told, changes = FORMAT.findall(files.get(FORMATS_PAGE, "")), files.get(CHANGELOG, "")
    wanted = [str(it + 1) for it in range(int(values.get("store_format", 0)))]
    if [number for number, _ in told] != wanted:
        yield f"{FORMATS_PAGE}: the formats of the store are {[number for number, _ in told]}, and {wanted} in the sources"
    versions = [*(it for _, it in told), str(values.get("version"))]
    parts = [[int(part) if part.isdigit() else -1 for part in it.split(".")] for it in versions]
    if parts != sorted(parts):
        yield f"{FORMATS_PAGE}: the versions that first wrote a format are {versions[:-1]}, and the program's is {versions[-1]}"
    if told and not os.path.isdir(os.path.join(HERE, "rows/stores", told[0][1])):
        yield f"{FORMATS_PAGE}: rows/stores has no store of version {told[0][1]}"
    headed = HEADING.findall(changes)
    yield from (f"{CHANGELOG}: no heading for the version {it}" for it in sorted({*versions} - {*headed}))
    first = HEADING.search(changes)
    if "Upgrade:" in HEADING.split(changes)[0].partition("a line \"Upgrade:\"")[2] or not first:
        yield f"{CHANGELOG}: a line \"Upgrade:\" stands before the first version"


def has_status(named: str, operation: str, kind: str) -> bool:
    """Returns whether an operation of a type has a status, by the cell of the statement that names what has it: all, all but some, or
    some, each perhaps with its types."""
    if named.startswith("all"):
        return operation not in named.partition(" but ")[2].split(", ")
    for it in re.findall(r"[NC]-[A-Z]+(?: \d(?: to \d)?(?:, \d\b)*)?", named):
        word, _, types = it.partition(" ")
        first, _, last = types.partition(" to ")
        among = [str(it) for it in range(int(first), int(last) + 1)] if last else types.split(", ")
        if word == operation and (not types or kind in among):
            return True
    return False


def faults_of_kinds(files: Texts) -> Iterator[str]:
    """Yields each operation whose failure statuses, as the log counts them, are not those of the statement."""
    told = [(int(code, 16), named.strip()) for code, named in TOLD.findall(files.get(STATEMENT, ""))]
    failures = [(code, named) for code, named in told if 1 < code < 0xB000 or 0xBFFF < code < 0xFE00]
    for name, (operation, kind) in OPERATIONS.items():
        found = re.search(rf"RequestKind::{name} => &\[([^\]]*)\]", files.get(KINDS_FILE, ""))
        counted = {int(it, 16) for it in re.findall(r"0x(\w{4})", found[1])} if found else set()
        wanted = {code for code, named in failures if has_status(named, operation, kind)}
        for code in sorted(counted ^ wanted):
            yield f"{KINDS_FILE}: {name} {'has' if code in counted else 'lacks'} the status {code:04X}, and {STATEMENT} says otherwise"


def paragraphs_in(text: str) -> Iterator[tuple[int, str]]:
    """Yields the paragraphs of a page: the line of each, and its text without marks. Code is none, an item of a list is one."""
    lines: list[str] = []
    at, is_code = 0, False
    for number, line in enumerate([*MARK.sub("", text).split("\n"), ""], 1):
        is_fence = line.startswith("```")
        if lines and (not line or is_fence or BREAK.match(line)):
            yield at, " ".join(lines)
            lines = []
        is_code ^= is_fence
        if line and not (is_code or is_fence or line.startswith(("    ", "|", "#"))):
            at, lines = at if lines else number, [*lines, line.strip()]


def faults_of_layout(files: Texts) -> Iterator[str]:
    """Yields the faults of documents that are too long: paragraphs, cells of tables, the pages in all."""
    pages = {path: text for path, text in files.items() if path.endswith(".md")}
    for path, text in pages.items():
        for line, paragraph in paragraphs_in(text):
            if len(paragraph) > PARAGRAPH:
                yield f"{path}:{line}: a paragraph of {len(paragraph)} letters, and at most {PARAGRAPH}"
        for number, row in enumerate(MARK.sub("", text).split("\n"), 1):
            longest = max((len(it.strip()) for it in re.split(r"(?<!\\)\|", row)), default=0) if row.startswith("|") else 0
            if longest > CELL:
                yield f"{path}:{number}: a cell of {longest} letters, and at most {CELL}"
    sizes = {"docs": sum(len(it.encode()) for path, it in pages.items() if path.startswith("docs/") and "/pictures/" not in path),
             "README.md": len(pages.get("README.md", "").encode())}
    yield from (f"{path}: {sizes[path]:,} bytes, and at most {most:,}" for path, most in (("docs", DOCS), ("README.md", README))
                if sizes[path] > most)
    yield from (f"CONTRIBUTING.md: it does not say {form.format(number)!r}" for form, number in RULES.items()
                if form.format(number) not in pages.get("CONTRIBUTING.md", ""))


def faults(files: Texts) -> set[str]:
    """Returns all differences."""
    values = {name: value for name, it in CONSTANTS.items() if (value := constant(files, *it)) is not None}
    found = {f"crates/{it[0]}/src: no constant {it[1]}, or more than one" for name, it in CONSTANTS.items() if name not in values}
    codes = codes_of(files)
    found |= {*faults_of_marks(files, values), *faults_of_statuses(files, codes), *faults_of_help(files, values)}
    found |= {*faults_of_man_page(files), *faults_of_client(files, codes, values), *faults_of_version_names(files)}
    found |= {*faults_of_formats(files, values), *faults_of_kinds(files)}
    found |= {*faults_of_docstrings(files, values), *faults_of_layout(files), *faults_of_calls(files)}
    return found if codes else found | {f"{STATUS_FILE}: no codes"}


# the self-test

def page_of(values: dict[str, Value], codes: set[int]) -> str:
    """Returns a page that marks each fact."""
    lines = [f"- {name}: <!--={name}-->{spelled(name, value, '')}." for name, value in values.items()]
    lines += [f"| <!--=status-->{it:04X} | a status |" for it in sorted(codes)]
    in_mib = spelled("longest_message", values["longest_message"], "MiB")
    lines.append(f"\nas <!--=short-->{values['short']} ms, <!--=longest_message-->{in_mib} MiB")
    lines += ["", "`ups find --state READY -k 'A=--B' | grep --color R`, `--worklists`, `--keep 60`, `ups --help`", ""]
    lines += ["```sh", 'UPS_AE=A client/bin/ups work --steps 0 -- sh -c "x --y"  # --z', "```"]
    lines += ["", "x" * PARAGRAPH, "", f"- {'y' * (PARAGRAPH - 2)}", "", f"| {'z' * CELL} |", "", "```", "w" * (PARAGRAPH + 1), "```"]
    return "\n".join(lines) + "\n"


IN_PAGE = {  # what is spoiled in it: a pattern and its replacement
    "an amount in MiB": (r"\d MiB", "77 MiB"), "an amount in ms": (r"\d ms", "7 ms"), "a name": ("<!--=keep-->", "<!--=kept-->"),
    "the form of a mark": ("<!--=keep-->", "<!-- =keep -->"), "what is behind a mark": ("<!--=keep-->", "<!--=keep--> about "),
    "a status that is not marked": (".*C311.*\n", ""), "a marked status": ("C311", "C312"),
    "a paragraph": ("xx\n", "xxx\n"), "a paragraph of two lines": ("xx\n", "x\nx\n"), "an item of a list": ("yy\n", "yyy\n"),
    "a cell": ("zz ", "zzz "), "a command of the client": ("ups find", "ups seek"), "its option": ("--state", "--station-name"),
    "a short option": ("find --state", "find -s"), "a command in a block": ("ups work", "ups works"),
    "an option in a block": ("--steps 0", "--step 0"), "an option alone": ("--worklists", "--worklist-labels"),
    "an option of the program": ("--keep 60", "--keeps 60"), "an option without a command": ("ups --help", "ups --helped"),
}
IN_CLIENT = {
    "a status": ("0xC311:", "0xC312:"), "a default": (r'("--host", default="[0-9.]*)"', r'\g<1>1"'),
    "a help text": (r"port \(\d+\)", "port (1)"), "the longest PDU": (r"LONGEST = [\d_]+", "LONGEST = 1"),
    "the version": (r'VERSION = "[\d.]+"', 'VERSION = "9.9"'),
    "an option that pages name": (r'"--claimed", ', '"--held", '), "a command that pages name": (r'add\("claim"', 'add("hold"'),
}
IN_MAN_PAGE = {
    "a default": (r"\[default: 16\]", "[default: 4]"), "a default that is none": (r"(It Fl -verbose\n)", r"\1[default: 1]\n"),
    "a missing default": (r"\[default: 60\]\n", ""), "the name of a word": ("It Fl -idle Ar SECONDS\n", "It Fl -idle Ar N\n"),
    "a missing option": (r"\.It Fl -hex\n", ""), "an option more": (r"\.It Fl -hex\n", ".It Fl -hexed\n.It Fl -hex\n"),
    "an option twice": (r"\.It Fl -hex\n", ".It Fl -hex\n.It Fl -hex\n"), "a marked number": ("-->1,022", "-->1,023"),
}


def other(found: re.Match[str]) -> str:
    """Returns the declaration of a constant with another value."""
    number = found[2].replace("_", "")
    return found[1] + (str(int(number) + 1) if number.lstrip("-").isdigit() else '"9.9"')


def spoiled(files: Texts) -> Iterator[tuple[str, str, str]]:
    """Yields each spoiled fact: what is spoiled, the file, and its spoiled text."""
    for name, (crate, constant_name) in CONSTANTS.items():
        form = rf'(const {constant_name}: [^=;]+ = )([-\w]+|"[^"]*")'
        for path in [path for path in files if path.startswith(f"crates/{crate}/") and re.search(form, files[path])]:
            yield f"the constant of {name}", path, re.sub(form, other, files[path])
        yield f"a mark of {name}", PAGE, files[PAGE].replace(f"<!--={name}-->", f"<!--={name}-->7", 1)
    yield "a status of the server", STATUS_FILE, files[STATUS_FILE].replace("=> 0xC311", "=> 0xC312")
    for path, text in files.items():
        for it in re.finditer(r"\[default: [^n\]][^\]]*\]", text) if path.startswith("crates/ups_args/") else ():
            yield f"{it[0]} of {path}", path, text[:it.start()] + "[default: 9]" + text[it.end():]
        for name, change in IN_CLIENT.items() if path.startswith(CLIENT) else ():
            if re.search(change[0], text):
                yield f"{name} of the client", path, re.sub(*change, text, count=1)
        for name, change in IN_MAN_PAGE.items() if path == MAN_PAGE else ():
            yield f"{name} of the man page", path, re.sub(*change, text, count=1)
    for what, path, change in (("a format", FORMATS_PAGE, (r"(?m)^\| 2 \| 0", "| 4 | 0")), ("the version of a format", FORMATS_PAGE, (r"(?m)^\| 2 \| \d", "| 2 | 9")),
                               ("a heading", CHANGELOG, (HEADING.pattern, "## ")), ("the first version", FORMATS_PAGE, (r"(?m)^\| 1 \| 0\.2", "| 1 | 0.1")),
                               ("an upgrade", CHANGELOG, (r"\n## ", "\n- Upgrade: now.\n\n## ")), ("a status of an operation", KINDS_FILE, ("0xC309", "0xC308")),
                               ("what has a status", STATEMENT, (r"\| N-CREATE, N-SET \|", "| N-CREATE |"))):
        yield f"{what} of {path}", path, re.sub(*change, files[path], count=1)
    for path in VERSION_NAMES:
        yield f"the version name of {path}", path, re.sub(VERSION_NAMES[path], lambda it: it[0].replace(it[1], "UPSD_9"), files[path])
        yield f"the missing version name of {path}", path, re.sub(VERSION_NAMES[path], "", files[path])
    for path, text in files.items():
        for it in DOCSTRING.finditer(text) if path.startswith("crates/ups_args/") else ():
            yield f"the docstring of --{it[1]}", path, text[:it.start(2)] + "9" + text[it.end(2):]
            yield f"the missing docstring of --{it[1]}", path, text[:it.start(2)] + text[it.end(2):]
    for path, most in (("docs/DECISIONS.md", DOCS), ("README.md", README)):
        yield f"the size of {path}", path, files[path] + "\n\n- x" * (most // 5)
    for form, number in RULES.items():
        yield form, "CONTRIBUTING.md", files["CONTRIBUTING.md"].replace(form.format(number), form.format("7"))
    for name, change in IN_PAGE.items():
        yield f"{name} of a page", PAGE, re.sub(*change, files[PAGE])


def self_test(files: Texts) -> None:
    """Prints which spoiled facts are not found, and ends the program."""
    values = {name: value for name, it in CONSTANTS.items() if (value := constant(files, *it)) is not None}
    planted = {**files, PAGE: page_of(values, codes_of(files))}
    before, count = faults(planted), 0
    missed = sorted(it for it in before if it.startswith(PAGE))
    for name, path, text in spoiled(planted):
        count += 1
        missed += [] if faults({**planted, path: text}) - before else [f"not found: {name}"]
    print("\n".join(missed) or f"{count} spoiled facts, each found")
    sys.exit(bool(missed))


def main() -> None:
    about, _, more = (__doc__ or "").partition("\n\n")
    asked = argparse.ArgumentParser(description=about, epilog=more, formatter_class=argparse.RawDescriptionHelpFormatter)
    asked.add_argument("--self-test", action="store_true", help="spoil each kind of fact, and see that it is found")
    files = texts()
    if asked.parse_args().self_test:
        self_test(files)
    found = sorted(faults(files))
    print("".join(f"{it}\n" for it in found) + f"{sum(1 for _ in marks(files))} marks, {len(found)} faults")
    sys.exit(bool(found))


if __name__ == "__main__":
    main()
