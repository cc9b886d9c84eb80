"""Makes man pages and completions of the command line from existing texts: a page in Markdown, a parser, a --help."""

from __future__ import annotations

import argparse
import dataclasses
import re
import subprocess
from collections import Counter
from collections.abc import Iterator


@dataclasses.dataclass(frozen=True)
class Option:
    """An option or an operand of a command, with its names, the name of its value, its help, and the only values that it takes."""

    names: tuple[str, ...]
    word: str
    about: str
    choices: tuple[str, ...] = ()


@dataclasses.dataclass
class Command:
    """A command, with its help, its options, its operands, and an example."""

    name: str
    about: str
    options: list[Option]
    operands: list[Option]
    example: str = ""


# the sources

def commands_of_parser(parser: argparse.ArgumentParser) -> list[Command]:
    """Returns the commands of a parser."""
    subparsers = next(it for it in parser._actions if isinstance(it, argparse._SubParsersAction))
    return [command_of(name, it) for name, it in subparsers.choices.items()]


def command_of(name: str, parser: argparse.ArgumentParser) -> Command:
    options = [option_of(it) for it in parser._actions]
    example = (parser.epilog or "").partition("example: ")[2]
    named, others = [it for it in options if it.names], [it for it in options if not it.names]
    return Command(name, parser.description or "", named, others, example)


def option_of(action: argparse.Action) -> Option:
    choices = tuple(str(it) for it in action.choices or ())
    word = action.metavar or (f"{{{','.join(choices)}}}" if choices else action.dest.upper())
    if action.nargs == 0 or not action.option_strings:
        word = "" if action.option_strings else str(action.metavar or action.dest)
    return Option(tuple(action.option_strings), word if isinstance(word, str) else " ".join(word), action.help or "", choices)


def commands_of_help(helps: dict[str, str]) -> list[Command]:
    """Returns the commands of the program, from the --help of each."""
    return [Command(name, text.partition("\n")[0], list(options_of_help(text)), []) for name, text in helps.items()]


def options_of_help(text: str) -> Iterator[Option]:
    for short, name, word, about in re.findall(r"(?m)^ +(?:(-\w), )?(--[\w-]+)(?: <(\w+)>)? +(.*)$", text):
        yield Option((short, name) if short else (name,), word, about)


# man pages

def quoted(text: str) -> str:
    """Escapes a text for troff."""
    text = text.replace("\\", "\\e").replace("-", "\\-")
    return re.sub(r"(?m)^(?=[.'])", r"\\&", text)


def head(name: str, section: str, about: str, date: str, version: str) -> str:
    """Returns the beginning of a man page."""
    title = f'.TH {name.upper()} {section} "{date}" "upsd {version}"'
    return f"{title}\n.SH NAME\n{quoted(name)} \\- {quoted(about)}\n.ad l\n.nh\n"


def page_of_markdown(text: str, start: str) -> str:
    """Converts a page in Markdown, without its title, to a man page with this start, by lowdown."""
    text = "# DESCRIPTION\n" + re.sub(r"(?m)^#(#+ .*)", lambda it: it[1].upper() if it[1][1] == " " else it[1], text.strip().partition("\n")[2])
    page = subprocess.run(["lowdown", "-Tman", "--out-no-smarty"], check=True, capture_output=True, text=True, input=text).stdout
    return "'\\\" t\n" + start + re.sub(r"\\fC(.*?)\\fR", r"\\fB\1\\fR", page)


def entry_of(option: Option) -> str:
    """Returns the entry of an option or an operand in a man page."""
    names = ", ".join(rf"\fB{quoted(it)}\fR" for it in option.names) or rf"\fI{quoted(option.word)}\fR"
    word = rf" \fI{quoted(option.word)}\fR" if option.word and option.names else ""
    return f".TP\n{names}{word}\n{quoted(option.about)}\n"


def page_of_parser(parser: argparse.ArgumentParser, start: str, program: str) -> str:
    """Returns the man page of a program, from its parser."""
    commands = commands_of_parser(parser)
    often = Counter(option for it in commands for option in it.options)
    common = [option for option, count in often.items() if 2 * count > len(commands)]
    examples, _, more = (parser.epilog or "").partition("\n\n")
    page = start + rf""".SH SYNOPSIS
\fB{program}\fR \fICOMMAND\fR [\fIOPTION\fR]... [\fIWORD\fR]...
.SH DESCRIPTION
{quoted(' '.join((parser.description or '').split()))}
"""
    page += "".join(f".PP\n{quoted(' '.join(it.split()))}\n" for it in more.split("\n\n"))
    page += ".SH COMMANDS\n" + "".join(section_of(it, common) for it in commands)
    page += ".SH OPTIONS OF EACH COMMAND\nThese hold where a command doesn't say otherwise.\n" + "".join(map(entry_of, common))
    return page + ".SH EXAMPLES\n.nf\n" + quoted("\n".join(it.strip() for it in examples.strip().split("\n"))) + "\n.fi\n"


def section_of(command: Command, common: list[Option]) -> str:
    """Returns the section of a command in a man page, with its options that are not common."""
    own = [it for it in command.options if it not in common]
    words = "".join(rf" \fI{quoted(it.word)}\fR" for it in command.operands)
    example = f".PP\nExample: \\fB{quoted(command.example)}\\fR\n" if command.example else ""
    return (rf".SS {quoted(command.name)}{words}" + f"\n{quoted(command.about)}.\n"
            + "".join(entry_of(it) for it in command.operands + own) + example)


# completions

def bash_of(program: str, commands: list[Command]) -> str:
    """Returns a completion for bash: the commands, then their options and values; otherwise files."""
    names = " ".join(it.name for it in commands)
    options = "".join(f"        {it.name}) words='{' '.join(name for option in it.options for name in option.names)}' ;;\n"
                      for it in commands)
    chosen = [(it, option) for it in commands for option in it.options if option.choices and " " not in "".join(option.choices)]
    choices = "".join(f"        '{it.name} {name}') words='{' '.join(option.choices)}' ;;\n"
                      for it, option in chosen for name in option.names)
    return f"""# bash completion for {program}

_{program}() {{
    local cur=${{COMP_WORDS[COMP_CWORD]}} words=''
    COMPREPLY=()
    case "${{COMP_WORDS[1]}} ${{COMP_WORDS[COMP_CWORD - 1]}}" in
{choices}        *) ;;
    esac
    if ((COMP_CWORD == 1)); then
        words='{names} --help'
    elif [[ $words == '' && $cur == -* ]]; then
        case "${{COMP_WORDS[1]}}" in
{options}        *) ;;
        esac
    fi
    mapfile -t COMPREPLY < <(compgen -W "$words" -- "$cur")
}}

complete -o default -F _{program} {program}
"""


def safe(text: str) -> str:
    """Escapes a text for a word of zsh in single quotes."""
    return re.sub(r"([\[\]:])", r"\\\1", text.replace("'", "'\\''"))


def spec_of(option: Option, name: str) -> str:
    """Returns an option under one of its names, as zsh's _arguments takes it."""
    if not option.word:
        return f"'*{name}[{safe(option.about)}]'"
    choices = " ".join(it.replace(" ", "\\ ") for it in option.choices)
    words = f"({choices})" if choices else "_files" if option.word == "FILE" else ""
    return f"'*{name}[{safe(option.about)}]:{safe(option.word)}:{words}'"


def zsh_of(program: str, commands: list[Command]) -> str:
    """Returns a completion for zsh: the commands, then their options, each with its help."""
    specs = {it.name: " ".join(spec_of(option, name) for option in it.options for name in option.names) for it in commands}
    cases = "".join(f"    {name}) _arguments {spec} '*:word:_files' ;;\n" for name, spec in specs.items())
    names = " ".join(f"'{it.name}:{safe(it.about)}'" for it in commands)
    return f"""#compdef {program}

local -a names
names=({names})
if ((CURRENT == 2)); then
    _describe command names
else
    local command=$words[2]
    shift words
    ((CURRENT--))
    case $command in
{cases}    esac
fi
"""
