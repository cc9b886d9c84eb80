"""Talks to a DICOM UPS manager: by hand, for a monitor, or as a board that shows its worklist.

    ups echo
    ups create 1.2.3.1 --label "CT READ" --patient-id P1 --patient-name DOE^JANE
    ups find --state SCHEDULED
    ups find --station R1 --station R2 --json
    ups claim 1.2.3.1 --transaction 2.25.7
    ups set 1.2.3.1 --transaction 2.25.7 -k "ProcedureStepLabel=CT READ 2"
    ups finish 1.2.3.1 --transaction 2.25.7
    ups get 1.2.3.1
    ups subscribe --ae WATCH1 --receiver WATCH1
    ups watch --ae WATCH1 --listen 11113
    ups check step.dcm
    ups export --state SCHEDULED > steps.json
    ups import steps.json
    ups work --worklist READS -- ./reprocess.sh {}
    ups rescue 1.2.3.1 --canceled
    ups status
    ups health
    ups verify --ae MONITOR --listen 11115
    ups audit /var/log/upsd.log
    ups explain --at 20412 --state SCHEDULED --station R1
    ups board --port 8080 --ae BOARD --listen 11114

Each command has its own --help with an example. A key or an attribute (-k) is a keyword, or the tag, with `=` and a value; one
within a sequence has the way to it in front, as DCMTK writes it: (0040,4025)[0].(0008,0100)=R1, where [0] is the first item.
Where a text isn't ASCII, the data set says that it is UTF-8 (ISO_IR 192), unless -k SpecificCharacterSet= says another set.

The server is on 127.0.0.1, port 11112, and is called UPSD, unless --host, --port and --called say otherwise (of a board --port is
the port of its page, and --server-port that of the server); this side is called CLIENT, or what --ae says. The environment gives
other defaults: UPS_SERVER=HOST:PORT, UPS_CALLED and UPS_AE. With any of the options --tls.. connections are by TLS, also those that
a listener takes. The address of a board has a token, a new one at each start or UPS_TOKEN; without it the board answers 403. It
needs Python 3.9 and pydicom (apt-get install -y python3-pydicom: then /usr/bin/python3 has it).

The exit status is 0 where the server answers with success or a warning, 1 where it answers with a failure, and 2 where there is
no answer, or where what is asked can't be sent. That of `import` and `export` is 1 if a step was refused or could not be
written, that of `work` 1 if a step was canceled, and 3 if there was none to do; `health`, `status --nagios`
and `verify --nagios` have those of a monitoring plugin. It is 130 at an interrupt, and 141 where nobody reads the output any more.
"""

from __future__ import annotations

import argparse
import math
import sys
import time
from typing import Any, Optional

from ups import NAME, UNKNOWN, VERSION, is_plugin
from ups.audit import audit
from ups.board import board
from ups.changes import NEW, cancel, claim, create, import_steps, set_attributes
from ups.explaining import explain
from ups.finishing import finish
from ups.judge import check
from ups.monitoring import server_health, server_status
from ups.options import (
    add_attributes, add_keys, add_listening, add_performer, add_receiver, add_step, add_store, add_transaction, common, of_environment)
from ups.performer import work
from ups.questions import echo, export, find, get
from ups.rescue import rescue
from ups.stores import STORE
from ups.subscriptions import subscribe, suspend, unsubscribe
from ups.terms import PRIORITIES, PULL, PUSH, VERIFICATION, WATCH
from ups.verifying import verify
from ups.watching import announce, watch
from ups.words import (
    count_word, duration_word, limits_word, minutes_word, origin_word, own_port_word, peer_word, seconds_word, status_word)

STARTS = ("COLD START", "WARM START")  # how lists are after a restart of a server (PS3.4 table CC.2.4-1)


class Commands:
    """The parser, to which each command is added with its help."""

    def __init__(self) -> None:
        about, _, more = (__doc__ or "").partition("\n\n")
        self.whole = argparse.ArgumentParser(prog=NAME, description=about, epilog=more,
                                             formatter_class=argparse.RawDescriptionHelpFormatter)
        self.whole.add_argument("--version", action="version", version=f"{NAME} {VERSION}")
        self.commands = self.whole.add_subparsers(required=True, metavar="COMMAND")
        self.defaults = of_environment()

    def add(self, name: str, run: Any, what: str, example: str, over: Optional[str] = None) -> argparse.ArgumentParser:
        """Adds a command. It runs over an association for this SOP class, or opens its own, if it needs any."""
        words = common(name == "board")
        added = self.commands.add_parser(name, parents=[words], help=what, description=what, epilog=f"example: ups {example}")
        added.set_defaults(run=run, over=over, json=False, nagios=False, prometheus=False, health=None, status=0, delay=0, **self.defaults)
        return added


def add_questions(to: Commands) -> None:
    """Adds the commands that change nothing."""
    to.add("echo", echo, "asks whether the server is there (C-ECHO)", "echo --port 11112", over=VERIFICATION)
    it = add_keys(to.add("find", find, "lists the steps that match (C-FIND)", "find --state SCHEDULED --label 'CT*'", over=PULL))
    it.add_argument("--limit", type=count_word, metavar="N", help="lists N of them at most, and says how many there are")
    it.add_argument("--json", action="store_true", help="an array of DICOM JSON; how many there are goes to standard error")
    add_keys(to.add("export", export, "prints all attributes of the steps that match as DICOM JSON, which import reads",
                    "export --state SCHEDULED > steps.json"))
    it = add_step(to.add("get", get, "shows a step (N-GET)", "get 1.2.3.1", over=PULL))
    it.add_argument("--json", action="store_true",
                    help="an array of DICOM JSON with one data set; the status goes to standard error")
    it = to.add("check", check, "tells what the server would answer to an N-CREATE, without a server", "check step.dcm")
    it.add_argument("file", metavar="FILE", help="a DICOM file, or JSON as find --json prints it (- for standard input)")
    it.add_argument("--set", action="store_true", help="judges it as an N-SET instead, whatever the state of the step")
    it.add_argument("--final", choices=["COMPLETED", "CANCELED"],
                    help="judges whether a step has what this final state asks for instead")
    it = to.add("audit", audit, "prints a server's audit lines, refusals, starts and stops as audit messages (PS3.15 A.5), a line each",
                "audit /var/log/upsd.log")
    it.add_argument("file", metavar="FILE", help="the log, with its times, or what journalctl -o short-iso prints (- for standard input)")
    it.add_argument("--with-patients", action="store_true",
                    help="names the patient and the study of each step, by a copy of the server's store, which may not leave the site")
    add_store(it)


def add_status(to: Commands) -> None:
    it = to.add("status", server_status, "counts steps, and measures a look-up; for a monitor too",
                "status --nagios --warning 0.5,86400 --critical 2", over=PULL)
    it.add_argument("--offset", type=minutes_word, metavar="MINUTES",
                    help="the server's --offset, for times that say none (that of this machine)")
    form = it.add_mutually_exclusive_group()
    form.add_argument("--nagios", action="store_true",
                      help="a line with performance data; exit status 0 OK, 1 WARNING, 2 CRITICAL, 3 UNKNOWN")
    form.add_argument("--prometheus", action="store_true", help="the text format of Prometheus, for a textfile collector")
    it.add_argument("--worklists", action="store_true", help="also a line for each worklist label and state")
    it.add_argument("--claimed", type=seconds_word, metavar="S",
                    help="also a line for each step that has been IN PROGRESS for so many seconds, the oldest first")
    it.add_argument("--output", metavar="FILE", help="with --prometheus: writes this file, in one piece")
    what = "with --nagios: seconds for the look-up, and after a comma for the age of the oldest step SCHEDULED or IN PROGRESS"
    it.add_argument("--warning", type=limits_word, default=(math.inf, math.inf), metavar="SECONDS[,SECONDS]", help=what)
    it.add_argument("--critical", type=limits_word, default=(math.inf, math.inf), metavar="SECONDS[,SECONDS]", help=what)


def add_health(to: Commands) -> None:
    it = to.add("health", server_health, "asks whether the service and its store answer (N-GET of no step); a monitoring plugin",
                "health --within 10 --warning 1")
    it.add_argument("--within", type=duration_word, default=10, metavar="S", help="seconds for all of it, beyond which it is CRITICAL (10)")
    it.add_argument("--warning", type=duration_word, default=math.inf, metavar="S", help="seconds beyond which it is a WARNING (never)")


def add_verify(to: Commands) -> None:
    it = to.add("verify", verify, "compares what event reports tell of the steps held with what a query finds; a monitoring plugin too",
                "verify --nagios --ae MONITOR --listen 11115")
    add_listening(it, 11115, "the port that the server has for this side, a watcher with a title of its own, whose subscription ends with it")
    it.add_argument("--within", type=duration_word, default=60, metavar="S",
                    help="seconds in which the two have to agree on each step once (60)")
    it.add_argument("--nagios", action="store_true", help="a line with performance data; exit status 0 OK, 2 CRITICAL, 3 UNKNOWN")
    it.set_defaults(every=5)


def add_changes(to: Commands) -> None:
    """Adds the commands that change steps."""
    it = to.add("create", create, "creates a step (N-CREATE)", 'create 1.2.3.1 --label "CT READ" --patient-id P1', over=PUSH)
    it.add_argument("step", nargs="?", help="the SOP Instance UID of the step (a new one, which is printed)")
    it.add_argument("--from", dest="source", metavar="FILE",
                    help="the attributes of a step in DICOM or in JSON (- for standard input), which the options change")
    it.add_argument("--label", help=f"Procedure Step Label ({NEW['ProcedureStepLabel']})")
    it.add_argument("--worklist", metavar="LABEL", help="Worklist Label")
    it.add_argument("--priority", choices=PRIORITIES,
                    help=f"Scheduled Procedure Step Priority ({NEW['ScheduledProcedureStepPriority']})")
    it.add_argument("--readiness", choices=["INCOMPLETE", "UNAVAILABLE", "READY"],
                    help=f"Input Readiness State ({NEW['InputReadinessState']})")
    it.add_argument("--start", help="Scheduled Procedure Step Start DateTime (now)")
    it.add_argument("--patient-id", help="Patient ID")
    it.add_argument("--patient-name", help="Patient's Name")
    add_attributes(it, "a further attribute")
    it = to.add("import", import_steps, "creates the steps of files as SCHEDULED, and names those that are not", "import steps.json")
    it.add_argument("files", metavar="FILE", nargs="+",
                    help="a DICOM file, or JSON as export, find --json and get --json print it (- for standard input)")
    it.add_argument("--all", action="store_true",
                    help="also those that were claimed or are final, without what their performers have said")
    it = add_step(to.add("claim", claim, "changes a step to IN PROGRESS (N-ACTION)", "claim 1.2.3.1 --transaction 2.25.7", over=PULL))
    it.add_argument("--transaction", metavar="UID", help="a Transaction UID for the claim (a new one, which is printed first)")
    it = to.add("set", set_attributes, "sets attributes of a step (N-SET)",
                'set 1.2.3.1 --transaction 2.25.7 -k "ProcedureStepLabel=CT READ 2"', over=PULL)
    it.add_argument("--from", dest="source", metavar="FILE", help="attributes in DICOM or in JSON (- for standard input), which -k changes")
    add_attributes(add_transaction(add_step(it), required=False), "an attribute")
    it = to.add("finish", finish, "sets what a final state needs and a step lacks, and changes it to COMPLETED",
                "finish 1.2.3.1 --transaction 2.25.7", over=PULL)
    add_performer(add_transaction(add_step(it))).add_argument("--canceled", action="store_true",
                                                              help="changes it to CANCELED instead")
    it.add_argument("--reason", help="with --canceled: Reason For Cancellation")
    it = add_step(to.add("cancel", cancel, "asks for a step to be canceled (N-ACTION)",
                         "cancel 1.2.3.1 --reason 'patient has left'", over=PUSH))
    it.add_argument("--reason", help="Reason For Cancellation")
    add_rescue(to)
    add_work(to)


def add_explain(to: Commands) -> None:
    it = to.add("explain", explain, "says why a query finds each step, or doesn't: the request that decided it, by a copy of the server's store",
                "explain --at 20412 --state SCHEDULED --station R1")
    add_store(add_keys(it))
    it.add_argument("--at", type=count_word, metavar="N", help="behind the first N requests, as an audit line says it (all)")
    it.add_argument("--step", metavar="UID", help="of this step alone")


def add_rescue(to: Commands) -> None:
    it = to.add("rescue", rescue, "tells who holds the steps, with each Transaction UID, by a copy of the server's store, and cancels one",
                "rescue 1.2.3.1 --canceled --reason 'the workstation is gone'")
    it.add_argument("step", nargs="?", help="the SOP Instance UID of a step (all that are claimed)")
    it.add_argument("--store", default=STORE, metavar="FILE", help=f"that of the server's --store ({STORE})")
    it.add_argument("--canceled", action="store_true", help="changes the step to CANCELED, under the Transaction UID of its claim")
    it.add_argument("--reason", help="with --canceled: Reason For Cancellation")


def add_work(to: Commands) -> None:
    it = to.add("work", work, "claims the next step by priority and scheduled start, prints it as JSON, and finishes it by a command",
                "work --worklist READS --steps 0 --every 5 -- ./reprocess.sh {}")
    add_performer(add_keys(it, state=False))
    it.add_argument("--steps", type=count_word, default=1, metavar="N", help="does so many steps, 0 for all that there are (1)")
    it.add_argument("--every", type=seconds_word, metavar="S", help="asks again after so many seconds if there is none (ends)")
    it.add_argument("--retries", type=count_word, default=0, metavar="N",
                    help="runs the command up to N times again, after 1, 2, 4 .. 60 s, before it cancels the step (0)")
    it.add_argument("--due", action="store_true", help="leaves steps whose scheduled start is yet to come")
    add_listening(it, None,
                  "the port that the server has for this performer as a watcher: then a request to cancel ends the command")
    it.add_argument("command", nargs="*", metavar="COMMAND",
                    help="completes the step if it ends with 0, and else cancels it; {} is a file with the step as JSON, which is also "
                         "its standard input, and its output goes to standard error; without it the step is left claimed")


def add_watching(to: Commands) -> None:
    """Adds the commands for subscriptions, and those that take or send reports."""
    it = to.add("subscribe", subscribe, "subscribes a watcher (N-ACTION): to a step, to all, or by a filter",
                "subscribe --receiver WATCH1 --lock", over=WATCH)
    add_receiver(it).add_argument("--lock", action="store_true", help="asks for a deletion lock")
    add_attributes(it, "a key of a filter")
    add_receiver(to.add("unsubscribe", unsubscribe, "ends a subscription (N-ACTION)", "unsubscribe --receiver WATCH1", over=WATCH))
    it = to.add("suspend", suspend, "ends a subscription to steps that are yet to be created (N-ACTION)",
                "suspend --receiver WATCH1", over=WATCH)
    add_receiver(it, step=False)
    it = to.add("watch", watch, "takes the event reports of a watcher and prints them", "watch --ae WATCH1 --listen 11113")
    add_listening(it, 11113, "the port that the server has for the watcher (11113)")
    it.add_argument("--associations", type=count_word, default=0, metavar="N",
                    help="ends when so many associations were released (never)")
    it.add_argument("--json", action="store_true", help="each report as a line of JSON, which is out before it is answered")
    it.add_argument("--exec", metavar="COMMAND",
                    help="runs this in a shell for each report, with its JSON as standard input, and then answers it; its output goes "
                         "to standard error")
    it.add_argument("--status", type=status_word, default=0, metavar="HHHH",
                    help="the status of each response, in hex digits (0000)")
    it.add_argument("--delay", type=seconds_word, default=0, metavar="S", help="seconds that it waits before each response (0)")
    it = to.add("announce", announce,
                "tells watchers that the server's status has changed (N-EVENT-REPORT, event 4), in the server's title",
                "announce --called UPSD WATCH1=127.0.0.1:11113")
    it.add_argument("watchers", nargs="+", type=peer_word, metavar="AE=HOST:PORT",
                    help="a watcher, as the server's command line has it")
    it.add_argument("--status", default="RESTARTED", choices=["RESTARTED", "GOING DOWN"], help="SCP Status (RESTARTED)")
    it.add_argument("--subscriptions", default=STARTS[0], choices=STARTS,
                    help="Subscription List Status of a restart: whether subscriptions are lost or kept (COLD START)")
    it.add_argument("--steps", default=STARTS[0], choices=STARTS,
                    help="Unified Procedure Step List Status of a restart (COLD START)")
    it = to.add("board", board, "shows the worklist as a page, and beside it what event reports alone tell",
                "board --port 8080 --ae BOARD --listen 11114")
    it.add_argument("--port", dest="page", type=own_port_word, default=8080, help="the port of the page (8080; 0 for a free one)")
    it.add_argument("--bind", default="127.0.0.1", metavar="ADDRESS", help="the address of the page, 0.0.0.0 for all (127.0.0.1)")
    it.add_argument("--origin", type=origin_word, action="append", default=[], metavar="URL",
                    help="where else browsers open the page, as https://board.example: of a proxy, or with --bind; several, each of them")
    it.add_argument("--token-file", metavar="FILE", help="the token of the board, in place of UPS_TOKEN; it is not printed then")
    it.add_argument("--claimed", type=seconds_word, default=3600, metavar="S",
                    help="names claims that are older than so many seconds (3600)")
    add_listening(it, 11114, "the port that the server has for the watcher (11114)")
    it.add_argument("--every", type=seconds_word, default=5, metavar="S",
                    help="seconds between two queries for all steps when no report comes (5)")


def parser() -> argparse.ArgumentParser:
    commands = Commands()
    for add in (add_questions, add_status, add_health, add_verify, add_explain, add_changes, add_watching):
        add(commands)
    return commands.whole


def read_words() -> argparse.Namespace:
    """Parses the command line. For a plugin invalid arguments end the program with 3, UNKNOWN."""
    try:
        asked = parser().parse_args()
    except SystemExit as ended:
        raise SystemExit(UNKNOWN if ended.code and is_plugin() else ended.code) from None
    asked.begun = time.monotonic()
    asked.aside = sys.stderr if asked.json or asked.prometheus else sys.stdout
    return asked
