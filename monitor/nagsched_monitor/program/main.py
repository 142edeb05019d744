"""The options and commands of `nagsched-monitor`."""
import argparse
import contextlib
import datetime
import gc
import json
import os
import pathlib
import sqlite3
import sys
import time
from typing import Any, Dict, List, Optional

from ..faults import MonitorFault, NotStored, raising, user_name
from ..inputs.client import send_request
from ..outputs.status_query import StatusUnavailable, clock_time, read_site_status, remark_lines, status_complaints, status_lines
from ..site.site import read_site
from ..store.store import Store
from ..system.log import Log
from ..system.programs import own_version, scheduler_path
from .monitor import Monitor
from .site_reader import LIMIT as READING_LIMIT

# How long a command waits for its answer, in seconds. A reload first reads the site.
PATIENCE, RELOAD_PATIENCE = 30.0, READING_LIMIT + 30.0
OBJECT = "a host's name, or host;description of a service"
UNITS = {"s": 1, "m": 60, "h": 3_600, "d": 86_400}
CODES = {"OK": 0, "UP": 0, "WARNING": 1, "CRITICAL": 2, "DOWN": 2, "UNKNOWN": 3}


def parse_time(text: str) -> float:
    """A time from the command line: seconds since 1970, or a date and time in this machine's zone, such as 2026-11-27T18:00."""
    with contextlib.suppress(ValueError):
        return float(text)
    try:
        return datetime.datetime.fromisoformat(text).timestamp()
    except ValueError:
        raise argparse.ArgumentTypeError(f"it has to be a date and time such as 2026-11-27T18:00 or a number of seconds, not {text!r}") from None


def parse_duration(text: str) -> float:
    """A duration from the command line: a number of seconds, or of another unit, such as 2h."""
    try:
        return float(text.rstrip("smhd")) * UNITS[text.lstrip("0123456789.") or "s"]
    except (ValueError, KeyError):
        raise argparse.ArgumentTypeError(f"it has to be a number of seconds, or a number with m, h or d, such as 2h, not {text!r}") from None


def parse_code(text: str) -> int:
    """A plugin's code from the command line: 0 to 3, or the word of a state."""
    code = CODES.get(text.upper(), int(text) if text.isascii() and text.isdigit() else -1)
    if not 0 <= code <= 3:
        raise argparse.ArgumentTypeError(f"it has to be a number from 0 to 3, or one of {', '.join(CODES)}, not {text!r}")
    return code


def parse_arguments(given: Optional[List[str]]) -> argparse.Namespace:
    parser = argparse.ArgumentParser(prog="nagsched-monitor", usage="nagsched-monitor [OPTION ..] DIR [COMMAND ..]",
                                     description="Monitors a site: it runs plugins, and nagsched decides which is due.",
                                     formatter_class=argparse.RawDescriptionHelpFormatter)  # it leaves a long version on one line
    parser.add_argument("--version", action="version", version=f"nagsched-monitor {own_version()}", help="print the version and end")
    parser.add_argument("folder", metavar="DIR", type=pathlib.Path, help="the folder of the site")
    parser.add_argument("--program", default=scheduler_path(pathlib.Path(sys.argv[0])), metavar="PATH",
                        help="the program nagsched; without it, on the path, next to this one, or built in this checkout")
    parser.add_argument("--alertmanager", action="append", default=[], metavar="URL", help="post standing problems to this Alertmanager; several may be named")
    parser.add_argument("--on-change", metavar="COMMAND", help="run this for hard changes, with a line of JSON for each on its standard input")
    parser.add_argument("--page", metavar="ADDRESS:PORT", help="show a page for browsers there, and figures for Prometheus")
    parser.add_argument("--page-url", metavar="URL", help="where people reach the page, for links in alerts; http://ADDRESS:PORT/ without it")
    parser.add_argument("--page-name", action="append", default=[], metavar="NAME",
                        help="a name by which browsers reach the page, as well as addresses and localhost")
    parser.add_argument("--textfile", metavar="FILE", type=pathlib.Path, help="keep the figures in this file, for node_exporter's textfile collector")
    parser.add_argument("--nagios-files", metavar="DIRECTORY", type=pathlib.Path, help="keep Nagios's status.dat and its pipe nagios.cmd there")
    parser.add_argument("--perfdata", metavar="DIRECTORY", type=pathlib.Path, help="write performance data there, in the form of PNP4Nagios's spool")
    parser.add_argument("--livestatus", metavar="SOCKET", type=pathlib.Path, help="answer Livestatus's queries there, for NagVis, Thruk and others")
    add_commands(parser)
    return parser.parse_args(given)


def add_commands(parser: argparse.ArgumentParser) -> None:
    commands = parser.add_subparsers(dest="command", metavar="COMMAND", prog="nagsched-monitor DIR",
                                  help="without a command it runs the monitor; test, status and drop-calls need no running monitor, the others ask it")
    status = commands.add_parser("status", help="prints the states of objects")
    status.add_argument("pattern", nargs="?", default="*", help="names of objects, with * and ? as in a shell; all without it")
    status.add_argument("--long", action="store_true", help="with the time of each next check")
    reschedule = commands.add_parser("reschedule", help="sets the next check of an object")
    reschedule.add_argument("name", help=OBJECT)
    reschedule.add_argument("--at", type=parse_time, metavar="T", help="a date and time such as 2026-11-27T18:00, or seconds since 1970; now without it")
    reschedule.add_argument("--force", action="store_true", help="also if it is switched off or held back")
    for word, what in (("enable", "on"), ("disable", "off"), ("default", "as the setup has them")):
        commands.add_parser(word, help=f"switches an object's checks {what}").add_argument("name", help=OBJECT)
    result = commands.add_parser("result", help="gives a passive result")
    result.add_argument("name", help=OBJECT)
    result.add_argument("code", type=parse_code, help="0 to 3, or OK, WARNING, CRITICAL or UNKNOWN; UP or DOWN of a host")
    result.add_argument("output", nargs="?", default="", help="what the plugin printed")
    add_remark_commands(commands)
    for word, what in (
        ("notify-test", "gives the command for changes a marked change"), ("test", "reads the site and tests it"), ("reload", "reads the site again"),
        ("save", "saves the state"), ("new-database", "writes what the monitor has in memory to a new database, if the file is gone or another's"),
        ("stop", "ends the monitor"),
        ("drop-calls", "drops the calls since the last saved state from a damaged database, while no monitor runs"),
    ):
        commands.add_parser(word, help=what)


def add_remark_commands(commands: Any) -> None:
    """The commands about remarks. Their author is the user who gives them, also through `sudo`."""
    for word, what in (("ack", "acknowledges a problem: people aren't notified of it until its state changes"), ("comment", "adds a comment to an object"),
                       ("downtime", "plans a downtime: people aren't notified of the object, and of a host's services, meanwhile")):
        made = commands.add_parser(word, help=what)
        made.add_argument("name", help=OBJECT)
        if word == "downtime":
            made.add_argument("lasting", type=parse_duration, metavar="DURATION", help="how long it lasts: a number of seconds, or such as 30m, 2h or 1d")
            made.add_argument("--from", type=parse_time, metavar="T", help="when it begins; now without it")
            made.add_argument("--within", type=parse_duration, metavar="DURATION", help="make it flexible: it begins with a problem within this time")
        made.add_argument("text", help="why")
        made.add_argument("--author", default=os.environ.get("SUDO_USER") or user_name(os.getuid()), help="who says so; the user without it")
    ack, comment = commands.choices["ack"], commands.choices["comment"]
    ack.add_argument("--sticky", action="store_true", help="until the object is OK or UP again, also through other states")
    ack.add_argument("--persistent", action="store_true", help="its text stays as a comment after its end")
    ack.add_argument("--until", type=parse_time, metavar="T", help="the latest end")
    comment.add_argument("--until", type=parse_time, metavar="T", help="its end; without it, it stays until it is removed")
    remarks = commands.add_parser("remarks", help="prints acknowledgements, downtimes, comments and mutes, or removes them")
    remarks.add_argument("pattern", nargs="?", default="*", help="names of objects, with * and ? as in a shell; all without it")
    remarks.add_argument("--remove", dest="id", type=int, metavar="ID", help="remove the one with this number")


def answer_text(answer: Dict[str, Any]) -> str:
    if "at" in answer:
        return f"reschedule: {answer['name']} at {clock_time(answer['at'])}{'' if answer['on'] else ', but its checks are off'}"
    others = [f"{word}: {name}" for word in ("new", "dropped") for name in answer.get(word, ())]
    number = f" {answer['id']}" if "id" in answer else ""
    return "\n".join([f"{answer['done']}{number}: {answer.get('name', 'done')}", *others, *answer.get("changed", ())])


def print_status(arguments: argparse.Namespace) -> int:
    """Prints the states of objects from the database of a site. The exit status is 1 if no monitor is at work, or no object has such a name."""
    exact = read_site_status(arguments.folder, "WHERE name = ?", arguments.pattern)
    status = exact if exact.objects else read_site_status(arguments.folder, "WHERE name GLOB ?", arguments.pattern)
    lines, complaints = status_lines(status, arguments.long), status_complaints(status)
    if not lines:
        complaints.append(f"no object of {arguments.folder} has the name {arguments.pattern!r}: `status` without a name lists all")
    sys.stdout.write("".join(f"{line}\n" for line in lines))
    sys.stderr.write("".join(f"nagsched-monitor: {complaint}\n" for complaint in complaints))
    return int(not lines or status.silent_seconds() is not None)


def print_remarks(arguments: argparse.Namespace) -> int:
    if arguments.id is not None:
        arguments.command = "remove"
        return ask_monitor(arguments)
    sys.stdout.write("".join(f"{line}\n" for line in remark_lines(read_site_status(arguments.folder).remarks, arguments.pattern)))
    return 0


def ask_monitor(arguments: argparse.Namespace) -> int:
    members = ("name", "at", "force", "code", "output", "author", "text", "from", "until", "sticky", "persistent", "id")
    given = {member: getattr(arguments, member, None) for member in members}
    request = {"do": arguments.command, **{member: value for member, value in given.items() if value is not None}}
    if arguments.command == "downtime":
        begin = request.setdefault("from", time.time())
        request["until"] = begin + (arguments.lasting if arguments.within is None else arguments.within)
        request.update({} if arguments.within is None else {"duration": arguments.lasting})
    patience = RELOAD_PATIENCE if arguments.command == "reload" else PATIENCE
    answer = json.loads(send_request(arguments.folder, json.dumps(request).encode(), patience) or b'{"error": "the monitor ended"}')
    if "error" in answer:
        raise MonitorFault(answer["error"])
    print(answer_text(answer))
    return 0


def test_site(arguments: argparse.Namespace) -> int:
    site = read_site(arguments.folder, arguments.program)
    print(f"{len(site.objects)} objects, {len(site.setups)} parts")
    for warning in site.warnings:
        print(f"nagsched-monitor: {warning}", file=sys.stderr)
    return 0


def drop_calls(arguments: argparse.Namespace) -> int:
    Store(arguments.folder, print, is_calls_dropped=True).close()
    return 0


def main(given: Optional[List[str]] = None) -> int:
    arguments = parse_arguments(given)
    with contextlib.closing(Log()) as log:
        # A fault is printed after the lines of the log.
        with raising(SystemExit, "nagsched-monitor", MonitorFault, StatusUnavailable, NotStored, sqlite3.Error):
            if arguments.command is not None:
                own = {"test": test_site, "status": print_status, "remarks": print_remarks, "drop-calls": drop_calls}
                return own.get(arguments.command, ask_monitor)(arguments)
            gc.disable()  # what a start makes stays
            monitor = Monitor(arguments, log)
        with contextlib.closing(monitor):
            return monitor.run()
