"""A result as Nagios wrote it, Nagios's configuration, and what is found of both. For second_opinion.py."""
from __future__ import annotations

import collections
import pathlib
import re
import sys
import time
from typing import NamedTuple, Optional

HERE = pathlib.Path(__file__).resolve().parent
# The modules of the judge, the monitor and the converter are in this folder once installed, otherwise in their own folders of the repository.
sys.path += [str(HERE / "judge"), *(str(HERE.parent / folder) for folder in ("conformance/nagios", "monitor", "monitor/from_nagios"))]
import from_nagios
import nagios_values
from model import HARD, SOFT, Setup

UNEXPLAINED, LATE, TWICE, AT_ONCE = "unexplained", "told late", "told twice", "ran twice at once"
NEVER, OVERDUE, FLAPPING, STOOD = "never ran", "overdue", "flapping unseen", "stood still"
# The kinds of harm, the worst first, with their colours in the picture.
COLOURS = {UNEXPLAINED: "#000", LATE: "#c00", TWICE: "#e60", AT_ONCE: "#a0a", NEVER: "#900", OVERDUE: "#d80", FLAPPING: "#06c", STOOD: "#555"}
STOPPED = re.compile(rb"^\[(\d+)\] .*, (?:restarting|shutting down)\.\.\.", re.MULTILINE)  # in Nagios's log
FLAPS_OTHERWISE = ("flap thresholds of an object", "flap_detection_enabled 0", "flap_detection_options")  # kinds of the converter's report


class Line(NamedTuple):
    """A result as Nagios wrote it. Times are in seconds."""

    is_stored: bool  # written when the result was stored; otherwise by an obsessing command, before a recovery becomes hard
    name: str
    handled: int
    begun: int
    latency: float
    took: float
    is_passive: bool
    before: int
    state: int
    kind: str
    attempt: int
    percent: float
    host_state: int
    started: int  # when Nagios was started, restarted or reloaded
    change: int  # the number of the last change of its state, or of its host's if that is later; Nagios counts the changes of all objects


def line_of(text: str) -> Line:
    """The result in a line; ValueError if it has another form."""
    how, name, handled, begun, latency, took, check, before, state, kind, attempt, percent, host_state, started, own, host = text.split("\t")
    line = Line(how == "stored", name, int(handled), int(begun), float(latency), float(took), check == "PASSIVE", int(before), int(state), kind,
                int(attempt), float(percent), int(host_state), int(started), max(int(own), int(host)))
    states = range(4 if ";" in name else 3)
    if how in ("stored", "logged") and kind in (SOFT, HARD) and line.state in states and line.before in states and line.host_state in range(3):
        return line
    raise ValueError(text)


class Site(NamedTuple):
    """What counts of Nagios's configuration."""

    status: pathlib.Path  # the status file
    logs: list[pathlib.Path]  # the log, and the folder of older ones
    setup: Setup
    parts: list[Setup]
    mirrors: dict[str, dict[str, str]]
    untimed: set[str]  # objects that have a check period or a dependency, or no line for each result
    flaps_otherwise: set[str]  # objects with their own rules for flapping
    is_soft: bool  # whether passive results of hosts are

    def is_planned(self, since: int, until: int) -> bool:
        """Whether Nagios's log says that Nagios was asked to end, restart or reload in this time."""
        files = [file for log in self.logs for file in (log.glob("*.log") if log.is_dir() else [log])]
        texts = [file.read_bytes() for file in files if file.is_file() and file.stat().st_mtime >= since]
        return any(since <= int(moment) <= until for text in texts for moment in re.findall(STOPPED, text))


def full_name(members: dict[str, str]) -> str:
    return ";".join(members[key] for key in ("host_name", "service_description") if key in members)


def read_site(config: pathlib.Path, objects: Optional[pathlib.Path]) -> Site:
    """A site, as the converter reads it. A file of objects that isn't named is the one that nagios.cfg names."""
    options, left_out = nagios_values.read_options(config), nagios_values.LeftOut()
    if objects is None and "object_cache_file" not in options:
        raise nagios_values.CannotConvert(f"{config}: it has no object_cache_file: name the file by --objects")
    definitions = nagios_values.read_objects(objects or pathlib.Path(options["object_cache_file"]))
    setup = from_nagios.documents_of(options, definitions, left_out)
    setup["options"]["max_concurrent_checks"] = 0
    parts, mirrors = ([setup], {}) if from_nagios.fits_one_setup(setup) else from_nagios.parts_of(setup, True)
    untimed = {full_name(dict(members)) for _, _, members in definitions if "0" in (members.get("process_perf_data"), members.get("obsess"))}
    untimed |= {link["dependent"] for link in setup["service_dependencies"] + setup["host_dependencies"]} | set(left_out.names["check_period"])
    logs = [pathlib.Path(options[name]) for name in ("log_file", "log_archive_path") if name in options]
    return Site(pathlib.Path(options.get("status_file", "")), logs, setup, parts, mirrors, untimed, set().union(*(left_out.names[kind] for kind in FLAPS_OTHERWISE)),
                options.get("passive_host_checks_are_soft", "0") != "0")


def clock(moment: float, form: str = "%H:%M:%S") -> str:
    return time.strftime(form, time.localtime(moment))


class Harm(NamedTuple):
    """Something that an operator should know: its kind, the object, the times, and both verdicts."""

    kind: str
    name: str
    begun: int
    ended: int
    text: str

    def __str__(self) -> str:
        return f"{clock(self.begun, '%F %T')}  {self.kind}: {self.name}, until {clock(self.ended)}: {self.text}"


class Findings:
    """All that a run found, over every configuration that it saw."""

    def __init__(self, are_printed: bool) -> None:
        self.are_printed = are_printed  # each harm as it is found
        self.harms: list[Harm] = []
        self.rows: collections.Counter[str] = collections.Counter()
        self.counts: collections.Counter[str] = collections.Counter()
        self.minutes: collections.Counter[int] = collections.Counter()  # results by the minute since the first one
        self.first, self.last, self.objects = 0, 0, 0

    def harm(self, kind: str, name: str, begun: int, ended: int, text: str) -> None:
        self.harms.append(Harm(kind, name, begun, ended, text))
        if self.are_printed:
            print(self.harms[-1], flush=True)
