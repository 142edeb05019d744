"""The figures of a site in Prometheus's text format, and as data.

With the site's folder and a file as arguments, it is a process next to the monitor: it writes the figures to this file, for node_exporter's textfile
collector, and removes the file when it ends."""
import collections
import itertools
import json
import pathlib
from typing import Any, Dict, List, Mapping, Sequence, Tuple, Union

from ..faults import MonitorFault
from ..inputs.client import send_request
from ..model.text import number_text, performance_values
from ..site.people_files import GROUPS, NO_GROUPS, Groups, WatchedFile, labels_of, read_groups
from ..store.counters import BOUNDS, BUCKETS, RESULTS
from ..system.log import Trouble
from ..system.poller import replace_file
from ..system.processes import ParentMonitor
from .object_columns import STATES
from .status_query import MEMBERS, SiteStatus, StatusUnavailable, read_site_status

PATIENCE = 3.0  # the limit for the monitor's answer, in seconds
EVERY = 15.0  # how often the file is written, in seconds

Sample = Tuple[str, Mapping[str, str], float]  # a sample: the suffix of its name, its labels, and its value
# The samples of a family, or the value of its only one; None if there is none now.
Samples = Union[Sequence[Sample], float, None]
Family = Tuple[str, str, str, Samples]  # a family: its name, its kind, its help, and its samples
Signs = Mapping[str, Any]


def label_value(text: str) -> str:
    return text.replace("\\", "\\\\").replace('"', '\\"').replace("\n", "\\n")


def family(name: str, kind: str, help_text: str, samples: Samples, site: str) -> List[str]:
    """The lines of a family. Each sample has the label `site`."""
    lines = [f"# HELP {name} {help_text}", f"# TYPE {name} {kind}"]
    for suffix, labels, value in () if samples is None else [("", {}, samples)] if isinstance(samples, (int, float)) else samples:
        inner = ",".join(f'{label}="{label_value(text)}"' for label, text in {"site": site, **labels}.items())
        lines.append(f"{name}{suffix}{{{inner}}} {number_text(value)}")
    return lines


def latency(figures: Mapping[str, float]) -> List[Sample]:
    """The histogram of late starts: each bucket includes those before it."""
    bounds = (*(f"{bound:g}" for bound in BOUNDS), "+Inf")
    counts = list(itertools.accumulate(figures.get(bucket, 0) for bucket in BUCKETS))
    buckets: List[Sample] = [("_bucket", {"le": bound}, count) for bound, count in zip(bounds, counts)]
    return [*buckets, ("_sum", {}, figures.get("late.sum", 0)), ("_count", {}, counts[-1])]


def read_signs(folder: pathlib.Path) -> Signs:
    """The monitor's own signs of life; nothing if it gives no answer."""
    try:
        return dict(json.loads(send_request(folder, b'{"do":"signs"}', PATIENCE) or b"{}"))
    except (MonitorFault, ValueError):
        return {}


def signs_of_life(status: SiteStatus, signs: Signs) -> List[Family]:
    """The signs of life of the monitor. Most of them are missing while it gives no answer."""
    def of_runners(what: str) -> List[Sample]:
        return [("", {"runner": name}, float(its[what])) for name, its in signs.get("runners", {}).items()]

    last_turn = signs.get("turn", status.figures.get("written_at"))
    overdue, late = (signs.get(name, status.figures.get(name)) for name in ("overdue", "overdue_by"))
    return [
        ("nagsched_up", "gauge", "1 if the monitor answers, 0 if it doesn't.", bool(signs)),
        ("nagsched_last_turn_timestamp_seconds", "gauge", "When the last turn of the monitor's loop began that could be stored.", last_turn),
        ("nagsched_stuck", "gauge", "1 while nothing can be stored, so that no check is made.", signs.get("is_stuck")),
        ("nagsched_overdue", "gauge", "Objects without a result within two intervals, the plugin's limit and a minute.", overdue),
        ("nagsched_overdue_seconds", "gauge", "How long the object is overdue that is overdue the longest.", late),
        ("nagsched_passive_waiting", "gauge", "Passive results that wait to be reported.", signs.get("passive_waiting")),
        ("nagsched_changes_waiting", "gauge", "Changes that the command for changes hasn't taken.", signs.get("changes_waiting")),
        ("nagsched_oldest_change_seconds", "gauge", "How long the oldest of these has waited.", signs.get("oldest_change")),
        ("nagsched_changes_aside_total", "counter", "Changes that the command for changes refused again and again.",
         status.figures.get("changes_aside", 0)),
        ("nagsched_commands_refused_total", "counter", "Commands of Nagios's pipe that weren't obeyed. The log says why.",
         status.figures.get("commands_refused", 0)),
        ("nagsched_spool_written_timestamp_seconds", "gauge", "When the spool of performance data was written last.", status.figures.get("spooled_at") or None),
        ("nagsched_spool_missed_total", "counter", "Calls that were dropped before their results were in the spool.", status.figures.get("unspooled", 0)),
        ("nagsched_runners", "gauge", "Runner processes that run.", of_runners("running")),
        ("nagsched_runners_wanted", "gauge", "Runner processes that there should be.", of_runners("wanted")),
        ("nagsched_runners_stuck", "gauge", "Runner processes that stand still: a result is later than its limit allows.", of_runners("stuck")),
        ("nagsched_runner_waiting", "gauge", "Checks that wait for their runner.", of_runners("waiting")),
        ("nagsched_left_processes", "gauge", "Processes on this machine that still run after the plugins that started them.", of_runners("left")),
    ]


def metrics(status: SiteStatus, groups: Mapping[str, Groups], signs: Signs, site: str) -> str:
    """All families. Each object that was checked has its state, and one more series if its problem is soft or it flaps."""
    figures, saved = status.figures, status.figures.get("saved_at")
    results: List[Sample] = [("", {"result": result}, figures.get(f"checks.{result}", 0)) for result in RESULTS]
    counts = collections.Counter((str(it.state), it.kind or "NONE") for it in status.objects)
    objects: List[Sample] = [("", {"state": state, "kind": kind}, count) for (state, kind), count in sorted(counts.items())]
    labelled = [(it, labels_of(it.name, groups)) for it in status.objects]
    states: List[Sample] = [("", labels, STATES[str(it.state)]) for it, labels in labelled if it.state in STATES]
    soft: List[Sample] = [("", labels, 1) for it, labels in labelled if it.is_problem() and it.kind == "SOFT"]
    flapping: List[Sample] = [("", labels, 1) for it, labels in labelled if it.flapping]
    holding = status.holding()
    held: List[Sample] = [("", {**labels, "by": kind}, 1) for it, labels in labelled for kind in sorted({each.kind for each in holding.get(it.name, ())})]
    families: List[Family] = [
        ("nagsched_checks_total", "counter", "Results that were reported, by the state of the object or why it has no state.", results),
        ("nagsched_check_latency_seconds", "histogram", "How late checks began.", latency(figures)),
        ("nagsched_due", "gauge", "Objects whose time has come and whose check hasn't begun.", status.due_count()),
        ("nagsched_out", "gauge", "Objects whose plugins run.", status.running_count()),
        ("nagsched_objects", "gauge", "Objects by state and kind.", objects),
        ("nagsched_calls_total", "counter", "Calls that were made of the scheduler.", figures.get("calls", 0)),
        ("nagsched_saves_total", "counter", "States of the scheduler that were saved.", figures.get("saves", 0)),
        ("nagsched_seconds_since_save", "gauge", "Seconds since the state was saved last.", None if saved is None else round(max(0.0, status.now - saved), 3)),
        ("nagsched_faults_total", "counter", "Turns that ended with a fault of the monitor's own.", figures.get("faults", 0)),
        *signs_of_life(status, signs),
        ("nagsched_state", "gauge", "Of a service 0 OK, 1 WARNING, 2 CRITICAL, 3 UNKNOWN; of a host 0 UP, 1 DOWN, 2 UNREACHABLE.", states),
        ("nagsched_soft", "gauge", "1 for each object whose problem is soft.", soft),
        ("nagsched_flapping", "gauge", "1 for each object that flaps.", flapping),
        ("nagsched_held", "gauge", "1 for each object of which people aren't notified, by acknowledgement, downtime or mute.", held),
        ("nagsched_perfdata", "gauge", "The performance data in the last output of each object.", performance(status)),
    ]
    return "".join(f"{line}\n" for each in families for line in family(*each, site))


def performance(status: SiteStatus) -> List[Sample]:
    objects = ((it.name.partition(";"), performance_values(it.words)) for it in status.objects)
    return [("", {"host": host, "service": service, "label": label, "unit": unit}, value)
            for (host, _, service), values in objects for (label, unit), value in values.items()]


def status_document(status: SiteStatus, groups: Mapping[str, Groups], site: str) -> Dict[str, Any]:
    """The content of the page, as data."""
    lately = ("checks_a_second", "latest_start", "latest_start_lately", "begun_at", "written_at", "calls", "saves", "saved_at")
    return {
        "site": site,
        "time": status.now,
        "is_silent": status.silent_seconds() is not None,
        **{name: status.figures.get(name) for name in lately},
        "due": status.due_count(),
        "overdue": status.overdue()[0],
        "out": status.running_count(),
        "wrong": [it.name for it in status.problems()],
        "objects": [{**it._asdict(), **groups.get(it.name, NO_GROUPS).names} for it in status.objects],
    }


def main() -> int:
    monitor = ParentMonitor()
    folder, file = map(pathlib.Path, monitor.arguments)
    groups, site, trouble = WatchedFile(folder / GROUPS, read_groups), folder.resolve().name, Trouble(monitor.log, f"textfile: {file} isn't written")
    is_ended = False
    while not is_ended:
        with trouble.noted(StatusUnavailable, OSError):
            replace_file(file, metrics(read_site_status(folder, members=MEMBERS), groups.read(), read_signs(folder), site).encode(errors="replace"))
        is_ended = monitor.is_ended(EVERY)
    file.unlink(missing_ok=True)
    return 0
