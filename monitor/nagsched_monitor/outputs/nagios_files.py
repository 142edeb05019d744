"""Nagios's own files of a site: `status.dat`, which Nagios's pages show, and the pipe `nagios.cmd`, which takes commands.

It is a process next to the monitor. Its arguments are the site's folder, the folder of the files, and `notifies` if a command is run for changes. It reads the
database, and sends requests to the monitor through its socket."""
import pathlib
import select
import sys
import time
from typing import Dict, List, Mapping, Sequence, Tuple

from ..faults import MonitorFault, raising
from ..inputs.nagios_pipe import NAME, CommandQueue, Pipe
from ..model.remarks import Remark
from ..model.text import printable_text
from ..system.log import Trouble
from ..system.poller import replace_file
from ..system.processes import ParentMonitor
from .object_columns import ENTRY_TYPES, HOST_COLUMNS, HOST_STATES, SERVICE_COLUMNS, SERVICE_STATES, Column
from .object_rows import ObjectRow, ObjectRows
from .status_query import StatusUnavailable

# How often the status file is written, and the longest pause before waiting requests are sent again, in seconds.
EVERY = 10.0
PAUSE = 1.0
# The members of an object that have other names here than its columns, and those that have the same.
NAMES = {
    "check_execution_time": "execution_time", "check_latency": "latency", "current_state": "state", "performance_data": "perf_data",
    "max_attempts": "max_check_attempts", "passive_checks_enabled": "accept_passive_checks", "problem_has_been_acknowledged": "acknowledged",
    **{name: name for name in (
        "check_command", "check_period", "check_interval", "retry_interval", "has_been_checked", "should_be_scheduled", "check_type", "last_hard_state",
        "plugin_output", "long_plugin_output", "last_check", "next_check", "check_options", "current_attempt", "state_type", "last_state_change",
        "last_hard_state_change", "last_notification", "next_notification", "no_more_notifications", "current_notification_number", "notifications_enabled",
        "notification_period", "active_checks_enabled", "event_handler", "event_handler_enabled", "flap_detection_enabled", "process_performance_data",
        "obsess",
        "modified_attributes", "is_flapping", "percent_state_change", "acknowledgement_type", "scheduled_downtime_depth",
    )},
}
HOST_NAMES = {"host_name": "name", **NAMES, **{name: name for name in (f"last_time_{state.lower()}" for state in HOST_STATES)}}
SERVICE_NAMES = {"host_name": "host_name", "service_description": "description", **NAMES,
                 **{name: name for name in (f"last_time_{state.lower()}" for state in SERVICE_STATES)}}
# Members that are the same for every object, and for the program: the monitor has no event handlers.
ZEROS = dict.fromkeys(("last_event_id", "current_event_id", "current_problem_id", "last_problem_id", "current_notification_id", "importance"), 0)
OF_PROGRAM = {
    **dict.fromkeys(("modified_host_attributes", "modified_service_attributes", "last_log_rotation", "enable_event_handlers", "obsess_over_services",
                     "obsess_over_hosts", "process_performance_data"), 0),
    **dict.fromkeys(("daemon_mode", "active_service_checks_enabled", "passive_service_checks_enabled", "active_host_checks_enabled",
                     "passive_host_checks_enabled", "check_service_freshness", "check_host_freshness", "enable_flap_detection", "next_comment_id",
                     "next_downtime_id", "next_event_id", "next_problem_id", "next_notification_id"), 1),
}
NO_STATS = ("active_ondemand_host_check", "active_ondemand_service_check", "cached_host_check", "cached_service_check", "parallel_host_check",
            "serial_host_check", "external_command")


class NagiosFiles:
    def __init__(self, site: pathlib.Path, folder: pathlib.Path, notifies: bool, monitor: ParentMonitor) -> None:
        self._site, self._folder, self._monitor = site, folder, monitor
        folder.mkdir(parents=True, exist_ok=True)
        self._rows = ObjectRows(site, self._log, notifies)
        self._trouble = Trouble(self._log, "status.dat isn't written")
        self._pipe = Pipe(folder)
        self._commands = CommandQueue(site, NAME)

    def run(self) -> None:
        self.write()
        self.read_commands(self._pipe.taken_over)
        next_write = time.monotonic() + EVERY
        while True:
            if time.monotonic() >= next_write:
                next_write = time.monotonic() + EVERY
                self.write()
            # While requests wait for the monitor, no more are read: the pipe holds them.
            files = [sys.stdin.fileno(), *([] if self._commands.waiting else [self._pipe.file])]
            left = max(0.0, next_write - time.monotonic())
            ready, _, _ = select.select(files, [], [], min(PAUSE, left) if self._commands.waiting else left)
            if self._monitor.is_ended(0):
                break
            if self._pipe.file in ready:
                self.read_commands(self._pipe.read())
            self._commands.send()
        for line in self._commands.drop():
            self._log(line)
        self._pipe.close()

    def _log(self, line: str) -> None:
        self._monitor.log(f"nagios files: {line}")

    def write(self) -> None:
        """Writes the status file again; if that fails, the old one stays."""
        with self._trouble.noted(OSError, StatusUnavailable):
            self._rows.read()
            replace_file(self._folder / "status.dat", status_file(self._rows).encode(errors="replace"))

    def read_commands(self, lines: Sequence[bytes]) -> None:
        for line in lines:
            self._commands.add(line, self._rows.services, self._rows.groups)
        self._commands.refused.clear()


def status_file(site: ObjectRows) -> str:
    now, all_of = site.now, site.objects.values()
    hosts, services = [it for it in all_of if not it.description], [it for it in all_of if it.description]
    info = {"created": int(now), "version": "4.4.6", "last_update_check": 0, "update_available": 0, "last_version": "", "new_version": ""}
    blocks = [block("info", info), program_block(site, hosts, services)]
    for kind, names, columns, rows in (("hoststatus", HOST_NAMES, HOST_COLUMNS, hosts), ("servicestatus", SERVICE_NAMES, SERVICE_COLUMNS, services)):
        members = [(name, columns[column]) for name, column in names.items()]
        blocks += [block(kind, {**object_members(members, it), **ZEROS, "last_update": int(now)}) for it in rows]
    return "\n".join([*blocks, *(remark_block(each, it, now) for it in (*hosts, *services) for each in it.remarks if each.kind != "mute")])


def block(kind: str, members: Mapping[str, object]) -> str:
    lines = "".join([f"\t{name}={value}\n" for name, value in members.items()])
    return f"{kind} {{\n{lines}\t}}\n"


def object_members(members: List[Tuple[str, Column]], it: ObjectRow) -> Dict[str, object]:
    return {name: f"{column.value(it):.3f}" if column.kind == "float" else column.value(it) for name, column in members}


def remark_block(its: Remark, it: ObjectRow, now: float) -> str:
    """The block of a downtime, or of a comment, which an acknowledgement has too."""
    of = {"host_name": it.host_name, **({"service_description": it.description} if it.description else {})}
    kind, author, text, made_at = "service" if it.description else "host", printable_text(its.author), printable_text(its.text), int(its.made_at)
    start, end = int(its.starts_at), int(its.ends_at or 0)
    if its.kind == "downtime":
        return block(f"{kind}downtime", {
            **of, "comment_id": 0, "downtime_id": its.id, "entry_time": made_at, "start_time": start, "flex_downtime_start": int(its.began_at or 0),
            "end_time": end, "triggered_by": 0, "fixed": int(its.duration is None), "duration": int(its.duration or end - start),
            "is_in_effect": int(its.holds(now)), "start_notification_sent": 0, "author": author, "comment": text,
        })
    return block(f"{kind}comment", {
        **of, "entry_type": ENTRY_TYPES[its.kind], "comment_id": its.id, "source": 1, "persistent": int(its.persistent),
        "entry_time": made_at, "expires": int(end > 0), "expire_time": end, "author": author, "comment_data": text,
    })


def program_block(site: ObjectRows, hosts: List[ObjectRow], services: List[ObjectRow]) -> str:
    """The monitor itself, and how many objects were checked within the last minute, five minutes and fifteen."""
    checked = {}
    for what, all_of in (("host", hosts), ("service", services)):
        for how, is_passive in (("active_scheduled", False), ("passive", True)):
            times = [it.standing.last_check or 0 for it in all_of if it.is_passive == is_passive]
            checked[f"{how}_{what}_check_stats"] = ",".join(str(sum(time > site.now - span for time in times)) for span in (60, 300, 900))
    own = {"nagios_pid": site.process, "program_start": site.started_at, "enable_notifications": site.notifies(),
           "global_host_event_handler": "", "global_service_event_handler": ""}
    return block("programstatus", {**OF_PROGRAM, **own, **checked, **{f"{each}_stats": "0,0,0" for each in NO_STATS}})


def main() -> None:
    monitor = ParentMonitor()
    site, folder, *others = monitor.arguments
    with raising(SystemExit, "nagios files", MonitorFault):
        NagiosFiles(pathlib.Path(site), pathlib.Path(folder), "notifies" in others, monitor).run()
