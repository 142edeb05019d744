"""The parts of a monitor and its actions around a turn: it logs changes, takes over another site, and ends."""
import argparse
import gc
import hashlib
import os
import pathlib
import shutil
import signal
import time
from dataclasses import replace
from typing import Any, Callable, Dict, Generator, List, Optional

from ..core.engine import Engine
from ..core.requests import Request
from ..faults import ConversationEnded, MonitorFault, NotStored
from ..inputs import control
from ..model.clock import Clock
from ..outputs.changes import Notifier, change_line
from ..outputs.sd_notify import ServiceManager
from ..run.runners import RunnerPools, raise_file_limit
from ..scheduler.scheduling import Scheduling
from ..site.command_lines import test_change_command
from ..site.site import LISTS, TEXTS, Options, Site, read_site
from ..store.store import Store, drop_changes_before
from ..system import addresses
from ..system.poller import FilePoller
from ..system.processes import HelperProcess
from ..system.programs import RUNNER, runner_command
from .loop import Loop
from .site_reader import read_apart

DAY = 86_400
# How soon the next turn comes while a command for changes runs or the site is read, in milliseconds.
BUSY_WAIT = 100
# The number of tries to open the schedulers, and the pause between two tries, in seconds.
START_TRIES, START_PAUSE = 10, 1.0
# The files that a plugin needs of its runner, and the other files of a process.
FILES_OF_PLUGIN, OTHER_FILES = 4, 100


class Monitor:
    def __init__(self, arguments: argparse.Namespace, log: Callable[[str], None]) -> None:
        self._folder, self._program, self.log = arguments.folder, arguments.program, log
        # The current reload, and the requests since it began: the files may have changed for them. SIGHUP may come before the site was read.
        self._reload: Optional[Generator[bool, None, None]] = None
        self._reload_requests: List[Request] = []
        signal.signal(signal.SIGHUP, lambda *_: self._reload_requests.append(Request(b"", lambda answer: None)))
        self._service_manager = ServiceManager()
        self._file_limit = raise_file_limit()
        self._poller = FilePoller()
        site = read_site(self._folder, self._program)
        RUNNER.test(runner_command()[0])
        self._test_slots(site)
        self._outputs = outputs_of(arguments, site.options)
        self.store = Store(self._folder, self.log)
        if self._outputs.perfdata is not None:
            self.store.open_spool()
        self.clock = Clock(self.store.last_moment())
        if self._outputs.on_change is not None:
            test_change_command(self._outputs.on_change)
        self.scheduling = self._open_scheduling(site)
        self.runners = RunnerPools(len(os.sched_getaffinity(0)), self.log, self._poller, files=lambda: [self.store.file.number])
        self.runners.set_remotes(site.runners)
        self.engine = Engine(self.scheduling, self.runners, self.store, self.clock, self.log, self._reload_requests.append, lambda: self.loop.stop())
        self._notifier = Notifier(self._outputs.on_change, self.store, self.log, self.clock, self.engine.counters)
        self._notifier.tell_new_command(self.engine.objects.values())
        self.control = control.ControlSocket(self._folder, self.engine.add_request, self._poller)
        self._helpers = self._make_helpers(self._outputs)
        self._dropped_at = self.clock.wall()
        after = [self._log_changes, self._continue_reload, self.control.work]
        chores = [self._drop_old_changes, self._service_manager.notify_alive, *(process.work for process in self._helpers)]
        self.loop = Loop(self.engine, self._poller, self.clock, self.log, [self.control.work], after, chores)

    def _make_helpers(self, outputs: Options) -> List[HelperProcess]:
        """The processes next to the monitor that its options ask for."""
        folder, asked, link = str(self._folder), [], outputs.page_url or (f"http://{outputs.page}/" if outputs.page else "")
        notifies = ["notifies"] if outputs.on_change is not None or outputs.alertmanager else []
        if outputs.nagios_files is not None:
            asked.append(["outputs.nagios_files", folder, outputs.nagios_files, *notifies])
        if outputs.perfdata is not None:
            asked.append(["outputs.perfdata", folder, outputs.perfdata])
        if outputs.page is not None:
            if not addresses.is_loopback(outputs.page):
                self.log(f"the page on {outputs.page} is shown to everybody who reaches this address")
            asked.append(["outputs.page", outputs.page, folder, *[addresses.shown_url(url) for url in outputs.alertmanager[:1] or [""]], *outputs.page_name])
        if outputs.livestatus is not None:
            asked.append(["outputs.livestatus", outputs.livestatus, folder, *notifies])
        if outputs.textfile is not None:
            asked.append(["outputs.metrics", folder, outputs.textfile])
        asked += [["outputs.alertmanager", url, folder, link] for url in outputs.alertmanager]
        return [HelperProcess(module, given, self.log) for module, *given in asked]

    def _open_scheduling(self, site: Site) -> Scheduling:
        """The site with its schedulers. If the disk is full or a scheduler can't be started, a few more tries follow."""
        why = ""
        for tried in range(START_TRIES):
            time.sleep(START_PAUSE if tried else 0)
            scheduling = Scheduling(self._program, site, self.store, self.clock, self.log, self._outputs.on_change is not None)
            try:
                scheduling.open()
                return scheduling
            except (NotStored, ConversationEnded) as fault:
                scheduling.close()
                why = str(fault)
                self.log(f"{why}; it is tried again")
        raise MonitorFault(f"{why}; it was tried {START_TRIES} times")

    def _test_slots(self, site: Site) -> None:
        """Refuses more slots than the limit of open files allows."""
        wanted = site.options.slots * FILES_OF_PLUGIN + OTHER_FILES
        if wanted > self._file_limit:
            slots = f"monitor.json: slots: {site.options.slots} plugins may take {wanted} open files"
            raise MonitorFault(f"{slots}, and the limit is {self._file_limit}: raise it, or have fewer slots")

    def run(self) -> int:
        """Works until it is asked to stop; returns the exit status."""
        self._install_signal_handlers()
        site = self.scheduling.site
        self.log(f"begins: {len(site.objects)} objects, {len(site.setups)} parts")
        self.log(build_line(self._program))
        for warning in site.warnings:
            self.log(warning)
        for obj in self.engine.objects.values():
            if obj.standing is not None and obj.standing.is_problem():
                self.log(f"at the start {obj.name} is {obj.standing.state} {obj.standing.kind} {obj.standing.attempt}")
        gc.freeze()  # objects of the site aren't looked over again and again
        gc.enable()
        self._service_manager.notify(f"READY=1\nSTATUS={len(site.objects)} objects")  # `systemctl status` shows it
        return self.loop.run()

    def _log_changes(self) -> Optional[int]:
        """Logs the changes of the turn, and has the command run for them."""
        for change in self.scheduling.pop_changes():
            self.log(change_line(change, self.scheduling.site.options.zone))
        return BUSY_WAIT if self._notifier.work() else None

    def _install_signal_handlers(self) -> None:
        """Each signal ends the waiting for files, by a byte that comes."""
        there, back = os.pipe2(os.O_NONBLOCK | os.O_CLOEXEC)
        signal.set_wakeup_fd(back, warn_on_full_buffer=False)
        self._poller.watch(there, lambda: os.read(there, 4_096))
        for number in (signal.SIGINT, signal.SIGTERM):
            signal.signal(number, lambda *_: self.loop.stop())

    def _drop_old_changes(self) -> None:
        """Drops old changes, each hour but the first. A clock that jumped by more than a day drops nothing."""
        now, since = self.clock.wall(), self.clock.wall() - self._dropped_at
        if 0 <= since < DAY / 24:
            return
        self._dropped_at = now
        if 0 <= since < DAY:
            try:
                self.store.write(drop_changes_before(now - self.scheduling.site.options.keep_days * DAY))
            except NotStored as fault:
                self.log(str(fault))

    def _continue_reload(self) -> Optional[int]:
        """Continues the current reload, or begins one that was requested."""
        if self._reload is None and self._reload_requests:
            self._reload = self._take_over_site()
        if self._reload is None:
            return None
        if next(self._reload, False):
            return BUSY_WAIT
        self._reload = None
        return 0

    def _take_over_site(self) -> Generator[bool, None, None]:
        """Has the site read, yielding True meanwhile, and takes it over. If it is faulty, the old one stays."""
        asked = [self._reload_requests.pop(0) for _ in self._reload_requests[:]]
        answer: Dict[str, Any] = {"error": "the monitor has a fault"}
        try:
            site = yield from read_apart(self._folder, self._program)
            self._test_slots(site)
            before = set(self.engine.objects)
            changed = self.engine.reload(site)
            self.runners.set_remotes(site.runners)
            gc.collect()
            gc.freeze()
            new, dropped = sorted(set(site.objects) - before), sorted(before - set(site.objects))
            for line in (*(f"new: {name}" for name in new), *(f"dropped: {name}" for name in dropped), *changed, *site.warnings):
                self.log(line)
            answer = {"done": "reload", "new": new, "dropped": dropped, "changed": changed}
        except (MonitorFault, NotStored) as fault:
            answer = {"error": str(fault)}
            self.log(f"the site isn't taken over: {fault}")
        finally:
            for request in asked:
                request.reply(answer)

    def close(self) -> None:
        """Ends: running plugins are killed, and their checks are abandoned at the next start."""
        self._service_manager.notify("STOPPING=1")
        self.control.close()
        if self._reload is not None:
            self._reload.close()  # ends its process
        for process in self._helpers:
            process.close()
        self.runners.close()
        self._notifier.close()
        try:
            self.engine.close()
        except (NotStored, ConversationEnded) as fault:
            self.log(f"the state isn't saved: {fault}")
        self.log("ends")
        self.scheduling.close()
        self.store.close()


def outputs_of(arguments: argparse.Namespace, options: Options) -> Options:
    """The options of the site, in which those of the command line count first. Raises `MonitorFault` if an address is none."""
    given = {name: value for name in (*TEXTS, *LISTS) if (value := getattr(arguments, name))}
    outputs = replace(options, **{name: value if isinstance(value, list) else str(value) for name, value in given.items()})
    if outputs.page is not None:
        addresses.parse_address(outputs.page)
    for url in outputs.alertmanager:
        addresses.test_url(url)
    if outputs.page_url is not None and not outputs.page_url.endswith("/"):
        outputs = replace(outputs, page_url=f"{outputs.page_url}/")
    return outputs


def build_line(program: str) -> str:
    """How the program was built, for the log. A record with the checksum of another program counts as none."""
    path = pathlib.Path(shutil.which(program) or program).resolve()
    name = f"{path.name}.build"
    for file in (path.with_name(name), path.parent.parent / "share/nagsched" / name):
        try:
            found = dict(line.split(": ", 1) for line in file.read_text(encoding="utf-8").splitlines())
            if found["sha256"] == hashlib.sha256(path.read_bytes()).hexdigest():
                return f"{path} is version {found['version']}, commit {found['commit']}, {found['kit']}, {found['proofs']}"
        except (OSError, ValueError, KeyError):
            continue  # there is no such file, or it isn't a record
    return f"{path}: no record says how it was built"
