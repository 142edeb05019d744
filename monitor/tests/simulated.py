"""A simulated site: a clock that the test sets, and plugins that are functions. The schedulers and the database are real."""
import heapq
import json
import os
import pathlib
import tempfile
import unittest
from dataclasses import dataclass, field
from typing import Any, Callable, Dict, List, Mapping, Optional, Set, Tuple

from nagsched_monitor.core.engine import Engine
from nagsched_monitor.core.requests import Request
from nagsched_monitor.faults import SiteFault
from nagsched_monitor.model.clock import Clock
from nagsched_monitor.model.jobs import Event, Job, JobFinished, JobLost
from nagsched_monitor.model.objects import Owner
from nagsched_monitor.program.loop import Loop
from nagsched_monitor.run.runners import RunnerPools
from nagsched_monitor.scheduler.schedulers import Conversation, ConversationFactory
from nagsched_monitor.scheduler.scheduling import Scheduling
from nagsched_monitor.site.site import Site, read_site
from nagsched_monitor.store.rows import StoredChange, StoredResult
from nagsched_monitor.store.store import Store, insert
from nagsched_monitor.system.poller import FilePoller

from .invariants import Invariants

PROGRAM = os.environ.get("NAGSCHED", "nagsched")
# 2026-11-27 08:00:00, in UTC.
BEGIN = 1_795_766_400_000

# The result of a plugin at a moment: its duration in milliseconds, its exit code and its output.
Plugin = Callable[[str, int], Tuple[int, int, str]]


@dataclass
class SimulatedClock(Clock):
    now: int = BEGIN
    # The difference to which the wall clock is set.
    wall_is_off: float = 0.0

    def moment(self) -> int:
        return self.now

    def wall(self) -> float:
        return self.now / 1000 + self.wall_is_off


@dataclass
class SimulatedRunners(RunnerPools):
    """Runs no process: each job ends when the clock comes to its end."""

    clock: SimulatedClock
    plugin: Plugin
    started: List[Tuple[int, Job]] = field(default_factory=list)
    _ends: List[Tuple[int, int, Event]] = field(default_factory=list)

    def start(self, job: Job) -> None:
        took, code, output = self.plugin(job.name, self.clock.now)
        self.started.append((self.clock.now, job))
        heapq.heappush(self._ends, (self.clock.now + took, len(self.started), JobFinished(job, "exited", code, output)))

    def flush(self) -> None:
        pass

    def events(self) -> List[Event]:
        events: List[Event] = []
        while self._ends and self._ends[0][0] <= self.clock.now:
            events.append(heapq.heappop(self._ends)[2])
        return events

    def first(self) -> Optional[int]:
        return self._ends[0][0] if self._ends else None

    def job_ids(self) -> Set[int]:
        return {id(event.job) for _, _, event in self._ends}

    def running(self) -> List[str]:
        """The names of the objects whose plugins run now."""
        return [event.job.name for end, _, event in self._ends if end > self.clock.now]

    def process_counts(self) -> Dict[str, Dict[str, int]]:
        return {}

    def kill(self, job: Job) -> None:
        """Its plugin is killed, and lost."""
        self._ends = [(self.clock.now, number, JobLost(job)) if event.job is job else (end, number, event) for end, number, event in self._ends]
        heapq.heapify(self._ends)


class SimulatedPoller(FilePoller):
    """Time passes at once; the only events are the ends of plugins."""

    def __init__(self, clock: SimulatedClock, runners: SimulatedRunners) -> None:
        super().__init__()
        self.clock, self.runners = clock, runners

    def wait(self, milliseconds: float) -> bool:
        until = self.clock.now + max(0, round(milliseconds))
        first = self.runners.first()
        has_come = first is not None and first <= until
        self.clock.now = max(self.clock.now, first) if has_come and first is not None else until
        return has_come

    def sleep(self, milliseconds: float) -> None:
        self.clock.now += max(0, round(milliseconds))


class SimulatedMonitor:
    """A monitor whose day takes seconds."""

    def __init__(
        self, folder: pathlib.Path, plugin: Plugin, clock: Optional[SimulatedClock] = None, converse: ConversationFactory = Conversation,
        store: Optional[Store] = None,
    ) -> None:
        self.folder = folder
        site: Site = read_site(folder, PROGRAM)
        self.store = store or Store(folder)
        self.store._database.execute("PRAGMA synchronous=OFF")
        self.clock = clock or SimulatedClock()
        # The least time from one turn to the next, in milliseconds.
        self.between = 1
        self.lines: List[str] = []
        self.changes: List[Tuple[int, StoredChange]] = []
        self.scheduling = Scheduling(PROGRAM, site, self.store, self.clock, self.log, True, converse)
        try:
            self.scheduling.open()
        except BaseException:
            self.close()
            raise
        self.runners = SimulatedRunners(self.clock, plugin)
        self.engine = Engine(self.scheduling, self.runners, self.store, self.clock, self.log,
                             lambda request: request.reply({"done": "reload"}), lambda: self.loop.stop())
        # Actions of its loop after each turn, and every second.
        self.invariants = Invariants(self.engine, self.runners)
        self.after: List[Callable[[], Optional[int]]] = [self.take_changes, self.look]
        self.chores: List[Callable[[], None]] = []
        self.loop = Loop(self.engine, SimulatedPoller(self.clock, self.runners), self.clock, self.log, [], self.after, self.chores)

    def log(self, line: str) -> None:
        self.lines.append(line)

    @property
    def site(self) -> Site:
        return self.scheduling.site

    def take_changes(self) -> Optional[int]:
        self.changes += [(self.clock.now, change) for change in self.scheduling.pop_changes()]
        return None

    def look(self) -> Optional[int]:
        self.invariants.look()
        return None

    def assert_invariants(self) -> None:
        assert not self.invariants.broken, self.invariants.broken[:5]

    def run(self, seconds: float) -> None:
        """Continues for this time, with a turn when something is due or has come."""
        end = self.clock.now + round(seconds * 1000)
        while self.clock.now < end:
            self.engine.requests.begin_turn()
            wanted = self.engine.turn()
            self.take_changes()
            self.look()
            self.assert_invariants()
            ends = self.runners.first()
            wanted = wanted if ends is None else min(wanted, ends)
            self.clock.now = min(end, max(wanted, self.clock.now + self.between))

    def work(self, seconds: float) -> None:
        """Continues for this time, with the monitor's own loop."""
        end = self.clock.now + round(seconds * 1000)
        while self.clock.now < end and self.loop.status is None:
            self.loop.run_turn()
            self.assert_invariants()

    def kill_schedulers(self) -> None:
        for part in self.scheduling.parts.values():
            if part.conversation is not None:
                part.conversation._process.kill()

    def pause(self, seconds: float) -> None:
        """Nothing runs for this time, as when a machine sleeps."""
        self.clock.now += round(seconds * 1000)

    def ask_line(self, line: bytes) -> Dict[str, Any]:
        """The answer to a request, after the turn in which it is obeyed."""
        answers: List[Mapping[str, Any]] = []
        self.engine.add_request(Request(line, answers.append))
        self.engine.requests.begin_turn()
        self.engine.turn()
        self.take_changes()
        answer: Dict[str, Any] = json.loads(json.dumps(answers[0]))
        return answer

    def ask(self, **members: Any) -> Dict[str, Any]:
        return self.ask_line(json.dumps(members).encode())

    def add_result(self, name: str, code: int, words: str) -> None:
        """A passive result, which is stored."""
        self.store.last_result += 1
        result = StoredResult(self.store.last_result, name, code, words)
        self.store.write(insert("passive", *result))
        self.engine.passive.add(result)

    def objects_with_plugins(self) -> Set[str]:
        """The objects whose plugins run."""
        return {run.key[1] for run in self.scheduling.states.running.owned_by(Owner.PLUGIN)}

    def starts(self) -> Dict[str, List[int]]:
        """When each object's plugin was started, in milliseconds from the beginning."""
        starts: Dict[str, List[int]] = {}
        for moment, job in self.runners.started:
            starts.setdefault(job.name, []).append(moment - BEGIN)
        return starts

    def checks_a_second(self) -> List[int]:
        counts = [0] * ((self.clock.now - BEGIN) // 1000 + 1)
        for moment, _ in self.runners.started:
            counts[(moment - BEGIN) // 1000] += 1
        return counts

    def close(self) -> None:
        self.scheduling.close()
        self.store.close()


class SiteTest(unittest.TestCase):
    """A test with a folder for a site."""

    def setUp(self) -> None:
        holder = tempfile.TemporaryDirectory()
        self.addCleanup(holder.cleanup)
        self.folder = pathlib.Path(holder.name)

    def write(self, name: str, document: Any) -> None:
        (self.folder / name).write_text(document if isinstance(document, str) else json.dumps(document))

    def write_site(self, hosts: List[Any], services: List[Any], options: Optional[Dict[str, Any]] = None, **files: Any) -> None:
        """A site of these hosts and services, whose commands are `true`, and of other files by their names."""
        options = {"interval_length": 1, "host_inter_check_delay_method": "n", "service_inter_check_delay_method": "n", **(options or {})}
        self.write("setup.json", {"options": options, "hosts": hosts, "services": services})
        names = [host["name"] for host in hosts] + [f"{it['host']};{it['description']}" for it in services]
        self.write("commands.json", {name: {"line": "true"} for name in names})
        for name, document in files.items():
            self.write(f"{name}.json", document)

    def monitor(self, plugin: Plugin, clock: Optional[SimulatedClock] = None, converse: ConversationFactory = Conversation) -> SimulatedMonitor:
        monitor = SimulatedMonitor(self.folder, plugin, clock, converse)
        self.addCleanup(monitor.close)
        return monitor


class SiteFilesTest(SiteTest):
    """A test with sites of which some are refused."""

    def refused(self, *words: str) -> None:
        """The site is refused, by a line that has all of these."""
        with self.assertRaises(SiteFault) as caught:
            read_site(self.folder, PROGRAM)
        for word in words:
            self.assertIn(word, str(caught.exception))
        self.assertNotIn("\n", str(caught.exception))


def fine(name: str, moment: int) -> Tuple[int, int, str]:
    """A plugin that finds nothing wrong, in 10 milliseconds."""
    return 10, 0, "fine"


def host(name: str, **members: Any) -> Dict[str, Any]:
    return {"name": name, "check_interval": 60, "retry_interval": 10, "max_check_attempts": 3, **members}


def service(on: str, description: str, **members: Any) -> Dict[str, Any]:
    return {"host": on, "description": description, "check_interval": 60, "retry_interval": 10, "max_check_attempts": 3, **members}
