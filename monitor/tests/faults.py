"""A site with all kinds of events, and one fault at one moment of it. Certain facts hold afterwards, at any moment of the fault."""
import contextlib
import json
import pathlib
from typing import Any, Callable, Dict, List, Mapping, Optional, Sequence, Set, Tuple

from nagsched_monitor.core.checks import TOLERANCE
from nagsched_monitor.core.requests import Request
from nagsched_monitor.faults import ConversationEnded, NotStored
from nagsched_monitor.model.jobs import Job
from nagsched_monitor.model.protocol import Standing
from nagsched_monitor.model.objects import Owner
from nagsched_monitor.scheduler.schedulers import Conversation
from nagsched_monitor.site.site import read_site
from nagsched_monitor.store.rows import Cell
from nagsched_monitor.store.store import Store, Write, delete

from .simulated import BEGIN, PROGRAM, SimulatedClock, SimulatedMonitor

OPTIONS: Dict[str, Any] = {"interval_length": 1, "max_service_check_spread": 1, "max_host_check_spread": 1}
TIMES: Dict[str, Any] = {"check_interval": 60, "retry_interval": 20, "max_check_attempts": 2}
# In seconds: when the gateway fails and is back, when the site is reloaded, when a save is requested, and the length of the whole.
DOWN, UP, RELOAD, SAVE, END, QUIET = 150, 300, 220, 350, 480, 200
# When passive results come, and for which objects.
RESULTS = [(40, "near;trap"), (41, "near;trap"), (100, "far;web"), (160, "near;trap"), (221, "far;backup"), (260, "far;web"), (351, "near;trap"),
           (352, "gateway")]
ORDERS = [(70, "disable", "far;web"), (130, "enable", "far;web"), (240, "reschedule", "near;web")]


class MonitorKilled(BaseException):
    """The monitor is killed here."""


def write_site(folder: pathlib.Path, is_later: bool) -> None:
    """Two parts: a gateway with a host below it in the first, and a mirror of it with another host in the second. A reload adds a third."""
    gateway: Dict[str, Any] = {"name": "gateway", **TIMES}
    mirror: Dict[str, Any] = {**gateway, "enabled": False, "check_interval": 0, "retry_interval": 0}
    passive: Dict[str, Any] = {"enabled": False, "max_check_attempts": 1, "check_interval": 0}
    first = {"options": OPTIONS, "hosts": [gateway, {"name": "near", "parents": ["gateway"], **TIMES}],
             "services": [{"host": "near", "description": "web", **TIMES}, {"host": "near", "description": "trap", **passive}]}
    hosts = [mirror, {"name": "far", "parents": ["gateway"], **TIMES}, *([{"name": "new", "parents": ["gateway"], **TIMES}] if is_later else [])]
    services = [{"host": "far", "description": "web", **TIMES}, {"host": "far", "description": "backup", **passive}]
    second = {"options": OPTIONS, "hosts": hosts, "services": services}
    names = ["gateway", "near", "near;web", "far", "far;web", "far;backup", *(["new"] if is_later else [])]
    day = {name: ["08:01-08:04", "08:06-09:00"] for name in ("monday", "tuesday", "wednesday", "thursday", "friday", "saturday", "sunday")}
    for name, document in (
        ("part-1", first), ("part-2", second), ("mirrors", {"part-2": {"gateway": "part-1"}}),
        ("commands", {name: {"line": "true", "limit": 30} for name in names}),
        ("passive", {"near;trap": {"only": True}, "far;backup": {"only": True, "freshness": 90}}), ("monitor", {"zone": "UTC", "slots": 4}),
        ("periods", {"periods": {"p": {"weekdays": day}}, "objects": {"near;web": "p"}}),
    ):
        (folder / f"{name}.json").write_text(json.dumps(document))


def plugin(name: str, moment: int) -> Tuple[int, int, str]:
    is_down = DOWN <= (moment - BEGIN) / 1000 < UP
    return 12_000 if name == "far;web" else 300, 2 if is_down or name == "far;backup" else 0, "by a plugin"


class FaultRun:
    """The site with a fault. The write with this number is refused, or is the last one. Or the scheduler ends at the exchange with this number, or
    the start of a scheduler with this number is refused."""

    def __init__(self, folder: pathlib.Path, refused: int = 0, last: int = 0, ends: int = 0, start: int = 0) -> None:
        self.folder, self.refused, self.last, self.ends, self.start = folder, refused, last, ends, start
        self.writes = self.exchanges = self.starts = 0
        self.clock = SimulatedClock()
        # Accepted and reported results, by their words; stored and accepted documents; the answers to requests.
        self.accepted: List[str] = []
        self.reported: List[str] = []
        self.documents: Set[str] = set()
        self.taken: Set[str] = set()
        self.lines: List[str] = []
        self.wrong: List[str] = []
        self.quiet_from: float = END
        write_site(folder, False)
        self.monitor = self._start_monitor()

    # ---- faults

    def _start_monitor(self) -> SimulatedMonitor:
        converse = self._converse()
        while True:
            try:
                monitor = SimulatedMonitor(self.folder, plugin, self.clock, converse, self._store())
                break
            except (ConversationEnded, NotStored, MonitorKilled):
                self.clock.now += 1_000
        start = monitor.runners.start

        def once(job: Job) -> None:
            if job.name in monitor.runners.running():
                self.wrong.append(f"two plugins of {job.name} run at once")
            if job.name == "near;trap":
                self.wrong.append("a plugin of an object without a command runs")
            start(job)

        setattr(monitor.runners, "start", once)
        monitor.after.append(self._take_documents)
        monitor.lines = self.lines
        return monitor

    def _store(self) -> Store:
        store = Store(self.folder)
        write, insert_all = store.write, store.insert_all
        inserted: List[Tuple[str, Sequence[Cell]]] = []

        def noted(table: str, rows: Sequence[Tuple[int, Sequence[Cell]]]) -> None:
            inserted.extend((table, cells) for _, cells in rows)
            insert_all(table, rows)

        def counted(*writes: Write) -> None:
            self.writes += 1
            if self.writes == self.refused:
                self.quiet_from = max(END, self._now())
                raise NotStored("the disk is full")
            inserted.clear()
            write(*writes)
            for table, cells in inserted:
                if table == "calls" and str(cells[2]).startswith("result "):
                    self.reported.append(str(cells[2]))
                elif table == "outbox":
                    self.documents.add(str(cells[0]))
            if self.writes == self.last:
                raise MonitorKilled

        setattr(store, "write", counted)
        setattr(store, "insert_all", noted)
        return store

    def _converse(self) -> Callable[..., Conversation]:
        faulty = self

        class Ending(Conversation):
            def begin(self, lines: Sequence[str]) -> None:
                faulty.exchanges += 1
                if faulty.exchanges == faulty.ends:
                    self._process.kill()
                super().begin(lines)

        def begun(*words: Any) -> Conversation:
            self.starts += 1
            if self.starts == self.start:
                raise ConversationEnded("no room for a process")
            return Ending(*words)

        return begun

    def _take_documents(self) -> Optional[int]:
        """The command for changes accepts all waiting changes."""
        with contextlib.suppress(NotStored):
            for number, document, _ in self.monitor.store.outbox():
                self.taken.add(document)
                self.monitor.store.write(delete("outbox", "id <= ?", number))
        return None

    # ---- events

    def run(self) -> None:
        """All events, and then a time without new ones."""
        happens: List[Tuple[float, Callable[[], bool]]] = [(RELOAD, self._reload), (SAVE, lambda: self._ask({"do": "save"}))]
        happens += [(at, self._result(number, name)) for number, (at, name) in enumerate(RESULTS)]
        happens += [(at, self._order(number, word, name)) for number, (at, word, name) in enumerate(ORDERS)]
        if self.start:
            happens += [(at, self._kill) for at in range(50, END, 60)]
        happens.sort(key=lambda each: each[0])
        for at, happen in happens:
            self._work_until(at)
            for _ in range(30):
                try:
                    if happen():
                        break
                except MonitorKilled:
                    self._restart()
                self._work_until(self._now() + 1)
        self._work_until(END)
        while self._now() < self.quiet_from + QUIET:
            self._work_until(self._now() + 1)

    def _now(self) -> float:
        return (self.clock.now - BEGIN) / 1000

    def _work_until(self, seconds: float) -> None:
        while self._now() < seconds:
            try:
                self.monitor.work(min(1.0, seconds - self._now()))
                self._look()
            except MonitorKilled:
                self._restart()

    def _restart(self) -> None:
        """The monitor was killed, and its runners and schedulers with it."""
        self.monitor.kill_schedulers()
        self.monitor.close()
        self.clock.now += 2_000
        self.monitor = self._start_monitor()
        self.quiet_from = max(END, self._now())

    def _kill(self) -> bool:
        self.monitor.kill_schedulers()
        return True

    def _ask(self, request: Dict[str, Any]) -> bool:
        answers: List[Mapping[str, Any]] = []
        self.monitor.engine.add_request(Request(json.dumps(request).encode(), answers.append))
        for _ in range(3):
            self.monitor.loop.run_turn()
            if answers:
                return not answers[0].get("again", False)
        return False

    def _result(self, number: int, name: str) -> Callable[[], bool]:
        def given() -> bool:
            words = f"result {number} of {name}"
            is_taken = self._ask({"do": "result", "name": name, "code": number % 3, "output": words, "number": f"result-{number}"})
            self.accepted += [words] if is_taken else []
            return is_taken

        return given

    def _order(self, number: int, word: str, name: str) -> Callable[[], bool]:
        return lambda: self._ask({"do": word, "name": name, "number": f"order-{number}"})

    def _reload(self) -> bool:
        write_site(self.folder, True)
        try:
            self.monitor.engine.reload(read_site(self.folder, PROGRAM))
        except (NotStored, ConversationEnded):
            return False
        return True

    # ---- facts that hold

    def _look(self) -> None:
        """Facts that hold at any time."""
        now = self.clock.now
        for run in self.monitor.scheduling.states.running.values():
            is_owned = run.owner in (Owner.PLUGIN, Owner.RESULT)
            if is_owned and (run.deadline is None or run.deadline < now - 60_000):
                self.wrong.append(f"{self._now():g} s: a run without a deadline, or past it: {run}")

    def judge(self) -> List[str]:
        """Facts that don't hold at the end, though they should."""
        wrong = list(self.wrong)
        engine, scheduling = self.monitor.engine, self.monitor.scheduling
        wrong += [line for line in self.lines if line.startswith("fault: ")]
        wrong += [f"{words} was accepted and reported {self.reported.count(words)} times" for words in self.accepted if self.reported.count(words) != 1]
        wrong += [f"not accepted: {number} of {name}" for number, (_, name) in enumerate(RESULTS) if f"result {number} of {name}" not in self.accepted]
        wrong += [f"result still waits: {result}" for result in self.monitor.store.waiting_results()]
        wrong += [f"never told: {document}" for document in self.documents - self.taken]
        for run in scheduling.states.running.values():
            if run.owner is Owner.NOBODY:
                wrong.append(f"nobody ends {run}")
        for part, scheduler in scheduling.parts.items():
            state = scheduler.state()
            wrong += [f"known otherwise: {name}" for name in scheduling.states.apply_saved(scheduling.mirrors.apply_saved(part, json.loads(state)["objects"]))]
        wrong += self._unmonitored_objects()
        if sorted(engine.objects) != sorted(["far", "far;backup", "far;web", "gateway", "near", "near;trap", "near;web", "new"]):
            wrong.append(f"objects {sorted(engine.objects)}")
        return wrong

    def _unmonitored_objects(self) -> List[str]:
        """Objects whose checks aren't in time and in phase, whose states differ from those of their plugins, or whose mirror's standing differs."""
        wrong = []
        starts = self.monitor.starts()
        now = self.clock.now - BEGIN
        for name, obj in self.monitor.engine.objects.items():
            if obj.definition.passive_only:
                continue
            own = starts.get(name, [])
            if not own or now - own[-1] > 60_000 + TOLERANCE + 12_500:
                wrong.append(f"{name} wasn't checked in time: {own[-3:]}, now {now}")
            elif obj.phase is None or min((own[-1] + BEGIN - obj.phase) % 60_000, (obj.phase - own[-1] - BEGIN) % 60_000) > 2 * TOLERANCE:
                wrong.append(f"{name} isn't in phase: {own[-3:]}, phase {obj.phase and obj.phase - BEGIN}")
            if obj.standing is None or obj.standing.is_problem():
                wrong.append(f"{name} stands as {obj.standing}")
        standing = self.monitor.engine.objects["far;backup"].standing
        if not isinstance(standing, Standing) or standing.state != "CRITICAL":
            wrong.append(f"far;backup stands as {standing}")
        return wrong
