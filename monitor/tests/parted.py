"""A site in parts with mirrors, simulated: each result is compared with one scheduler's judgement, and each mirror with its original."""
import importlib
import pathlib
import sys
from typing import Any, Dict, Iterable, List, Optional, Sequence, Tuple
from unittest import mock

from nagsched_monitor.model.protocol import Answer, Call, Report, Standing, Status
from nagsched_monitor.scheduler.mirroring import Mirrors, PlannedCall
from nagsched_monitor.scheduler.plans import ObjectAnswer
from nagsched_monitor.site.site import read_site
from nagsched_monitor.store.rows import StoredChange
from nagsched_monitor.store.store import Write

from .one_scheduler import OneScheduler, StandingParts, is_change, standing_parts
from .simulated import PROGRAM, Plugin, SimulatedClock, SimulatedMonitor, SiteTest

CONVERTER = pathlib.Path(__file__).resolve().parents[1] / "from_nagios"
OPTIONS = {"interval_length": 1, "host_inter_check_delay_method": "s", "service_inter_check_delay_method": "s"}


def converter_module(name: str) -> Any:
    """A module of the converter."""
    if str(CONVERTER) not in sys.path:
        sys.path.insert(0, str(CONVERTER))
    return importlib.import_module(name)


def host(name: str, *parents: str, **members: Any) -> Dict[str, Any]:
    return {"name": name, "check_interval": 60, "retry_interval": 10, "max_check_attempts": 3, "parents": list(parents), **members}


def service(on: str, description: str, **members: Any) -> Dict[str, Any]:
    return {"host": on, "description": description, "check_interval": 60, "retry_interval": 10, "max_check_attempts": 3, **members}


def depends(dependent: str, master: str, **members: Any) -> Dict[str, Any]:
    return {"dependent": dependent, "master": master, "criteria": "c,u" if ";" in master else "d,u", **members}


def mirror(of: Dict[str, Any]) -> Dict[str, Any]:
    return {**of, "enabled": False, "check_interval": 0, "retry_interval": 0}


def setup(hosts: List[Dict[str, Any]], services: List[Dict[str, Any]], *dependencies: Dict[str, Any], **options: Any) -> Dict[str, Any]:
    """A setup; its dependencies are those of services."""
    return {"options": {**OPTIONS, **options}, "hosts": hosts, "services": services, "service_dependencies": list(dependencies), "host_dependencies": []}


class PartedSiteTest(SiteTest):
    """A test of parts with mirrors."""

    def setUp(self) -> None:
        super().setUp()
        self.one = OneScheduler()
        # The answers to the results of each original and of each mirror, in their order, since the last change of the parts.
        self.originals: Dict[str, List[Standing]] = {}
        self.mirrors: Dict[Tuple[int, str], List[Standing]] = {}
        self.results = 0
        # The standing of each object with one scheduler, and its changes there.
        self.stands: Dict[str, StandingParts] = {}
        self.wanted: Dict[str, List[StandingParts]] = {}
        owns = Mirrors.apply_answer

        def listening(mirrors: Mirrors, part: int, call: Call, answer: Answer) -> bool:
            is_owned = owns(mirrors, part, call, answer)
            if isinstance(call, Report) and isinstance(answer, Standing) and is_owned:
                self.mirrors.setdefault((part, call.name), []).append(answer)
            return is_owned

        patched = mock.patch.object(Mirrors, "apply_answer", listening)
        patched.start()
        self.addCleanup(patched.stop)

    def write_parts(self, setups: Sequence[Dict[str, Any]], mirrors: Dict[str, Dict[str, str]]) -> None:
        """The files of a site in these parts, whose commands are `true`."""
        for path in self.folder.glob("part-*.json"):
            path.unlink()
        names = set()
        for number, setup in enumerate(setups, 1):
            self.write(f"part-{number}.json", setup)
            names |= {host["name"] for host in setup["hosts"]} | {f"{it['host']};{it['description']}" for it in setup["services"]}
        self.write("mirrors.json", mirrors)
        self.write("commands.json", {name: {"line": "true"} for name in sorted(names)})

    def write_cut(self, setup: Dict[str, Any], objects: int) -> int:
        """The files of a site that is cut into parts of at most this many objects; returns the number of parts."""
        parts = converter_module("nagios_parts")
        setups, mirrors = parts.parts_of(setup, parts.Limits(objects=objects))
        self.write_parts(setups, mirrors)
        return len(setups)

    def start_monitor(self, plugin: Plugin, clock: Optional[SimulatedClock] = None) -> SimulatedMonitor:
        """A monitor of the site, each of whose results is compared with one scheduler's judgement."""
        monitor = self.monitor(plugin, clock)
        store, make = monitor.scheduling.store_calls, monitor.scheduling.make_calls
        asked: List[PlannedCall] = []

        def noted(calls: Sequence[PlannedCall], writes: Sequence[Write] = ()) -> None:
            store(calls, writes)
            asked[:] = calls

        def judged() -> List[ObjectAnswer]:
            heard = make()
            answers = {each.call.name: each.answer for each in heard if isinstance(each.call, Report)}
            for part, call, _ in asked:
                answer = answers.get(call.name) if isinstance(call, Report) and part == monitor.site.objects[call.name].part else None
                if isinstance(call, Report) and isinstance(answer, Standing):
                    self.results += 1
                    self.judge(call, answer)
            return heard

        setattr(monitor.scheduling, "store_calls", noted)
        setattr(monitor.scheduling, "make_calls", judged)
        self.originals, self.mirrors = {}, {}
        return monitor

    def judge(self, call: Report, answer: Standing) -> None:
        """Compares the answer to a result with one scheduler's judgement."""
        wanted = self.one.report(call.name, call.code)
        if standing_parts(answer) != wanted:
            self.fail(f"result {self.results}: {call} gave {answer}, and one scheduler gives {wanted}")
        if is_change(self.stands.get(call.name), wanted):
            self.wanted.setdefault(call.name, []).append(wanted)
        self.stands[call.name] = wanted
        self.originals.setdefault(call.name, []).append(answer)

    def assert_changes(self, changes: Iterable[StoredChange]) -> None:
        """The changes of each object are those that it has with one scheduler, in their order."""
        told: Dict[str, List[StandingParts]] = {}
        for change in changes:
            told.setdefault(change.name, []).append((change.state, change.kind, change.attempt, change.flapping))
        for name in sorted({*told, *self.wanted}):
            self.assertEqual(told.get(name), self.wanted.get(name), name)

    def assert_mirrors_answered_alike(self) -> int:
        """Each result of a mirror was answered as that of its original; returns the number of these results. Then the lists begin from scratch."""
        for (part, name), standings in self.mirrors.items():
            of_original = [standing_parts(standing) + (standing.changed,) for standing in self.originals[name]]
            self.assertEqual([standing_parts(standing) + (standing.changed,) for standing in standings], of_original, (part, name))
        count = sum(map(len, self.mirrors.values()))
        self.originals, self.mirrors = {}, {}
        return count

    def assert_mirrors_stand(self, monitor: SimulatedMonitor) -> None:
        """Each mirror has the standing of its original, according to the schedulers."""
        schedulers = monitor.scheduling.parts
        for part, names in monitor.site.mirrors.items():
            for name, answer in zip(sorted(names), schedulers[part].query([Status(name) for name in sorted(names)])):
                (original,) = schedulers[monitor.site.objects[name].part].query([Status(name)])
                assert isinstance(answer, Standing) and isinstance(original, Standing)
                self.assertEqual((standing_parts(answer), answer.next), (standing_parts(original), None), (part, name))

    def reload(self, monitor: SimulatedMonitor) -> List[str]:
        """Continues with the site as its files are now."""
        changed = monitor.engine.reload(read_site(self.folder, PROGRAM))
        self.assert_mirrors_stand(monitor)
        return changed
