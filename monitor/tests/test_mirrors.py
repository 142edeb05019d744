"""Parts with mirrors: each result is judged as by one scheduler, through outages, restarts and other cuts."""
import bisect
import random
from typing import Any, Dict, List, Tuple
from unittest import mock

from nagsched_monitor.faults import NotStored
from nagsched_monitor.model.protocol import Reschedule
from nagsched_monitor.site.site import read_site

from .parted import PartedSiteTest, depends, host, mirror, service, setup
from .simulated import BEGIN, PROGRAM, Plugin, SimulatedMonitor, fine

DAY = 86_400
INTERVAL, RETRY = 3_600, 900


def random_network(chance: random.Random, count: int) -> Dict[str, Any]:
    """Hosts with one parent or two, two services each, and dependencies of both kinds from later objects on earlier ones."""
    names = [f"h{number:02}" for number in range(count)]
    timing = {"check_interval": INTERVAL, "retry_interval": RETRY}
    hosts, services = [], []
    for number, name in enumerate(names):
        parents = chance.sample(names[max(0, number - 4) : number], min(number, chance.randint(1, 2)))
        hosts.append(host(name, *parents, **{**timing, "max_check_attempts": chance.randint(1, 4)}))
        services += [service(name, each, **{**timing, "max_check_attempts": chance.randint(1, 4)}) for each in ("load", "web")]
    made = setup(hosts, services)
    for _ in range(count // 2):
        first, last = sorted(chance.sample(range(count), 2))
        inherits = {"inherits_parent": chance.random() < 0.5}
        made["service_dependencies"].append(depends(f"{names[last]};{chance.choice(('load', 'web'))}", f"{names[first]};web", **inherits))
        if chance.random() < 0.3:
            made["host_dependencies"].append(depends(names[last], names[first], **inherits))
    return made


class Outages:
    """Random outages of a network over days: a host answers if it and one of its parents are up, a service if its host answers and it is well itself."""

    def __init__(self, network: Dict[str, Any], chance: random.Random, days: float) -> None:
        self._parents = {host["name"]: host["parents"] for host in network["hosts"]}
        # From each of these moments on an object is well (0), has this code, or changes from one check to the next (4).
        self._codes: Dict[str, Tuple[List[int], List[int]]] = {}
        for name in [*self._parents, *(f"{it['host']};{it['description']}" for it in network["services"])]:
            moments, codes, moment = [0], [0], BEGIN
            while moment < BEGIN + days * DAY * 1000:
                moment += round(chance.expovariate(1 / (6 * 3600)) * 1000)
                moments.append(moment)
                codes.append(0 if codes[-1] else chance.choice((1, 2, 3, 4) if ";" in name else (1, 2, 4)))
            self._codes[name] = moments, codes
        self._chance = chance

    def _code(self, name: str, moment: int) -> int:
        moments, codes = self._codes[name]
        code = codes[bisect.bisect_right(moments, moment) - 1]
        return self._chance.choice((0, 2)) if code == 4 else code

    def _answers(self, name: str, moment: int) -> bool:
        parents = self._parents[name]
        return self._code(name, moment) == 0 and (not parents or any(self._answers(parent, moment) for parent in parents))

    def plugin(self, name: str, moment: int) -> Tuple[int, int, str]:
        """The duration of a check, and its result."""
        on = name.partition(";")[0]
        code = self._code(name, moment) if self._answers(on, moment) else 2
        return self._chance.randint(20, 3_000), code, f"code {code}"


class AsOneScheduler(PartedSiteTest):
    @mock.patch.multiple("nagsched_monitor.core.engine", LONGEST_WAIT=60_000, PAUSE=61_000)
    def test_a_week_of_random_outages(self) -> None:
        """Each result is judged as by one scheduler, and each mirror as its original; passive results, restarts and other cuts come between."""
        chance = random.Random(11)
        network = random_network(chance, 14)
        self.one.add(network)
        outages = Outages(network, chance, 8)
        services = [f"{it['host']};{it['description']}" for it in network["services"]]
        mirrored, parts, told = 0, [], []
        self.write_cut(network, 13)
        monitor = self.start_monitor(outages.plugin)
        for day, objects in enumerate((13, 13, 16, 14, 24, 42, 18)):
            parts.append(self.write_cut(network, objects))
            self.reload(monitor)
            for _ in range(8):
                monitor.run(chance.uniform(0, 2 * DAY / 8))
                for name in chance.sample([*services, "h00", "h03"], 4):
                    monitor.add_result(name, chance.choice((0, 0, 1, 2)), "passive")
            mirrored += self.assert_mirrors_answered_alike()
            told += [change for _, change in monitor.changes]
            monitor.changes.clear()
            if day % 2:
                monitor.scheduling.store_calls(())
                monitor.close()
                monitor = self.start_monitor(outages.plugin, monitor.clock)
        self.assert_changes(told)
        self.assertEqual(parts, [7, 7, 5, 6, 3, 1, 4])
        self.assertGreater(self.results, 5_000)
        self.assertGreater(mirrored, 2_000)
        self.assertFalse([line for line in monitor.lines if "too late" in line], monitor.lines)


class Handed(PartedSiteTest):
    """Two parts written by the test: a gateway and its ping in the first, and in the second a host behind it, whose service depends on the ping."""

    def site(self, plugin: Plugin = fine) -> SimulatedMonitor:
        gateway, ping = host("gateway"), service("gateway", "ping")
        first = setup([gateway, host("near", "gateway")], [ping, service("near", "web")])
        second = setup([mirror(gateway), host("far", "gateway")], [mirror(ping), service("far", "web")], depends("far;web", "gateway;ping"))
        self.write_parts([first, second], {"part-2": {"gateway": "part-1", "gateway;ping": "part-1"}})
        self.one.add(first)
        self.one.add(second, ("gateway", "gateway;ping"))
        return self.start_monitor(plugin)

    def test_an_object_is_there_once(self) -> None:
        monitor = self.site()
        monitor.run(230)
        self.assertEqual(sorted(monitor.site.objects), ["far", "far;web", "gateway", "gateway;ping", "near", "near;web"])
        self.assertEqual(sorted(name for kept in monitor.store.standings() for name in [kept.name]), sorted(monitor.site.objects))
        self.assertEqual({name: len(starts) for name, starts in monitor.starts().items()}, {name: 4 for name in monitor.site.objects})
        self.assertEqual(self.assert_mirrors_answered_alike(), 8)

    def test_unreachable_behind_a_mirror(self) -> None:
        monitor = self.site(lambda name, moment: (50, 2 if moment > BEGIN + 120_000 else 0, ""))
        monitor.run(400)
        last = {change.name: (change.state, change.kind) for _, change in monitor.changes}
        self.assertEqual((last["gateway"], last["near"], last["far"]), (("DOWN", "HARD"), ("UNREACHABLE", "HARD"), ("UNREACHABLE", "HARD")))
        self.assertEqual(len([change for _, change in monitor.changes if change.name == "gateway"]), 2)

    def test_a_dependency_on_a_mirror(self) -> None:
        """While the ping is hard CRITICAL in the first part, its dependents in the second aren't checked."""
        bad = range(BEGIN + 120_000, BEGIN + 600_000)
        monitor = self.site(lambda name, moment: (50, 2 if name == "gateway;ping" and moment in bad else 0, ""))
        monitor.run(900)
        changes = [(moment, change.state, change.kind) for moment, change in monitor.changes if change.name == "gateway;ping"]
        (down,) = [moment - BEGIN for moment, state, kind in changes if (state, kind) == ("CRITICAL", "HARD")]
        (up,) = [moment - BEGIN for moment, state, _ in changes if state == "OK"]
        self.assertEqual([start for start in monitor.starts()["far;web"] if down < start < up], [])
        self.assertGreater(len([start for start in monitor.starts()["near;web"] if down < start < up]), 5)
        self.assertGreater(len([start for start in monitor.starts()["far;web"] if start > up]), 3)

    def test_a_passive_result(self) -> None:
        monitor = self.site()
        monitor.run(70)
        self.assert_mirrors_answered_alike()
        for code in (2, 2, 0):
            monitor.add_result("gateway", code, "by hand")
        monitor.run(1)
        self.assertEqual([change.state for _, change in monitor.changes], ["DOWN", "UP"])
        self.assertEqual(self.assert_mirrors_answered_alike(), 3)

    def test_a_full_disk(self) -> None:
        """A result that can't be stored is stored later, once for each part."""
        monitor = self.site(lambda name, moment: (2_000, 2, "bad"))
        monitor.run(1)
        write = monitor.store.write

        def refuse(*writes: Any) -> None:
            raise NotStored("database or disk is full")

        setattr(monitor.store, "write", refuse)
        monitor.run(60)
        setattr(monitor.store, "write", write)
        monitor.run(300)
        self.assertGreater(self.assert_mirrors_answered_alike(), 10)

    def test_a_scheduler_that_took_another_object(self) -> None:
        """If another object is due before a mirror, the schedulers are opened again, and the result reaches both."""
        monitor = self.site()
        monitor.run(30)
        monitor.scheduling.store_calls([(1, Reschedule("far;web", 0, True), None), (1, Reschedule("far", 0, True), None)])
        monitor.add_result("gateway", 2, "by hand")
        monitor.run(300)
        self.assert_mirrors_answered_alike()


class Mirrored(PartedSiteTest):
    def test_a_mirror_that_isnt_taken(self) -> None:
        """A result that is to be reported waits until a new mirror of its object runs."""
        gateway = host("gateway")
        self.write_parts([setup([gateway], []), setup([host("far")], [])], {})
        monitor = self.monitor(fine)
        monitor.run(30)
        monitor.ask(do="result", name="gateway", code=2, output="down")
        self.write_parts([setup([gateway], []), setup([mirror(gateway), host("far", "gateway")], [])], {"part-2": {"gateway": "part-1"}})
        monitor.engine.reload(read_site(self.folder, PROGRAM))
        self.assertFalse(monitor.scheduling.is_reportable((0, "gateway")))
        monitor.engine.requests.begin_turn()
        monitor.engine.turn()
        self.assertEqual(monitor.engine.passive.count, 1)
        monitor.run(5)
        self.assertEqual(([change.words for _, change in monitor.changes], monitor.engine.passive.count), (["down"], 0))
        self.assertTrue(monitor.scheduling.is_reportable((0, "gateway")))
