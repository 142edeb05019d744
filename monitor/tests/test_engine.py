"""Days of a monitor, simulated: pauses, outages, periods, a full disk, a scheduler that ends."""
import collections
from typing import Dict, Tuple

from nagsched_monitor.model.protocol import Take
from nagsched_monitor.scheduler.plans import Plan

from .simulated import BEGIN, SimulatedClock, SimulatedMonitor, SiteTest, fine, host, service


class Takes(SiteTest):
    def test_their_number(self) -> None:
        """One for each object that is due, except those whose checks the plan sets to later, and for those that it sets to now."""
        self.write_site([host(name) for name in "abcd"], [])
        monitor = self.monitor(fine)
        monitor.run(50)
        now = monitor.clock.now
        for passed, later, at_once, wanted in ((0, "", "", 0), (0, "a", "", 0), (0, "", "a", 1), (0, "a", "a", 1), (3600, "", "", 4), (3600, "a", "", 3),
                                               (3600, "", "a", 4), (3600, "a", "a", 4), (3600, "ab", "bc", 3), (3600, "abcd", "", 0)):
            plan = Plan(later=set(later), at_once=set(at_once))
            monitor.engine.checks.plan_takes(plan, now + passed * 1000)
            self.assertEqual(plan.calls, [(0, Take(now + passed * 1000), None)] * wanted, (passed, later, at_once))


class Pauses(SiteTest):
    def test_an_even_schedule_stays_even(self) -> None:
        """6,000 objects each minute, 100 per second: after a pause of 30 seconds the overdue checks are made within 15, and then all is as before."""
        options = {"interval_length": 1, "max_service_check_spread": 1, "max_host_check_spread": 1}
        names = []
        for part in (1, 2):
            services = [service(f"h{part}", f"s{number:04}") for number in range(2999)]
            self.write(f"part-{part}.json", {"options": options, "hosts": [host(f"h{part}")], "services": services})
            names += [f"h{part}", *(f"h{part};{it['description']}" for it in services)]
        self.write("commands.json", {name: {"line": "true"} for name in names})
        self.write("monitor.json", {"slots": 500})
        monitor = self.monitor(fine)
        monitor.run(60)
        monitor.pause(30)
        monitor.run(90)
        counts = monitor.checks_a_second()
        for first, last, wanted in ((5, 60, 100), (60, 90, 0), (91, 104, 300), (110, 179, 100)):
            least, most = min(counts[first:last]), max(counts[first:last])
            self.assertTrue(wanted - 4 <= least and most <= wanted + 4, (first, last, wanted, least, most))

    def test_a_wall_clock_that_goes_back(self) -> None:
        self.write_site([host("web")], [])
        clock = SimulatedClock()
        monitor = self.monitor(fine, clock)
        monitor.run(120)
        clock.wall_is_off = -3600
        monitor.run(120)
        starts = monitor.starts()["web"]
        self.assertEqual([later - earlier for earlier, later in zip(starts, starts[1:])], [60_000] * (len(starts) - 1))
        self.assertGreaterEqual(len(starts), 4)


    def test_a_start_behind_a_clock_that_was_ahead(self) -> None:
        """The clock was an hour ahead, and is right at the next start: moments continue, and so do checks."""
        self.write_site([host("web")], [])
        monitor = self.monitor(fine)
        monitor.run(3600)
        monitor.engine.close()
        last = monitor.clock.now
        first = max(BEGIN, monitor.store.last_moment())
        monitor.close()
        self.assertTrue(last - 10_000 <= first <= last, last - first)
        after = self.monitor(fine, SimulatedClock(first))
        after.run(180)
        self.assertGreaterEqual(len(after.runners.started), 3)


class Outages(SiteTest):
    def outage(self, intervals: Tuple[int, int]) -> Tuple[SimulatedMonitor, int, int]:
        """A gateway, 50 hosts below it and ten services on each: the gateway fails after ten minutes, for ten minutes."""
        check, retry = intervals
        hosts = [host("gateway", check_interval=check, retry_interval=retry)]
        hosts += [host(f"h{number:02}", check_interval=check, retry_interval=retry, parents=["gateway"]) for number in range(50)]
        services = [service(f"h{number:02}", f"s{each}", check_interval=check, retry_interval=retry) for number in range(50) for each in range(10)]
        self.write_site(hosts, services, {"service_inter_check_delay_method": "s", "host_inter_check_delay_method": "s",
                                          "max_service_check_spread": 5, "max_host_check_spread": 5}, monitor={"slots": 500})
        down, up = BEGIN + 600_000, BEGIN + 1_200_000

        def plugin(name: str, moment: int) -> Tuple[int, int, str]:
            return (500, 2, "no answer") if down <= moment < up else (50, 0, "fine")

        return self.monitor(plugin), down, up

    def test_no_service_is_hard_while_its_host_stands_as_up(self) -> None:
        monitor, down, up = self.outage((300, 60))
        monitor.run(1500)
        state: Dict[str, str] = {}
        hard_since: Dict[str, int] = {}
        longest = 0
        for moment, change in monitor.changes:
            state[change.name] = change.state
            if ";" in change.name and change.kind == "HARD" and change.state == "CRITICAL":
                if state.get(change.name.partition(";")[0], "UP") == "UP":
                    hard_since[change.name] = moment
            if ";" not in change.name and change.state != "UP":
                for name in [name for name in hard_since if name.startswith(f"{change.name};")]:
                    longest = max(longest, moment - hard_since.pop(name))
        self.assertEqual(hard_since, {})
        self.assertLessEqual(longest, 1_000)
        states = {obj.name: obj.standing.state for obj in monitor.scheduling.states.objects.values() if obj.standing is not None}
        self.assertEqual(collections.Counter(states.values()), {"UP": 51, "OK": 500})

    def test_children_are_looked_at_when_the_parent_is_back(self) -> None:
        """At once, except those that were checked within the horizon: the next service that is OK asks for these."""
        monitor, _, up = self.outage((300, 60))
        monitor.run(1800)
        back = {change.name: moment for moment, change in monitor.changes if change.state == "UP" and moment >= up}
        self.assertEqual(len(back), 51)
        fresh = {job.name for moment, job in monitor.runners.started if back["gateway"] - 15_600 < moment < back["gateway"]}
        self.assertLess(len(fresh - {"gateway"} & set(back)), 200)
        self.assertLessEqual(max(moment for name, moment in back.items() if name not in fresh) - back["gateway"], 5_000)
        self.assertLessEqual(max(back.values()) - back["gateway"], 90_000)

    def test_the_rhythm_of_a_host_stays(self) -> None:
        """A host that is checked because of a service is checked at its own times as before."""
        self.write_site([host("web", check_interval=300)], [service("web", "http", check_interval=70, max_check_attempts=1)])
        monitor = self.monitor(lambda name, moment: (10, 2 if ";" in name and (moment // 70_000) % 2 else 0, ""))
        monitor.run(1300)
        starts = monitor.starts()["web"]
        self.assertEqual([start for start in starts if start % 300_000 == 0], [0, 300_000, 600_000, 900_000, 1_200_000])
        self.assertGreater(len(starts), 10)

    def test_no_host_is_asked_for_within_the_horizon(self) -> None:
        self.write_site([host("web", check_interval=5)], [service("web", "http", check_interval=7, max_check_attempts=1)])
        monitor = self.monitor(lambda name, moment: (10, 2 if ";" in name and (moment // 7_000) % 2 else 0, ""))
        monitor.run(100)
        self.assertEqual(monitor.starts()["web"], list(range(0, 100_000, 5_000)))


class Periods(SiteTest):
    def test_an_object_is_checked_in_its_period(self) -> None:
        day = {name: ["08:10-08:20", "08:30-08:40"] for name in ("monday", "tuesday", "wednesday", "thursday", "friday")}
        periods = {"periods": {"p": {"weekdays": day}}, "objects": {"web;http": "p"}}
        self.write_site([host("web")], [service("web", "http")], periods=periods, monitor={"zone": "UTC"})
        monitor = self.monitor(fine)
        monitor.run(3600)
        minutes = {start // 60_000 for start in monitor.starts()["web;http"]}
        self.assertEqual(minutes, {*range(10, 20), *range(30, 40)})
        self.assertEqual(len(monitor.starts()["web"]), 60)

    def test_an_operator_stands_above_the_period(self) -> None:
        self.write_site([host("web")], [])
        monitor = self.monitor(fine)
        monitor.run(100)
        monitor.ask(do="disable", name="web")
        monitor.run(300)
        self.assertEqual(len(monitor.starts()["web"]), 2)
        monitor.ask(do="enable", name="web")
        monitor.run(100)
        self.assertEqual(monitor.starts()["web"][2:], [400_000, 420_000, 480_000])


class Turns(SiteTest):
    def test_a_next_check_for_later_is_set_without_haste(self) -> None:
        """It waits for the next turn, a tenth of a second at most; one for now asks for a turn at once."""
        self.write_site([host("h")], [])
        monitor = self.monitor(fine)
        monitor.engine.turn()
        now, checks, obj = monitor.clock.now, monitor.engine.checks, monitor.engine.objects["h"]
        checks.plan_check(obj, now + 30_000, False)
        self.assertFalse(checks.has_more(now))
        self.assertEqual(monitor.engine._next_turn(now), now + 100)
        checks.plan_check(obj, now, False)
        self.assertEqual(monitor.engine._next_turn(now), 0)
