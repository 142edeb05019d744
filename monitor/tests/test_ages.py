"""The age of what is known: objects without a result in time are seen, whatever keeps results away, and no others."""
from typing import Tuple

from nagsched_monitor.model.jobs import Job, JobFinished, JobLost

from .simulated import SimulatedMonitor, SiteTest, fine, host, service

ALWAYS = {day: ["00:00-24:00"] for day in ("monday", "tuesday", "wednesday", "thursday", "friday", "saturday", "sunday")}


class Ages(SiteTest):
    def overdue(self, monitor: SimulatedMonitor) -> Tuple[int, int]:
        found = monitor.engine.checks.overdue()
        return found.number, found.promised

    def lose(self, monitor: SimulatedMonitor) -> None:
        """From now on no plugin can be started."""
        start = monitor.runners.start

        def lost(job: Job) -> None:
            start(job)
            monitor.runners._ends = [(end, number, JobLost(job, "no room", is_local=True) if isinstance(event, JobFinished) and event.job is job else event)
                                     for end, number, event in monitor.runners._ends]

        setattr(monitor.runners, "start", lost)

    def test_no_plugin_can_be_started(self) -> None:
        """All are overdue after two intervals, their limit and a minute; figures, log and signs say so, and again after a restart."""
        self.write_site([host(f"h{number}") for number in range(5)], [])
        monitor = self.monitor(fine)
        monitor.run(120)
        self.assertEqual(self.overdue(monitor), (0, 5))
        self.lose(monitor)
        monitor.run(170)
        self.assertEqual(self.overdue(monitor), (0, 5))
        monitor.run(70)
        self.assertEqual(self.overdue(monitor), (5, 5))
        self.assertEqual({name: monitor.store.figures()[name] for name in ("overdue", "promised")}, {"overdue": 5, "promised": 5})
        self.assertGreater(monitor.ask(do="signs")["overdue_by"], 0)
        self.assertEqual(sum(line.startswith("not checked: 5 of 5 objects") for line in monitor.lines), 1)
        clock = monitor.clock
        monitor.engine.close()
        monitor.close()
        again = self.monitor(fine, clock)
        self.assertEqual(self.overdue(again), (5, 5))
        again.run(70)
        self.assertEqual(self.overdue(again), (0, 5))

    def test_a_long_pause(self) -> None:
        """Nothing ran for an hour: all are overdue until they are checked, and the log says when they aren't any more."""
        self.write_site([host("web")], [])
        monitor = self.monitor(fine)
        monitor.run(60)
        monitor.pause(3_600)
        self.assertEqual(self.overdue(monitor), (1, 1))
        monitor.run(20)
        self.assertEqual(self.overdue(monitor), (0, 1))
        self.assertEqual([line.split(":")[0] for line in monitor.lines[-2:]], ["not checked", "all objects have results in time again"])

    def test_objects_that_are_promised_nothing(self) -> None:
        """Those that are off, outside of their period, passive without a limit, or put off by an operator; their time begins when they are promised one."""
        night = {"periods": {"never": {"weekdays": {}}, "always": {"weekdays": ALWAYS}}, "objects": {"far": "never", "near": "always"}}
        self.write_site([host("web"), host("far"), host("near"), host("off", enabled=False)], [service("web", "trap", enabled=False)], periods=night,
                        passive={"web;trap": {"only": True}})
        monitor = self.monitor(fine)
        monitor.run(30)
        self.assertEqual(self.overdue(monitor), (0, 2))
        monitor.ask(do="reschedule", name="web", at=monitor.clock.wall() + 3_600)
        monitor.run(1_800)
        self.assertEqual(self.overdue(monitor), (0, 1))
        monitor.ask(do="enable", name="off")
        self.assertEqual(self.overdue(monitor), (0, 2))
        monitor.run(1_900)
        self.assertEqual(self.overdue(monitor), (0, 3))

    def test_passive_results(self) -> None:
        """A result is promised within the freshness, since its command is run then."""
        self.write_site([host("web")], [service("web", "trap", enabled=False)], passive={"web;trap": {"only": True, "freshness": 300}})
        monitor = self.monitor(fine)
        monitor.run(600)
        self.assertEqual(self.overdue(monitor), (0, 2))
        self.lose(monitor)
        monitor.run(300 + 60 + 60 + 10)
        self.assertEqual(self.overdue(monitor), (2, 2))

    def test_checks_that_a_dependency_holds_back(self) -> None:
        """They aren't overdue, also after a restart; time in which no monitor ran makes nothing older."""
        self.write("setup.json", {
            "options": {"interval_length": 1, "host_inter_check_delay_method": "n", "service_inter_check_delay_method": "n"}, "hosts": [host("web")],
            "services": [service("web", "gate", max_check_attempts=1), service("web", "behind")],
            "service_dependencies": [{"dependent": "web;behind", "master": "web;gate", "criteria": "c"}]})
        self.write("commands.json", {name: {"line": "true"} for name in ("web", "web;gate", "web;behind")})
        monitor = self.monitor(lambda name, moment: (10, 2 if name == "web;gate" else 0, ""))
        monitor.run(1_800)
        self.assertLess(len(monitor.starts()["web;behind"]), 3)
        self.assertEqual(self.overdue(monitor), (0, 3))
        clock = monitor.clock
        monitor.engine.close()
        monitor.close()
        clock.now += 3_600_000
        self.assertEqual(self.overdue(self.monitor(fine, clock)), (0, 3))

    def test_a_retry_that_takes_longer_than_a_check(self) -> None:
        """While a problem is soft, the longer interval counts."""
        self.write_site([host("web", retry_interval=600)], [])
        monitor = self.monitor(lambda name, moment: (10, 2, "no answer"))
        for _ in range(20):
            monitor.run(60)
            self.assertEqual(self.overdue(monitor), (0, 1))

    def test_a_first_check_that_is_far_off(self) -> None:
        """It is promised at its own time."""
        self.write_site([host(f"h{number:02}") for number in range(60)], [], {"host_inter_check_delay_method": 30_000})
        monitor = self.monitor(fine)
        for _ in range(60):
            monitor.run(30)
            self.assertEqual(self.overdue(monitor)[0], 0)
        self.assertEqual(monitor.starts()["h59"], [59 * 30_000])
