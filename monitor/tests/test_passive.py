"""Passive results, simulated: their order, freshness over restarts, a burst, a scheduler that ends at a result."""
from typing import Any, List, Tuple
from unittest import mock

from nagsched_monitor.faults import ConversationEnded
from nagsched_monitor.site.site import read_site
from nagsched_monitor.store.store import Write

from .simulated import PROGRAM, SimulatedClock, SimulatedMonitor, SiteTest, fine, host, service


class PassiveResults(SiteTest):
    def site(self) -> SimulatedMonitor:
        trap = service("web", "trap", enabled=False, max_check_attempts=2, check_interval=0)
        self.write_site([host("web")], [trap, service("web", "http")], passive={"web;trap": {"only": True}})
        return self.monitor(lambda name, moment: (2_000, 0, "fine"))

    def test_results_go_in_order(self) -> None:
        monitor = self.site()
        monitor.run(30)
        for code, words in ((2, "one"), (2, "two"), (0, "three")):
            monitor.add_result("web;trap", code, words)
        monitor.run(1)
        told = [(change.state, change.kind, change.words) for _, change in monitor.changes if change.name == "web;trap"]
        self.assertEqual(told, [("CRITICAL", "SOFT", "one"), ("CRITICAL", "HARD", "two"), ("OK", "HARD", "three")])
        self.assertNotIn("web;trap", monitor.starts())
        self.assertEqual(monitor.store.waiting_results(), [])

    def test_one_that_comes_while_the_object_is_out_waits(self) -> None:
        monitor = self.site()
        monitor.run(1)
        self.assertIn("web;http", monitor.objects_with_plugins())
        monitor.add_result("web;http", 1, "slow")
        monitor.run(0.5)
        self.assertEqual(len(monitor.store.waiting_results()), 1)
        monitor.run(2)
        self.assertEqual(monitor.store.waiting_results(), [])
        self.assertEqual([change.words for _, change in monitor.changes if change.name == "web;http"], ["slow"])

    def test_the_next_check_stays_where_it_was(self) -> None:
        monitor = self.site()
        monitor.run(30)
        monitor.add_result("web;http", 0, "by hand")
        monitor.run(60)
        self.assertEqual(monitor.starts()["web;http"], [0, 60_000])

    def test_one_that_waited_over_a_restart_is_reported(self) -> None:
        monitor = self.site()
        monitor.run(30)
        monitor.add_result("web;trap", 2, "late")
        monitor.close()
        after = self.monitor(fine, monitor.clock)
        after.run(1)
        self.assertEqual([change.words for _, change in after.changes], ["late"])

    def test_freshness(self) -> None:
        trap = service("web", "trap", enabled=False, check_interval=0)
        self.write_site([host("web")], [trap], passive={"web;trap": {"only": True, "freshness": 90}})
        monitor = self.monitor(lambda name, moment: (10, 3 if "trap" in name else 0, "stale"))
        monitor.run(60)
        monitor.add_result("web;trap", 0, "fresh")
        monitor.run(240)
        first, second = monitor.starts()["web;trap"]
        self.assertTrue(150_000 <= first <= 151_000 and 90_000 <= second - first <= 92_000, (first, second))

    def test_freshness_while_its_command_is_awaited(self) -> None:
        """It is run once, for any duration, and while its scheduler can't be started."""
        trap = service("web", "trap", enabled=False, check_interval=0)
        self.write_site([host("web")], [trap], passive={"web;trap": {"only": True, "freshness": 90}})
        monitor = self.monitor(lambda name, moment: (8_000, 0, "fine"))
        monitor.run(70)
        with mock.patch.object(monitor.scheduling, "_converse", side_effect=ConversationEnded("no room")):
            monitor.kill_schedulers()
            monitor.run(50)
        monitor.run(20)
        self.assertEqual(len(monitor.starts()["web;trap"]), 1)
        self.assertEqual(len([line for line in monitor.lines if "its command is run" in line]), 1)

    def started_over_restarts(self, is_given: bool, *spans: Tuple[int, int]) -> List[int]:
        """When the command of an object runs that has to be fresh for 90 seconds, in seconds of monitors that each run and then rest for these times."""
        trap = service("web", "trap", enabled=False, check_interval=0)
        self.write_site([host("web")], [trap], passive={"web;trap": {"only": True, "freshness": 90}})
        clock, passed = SimulatedClock(), 0
        started: List[int] = []
        for runs, rests in spans:
            monitor, begun = self.monitor(fine, clock), clock.now
            if is_given and passed == 0:
                monitor.add_result("web;trap", 0, "fresh")
            monitor.run(runs)
            started += [passed + (moment - begun) // 1000 for moment, job in monitor.runners.started if job.name == "web;trap"]
            monitor.engine.close()
            monitor.close()
            clock.now, passed = clock.now + rests * 1000, passed + runs
        return started

    def test_freshness_over_restarts(self) -> None:
        """A result is awaited since the last one, over any number of starts of the monitor, but not while no monitor runs."""
        for spans in (((30, 0),) * 5, ((60, 600), (60, 0))):
            with self.subTest(spans=spans):
                (started,) = self.started_over_restarts(True, *spans)
                self.assertTrue(90 <= started <= 92, started)
                (self.folder / "monitor.db").unlink()

    def test_freshness_of_one_that_never_had_a_result(self) -> None:
        (started,) = self.started_over_restarts(False, *((30, 0),) * 5)
        self.assertTrue(90 <= started <= 92, started)

    def test_a_scheduler_that_ends_at_a_result(self) -> None:
        """It ends after the report was stored, and before it answers: the result counts once."""
        monitor = self.site()
        monitor.run(30)
        write = monitor.store.write

        def killing(*writes: Write) -> None:
            write(*writes)
            if monitor.store.waiting_results() == []:
                setattr(monitor.store, "write", write)
                monitor.kill_schedulers()

        monitor.add_result("web;trap", 2, "door open")
        setattr(monitor.store, "write", killing)
        monitor.run(5)
        self.assertEqual(len([line for line in monitor.lines if "it is started again" in line]), 1)
        standing = monitor.scheduling.states.objects["web;trap"].standing
        self.assertEqual(standing and (standing.state, standing.kind, standing.attempt), ("CRITICAL", "SOFT", 1))
        self.assertEqual(monitor.store.waiting_results(), [])

    def slow_down(self, monitor: SimulatedMonitor) -> None:
        """Each write takes 20 milliseconds from now on."""
        write = monitor.store.write

        def slow(*writes: Write) -> None:
            monitor.clock.now += 20
            write(*writes)

        setattr(monitor.store, "write", slow)

    def test_a_burst(self) -> None:
        """If each write takes 20 milliseconds, 100 results of one object take one write each, no turn is long, and they stay in their order."""
        monitor = self.site()
        monitor.run(30)
        for number in range(100):
            monitor.add_result("web;trap", 2 * (number % 2), f"number {number}")
        self.slow_down(monitor)
        turns = 0
        while monitor.store.waiting_results():
            begun = monitor.clock.now
            wanted = monitor.engine.turn()
            self.assertLess(monitor.clock.now - begun, 500)
            self.assertTrue(wanted <= monitor.clock.now or not monitor.store.waiting_results())
            turns += 1
        self.assertTrue(100 <= turns <= 102, turns)
        monitor.take_changes()
        told = [change.words for _, change in monitor.changes if change.name == "web;trap"]
        self.assertEqual(told, [f"number {number}" for number in range(1, 100)])

    def test_freshness_in_a_burst(self) -> None:
        """A result that waits after others has come: the command of its object isn't run."""
        traps = [service("web", name, enabled=False, check_interval=0) for name in ("one", "two")]
        self.write_site([host("web")], traps, passive={"web;one": {"only": True}, "web;two": {"only": True, "freshness": 90}})
        monitor = self.monitor(fine)
        monitor.run(89)
        for number in range(20):
            monitor.add_result("web;one", 0, f"number {number}")
        monitor.add_result("web;two", 0, "fresh")
        monitor.pause(2)
        self.slow_down(monitor)
        monitor.run(5)
        self.assertEqual((monitor.store.waiting_results(), "web;two" in monitor.starts()), ([], False))
        self.assertFalse([line for line in monitor.lines if "its command is run" in line])

    def test_results_of_an_object_that_is_gone(self) -> None:
        """They are dropped with a line, and aren't reported when it comes back."""
        def write(services: List[Any]) -> None:
            self.write_site([host("web")], services)

        write([service("web", "http", max_check_attempts=1)])
        monitor = self.monitor(lambda name, moment: (30_000, 0, "fine"))
        monitor.run(10)
        monitor.add_result("web;http", 2, "of last spring")
        monitor.run(1)
        write([])
        monitor.engine.reload(read_site(self.folder, PROGRAM))
        monitor.run(100)
        self.assertEqual(monitor.store.waiting_results(), [])
        self.assertIn("web;http: its passive results are dropped, since it isn't part of the site any more", monitor.lines)
        write([service("web", "http", max_check_attempts=1)])
        monitor.engine.reload(read_site(self.folder, PROGRAM))
        monitor.run(100)
        self.assertEqual(monitor.changes, [])

    def test_results_of_an_object_that_is_gone_at_a_start(self) -> None:
        self.write_site([host("web")], [service("web", "http")])
        monitor = self.monitor(lambda name, moment: (30_000, 0, "fine"))
        monitor.run(10)
        monitor.add_result("web;http", 2, "of last spring")
        monitor.close()
        self.write_site([host("web")], [])
        after = self.monitor(fine, monitor.clock)
        after.run(100)
        self.assertEqual(after.store.waiting_results(), [])
        self.assertIn("web;http: its passive results are dropped, since it isn't part of the site any more", after.lines)

    def test_freshness_of_an_object_that_a_reload_brings(self) -> None:
        """It is awaited from then on, no matter how long the monitor has run."""
        self.write_site([host("web")], [])
        monitor = self.monitor(fine)
        monitor.run(300)
        trap = service("web", "trap", enabled=False, check_interval=0)
        self.write_site([host("web")], [trap], passive={"web;trap": {"only": True, "freshness": 90}})
        monitor.engine.reload(read_site(self.folder, PROGRAM))
        monitor.run(88)
        self.assertNotIn("web;trap", monitor.starts())
        monitor.run(5)
        self.assertEqual(len(monitor.starts()["web;trap"]), 1)

    def test_as_many_checks_run_as_may(self) -> None:
        """A result waits until one ends; no command is run for an object that has none."""
        trap = service("web", "trap", enabled=False, max_check_attempts=1, check_interval=0)
        self.write_site([host("web")], [service("web", "slow"), trap], {"max_concurrent_checks": 1}, passive={"web;trap": {"only": True}},
                        commands={"web": {"line": "true"}, "web;slow": {"line": "true"}})
        monitor = self.monitor(lambda name, moment: (20_000 if "slow" in name else 10, 0, "fine"))
        monitor.run(5)
        monitor.add_result("web;trap", 2, "door open")
        monitor.run(5)
        self.assertEqual((monitor.changes, len(monitor.store.waiting_results())), ([], 1))
        monitor.run(12)
        self.assertEqual([(change.name, change.words) for _, change in monitor.changes], [("web;trap", "door open")])
        self.assertNotIn("web;trap", monitor.starts())

    def test_many_objects_at_once(self) -> None:
        """The results of 200 objects are reported with two writes."""
        traps = [service("web", f"t{number}", enabled=False, check_interval=0) for number in range(200)]
        self.write_site([host("web", check_interval=3600)], traps)
        monitor = self.monitor(fine)
        monitor.run(30)
        for trap in traps:
            monitor.add_result(f"web;{trap['description']}", 1, "said")
        write, writes = monitor.store.write, []

        def counted(*each: Write) -> None:
            writes.append(each)
            write(*each)

        setattr(monitor.store, "write", counted)
        monitor.engine.turn()
        monitor.engine.turn()
        self.assertEqual((monitor.store.waiting_results(), len(writes)), ([], 2))
